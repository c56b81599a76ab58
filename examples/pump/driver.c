void on_level(void);

void valve_open(void) { }
void valve_close(void) { }

void driver_stop(void)
{
  valve_close();
}

void driver_start(void)
{
  valve_open();
  on_level();
}

void driver_selftest(void)
{
  driver_start();
  driver_stop();
}
