void driver_start(void);
void driver_stop(void);
void driver_selftest(void);

void log_level(void) { }

void on_level(void)
{
  log_level();
  driver_stop();
}

void service(void)
{
  driver_selftest();
}

void control_step(void)
{
  driver_start();
  log_level();
  driver_stop();
}
