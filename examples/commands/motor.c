#include "command.h"
#include "uart.h"

#define SPEED_FIRST_LIMIT 500u

void port_motor(u16 speed);

static u16 limit = SPEED_FIRST_LIMIT;
static u16 speed;

void motor_init(void)
{
  uart_init();
  limit = SPEED_FIRST_LIMIT;
  speed = 0;
}

static void run(void)
{
  switch (command.kind) {
  case COMMAND_MOVE:
    if (command.has_value)
      speed = command.value > limit ? limit : command.value;
    break;
  case COMMAND_LIMIT:
    if (command.has_value)
      limit = command.value;
    break;
  case COMMAND_STOP:
    speed = 0;
    break;
  default:
    break;
  }
  port_motor(speed);
}

/* The main loop: stops where a line can't be trusted, then runs all commands that came in. */
void motor_task(void)
{
  if (uart_errors != 0) {
    speed = 0;
    port_motor(speed);
    uart_errors = 0;
    command_skip();
  }
  while (command_next())
    run();
}
