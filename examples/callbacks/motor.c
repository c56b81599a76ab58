#include "motor.h"

#define CURRENT_LIMIT 800u
#define STEPS_TO_END 3u

enum direction { STAND, UP, DOWN };

void port_motor(int direction);

static enum direction direction;
static u8 steps;

static void up(enum state from)
{
  direction = UP;
  if (from == CLOSING)
    steps = (u8)(STEPS_TO_END - steps);
  else
    steps = 0;
  port_motor(direction);
}

static void down(enum state from)
{
  direction = DOWN;
  if (from == OPENING)
    steps = (u8)(STEPS_TO_END - steps);
  else
    steps = 0;
  port_motor(direction);
}

static void stand(enum state to)
{
  if (to == OPEN || to == CLOSED)
    direction = STAND;
  port_motor(direction);
}

void motor_init(void)
{
  direction = STAND;
  machine_hook(&on_enter, OPENING, up);
  machine_hook(&on_enter, CLOSING, down);
  machine_hook(&on_leave, OPENING, stand);
  machine_hook(&on_leave, CLOSING, stand);
}

/* Every tenth of a second, with the current that the motor takes. */
void motor_step(u16 current)
{
  if (machine_state != OPENING && machine_state != CLOSING)
    return;
  if (current > CURRENT_LIMIT) {
    machine_event(EVENT_STUCK);
    return;
  }
  steps++;
  if (steps == STEPS_TO_END)
    machine_event(EVENT_END);
}
