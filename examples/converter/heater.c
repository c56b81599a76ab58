#include "heater.h"

#define HEATER_STEP 64u

void board_pwm(u8 duty);

static u8 now;

/* The heater is switched off at once, and goes up by steps. */
void heater_set(u8 duty)
{
  if (duty > now + HEATER_STEP)
    now = (u8)(now + HEATER_STEP);
  else
    now = duty;
  board_pwm(now);
}
