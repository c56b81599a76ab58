#include "pressure.h"
#include "diagnostics.h"

u16 board_pressure(void);
void board_valve(_Bool open);

#define PRESSURE_OPEN 700u

void pressure_job(void)
{
  u16 value = board_pressure();

  if (value > PRESSURE_HIGHEST) {
    diagnostics.faults |= FAULT_RANGE;
    if (value > diagnostics.worst)
      diagnostics.worst = value;
  }
  board_valve(value >= PRESSURE_OPEN);
}
