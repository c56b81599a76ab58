#include "watch.h"
#include "diagnostics.h"
#include "pressure.h"

#define VERY_HIGH (PRESSURE_HIGHEST + 50u)

void board_kick(void);
void board_lamp(_Bool on);

/* The watchdog is kept quiet while all jobs are in time; the lamp says that the pressure was much too high. */
void watch_job(void)
{
  u8 faults = diagnostics.faults;

  if ((faults & FAULT_OVERRUN) == 0)
    board_kick();
  if ((faults & FAULT_RANGE) != 0)
    board_lamp(diagnostics.worst > VERY_HIGH);
}
