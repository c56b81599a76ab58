#include "pressure.h"
#include "scheduler.h"
#include "watch.h"

void board_halt(void);

void system_init(void)
{
  scheduler_init();
  if (!scheduler_add(pressure_job, 1))
    board_halt();
  if (!scheduler_add(watch_job, 2))
    board_halt();
}
