#include "scheduler.h"
#include "diagnostics.h"

#define JOBS 4u

struct entry {
  job run;
  u8 period;
  u8 left;
  _Bool due;
};

static struct entry jobs[JOBS];
static u8 count;

void scheduler_init(void)
{
  count = 0;
}

_Bool scheduler_add(job run, u8 period)
{
  struct entry *entry;

  if (count == JOBS)
    return 0;
  entry = &jobs[count];
  entry->run = run;
  entry->period = period;
  entry->left = period;
  entry->due = 0;
  count++;
  return 1;
}

/* The interrupt of the timer. */
void scheduler_tick(void)
{
  for (u8 i = 0; i < count; i++) {
    struct entry *entry = &jobs[i];
    entry->left--;
    if (entry->left != 0)
      continue;
    entry->left = entry->period;
    if (entry->due) {
      diagnostics.overruns++;
      diagnostics.faults |= FAULT_OVERRUN;
    }
    entry->due = 1;
  }
}

/* The main loop: each job that is due. */
void scheduler_run(void)
{
  for (u8 i = 0; i < count; i++) {
    if (jobs[i].due) {
      jobs[i].due = 0;
      jobs[i].run();
    }
  }
}
