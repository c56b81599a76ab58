#ifndef SCHEDULER_H
#define SCHEDULER_H

#include "types.h"

typedef void (*job)(void);

void scheduler_init(void);
_Bool scheduler_add(job run, u8 period);
void scheduler_tick(void);
void scheduler_run(void);

#endif
