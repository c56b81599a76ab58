#ifndef DIAGNOSTICS_H
#define DIAGNOSTICS_H

#include "types.h"

#define FAULT_OVERRUN 0x01u
#define FAULT_RANGE 0x02u

/* What all components write into, and the service reads. */
struct diagnostics {
  u8 faults;
  u16 overruns;
  u16 worst;
};

extern struct diagnostics diagnostics;

enum item { ITEM_FAULTS, ITEM_OVERRUNS, ITEM_WORST };

u16 diagnostics_read(u8 item);
void diagnostics_clear(void);

#endif
