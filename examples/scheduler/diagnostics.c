#include "diagnostics.h"

struct diagnostics diagnostics;

/* A request of the service. */
u16 diagnostics_read(u8 item)
{
  switch (item) {
  case ITEM_FAULTS:
    return diagnostics.faults;
  case ITEM_OVERRUNS:
    return diagnostics.overruns;
  case ITEM_WORST:
    return diagnostics.worst;
  default:
    return 0;
  }
}

void diagnostics_clear(void)
{
  diagnostics.faults = 0;
  diagnostics.overruns = 0;
  diagnostics.worst = 0;
}
