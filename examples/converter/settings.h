#ifndef SETTINGS_H
#define SETTINGS_H

#include "types.h"

/* Temperatures are in tenths of a degree. */
struct settings {
  s32 wanted;
  s32 offset;
};

extern struct settings settings;

#endif
