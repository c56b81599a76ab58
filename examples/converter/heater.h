#ifndef HEATER_H
#define HEATER_H

#include "types.h"

#define HEATER_FULL 255u

void heater_set(u8 duty);

#endif
