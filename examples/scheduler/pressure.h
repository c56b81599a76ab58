#ifndef PRESSURE_H
#define PRESSURE_H

#include "types.h"

#define PRESSURE_HIGHEST 900u

void pressure_job(void);

#endif
