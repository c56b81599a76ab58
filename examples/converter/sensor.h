#ifndef SENSOR_H
#define SENSOR_H

#include "types.h"

enum sensor_answer { SENSOR_WAIT, SENSOR_GOOD, SENSOR_BROKEN };

void sensor_request(u8 channel);
enum sensor_answer sensor_read(s32 *tenths);

#endif
