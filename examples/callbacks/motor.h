#ifndef MOTOR_H
#define MOTOR_H

#include "machine.h"

void motor_init(void);
void motor_step(u16 current);

#endif
