#ifndef UART_H
#define UART_H

#include "types.h"

#define UART_OVERRUN 0x01u
#define UART_NOISE 0x02u

/* What went wrong since it was asked last: bits of UART_. */
extern u8 uart_errors;

void uart_init(void);
void uart_interrupt(void);

#endif
