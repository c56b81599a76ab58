#include "uart.h"
#include "ring.h"

#define NOISE_BIT 0x100u
#define DATA_BITS 0xffu

/* The data register of the port: a byte, and above it the bit of a broken frame. */
u16 port_read(void);

u8 uart_errors;

struct ring received;

void uart_init(void)
{
  received.head = 0;
  received.tail = 0;
  uart_errors = 0;
}

/* A byte came in. */
void uart_interrupt(void)
{
  u16 word = port_read();
  u8 after = ring_after(received.head);

  if ((word & NOISE_BIT) != 0) {
    uart_errors |= UART_NOISE;
  } else if (after == received.tail) {
    uart_errors |= UART_OVERRUN;
  } else {
    received.bytes[received.head] = (u8)(word & DATA_BITS);
    received.head = after;
  }
}
