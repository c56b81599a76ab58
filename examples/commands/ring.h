#ifndef RING_H
#define RING_H

#include "types.h"

#define RING_SIZE 8u
#define RING_MASK (RING_SIZE - 1u)

/* A ring of bytes: the interrupt writes at the head, the main loop reads at the tail. */
struct ring {
  u8 bytes[RING_SIZE];
  u8 head;
  u8 tail;
};

extern struct ring received;

static inline u8 ring_after(u8 at)
{
  return (u8)((at + 1u) & RING_MASK);
}

static inline _Bool ring_is_empty(void)
{
  return received.head == received.tail;
}

#endif
