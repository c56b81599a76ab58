#ifndef TYPES_H
#define TYPES_H

/* Headers of the system are not read, so the widths are named here. */
typedef unsigned char u8;
typedef unsigned short u16;
typedef short s16;
typedef int s32;
typedef unsigned int u32;

#endif
