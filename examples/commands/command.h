#ifndef COMMAND_H
#define COMMAND_H

#include "types.h"

enum command_kind { COMMAND_NONE, COMMAND_MOVE, COMMAND_STOP, COMMAND_LIMIT };

struct command {
  enum command_kind kind;
  u16 value;
  _Bool has_value;
};

/* The command that command_next found last. */
extern struct command command;

void command_skip(void);
_Bool command_next(void);

#endif
