#include "command.h"
#include "ring.h"

#define VALUE_LIMIT 999u

enum parser_state { AT_LETTER, IN_NUMBER, SKIPPING };

struct command command;

static enum parser_state state;

/* What is left of this line is no command. */
void command_skip(void)
{
  state = SKIPPING;
}

static enum command_kind kind_of(u8 letter)
{
  switch (letter) {
  case 'M':
    return COMMAND_MOVE;
  case 'S':
    return COMMAND_STOP;
  case 'L':
    return COMMAND_LIMIT;
  default:
    return COMMAND_NONE;
  }
}

static void letter(u8 byte)
{
  enum command_kind kind = kind_of(byte);

  if (kind == COMMAND_NONE) {
    state = SKIPPING;
    return;
  }
  command.kind = kind;
  command.has_value = 0;
  state = IN_NUMBER;
}

static void digit(u8 byte)
{
  u16 value = (u16)(byte - '0');

  if (command.has_value)
    value = (u16)(command.value * 10u + value);
  if (byte < '0' || byte > '9' || value > VALUE_LIMIT) {
    state = SKIPPING;
    return;
  }
  command.value = value;
  command.has_value = 1;
}

/* Takes a byte of a line such as M120; says whether a command ends with it. */
static _Bool take(u8 byte)
{
  if (byte == '\n') {
    _Bool whole = state == IN_NUMBER;
    state = AT_LETTER;
    return whole;
  }
  switch (state) {
  case AT_LETTER:
    letter(byte);
    break;
  case IN_NUMBER:
    digit(byte);
    break;
  default:
    break;
  }
  return 0;
}

_Bool command_next(void)
{
  while (!ring_is_empty()) {
    u8 byte = received.bytes[received.tail];
    received.tail = ring_after(received.tail);
    if (take(byte))
      return 1;
  }
  return 0;
}
