#include "machine.h"

/* By state and event; a state that stays as it is stands for an event that means nothing there. */
static const enum state next[STATES][EVENTS] = {
  {OPENING, CLOSED, CLOSED, CLOSED},
  {CLOSING, OPEN, OPENING, CLOSING},
  {CLOSING, OPEN, OPEN, OPEN},
  {OPENING, CLOSED, OPENING, OPENING},
};

struct hooks on_enter;
struct hooks on_leave;

enum state machine_state = CLOSED;

void machine_hook(struct hooks *hooks, enum state state, handler call)
{
  hooks->of[state] = call;
}

void machine_event(enum event event)
{
  enum state from = machine_state;
  enum state to = next[from][event];

  if (to == from)
    return;
  if (on_leave.of[from] != 0)
    on_leave.of[from](to);
  machine_state = to;
  if (on_enter.of[to] != 0)
    on_enter.of[to](from);
}
