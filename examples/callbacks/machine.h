#ifndef MACHINE_H
#define MACHINE_H

#include "types.h"

enum state { CLOSED, OPENING, OPEN, CLOSING, STATES };
enum event { EVENT_BUTTON, EVENT_END, EVENT_BEAM, EVENT_STUCK, EVENTS };

/* What is called when a state is entered or left; the other state is handed over. */
typedef void (*handler)(enum state other);

struct hooks {
  handler of[STATES];
};

extern struct hooks on_enter;
extern struct hooks on_leave;
extern enum state machine_state;

void machine_hook(struct hooks *hooks, enum state state, handler call);
void machine_event(enum event event);

#endif
