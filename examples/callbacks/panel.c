#include "motor.h"

#define LAMP_OFF 0u
#define LAMP_GREEN 0x01u
#define LAMP_YELLOW 0x02u

void port_lamps(u8 lamps);

static u8 lamps;
static u16 rides;

static void show(u8 set, u8 clear)
{
  lamps = (u8)((lamps & ~clear) | set);
  port_lamps(lamps);
}

static void opened(enum state from)
{
  show(LAMP_GREEN, LAMP_YELLOW);
  if (from == OPENING)
    rides++;
}

static void shut(enum state to)
{
  if (to == CLOSING)
    show(LAMP_YELLOW, LAMP_GREEN);
}

void panel_init(void)
{
  lamps = LAMP_OFF;
  rides = 0;
  motor_init();
  machine_hook(&on_enter, OPEN, opened);
  machine_hook(&on_leave, OPEN, shut);
}

/* The button at the gate, or the beam in it. */
void panel_button(void)
{
  machine_event(EVENT_BUTTON);
}

void panel_beam(void)
{
  machine_event(EVENT_BEAM);
}
