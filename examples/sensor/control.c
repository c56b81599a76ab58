#include "sensor.h"

#define LAST 4

static int last[LAST];
static int at;
int demand;

static void note(int v)
{
  last[at] = v;
  at = (at + 1) % LAST;
}

void init(void) { on_sample(note); }

void step(int ch)
{
  sample(ch);
  if (st.valid)
    demand = (int)st.raw + mean(last, LAST);
}
