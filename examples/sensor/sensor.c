#include "sensor.h"

struct state st;

int read_adc(int ch);

static void (*handler)(int);

void on_sample(void (*cb)(int)) { handler = cb; }

void sample(int ch)
{
  int v = read_adc(ch);
  st.valid = v >= 0;
  if (st.valid) {
    st.raw = (uint32_t)v;
    if (handler != 0)
      handler(v);
  }
}

int mean(const int *window, int n)
{
  int sum = 0;
  for (int i = 0; i < n; i++)
    sum += window[i];
  return sum / n;
}
