#ifndef SENSOR_H
#define SENSOR_H

typedef unsigned int uint32_t;

struct state {
  uint32_t raw;
  int valid;
};

extern struct state st;

void on_sample(void (*cb)(int));
void sample(int ch);
int mean(const int *window, int n);

#endif
