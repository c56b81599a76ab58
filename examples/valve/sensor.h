/* What the sensor offers. */
#ifndef SENSOR_H
#define SENSOR_H

#define SAMPLES 4

enum quality { GOOD, NOISY, LOST };

void sensor_init(void);
void sensor_read(void);
int sensor_mean(void);
enum quality sensor_quality(void);

#endif
