/* Samples of a sensor, and how good they are. */
#include "sensor.h"

struct sample {
    int value;
    unsigned char age;
};

int read_adc(void);

static struct sample last[SAMPLES];
static int place;

void sensor_init(void)
{
    int i;
    for (i = 0; i < SAMPLES; i++) {
        last[i].value = 0;
        last[i].age = 255;
    }
    place = 0;
}

void sensor_read(void)
{
    static unsigned reads;
    int i;
    for (i = 0; i < SAMPLES; i++) {
        if (last[i].age < 255) last[i].age++;
    }
    last[place].value = read_adc();
    last[place].age = 0;
    place = (place + 1) % SAMPLES;
    reads++;
}

int sensor_mean(void)
{
    int i, sum = 0, count = 0;
    for (i = 0; i < SAMPLES; i++) {
        const struct sample *one = &last[i];
        if (one->age < SAMPLES) {
            sum += one->value;
            count++;
        }
    }
    return count > 0 ? sum / count : 0;
}

enum quality sensor_quality(void)
{
    int i, fresh = 0;
    for (i = 0; i < SAMPLES; i++) {
        if (last[i].age == 0) fresh++;
    }
    if (fresh == 0) return LOST;
    return sensor_mean() > 80 ? NOISY : GOOD;
}
