/* A valve that follows the mean of the sensor. */
#include "sensor.h"

int valve;
static int demanded = 10;

void init(void)
{
    sensor_init();
    valve = 0;
}

static int limited(int value)
{
    if (value < 0) return 0;
    if (value > 100) return 100;
    return value;
}

int step(int demand)
{
    demanded = limited(demand);
    sensor_read();
    switch (sensor_quality()) {
    case GOOD:
        valve = limited(valve + demanded - sensor_mean());
        break;
    case NOISY:
        valve = limited(valve - 1);
        break;
    default:
        valve = 0;
    }
    return valve;
}
