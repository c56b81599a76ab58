#include "adc.h"
#include "heater.h"
#include "sensor.h"
#include "settings.h"

#define CHANNEL_TANK 3u
#define GAIN 4
#define LOWEST 50
#define HIGHEST 900

struct settings settings = {400, 0};

static s32 tank;
static u16 broken;

static u8 duty_of(s32 error)
{
  if (error <= 0)
    return 0;
  if (error * GAIN >= (s32)HEATER_FULL)
    return HEATER_FULL;
  return (u8)(error * GAIN);
}

/* A new set point, from the panel. */
void control_want(s16 tenths)
{
  if (tenths >= LOWEST && tenths <= HIGHEST)
    settings.wanted = tenths;
}

/* The service sets what the probe of this tank is off by. */
void control_calibrate(s16 tenths)
{
  settings.offset = tenths;
}

void control_init(void)
{
  adc_init();
  sensor_request(CHANNEL_TANK);
}

/* Every tenth of a second. */
void control_step(void)
{
  switch (sensor_read(&tank)) {
  case SENSOR_GOOD:
    broken = 0;
    heater_set(duty_of(settings.wanted - tank));
    sensor_request(CHANNEL_TANK);
    break;
  case SENSOR_BROKEN:
    broken++;
    heater_set(0);
    sensor_request(CHANNEL_TANK);
    break;
  default:
    break;
  }
}
