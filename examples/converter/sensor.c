#include "sensor.h"
#include "adc.h"
#include "settings.h"

#define WINDOW 4u
#define ZERO_TENTHS 400
#define FULL_TENTHS 1650
#define FULL_SCALE 4095

static u16 window[WINDOW];
static u8 filled;
static u8 next;

static void keep(u16 value)
{
  window[next] = value;
  next = (u8)((next + 1u) % WINDOW);
  if (filled < WINDOW)
    filled++;
}

static s32 mean(void)
{
  u32 sum = 0;

  for (u8 i = 0; i < filled; i++)
    sum += window[i];
  return (s32)(sum / filled);
}

/* Starts a conversion: the converter takes the channel from its control register. */
void sensor_request(u8 channel)
{
  adc.status = 0;
  adc.control = (u8)(ADC_ENABLE | (channel & ADC_CHANNEL));
}

enum sensor_answer sensor_read(s32 *tenths)
{
  u8 status = adc.status;

  if ((status & ADC_DONE) == 0)
    return SENSOR_WAIT;
  if ((status & ADC_OPEN) != 0) {
    filled = 0;
    return SENSOR_BROKEN;
  }
  keep(adc.data);
  *tenths = mean() * FULL_TENTHS / FULL_SCALE - ZERO_TENTHS + settings.offset;
  return SENSOR_GOOD;
}
