#include "adc.h"

#define PIN_OPEN 0x8000u
#define PIN_VALUE 0x0fffu

/* What stands at the pin of a channel: 12 bits, and the highest bit for a broken wire. */
u16 board_convert(u8 channel);

struct adc_registers adc;

void adc_init(void)
{
  adc.control = 0;
  adc.status = 0;
}

/* The end of a conversion. */
void adc_interrupt(void)
{
  u16 pin;

  if ((adc.control & ADC_ENABLE) == 0)
    return;
  pin = board_convert((u8)(adc.control & ADC_CHANNEL));
  if ((pin & PIN_OPEN) != 0) {
    adc.status = ADC_DONE | ADC_OPEN;
  } else {
    adc.data = (u16)(pin & PIN_VALUE);
    adc.status = ADC_DONE;
  }
}
