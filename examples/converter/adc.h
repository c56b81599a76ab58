#ifndef ADC_H
#define ADC_H

#include "types.h"

#define ADC_ENABLE 0x80u
#define ADC_CHANNEL 0x07u

#define ADC_DONE 0x01u
#define ADC_OPEN 0x02u

/* The registers of the analogue converter, as its device block lays them out. */
struct adc_registers {
  u8 control;
  u8 status;
  u16 data;
};

extern struct adc_registers adc;

void adc_init(void);
void adc_interrupt(void);

#endif
