/* What the driver asks of the board that it runs on. On the gate these are a few lines over the chip's registers; here bus.c has
 * them, over the calls of bxcan.h. */
#ifndef PORT_H
#define PORT_H

#include <stdint.h>

uint32_t can_read(uint32_t offset);
void can_write(uint32_t offset, uint32_t word);

void board_wait(void);  /* a short while passes; for loops that wait for the controller */
void irq_disable(void); /* may be nested */
void irq_enable(void);

#endif
