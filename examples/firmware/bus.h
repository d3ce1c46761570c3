/* The bench side: a controller in its block, the other nodes of the bus, and the interrupts. */
#ifndef BUS_H
#define BUS_H

#include <stdbool.h>
#include <stddef.h>
#include <stdint.h>

#include "gate_can.h"

#define BOARD BXCAN_STM32F334

enum bus_condition {
    BUS_GOOD,
    BUS_ALONE,  /* no other node is there to acknowledge */
    BUS_SHORTED /* always dominant */
};

/* A hardware reset, and a bus without traffic. */
void bus_power_on(void);

void bus_is(enum bus_condition condition);

/* Another node wants to send; its frame takes part in arbitration from the next bus_pass on. */
void bus_wants(const char *node, const struct can_frame *frame);

/* One thing happens on the bus: a frame of the gate or of another node, or else 11 recessive bits. */
void bus_pass(void);

/* The same n times. */
void bus_passes(unsigned n);

/* A frame as a word, as in 312#0A0B (standard), 18A50005#01 (extended) or 312#R (remote). */
const char *frame_text(const struct can_frame *frame);

/* The state block, to be saved or handed to calls; bus_refresh tells the bench that it was changed from outside. */
uint8_t *bus_block(void);
size_t bus_block_length(void);
void bus_refresh(void);

/* Prints a line of the story; equal lines in a row become one. */
void tell(const char *who, const char *format, ...);
void tell_rest(void);

/* Says on standard error what is not as it should be; bus_faults counts. */
void fault(const char *format, ...);
unsigned bus_faults(void);

/* How often each handler was called, in the order TX, RX0, RX1, SCE. */
unsigned bus_handled(unsigned line);

#endif
