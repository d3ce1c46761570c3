/* The CAN driver of a gate. It knows the chip's registers and nothing of the bench. */
#ifndef GATE_CAN_H
#define GATE_CAN_H

#include <stdbool.h>
#include <stdint.h>

struct can_frame {
    uint32_t id; /* 11 bits, or 29 where extended */
    bool extended;
    bool remote;
    uint8_t length;
    uint8_t data[8];
};

struct can_received {
    struct can_frame frame;
    uint8_t filter; /* number of the filter that took it, within its FIFO */
    uint16_t time;  /* the controller's timer when it came, in bit times */
};

struct can_counts {
    unsigned sent;       /* by interrupt */
    unsigned not_sent;   /* dropped before they were sent */
    unsigned overruns;   /* of both FIFOs */
    unsigned full_rings; /* received and no room in the ring */
    unsigned warnings;   /* SCE interrupts by errors, bus-off among them */
};

enum gate_can_result { GATE_CAN_OK, GATE_CAN_TIMEOUT, GATE_CAN_FULL };

/* What the gate listens to: 0x310 to 0x317, the turbidity probes, in FIFO 0; the orders to this gate and to all in FIFO 1. */
#define PROBE_ID 0x310u
#define ORDER_ID 0x18A50005u
#define ORDER_ALL_ID 0x18A500FFu

enum gate_can_result gate_can_init(void);

/* Sends and waits for the end; gives up after some tries. Only before gate_can_interrupts. */
enum gate_can_result gate_can_send(const struct can_frame *frame);

/* From now on the handlers work. */
void gate_can_interrupts(void);

/* Puts a frame where the TX handler takes it from. */
enum gate_can_result gate_can_queue(const struct can_frame *frame);

/* The oldest frame that the handler of a FIFO has stored; false: none. */
bool gate_can_received(unsigned fifo, struct can_received *received);

/* True from the SCE interrupt by bus-off to the end of gate_can_recover. */
bool gate_can_bus_off(void);

/* Drops what waits to be sent, and waits until the controller is back on the bus. */
enum gate_can_result gate_can_recover(void);

struct can_counts gate_can_counts(void);

/* The handlers, under the names of the vector table. */
void CAN_TX_IRQHandler(void);
void CAN_RX0_IRQHandler(void);
void CAN_RX1_IRQHandler(void);
void CAN_SCE_IRQHandler(void);

#endif
