#include "gate_can.h"

#include "bxcan.h" /* offsets of the registers */
#include "can_bits.h"
#include "port.h"

#define MODE_WAITS 100u     /* for INAK */
#define SEND_WAITS 6u       /* for a frame to be sent */
#define RECOVERY_WAITS 200u /* for 128 times 11 recessive bits */
#define RING 8u

/* 500 kbit/s from 36 MHz: prescaler 4, 18 quanta, sampled after the 16th; SJW 1 */
#define BIT_TIMING (0u << 24 | (2u - 1u) << 20 | (15u - 1u) << 16 | (4u - 1u))

struct ring_out {
    struct can_frame frames[RING];
    unsigned first, count;
};

struct ring_in {
    struct can_received frames[RING];
    unsigned first, count;
};

static struct ring_out waiting;
static struct ring_in received[2];
static volatile bool bus_off;
static struct can_counts counts;

static enum gate_can_result wait_for(uint32_t offset, uint32_t mask, uint32_t wanted, unsigned waits)
{
    while ((can_read(offset) & mask) != wanted) {
        if (waits-- == 0)
            return GATE_CAN_TIMEOUT;
        board_wait();
    }
    return GATE_CAN_OK;
}

/* ---- initialization ---- */

static enum gate_can_result enter_initialization(void)
{
    can_write(BXCAN_MCR, (can_read(BXCAN_MCR) & ~CAN_MCR_SLEEP) | CAN_MCR_INRQ);
    return wait_for(BXCAN_MSR, CAN_MSR_INAK, CAN_MSR_INAK, MODE_WAITS);
}

static enum gate_can_result leave_initialization(void)
{
    can_write(BXCAN_MCR, can_read(BXCAN_MCR) & ~CAN_MCR_INRQ);
    return wait_for(BXCAN_MSR, CAN_MSR_INAK, 0, MODE_WAITS);
}

/* Bank 0: a mask for the probes, into FIFO 0. Bank 1: a list of two orders, into FIFO 1. Both of 32 bits. */
static void set_filters(void)
{
    can_write(BXCAN_FMR, can_read(BXCAN_FMR) | CAN_FMR_FINIT);
    can_write(BXCAN_FS1R, 3u);
    can_write(BXCAN_FM1R, 2u);
    can_write(BXCAN_FFA1R, 2u);
    can_write(BXCAN_FR1(0), PROBE_ID << 21);
    can_write(BXCAN_FR2(0), 0x7F8u << 21 | CAN_RI_IDE | CAN_RI_RTR);
    can_write(BXCAN_FR1(1), ORDER_ID << 3 | CAN_RI_IDE);
    can_write(BXCAN_FR2(1), ORDER_ALL_ID << 3 | CAN_RI_IDE);
    can_write(BXCAN_FA1R, 3u);
    can_write(BXCAN_FMR, can_read(BXCAN_FMR) & ~CAN_FMR_FINIT);
}

enum gate_can_result gate_can_init(void)
{
    if (enter_initialization() != GATE_CAN_OK)
        return GATE_CAN_TIMEOUT;
    can_write(BXCAN_BTR, BIT_TIMING);
    /* frames leave in the order of their requests; TTCM stamps them with the time */
    can_write(BXCAN_MCR, can_read(BXCAN_MCR) | CAN_MCR_TXFP | CAN_MCR_TTCM);
    set_filters();
    return leave_initialization();
}

void gate_can_interrupts(void)
{
    can_write(BXCAN_IER, CAN_IER_TMEIE | CAN_IER_FMPIE0 | CAN_IER_FOVIE0 | CAN_IER_FMPIE1 | CAN_IER_FOVIE1 | CAN_IER_EWGIE |
                             CAN_IER_EPVIE | CAN_IER_BOFIE | CAN_IER_ERRIE);
}

/* ---- sending ---- */

static uint32_t word_of(const uint8_t *bytes)
{
    return bytes[0] | (uint32_t)bytes[1] << 8 | (uint32_t)bytes[2] << 16 | (uint32_t)bytes[3] << 24;
}

static void request(uint32_t mailbox, const struct can_frame *frame)
{
    uint32_t ti = frame->extended ? frame->id << 3 | CAN_RI_IDE : frame->id << 21;
    if (frame->remote)
        ti |= CAN_RI_RTR;
    can_write(BXCAN_TDTR(mailbox), frame->length);
    can_write(BXCAN_TDLR(mailbox), word_of(frame->data));
    can_write(BXCAN_TDHR(mailbox), word_of(frame->data + 4));
    can_write(BXCAN_TIR(mailbox), ti | CAN_TI_TXRQ);
}

enum gate_can_result gate_can_send(const struct can_frame *frame)
{
    uint32_t tsr = can_read(BXCAN_TSR);
    if ((tsr & CAN_TSR_TME) == 0)
        return GATE_CAN_FULL;
    uint32_t mailbox = CAN_TSR_CODE(tsr), done = CAN_TSR_RQCP(mailbox);
    request(mailbox, frame);
    if (wait_for(BXCAN_TSR, done, done, SEND_WAITS) != GATE_CAN_OK) {
        can_write(BXCAN_TSR, CAN_TSR_ABRQ(mailbox));
        /* a frame on the wire is not cut off: the abort takes effect at its end */
        wait_for(BXCAN_TSR, done, done, SEND_WAITS);
    }
    bool sent = (can_read(BXCAN_TSR) & CAN_TSR_TXOK(mailbox)) != 0;
    can_write(BXCAN_TSR, done);
    return sent ? GATE_CAN_OK : GATE_CAN_TIMEOUT;
}

/* Moves what waits into the mailboxes that are empty. */
static void fill_mailboxes(void)
{
    uint32_t tsr;
    while (waiting.count > 0 && ((tsr = can_read(BXCAN_TSR)) & CAN_TSR_TME) != 0) {
        request(CAN_TSR_CODE(tsr), &waiting.frames[waiting.first]);
        waiting.first = (waiting.first + 1u) % RING;
        waiting.count--;
    }
}

enum gate_can_result gate_can_queue(const struct can_frame *frame)
{
    enum gate_can_result result = GATE_CAN_FULL;
    irq_disable();
    if (waiting.count < RING) {
        waiting.frames[(waiting.first + waiting.count) % RING] = *frame;
        waiting.count++;
        fill_mailboxes();
        result = GATE_CAN_OK;
    }
    irq_enable();
    return result;
}

void CAN_TX_IRQHandler(void)
{
    uint32_t tsr = can_read(BXCAN_TSR), done = 0;
    for (unsigned mailbox = 0; mailbox < 3; mailbox++) {
        if ((tsr & CAN_TSR_RQCP(mailbox)) == 0)
            continue;
        done |= CAN_TSR_RQCP(mailbox);
        if (tsr & CAN_TSR_TXOK(mailbox))
            counts.sent++;
        else
            counts.not_sent++;
    }
    can_write(BXCAN_TSR, done);
    fill_mailboxes();
}

/* ---- receiving ---- */

static struct can_received taken(unsigned fifo)
{
    struct can_received r;
    uint32_t ri = can_read(BXCAN_RIR(fifo)), rdt = can_read(BXCAN_RDTR(fifo));
    uint32_t data[2] = {can_read(BXCAN_RDLR(fifo)), can_read(BXCAN_RDHR(fifo))};
    r.frame.extended = (ri & CAN_RI_IDE) != 0;
    r.frame.remote = (ri & CAN_RI_RTR) != 0;
    r.frame.id = r.frame.extended ? ri >> 3 : ri >> 21;
    r.frame.length = rdt & 15u;
    for (unsigned i = 0; i < 8; i++)
        r.frame.data[i] = (uint8_t)(data[i / 4] >> 8 * (i % 4));
    r.filter = (uint8_t)(rdt >> 8);
    r.time = (uint16_t)(rdt >> 16);
    return r;
}

static void receive(unsigned fifo)
{
    struct ring_in *ring = &received[fifo];
    if (can_read(BXCAN_RFR(fifo)) & CAN_RFR_FOVR)
        counts.overruns++;
    can_write(BXCAN_RFR(fifo), CAN_RFR_FULL | CAN_RFR_FOVR); /* a release clears neither */
    while (can_read(BXCAN_RFR(fifo)) & CAN_RFR_FMP) {
        if (ring->count < RING) {
            ring->frames[(ring->first + ring->count) % RING] = taken(fifo);
            ring->count++;
        } else {
            counts.full_rings++;
        }
        can_write(BXCAN_RFR(fifo), CAN_RFR_RFOM);
        while (can_read(BXCAN_RFR(fifo)) & CAN_RFR_RFOM) {
        }
    }
}

void CAN_RX0_IRQHandler(void)
{
    receive(0);
}

void CAN_RX1_IRQHandler(void)
{
    receive(1);
}

bool gate_can_received(unsigned fifo, struct can_received *out)
{
    struct ring_in *ring = &received[fifo];
    irq_disable();
    bool any = ring->count > 0;
    if (any) {
        *out = ring->frames[ring->first];
        ring->first = (ring->first + 1u) % RING;
        ring->count--;
    }
    irq_enable();
    return any;
}

/* ---- bus-off ---- */

void CAN_SCE_IRQHandler(void)
{
    can_write(BXCAN_MSR, CAN_MSR_ERRI);
    counts.warnings++;
    /* the recovery takes long: it is not for a handler */
    if (can_read(BXCAN_ESR) & CAN_ESR_BOFF)
        bus_off = true;
}

bool gate_can_bus_off(void)
{
    return bus_off;
}

/* Without ABOM the controller comes back where software enters Initialization and leaves it, and 128 times 11 recessive bits have
 * passed after that. */
enum gate_can_result gate_can_recover(void)
{
    irq_disable();
    counts.not_sent += waiting.count;
    waiting.count = 0;
    irq_enable();
    can_write(BXCAN_TSR, CAN_TSR_ABRQ(0) | CAN_TSR_ABRQ(1) | CAN_TSR_ABRQ(2));
    if (enter_initialization() != GATE_CAN_OK || leave_initialization() != GATE_CAN_OK)
        return GATE_CAN_TIMEOUT;
    if (wait_for(BXCAN_ESR, CAN_ESR_BOFF, 0, RECOVERY_WAITS) != GATE_CAN_OK)
        return GATE_CAN_TIMEOUT;
    bus_off = false;
    return GATE_CAN_OK;
}

struct can_counts gate_can_counts(void)
{
    return counts;
}
