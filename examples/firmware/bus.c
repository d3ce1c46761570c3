#include "bus.h"

#include <stdarg.h>
#include <stdio.h>
#include <stdlib.h>
#include <string.h>

#include "bxcan.h"
#include "can_bits.h"
#include "port.h"

#define OTHERS 8u
#define LINES 4u

struct other {
    const char *node;
    struct can_frame frame;
};

static uint8_t block[BXCAN_BLOCK_SIZE];
static size_t length;
static enum bus_condition condition;
static struct other others[OTHERS];
static unsigned other_count;
static uint32_t lines;
static bool in_handler;
static unsigned masked, faults, handled[LINES];

/* ---- what is printed ---- */

static char last[160];
static unsigned repeats;

void tell_rest(void)
{
    if (repeats > 1)
        printf("%s  (%u times)\n", last, repeats);
    else if (repeats == 1)
        puts(last);
    repeats = 0;
}

void tell(const char *who, const char *format, ...)
{
    char text[120], line[sizeof last];
    va_list args;
    va_start(args, format);
    vsnprintf(text, sizeof text, format, args);
    va_end(args);
    snprintf(line, sizeof line, "   %-6s %s", who, text);
    if (repeats > 0 && strcmp(line, last) == 0) {
        repeats++;
        return;
    }
    tell_rest();
    strcpy(last, line);
    repeats = 1;
}

void fault(const char *format, ...)
{
    va_list args;
    tell_rest();
    fflush(stdout);
    fputs("firmware: ", stderr);
    va_start(args, format);
    vfprintf(stderr, format, args);
    va_end(args);
    fputc('\n', stderr);
    faults++;
}

const char *frame_text(const struct can_frame *frame)
{
    static char text[32];
    int n = snprintf(text, sizeof text, frame->extended ? "%08X#" : "%03X#", (unsigned)frame->id);
    if (frame->remote)
        snprintf(text + n, sizeof text - (size_t)n, "R");
    for (unsigned i = 0; !frame->remote && i < frame->length && i < 8; i++)
        n += snprintf(text + n, sizeof text - (size_t)n, "%02X", frame->data[i]);
    return text;
}

/* ---- interrupts: levels, one handler at a time ---- */

static void deliver(void)
{
    static void (*const handlers[LINES])(void) = {CAN_TX_IRQHandler, CAN_RX0_IRQHandler, CAN_RX1_IRQHandler, CAN_SCE_IRQHandler};
    if (masked > 0 || in_handler)
        return;
    in_handler = true;
    for (unsigned turns = 0; lines != 0; turns++) {
        unsigned line = 0;
        while ((lines >> line & 1u) == 0)
            line++;
        if (turns == 100) {
            fault("the lines %s stay up: a handler does not clear what called it", bxcan_line_names(lines));
            exit(1);
        }
        handled[line]++;
        handlers[line]();
    }
    in_handler = false;
}

void irq_disable(void)
{
    masked++;
}

void irq_enable(void)
{
    if (--masked == 0)
        deliver();
}

/* ---- calls: each answer is looked at ---- */

/* The code of an answer; the lines are kept. A code that is neither 0 nor `also` is a fault. */
static uint32_t looked_at(uint64_t answer, uint32_t also, const char *call, uint32_t number)
{
    uint32_t code = bxcan_code(answer);
    lines = bxcan_lines(answer);
    if (code != BXCAN_DONE && code != also)
        fault("%s 0x%03X: refused %u: %s", call, (unsigned)number, (unsigned)code, bxcan_code_name(code));
    return code;
}

uint32_t can_read(uint32_t offset)
{
    uint64_t answer = bxcan_read(BOARD, block, length, offset);
    looked_at(answer, BXCAN_DONE, "read", offset);
    deliver();
    return bxcan_word(answer);
}

void can_write(uint32_t offset, uint32_t word)
{
    looked_at(bxcan_write(BOARD, block, length, offset, word), BXCAN_DONE, "write", offset);
    deliver();
}

void board_wait(void)
{
    bus_pass();
}

void bus_power_on(void)
{
    length = bxcan_block_size(BOARD);
    looked_at(bxcan_reset(BOARD, block, length), BXCAN_DONE, "reset", 0);
}

uint8_t *bus_block(void)
{
    return block;
}

size_t bus_block_length(void)
{
    return length;
}

void bus_refresh(void)
{
    can_read(BXCAN_MSR);
}

/* ---- the bus ---- */

void bus_is(enum bus_condition now)
{
    condition = now;
}

void bus_wants(const char *node, const struct can_frame *frame)
{
    if (other_count == OTHERS) {
        fault("more than %u frames of other nodes wait", OTHERS);
        return;
    }
    others[other_count].node = node;
    others[other_count].frame = *frame;
    other_count++;
}

static uint32_t identifier_of(const struct can_frame *frame)
{
    uint32_t ri = frame->extended ? frame->id << 3 | CAN_RI_IDE : frame->id << 21;
    return frame->remote ? ri | CAN_RI_RTR : ri;
}

/* The bits of arbitration as they go over the wire, the first one highest; the smaller number wins. A standard frame has RTR and a
 * dominant IDE where an extended one has SRR and IDE, both recessive. */
static uint32_t wire_bits(uint32_t ri)
{
    uint32_t rtr = (ri & CAN_RI_RTR) != 0;
    if (ri & CAN_RI_IDE)
        return (ri & 0xFFE00000u) | 3u << 19 | (ri >> 3 & 0x3FFFFu) << 1 | rtr;
    return (ri & 0xFFE00000u) | rtr << 20;
}

/* The frame of another node that goes before all others. */
static unsigned first_other(void)
{
    unsigned first = 0;
    for (unsigned i = 1; i < other_count; i++)
        if (wire_bits(identifier_of(&others[i].frame)) < wire_bits(identifier_of(&others[first].frame)))
            first = i;
    return first;
}

/* The frame of a mailbox, as the bus sees it. */
static struct can_frame mailbox_frame(uint32_t mailbox)
{
    struct can_frame frame;
    uint32_t ti = bxcan_word(bxcan_read(BOARD, block, length, BXCAN_TIR(mailbox)));
    uint32_t tdt = bxcan_word(bxcan_read(BOARD, block, length, BXCAN_TDTR(mailbox)));
    uint32_t data[2] = {bxcan_word(bxcan_read(BOARD, block, length, BXCAN_TDLR(mailbox))),
                        bxcan_word(bxcan_read(BOARD, block, length, BXCAN_TDHR(mailbox)))};
    frame.extended = (ti & CAN_RI_IDE) != 0;
    frame.remote = (ti & CAN_RI_RTR) != 0;
    frame.id = frame.extended ? ti >> 3 : ti >> 21;
    frame.length = tdt & 15u;
    for (unsigned i = 0; i < 8; i++)
        frame.data[i] = (uint8_t)(data[i / 4] >> 8 * (i % 4));
    return frame;
}

/* A frame of so many bits without stuff bits, with the three bits that follow it. */
static void time_passes(const struct can_frame *frame)
{
    uint32_t bytes = frame->remote ? 0 : frame->length > 8 ? 8 : frame->length;
    looked_at(bxcan_bit_times(BOARD, block, length, (frame->extended ? 67u : 47u) + 8u * bytes), BXCAN_DONE, "bit times", 0);
}

static uint32_t four_bytes(const uint8_t *bytes)
{
    return bytes[0] | (uint32_t)bytes[1] << 8 | (uint32_t)bytes[2] << 16 | (uint32_t)bytes[3] << 24;
}

static void other_sends(void)
{
    unsigned n = first_other();
    struct other o = others[n];
    memmove(&others[n], &others[n + 1], (other_count - n - 1) * sizeof others[0]);
    other_count--;
    time_passes(&o.frame);
    /* a controller that is not listening cannot have the event, and answers so */
    uint64_t answer = bxcan_frame(BOARD, block, length, identifier_of(&o.frame), o.frame.length, four_bytes(o.frame.data),
                                  four_bytes(o.frame.data + 4));
    uint32_t code = looked_at(answer, BXCAN_WRONG_STATE, "frame", o.frame.id);
    tell("bus", "%-8s %-22s %-32s %s", o.node, frame_text(&o.frame), code == BXCAN_DONE ? "" : "the gate does not listen",
         bxcan_line_names(lines));
}

static bool is_passive(void)
{
    uint64_t answer = bxcan_read(BOARD, block, length, BXCAN_ESR);
    looked_at(answer, BXCAN_DONE, "read", BXCAN_ESR);
    return (bxcan_word(answer) & CAN_ESR_EPVF) != 0;
}

/* The frame of a mailbox is on the wire: how does it end? Alone and error passive it sees no dominant bit during its error flag. */
static void gate_sends(uint32_t mailbox)
{
    static const char *const ends[9] = {"sent",      "stuff error", "form error", "nobody acknowledges",
                                        "bit error", "bit error",   "CRC error",  "lost",
                                        "alone, error passive"};
    struct can_frame frame = mailbox_frame(mailbox);
    char end[40];
    uint32_t result = BXCAN_END_GOOD;
    if (condition == BUS_ALONE)
        result = is_passive() ? BXCAN_END_ALONE : BXCAN_ERROR_ACK;
    else if (condition == BUS_SHORTED)
        result = BXCAN_ERROR_BIT_RECESSIVE;
    else if (other_count > 0 && wire_bits(identifier_of(&others[first_other()].frame)) < wire_bits(identifier_of(&frame)))
        result = BXCAN_END_LOST;
    if (result != BXCAN_END_LOST)
        time_passes(&frame);
    looked_at(bxcan_own_end(BOARD, block, length, result), BXCAN_DONE, "own end", result);
    snprintf(end, sizeof end, "mailbox %u: %s", (unsigned)mailbox, ends[result]);
    tell("bus", "%-8s %-22s %-32s %s", "gate", frame_text(&frame), end, bxcan_line_names(lines));
    if (result == BXCAN_END_LOST)
        other_sends();
}

/* 11 bit times without a frame; a shorted bus is not idle. */
static void no_frame(void)
{
    looked_at(bxcan_bit_times(BOARD, block, length, 11), BXCAN_DONE, "bit times", 11);
    if (condition != BUS_SHORTED)
        looked_at(bxcan_idle(BOARD, block, length), BXCAN_DONE, "idle", 0);
    tell("bus", condition == BUS_SHORTED ? "dominant" : "idle");
}

void bus_pass(void)
{
    uint64_t answer = bxcan_start(BOARD, block, length);
    if (looked_at(answer, BXCAN_WRONG_STATE, "start", 0) == BXCAN_DONE)
        gate_sends(bxcan_word(answer));
    else if (other_count > 0 && condition == BUS_GOOD)
        other_sends();
    else
        no_frame();
    deliver();
}

void bus_passes(unsigned n)
{
    while (n-- > 0)
        bus_pass();
}

unsigned bus_faults(void)
{
    return faults;
}

unsigned bus_handled(unsigned line)
{
    return handled[line];
}
