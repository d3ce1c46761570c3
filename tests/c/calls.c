/* Every call of bxcan.h, every code, and the edges of every number. */
#include <stdio.h>
#include <string.h>

#include "bench.h"

#define MCR_RESET 0x00010002u

/* The bytes after a reset, from docs/BLOCK.md and document 01's reset values. */
static void reset_bytes(uint8_t *b)
{
    static const uint8_t fields[10][2] = {{0x40, 20}, {0x41, 4},  {0x42, 20}, {0x43, 20}, {0x44, 20},
                                          {0x45, 7},  {0x46, 52}, {0x47, 52}, {0x48, 17}, {0x49, 112}};
    size_t at = 0;
    memset(b, 0, LENGTH);
    for (size_t i = 0; i < 10; i++) {
        b[at] = fields[i][0];
        b[at + 1] = fields[i][1];
        at += 3u + fields[i][1];
    }
    b[3 + 0] = 0x02; /* MCR 0x00010002 */
    b[3 + 2] = 0x01;
    b[3 + 10] = 0x23; /* BTR 0x01230000 */
    b[3 + 11] = 0x01;
    b[3 + 14] = 2;         /* mode Sleep */
    memset(b + 102, 3, 4); /* no mailbox in the order, none on the wire */
    b[219 + 3 + 16] = 1;   /* FINIT */
}

static uint8_t *after_reset(void)
{
    uint8_t *b = place(LENGTH);
    memset(b, 0x5C, LENGTH);
    if (bxcan_reset(BOARD, b, LENGTH) != 0)
        fail("a reset is refused");
    return b;
}

/* Normal mode, FINIT=0, filter bank 0 takes every frame into FIFO 0. */
static uint8_t *in_normal(void)
{
    uint8_t *b = after_reset();
    writes(b, 0x20C, 1);
    writes(b, 0x21C, 1);
    writes(b, 0x200, 0);
    writes(b, 0x000, 0);
    does(b, call0(IDLE), 0);
    expect(reads(b, 0x004) == 0x00000C00, "Normal mode");
    return b;
}

static void block_sizes(void)
{
    static const uint32_t others[] = {1, 2, 14, 28, 255, 256, 0x10000, 0x80000000u, 0xFFFFFFFFu};
    test("bxcan_block_size");
    expect(bxcan_block_size(BXCAN_STM32F334) == LENGTH, "the size of board 0 is that of docs/BLOCK.md");
    expect(BXCAN_STM32F334 == 0, "the STM32F334 is board 0");
    for (size_t i = 0; i < sizeof others / sizeof others[0]; i++)
        expect(bxcan_block_size(others[i]) == 0, "a board that does not exist has size 0");
    test("BXCAN_BLOCK_SIZE");
    size_t largest = 0;
    for (uint32_t board = 0; board < 1000; board++)
        if (bxcan_block_size(board) > largest)
            largest = bxcan_block_size(board);
    expect(BXCAN_BLOCK_SIZE == largest, "the constant is the size of the largest block");
}

static void resets(void)
{
    uint8_t wanted[LENGTH];
    test("reset writes the reset state, whatever the bytes were");
    reset_bytes(wanted);
    for (unsigned i = 0; i < 100; i++) {
        uint8_t *b = i % 2 ? place(LENGTH) : place_at_start(LENGTH);
        for (size_t k = 0; k < LENGTH; k++)
            b[k] = i < 2 ? 0xFF : (uint8_t)random_number();
        expect(bxcan_reset(BOARD, b, LENGTH) == 0, "the answer is 0");
        for (size_t k = 0; k < LENGTH; k++)
            if (b[k] != wanted[k])
                fail("byte %u is 0x%02X, by docs/BLOCK.md 0x%02X", (unsigned)k, b[k], wanted[k]);
        expect(guards_hold(), "no byte outside is written");
    }
}

/* Each call, with numbers that are right and numbers that are refused. */
static struct call some_call(int which, unsigned variant)
{
    struct call c = frame_call(0x20000000, 8, 1, 2);
    c.which = which;
    if (which == READ || which == WRITE)
        c.n[0] = 0x01C;
    if (which == OWN_END)
        c.n[0] = 0;
    if (which == RECEIVE_ERROR)
        c.n[0] = 1;
    if (variant == 1)
        memset(c.n, 0xFF, sizeof c.n);
    if (variant == 2)
        memset(c.n, 0, sizeof c.n);
    return c;
}

/* The call is refused by 10, with lines and word 0, and no byte changes. */
static void refused_block(uint32_t board, uint8_t *b, size_t length, struct call c, const char *why)
{
    uint8_t before[1200];
    if (length > 0)
        memcpy(before, b, length);
    uint64_t answer = raw(board, b, length, c);
    if (answer != BXCAN_BAD_BLOCK)
        fail("%s, %s: answer 0x%016llX, expected 10 alone", call_names[c.which], why, (unsigned long long)answer);
    if (length > 0 && memcmp(before, b, length) != 0)
        fail("%s, %s: the bytes have changed", call_names[c.which], why);
    if (!guards_hold())
        fail("%s, %s: a byte outside has changed", call_names[c.which], why);
}

/* The beginning of a good block in a place of another length. */
static uint8_t *cut_or_extended(size_t length)
{
    uint8_t good[LENGTH], *b = length % 2 ? place(length) : place_at_start(length);
    reset_bytes(good);
    if (length > LENGTH)
        memset(b + LENGTH, 0, length - LENGTH);
    memcpy(b, good, length < LENGTH ? length : LENGTH);
    return b;
}

static void lengths(void)
{
    test("another length is refused by 10");
    for (size_t length = 0; length <= 1100; length++) {
        uint8_t *b = cut_or_extended(length);
        for (int which = 0; which < CALLS && length != LENGTH; which++)
            for (unsigned variant = 0; variant < 3; variant++)
                refused_block(BOARD, b, length, some_call(which, variant), "another length");
    }
    test("a null pointer with length 0 is refused by 10");
    place(0);
    for (int which = 0; which < CALLS; which++)
        for (unsigned variant = 0; variant < 3; variant++)
            refused_block(BOARD, NULL, 0, some_call(which, variant), "null pointer");
}

static void boards(void)
{
    static const uint32_t others[] = {1, 2, 255, 256, 0x10000, 0x80000000u, 0xFFFFFFFFu};
    test("a board that does not exist is refused by 10, whatever the length");
    for (size_t i = 0; i < sizeof others / sizeof others[0]; i++)
        for (int which = 0; which < CALLS; which++) {
            place(0);
            refused_block(others[i], NULL, 0, some_call(which, 0), "no such board");
            for (size_t length = 0; length <= 1100; length += length == LENGTH - 1 || length == LENGTH ? 1 : 71)
                refused_block(others[i], cut_or_extended(length), length, some_call(which, length % 3), "no such board");
            refused_block(others[i], cut_or_extended(LENGTH), LENGTH, some_call(which, 0), "no such board");
        }
}

static void damaged(void)
{
    test("10 comes before every other code");
    for (size_t at = 0; at < LENGTH; at += 7)
        for (int which = READ; which < CALLS; which++)
            for (unsigned variant = 0; variant < 3; variant++) {
                uint8_t *b = cut_or_extended(LENGTH);
                b[0] ^= 1; /* the first tag */
                b[at] ^= at == 0 ? 0 : 0x5A;
                refused_block(BOARD, b, LENGTH, some_call(which, variant), "damaged");
            }
}

/* ---- registers ---- */

enum kind { NOTHING, FREE, FINIT_ONLY, INITIALIZATION_ONLY, READ_ONLY };

/* Document 01, "Register map", and what a write there needs after a reset. */
static enum kind kind_of(uint32_t offset)
{
    if (offset % 4 != 0)
        return NOTHING;
    if (offset <= 0x018)
        return FREE;
    if (offset == 0x01C)
        return INITIALIZATION_ONLY;
    if (offset >= 0x180 && offset <= 0x1AC)
        return FREE;
    if (offset >= 0x1B0 && offset <= 0x1CC)
        return READ_ONLY;
    if (offset == 0x200 || offset == 0x21C)
        return FREE;
    if (offset == 0x204 || offset == 0x20C || offset == 0x214)
        return FINIT_ONLY;
    return offset >= 0x240 && offset <= 0x2AC ? FREE : NOTHING;
}

static uint32_t reset_word(uint32_t offset)
{
    switch (offset) {
    case 0x000:
        return MCR_RESET;
    case 0x004:
        return 0x00000C02;
    case 0x008:
        return 0x1C000000;
    case 0x01C:
        return 0x01230000;
    case 0x200:
        return 0x2A1C0E01;
    default:
        return 0;
    }
}

static void map(void)
{
    uint8_t *b = after_reset();
    test("the register map and the reset values");
    for (uint32_t offset = 0; offset < 0x1000; offset++) {
        bool there = kind_of(offset) != NOTHING;
        uint32_t word = does(b, call1(READ, offset), there ? BXCAN_DONE : BXCAN_NO_REGISTER);
        if (there && word != reset_word(offset))
            fail("0x%03X reads 0x%08X, expected 0x%08X", (unsigned)offset, (unsigned)word, (unsigned)reset_word(offset));
    }
    test("an offset of any size is answered");
    for (unsigned bit = 12; bit < 32; bit++)
        for (uint32_t offset = 0; offset < 0x2B0; offset += 4) {
            does(b, call1(READ, offset + (1u << bit)), BXCAN_NO_REGISTER);
            does(b, call2(WRITE, offset + (1u << bit), 0xFFFFFFFFu), BXCAN_NO_REGISTER);
        }
    does(b, call1(READ, 0xFFFFFFFFu), BXCAN_NO_REGISTER);
    does(b, call1(READ, 0xFFFFFFFCu), BXCAN_NO_REGISTER);
}

static void write_codes(void)
{
    test("the codes of writes after a reset");
    for (uint32_t offset = 0; offset < 0x400; offset++) {
        uint8_t *b = after_reset();
        enum kind kind = kind_of(offset);
        does(b, call2(WRITE, offset, 0),
             kind == NOTHING               ? BXCAN_NO_REGISTER
             : kind == READ_ONLY           ? BXCAN_READ_ONLY
             : kind == INITIALIZATION_ONLY ? BXCAN_LOCKED
                                           : BXCAN_DONE);
    }
    test("the codes of writes with FINIT=0, an active bank and requests");
    for (uint32_t offset = 0; offset < 0x400; offset += 4) {
        uint8_t *b = in_normal();
        writes(b, 0x190, 0x20000001);
        enum kind kind = kind_of(offset);
        bool locked = kind == INITIALIZATION_ONLY || kind == FINIT_ONLY || (offset >= 0x190 && offset < 0x1A0) || offset == 0x240 ||
                      offset == 0x244;
        does(b, call2(WRITE, offset, 0),
             kind == NOTHING     ? BXCAN_NO_REGISTER
             : kind == READ_ONLY ? BXCAN_READ_ONLY
             : locked            ? BXCAN_LOCKED
                                 : BXCAN_DONE);
    }
    test("BTR in Initialization, and a word goes where it belongs");
    uint8_t *b = after_reset();
    writes(b, 0x000, 1);
    writes(b, 0x01C, 0xFFFFFFFFu);
    expect(reads(b, 0x01C) == 0xC37F03FF, "BTR");
    writes(b, 0x2AC, 0x89ABCDEF);
    expect(reads(b, 0x2AC) == 0x89ABCDEF && reads(b, 0x2A8) == 0, "F13R2");
    expect(b[350] == 0xEF && b[351] == 0xCD && b[352] == 0xAB && b[353] == 0x89, "F13R2 low byte first in the block");
}

/* ---- events ---- */

static void event_numbers(void)
{
    static const uint32_t wrong_steps[] = {0, 2, 7, 9, 0x101, 0x108, 0x10001, 0x80000001u, 0xFFFFFFFFu};
    static const uint32_t wrong_codes[] = {0, 7, 8, 0x101, 0x106, 0x10003, 0xFFFFFFFFu};
    uint8_t *b = in_normal();
    test("bit times out of range");
    does(b, call1(BIT_TIMES, 1), BXCAN_DONE);
    does(b, call1(BIT_TIMES, 65535), BXCAN_DONE);
    does(b, call1(BIT_TIMES, 0), BXCAN_OUT_OF_RANGE);
    does(b, call1(BIT_TIMES, 65536), BXCAN_OUT_OF_RANGE);
    does(b, call1(BIT_TIMES, 65537), BXCAN_OUT_OF_RANGE);
    does(b, call1(BIT_TIMES, 0xFFFFFFFFu), BXCAN_OUT_OF_RANGE);
    test("a receive error out of range");
    for (uint32_t code = 1; code <= 6; code++) {
        does(b, call2(RECEIVE_ERROR, code, 1), BXCAN_DONE);
        does(b, call2(RECEIVE_ERROR, code, 8), BXCAN_DONE);
    }
    expect(reads(b, 0x018) == (54u << 24 | 6u << 4), "REC 54, LEC 6");
    for (size_t i = 0; i < sizeof wrong_steps / sizeof wrong_steps[0]; i++)
        does(b, call2(RECEIVE_ERROR, 1, wrong_steps[i]), BXCAN_OUT_OF_RANGE);
    for (size_t i = 0; i < sizeof wrong_codes / sizeof wrong_codes[0]; i++)
        does(b, call2(RECEIVE_ERROR, wrong_codes[i], 1), BXCAN_OUT_OF_RANGE);
}

static void frame_numbers(void)
{
    static const uint32_t wrong_lengths[] = {16, 17, 0x100, 0x108, 0x10008, 0x80000000u, 0xFFFFFFFFu};
    uint8_t *b = in_normal();
    test("a frame out of range");
    for (uint32_t length = 0; length <= 15; length++) {
        does(b, frame_call(0x20000000, length, 0, 0), BXCAN_DONE);
        writes(b, 0x00C, 0x20);
    }
    for (size_t i = 0; i < sizeof wrong_lengths / sizeof wrong_lengths[0]; i++)
        does(b, frame_call(0x20000000, wrong_lengths[i], 0, 0), BXCAN_OUT_OF_RANGE);
    does(b, frame_call(0x20000001, 8, 0, 0), BXCAN_OUT_OF_RANGE);
    for (unsigned bit = 3; bit <= 20; bit++) {
        does(b, frame_call(0x20000000 | 1u << bit, 8, 0, 0), BXCAN_OUT_OF_RANGE);
        does(b, frame_call(0x20000004 | 1u << bit, 8, 0, 0), BXCAN_DONE);
        writes(b, 0x00C, 0x20);
    }
    does(b, frame_call(0xFFFFFFFFu, 0xFFFFFFFFu, 0xFFFFFFFFu, 0xFFFFFFFFu), BXCAN_OUT_OF_RANGE);
}

static void own_end_numbers(void)
{
    static const uint32_t wrong[] = {9, 10, 255, 0x100, 0x107, 0x108, 0x10000, 0x80000000u, 0xFFFFFFFFu};
    uint8_t *b = in_normal();
    test("an own end out of range, with a frame on the wire and without");
    for (size_t i = 0; i < sizeof wrong / sizeof wrong[0]; i++)
        does(b, call1(OWN_END, wrong[i]), BXCAN_OUT_OF_RANGE);
    writes(b, 0x180, 1);
    does(b, call0(START), BXCAN_DONE);
    for (size_t i = 0; i < sizeof wrong / sizeof wrong[0]; i++)
        does(b, call1(OWN_END, wrong[i]), BXCAN_OUT_OF_RANGE);
}

static void own_end_results(void)
{
    test("what each result of an own end does");
    for (uint32_t result = 0; result <= 7; result++) {
        uint8_t *b = in_normal();
        writes(b, 0x1A0, 0x20000001);
        expect(does(b, call0(START), BXCAN_DONE) == 2, "mailbox 2 goes on the wire");
        expect(reads(b, 0x004) == 0x00000D00, "TXM");
        does(b, call1(OWN_END, result), BXCAN_DONE);
        uint32_t tsr = reads(b, 0x008), esr = reads(b, 0x018);
        if (result == BXCAN_END_GOOD)
            expect(tsr == 0x1C030000 && esr == 0, "good: RQCP2, TXOK2, empty");
        else if (result == BXCAN_END_LOST)
            expect(tsr == 0x0C040000 && esr == 0, "lost: ALST2, still pending");
        else
            expect(tsr == 0x0C080000 && esr == (8u << 16 | result << 4), "error: TERR2, still pending, TEC 8, LEC");
    }
}

/* Mailbox 2 is on the wire; before that, so many of its frames have ended by BXCAN_ERROR_ACK. */
static uint8_t *after_tries(unsigned tries)
{
    uint8_t *b = in_normal();
    writes(b, 0x1A0, 0x20000001);
    for (unsigned i = 0; i < tries; i++) {
        does(b, call0(START), BXCAN_DONE);
        does(b, call1(OWN_END, BXCAN_ERROR_ACK), BXCAN_DONE);
    }
    does(b, call0(START), BXCAN_DONE);
    return b;
}

static void end_alone(void)
{
    test("an end alone needs error passive");
    uint8_t *b = after_tries(15);
    expect(reads(b, 0x018) == (120u << 16 | 0x31), "TEC 120: EWGF");
    does(b, call1(OWN_END, BXCAN_END_ALONE), BXCAN_WRONG_STATE);
    does(b, call1(OWN_END, 9), BXCAN_OUT_OF_RANGE);
    test("an end alone leaves TEC");
    b = after_tries(16);
    for (unsigned i = 0; i < 300; i++) {
        does(b, call1(OWN_END, BXCAN_END_ALONE), BXCAN_DONE);
        expect(reads(b, 0x018) == (128u << 16 | 0x33), "TEC 128, LEC 3, EPVF, EWGF");
        expect(reads(b, 0x008) == 0x0C080000, "TERR2, still pending");
        does(b, call1(OWN_END, BXCAN_END_ALONE), BXCAN_WRONG_STATE);
        does(b, call1(OWN_END, 9), BXCAN_OUT_OF_RANGE);
        does(b, call0(START), BXCAN_DONE);
    }
    does(b, call1(OWN_END, BXCAN_END_GOOD), BXCAN_DONE);
    expect(reads(b, 0x018) == (127u << 16 | 0x01), "heard: TEC 127, error active");
    expect(reads(b, 0x008) == 0x1C030000, "RQCP2, TXOK2");
    test("an end alone, error passive by REC");
    b = in_normal();
    for (unsigned i = 0; i < 16; i++)
        does(b, call2(RECEIVE_ERROR, BXCAN_ERROR_STUFF, 8), BXCAN_DONE);
    writes(b, 0x1A0, 0x20000001);
    writes(b, 0x014, 0x8800); /* ERRIE, LECIE */
    does(b, call0(START), BXCAN_DONE);
    uint64_t answer = bxcan_own_end(BOARD, b, LENGTH, BXCAN_END_ALONE);
    expect(answer == (uint64_t)BXCAN_LINE_SCE << 8, "done, and SCE is up by LECIE");
    expect(reads(b, 0x018) == (128u << 24 | 0x33), "REC 128, TEC 0, LEC 3");
    test("an end alone with NART");
    writes(b, 0x000, 0x10);
    does(b, call0(START), BXCAN_DONE);
    does(b, call1(OWN_END, BXCAN_END_ALONE), BXCAN_DONE);
    expect(reads(b, 0x008) == 0x1C090000, "RQCP2, TERR2, empty");
    test("an end alone with a remembered abort");
    b = after_tries(16);
    writes(b, 0x008, 0x00800000); /* ABRQ2 */
    does(b, call1(OWN_END, BXCAN_END_ALONE), BXCAN_DONE);
    expect(reads(b, 0x008) == 0x1C090000, "RQCP2, TERR2, empty");
}

/* Events that the state cannot have: in Sleep, in Normal, with a frame on the wire, in loopback. */
static void wrong_states(void)
{
    uint8_t *b = after_reset();
    test("events in Sleep");
    does(b, call0(START), BXCAN_WRONG_STATE);
    does(b, call1(OWN_END, 0), BXCAN_WRONG_STATE);
    does(b, frame_call(0, 0, 0, 0), BXCAN_WRONG_STATE);
    does(b, call2(RECEIVE_ERROR, 1, 1), BXCAN_WRONG_STATE);
    does(b, call1(BIT_TIMES, 1), BXCAN_DONE);
    does(b, call0(IDLE), BXCAN_DONE);
    does(b, call0(ACTIVITY), BXCAN_DONE);
    expect(reads(b, 0x004) == 0x00000C0A, "WKUI");
    test("events in Normal");
    b = in_normal();
    does(b, call0(ACTIVITY), BXCAN_WRONG_STATE);
    does(b, call0(START), BXCAN_WRONG_STATE);
    does(b, call1(OWN_END, 7), BXCAN_WRONG_STATE);
    does(b, call2(RECEIVE_ERROR, 6, 8), BXCAN_DONE);
    test("events with an own frame on the wire");
    writes(b, 0x180, 1);
    does(b, call0(START), BXCAN_DONE);
    does(b, call0(START), BXCAN_WRONG_STATE);
    does(b, call0(IDLE), BXCAN_WRONG_STATE);
    does(b, frame_call(0, 0, 0, 0), BXCAN_WRONG_STATE);
    does(b, call2(RECEIVE_ERROR, 1, 1), BXCAN_WRONG_STATE);
    does(b, call1(OWN_END, 7), BXCAN_DONE);
    test("no acknowledgment in loopback");
    b = in_normal();
    writes(b, 0x000, 1);
    writes(b, 0x01C, 0x40000000);
    writes(b, 0x000, 0);
    does(b, call0(IDLE), BXCAN_DONE);
    writes(b, 0x180, 1);
    does(b, call0(START), BXCAN_DONE);
    does(b, call1(OWN_END, BXCAN_ERROR_ACK), BXCAN_WRONG_STATE);
    for (unsigned i = 0; i < 16; i++) {
        does(b, call1(OWN_END, BXCAN_END_ALONE), BXCAN_WRONG_STATE);
        does(b, call1(OWN_END, BXCAN_ERROR_CRC), BXCAN_DONE);
        does(b, call0(START), BXCAN_DONE);
    }
    does(b, call1(OWN_END, BXCAN_END_ALONE), BXCAN_WRONG_STATE);
}

/* ---- words and lines ---- */

static void received_words(void)
{
    uint8_t *b = in_normal();
    test("the words of a frame");
    writes(b, 0x000, 0x80); /* TTCM */
    does(b, call1(BIT_TIMES, 0x1234), BXCAN_DONE);
    does(b, frame_call(0x91A2B3C4, 7, 0x04030201, 0xFF070605), BXCAN_DONE);
    expect(reads(b, 0x00C) == 1, "FMP0");
    expect(reads(b, 0x1B0) == 0x91A2B3C4, "RI");
    expect(reads(b, 0x1B4) == 0x12340007, "RDT");
    expect(reads(b, 0x1B8) == 0x04030201, "RDL");
    expect(reads(b, 0x1BC) == 0x00070605, "RDH: a byte past the length is 0");
    expect(b[112 + 8] == 1 && b[112 + 11] == 4 && b[112 + 12] == 5, "data bytes in their order in the block");
    test("bit times add to the timer");
    does(b, call1(BIT_TIMES, 65535), BXCAN_DONE);
    expect(b[15] == 0x33 && b[16] == 0x12, "the timer is 0x1233");
}

static uint32_t lines_of(uint8_t *b)
{
    return bxcan_lines(make(b, call1(READ, 0)));
}

static void interrupt_lines(void)
{
    uint8_t *b = in_normal();
    test("each interrupt line");
    writes(b, 0x200, 1);
    writes(b, 0x20C, 3);
    writes(b, 0x204, 1); /* bank 0 a list, so that bank 1 gets the rest */
    writes(b, 0x214, 2);
    writes(b, 0x21C, 3);
    writes(b, 0x200, 0);
    writes(b, 0x014, 0x00000913);
    expect(lines_of(b) == 0, "none");
    writes(b, 0x180, 1);
    does(b, call0(START), BXCAN_DONE);
    uint64_t answer = make(b, call1(OWN_END, 0));
    expect(answer == 0x0100, "TX: answer 0x0100");
    writes(b, 0x008, 1);
    does(b, frame_call(0, 0, 0, 0), BXCAN_DONE);
    expect(lines_of(b) == BXCAN_LINE_FIFO0, "FIFO 0");
    does(b, frame_call(0x20000000, 0, 0, 0), BXCAN_DONE);
    expect(lines_of(b) == (BXCAN_LINE_FIFO0 | BXCAN_LINE_FIFO1), "FIFO 0 and 1");
    writes(b, 0x014, 0x00008912);
    does(b, call2(RECEIVE_ERROR, 1, 1), BXCAN_DONE);
    expect(lines_of(b) == (BXCAN_LINE_FIFO0 | BXCAN_LINE_FIFO1 | BXCAN_LINE_SCE), "all but TX");
    writes(b, 0x00C, 0x20);
    writes(b, 0x010, 0x20);
    answer = make(b, call1(READ, 2));
    expect(answer == (BXCAN_LINE_SCE << 8 | BXCAN_NO_REGISTER), "a refusal has the lines of its state");
    writes(b, 0x004, 4);
    expect(lines_of(b) == 0, "none again");
}

static void header(void)
{
    static const char *const lines[] = {
        "-",   "TX",     "FIFO0",     "TX FIFO0",     "FIFO1",     "TX FIFO1",     "FIFO0 FIFO1",     "TX FIFO0 FIFO1",
        "SCE", "TX SCE", "FIFO0 SCE", "TX FIFO0 SCE", "FIFO1 SCE", "TX FIFO1 SCE", "FIFO0 FIFO1 SCE", "TX FIFO0 FIFO1 SCE"};
    test("an answer taken apart");
    uint64_t answer = 0x89ABCDEF00000C05u;
    expect(bxcan_code(answer) == 5 && bxcan_lines(answer) == 12 && bxcan_word(answer) == 0x89ABCDEF, "code 5, lines 12, word");
    answer = 0xFFFFFFFF0000FFFFu;
    expect(bxcan_code(answer) == 255 && bxcan_lines(answer) == 255 && bxcan_word(answer) == 0xFFFFFFFF, "all ones");
    test("the names of codes and lines");
    for (uint32_t i = 0; i < 16; i++)
        expect(strcmp(bxcan_line_names(i), lines[i]) == 0, lines[i]);
    expect(strcmp(bxcan_line_names(16), "unknown lines") == 0 && strcmp(bxcan_line_names(0xFFFFFFFFu), "unknown lines") == 0,
           "lines above 15");
    for (uint32_t code = 0; code < 300; code++)
        expect((strcmp(bxcan_code_name(code), "unknown code") != 0) == (code <= 5 || code == 10),
               "codes 0 to 5 and 10 have a name");
    expect(strcmp(bxcan_code_name(BXCAN_BAD_BLOCK), "block refused") == 0, "10 is a refused block");
    test("the offsets of the header");
    expect(BXCAN_MCR == 0 && BXCAN_MSR == 4 && BXCAN_TSR == 8 && BXCAN_RF0R == 0xC && BXCAN_RF1R == 0x10 && BXCAN_IER == 0x14 &&
               BXCAN_ESR == 0x18 && BXCAN_BTR == 0x1C && BXCAN_RFR(0) == 0xC && BXCAN_RFR(1) == 0x10,
           "control and status");
    expect(BXCAN_TIR(0) == 0x180 && BXCAN_TDTR(1) == 0x194 && BXCAN_TDLR(2) == 0x1A8 && BXCAN_TDHR(2) == 0x1AC &&
               BXCAN_RIR(0) == 0x1B0 && BXCAN_RDTR(0) == 0x1B4 && BXCAN_RDLR(1) == 0x1C8 && BXCAN_RDHR(1) == 0x1CC,
           "mailboxes");
    expect(BXCAN_FMR == 0x200 && BXCAN_FM1R == 0x204 && BXCAN_FS1R == 0x20C && BXCAN_FFA1R == 0x214 && BXCAN_FA1R == 0x21C &&
               BXCAN_FR1(0) == 0x240 && BXCAN_FR2(13) == 0x2AC,
           "filters");
}

int main(void)
{
    header();
    block_sizes();
    resets();
    lengths();
    boards();
    damaged();
    map();
    write_codes();
    event_numbers();
    frame_numbers();
    own_end_numbers();
    own_end_results();
    end_alone();
    wrong_states();
    received_words();
    interrupt_lines();
    return tests_end("calls");
}
