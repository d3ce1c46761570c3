/* Blocks along random calls: the reader of docs/BLOCK.md accepts exactly those that calls accept, calls stay within its ranges, and
 * the requests keep what is promised of them, from a reset and from any block that is accepted. */
#include <stdio.h>
#include <string.h>

#include "bench.h"
#include "reader.h"

#define RUN 300000u
#define PHASE 400u
#define KINDS 13u
#define SAMPLES (2u * KINDS)

/* ---- random calls ---- */

enum phase { MIXED, ERRORS, IDLES, TRAFFIC, PHASES };

static uint32_t random_offset(void)
{
    static const uint32_t offsets[] = {0x000, 0x004, 0x008, 0x00C, 0x010, 0x014, 0x018, 0x01C, 0x200, 0x204, 0x20C, 0x214, 0x21C};
    switch (random_below(8)) {
    case 0:
        return 0x1B0 + 4 * random_below(8);
    case 1:
        return 0x240 + 4 * random_below(28);
    case 2:
    case 3:
        return 0x180 + 4 * random_below(12);
    case 4:
        return random_below(8) ? 4 * random_below(0x120) : random_number();
    default:
        return offsets[random_below(sizeof offsets / sizeof offsets[0])];
    }
}

/* A word for a register, such that modes, requests and filters go on working for a while. */
static uint32_t random_word(uint32_t offset)
{
    uint32_t w = random_number();
    if (offset == 0x000) {
        w &= random_below(200) ? 0x000100FFu : 0xFFFFFFFFu;
        return random_below(3) ? w & ~3u : w;
    }
    if (offset == 0x008)
        return w & random_number() & random_number();
    if (offset == 0x01C)
        return random_below(4) ? w & 0x3FFFFFFFu : w;
    if (offset == 0x200)
        return random_below(4) == 0;
    if (offset >= 0x240)
        return random_below(3) ? 0 : w;
    return w;
}

static struct call random_write(void)
{
    uint32_t offset = random_below(4) ? random_offset() : 0x180 + 0x10 * random_below(3);
    if (offset == 0x000 && random_below(3))
        offset = 0x00C;
    return call2(WRITE, offset, random_word(offset));
}

static struct call random_frame(void)
{
    uint32_t id = random_number() & ~1u;
    if (!(id & 4u) && random_below(20))
        id &= 0xFFE00006u;
    return frame_call(id | (random_below(40) == 0), random_below(30) ? random_below(16) : random_number(), random_number(),
                      random_number());
}

static struct call random_end(enum phase phase)
{
    if (random_below(50) == 0)
        return call1(OWN_END, random_number());
    if (phase == ERRORS && random_below(20))
        return call1(OWN_END, random_below(8) ? 1 + random_below(6) : 8);
    return call1(OWN_END, random_below(2) ? 0 : random_below(10));
}

static struct call random_call(enum phase phase)
{
    if (phase == IDLES && random_below(20))
        return call0(IDLE);
    if (phase == ERRORS && random_below(3))
        return random_below(2) ? call0(START) : random_end(phase);
    if (phase == TRAFFIC && random_below(3))
        return random_below(3) ? random_frame() : call0(random_below(2) ? START : IDLE);
    switch (random_below(random_below(500) ? 15 : 16)) {
    case 0:
    case 1:
        return call0(IDLE);
    case 2:
        return call1(BIT_TIMES, random_below(10) ? random_below(70000) : random_number());
    case 3:
        return call0(ACTIVITY);
    case 4:
    case 5:
        return call0(START);
    case 6:
    case 7:
        return random_end(phase);
    case 8:
        return random_frame();
    case 9:
        return call2(RECEIVE_ERROR, random_below(20) ? random_below(8) : random_number(),
                     random_below(10) ? 1 + 7 * random_below(2) : random_number());
    case 10:
        return call1(READ, random_offset());
    case 15:
        return call0(RESET);
    default:
        return random_write();
    }
}

/* ---- the requests, seen from outside: document 01, "Request book" ---- */

struct request {
    bool in_order;   /* every start since it was accepted was under request order */
    unsigned others; /* requests of other mailboxes that ended on the wire meanwhile */
    unsigned good;   /* own frames that ended well since */
};

struct book {
    unsigned outstanding, marks, on_wire;
    bool nart, txfp;
    struct request requests[3];
};

static void accept_request(struct book *k, unsigned m)
{
    struct request fresh = {true, 0, 0};
    k->outstanding |= 1u << m;
    k->requests[m] = fresh;
}

/* The book at loading: the requests of a block count as accepted then. */
static struct book book_of(const uint8_t *b)
{
    struct book k;
    memset(&k, 0, sizeof k);
    for (unsigned m = 0; m < 3; m++)
        if (block_requests(b) >> m & 1u)
            accept_request(&k, m);
    k.on_wire = block_on_wire(b);
    k.marks = block_aborts(b);
    k.nart = (block_mcr(b) & 0x10u) != 0;
    k.txfp = (block_mcr(b) & 0x04u) != 0;
    return k;
}

static void end_request(struct book *k, unsigned m, bool on_wire)
{
    k->outstanding &= ~(1u << m);
    k->marks &= ~(1u << m);
    for (unsigned i = 0; on_wire && i < 3; i++)
        k->requests[i].others += i != m;
}

static void book_end(struct book *k, uint32_t result)
{
    unsigned m = k->on_wire;
    k->on_wire = 3;
    if (result == 0 || k->nart || (k->marks >> m & 1u))
        end_request(k, m, true);
    for (unsigned i = 0; result == 0 && i < 3; i++)
        k->requests[i].good++;
}

static void book_write(struct book *k, uint32_t offset, uint32_t word)
{
    if (offset == 0x000 && (word & 0x8000u)) {
        memset(k, 0, sizeof *k);
        k->on_wire = 3;
    } else if (offset == 0x000) {
        k->nart = (word & 0x10u) != 0;
        k->txfp = (word & 0x04u) != 0;
    } else if (offset == 0x180 || offset == 0x190 || offset == 0x1A0) {
        if (word & 1u)
            accept_request(k, (offset - 0x180) / 0x10);
    } else if (offset == 0x008) {
        for (unsigned m = 0; m < 3; m++)
            if ((word >> (7 + 8 * m) & 1u) && (k->outstanding >> m & 1u)) {
                if (k->on_wire == m)
                    k->marks |= 1u << m;
                else
                    end_request(k, m, false);
            }
    }
}

static void book_step(struct book *k, struct call c, uint64_t answer)
{
    if (bxcan_code(answer) != BXCAN_DONE)
        return;
    if (c.which == RESET)
        book_write(k, 0x000, 0x8000u);
    else if (c.which == WRITE)
        book_write(k, c.n[0], c.n[1]);
    else if (c.which == OWN_END)
        book_end(k, c.n[0]);
    else if (c.which == START) {
        k->on_wire = bxcan_word(answer);
        for (unsigned m = 0; m < 3; m++)
            k->requests[m].in_order = k->requests[m].in_order && k->txfp;
    }
}

/* What is promised: TME of a mailbox, the others that end before a request, its end. */
static void book_check(const struct book *k, uint8_t *b)
{
    uint32_t tsr = bxcan_word(bxcan_read(BOARD, b, LENGTH, BXCAN_TSR));
    if ((tsr >> 26 & 7u) != (~k->outstanding & 7u))
        fail("TSR 0x%08X, but the outstanding requests are %u", (unsigned)tsr, k->outstanding);
    if (k->outstanding != block_requests(b) || k->on_wire != block_on_wire(b) || k->marks != block_aborts(b))
        fail("the block has the requests %u, on the wire %u, aborts %u; seen from outside %u, %u, %u", block_requests(b),
             block_on_wire(b), block_aborts(b), k->outstanding, k->on_wire, k->marks);
    for (unsigned m = 0; m < 3; m++) {
        const struct request *r = &k->requests[m];
        if ((k->outstanding >> m & 1u) && r->in_order && (r->others > 2 || r->good > 2))
            fail("mailbox %u under request order: %u others ended on the wire, %u own frames ended well, and it waits", m,
                 r->others, r->good);
    }
}

/* ---- runs ---- */

/* One call, and all that holds of it. */
static uint64_t walk(uint8_t *b, struct book *k, enum phase phase)
{
    struct call c = random_call(phase);
    uint64_t answer = make(b, c);
    if (block_fault(b, LENGTH) != NULL)
        fail("%s 0x%X 0x%X leads out of the ranges: %s", call_names[c.which], (unsigned)c.n[0], (unsigned)c.n[1],
             block_fault(b, LENGTH));
    if (bxcan_lines(answer) != block_lines(b))
        fail("%s 0x%X: lines %u, the block has %u", call_names[c.which], (unsigned)c.n[0], (unsigned)bxcan_lines(answer),
             (unsigned)block_lines(b));
    book_step(k, c, answer);
    book_check(k, b);
    return answer;
}

/* Kinds of states that the calls must reach; of each two blocks are kept. */
static const char *const kinds[KINDS] = {
    "Normal",          "a frame on the wire",  "Normal in bus-off",    "Initialization", "Initialization in bus-off",
    "Sleep",           "Sleep in bus-off",     "counting to recovery", "an abort mark",  "three requests",
    "three in FIFO 0", "an overrun of FIFO 1", "a timer that runs",
};
static uint8_t samples[SAMPLES][LENGTH];
static unsigned sample_count, kinds_seen[KINDS];

static bool is_kind(const uint8_t *b, unsigned kind)
{
    bool bus_off = b[27] > 0, on_wire = block_on_wire(b) != 3;
    uint8_t mode = b[17];
    switch (kind) {
    case 0:
        return mode == 0 && !bus_off && !on_wire;
    case 1:
        return on_wire;
    case 2:
        return mode == 0 && bus_off;
    case 3:
    case 4:
        return mode == 1 && bus_off == (kind == 4);
    case 5:
    case 6:
        return mode == 2 && bus_off == (kind == 6);
    case 7:
        return b[18] > 0;
    case 8:
        return block_aborts(b) != 0;
    case 9:
        return block_requests(b) == 7;
    case 10:
        return b[160] == 3;
    case 11:
        return b[218] == 1;
    default:
        return b[15] != 0;
    }
}

static void sample(const uint8_t *b)
{
    for (unsigned kind = 0; kind < KINDS; kind++)
        if (kinds_seen[kind] < 2 && is_kind(b, kind) && random_below(10) == 0) {
            kinds_seen[kind]++;
            memcpy(samples[sample_count++], b, LENGTH);
            return;
        }
}

static void from_reset(void)
{
    unsigned codes[6] = {0, 0, 0, 0, 0, 0};
    uint8_t *b = place(LENGTH);
    bxcan_reset(BOARD, b, LENGTH);
    struct book k = book_of(b);
    enum phase phase = MIXED;
    test("random calls from a reset: ranges, lines, refusals, requests");
    for (unsigned i = 0; i < RUN; i++) {
        if (i % PHASE == 0)
            phase = (enum phase)random_below(PHASES);
        uint64_t answer = walk(b, &k, phase);
        if (bxcan_code(answer) < 6)
            codes[bxcan_code(answer)]++;
        sample(b);
    }
    expect(guards_hold(), "no byte outside is written");
    test("the random calls reach every code and every kind of state");
    for (unsigned code = 0; code < 6; code++)
        if (codes[code] < 100)
            fail("code %u came %u times", code, codes[code]);
    for (unsigned kind = 0; kind < KINDS; kind++)
        if (kinds_seen[kind] < 2)
            fail("%s: seen %u times", kinds[kind], kinds_seen[kind]);
}

/* Calls and the reader agree on these bytes, and a read leaves them. True where they are accepted. */
static bool agreed(uint8_t *b, const char *change)
{
    uint8_t before[LENGTH];
    memcpy(before, b, LENGTH);
    uint64_t answer = bxcan_read(BOARD, b, LENGTH, BXCAN_MSR);
    const char *rule = block_fault(b, LENGTH);
    if (rule == NULL && bxcan_code(answer) != BXCAN_DONE)
        fail("%s: refused, but within docs/BLOCK.md", change);
    if (rule != NULL && answer != BXCAN_BAD_BLOCK)
        fail("%s: answer 0x%016llX, but docs/BLOCK.md is broken in %s", change, (unsigned long long)answer, rule);
    if (memcmp(before, b, LENGTH) != 0)
        fail("%s: a read has changed the bytes", change);
    return rule == NULL;
}

static void every_byte(void)
{
    uint8_t *b = place(LENGTH);
    test("every change of one byte: accepted exactly within docs/BLOCK.md");
    for (unsigned s = 0; s < sample_count; s++) {
        memcpy(b, samples[s], LENGTH);
        for (unsigned at = 0; at < LENGTH; at++)
            for (unsigned change = 1; change < 256; change++) {
                char what[60];
                b[at] ^= (uint8_t)change;
                snprintf(what, sizeof what, "sample %u, byte %u changed to 0x%02X", s, at, b[at]);
                agreed(b, what);
                b[at] ^= (uint8_t)change;
            }
    }
    expect(guards_hold(), "no byte outside is written");
}

static void cuts(void)
{
    test("cuts and extensions of blocks");
    for (unsigned s = 0; s < sample_count; s++)
        for (size_t length = 0; length < LENGTH + 200; length++) {
            uint8_t *b = place(length);
            memset(b, (int)(s % 2) * 0x49, length);
            memcpy(b, samples[s], length < LENGTH ? length : LENGTH);
            if (length != LENGTH && bxcan_read(BOARD, b, length, BXCAN_MCR) != BXCAN_BAD_BLOCK)
                fail("a block of %u bytes is accepted", (unsigned)length);
        }
}

/* The bodies of some fields from one sample and the rest from another, and small changes. */
static void mix(uint8_t *b)
{
    static const unsigned starts[11] = {0, 23, 30, 53, 76, 99, 109, 164, 219, 239, 354};
    static const unsigned places[] = {3,  5,   14,  17,  18,  19,  20,  21,  22,  26,  27,  29,  49,  50,  51,  52,  72,
                                      95, 102, 103, 104, 105, 106, 107, 108, 112, 117, 160, 162, 163, 215, 217, 218, 238};
    memcpy(b, samples[random_below(sample_count)], LENGTH);
    for (unsigned f = 0; f < 10; f++)
        if (random_below(4) == 0)
            memcpy(b + starts[f], samples[random_below(sample_count)] + starts[f], starts[f + 1] - starts[f]);
    for (unsigned n = random_below(4); n > 0; n--)
        b[places[random_below(sizeof places / sizeof places[0])]] = (uint8_t)(random_below(4) ? random_below(4) : random_number());
}

static void mixes(void)
{
    unsigned accepted = 0, tried = 60000;
    uint8_t *b = place(LENGTH);
    test("mixed blocks: accepted exactly within docs/BLOCK.md; calls from them keep ranges and requests");
    for (unsigned i = 0; i < tried; i++) {
        mix(b);
        if (!agreed(b, "a mixed block"))
            continue;
        accepted++;
        struct book k = book_of(b);
        enum phase phase = (enum phase)random_below(PHASES);
        for (unsigned n = 0; n < 12; n++)
            walk(b, &k, phase);
    }
    if (accepted < tried / 20 || accepted > tried - tried / 20)
        fail("%u of %u mixed blocks are accepted: the test says too little", accepted, tried);
    expect(guards_hold(), "no byte outside is written");
}

int main(void)
{
    random_seed(15);
    from_reset();
    every_byte();
    cuts();
    mixes();
    return tests_end("blocks");
}
