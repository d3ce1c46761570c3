#include "reader.h"

#include <stdbool.h>

/* where the bodies begin */
#define CONTROL 3
#define ERRORS 26
#define MAILBOX(m) (33 + 23 * (m))
#define REQUESTS 102
#define FIFO(f) (112 + 55 * (f))
#define FILTERS 222

#define INRQ 1u
#define SLEEP 2u
#define TTCM 0x80u
#define LBKM 0x40000000u
#define SILM 0x80000000u

enum { NORMAL, INITIALIZATION, ASLEEP };

static uint32_t word(const uint8_t *p)
{
    return p[0] | (uint32_t)p[1] << 8 | (uint32_t)p[2] << 16 | (uint32_t)p[3] << 24;
}

static uint32_t half(const uint8_t *p)
{
    return p[0] | (uint32_t)p[1] << 8;
}

static bool flags(const uint8_t *p, unsigned n)
{
    while (n-- > 0)
        if (*p++ > 1)
            return false;
    return true;
}

uint32_t block_mcr(const uint8_t *b)
{
    return word(b + CONTROL);
}

unsigned block_on_wire(const uint8_t *b)
{
    return b[REQUESTS + 3];
}

unsigned block_requests(const uint8_t *b)
{
    unsigned set = 0;
    for (unsigned i = 0; i < 3; i++)
        if (b[REQUESTS + i] < 3)
            set |= 1u << b[REQUESTS + i];
    return set;
}

unsigned block_aborts(const uint8_t *b)
{
    return b[REQUESTS + 4] | (unsigned)b[REQUESTS + 5] << 1 | (unsigned)b[REQUESTS + 6] << 2;
}

static const char *fields(const uint8_t *b, size_t length)
{
    static const uint8_t lengths[10] = {20, 4, 20, 20, 20, 7, 52, 52, 17, 112};
    size_t at = 0;
    if (length != 354)
        return "the length of the block";
    for (unsigned i = 0; i < 10; i++) {
        if (b[at] != 0x40 + i)
            return "a tag";
        if (half(b + at + 1) != lengths[i])
            return "the length of a field";
        at += 3u + lengths[i];
    }
    return NULL;
}

static const char *control(const uint8_t *b)
{
    const uint8_t *c = b + CONTROL;
    if (word(c) & ~0x000100FFu)
        return "MCR";
    if (word(c + 4) & ~0x00038F7Fu)
        return "IER";
    if (word(c + 8) & ~0xC37F03FFu)
        return "BTR";
    if (!(word(c) & TTCM) && half(c + 12) != 0)
        return "the timer";
    if (c[14] > 2)
        return "the mode";
    if (c[15] > 127)
        return "the count towards recovery";
    if (!flags(c + 16, 4))
        return "a flag of control";
    if (c[19] == 1 && c[14] != ASLEEP)
        return "SLAKI outside Sleep";
    if (half(b + ERRORS) > 263)
        return "TEC";
    return b[ERRORS + 3] > 7 ? "LEC" : NULL;
}

static const char *mailbox(const uint8_t *b, unsigned m)
{
    const uint8_t *x = b + MAILBOX(m);
    if (word(x) & 1u)
        return "TI";
    if (word(x + 4) & ~0xFFFF010Fu)
        return "TDT";
    if (!flags(x + 16, 4))
        return "a flag of a mailbox";
    if (x[16] == 1 && (block_requests(b) >> m & 1u))
        return "RQCP of a mailbox with a request";
    if (x[17] == 1 && x[16] == 0)
        return "TXOK without RQCP";
    return x[17] + x[18] + x[19] > 1 ? "two of TXOK, ALST and TERR" : NULL;
}

static const char *requests(const uint8_t *b)
{
    const uint8_t *r = b + REQUESTS;
    unsigned named = 0;
    for (unsigned i = 0; i < 3; i++) {
        if (r[i] > 3)
            return "the order";
        if (i > 0 && r[i] != 3 && r[i - 1] == 3)
            return "a gap in the order";
        if (r[i] != 3 && (named >> r[i] & 1u))
            return "a mailbox twice in the order";
        named |= r[i] != 3 ? 1u << r[i] : 0;
    }
    if (r[3] > 3 || (r[3] != 3 && !(named >> r[3] & 1u)))
        return "the mailbox on the wire";
    if (!flags(r + 4, 3))
        return "a flag of the requests";
    for (unsigned m = 0; m < 3; m++)
        if (r[4 + m] == 1 && r[3] != m)
            return "an abort of a mailbox that is not on the wire";
    return NULL;
}

static const char *frame(const uint8_t *f)
{
    uint32_t ri = word(f), rdt = word(f + 4);
    unsigned bytes = (ri & 2u) ? 0 : (rdt & 15u) > 8 ? 8 : rdt & 15u;
    if ((ri & 1u) || (!(ri & 4u) && (ri & 0x001FFFF8u)))
        return "RI";
    if ((rdt & 0xF0u) || (rdt >> 8 & 0xFFu) > 55)
        return "RDT";
    for (unsigned i = bytes; i < 8; i++)
        if (f[8 + i] != 0)
            return "data past the length";
    return NULL;
}

static const char *fifo(const uint8_t *q)
{
    unsigned count = half(q + 48);
    if (count > 3)
        return "FMP";
    if (!flags(q + 50, 2))
        return "FULL or FOVR";
    for (unsigned i = 0; i < count; i++)
        if (frame(q + 16 * i) != NULL)
            return frame(q + 16 * i);
    for (unsigned i = 16 * count; i < 48; i++)
        if (q[i] != 0)
            return "a place past the number of frames";
    return NULL;
}

static const char *filters(const uint8_t *b)
{
    for (unsigned i = 0; i < 4; i++)
        if (word(b + FILTERS + 4 * i) > 0x3FFF)
            return "a filter register";
    return b[FILTERS + 16] > 1 ? "FINIT" : NULL;
}

static const char *rules(const uint8_t *b)
{
    const uint8_t *c = b + CONTROL;
    uint32_t mcr = word(c), btr = word(c + 8), tec = half(b + ERRORS);
    bool inrq = (mcr & INRQ) != 0, sleep = (mcr & SLEEP) != 0;
    if (block_on_wire(b) != 3) {
        if (c[14] != NORMAL || tec > 255 || ((btr & SILM) && !(btr & LBKM)))
            return "rule 1";
    } else if ((c[14] == NORMAL && inrq != sleep) || (c[14] == INITIALIZATION && !inrq && sleep) ||
               (c[14] == ASLEEP && inrq && !sleep)) {
        return "rule 2";
    }
    if (tec <= 255 && (c[15] != 0 || c[16] != 0))
        return "rule 3";
    if (c[14] == INITIALIZATION && (c[15] != 0 || (tec > 255 && c[16] != 1)))
        return "rule 4";
    return NULL;
}

const char *block_fault(const uint8_t *b, size_t length)
{
    const char *fault = fields(b, length);
    if (fault == NULL)
        fault = control(b);
    for (unsigned m = 0; fault == NULL && m < 3; m++)
        fault = mailbox(b, m);
    if (fault == NULL)
        fault = requests(b);
    for (unsigned f = 0; fault == NULL && f < 2; f++)
        fault = fifo(b + FIFO(f));
    if (fault == NULL)
        fault = filters(b);
    return fault == NULL ? rules(b) : fault;
}

static bool fifo_line(const uint8_t *q, uint32_t enables)
{
    return ((enables & 1u) && half(q + 48) != 0) || ((enables & 2u) && q[50]) || ((enables & 4u) && q[51]);
}

uint32_t block_lines(const uint8_t *b)
{
    const uint8_t *c = b + CONTROL;
    uint32_t ier = word(c + 4), lines = 0;
    if ((ier & 1u) && (b[MAILBOX(0) + 16] || b[MAILBOX(1) + 16] || b[MAILBOX(2) + 16]))
        lines |= 1u;
    if (fifo_line(b + FIFO(0), ier >> 1))
        lines |= 2u;
    if (fifo_line(b + FIFO(1), ier >> 4))
        lines |= 4u;
    if (((ier >> 15 & 1u) && c[17]) || ((ier >> 16 & 1u) && c[18]) || ((ier >> 17 & 1u) && c[19]))
        lines |= 8u;
    return lines;
}
