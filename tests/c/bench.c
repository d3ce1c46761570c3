#include "bench.h"

#include <stdarg.h>
#include <stdio.h>
#include <stdlib.h>
#include <string.h>
#include <sys/mman.h>
#include <unistd.h>

const char *const call_names[CALLS] = {"reset",    "read",  "write",   "idle",  "bit times",
                                       "activity", "start", "own end", "frame", "receive error"};

/* ---- tests ---- */

static const char *name;
static unsigned passed, failed, faults;

static void close_test(void)
{
    if (name != NULL && faults == 0)
        passed++;
    else if (name != NULL)
        failed++;
    name = NULL;
}

void test(const char *next)
{
    close_test();
    name = next;
    faults = 0;
}

void fail(const char *format, ...)
{
    va_list args;
    if (getenv("FIRST_FAULT") != NULL) /* for wrong variants, which need no more than one */
        exit(1);
    if (++faults > 3)
        return;
    fprintf(stderr, "%s: ", name);
    va_start(args, format);
    vfprintf(stderr, format, args);
    va_end(args);
    fputc('\n', stderr);
}

void expect(bool holds, const char *what)
{
    if (!holds)
        fail("%s", what);
}

int tests_end(const char *program)
{
    close_test();
    printf("%s: %u passed, %u failed\n", program, passed, failed);
    return failed == 0 ? 0 : 1;
}

/* ---- blocks between guards: a page that can be used between two that cannot ---- */

#define GUARD 0xA5

static uint8_t *page, *placed;
static size_t page_size, placed_length;

static void open_page(void)
{
    page_size = (size_t)sysconf(_SC_PAGESIZE);
    uint8_t *pages = (uint8_t *)mmap(NULL, 3 * page_size, PROT_NONE, MAP_PRIVATE | MAP_ANONYMOUS, -1, 0);
    if (pages == (uint8_t *)MAP_FAILED || mprotect(pages + page_size, page_size, PROT_READ | PROT_WRITE) != 0) {
        perror("pages between guards");
        exit(2);
    }
    page = pages + page_size;
}

static uint8_t *place_from(size_t length, bool at_start)
{
    if (page == NULL)
        open_page();
    memset(page, GUARD, page_size);
    placed_length = length;
    placed = at_start ? page : page + page_size - length;
    return placed;
}

uint8_t *place(size_t length)
{
    return place_from(length, false);
}

uint8_t *place_at_start(size_t length)
{
    return place_from(length, true);
}

bool guards_hold(void)
{
    for (uint8_t *p = page; p < page + page_size; p++)
        if ((p < placed || p >= placed + placed_length) && *p != GUARD)
            return false;
    return true;
}

/* ---- calls ---- */

uint64_t raw(uint32_t board, uint8_t *block, size_t length, struct call c)
{
    switch (c.which) {
    case RESET:
        return bxcan_reset(board, block, length);
    case READ:
        return bxcan_read(board, block, length, c.n[0]);
    case WRITE:
        return bxcan_write(board, block, length, c.n[0], c.n[1]);
    case IDLE:
        return bxcan_idle(board, block, length);
    case BIT_TIMES:
        return bxcan_bit_times(board, block, length, c.n[0]);
    case ACTIVITY:
        return bxcan_activity(board, block, length);
    case START:
        return bxcan_start(board, block, length);
    case OWN_END:
        return bxcan_own_end(board, block, length, c.n[0]);
    case FRAME:
        return bxcan_frame(board, block, length, c.n[0], c.n[1], c.n[2], c.n[3]);
    default:
        return bxcan_receive_error(board, block, length, c.n[0], c.n[1]);
    }
}

static void answer_fault(struct call c, uint64_t answer, const char *what)
{
    fail("%s 0x%X 0x%X 0x%X 0x%X, answer 0x%016llX: %s", call_names[c.which], (unsigned)c.n[0], (unsigned)c.n[1], (unsigned)c.n[2],
         (unsigned)c.n[3], (unsigned long long)answer, what);
}

uint64_t make(uint8_t *block, struct call c)
{
    uint8_t before[LENGTH];
    memcpy(before, block, LENGTH);
    uint64_t quiet = bxcan_read(BOARD, block, LENGTH, 0), answer = raw(BOARD, block, LENGTH, c);
    bool same = memcmp(before, block, LENGTH) == 0;
    if ((answer & 0xFFFF0000u) != 0)
        answer_fault(c, answer, "bits 31 to 16 are not 0");
    if (bxcan_lines(answer) > 15)
        answer_fault(c, answer, "a line that does not exist");
    if (bxcan_code(answer) > 5)
        answer_fault(c, answer, "a code that is not 0 to 5");
    if (bxcan_code(answer) != 0 && bxcan_word(answer) != 0)
        answer_fault(c, answer, "a refusal with a word");
    if (bxcan_code(answer) != 0 && bxcan_lines(answer) != bxcan_lines(quiet))
        answer_fault(c, answer, "a refusal whose lines are not those of the unchanged state");
    if ((bxcan_code(answer) != 0 || c.which == READ) && !same)
        answer_fault(c, answer, "the block is not as it was");
    if (c.which != READ && c.which != START && bxcan_word(answer) != 0)
        answer_fault(c, answer, "a word that is not of a read or a start");
    return answer;
}

struct call call2(int which, uint32_t a, uint32_t b)
{
    struct call c = {which, {a, b, 0, 0}};
    return c;
}

struct call call1(int which, uint32_t a)
{
    return call2(which, a, 0);
}

struct call call0(int which)
{
    return call2(which, 0, 0);
}

struct call frame_call(uint32_t identifier, uint32_t length, uint32_t low, uint32_t high)
{
    struct call c = {FRAME, {identifier, length, low, high}};
    return c;
}

uint32_t does(uint8_t *block, struct call c, uint32_t code)
{
    uint64_t answer = make(block, c);
    if (bxcan_code(answer) != code)
        fail("%s 0x%X 0x%X: code %u, expected %u", call_names[c.which], (unsigned)c.n[0], (unsigned)c.n[1],
             (unsigned)bxcan_code(answer), (unsigned)code);
    return bxcan_word(answer);
}

uint32_t reads(uint8_t *block, uint32_t offset)
{
    return does(block, call1(READ, offset), BXCAN_DONE);
}

void writes(uint8_t *block, uint32_t offset, uint32_t word)
{
    does(block, call2(WRITE, offset, word), BXCAN_DONE);
}

/* ---- numbers: xorshift ---- */

static uint32_t state = 1;

void random_seed(uint32_t seed)
{
    state = seed * 2654435761u | 1u;
}

uint32_t random_number(void)
{
    state ^= state << 13;
    state ^= state >> 17;
    state ^= state << 5;
    return state;
}

uint32_t random_below(uint32_t n)
{
    return (uint32_t)((uint64_t)random_number() * n >> 32);
}
