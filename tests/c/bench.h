/* What the C tests share: a block between guards, calls whose answers are looked at, and the count of tests. C99 and C++11. */
#ifndef BENCH_H
#define BENCH_H

#include <stdbool.h>
#include <stddef.h>
#include <stdint.h>

#include "bxcan.h"

#define BOARD BXCAN_STM32F334
#define LENGTH 354u /* docs/BLOCK.md; not from bxcan.h, so that a change there is noticed */

enum { RESET, READ, WRITE, IDLE, BIT_TIMES, ACTIVITY, START, OWN_END, FRAME, RECEIVE_ERROR, CALLS };

struct call {
    int which;
    uint32_t n[4]; /* the numbers behind the length, in their order */
};

extern const char *const call_names[CALLS];

/* ---- tests: each is begun by a name and failed by fail, at most a few times in words ---- */

void test(const char *name);
void fail(const char *format, ...);
void expect(bool holds, const char *what);
int tests_end(const char *program); /* prints 'N passed, M failed'; the exit status */

/* ---- blocks between guards ----
 * A place for `length` bytes: the byte behind it cannot be touched, and a change of any byte before it is noticed by guards_hold.
 */

uint8_t *place(size_t length);
uint8_t *place_at_start(size_t length); /* the byte before it cannot be touched */
bool guards_hold(void);

/* ---- calls ---- */

/* Just the call. */
uint64_t raw(uint32_t board, uint8_t *block, size_t length, struct call c);

/* The call on a block of board 0 that must be accepted, and what holds of every answer: bits 31 to 16 are 0; a code of 0 to 5; with
 * another code than 0 the word is 0, the block as it was and the lines those of a read; a read leaves the block; no byte outside is
 * changed. */
uint64_t make(uint8_t *block, struct call c);

struct call call0(int which);
struct call call1(int which, uint32_t a);
struct call call2(int which, uint32_t a, uint32_t b);
struct call frame_call(uint32_t identifier, uint32_t length, uint32_t low, uint32_t high);

/* make, and a code that must come; the word. */
uint32_t does(uint8_t *block, struct call c, uint32_t code);
uint32_t reads(uint8_t *block, uint32_t offset);
void writes(uint8_t *block, uint32_t offset, uint32_t word);

/* Numbers that look random, the same in each run. */
uint32_t random_number(void);
uint32_t random_below(uint32_t n);
void random_seed(uint32_t seed);

#endif
