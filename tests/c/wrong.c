/*
 * Wrong variants of the calls, to see that the tests notice them. Linked with --wrap=.. for every call; the number in the
 * environment variable WRONG says which one is made; 0 is none.
 *
 *  1  code and lines exchanged
 *  2  a bit of 31 to 16 is set
 *  3  the word's halves exchanged
 *  4  a refused block is written to
 *  5  the byte behind the block is written
 *  6  the byte before the block is written
 *  7  the byte behind the block is read
 *  8  an offset by its low 16 bits
 *  9  a result by its low byte
 * 10  a length by its low byte
 * 11  bit times by their low 16 bits
 * 12  an error code by its low byte
 * 13  an error step by its low byte
 * 14  every board is board 0
 * 15  a longer block is accepted
 * 16  a reset refuses a damaged block
 * 17  a reset works for every board
 * 18  a null pointer is read
 * 19  a refused block has lines
 * 20  a refusal has a word
 * 21  the data words of a frame exchanged
 * 22  the data bytes of a frame the other way round
 * 23  IDE and RTR of a frame exchanged
 * 24  the size of board 0 one less
 * 25  board 1 has a size
 * 26  10 after 1
 * 27  10 after 5
 * 28  TEC 264 accepted
 * 29  recovery count 128 accepted
 * 30  FMI 56 accepted
 * 31  a mailbox twice in the order accepted
 * 32  a frame on the wire outside the order accepted
 * 33  a frame on the wire outside Normal accepted
 * 34  a frame on the wire in bus-off accepted
 * 35  RQCP of a mailbox with a request accepted
 * 36  a timer with TTCM=0 accepted
 * 37  SLAKI outside Sleep accepted
 * 38  an abort of a mailbox that is not on the wire accepted
 * 39  a flag of 2 accepted
 * 40  a place past the number of frames not looked at
 * 41  TEC 263 refused
 * 42  REC 255 refused
 * 43  LEC 7 refused
 * 44  FMI 55 refused
 * 45  recovery count 127 refused
 * 46  FULL of a FIFO that is not full refused
 * 47  a refused write is made in part
 * 48  a refusal has no lines
 * 49  a read changes the block
 * 50  the word of a start is 0
 * 51  TME of mailbox 0 the other way round
 * 52  the last byte of the block is not saved
 * 53  request order is not kept
 * 54  offsets above the map are 0
 * 55  a reset leaves the filter banks
 * 56  arbitration lost is a good end
 * 57  an end alone raises TEC
 * 58  an end alone is accepted while error active
 * 59  an end alone goes by TEC alone
 * 60  a result of 9 is an end alone
 */
#include <stdlib.h>
#include <string.h>

#include "bench.h"

size_t __real_bxcan_block_size(uint32_t board);
uint64_t __real_bxcan_reset(uint32_t board, uint8_t *b, size_t len);
uint64_t __real_bxcan_read(uint32_t board, uint8_t *b, size_t len, uint32_t offset);
uint64_t __real_bxcan_write(uint32_t board, uint8_t *b, size_t len, uint32_t offset, uint32_t word);
uint64_t __real_bxcan_idle(uint32_t board, uint8_t *b, size_t len);
uint64_t __real_bxcan_bit_times(uint32_t board, uint8_t *b, size_t len, uint32_t n);
uint64_t __real_bxcan_activity(uint32_t board, uint8_t *b, size_t len);
uint64_t __real_bxcan_start(uint32_t board, uint8_t *b, size_t len);
uint64_t __real_bxcan_own_end(uint32_t board, uint8_t *b, size_t len, uint32_t result);
uint64_t __real_bxcan_frame(uint32_t board, uint8_t *b, size_t len, uint32_t id, uint32_t length, uint32_t low, uint32_t high);
uint64_t __real_bxcan_receive_error(uint32_t board, uint8_t *b, size_t len, uint32_t code, uint32_t step);

static int variant(void)
{
    static int number = -1;
    if (number < 0)
        number = getenv("WRONG") ? atoi(getenv("WRONG")) : 0;
    return number;
}

static uint64_t real_call(uint32_t board, uint8_t *b, size_t len, struct call c)
{
    switch (c.which) {
    case RESET:
        return __real_bxcan_reset(board, b, len);
    case READ:
        return __real_bxcan_read(board, b, len, c.n[0]);
    case WRITE:
        return __real_bxcan_write(board, b, len, c.n[0], c.n[1]);
    case IDLE:
        return __real_bxcan_idle(board, b, len);
    case BIT_TIMES:
        return __real_bxcan_bit_times(board, b, len, c.n[0]);
    case ACTIVITY:
        return __real_bxcan_activity(board, b, len);
    case START:
        return __real_bxcan_start(board, b, len);
    case OWN_END:
        return __real_bxcan_own_end(board, b, len, c.n[0]);
    case FRAME:
        return __real_bxcan_frame(board, b, len, c.n[0], c.n[1], c.n[2], c.n[3]);
    default:
        return __real_bxcan_receive_error(board, b, len, c.n[0], c.n[1]);
    }
}

/* Bytes that only a wrong range would accept (28 to 40) or refuse (41 to 46). */
static bool in_wrong_range(const uint8_t *b)
{
    switch (variant()) {
    case 28:
        return b[26] == 8 && b[27] == 1;
    case 29:
        return b[18] == 128;
    case 30:
        return b[160] > 0 && b[117] == 56;
    case 31:
        return b[102] < 3 && b[102] == b[103];
    case 32:
        return b[105] < 3 && b[102] == 3;
    case 33:
        return b[105] < 3 && b[17] == 1;
    case 34:
        return b[105] < 3 && b[27] == 1;
    case 35:
        return b[102] == 0 && b[49] == 1;
    case 36:
        return !(b[3] & 0x80) && b[15] != 0;
    case 37:
        return b[22] == 1 && b[17] == 0;
    case 38:
        return b[106] == 1 && b[105] != 0;
    case 39:
        return b[238] == 2;
    case 40:
        return b[160] == 0 && b[120] != 0;
    case 41:
        return b[26] == 7 && b[27] == 1;
    case 42:
        return b[28] == 255;
    case 43:
        return b[29] == 7;
    case 44:
        return b[160] > 0 && b[117] == 55;
    case 45:
        return b[18] == 127;
    case 46:
        return b[162] == 1 && b[160] < 3;
    default:
        return false;
    }
}

static uint32_t reversed(uint32_t w)
{
    return w >> 24 | (w >> 8 & 0xFF00u) | (w << 8 & 0xFF0000u) | w << 24;
}

static struct call changed_call(struct call c)
{
    uint32_t a = c.n[0];
    int v = variant();
    if ((v == 8 && (c.which == READ || c.which == WRITE)) || (v == 11 && c.which == BIT_TIMES))
        c.n[0] &= 0xFFFF;
    if ((v == 9 && c.which == OWN_END) || (v == 12 && c.which == RECEIVE_ERROR))
        c.n[0] &= 0xFF;
    if ((v == 10 && c.which == FRAME) || (v == 13 && c.which == RECEIVE_ERROR))
        c.n[1] &= 0xFF;
    if (v == 21 && c.which == FRAME) {
        c.n[2] ^= c.n[3];
        c.n[3] ^= c.n[2];
        c.n[2] ^= c.n[3];
    }
    if (v == 22 && c.which == FRAME) {
        c.n[2] = reversed(c.n[2]);
        c.n[3] = reversed(c.n[3]);
    }
    if (v == 23 && c.which == FRAME)
        c.n[0] = (a & ~6u) | (a & 2u) << 1 | (a & 4u) >> 1;
    if (v == 54 && c.which == READ && a > 0x2AC)
        c.n[0] = 0;
    if (v == 56 && c.which == OWN_END && a == 7)
        c.n[0] = 0;
    if (v == 60 && c.which == OWN_END && a == 9)
        c.n[0] = 8;
    return c;
}

/* What is wrong before the call; true: *answer is the answer. */
static bool instead(uint32_t board, uint8_t *b, size_t len, struct call c, uint64_t *answer)
{
    int v = variant();
    bool whole = board == 0 && len == LENGTH, odd = (c.which == READ || c.which == WRITE) && c.n[0] % 4 != 0;
    *answer = v >= 41 && v <= 46 ? 10 : 0;
    if (v >= 28 && v <= 46 && whole && c.which != RESET && in_wrong_range(b))
        return v >= 41 || bxcan_code(__real_bxcan_read(board, b, len, 0)) == 10;
    *answer = v == 26 ? 1 : v == 27 ? 5 : 10;
    return (v == 16 && whole && c.which == RESET && b[0] != 0x40) || (v == 26 && odd) ||
           (v == 27 && c.which == OWN_END && c.n[0] > 8);
}

static uint64_t afterwards(uint8_t *b, size_t len, struct call c, const uint8_t *before, uint64_t answer)
{
    int v = variant();
    bool whole = len == LENGTH, refused = bxcan_code(answer) != 0, bad = bxcan_code(answer) == 10;
    if (v == 4 && bad && len > 0)
        b[len - 1] ^= 1;
    if (v == 5 && whole)
        b[len] ^= 1;
    if (v == 6 && whole)
        b[-1] ^= 1;
    if (v == 7 && whole && *(volatile uint8_t *)(b + len) == 1)
        answer ^= 1;
    if (v == 18 && len == 0 && *(volatile uint8_t *)b == 1)
        answer ^= 1;
    if (v == 47 && bxcan_code(answer) == 2)
        b[353] ^= 1;
    if (v == 49 && c.which == READ && !refused)
        b[29] = 0;
    if (v == 52 && whole && c.which != RESET)
        b[353] = before[353];
    if (v == 55 && whole && c.which == RESET)
        memcpy(b + 242, before + 242, 112);
    if (v == 19 && bad)
        answer |= 0x100;
    if (v == 20 && refused && !bad)
        answer |= 1ull << 32;
    if (v == 48 && refused)
        answer &= 0xFF;
    if (v == 50 && c.which == START)
        answer &= 0xFFFF;
    if (v == 51 && c.which == READ && c.n[0] == 8 && !refused)
        answer ^= 1ull << 58;
    return answer;
}

static uint64_t through(uint32_t board, uint8_t *b, size_t len, struct call c)
{
    int v = variant();
    uint8_t before[LENGTH] = {0};
    uint64_t answer;
    if (len == LENGTH)
        memcpy(before, b, LENGTH);
    if (v == 14 || (v == 17 && c.which == RESET))
        board = 0;
    if (v == 15 && len > LENGTH)
        len = LENGTH;
    c = changed_call(c);
    if (c.which == OWN_END && c.n[0] == 8 && board == 0 && len == LENGTH) {
        bool by_tec = b[27] > 0 || b[26] > 127, passive = by_tec || b[28] > 127;
        if ((v == 57 && passive) || (v == 58 && !passive))
            c.n[0] = 3;
        if (v == 59 && !by_tec)
            return (__real_bxcan_read(board, b, len, 1) & ~0xFFull) | 4;
    }
    if (instead(board, b, len, c, &answer))
        return answer;
    bool exchange = v == 53 && c.which == START && len == LENGTH && board == 0;
    if (exchange)
        b[3] ^= 4;
    answer = real_call(board, b, len, c);
    if (exchange)
        b[3] ^= 4;
    answer = afterwards(b, len, c, before, answer);
    if (v == 1)
        answer = (answer & ~0xFFFFull) | (answer & 0xFF) << 8 | (answer >> 8 & 0xFF);
    if (v == 2)
        answer |= 0x10000;
    if (v == 3)
        answer = (answer & 0xFFFFFFFF) | (answer >> 16 & 0xFFFF00000000) | (answer << 16 & 0xFFFF000000000000);
    return answer;
}

#define WRAPPED(name) __wrap_bxcan_##name

size_t WRAPPED(block_size)(uint32_t board)
{
    if (variant() == 25 && board == 1)
        return LENGTH;
    return __real_bxcan_block_size(board) - (variant() == 24 && board == 0);
}

uint64_t WRAPPED(reset)(uint32_t board, uint8_t *b, size_t len)
{
    return through(board, b, len, call0(RESET));
}

uint64_t WRAPPED(read)(uint32_t board, uint8_t *b, size_t len, uint32_t offset)
{
    return through(board, b, len, call1(READ, offset));
}

uint64_t WRAPPED(write)(uint32_t board, uint8_t *b, size_t len, uint32_t offset, uint32_t word)
{
    return through(board, b, len, call2(WRITE, offset, word));
}

uint64_t WRAPPED(idle)(uint32_t board, uint8_t *b, size_t len)
{
    return through(board, b, len, call0(IDLE));
}

uint64_t WRAPPED(bit_times)(uint32_t board, uint8_t *b, size_t len, uint32_t n)
{
    return through(board, b, len, call1(BIT_TIMES, n));
}

uint64_t WRAPPED(activity)(uint32_t board, uint8_t *b, size_t len)
{
    return through(board, b, len, call0(ACTIVITY));
}

uint64_t WRAPPED(start)(uint32_t board, uint8_t *b, size_t len)
{
    return through(board, b, len, call0(START));
}

uint64_t WRAPPED(own_end)(uint32_t board, uint8_t *b, size_t len, uint32_t result)
{
    return through(board, b, len, call1(OWN_END, result));
}

uint64_t WRAPPED(frame)(uint32_t board, uint8_t *b, size_t len, uint32_t id, uint32_t length, uint32_t low, uint32_t high)
{
    return through(board, b, len, frame_call(id, length, low, high));
}

uint64_t WRAPPED(receive_error)(uint32_t board, uint8_t *b, size_t len, uint32_t code, uint32_t step)
{
    return through(board, b, len, call2(RECEIVE_ERROR, code, step));
}
