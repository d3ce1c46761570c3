/*
 * The bxCAN controller of the STM32 as proved software, called from C99 or C++.
 *
 * The caller lends a block of bytes that holds the whole state of one controller. Each call is one step: a register access, a bus
 * event or a hardware reset. It looks at the block, changes it, and answers in one number. Nothing is kept between calls outside the
 * block, so there may be any number of blocks. A block belongs to one thread at a time.
 *
 *     uint8_t block[BXCAN_BLOCK_SIZE];
 *     size_t len = bxcan_block_size(BXCAN_STM32F334);
 *     bxcan_reset(BXCAN_STM32F334, block, len);
 *     uint32_t mcr = bxcan_word(bxcan_read(BXCAN_STM32F334, block, len, BXCAN_MCR));
 *
 * How to build and link, and what to do at each code: docs/FIRMWARE.md. The bytes of a block: docs/BLOCK.md.
 */
#ifndef BXCAN_H
#define BXCAN_H

#include <stddef.h>
#include <stdint.h>

#ifdef __cplusplus
extern "C" {
#endif

/* ---- boards: the first argument of every call ---- */

#define BXCAN_STM32F334 0u /* 14 filter banks */

/* Bytes for an array that can hold the block of any board. The length to pass is that of the board, bxcan_block_size(board), and not
 * the size of the array: another board may need more bytes than this one. */
#define BXCAN_BLOCK_SIZE 354u

/* ---- codes: bits 7 to 0 of an answer ----
 * With any code but BXCAN_DONE the block is as it was and the word is 0; the lines are those of the unchanged state, with
 * BXCAN_BAD_BLOCK 0. BXCAN_BAD_BLOCK comes before all other codes; then for an access 1, 3, 2 and for an event 5, 4. */

#define BXCAN_DONE 0u         /* the step was made */
#define BXCAN_NO_REGISTER 1u  /* the offset is no multiple of 4 or not in the board's register map */
#define BXCAN_LOCKED 2u       /* a write to BTR outside Initialization; to a mailbox that is not empty; to FM1R, FS1R or FFA1R with
                                 FINIT=0; to the value of an active filter bank with FINIT=0 */
#define BXCAN_READ_ONLY 3u    /* a write to a word of a receive FIFO's output */
#define BXCAN_WRONG_STATE 4u  /* an event that the controller cannot have in its state */
#define BXCAN_OUT_OF_RANGE 5u /* a number of an event is out of its range */
#define BXCAN_BAD_BLOCK 10u   /* no state of this board is saved as these bytes: another length, damaged bytes, or no such board */

/* ---- interrupt lines: bits 15 to 8 of an answer ----
 * Levels, not edges: a line is up as long as a flag with its enable bit in IER is. */

#define BXCAN_LINE_TX 1u    /* a mailbox has RQCP=1 */
#define BXCAN_LINE_FIFO0 2u /* FIFO 0: message pending, full or overrun */
#define BXCAN_LINE_FIFO1 4u /* FIFO 1: the same */
#define BXCAN_LINE_SCE 8u   /* status change and error: ERRI, WKUI or SLAKI */

/* ---- how an own frame ends, and errors, by their numbers in LEC ---- */

#define BXCAN_END_GOOD 0u            /* bxcan_own_end: sent and acknowledged */
#define BXCAN_ERROR_STUFF 1u         /* bxcan_own_end and bxcan_receive_error: stuff error */
#define BXCAN_ERROR_FORM 2u          /* form error */
#define BXCAN_ERROR_ACK 3u           /* acknowledgment error: nobody acknowledged */
#define BXCAN_ERROR_BIT_RECESSIVE 4u /* bit error: a recessive bit was sent and a dominant one seen */
#define BXCAN_ERROR_BIT_DOMINANT 5u  /* bit error: a dominant bit was sent and a recessive one seen */
#define BXCAN_ERROR_CRC 6u           /* CRC error */
#define BXCAN_END_LOST 7u            /* bxcan_own_end: arbitration was lost */
#define BXCAN_END_ALONE 8u           /* bxcan_own_end: nobody acknowledged, and an error-passive node (EPVF=1) saw no dominant bit
                                        during its error flag: as BXCAN_ERROR_ACK, LEC=3, but TEC stays (CAN 2.0) */

/* ---- register offsets ---- */

#define BXCAN_MCR 0x000u
#define BXCAN_MSR 0x004u
#define BXCAN_TSR 0x008u
#define BXCAN_RF0R 0x00Cu
#define BXCAN_RF1R 0x010u
#define BXCAN_IER 0x014u
#define BXCAN_ESR 0x018u
#define BXCAN_BTR 0x01Cu
#define BXCAN_FMR 0x200u
#define BXCAN_FM1R 0x204u
#define BXCAN_FS1R 0x20Cu
#define BXCAN_FFA1R 0x214u
#define BXCAN_FA1R 0x21Cu
#define BXCAN_RFR(fifo) (0x00Cu + 0x04u * (fifo)) /* RF0R, RF1R */
#define BXCAN_TIR(mailbox) (0x180u + 0x10u * (mailbox))
#define BXCAN_TDTR(mailbox) (0x184u + 0x10u * (mailbox))
#define BXCAN_TDLR(mailbox) (0x188u + 0x10u * (mailbox))
#define BXCAN_TDHR(mailbox) (0x18Cu + 0x10u * (mailbox))
#define BXCAN_RIR(fifo) (0x1B0u + 0x10u * (fifo))
#define BXCAN_RDTR(fifo) (0x1B4u + 0x10u * (fifo))
#define BXCAN_RDLR(fifo) (0x1B8u + 0x10u * (fifo))
#define BXCAN_RDHR(fifo) (0x1BCu + 0x10u * (fifo))
#define BXCAN_FR1(bank) (0x240u + 0x08u * (bank))
#define BXCAN_FR2(bank) (0x244u + 0x08u * (bank))

/* ---- calls ----
 * `block` points to `len` bytes that no one else uses meanwhile; with len 0 it may be null. Any value of the other numbers is answered.
 * Every call can give BXCAN_BAD_BLOCK. */

/* The length of a board's block; 0: there is no such board, and every call for it gives BXCAN_BAD_BLOCK. */
size_t bxcan_block_size(uint32_t board);

/* A hardware reset. Writes the reset state whatever the bytes were; BXCAN_BAD_BLOCK only for a wrong length. */
uint64_t bxcan_reset(uint32_t board, uint8_t *block, size_t len);

/* Reads a register; the word is its value. Changes nothing. BXCAN_NO_REGISTER. */
uint64_t bxcan_read(uint32_t board, uint8_t *block, size_t len, uint32_t offset);

/* Writes a register. BXCAN_NO_REGISTER, BXCAN_READ_ONLY, BXCAN_LOCKED. */
uint64_t bxcan_write(uint32_t board, uint8_t *block, size_t len, uint32_t offset, uint32_t word);

/* The bus was idle for 11 recessive bits: ends the wait for Normal mode, counts towards the recovery from bus-off.
 * BXCAN_WRONG_STATE with an own frame on the wire. */
uint64_t bxcan_idle(uint32_t board, uint8_t *block, size_t len);

/* n bit times pass, 1 to 65535: the timer of TTCM=1. BXCAN_OUT_OF_RANGE. */
uint64_t bxcan_bit_times(uint32_t board, uint8_t *block, size_t len, uint32_t n);

/* The bus becomes active while the controller sleeps. BXCAN_WRONG_STATE outside Sleep. */
uint64_t bxcan_activity(uint32_t board, uint8_t *block, size_t len);

/* The bus is free: the first mailbox in priority goes on the wire; the word is its number. BXCAN_WRONG_STATE where there is nothing to
 * send or the controller may not send: outside Normal, in bus-off, with an own frame on the wire, in silent mode without loopback. */
uint64_t bxcan_start(uint32_t board, uint8_t *block, size_t len);

/* The own frame ends: BXCAN_END_GOOD, BXCAN_END_LOST, BXCAN_END_ALONE or one of BXCAN_ERROR_.. . BXCAN_OUT_OF_RANGE for another
 * result; BXCAN_WRONG_STATE with none on the wire, for BXCAN_ERROR_ACK and BXCAN_END_ALONE in loopback, and for BXCAN_END_ALONE with
 * EPVF=0. */
uint64_t bxcan_own_end(uint32_t board, uint8_t *block, size_t len, uint32_t result);

/* A frame of another node came without error. `identifier` is as in RI: bits 31 to 21 standard or 31 to 3 extended, bit 2 IDE, bit 1
 * RTR, bit 0 is 0. `length` is the length code, 0 to 15. Data byte 0 is bits 7 to 0 of data_low, byte 4 bits 7 to 0 of data_high.
 * BXCAN_OUT_OF_RANGE: bit 0, bits 20 to 3 of a standard identifier, a length above 15. BXCAN_WRONG_STATE outside Normal, in bus-off,
 * with an own frame on the wire, in loopback, with FINIT=1. */
uint64_t bxcan_frame(uint32_t board, uint8_t *block, size_t len, uint32_t identifier, uint32_t length, uint32_t data_low,
                     uint32_t data_high);

/* A frame of another node had an error: code is one of BXCAN_ERROR_.., step is what REC goes up by, 1 or 8. BXCAN_OUT_OF_RANGE;
 * BXCAN_WRONG_STATE as for bxcan_frame. */
uint64_t bxcan_receive_error(uint32_t board, uint8_t *block, size_t len, uint32_t code, uint32_t step);

/* ---- an answer taken apart ---- */

static inline uint32_t bxcan_code(uint64_t answer)
{
    return (uint32_t)(answer & 0xFFu);
}

static inline uint32_t bxcan_lines(uint64_t answer)
{
    return (uint32_t)(answer >> 8 & 0xFFu);
}

static inline uint32_t bxcan_word(uint64_t answer)
{
    return (uint32_t)(answer >> 32);
}

/* A code in words, for messages. */
static inline const char *bxcan_code_name(uint32_t code)
{
    switch (code) {
    case BXCAN_DONE:
        return "done";
    case BXCAN_NO_REGISTER:
        return "no such register";
    case BXCAN_LOCKED:
        return "locked";
    case BXCAN_READ_ONLY:
        return "read only";
    case BXCAN_WRONG_STATE:
        return "not in this state";
    case BXCAN_OUT_OF_RANGE:
        return "number out of range";
    case BXCAN_BAD_BLOCK:
        return "block refused";
    default:
        return "unknown code";
    }
}

/* The lines that are up, by name; "-" where none is. */
static inline const char *bxcan_line_names(uint32_t lines)
{
    static const char *const names[16] = {
        "-",         "TX",           "FIFO0",           "TX FIFO0",
        "FIFO1",     "TX FIFO1",     "FIFO0 FIFO1",     "TX FIFO0 FIFO1",
        "SCE",       "TX SCE",       "FIFO0 SCE",       "TX FIFO0 SCE",
        "FIFO1 SCE", "TX FIFO1 SCE", "FIFO0 FIFO1 SCE", "TX FIFO0 FIFO1 SCE",
    };
    return lines < 16u ? names[lines] : "unknown lines";
}

#ifdef __cplusplus
}
#endif

#endif
