/* calls STATE CALL COUNT: makes the call of that number COUNT times, each from the same block; calls names: the calls. For tools/calls. */
#include <stdio.h>
#include <stdlib.h>
#include <string.h>
#include "bxcan.h"

#define BOARD BXCAN_STM32F334

static uint8_t block[BXCAN_BLOCK_SIZE];
static uint8_t kept[BXCAN_BLOCK_SIZE];
static size_t len;

static void must(uint64_t answer)
{
    if (bxcan_code(answer) != BXCAN_DONE) {
        fprintf(stderr, "calls: refused %u while the state is made\n", (unsigned)bxcan_code(answer));
        exit(1);
    }
}

static void set(uint32_t offset, uint32_t word)
{
    must(bxcan_write(BOARD, block, len, offset, word));
}

static uint32_t standard(uint32_t identifier)
{
    return identifier << 21;
}

/* Normal, request order, all interrupts enabled, eight active 32-bit masks: even banks in FIFO 0, odd ones in FIFO 1. */
static void ordinary(void)
{
    must(bxcan_reset(BOARD, block, len));
    set(BXCAN_MCR, 0x1);
    set(BXCAN_BTR, 0x00230000);
    set(BXCAN_FS1R, 0xFF);
    set(BXCAN_FFA1R, 0xAA);
    for (uint32_t bank = 0; bank < 8; bank++) {
        set(BXCAN_FR1(bank), standard(0x100 + 0x80 * bank));
        set(BXCAN_FR2(bank), 0xFFE00000);
    }
    set(BXCAN_FA1R, 0xFF);
    set(BXCAN_FMR, 0x2A1C0E00);
    set(BXCAN_IER, 0x00038F7F);
    set(BXCAN_MCR, 0x4);
    must(bxcan_idle(BOARD, block, len));
}

static void full(void)
{
    for (uint32_t mailbox = 0; mailbox < 3; mailbox++) {
        set(BXCAN_TDTR(mailbox), 8);
        set(BXCAN_TIR(mailbox), standard(0x100) | 1);
    }
    for (uint32_t i = 0; i < 8; i++)
        must(bxcan_frame(BOARD, block, len, standard(0x100 + 0x80 * (i % 2)), 5, 0x44332211, 0x55));
}

static const char *const calls[] = {
    "read MCR",
    "read TSR",
    "write IER",
    "write TSR, clears and aborts",
    "write a bank's word",
    "frame, first bank matches",
    "frame, no filter matches",
    "read at no register",
    "read, another tag in the last field",
    "reset",
};

static uint64_t made(int call)
{
    switch (call) {
    case 0:
        return bxcan_read(BOARD, block, len, BXCAN_MCR);
    case 1:
        return bxcan_read(BOARD, block, len, BXCAN_TSR);
    case 2:
        return bxcan_write(BOARD, block, len, BXCAN_IER, 0x7F);
    case 3:
        return bxcan_write(BOARD, block, len, BXCAN_TSR, 0xFFFFFFFF);
    case 4:
        return bxcan_write(BOARD, block, len, BXCAN_FR1(9), 0x12345678);
    case 5:
        return bxcan_frame(BOARD, block, len, standard(0x100), 8, 0x44332211, 0x88776655);
    case 6:
        return bxcan_frame(BOARD, block, len, standard(0x7FF), 8, 0x44332211, 0x88776655);
    case 7:
        return bxcan_read(BOARD, block, len, 0x2B0);
    case 8:
        block[239] = 0;
        return bxcan_read(BOARD, block, len, BXCAN_MCR);
    case 9:
        return bxcan_reset(BOARD, block, len);
    default:
        return 0;
    }
}

int main(int argc, char **argv)
{
    if (argc == 2 && !strcmp(argv[1], "names")) {
        for (size_t i = 0; i < sizeof calls / sizeof calls[0]; i++)
            printf("%d %s\n", (int)i, calls[i]);
        return 0;
    }
    if (argc != 4) {
        fprintf(stderr, "usage: calls names | calls STATE CALL COUNT\n");
        return 2;
    }
    len = bxcan_block_size(BOARD);
    ordinary();
    if (atoi(argv[1]))
        full();
    memcpy(kept, block, len);
    int call = atoi(argv[2]);
    uint64_t answer = 0;
    for (long i = atol(argv[3]); i > 0; i--) {
        memcpy(block, kept, len);
        answer ^= made(call);
    }
    printf("%llx\n", (unsigned long long)answer);
    return 0;
}
