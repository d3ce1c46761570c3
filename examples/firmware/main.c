/* A gate's CAN driver on the bench: each part of its work once, and what happened. The exit status is 0 where all of it was as it
 * should be. */
#include <stdio.h>
#include <string.h>

#include "bus.h"
#include "bxcan.h"
#include "can_bits.h"
#include "gate_can.h"
#include "port.h"

static const char *const results[] = {"ok", "given up", "no room"};

static void title(const char *text)
{
    tell_rest();
    printf("\n%s\n", text);
}

static void expect(enum gate_can_result came, enum gate_can_result wanted, const char *what)
{
    tell("gate", "%s: %s", what, results[came]);
    if (came != wanted)
        fault("%s: %s, expected %s", what, results[came], results[wanted]);
}

static void expect_number(unsigned came, unsigned wanted, const char *what)
{
    tell("gate", "%s: %u", what, came);
    if (came != wanted)
        fault("%s: %u, expected %u", what, came, wanted);
}

static struct can_frame report(uint8_t first)
{
    struct can_frame frame = {0x205, false, false, 2, {first, 0x5A}};
    return frame;
}

static void probe_wants(unsigned probe, uint8_t turbidity)
{
    struct can_frame frame = {PROBE_ID + probe, false, false, 3, {turbidity, 0, 1}};
    bus_wants("probe", &frame);
}

static void order_wants(uint32_t id, uint8_t opening)
{
    struct can_frame frame = {id, true, false, 1, {opening}};
    bus_wants("control", &frame);
}

/* What the handler of a FIFO has stored. */
static unsigned take_received(unsigned fifo)
{
    struct can_received r;
    unsigned n = 0;
    for (; gate_can_received(fifo, &r); n++)
        tell("gate", "FIFO %u, filter %u: %s at %u bit times", fifo, (unsigned)r.filter, frame_text(&r.frame), (unsigned)r.time);
    return n;
}

static void initialization(void)
{
    title("1. Initialization and filters");
    bus_power_on();
    tell("gate", "after reset: MCR 0x%08X, MSR 0x%08X", (unsigned)can_read(BXCAN_MCR), (unsigned)can_read(BXCAN_MSR));
    expect(gate_can_init(), GATE_CAN_OK, "initialization");
    tell("gate", "now:         MCR 0x%08X, MSR 0x%08X, BTR 0x%08X", (unsigned)can_read(BXCAN_MCR), (unsigned)can_read(BXCAN_MSR),
         (unsigned)can_read(BXCAN_BTR));
}

static void polling(void)
{
    struct can_frame frame = report(1);
    title("2. Sending with polling");
    expect(gate_can_send(&frame), GATE_CAN_OK, "a report");
    frame = report(2);
    probe_wants(2, 40); /* 0x312 goes behind 0x205 */
    expect(gate_can_send(&frame), GATE_CAN_OK, "a report against a higher identifier");
    struct can_frame alarm = {0x080, false, false, 0, {0}};
    frame = report(3);
    bus_wants("pump", &alarm);
    expect(gate_can_send(&frame), GATE_CAN_OK, "a report against a lower identifier");
    bus_is(BUS_ALONE);
    frame = report(4);
    expect(gate_can_send(&frame), GATE_CAN_TIMEOUT, "a report without another node");
    expect_number((unsigned)CAN_ESR_TEC(can_read(BXCAN_ESR)), 48, "TEC");
    bus_is(BUS_GOOD);
}

static void sending(void)
{
    title("3. Sending by interrupt, in the order of the requests");
    gate_can_interrupts();
    tell("gate", "interrupts on");
    bus_passes(1);
    for (uint8_t i = 0; i < 4; i++) {
        struct can_frame frame = report((uint8_t)(0x10 + i));
        expect(gate_can_queue(&frame), GATE_CAN_OK, "queued");
    }
    /* by its identifier this one would go first */
    struct can_frame urgent = {0x005, false, false, 1, {0xFF}};
    expect(gate_can_queue(&urgent), GATE_CAN_OK, "queued");
    bus_passes(6);
    expect_number(gate_can_counts().sent, 5, "sent by interrupt");
}

static void receiving(void)
{
    title("4. Receiving by interrupt");
    probe_wants(3, 41);
    order_wants(ORDER_ALL_ID, 50);
    order_wants(ORDER_ID + 1, 60); /* another gate's */
    order_wants(ORDER_ID, 70);
    bus_passes(4);
    expect_number(take_received(0), 2, "from the probes");
    expect_number(take_received(1), 2, "orders");

    tell("gate", "interrupts off");
    irq_disable();
    for (unsigned i = 4; i < 8; i++)
        probe_wants(i, (uint8_t)(40 + i));
    bus_passes(4);
    tell("gate", "interrupts on");
    irq_enable();
    expect_number(take_received(0), 3, "from the probes (the fourth took the third's place)");
    expect_number(gate_can_counts().overruns, 1, "overruns");
}

static void bus_off(void)
{
    title("5. Bus-off");
    struct can_frame frame = report(0x20);
    bus_is(BUS_SHORTED);
    gate_can_queue(&frame);
    for (unsigned tries = 0; !gate_can_bus_off() && tries < 100; tries++)
        bus_pass();
    tell("gate", "bus-off, ESR 0x%08X", (unsigned)can_read(BXCAN_ESR));
    expect_number(gate_can_counts().warnings, 3, "interrupts by errors (warning, passive, bus-off)");
    expect(gate_can_recover(), GATE_CAN_TIMEOUT, "recovery while the bus is shorted");
    tell("bus", "repaired");
    bus_is(BUS_GOOD);
    expect(gate_can_recover(), GATE_CAN_OK, "recovery");
    tell("gate", "ESR 0x%08X", (unsigned)can_read(BXCAN_ESR));
    expect_number(gate_can_counts().not_sent, 1, "dropped");
    frame = report(0x21);
    gate_can_queue(&frame);
    bus_passes(1);
    expect_number(gate_can_counts().sent, 6, "sent by interrupt");
}

/* Nobody acknowledges, and the gate stays on the bus all the same: error passive, its TEC counts no further. */
static void alone(void)
{
    title("6. Alone on the bus");
    struct can_frame frame = report(0x22);
    bus_is(BUS_ALONE);
    gate_can_queue(&frame);
    bus_passes(40);
    expect_number((unsigned)CAN_ESR_TEC(can_read(BXCAN_ESR)), 128, "TEC after 40 tries");
    tell("bus", "another node");
    bus_is(BUS_GOOD);
    bus_passes(1);
    expect_number((unsigned)CAN_ESR_TEC(can_read(BXCAN_ESR)), 127, "TEC");
    expect_number(gate_can_counts().sent, 7, "sent by interrupt");
}

static int save(const char *path)
{
    FILE *file = fopen(path, "wb");
    if (file == NULL)
        return -1;
    size_t n = fwrite(bus_block(), 1, bus_block_length(), file);
    return fclose(file) == 0 && n == bus_block_length() ? 0 : -1;
}

/* The bytes go to a place of their own first: a file that is refused leaves the controller as it was. */
static int come_back(const char *path)
{
    uint8_t bytes[BXCAN_BLOCK_SIZE + 1];
    FILE *file = fopen(path, "rb");
    if (file == NULL)
        return -1;
    size_t n = fread(bytes, 1, sizeof bytes, file);
    fclose(file);
    if (bxcan_code(bxcan_read(BOARD, bytes, n, BXCAN_MSR)) != BXCAN_DONE)
        return -1;
    memcpy(bus_block(), bytes, n);
    bus_refresh();
    return 0;
}

/* Two reports and a probe; the probe's identifier goes last. */
static void traffic(void)
{
    probe_wants(2, 61);
    bus_passes(3);
}

static void show_state(void)
{
    tell("gate", "TSR 0x%08X, RF0R 0x%08X", (unsigned)can_read(BXCAN_TSR), (unsigned)can_read(BXCAN_RF0R));
}

static void saved(const char *path)
{
    uint8_t end[BXCAN_BLOCK_SIZE];
    struct can_frame frames[2] = {report(0x30), report(0x31)};
    title("7. A block saved to a file, and back");
    tell("gate", "interrupts off");
    irq_disable();
    probe_wants(1, 60);
    bus_passes(1);
    gate_can_queue(&frames[0]);
    gate_can_queue(&frames[1]);
    show_state();
    if (save(path) != 0)
        fault("%s cannot be written", path);
    tell("bench", "saved: %u bytes", (unsigned)bus_block_length());
    traffic();
    show_state();
    memcpy(end, bus_block(), bus_block_length());
    if (come_back(path) != 0)
        fault("%s cannot be read, or is refused", path);
    tell("bench", "back");
    show_state();
    traffic();
    show_state();
    if (memcmp(end, bus_block(), bus_block_length()) != 0)
        fault("the same traffic from the saved block ends in another block");
    tell("bench", "the same traffic from the saved block ends in the same block");
    tell("gate", "interrupts on");
    irq_enable();
    expect_number(gate_can_counts().sent, 9, "sent by interrupt");
    expect_number(take_received(0), 2, "from the probes");
}

static uint8_t before[BXCAN_BLOCK_SIZE];

/* A call that must be refused and leave the block. */
static void refused(const char *what, uint64_t answer, uint32_t code)
{
    tell("bench", "%-58s %2u %s", what, (unsigned)bxcan_code(answer), bxcan_code_name(bxcan_code(answer)));
    if (bxcan_code(answer) != code || bxcan_word(answer) != 0)
        fault("%s: code %u, expected %u", what, (unsigned)bxcan_code(answer), (unsigned)code);
    if (memcmp(before, bus_block(), bus_block_length()) != 0)
        fault("%s: the block has changed", what);
}

static void refusals(void)
{
    uint8_t *block = bus_block();
    size_t length = bus_block_length();
    title("8. What is refused, and leaves the block as it was");
    memcpy(before, block, length);
    refused("a write to BTR outside Initialization", bxcan_write(BOARD, block, length, BXCAN_BTR, 0), BXCAN_LOCKED);
    refused("a write to the value of an active filter bank", bxcan_write(BOARD, block, length, BXCAN_FR1(0), 0), BXCAN_LOCKED);
    refused("a write to a word of FIFO 0", bxcan_write(BOARD, block, length, BXCAN_RDLR(0), 0), BXCAN_READ_ONLY);
    refused("a read between two registers", bxcan_read(BOARD, block, length, BXCAN_MCR + 2), BXCAN_NO_REGISTER);
    refused("a read of 0x10000, which is not MCR", bxcan_read(BOARD, block, length, 0x10000), BXCAN_NO_REGISTER);
    refused("the end of an own frame with none on the wire", bxcan_own_end(BOARD, block, length, BXCAN_END_GOOD),
            BXCAN_WRONG_STATE);
    refused("activity while the controller does not sleep", bxcan_activity(BOARD, block, length), BXCAN_WRONG_STATE);
    refused("a frame with length code 16", bxcan_frame(BOARD, block, length, 0x123u << 21, 16, 0, 0), BXCAN_OUT_OF_RANGE);
    refused("a receive error that raises REC by 2", bxcan_receive_error(BOARD, block, length, BXCAN_ERROR_CRC, 2),
            BXCAN_OUT_OF_RANGE);
    refused("a block that is a byte short", bxcan_read(BOARD, block, length - 1, BXCAN_MCR), BXCAN_BAD_BLOCK);
    refused("a board that does not exist", bxcan_read(BOARD + 1000, block, length, BXCAN_MCR), BXCAN_BAD_BLOCK);
    block[0] ^= 1;
    before[0] ^= 1;
    refused("a block with a damaged byte", bxcan_idle(BOARD, block, length), BXCAN_BAD_BLOCK);
    block[0] ^= 1;
}

int main(int argc, char **argv)
{
    printf("A gate's CAN driver on the bench. On the right the interrupt lines that are up after a bus event.\n");
    initialization();
    polling();
    sending();
    receiving();
    bus_off();
    alone();
    saved(argc > 1 ? argv[1] : "gate.block");
    refusals();
    tell_rest();
    printf("\nhandlers: TX %u, RX0 %u, RX1 %u, SCE %u; %s\n", bus_handled(0), bus_handled(1), bus_handled(2), bus_handled(3),
           bus_faults() == 0 ? "all as expected" : "not as expected: standard error says what");
    return bus_faults() == 0 ? 0 : 1;
}
