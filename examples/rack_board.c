/* A rack with the 7009 board, to copy from: a disc on the first controller, a tide gauge on the second, one memory.
 *
 * The gauge puts its readings into a table, a byte a service, and the disc takes them out of it into a sector, a byte behind. Both
 * want the bus at once, and the board gives it to one and the other in turn. The power goes in the middle of a service of the
 * gauge: each chip has a sheet of its own, and the byte of the arbiter, which stands in neither, the rack keeps beside them. */
#include <stdio.h>
#include <string.h>

#include "am9517_board.h"

enum { DISC = 2, GAUGE = 5, TABLE = 0x0300, READINGS = 12 };     /* channels of the eight: the gauge's is the second chip's 1 */
enum { DISC_LINE = 1 << DISC, GAUGE_LINE = 1 << GAUGE };
enum { SECOND = 16 };                                            /* registers of the second chip */

struct rack {
    am9517_board board;
    uint8_t memory[AM9517_MEMORY_SIZE];
    const uint8_t *waiting;     /* the next reading of the gauge */
    size_t left;                /* readings that it has still to give */
    uint8_t sector[READINGS];   /* what the disc has got */
    size_t stored;
};

/* A refusal here is a fault of the emulator, not of the rack's program: say it. */
static int refused(const char *call, uint32_t number)
{
    if (number != AM9517_OK)
        printf("%s: refused %u: %s\n", call, (unsigned)number, am9517_refusal_text(number));
    return number != AM9517_OK;
}

/* What the rack's own program writes to the board's ports. Each chip has a flip-flop of its own. */
static int program_board(am9517_board *board)
{
    static const struct { uint8_t reg, byte; } program[] = {
        {0xb, 0x40 | 0x08 | DISC},                              /* channel 2: single, memory to device, upward */
        {4, TABLE & 255}, {4, TABLE >> 8},                      /* its address, low byte first */
        {5, READINGS - 1}, {5, 0},                              /* its word count: one less than the bytes */
        {0xa, DISC},                                            /* unmask it */
        {SECOND + 0xb, 0x40 | 0x04 | (GAUGE - 4)},              /* channel 5: single, device to memory, upward */
        {SECOND + 2, TABLE & 255}, {SECOND + 2, TABLE >> 8},
        {SECOND + 3, READINGS - 1}, {SECOND + 3, 0},
        {SECOND + 0xe, 0},                                      /* an Intel chip unmasks all its channels at once */
    };
    for (size_t i = 0; i < sizeof program / sizeof program[0]; i++)
        if (refused("write", am9517_board_write(board, program[i].reg, program[i].byte)))
            return 0;
    return 1;
}

static int granted(struct rack *rack, uint32_t lines)
{
    am9517_told grant;
    if (refused("pins", am9517_board_pins(&rack->board, lines)))
        return 0;
    printf("lines %02x, entitled %02x", (unsigned)lines, (unsigned)am9517_board_entitled(&rack->board).value);
    grant = am9517_board_grant(&rack->board);
    if (refused("; grant", grant.refusal))
        return 0;
    printf(": channel %u is granted\n", (unsigned)grant.value);
    return 1;
}

static void account(struct rack *rack, size_t used, size_t written)
{
    rack->waiting += used;
    rack->left -= used;
    rack->stored += written;
}

/* One service, over the readings that have come. */
static int run(struct rack *rack, size_t come)
{
    const am9517_run_told told = am9517_board_run(&rack->board, rack->memory, sizeof rack->memory, rack->waiting, come,
                                                  rack->sector + rack->stored, sizeof rack->sector - rack->stored, 65536, 0);
    if (refused("run", told.refusal))
        return 0;
    account(rack, told.used, told.written);
    printf("  %s transfers=%u states=%lu\n", am9517_reason_text(told.reason), (unsigned)told.transfers, (unsigned long)told.states);
    return 1;
}

/* Several services, turn by turn. */
static int play_round(struct rack *rack, size_t come, uint32_t services)
{
    const am9517_board_round_told told = am9517_board_round(&rack->board, rack->memory, sizeof rack->memory, rack->waiting, come,
                                                            rack->sector + rack->stored, sizeof rack->sector - rack->stored, services);
    if (refused("round", told.refusal))
        return 0;
    account(rack, told.used, told.written);
    printf("round of %u: %s, disc %u, gauge %u; the disc has %u bytes\n", (unsigned)services, am9517_reason_text(told.reason),
           (unsigned)told.services[DISC], (unsigned)told.services[GAUGE], (unsigned)rack->stored);
    return 1;
}

/* ---- power: the chips forget all; memory is core, so it stays. The sheets go to the tape */

struct tape {
    uint8_t sheets[2][AM9517_SHEET2_SIZE];  /* form 2: it has the Intel chip and the slow cards */
    uint8_t granted_last;
};

static int cut_power(struct rack *rack, struct tape *tape)
{
    for (uint32_t which = AM9517_BOARD_FIRST; which <= AM9517_BOARD_SECOND; which++)
        if (refused("save2", am9517_board_save2(&rack->board, which, tape->sheets[which], sizeof tape->sheets[which])))
            return 0;
    tape->granted_last = rack->board.granted_last;
    memset(&rack->board, 0xff, sizeof rack->board);
    printf("power cut in a service: two sheets of %u bytes are stored\n", AM9517_SHEET2_SIZE);
    return 1;
}

static int restore_power(struct rack *rack, const struct tape *tape)
{
    for (uint32_t which = AM9517_BOARD_FIRST; which <= AM9517_BOARD_SECOND; which++)
        if (refused("load2", am9517_board_load2(&rack->board, which, tape->sheets[which], sizeof tape->sheets[which])))
            return 0;
    refused("before the arbiter's byte is back, check", am9517_board_check(&rack->board));
    rack->board.granted_last = tape->granted_last;
    return !refused("check", am9517_board_check(&rack->board));
}

static int play(struct rack *rack)
{
    static struct tape tape;
    if (!granted(rack, GAUGE_LINE) || !run(rack, 1))
        return 0;
    if (refused("pins", am9517_board_pins(&rack->board, DISC_LINE | GAUGE_LINE)) || !play_round(rack, 2, 5))
        return 0;
    if (!granted(rack, DISC_LINE | GAUGE_LINE) || !run(rack, 0))
        return 0;
    refused("meanwhile the disc's chip is asked", am9517_board_read(&rack->board, 8).refusal);
    if (!cut_power(rack, &tape) || !restore_power(rack, &tape))
        return 0;
    printf("power is back: channel %u is served on\n", (unsigned)(4 + rack->board.second.serving));
    return run(rack, 1) && play_round(rack, rack->left, 100);
}

int main(void)
{
    static const uint8_t readings[READINGS] = {0x21, 0x22, 0x24, 0x27, 0x2b, 0x30, 0x36, 0x3d, 0x45, 0x4e, 0x58, 0x63};
    static struct rack rack;
    am9517_told first, second;

    rack.board = am9517_board_fresh(AM9517_EDITION_AM9517A, AM9517_EDITION_INTEL_8237A);
    rack.waiting = readings;
    rack.left = sizeof readings;
    if (refused("waits", am9517_board_waits(&rack.board, AM9517_BOARD_SECOND, 2)) || !program_board(&rack.board) || !play(&rack))
        return 1;
    first = am9517_board_read(&rack.board, 8);
    second = am9517_board_read(&rack.board, SECOND + 8);
    printf("status of the first chip %02x, of the second %02x: both have reached TC\nthe disc's sector:", (unsigned)first.value,
           (unsigned)second.value);
    for (size_t i = 0; i < rack.stored; i++)
        printf(" %02x", (unsigned)rack.sector[i]);
    printf("\n");
    return rack.stored == READINGS && memcmp(rack.sector, readings, READINGS) == 0 ? 0 : 1;
}
