/* A small host: the hold table of the night boat (see hold-table.rack), through the C library.
 *
 * The table has twelve bytes: eleven holds, and behind them the island's offset. The word count register is told 11,
 * for the chip moves one byte more than it is told. */
#include <stdio.h>

#include "am9517.h"

static am9517_chip chip;
static uint8_t memory[AM9517_MEMORY_SIZE];

/* Says which call was refused, by which number, and what it means. */
static int refused(const char *call, uint32_t number)
{
    if (number != AM9517_OK)
        printf("%s: refused %u: %s\n", call, (unsigned)number, am9517_refusal_text(number));
    return number != AM9517_OK;
}

static int set_up(void)
{
    static const struct { uint8_t reg, byte; } program[] = {
        {0xd, 0x00},              /* master clear */
        {0xb, 0x85},              /* channel 1: block, device to memory, upward */
        {0xc, 0x00},              /* the flip-flop at its low byte */
        {2, 0x00}, {2, 0x02},     /* address 0200h, low byte first */
        {3, 0x0b}, {3, 0x00},     /* word count 11, low byte first */
        {0xa, 0x01},              /* unmask channel 1 */
    };
    chip = am9517_fresh(AM9517_EDITION_AM9517A);
    for (size_t i = 0; i < sizeof program / sizeof program[0]; i++)
        if (refused("write", am9517_write(&chip, program[i].reg, program[i].byte)))
            return 0;
    return 1;
}

int main(void)
{
    static const uint8_t holds[] = {1, 1, 0, 1, 1, 0, 0, 1, 1, 0, 1, 0xa7};
    am9517_told told;
    am9517_run_told run;

    if (!set_up())
        return 1;
    if (refused("pins", am9517_pins(&chip, 2)))  /* the hold unit raises its line */
        return 1;
    told = am9517_grant(&chip);
    if (refused("grant", told.refusal))
        return 1;
    printf("channel %u\n", (unsigned)told.value);
    run = am9517_run(&chip, memory, sizeof memory, holds, sizeof holds, NULL, 0, 65536, 0);
    if (refused("run", run.refusal))
        return 1;
    printf("%s transfers=%u used=%u states=%lu\n", am9517_reason_text(run.reason), (unsigned)run.transfers,
           (unsigned)run.used, (unsigned long)run.states);
    printf("memory at 0200h:");
    for (unsigned at = 0x0200; at < 0x0200 + sizeof holds; at++)
        printf(" %02x", memory[at]);
    told = am9517_status(&chip);
    printf("\ncount of channel 1 %04x, status %02x\n", (unsigned)chip.channels[1].count, (unsigned)told.value);
    return memory[0x020b] == 0xa7 ? 0 : 1;
}
