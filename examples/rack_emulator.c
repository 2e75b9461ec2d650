/* A rack emulator about the chip, to copy from: a tide gauge on channel 1 that raises its line while bytes wait, a processor
 * that gives the bus away for a few transfers a tick, bytes fed as they come, and a power cut in the middle of the table.
 *
 * Each tick: the pins follow the devices; an idle chip is asked for a grant; an open service runs with a limit, over the
 * bytes that have come. What a run used leaves the device's queue; what it says tells why it stopped. */
#include <stdio.h>
#include <string.h>

#include "am9517.h"

enum { GAUGE = 1, TABLE = 0x0300, READINGS = 12, SLICE = 3 /* transfers that the bus is given away for */ };

/* The part on the rack's board, and the wait states of its memory cards. Form 1 can't store the other part,
 * AM9517_EDITION_INTEL_8237A, nor slow cards: the power cut below, refused by 15, then ends the emulator. */
enum { PART = AM9517_EDITION_AM9517A, CARD_WAITS = 0 };

/* ---- the device: readings come at their own pace, and wait in a queue until the chip takes them */

struct gauge {
    const uint8_t *waiting;  /* the next reading that the chip will get */
    size_t queued;           /* readings that wait */
    size_t ahead;            /* readings that have still to come */
};

static void readings_come(struct gauge *gauge, size_t n)
{
    if (n > gauge->ahead)
        n = gauge->ahead;
    gauge->ahead -= n;
    gauge->queued += n;
}

/* ---- the rack: chip, memory, device */

struct rack {
    am9517_chip chip;
    uint8_t memory[AM9517_MEMORY_SIZE];
    struct gauge gauge;
};

/* A refusal here is a fault of the emulator, not of the rack's program: say it. */
static int refused(const char *call, uint32_t number)
{
    if (number != AM9517_OK)
        printf("%s: refused %u: %s\n", call, (unsigned)number, am9517_refusal_text(number));
    return number != AM9517_OK;
}

/* What the rack's own program would write to the chip's ports. */
static int program_chip(am9517_chip *chip)
{
    static const struct { uint8_t reg, byte; } program[] = {
        {0xd, 0x00},                          /* master clear */
        {0xb, 0x05},                          /* channel 1: demand, device to memory, upward */
        {2, TABLE & 255}, {2, TABLE >> 8},    /* its address, low byte first */
        {3, READINGS - 1}, {3, 0},            /* its word count: one less than the bytes */
        {0xa, GAUGE},                         /* unmask it */
    };
    for (size_t i = 0; i < sizeof program / sizeof program[0]; i++)
        if (refused("write", am9517_write(chip, program[i].reg, program[i].byte)))
            return 0;
    return 1;
}

/* An idle chip is asked for a grant; that nobody is entitled is no fault. Whether a service is open then. */
static int granted(am9517_chip *chip)
{
    am9517_told grant;
    if (chip->in_service)
        return 1;
    grant = am9517_grant(chip);
    if (grant.refusal == AM9517_NOBODY)
        return 0;
    if (refused("grant", grant.refusal))
        return 0;
    printf("  channel %u granted\n", (unsigned)grant.value);
    return 1;
}

static void run_slice(struct rack *rack)
{
    struct gauge *gauge = &rack->gauge;
    const am9517_run_told run = am9517_run(&rack->chip, rack->memory, sizeof rack->memory, gauge->waiting, gauge->queued,
                                           NULL, 0, SLICE, 0);
    if (refused("run", run.refusal))
        return;
    gauge->waiting += run.used;
    gauge->queued -= run.used;
    printf("  %s transfers=%u states=%lu", am9517_reason_text(run.reason), (unsigned)run.transfers, (unsigned long)run.states);
    printf("; next address %04x, count %04x\n", (unsigned)rack->chip.channels[GAUGE].address,
           (unsigned)rack->chip.channels[GAUGE].count);
}

static void tick(struct rack *rack, unsigned number, size_t coming)
{
    const uint32_t line = 1u << GAUGE;
    readings_come(&rack->gauge, coming);
    printf("tick %u: readings that wait: %u\n", number, (unsigned)rack->gauge.queued);
    if (refused("pins", am9517_pins(&rack->chip, rack->gauge.queued > 0 ? line : 0)))
        return;
    if (granted(&rack->chip))
        run_slice(rack);
}

/* ---- power: the chip forgets all; memory is core and the gauge has a battery, so both stay. The sheet goes to the disk */

/* Where the sheet can't be stored the power stays on. */
static int cut_power(struct rack *rack, uint8_t *sheet, size_t size)
{
    if (refused("save", am9517_save(&rack->chip, sheet, size)))
        return 0;
    printf("power cut in a service: the sheet of %u bytes is stored\n", (unsigned)size);
    memset(&rack->chip, 0xff, sizeof rack->chip);
    return 1;
}

/* A sheet that the disk has damaged is refused and named; the chip stays as it was. */
static int restore_power(struct rack *rack, const uint8_t *sheet, size_t size)
{
    if (refused("load", am9517_load(&rack->chip, sheet, size)))
        return 0;
    printf("power is back: channel %u is served on\n", (unsigned)rack->chip.serving);
    return 1;
}

static void show_end(struct rack *rack)
{
    const am9517_told status = am9517_read(&rack->chip, 8);
    printf("status %02x: channel 1 has reached TC, and is masked (mask %x)\nmemory at 0300h:", (unsigned)status.value,
           (unsigned)rack->chip.mask);
    for (unsigned i = 0; i < READINGS + 1; i++)
        printf(" %02x", (unsigned)rack->memory[TABLE + i]);
    printf("\nreadings left in the gauge: %u\n", (unsigned)rack->gauge.queued);
}

int main(void)
{
    static const uint8_t readings[READINGS + 2] = {0x21, 0x22, 0x24, 0x27, 0x2b, 0x30, 0x36, 0x3d, 0x45, 0x4e, 0x58, 0x63, 0x6f, 0x7c};
    static const uint8_t coming[] = {2, 4, 0, 0, 1, 5, 0, 0, 2};
    static struct rack rack;
    uint8_t sheet[AM9517_SHEET_SIZE], damaged[AM9517_SHEET_SIZE];

    rack.chip = am9517_fresh(PART);
    rack.gauge.waiting = readings;
    rack.gauge.ahead = sizeof readings;
    if (refused("waits", am9517_waits(&rack.chip, CARD_WAITS)) || !program_chip(&rack.chip))
        return 1;
    for (unsigned i = 0; i < sizeof coming; i++) {
        tick(&rack, i + 1, coming[i]);
        if (i == 5) {
            if (!cut_power(&rack, sheet, sizeof sheet))
                return 1;
            memcpy(damaged, sheet, sizeof sheet);
            damaged[12] ^= 1;  /* the disk turned a bit */
            if (restore_power(&rack, damaged, sizeof damaged) || !restore_power(&rack, sheet, sizeof sheet))
                return 1;
        }
    }
    show_end(&rack);
    return memcmp(rack.memory + TABLE, readings, READINGS) == 0 && rack.memory[TABLE + READINGS] == 0 ? 0 : 1;
}
