/* Every area lies against a page that may not be touched, behind it or before it, in turn: a call that reads or writes one byte
 * beyond what it was lent ends the program. The same calls on the same bytes lying free must tell and leave the same. */
#define _DEFAULT_SOURCE
#include <stdio.h>
#include <string.h>
#include <sys/mman.h>

#include "am9517.h"
#include "record.h"

enum { PAGE = 4096, MEMORY = AM9517_MEMORY_SIZE, MOST = 300, TURNS = 6500 };

/* ---- areas: one fenced, one free, of the same bytes; the free one begins anywhere, a chip at an even place */

struct area {
    uint8_t *fenced;    /* between two pages that may not be touched */
    uint8_t *free;
    size_t size, pages; /* bytes now, bytes between the fences */
    uint8_t *at, *loose; /* where the two begin now */
};

static uint8_t *mapped(size_t size)
{
    uint8_t *at = (uint8_t *)mmap(NULL, size, PROT_READ | PROT_WRITE, MAP_PRIVATE | MAP_ANONYMOUS, -1, 0);
    if (at == MAP_FAILED)
        printf("fences: no memory\n");
    return at;
}

static int made(struct area *a, size_t pages)
{
    a->pages = pages;
    a->free = mapped(pages + PAGE);
    a->fenced = mapped(pages + 2 * PAGE);
    if (a->free == MAP_FAILED || a->fenced == MAP_FAILED)
        return 0;
    if (mprotect(a->fenced, PAGE, PROT_NONE) != 0 || mprotect(a->fenced + PAGE + pages, PAGE, PROT_NONE) != 0)
        return 0;
    a->fenced += PAGE;
    return 1;
}

/* The area has `size` bytes from now on, at the fence behind or at the one before; both makes hold the same. */
static void placed(struct area *a, size_t size, int behind, size_t shift)
{
    a->size = size;
    a->at = behind ? a->fenced + a->pages - size : a->fenced;
    a->loose = a->free + shift;
    memcpy(a->at, a->loose, size);
}

static int same(const struct area *a)
{
    return memcmp(a->at, a->loose, a->size) == 0;
}

/* ---- what is drawn */

static uint32_t seed = 9517;

static uint32_t drawn(uint32_t below)
{
    seed = seed * 1664525u + 1013904223u;
    return (seed >> 8) % below;
}

static uint16_t word(void)
{
    return (uint16_t)(drawn(2) ? drawn(65536) : 65536 - 1 - drawn(40));
}

/* In its ranges mostly, and in service mostly. */
static void draw_chip(am9517_chip *chip)
{
    *chip = am9517_fresh(drawn(64) == 0 ? 2 : drawn(4) / 3);
    chip->waits = (uint8_t)(drawn(2) ? drawn(256) : 0);
    for (int n = 0; n < 4; n++) {
        am9517_channel *c = &chip->channels[n];
        c->base_address = c->address = word();
        c->base_count = c->count = (uint16_t)(drawn(2) ? drawn(400) : word());
        c->mode = (uint8_t)(drawn(4) << 6 | drawn(3) << 2 | drawn(4) << 4);
    }
    chip->command = (uint8_t)(drawn(256) & 0xfb);
    chip->mask = (uint8_t)drawn(16);
    chip->pins = (uint8_t)drawn(16);
    chip->request = (uint8_t)drawn(17);
    chip->in_service = drawn(8) != 0;
    if (chip->in_service)
        chip->serving = (uint8_t)drawn(4);
}

/* ---- the calls, on the fenced make or on the free one */

static struct area chip, memory, device, room, sheet, target, logged;

struct numbers {
    uint32_t which, reg, k;
    uint8_t byte;
    uint64_t limit, eop;
};

enum { FORWARD = 11, BACK = 12, JUDGE = 13, CALLS = 18 };

static uint64_t call(int fenced, const struct numbers *n)
{
    am9517_chip *c = (am9517_chip *)(void *)(fenced ? chip.at : chip.loose);
    uint8_t *m = fenced ? memory.at : memory.loose, *r = fenced ? room.at : room.loose, *s = fenced ? sheet.at : sheet.loose;
    uint8_t *t = fenced ? target.at : target.loose;
    const uint8_t *d = fenced ? device.at : device.loose, *l = fenced ? logged.at : logged.loose;
    switch (n->which) {
    case 0: return am9517_write(c, n->reg, n->byte);
    case 1: return am9517_read(c, n->reg).value;
    case 2: return am9517_pins(c, n->reg) + am9517_check(c);
    case 3: return am9517_grant(c).value + am9517_reset(c);
    case 4: return am9517_entitled(c).value + 256 * am9517_status(c).value;
    case 5: return am9517_save(c, s, sheet.size);
    case 6: return am9517_save(c, s, sheet.size) + 16 * am9517_load(c, s, sheet.size);
    case 7: {
        const am9517_round_told o = am9517_round(c, m, memory.size, d, device.size, r, room.size, n->k);
        return o.refusal + o.reason + o.transfers + 3 * o.used + 5 * o.written + 7 * o.states;
    }
    case 8: return am9517_waits(c, n->byte);
    case 9: return am9517_save2(c, s, sheet.size);
    case 10: return am9517_save2(c, s, sheet.size) + 16 * am9517_load2(c, s, sheet.size);
    case FORWARD: return am9517_save(c, s, sheet.size) + 16 * am9517_forward(s, sheet.size, t, target.size);
    case BACK: return am9517_save2(c, s, sheet.size) + 16 * am9517_back(s, sheet.size, t, target.size);
    case JUDGE: {
        const am9517_judge_told o = am9517_judge(c, m, memory.size, l, logged.size);
        return o.refusal + 3 * o.right + 5 * (uint64_t)(uint32_t)o.error;
    }
    default: {
        const am9517_run_told o = am9517_run(c, m, memory.size, d, device.size, r, room.size, n->limit, n->eop);
        return o.refusal + o.reason + o.transfers + 3 * o.used + 5 * o.written + 7 * o.states;
    }
    }
}

/* By fields: the byte behind a channel's first nine is padding. */
static int same_chip(void)
{
    const size_t tc = offsetof(am9517_chip, tc);
    for (size_t n = 0; n < 4; n++)
        if (memcmp(chip.at + n * sizeof(am9517_channel), chip.loose + n * sizeof(am9517_channel), 9) != 0)
            return 0;
    return memcmp(chip.at + tc, chip.loose + tc, offsetof(am9517_chip, waits) + 1 - tc) == 0;
}

/* A log of the chip's service over the memory that is lent next, honest but for a byte at times; its bytes, the last ones cut at times. */
static size_t draw_log(const am9517_chip *start, size_t shift)
{
    static uint8_t scratch[MEMORY];
    am9517_chip copy = *start;
    memcpy(scratch, memory.loose, MEMORY);
    const size_t size = honest_log(&copy, scratch, drawn(30), drawn(40), logged.free + shift);
    if (size > 0 && drawn(3) == 0)
        logged.free[shift + drawn((uint32_t)size)] = (uint8_t)drawn(256);
    return drawn(3) == 0 ? drawn((uint32_t)size + 9) : size;
}

static int turn(uint32_t i)
{
    const struct numbers n = {drawn(CALLS), drawn(17), drawn(20), (uint8_t)drawn(256), drawn(4) ? 65536 : drawn(50), drawn(4) ? 0 : drawn(50)};
    am9517_chip now;
    draw_chip(&now);
    if ((n.which == 7 || n.which == 8) && drawn(8) != 0)
        now.in_service = now.serving = 0;
    if ((n.which == FORWARD || n.which == BACK) && drawn(4) != 0)
        now.edition = now.waits = 0;
    const uint32_t even = 2 * drawn(8);
    memcpy(chip.free + even, &now, sizeof now);
    placed(&chip, sizeof now, i & 1, even);
    placed(&memory, drawn(16) ? MEMORY : MEMORY - 1 - drawn(2), i >> 1 & 1, drawn(16));
    placed(&device, drawn(MOST), i >> 2 & 1, drawn(16));
    placed(&room, drawn(MOST), i >> 3 & 1, drawn(16));
    placed(&sheet, 50 + drawn(20), i >> 4 & 1, drawn(16));
    placed(&target, 50 + drawn(20), i >> 5 & 1, drawn(16));
    const uint32_t shift = drawn(16);
    placed(&logged, n.which == JUDGE ? draw_log(&now, shift) : 0, i >> 2 & 1, shift);
    const uint64_t fenced = call(1, &n), free = call(0, &n);
    return fenced == free && same_chip() && same(&memory) && same(&device) && same(&room) && same(&sheet) && same(&target) && same(&logged);
}

int main(void)
{
    unsigned wrong = 0;
    if (!made(&chip, PAGE) || !made(&memory, MEMORY) || !made(&device, PAGE) || !made(&room, PAGE) || !made(&sheet, PAGE) || !made(&target, PAGE)
        || !made(&logged, PAGE))
        return 2;
    for (size_t i = 0; i < MEMORY; i++)
        memory.free[i] = (uint8_t)(i * 31 + i / 253);
    for (size_t i = 0; i < PAGE; i++)
        device.free[i] = (uint8_t)(i * 7 + 3);
    for (uint32_t i = 0; i < TURNS; i++)
        wrong += !turn(i);
    printf("%d calls between fences, %u wrong\n", (int)TURNS, wrong);
    return wrong != 0;
}
