/* The calls of the C library (am9517_) and the plain model's (plain_am9517_, of plain_calls.c): one loop for both sides, which
   are called by pointers. */
#include "am9517.h"
#include "works.h"

/* Families of works, behind those of harness.c. */
enum { C_NOTHING = 7, C_WRITE, C_READ, C_PINS, C_RESET, C_GRANT, C_CHECK, C_ENTITLED, C_STATUS, C_FRESH, C_SAVE, C_LOAD, C_RUN, C_ROUND, C_WAITS, C_SAVE2, C_LOAD2, C_FORWARD, C_BACK, C_JUDGE, C_OVER };

#define CALLS_OF(side) \
    u32 side##_check(const am9517_chip *); \
    u32 side##_write(am9517_chip *, u32, u8); \
    am9517_told side##_read(am9517_chip *, u32); \
    u32 side##_pins(am9517_chip *, u32); \
    u32 side##_reset(am9517_chip *); \
    u32 side##_waits(am9517_chip *, u8); \
    am9517_told side##_grant(am9517_chip *); \
    am9517_told side##_entitled(const am9517_chip *); \
    am9517_told side##_status(const am9517_chip *); \
    am9517_chip side##_fresh(u32); \
    u32 side##_save(const am9517_chip *, u8 *, usize); \
    u32 side##_load(am9517_chip *, const u8 *, usize); \
    u32 side##_save2(const am9517_chip *, u8 *, usize); \
    u32 side##_load2(am9517_chip *, const u8 *, usize); \
    u32 side##_forward(const u8 *, usize, u8 *, usize); \
    u32 side##_back(const u8 *, usize, u8 *, usize); \
    am9517_run_told side##_run(am9517_chip *, u8 *, usize, const u8 *, usize, u8 *, usize, u64, u64); \
    am9517_round_told side##_round(am9517_chip *, u8 *, usize, const u8 *, usize, u8 *, usize, u32); \
    am9517_judge_told side##_judge(am9517_chip *, u8 *, usize, const u8 *, usize);

CALLS_OF(plain_am9517)

struct calls {
    u32 (*check)(const am9517_chip *);
    u32 (*write)(am9517_chip *, u32, u8);
    am9517_told (*read)(am9517_chip *, u32);
    u32 (*pins)(am9517_chip *, u32);
    u32 (*reset)(am9517_chip *);
    u32 (*waits)(am9517_chip *, u8);
    am9517_told (*grant)(am9517_chip *);
    am9517_told (*entitled)(const am9517_chip *);
    am9517_told (*status)(const am9517_chip *);
    am9517_chip (*fresh)(u32);
    u32 (*save)(const am9517_chip *, u8 *, usize);
    u32 (*load)(am9517_chip *, const u8 *, usize);
    u32 (*save2)(const am9517_chip *, u8 *, usize);
    u32 (*load2)(am9517_chip *, const u8 *, usize);
    u32 (*forward)(const u8 *, usize, u8 *, usize);
    u32 (*back)(const u8 *, usize, u8 *, usize);
    am9517_run_told (*run)(am9517_chip *, u8 *, usize, const u8 *, usize, u8 *, usize, u64, u64);
    am9517_round_told (*round)(am9517_chip *, u8 *, usize, const u8 *, usize, u8 *, usize, u32);
    am9517_judge_told (*judge)(am9517_chip *, u8 *, usize, const u8 *, usize);
};

#define ALL_OF(side) \
    {side##_check, side##_write, side##_read, side##_pins, side##_reset, side##_waits, side##_grant, side##_entitled, side##_status, \
     side##_fresh, side##_save, side##_load, side##_save2, side##_load2, side##_forward, side##_back, side##_run, side##_round, side##_judge}

static const struct calls CALLS[2] = {ALL_OF(am9517), ALL_OF(plain_am9517)};

static u64 told_sum(am9517_told t) { return 256 * t.refusal + t.value; }

static u64 run_sum(am9517_run_told t) { return 256 * t.refusal + t.reason + 2 * t.transfers + 3 * t.used + 5 * t.written + 7 * t.states; }

static u64 round_sum(am9517_round_told t)
{
    u64 begun = t.services[0] + 2ul * t.services[1] + 3ul * t.services[2] + 4ul * t.services[3];
    return 256 * t.refusal + t.reason + begun + 2 * t.transfers + 3 * t.used + 5 * t.written + 7 * t.states;
}

static u64 judge_sum(am9517_judge_told t) { return 256 * t.refusal + 2 * t.right + ((u64)(u32)t.error << 32); }

/* What a call is given, beside the chip: `sheet` is for form 1, `second` for form 2. */
struct given {
    u32 reg, k;
    u8 byte;
    const u8 *device;
    u8 *memory, *room, *sheet, *second;
    usize device_size, memory_size, room_size, sheet_size, second_size;
    u64 limit, eop_at;
    const u8 *log;
    usize log_size;
};

/* Each turn calls with the chip of the start; `chip` has what the last one left. */
#define TURNS(call) \
    for (; times > 0; times--) { \
        *chip = *start; \
        sum += (call); \
    } \
    return sum;

static u64 do_call(int family, int side, const am9517_chip *start, am9517_chip *chip, const struct given *g, u64 times)
{
    const struct calls *c = &CALLS[side];
    u64 sum = 0;
    switch (family) {
    case C_WRITE: TURNS(c->write(chip, g->reg, g->byte))
    case C_READ: TURNS(told_sum(c->read(chip, g->reg)))
    case C_PINS: TURNS(c->pins(chip, g->byte))
    case C_RESET: TURNS(c->reset(chip))
    case C_WAITS: TURNS(c->waits(chip, g->byte))
    case C_GRANT: TURNS(told_sum(c->grant(chip)))
    case C_CHECK: TURNS(c->check(chip))
    case C_ENTITLED: TURNS(told_sum(c->entitled(chip)))
    case C_STATUS: TURNS(told_sum(c->status(chip)))
    case C_FRESH: TURNS((*chip = c->fresh(g->reg), chip->mask))
    case C_SAVE: TURNS(c->save(chip, g->sheet, g->sheet_size))
    case C_LOAD: TURNS(c->load(chip, g->sheet, g->sheet_size))
    case C_SAVE2: TURNS(c->save2(chip, g->second, g->second_size))
    case C_LOAD2: TURNS(c->load2(chip, g->second, g->second_size))
    case C_FORWARD: TURNS(c->forward(g->sheet, g->sheet_size, g->second, g->second_size))
    case C_BACK: TURNS(c->back(g->second, g->second_size, g->sheet, g->sheet_size))
    case C_RUN:
        TURNS(run_sum(c->run(chip, g->memory, g->memory_size, g->device, g->device_size, g->room, g->room_size, g->limit, g->eop_at)))
    case C_ROUND: TURNS(round_sum(c->round(chip, g->memory, g->memory_size, g->device, g->device_size, g->room, g->room_size, g->k)))
    case C_JUDGE: TURNS(judge_sum(c->judge(chip, g->memory, g->memory_size, g->log, g->log_size)))
    default: TURNS(({ __asm__ volatile("" ::: "memory"); 0; }))
    }
}
