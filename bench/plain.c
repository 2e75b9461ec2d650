/* The plain model behind the works of works.h. */
#include "plain.h"

/* The state of a sheet of 56 bytes, a fresh one where the sheet is refused. */
static am9517_chip state_in(const u8 *sheet)
{
    am9517_chip fresh = {.mask = 15, .lowest = 3}, c = fields_in(sheet);
    return trailer_fault(sheet + 48, 1, 48, sum_of(sheet)) == 0 && valid(&c) ? c : fresh;
}

static u64 mixed(const struct told *t)
{
    const struct counts *n = &t->counts;
    u64 number = t->refusal ? t->refusal + 256 : (u64)t->why;
    u64 begun = t->services[0] + t->services[1] * 2ul + t->services[2] * 3ul + t->services[3] * 4ul;
    return number + begun + n->transfers * 2 + n->used * 3 + n->written * 5 + n->states * 7;
}

/* Each turn starts from one of two states, told by what the last turn gave, and stores all that it gives. */
#define TURNS(work) \
    am9517_chip starts[2] = {state_in(first), state_in(second)}; \
    am9517_chip after[2] = {starts[0], starts[1]}; \
    u64 last = 0; \
    (void)first_length, (void)second_length; \
    for (u64 left = times; left > 0; left--) { \
        u64 i = last % 2; \
        am9517_chip c = starts[i]; \
        work; \
        after[i] = c; \
    } \
    write_sheet(&after[0], first);

u64 plain_nothing(u8 *first, usize first_length, const u8 *second, usize second_length, u64 times)
{
    TURNS(last = c.temporary)
    return last;
}

u64 plain_write(u8 *first, usize first_length, const u8 *second, usize second_length, u32 reg, u32 other, u8 byte, u64 times)
{
    u32 regs[2] = {reg, other};
    TURNS(last = write_register(&c, regs[i], byte))
    return last;
}

u64 plain_read(u8 *first, usize first_length, const u8 *second, usize second_length, u32 reg, u32 other, u64 times)
{
    u32 regs[2] = {reg, other};
    TURNS(last = read_register(&c, regs[i]))
    return last;
}

u64 plain_run(u8 *first, usize first_length, const u8 *second, usize second_length, u8 *memory, usize memory_length,
              const u8 *device, usize device_length, u8 *room, usize room_length, u64 limit, u64 eop_at, u64 times)
{
    struct lent l = {memory, memory_length, device, device_length, room, room_length};
    struct told told[2] = {0};
    TURNS(told[i] = run(&c, l, limit, eop_at); last = told[i].counts.states)
    return mixed(&told[0]);
}

u64 plain_round(u8 *first, usize first_length, const u8 *second, usize second_length, u8 *memory, usize memory_length,
                const u8 *device, usize device_length, u8 *room, usize room_length, u32 k, u64 times)
{
    struct lent l = {memory, memory_length, device, device_length, room, room_length};
    struct told told[2] = {0};
    TURNS(told[i] = round_of(&c, l, k); last = told[i].counts.states)
    return mixed(&told[0]);
}

/* 0 where the log is accepted, 1 where it is wrong, else its refusal. */
static u64 found_number(const struct found *f, usize size) { return f->refusal ? f->refusal + 256 : f->right != size; }

u64 plain_judge(u8 *first, usize first_length, const u8 *second, usize second_length, u8 *memory, usize memory_length,
                const u8 *log, usize log_length, int *error, u64 times)
{
    struct found found[2] = {0};
    TURNS(found[i] = judge(&c, memory, memory_length, log, log_length); last = found_number(&found[i], log_length))
    *error = found[0].error;
    return found_number(&found[0], log_length) + found[0].right * 1024;
}
