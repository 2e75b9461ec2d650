/* The calls of am9517.h over the plain model, by pointer: plain_am9517_write for am9517_write, and so on. */
#include "plain.h"

#ifndef CALL
#define CALL(name) plain_am9517_##name
#endif

u32 CALL(version)(void) { return AM9517_VERSION; }

am9517_chip CALL(fresh)(u32 edition)
{
    return (am9517_chip){.mask = 15, .lowest = 3, .edition = edition < 255 ? (u8)edition : 255};
}

u32 CALL(check)(const am9517_chip *chip) { return !valid(chip); }

u32 CALL(write)(am9517_chip *chip, u32 reg, u8 byte) { return write_register(chip, reg, byte) & 255; }

am9517_told CALL(read)(am9517_chip *chip, u32 reg)
{
    u32 said = read_register(chip, reg);
    return said < 256 ? (am9517_told){0, said} : (am9517_told){said - 256, 0};
}

u32 CALL(pins)(am9517_chip *chip, u32 levels)
{
    if (!valid(chip)) return 1;
    if (levels > 15) return 2;
    chip->pins = (u8)levels;
    return 0;
}

u32 CALL(reset)(am9517_chip *chip)
{
    if (!valid(chip)) return 1;
    master_clear(chip);
    return 0;
}

u32 CALL(waits)(am9517_chip *chip, u8 states)
{
    if (!valid(chip)) return 1;
    if (chip->in_service) return 3;
    chip->waits = states;
    return 0;
}

am9517_told CALL(grant)(am9517_chip *chip)
{
    if (!valid(chip)) return (am9517_told){1, 0};
    if (chip->in_service) return (am9517_told){3, 0};
    int n = picked(chip);
    if (n < 0) return (am9517_told){6, 0};
    grant(chip, n);
    return (am9517_told){0, (u32)n};
}

am9517_told CALL(entitled)(const am9517_chip *chip)
{
    if (!valid(chip)) return (am9517_told){1, 0};
    u32 set = 0;
    for (u32 n = 0; n < 4; n++) set |= (u32)entitled(chip, n) << n;
    return (am9517_told){0, set};
}

am9517_told CALL(status)(const am9517_chip *chip)
{
    return valid(chip) ? (am9517_told){0, status(chip)} : (am9517_told){1, 0};
}

/* The number of a reason in am9517.h. */
static u32 reason_number(const struct told *t) { return t->refusal ? 0 : (u32)t->why + 1; }

am9517_run_told CALL(run)(am9517_chip *chip, u8 *memory, usize memory_size, const u8 *device, usize device_size, u8 *room,
                          usize room_size, u64 limit, u64 eop_at)
{
    struct lent l = {memory, memory_size, device, device_size, room, room_size};
    struct told t = run(chip, l, limit, eop_at);
    const struct counts *n = &t.counts;
    return (am9517_run_told){t.refusal, reason_number(&t), n->transfers, n->used, n->written, n->states};
}

am9517_round_told CALL(round)(am9517_chip *chip, u8 *memory, usize memory_size, const u8 *device, usize device_size, u8 *room,
                              usize room_size, u32 k)
{
    struct lent l = {memory, memory_size, device, device_size, room, room_size};
    struct told t = round_of(chip, l, k);
    const struct counts *n = &t.counts;
    const u32 *s = t.services;
    return (am9517_round_told){t.refusal, reason_number(&t), {s[0], s[1], s[2], s[3]}, n->transfers, n->used, n->written, n->states};
}

am9517_judge_told CALL(judge)(am9517_chip *chip, u8 *memory, usize memory_size, const u8 *log, usize log_size)
{
    struct found f = judge(chip, memory, memory_size, log, log_size);
    return (am9517_judge_told){f.refusal, f.error, f.right};
}

u32 CALL(save)(const am9517_chip *chip, u8 *sheet, usize size)
{
    if (!valid(chip)) return 1;
    if (size < AM9517_SHEET_SIZE) return 9;
    if (intel(chip) || chip->waits) return 15;
    write_sheet(chip, sheet + size - AM9517_SHEET_SIZE);
    return 0;
}

u32 CALL(load)(am9517_chip *chip, const u8 *sheet, usize size)
{
    if (size < AM9517_SHEET_SIZE) return 9;
    const u8 *last = sheet + size - AM9517_SHEET_SIZE;
    u32 no = trailer_fault(last + 48, 1, 48, sum_of(last));
    if (no != 0) return no;
    am9517_chip told = fields_in(last);
    if (!valid(&told)) return 14;
    *chip = told;
    return 0;
}

/* Form 2 has edition and waits before form 1's 48 bytes. */
static u32 sum_of2(const u8 *body) { return body[0] + body[1] + sum_of(body + 2); }

static am9517_chip fields_in2(const u8 *sheet)
{
    am9517_chip c = fields_in(sheet + 2);
    c.edition = sheet[0], c.waits = sheet[1];
    return c;
}

u32 CALL(save2)(const am9517_chip *chip, u8 *sheet, usize size)
{
    if (!valid(chip)) return 1;
    if (size < AM9517_SHEET2_SIZE) return 9;
    u8 *last = sheet + size - AM9517_SHEET2_SIZE;
    last[0] = chip->edition, last[1] = chip->waits;
    write_body(chip, last + 2);
    write_trailer(last + 50, 2, 50, sum_of2(last));
    return 0;
}

u32 CALL(load2)(am9517_chip *chip, const u8 *sheet, usize size)
{
    if (size < AM9517_SHEET2_SIZE) return 9;
    const u8 *last = sheet + size - AM9517_SHEET2_SIZE;
    u32 no = trailer_fault(last + 50, 2, 50, sum_of2(last));
    if (no != 0) return no;
    am9517_chip told = fields_in2(last);
    if (!valid(&told)) return 14;
    *chip = told;
    return 0;
}

/* The 48 body bytes that both forms have. */
static void copy_body(u8 *to, const u8 *from)
{
    for (int i = 0; i < 48; i++) to[i] = from[i];
}

u32 CALL(forward)(const u8 *source, usize source_size, u8 *target, usize target_size)
{
    if (source_size < AM9517_SHEET_SIZE || target_size < AM9517_SHEET2_SIZE) return 9;
    const u8 *from = source + source_size - AM9517_SHEET_SIZE;
    u8 *to = target + target_size - AM9517_SHEET2_SIZE;
    u32 no = trailer_fault(from + 48, 1, 48, sum_of(from));
    if (no != 0) return no;
    am9517_chip told = fields_in(from);
    if (!valid(&told)) return 14;
    to[0] = to[1] = 0;
    copy_body(to + 2, from);
    write_trailer(to + 50, 2, 50, sum_of2(to));
    return 0;
}

u32 CALL(back)(const u8 *source, usize source_size, u8 *target, usize target_size)
{
    if (source_size < AM9517_SHEET2_SIZE || target_size < AM9517_SHEET_SIZE) return 9;
    const u8 *from = source + source_size - AM9517_SHEET2_SIZE;
    u8 *to = target + target_size - AM9517_SHEET_SIZE;
    u32 no = trailer_fault(from + 50, 2, 50, sum_of2(from));
    if (no != 0) return no;
    am9517_chip told = fields_in2(from);
    if (!valid(&told)) return 14;
    if (told.edition || told.waits) return 15;
    copy_body(to, from + 2);
    write_trailer(to + 48, 1, 48, sum_of(to));
    return 0;
}
