/* Does the works of the bench, on the proved controller or on the plain model.
     harness count        the works of standard input, one after the other, with a call of mark() before each
     harness time N       each work timed N times, in turn: lines 'INDEX NANOSECONDS' (of one turn)
     harness same         each work on both sides; what they leave and tell must be equal
     harness check N      the same of N random works
   A work is a line of numbers, as struct work has them. */
#include "calls.h"
#include "boards.h"

int printf(const char *, ...);
int scanf(const char *, ...);
int strcmp(const char *, const char *);
int memcmp(const void *, const void *, usize);
void *memcpy(void *, const void *, usize);
int atoi(const char *);
struct timespec { long seconds, nanoseconds; };
int clock_gettime(int, struct timespec *);

enum { PROVED, PLAIN };
enum { NOTHING, WRITE, READ, RUN, ROUND, LOOP, MEMCPY, JUDGE = C_OVER };
enum { LENT = 1 << 20, WORKS_MAX = 2000, RECORDS_MAX = 65536 };

struct work {
    int side, family;
    u32 mode, other_mode, command, from, to, length, k, reg, byte;
    u64 times;
};

static u8 memory[65537], device[LENT], room[LENT];
static u8 logged[8 * RECORDS_MAX + 64];
static usize log_size;
static struct work works[WORKS_MAX];

__attribute__((noinline)) void mark(void) { __asm__ volatile(".byte 0x0f, 0x1f, 0x80, 0x4d, 0x41, 0x52, 0x4b" ::: "memory"); }

/* ---- states, as sheets ---- */

static void put_word(u8 *b, u32 value)
{
    b[0] = (u8)value;
    b[1] = (u8)(value >> 8);
}

static void put_channel(u8 *sheet, u32 n, u32 address, u32 count, u32 mode)
{
    u8 *p = sheet + 9 * n;
    put_word(p, address), put_word(p + 2, address);
    put_word(p + 4, count), put_word(p + 6, count);
    p[8] = (u8)mode;
}

/* Of this form, behind so many body bytes. */
static void put_trailer(u8 *sheet, u32 form, u32 size)
{
    u8 *t = sheet + size;
    u32 sum = 0;
    for (u32 i = 0; i < size; i++) sum += sheet[i];
    put_word(t, form), put_word(t + 2, size), put_word(t + 4, sum);
    t[6] = 0x44, t[7] = 0x4d;
}

/* The same state in form 2, of this edition and with these waits. */
static void put_second(u8 *second, const u8 *sheet, u32 edition, u32 waits)
{
    second[0] = (u8)edition, second[1] = (u8)waits;
    memcpy(second + 2, sheet, 48);
    put_trailer(second, 2, 50);
}

static int is_judging(const struct work *w) { return w->family == JUDGE || w->family == C_JUDGE; }

/* The service of channel 0 is open. */
static int is_open(const struct work *w) { return w->family == RUN || w->family == C_RUN || is_judging(w); }

static int is_round(const struct work *w) { return w->family == ROUND || w->family == C_ROUND || w->family == B_ROUND; }

static int is_board(const struct work *w) { return w->family > C_OVER && w->family < B_OVER; }

/* All lines active and unmasked; for a run and a log the service of channel 0 is open. */
static void put_state(u8 *sheet, const struct work *w)
{
    for (int i = 0; i < 48; i++) sheet[i] = 0;
    for (u32 n = 0; n < 4; n++) {
        u32 address = is_round(w) ? n * 0x4000 : n == 1 ? w->to : w->from;
        u32 bytes = n == 0 && is_open(w) && w->k != 0 ? w->k : w->length;
        put_channel(sheet, n, address, bytes - 1, n == 1 && is_open(w) ? w->other_mode : w->mode);
    }
    sheet[36] = (u8)w->command;
    sheet[42] = 15;
    sheet[43] = 3;
    sheet[44] = (u8)is_open(w);
    put_trailer(sheet, 1, 48);
}

/* ---- logs ---- */

static u16 moved(u16 address, u8 mode) { return mode & 32 ? (u16)(address - 1) : (u16)(address + 1); }

/* The log of the service that is open, as an honest replica with this memory makes it: until it ends, by TC, by EOP at this record
   (0: none) or as a single transfer, or so many records are made. */
static void put_log(const am9517_chip *start, u32 most, u32 eop_at)
{
    static u8 seen[65536];
    am9517_chip c = *start;
    u32 n = c.serving & 3, copies = n == 0 ? c.command & 1 : 0, kind = copies ? 3 : c.channels[n].mode >> 2 & 3, last = 0;
    am9517_channel *from = &c.channels[n], *to = &c.channels[1];
    memcpy(seen, memory, sizeof seen);
    log_size = 0;
    for (u32 made = 1; made <= most && !last; made++, log_size += 8) {
        u8 byte = kind == 0 ? 0 : kind == 1 ? device[made] : seen[from->address], *r = logged + log_size;
        u32 tc = (copies ? to : from)->count == 0, eop = made == eop_at;
        last = tc | eop | (!copies && from->mode >> 6 == 1);
        r[0] = (u8)n, r[1] = (u8)kind, r[6] = byte, r[7] = (u8)(tc | eop << 1 | last << 2);
        put_word(r + 2, from->address), put_word(r + 4, copies ? to->address : 0);
        if (copies) seen[to->address] = byte, to->address = moved(to->address, to->mode), to->count--;
        if (kind == 1) seen[from->address] = byte;
        if (!copies || !(c.command & 2)) from->address = moved(from->address, from->mode);
        if (from->count-- == 0 && copies && from->mode & 16) from->address = from->base_address, from->count = from->base_count;
    }
}

/* ---- calls of the C library ---- */

/* The bytes of both sheets, so that a difference in one tells. */
static u64 sheets_sum(const u8 *sheet, const u8 *second)
{
    u64 sum = 0;
    for (u64 i = 0; i < 58; i++) sum = 31 * sum + second[i] + (i < 56 ? sheet[i] << 8 : 0);
    return sum;
}

static u64 do_c_work(const struct work *w, u64 times, u8 *sheet)
{
    u8 second[58];
    struct given g = {w->reg, w->k, (u8)w->byte, device, memory, room, sheet, second, LENT, 65536, LENT, 56, 58, 65536, 0, logged, log_size};
    put_second(second, sheet, w->k, 0);
    am9517_chip start = am9517_fresh(AM9517_EDITION_AM9517A), chip = start;
    am9517_load(&start, sheet, 56);
    if (is_open(w) || is_round(w)) start.waits = (u8)w->byte;
    else start.edition = (u8)w->k;
    u64 sum = do_call(w->family, w->side, &start, &chip, &g, times) + sheets_sum(sheet, second);
    chip.edition = AM9517_EDITION_AM9517A, chip.waits = 0; /* a sheet has no place for others */
    am9517_save(&chip, sheet, 56);
    return sum;
}

/* Both chips as the work has them, of the Am9517A's edition; the first is first. The sheet gets the chip granted last, told of by the sum as well. */
static u64 do_board_work(const struct work *w, u64 times, u8 *sheet)
{
    struct given g = {w->reg, w->k, (u8)w->byte, device, memory, room, sheet, 0, LENT, 65536, LENT, 56, 0, 65536, 0, logged, 0};
    am9517_board start = {am9517_fresh(AM9517_EDITION_AM9517A), am9517_fresh(AM9517_EDITION_AM9517A), 1}, board = start;
    am9517_load(&start.first, sheet, 56), am9517_load(&start.second, sheet, 56);
    u64 sum = do_board_call(w->family, w->side, &start, &board, &g, times);
    am9517_chip *last = board.granted_last ? &board.second : &board.first, *other = board.granted_last ? &board.first : &board.second;
    for (int n = 0; n < 4; n++) sum = 31 * sum + other->channels[n].address + 3u * other->channels[n].count + 5u * other->mask + 7u * other->lowest;
    am9517_save(last, sheet, 56);
    return sum;
}

/* ---- one work ---- */

static u64 copy_loop(u8 *to, const u8 *from, usize n, u64 times)
{
    for (; times > 0; times--) {
        for (usize i = 0; i < n; i++) to[i] = from[i];
        __asm__ volatile("" ::: "memory");
    }
    return to[0];
}

static u64 copy_library(u8 *to, const u8 *from, usize n, u64 times)
{
    for (; times > 0; times--) {
        memcpy(to, from, n);
        __asm__ volatile("" ::: "memory");
    }
    return to[0];
}

#define DO(side) \
    switch (w->family) { \
    case NOTHING: return side##_nothing(first, 56, second, 56, times); \
    case WRITE: return side##_write(first, 56, second, 56, w->reg, w->reg, (u8)w->byte, times); \
    case READ: return side##_read(first, 56, second, 56, w->reg, w->reg, times); \
    case RUN: return side##_run(first, 56, second, 56, memory, 65536, device, LENT, room, LENT, 65536, 0, times); \
    case ROUND: return side##_round(first, 56, second, 56, memory, 65536, device, LENT, room, LENT, w->k, times); \
    case JUDGE: told = side##_judge(first, 56, second, 56, memory, 65536, logged, log_size, &error, times); break; \
    case LOOP: return copy_loop(memory, device, w->length, times); \
    default: return copy_library(memory, device, w->length, times); \
    }

/* What a work starts from: its state, as a sheet, and its log. */
static void prepare(const struct work *w, u8 *first)
{
    am9517_chip start = am9517_fresh(AM9517_EDITION_AM9517A);
    put_state(first, w);
    if (!is_judging(w)) return;
    am9517_load(&start, first, 56);
    put_log(&start, w->length, 0);
    if (w->reg != 0) logged[8 * w->reg - 5] ^= 0x80;
}

/* The state after it is left in `first`. */
static u64 do_prepared(const struct work *w, u64 times, u8 *first)
{
    u8 second[56];
    u64 told = 0;
    int error = 0;
    if (w->family >= C_NOTHING && w->family < C_OVER) return do_c_work(w, times, first);
    if (is_board(w)) return do_board_work(w, times, first);
    memcpy(second, first, 56);
    if (w->side == PROVED) DO(meter)
    else DO(plain)
    return told + ((u64)(u32)error << 32);
}

static u64 do_work(const struct work *w, u64 times, u8 *first)
{
    prepare(w, first);
    return do_prepared(w, times, first);
}

/* ---- counting and timing ---- */

static int read_works(void)
{
    int n = 0;
    struct work *w = works;
    while (n < WORKS_MAX && scanf("%d %d %i %i %i %i %i %i %i %i %i %lu", &w->side, &w->family, &w->mode, &w->other_mode,
                                  &w->command, &w->from, &w->to, &w->length, &w->k, &w->reg, &w->byte, &w->times) == 12)
        n++, w++;
    return n;
}

static void count(int n)
{
    u8 sheet[56];
    u64 sum = 0;
    for (int i = 0; i < n; i++) {
        mark();
        sum += do_work(&works[i], works[i].times, sheet);
    }
    mark();
    printf("%lu\n", sum);
}

static double seconds(void)
{
    struct timespec t;
    clock_gettime(1, &t);
    return (double)t.seconds + 1e-9 * (double)t.nanoseconds;
}

static double time_of(const struct work *w, u64 times)
{
    u8 sheet[56];
    prepare(w, sheet);
    double began = seconds();
    do_prepared(w, times, sheet);
    return seconds() - began;
}

/* Turns enough for about a millisecond. The first ones don't tell it: pages are got and an emulator translates in them. */
static u64 turns_of(const struct work *w)
{
    u64 times = 1;
    time_of(w, 2);
    time_of(w, 2);
    while (time_of(w, times) < 0.0005) times *= 2;
    return 2 * times;
}

static void time_works(int n, int repeats)
{
    for (int i = 0; i < n; i++) works[i].times = turns_of(&works[i]);
    for (int r = 0; r < repeats; r++)
        for (int i = 0; i < n; i++) printf("%d %.4f\n", i, 1e9 * time_of(&works[i], works[i].times) / (double)works[i].times);
}

/* ---- checking ---- */

/* What one side left. */
static struct {
    u8 sheet[56], memory[65537], room[LENT];
    u64 told;
} left;

static void fill_memory(void)
{
    for (int i = 0; i < 65537; i++) memory[i] = (u8)(i * 31 + i / 253);
}

/* A work's log is right up to where it was made wrong, and again on the memory that the first judging left: each turn does the same. */
static int is_steady(const struct work *w)
{
    u8 sheet[56];
    if (!is_judging(w)) return 1;
    fill_memory();
    prepare(w, sheet);
    for (int turn = 0; turn < 2; turn++) {
        am9517_chip chip = am9517_fresh(AM9517_EDITION_AM9517A);
        am9517_load(&chip, sheet, 56);
        if (am9517_judge(&chip, memory, 65536, logged, log_size).right != (w->reg != 0 ? 8 * (w->reg - 1) : log_size)) return 0;
    }
    return 1;
}

static u64 do_afresh(struct work *w, int side, u8 *sheet)
{
    fill_memory();
    for (int i = 0; i < LENT; i++) room[i] = 0xee;
    w->side = side;
    return do_work(w, w->times, sheet);
}

static int same(int n)
{
    int wrong = 0;
    for (int i = 0; i < n; i++) {
        u8 sheet[56];
        left.told = do_afresh(&works[i], PROVED, left.sheet);
        memcpy(left.memory, memory, sizeof memory), memcpy(left.room, room, sizeof room);
        if (is_steady(&works[i]) && do_afresh(&works[i], PLAIN, sheet) == left.told && memcmp(sheet, left.sheet, 56) == 0 &&
            memcmp(memory, left.memory, sizeof memory) == 0 && memcmp(room, left.room, sizeof room) == 0)
            continue;
        printf("line %d differs\n", i + 1);
        wrong++;
    }
    printf("%d works of the bench on the proved controller and the plain model, %d differ\n", n, wrong);
    return wrong != 0;
}

static u64 seed = 88172645463325252ul;

static u32 random_below(u32 n)
{
    seed ^= seed << 13, seed ^= seed >> 7, seed ^= seed << 17;
    return (u32)(seed >> 32) % n;
}

static u32 random_near(u32 edge) { return edge + random_below(5) - 2; }

static u32 random_word(void)
{
    switch (random_below(4)) {
    case 0: return random_below(20);
    case 1: return 65535 - random_below(20);
    case 2: return random_near(256 * random_below(256)) & 65535;
    default: return random_below(65536);
    }
}

static u8 random_mode(void)
{
    u8 mode = (u8)(random_below(64) << 2);
    return (mode & 12) == 12 && mode < 192 ? mode ^ 4 : mode;
}

/* A state within its ranges, most of the time. */
static void put_random_state(u8 *sheet, int open)
{
    for (u32 n = 0; n < 4; n++) {
        put_channel(sheet, n, random_word(), random_word(), random_mode());
        put_word(sheet + 9 * n, random_word()), put_word(sheet + 9 * n + 4, random_word());
    }
    sheet[36] = (u8)(random_below(256) & (random_below(4) ? ~4u : ~0u));
    for (int i = 37; i <= 39; i++) sheet[i] = (u8)random_below(16);
    sheet[40] = (u8)random_below(256), sheet[41] = (u8)random_below(2), sheet[42] = (u8)random_below(16);
    sheet[43] = (u8)random_below(4), sheet[44] = (u8)open, sheet[45] = (u8)(open ? random_below(4) : 0);
    sheet[46] = (u8)(open ? random_below(2) : 0), sheet[47] = (u8)(sheet[46] ? random_below(256) : 0);
    if (random_below(8) == 0) sheet[random_below(48)] ^= (u8)(1u << random_below(8));
    if (random_below(16) == 0) sheet[36 + random_below(12)] = (u8)random_below(20);
    put_trailer(sheet, 1, 48);
}

struct outcome {
    u8 sheet[56], second[58], memory[65537], room[8192];
    u64 told;
};

static struct outcome outcomes[2];

static u64 random_work(int side, struct outcome *o, const u8 *second, int family, const u64 *number)
{
    u8 *first = o->sheet;
    usize lent = number[0], bytes = number[1], places = number[2];
    u32 reg = (u32)number[3];
    u64 times = number[6], told;
    int error = 0;
    switch (2 * family + side) {
    case 2 * WRITE + PROVED: return meter_write(first, 56, second, 56, reg, reg, (u8)number[4], times);
    case 2 * WRITE + PLAIN: return plain_write(first, 56, second, 56, reg, reg, (u8)number[4], times);
    case 2 * READ + PROVED: return meter_read(first, 56, second, 56, reg, reg, times);
    case 2 * READ + PLAIN: return plain_read(first, 56, second, 56, reg, reg, times);
    case 2 * RUN + PROVED:
        return meter_run(first, 56, second, 56, o->memory, lent, device, bytes, o->room, places, number[4], number[5], times);
    case 2 * RUN + PLAIN:
        return plain_run(first, 56, second, 56, o->memory, lent, device, bytes, o->room, places, number[4], number[5], times);
    case 2 * JUDGE + PROVED:
        told = meter_judge(first, 56, second, 56, o->memory, lent, logged, log_size, &error, times);
        return told + ((u64)(u32)error << 32);
    case 2 * JUDGE + PLAIN:
        told = plain_judge(first, 56, second, 56, o->memory, lent, logged, log_size, &error, times);
        return told + ((u64)(u32)error << 32);
    case 2 * ROUND + PROVED:
        return meter_round(first, 56, second, 56, o->memory, lent, device, bytes, o->room, places, (u32)number[4], times);
    default:
        return plain_round(first, 56, second, 56, o->memory, lent, device, bytes, o->room, places, (u32)number[4], times);
    }
}

/* Honest for some records, or to the end of the service; then, mostly, damaged somewhere, cut, ended by EOP, or with more behind it. */
static void put_random_log(const am9517_chip *start)
{
    put_log(start, random_below(8) ? random_below(40) : random_word() + 1, random_below(3) ? 0 : random_below(30));
    if (log_size != 0) {
        u32 place = random_below((u32)log_size);
        switch (random_below(5)) {
        case 0: logged[place] ^= (u8)(1u << random_below(8)); break;
        case 1: logged[place] = (u8)random_below(256); break;
        case 2: logged[place | 7] ^= 6; break;
        case 3: log_size -= random_below(8); break;
        default: break;
        }
    }
    if (random_below(4) == 0)
        for (u32 more = random_below(20); more > 0; more--) logged[log_size++] = (u8)random_below(random_below(2) ? 4 : 256);
}

/* One random work on both sides; 0 where they agree. */
static int differs(void)
{
    int drawn = WRITE + (int)random_below(5), family = drawn > ROUND ? JUDGE : drawn, open = family == RUN || family == JUDGE;
    u8 first[56], second[56];
    put_random_state(first, random_below(16) ? open : !open);
    put_random_state(second, open);
    if (family == JUDGE) {
        am9517_chip start = am9517_fresh(AM9517_EDITION_AM9517A);
        am9517_load(&start, first, 56);
        put_random_log(&start);
    }
    u64 edge = random_below(3) ? random_below(40) : random_word();
    u64 number[7] = {random_below(16) ? 65536 : random_near(65536) & 65535, random_below(3) ? 70000 : random_below(300),
                     random_below(3) ? 8192 : random_below(300), random_below(17), edge, random_below(2) ? random_below(30) : 0,
                     1 + random_below(3)};
    if (random_below(2) && family == RUN) number[4] = 65536;
    if (random_below(8) == 0 && family == ROUND) number[4] = random_near(4096);
    for (int side = PROVED; side <= PLAIN; side++) {
        struct outcome *o = &outcomes[side];
        memcpy(o->sheet, first, 56);
        for (int i = 0; i < 65537; i++) o->memory[i] = (u8)(i * 31 + i / 253);
        for (int i = 0; i < 8192; i++) o->room[i] = 0xee;
        o->told = random_work(side, o, second, family, number);
    }
    return outcomes[0].told != outcomes[1].told || memcmp(outcomes[0].sheet, outcomes[1].sheet, 56) ||
           memcmp(outcomes[0].memory, outcomes[1].memory, 65537) || memcmp(outcomes[0].room, outcomes[1].room, 8192);
}

/* By fields: the byte behind a channel's mode is padding. */
static int same_chip(const am9517_chip *a, const am9517_chip *b)
{
    for (int n = 0; n < 4; n++)
        if (memcmp(&a->channels[n], &b->channels[n], offsetof(am9517_channel, mode) + 1) != 0) return 0;
    return memcmp(&a->tc, &b->tc, offsetof(am9517_chip, waits) + 1 - offsetof(am9517_chip, tc)) == 0;
}

/* Registers, E often, and editions that a fresh chip is asked for. */
static u32 random_number(void)
{
    switch (random_below(8)) {
    case 0: return 255 + random_below(4);
    case 1: return ~0u << random_below(32) | random_below(2);
    case 2: return 14;
    default: return random_below(17);
    }
}

/* Where EOP comes: not, somewhere, or near the TC of the service that is open. */
static u64 random_eop(const am9517_chip *c)
{
    u32 n = c->command & 1 && c->serving == 0 ? 1 : c->serving & 3;
    switch (random_below(4)) {
    case 0: return 0;
    case 1: return random_near(c->channels[n].count + 1u);
    default: return random_below(30);
    }
}

/* One random call of the C library on both sides, on a chip of either edition, at times of none, with waits or without; 0 where
   they agree. */
static int call_differs(void)
{
    int family = C_WRITE + (int)random_below(C_OVER - C_WRITE), runs = family == C_RUN || family == C_JUDGE, open = random_below(8) ? runs : !runs;
    u8 sheet[56], second[58];
    am9517_chip start = am9517_fresh(AM9517_EDITION_AM9517A), chip[2];
    u64 told[2];
    put_random_state(sheet, open);
    put_second(second, sheet, random_below(4) ? 0 : random_below(3), random_below(2) ? 0 : random_below(256));
    am9517_load(&start, sheet, 56);
    start.edition = (u8)(random_below(32) ? random_below(2) : random_below(256));
    start.waits = (u8)(random_below(2) ? random_below(256) : 0);
    if (random_below(4) == 0) ((u8 *)&start)[random_below(sizeof start)] ^= (u8)(1u << random_below(8));
    sheet[random_below(56)] ^= (u8)(random_below(3) ? 0 : 1u << random_below(8));
    second[random_below(58)] ^= (u8)(random_below(3) ? 0 : 1u << random_below(8));
    put_random_log(&start);
    struct given g = {random_number(), random_below(9) ? random_below(30) : random_near(4096), (u8)random_below(random_below(2) ? 17 : 256), device, 0, 0, 0, 0,
                      random_below(300), random_below(16) ? 65536 : random_near(65536) & 65535, random_below(300), 56 - random_below(9) / 8,
                      58 - random_below(9) / 8, random_below(2) ? 65536 : random_below(40), random_eop(&start), logged, log_size};
    for (int side = PROVED; side <= PLAIN; side++) {
        struct outcome *o = &outcomes[side];
        memcpy(o->sheet, sheet, 56), memcpy(o->second, second, 58);
        for (int i = 0; i < 65537; i++) o->memory[i] = (u8)(i * 31 + i / 253);
        for (int i = 0; i < 8192; i++) o->room[i] = 0xee;
        g.memory = o->memory, g.room = o->room, g.sheet = o->sheet, g.second = o->second;
        told[side] = do_call(family, side, &start, &chip[side], &g, 1);
    }
    return told[0] != told[1] || !same_chip(&chip[0], &chip[1]) || memcmp(outcomes[0].sheet, outcomes[1].sheet, 56) ||
           memcmp(outcomes[0].second, outcomes[1].second, 58) || memcmp(outcomes[0].memory, outcomes[1].memory, 65537) || memcmp(outcomes[0].room, outcomes[1].room, 8192);
}

static void put_random_chip(am9517_chip *chip, int open)
{
    u8 sheet[56];
    put_random_state(sheet, open);
    *chip = am9517_fresh(AM9517_EDITION_AM9517A);
    am9517_load(chip, sheet, 56);
    chip->edition = (u8)(random_below(32) ? random_below(2) : random_below(256));
    chip->waits = (u8)(random_below(2) ? random_below(256) : 0);
}

/* One random call on a lent board on both sides, one of its chips serving at times, the pair out of its ranges at times; 0 where they agree. */
static int board_differs(void)
{
    int family = B_WRITE + (int)random_below(B_NOTHING - B_WRITE), open = random_below(6) == 0;
    am9517_board start = {0}, board[2];
    u64 told[2];
    put_random_chip(&start.first, open && random_below(2)), put_random_chip(&start.second, open && random_below(2));
    start.granted_last = (u8)(random_below(32) ? random_below(2) : random_below(256));
    if (random_below(8) == 0) ((u8 *)&start)[random_below(sizeof start)] ^= (u8)(1u << random_below(8));
    struct given g = {random_below(8) ? random_below(34) : random_number(), random_below(9) ? random_below(30) : random_near(4096), (u8)random_below(256), device, 0, 0, 0, 0,
                      random_below(300), random_below(16) ? 65536 : random_near(65536) & 65535, random_below(300), 0, 0, 65536, 0, logged, 0};
    for (int side = PROVED; side <= PLAIN; side++) {
        struct outcome *o = &outcomes[side];
        for (int i = 0; i < 65537; i++) o->memory[i] = (u8)(i * 31 + i / 253);
        for (int i = 0; i < 8192; i++) o->room[i] = 0xee;
        g.memory = o->memory, g.room = o->room;
        told[side] = do_board_call(family, side, &start, &board[side], &g, 1);
    }
    return told[0] != told[1] || !same_chip(&board[0].first, &board[1].first) || !same_chip(&board[0].second, &board[1].second) ||
           board[0].granted_last != board[1].granted_last || memcmp(outcomes[0].memory, outcomes[1].memory, 65537) || memcmp(outcomes[0].room, outcomes[1].room, 8192);
}

static int check(int n)
{
    int wrong = 0;
    fill_memory();
    for (int i = 0; i < n; i++)
        if (i % 4 == 3 ? board_differs() : i % 2 ? call_differs() : differs()) {
            printf("work %d differs\n", i);
            wrong++;
        }
    printf("%d random works on the proved controller and the plain model, %d differ\n", n, wrong);
    return wrong != 0;
}

int main(int words, char **word)
{
    for (int i = 0; i < LENT; i++) device[i] = (u8)(i * 7 + i / 251 + 3);
    if (words == 2 && strcmp(word[1], "count") == 0) return count(read_works()), 0;
    if (words == 3 && strcmp(word[1], "time") == 0) return time_works(read_works(), atoi(word[2])), 0;
    if (words == 2 && strcmp(word[1], "same") == 0) return same(read_works());
    if (words == 3 && strcmp(word[1], "check") == 0) return check(atoi(word[2]));
    printf("harness count | time N | same | check N\n");
    return 2;
}
