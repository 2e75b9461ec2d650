/* Every call with good and bad input: what it answers, what it leaves, and that a refusal leaves everything. All areas stand
 * between guard bytes; areas of 0 bytes are NULL as well. What both editions share is asked of both, wait states too. What the
 * same operations answer in a script is compared by console.c; here stands what no script can say. */
#include <stdio.h>
#include <string.h>

#include "am9517.h"
#include "record.h"

/* The chip's layout, asked of C99 as well: an array of -1 stops the compiler. */
#define LIES(name, holds) typedef char lies_##name[(holds) ? 1 : -1]
LIES(whole, sizeof(am9517_chip) == 54);
LIES(channel, sizeof(am9517_channel) == 10 && offsetof(am9517_channel, mode) == 8);
LIES(first, offsetof(am9517_chip, channels) == 0 && offsetof(am9517_chip, tc) == 40);
LIES(edition, offsetof(am9517_chip, lowest) == 48 && offsetof(am9517_chip, flip_flop) == 49 && offsetof(am9517_chip, edition) == 50);
LIES(waits, offsetof(am9517_chip, waits) == 53 && sizeof(((am9517_chip *)0)->waits) == 1);
LIES(last, offsetof(am9517_chip, temporary) == 51 && offsetof(am9517_chip, command) == 52);
LIES(judged, sizeof(am9517_judge_told) == 16 && offsetof(am9517_judge_told, error) == 4 && offsetof(am9517_judge_told, right) == 8);
LIES(states, sizeof(((am9517_run_told *)0)->states) == 8 && sizeof(((am9517_round_told *)0)->states) == 8);

enum { SHEET = AM9517_SHEET_SIZE, SHEET2 = AM9517_SHEET2_SIZE, MEMORY = AM9517_MEMORY_SIZE, RECORD = AM9517_RECORD_SIZE, ROOM = 16, GUARD = 32, WATCH = 0xc3 };

static unsigned checks, wrong;

static void expect(int holds, const char *what, unsigned long got)
{
    checks++;
    if (!holds) {
        wrong++;
        printf("calls: %s (%lu)\n", what, got);
    }
}

/* ---- what calls are lent, between guards */

static struct {
    uint8_t a[GUARD];
    am9517_chip chip;
    uint8_t b[GUARD];
    uint8_t memory[MEMORY + 1];
    uint8_t c[GUARD];
    uint8_t room[ROOM];
    uint8_t d[GUARD];
    uint8_t sheet[SHEET + 4];
    uint8_t e[GUARD];
    uint8_t target[SHEET + 4];
    uint8_t f[GUARD];
} at, before, after;
static const uint8_t device[4] = {0x11, 0x22, 0x33, 0x44};
static am9517_chip *const chip = &at.chip;
static uint32_t edition;  /* of the chips that begin() makes */

static int intel(void)
{
    return edition == AM9517_EDITION_INTEL_8237A;
}

static void begin(void)
{
    memset(at.a, WATCH, sizeof at.a);
    memset(at.b, WATCH, sizeof at.b);
    memset(at.c, WATCH, sizeof at.c);
    memset(at.d, WATCH, sizeof at.d);
    memset(at.e, WATCH, sizeof at.e);
    memset(at.f, WATCH, sizeof at.f);
    memset(at.memory, 0x55, sizeof at.memory);
    memset(at.room, 0xee, sizeof at.room);
    memset(at.sheet, 0xdd, sizeof at.sheet);
    memset(at.target, 0xbb, sizeof at.target);
    at.chip = am9517_fresh(edition);
    before = at;
}

static int watched(const uint8_t *guard)
{
    for (int i = 0; i < GUARD; i++)
        if (guard[i] != WATCH)
            return 0;
    return 1;
}

static int guards(void)
{
    return watched(at.a) && watched(at.b) && watched(at.c) && watched(at.d) && watched(at.e) && watched(at.f);
}

static am9517_channel channel_of(uint16_t base_address, uint16_t address, uint16_t base_count, uint16_t count, uint8_t mode)
{
    const am9517_channel c = {base_address, address, base_count, count, mode};
    return c;
}

static int same_channel(const am9517_channel *p, const am9517_channel *q)
{
    return p->base_address == q->base_address && p->address == q->address && p->base_count == q->base_count
           && p->count == q->count && p->mode == q->mode;
}

/* By fields: padding says nothing. */
static int same_chip(const am9517_chip *p, const am9517_chip *q)
{
    for (int n = 0; n < 4; n++)
        if (!same_channel(&p->channels[n], &q->channels[n]))
            return 0;
    return memcmp(&p->tc, &q->tc, offsetof(am9517_chip, waits) + 1 - offsetof(am9517_chip, tc)) == 0;
}

static int areas_stay(void)
{
    return memcmp(at.memory, before.memory, sizeof at.memory) == 0 && memcmp(at.room, before.room, sizeof at.room) == 0
           && memcmp(at.sheet, before.sheet, sizeof at.sheet) == 0 && memcmp(at.target, before.target, sizeof at.target) == 0;
}

static void all_stay(const char *what, unsigned long which)
{
    expect(same_chip(chip, &before.chip), "a refusal changed the chip", which);
    expect(areas_stay(), "a refusal changed an area", which);
    expect(guards(), what, which);
}

/* ---- calls by number, so that each bad chip can be given to all of them: the refusal; other numbers must be 0 with it */

enum { CALLS = 14, LOAD = 14, LOAD2 = 15 };

/* The first record of the service that opened() opens in mode 84h. */
static const uint8_t first_record[RECORD] = {0, 1, 0x34, 0x12, 0, 0, 0x11, 0};

static am9517_run_told run_all(uint64_t limit, uint64_t eop_at)
{
    return am9517_run(chip, at.memory, MEMORY, device, sizeof device, at.room, ROOM, limit, eop_at);
}

static am9517_round_told round_all(uint32_t k)
{
    return am9517_round(chip, at.memory, MEMORY, device, sizeof device, at.room, ROOM, k);
}

static uint32_t alone(am9517_told told)
{
    expect(told.refusal == 0 || told.value == 0, "a value beside a refusal", told.value);
    return told.refusal;
}

static uint32_t run_alone(am9517_run_told r)
{
    const uint64_t rest = r.reason + r.transfers + r.used + r.written + r.states;
    expect(r.refusal == 0 || rest == 0, "numbers beside a refusal of run", r.refusal);
    return r.refusal;
}

static uint32_t round_alone(am9517_round_told r)
{
    const uint64_t services = (uint64_t)r.services[0] + r.services[1] + r.services[2] + r.services[3];
    const uint64_t rest = r.reason + services + r.transfers + r.used + r.written + r.states;
    expect(r.refusal == 0 || rest == 0, "numbers beside a refusal of round", r.refusal);
    return r.refusal;
}

static am9517_judge_told judge_all(const uint8_t *log, size_t size)
{
    return am9517_judge(chip, at.memory, MEMORY, log, size);
}

static uint32_t judge_alone(am9517_judge_told j)
{
    expect(j.refusal == 0 || (j.right == 0 && j.error == 0), "numbers beside a refusal of judge", j.refusal);
    return j.refusal;
}

static uint32_t call(int which)
{
    switch (which) {
    case 0: return am9517_check(chip);
    case 1: return am9517_write(chip, 8, 0);
    case 2: return alone(am9517_read(chip, 0));
    case 3: return am9517_pins(chip, 1);
    case 4: return am9517_reset(chip);
    case 5: return alone(am9517_grant(chip));
    case 6: return alone(am9517_entitled(chip));
    case 7: return alone(am9517_status(chip));
    case 8: return run_alone(run_all(1, 0));
    case 9: return round_alone(round_all(1));
    case 10: return am9517_save(chip, at.sheet, sizeof at.sheet);
    case 11: return am9517_waits(chip, 1);
    case 12: return am9517_save2(chip, at.sheet, sizeof at.sheet);
    case 13: return judge_alone(judge_all(first_record, RECORD));
    case LOAD: return am9517_load(chip, at.sheet, sizeof at.sheet);
    default: return am9517_load2(chip, at.sheet, sizeof at.sheet);
    }
}

/* The chip is refused by 1, whatever the call, before every other ground, and nothing changes. */
static void out_of_range(const char *what)
{
    before = at;
    for (int which = 0; which < CALLS; which++) {
        expect(call(which) == AM9517_STATE_RANGE, what, (unsigned long)which);
        all_stay(what, (unsigned long)which);
    }
    expect(am9517_write(chip, 16, 0) == 1 && am9517_read(chip, 16).refusal == 1 && am9517_pins(chip, 16) == 1, what, 90);
    expect(am9517_write(chip, 14, 0) == 1 && am9517_read(chip, 14).refusal == 1, what, 95);
    expect(am9517_waits(chip, 0) == 1 && am9517_waits(chip, 255) == 1 && am9517_waits(chip, chip->waits) == 1, what, 96);
    expect(am9517_run(chip, NULL, 0, NULL, 0, NULL, 0, 1, 0).refusal == 1, what, 91);
    expect(am9517_round(chip, NULL, 0, NULL, 0, NULL, 0, 5000).refusal == 1, what, 92);
    expect(am9517_save(chip, NULL, 0) == 1 && am9517_save2(chip, NULL, 0) == 1, what, 93);
    expect(am9517_judge(chip, NULL, 0, NULL, 0).refusal == 1 && am9517_judge(chip, at.memory, MEMORY, first_record, 3).refusal == 1, what, 97);
    all_stay(what, 94);
}

/* A field's bytes up to `most` are good, those above are refused. */
static void ranged(uint8_t *field, unsigned most, const char *what)
{
    const uint8_t kept = *field;
    *field = (uint8_t)most;
    expect(am9517_check(chip) == AM9517_OK, what, most);
    *field = (uint8_t)(most + 1);
    out_of_range(what);
    *field = 255;
    out_of_range(what);
    *field = kept;
}

/* Any byte is good there, idle and in service. */
static void all_good(uint8_t *field, const char *what)
{
    const uint8_t kept = *field;
    for (unsigned byte = 0; byte < 256; byte++) {
        *field = (uint8_t)byte;
        expect(am9517_check(chip) == AM9517_OK, what, byte);
    }
    *field = kept;
}

static void bad_chips(void)
{
    begin();
    all_good(&chip->waits, "waits");
    all_good(&chip->temporary, "temporary byte");
    all_good(&chip->command, "command");
    ranged(&chip->tc, 15, "TC bits");
    ranged(&chip->request, 15, "request bits");
    ranged(&chip->mask, 15, "mask bits");
    ranged(&chip->pins, 15, "pins");
    ranged(&chip->flip_flop, 1, "flip-flop");
    ranged(&chip->lowest, 3, "lowest");
    ranged(&chip->edition, 1, "edition");
    chip->in_service = 1;
    ranged(&chip->edition, 1, "edition in service");
    all_good(&chip->waits, "waits in service");
    chip->waits = 255;
    ranged(&chip->edition, 1, "edition in service with waits");
    ranged(&chip->lowest, 3, "lowest in service with waits");
    ranged(&chip->in_service, 1, "in service");
    ranged(&chip->serving, 3, "serving");
    ranged(&chip->latch_full, 1, "latch full");
    chip->latch = 1;
    out_of_range("latch without its mark");
    begin();
    chip->serving = 1;
    out_of_range("serving while idle");
    begin();
    chip->latch_full = 1;
    out_of_range("latch full while idle");
    for (int n = 0; n < 4; n++) {
        begin();
        for (unsigned mode = 0; mode < 256; mode++) {
            const int bad = (mode & 3) != 0 || ((mode & 12) == 12 && mode < 192);
            chip->channels[n].mode = (uint8_t)mode;
            expect(am9517_check(chip) == (bad ? 1u : 0u), "the range of a mode", mode);
        }
        chip->channels[n].mode = 0x0c;
        out_of_range("mode of type 11");
    }
}

/* ---- fresh, version, texts */

/* All zero but mask, lowest channel and edition: so there are no wait states. */
static int is_fresh(const am9517_chip *c, uint32_t of)
{
    am9517_chip want;
    memset(&want, 0, sizeof want);
    want.mask = 15;
    want.lowest = 3;
    want.edition = (uint8_t)of;
    return same_chip(c, &want);
}

static void fresh_chips(void)
{
    static const uint32_t none[] = {2, 3, 127, 128, 254, 255, 256, 257, 512, 65536, 65537, 0x80000000u, 0xffffff00u, 0xffffff01u, 0xffffffffu};
    begin();
    expect(is_fresh(chip, edition), "fresh", edition);
    expect(am9517_check(chip) == AM9517_OK, "fresh is in its ranges", edition);
    memset(chip, 0, sizeof *chip);
    expect(am9517_check(chip) == AM9517_OK && chip->edition == AM9517_EDITION_AM9517A, "a zeroed chip is an Am9517A in its ranges", 0);
    for (size_t i = 0; i < sizeof none / sizeof none[0]; i++) {
        begin();
        *chip = am9517_fresh(none[i]);
        expect(is_fresh(chip, none[i] < 255 ? none[i] : 255), "fresh of no edition", none[i]);
        out_of_range("no edition");
    }
    expect(am9517_version() == AM9517_VERSION, "version", am9517_version());
    expect(AM9517_VERSION == AM9517_VERSION_MAJOR * 10000 + AM9517_VERSION_MINOR * 100 + AM9517_VERSION_PATCH, "version's parts", 0);
}

static void texts(void)
{
    for (uint32_t n = 0; n <= 300; n++) {
        expect(strlen(am9517_refusal_text(n)) > 3, "a refusal's text", n);
        expect(strlen(am9517_reason_text(n)) > 3, "a reason's text", n);
    }
    expect(strcmp(am9517_refusal_text(16), am9517_refusal_text(0xffffffffu)) == 0, "no refusal", 0);
    expect(strcmp(am9517_reason_text(8), am9517_reason_text(0xffffffffu)) == 0, "no reason", 0);
    expect(strcmp(am9517_refusal_text(3), "register access, waits, grant or round during a service") == 0, "the refusal of waits", 0);
    expect(strcmp(am9517_refusal_text(4), "read of 9, A, B, C, E, F, or write of E in an Am9517A") == 0, "the refusal of E", 0);
    expect(strcmp(am9517_refusal_text(9), "slice under 56 bytes for a sheet (58 in form 2)") == 0, "the refusal of a short slice", 0);
    expect(strcmp(am9517_refusal_text(14), "sheet fault: range") == 0, "the last fault of a sheet", 0);
    expect(strcmp(am9517_refusal_text(15), "form 1 has no place for edition and waits") == 0, "the last refusal", 0);
    expect(strcmp(am9517_reason_text(7), "quiet") == 0, "the last reason", 0);
}

/* ---- registers */

static void refused(uint32_t got, uint32_t number, const char *what)
{
    expect(got == number, what, got);
    all_stay(what, number);
}

static void registers(void)
{
    begin();
    refused(am9517_write(chip, 16, 0), AM9517_NUMBER, "write of 16");
    refused(am9517_write(chip, 0xffffffffu, 0), AM9517_NUMBER, "write of 2^32 - 1");
    refused(am9517_write(chip, 11, 0x0c), AM9517_MODE, "mode 0Ch");
    refused(alone(am9517_read(chip, 16)), AM9517_NUMBER, "read of 16");
    for (uint32_t reg = 9; reg <= 15; reg++)
        if (reg != 13)
            refused(alone(am9517_read(chip, reg)), AM9517_REGISTER, "read of a register for writing");
    refused(am9517_pins(chip, 16), AM9517_NUMBER, "pins 16");
    refused(am9517_pins(chip, 0xfffffff0u), AM9517_NUMBER, "pins FFFFFFF0h");
    refused(alone(am9517_grant(chip)), AM9517_NOBODY, "nobody");
    expect(am9517_write(chip, 15, 0xfe) == AM9517_OK && chip->mask == 14, "write of F", chip->mask);
    expect(am9517_write(chip, 2, 0x34) == AM9517_OK && chip->flip_flop == 1, "low byte", chip->flip_flop);
    expect(am9517_write(chip, 2, 0x12) == AM9517_OK && chip->flip_flop == 0, "high byte", chip->flip_flop);
    expect(chip->channels[1].address == 0x1234 && chip->channels[1].base_address == 0x1234, "address", chip->channels[1].address);
    expect(am9517_read(chip, 2).value == 0x34 && am9517_read(chip, 2).value == 0x12, "address read", 0);
    expect(am9517_write(chip, 8, (uint8_t)0x110) == AM9517_OK && chip->command == 0x10, "a byte is narrowed", chip->command);
    chip->temporary = 0x5a;
    expect(am9517_read(chip, 13).value == 0x5a, "temporary", 0);
    chip->tc = 5;
    expect(am9517_status(chip).value == 5 && chip->tc == 5, "a look at the status clears nothing", chip->tc);
    expect(am9517_read(chip, 8).value == 5 && chip->tc == 0, "a read of the status clears", chip->tc);
    expect(guards() && areas_stay(), "registers touched something else", 0);
}

static void services(void)
{
    begin();
    am9517_write(chip, 15, 14);
    expect(am9517_pins(chip, 1) == AM9517_OK && am9517_entitled(chip).value == 1, "entitled", 0);
    expect(am9517_status(chip).value == 0x10, "status", 0);
    const am9517_told grant = am9517_grant(chip);
    expect(grant.refusal == AM9517_OK && grant.value == 0 && chip->in_service == 1, "grant", grant.refusal);
    before = at;
    refused(alone(am9517_read(chip, 0)), AM9517_IN_SERVICE, "read in service");
    refused(am9517_write(chip, 14, 0), AM9517_IN_SERVICE, "write in service");
    refused(alone(am9517_grant(chip)), AM9517_IN_SERVICE, "grant in service");
    refused(round_alone(round_all(1)), AM9517_IN_SERVICE, "round in service");
    expect(am9517_status(chip).value == 0x10, "status in service", 0);
    expect(am9517_pins(chip, 15) == AM9517_OK && chip->pins == 15, "pins in service", chip->pins);
    expect(am9517_reset(chip) == AM9517_OK && chip->in_service == 0 && chip->pins == 15 && chip->mask == 15, "reset in service", 0);
}

/* ---- runs */

/* Channel 0 in block mode at 1234h with this count and kind, its service open. */
static void opened(uint8_t mode, uint8_t n)
{
    begin();
    am9517_write(chip, 11, mode);
    am9517_write(chip, 0, 0x34);
    am9517_write(chip, 0, 0x12);
    am9517_write(chip, 1, n);
    am9517_write(chip, 1, 0);
    am9517_write(chip, 9, 4);
    expect(am9517_grant(chip).refusal == AM9517_OK, "open", 0);
    before = at;
}

static uint32_t run_over(size_t memory_size)
{
    return run_alone(am9517_run(chip, at.memory, memory_size, device, 4, at.room, ROOM, 9, 0));
}

static void runs_to_memory(void)
{
    am9517_run_told r;
    opened(0x84, 3);
    refused(run_alone(am9517_run(chip, NULL, 0, device, 4, at.room, ROOM, 9, 0)), AM9517_MEMORY_LENGTH, "no memory");
    refused(run_over(65535), AM9517_MEMORY_LENGTH, "65,535");
    refused(run_over(65537), AM9517_MEMORY_LENGTH, "65,537");
    refused(run_over(131072), AM9517_MEMORY_LENGTH, "131,072");
    r = am9517_run(chip, at.memory, MEMORY, NULL, 0, NULL, 0, 9, 0);
    expect(r.refusal == 0 && r.reason == AM9517_REASON_SHORT && r.transfers == 0 && r.states == 0, "no device byte", r.reason);
    r = am9517_run(chip, at.memory, MEMORY, device, 4, NULL, 0, 0, 0);
    expect(r.reason == AM9517_REASON_LIMIT && r.used == 0, "limit 0", r.reason);
    all_stay("nothing moved", 0);
    r = am9517_run(chip, at.memory, MEMORY, device, 4, NULL, 0, 1, 9);
    expect(r.reason == AM9517_REASON_LIMIT && r.used == 1 && r.states == 4 && chip->latch == 0x12, "one byte", r.used);
    r = am9517_run(chip, at.memory, MEMORY, device + r.used, 4 - r.used, NULL, 0, ~(uint64_t)0, 0);
    expect(r.refusal == AM9517_OK && r.reason == AM9517_REASON_ENDED && r.transfers == 3, "ended", r.reason);
    expect(r.used == 3 && r.written == 0 && r.states == 9, "used", r.used);
    expect(memcmp(at.memory + 0x1234, device, 4) == 0, "bytes in memory", at.memory[0x1234]);
    expect(at.memory[0x1233] == 0x55 && at.memory[0x1238] == 0x55 && at.memory[MEMORY] == 0x55, "bytes beside them", 0);
    expect(chip->tc == 1 && chip->channels[0].count == 0xffff && chip->in_service == 0, "TC", chip->tc);
    expect(guards(), "guards of a run", 0);
    before = at;
    refused(run_alone(run_all(9, 0)), AM9517_NO_SERVICE, "no service open");
}

static void runs_from_memory(void)
{
    am9517_run_told r;
    opened(0x88, 3);
    memcpy(at.memory + 0x1234, device, 4);
    r = am9517_run(chip, at.memory, MEMORY, NULL, 0, NULL, 0, 9, 0);
    expect(r.reason == AM9517_REASON_SHORT && r.written == 0, "no room", r.reason);
    r = am9517_run(chip, at.memory, MEMORY, NULL, 0, at.room, 1, 9, 0);
    expect(r.reason == AM9517_REASON_SHORT && r.written == 1 && at.room[1] == 0xee, "a room of one", at.room[1]);
    r = am9517_run(chip, at.memory, MEMORY, NULL, 0, at.room + 1, ROOM - 1, 9, 2);
    expect(r.reason == AM9517_REASON_ENDED && r.transfers == 2 && r.written == 2 && r.used == 0, "EOP at 2", r.transfers);
    expect(memcmp(at.room, device, 3) == 0 && at.room[3] == 0xee, "bytes in the room", at.room[1]);
    expect(chip->tc == intel() && (chip->mask & 1) == 1, "EOP sets the TC bit in an Intel chip alone", chip->tc);
    expect(guards(), "guards of a run", 1);
}

/* All of the memory, over its end and round to the start: 65,536 transfers. */
static void whole_memory(void)
{
    static uint8_t all[MEMORY], back[MEMORY];
    for (size_t i = 0; i < MEMORY; i++)
        all[i] = (uint8_t)(i * 7 + i / 251);
    opened(0x84, 0);
    chip->channels[0].count = 0xffff;
    am9517_run_told r = am9517_run(chip, at.memory, MEMORY, all, MEMORY, NULL, 0, 65536, 0);
    expect(r.reason == AM9517_REASON_ENDED && r.transfers == 65536 && r.used == 65536, "65,536 bytes in", (unsigned long)r.transfers);
    expect(r.states == 196865, "196,865 states", (unsigned long)r.states);
    opened(0x88, 0);
    for (size_t i = 0; i < MEMORY; i++)
        at.memory[(0x1234 + i) % MEMORY] = all[i];
    chip->channels[0].count = 0xffff;
    r = am9517_run(chip, at.memory, MEMORY, NULL, 0, back, MEMORY, 65536, 0);
    expect(r.reason == AM9517_REASON_ENDED && r.written == 65536 && memcmp(all, back, MEMORY) == 0, "65,536 bytes out", (unsigned long)r.written);
    expect(guards() && at.memory[MEMORY] == 0x55, "guards of a whole memory", 0);
}

/* ---- rounds, and what comes first where several grounds hold */

static uint32_t round_over(size_t memory_size, uint32_t k)
{
    return round_alone(am9517_round(chip, at.memory, memory_size, device, 4, at.room, ROOM, k));
}

static uint32_t judge_over(size_t memory_size, size_t size)
{
    return judge_alone(am9517_judge(chip, memory_size ? at.memory : NULL, memory_size, size ? first_record : NULL, size));
}

static void orders(void)
{
    begin();
    refused(run_over(65535), AM9517_MEMORY_LENGTH, "run: 7 before 8");
    refused(judge_over(65535, RECORD), AM9517_MEMORY_LENGTH, "judge: 7 before 8");
    refused(judge_over(0, 0), AM9517_MEMORY_LENGTH, "judge of nothing: 7 before 8");
    opened(0x84, 3);
    refused(am9517_write(chip, 16, 0x0c), AM9517_NUMBER, "write: 2 before 3");
    refused(am9517_write(chip, 14, 0), AM9517_IN_SERVICE, "write: 3 before 4");
    refused(am9517_write(chip, 11, 0x0c), AM9517_IN_SERVICE, "write: 3 before 5");
    refused(alone(am9517_read(chip, 16)), AM9517_NUMBER, "read: 2 before 3");
    refused(alone(am9517_read(chip, 15)), AM9517_IN_SERVICE, "read: 3 before 4");
    refused(alone(am9517_grant(chip)), AM9517_IN_SERVICE, "grant: 3 before 6");
    refused(round_over(65535, 4097), AM9517_NUMBER, "round: 2 before 7");
    refused(round_over(65535, 1), AM9517_MEMORY_LENGTH, "round: 7 before 3");
    refused(round_over(MEMORY, 0), AM9517_IN_SERVICE, "round of none: 3");
}

static void rounds(void)
{
    am9517_round_told r;
    begin();
    refused(round_over(MEMORY, 4097), AM9517_NUMBER, "k 4,097");
    refused(round_over(65535, 0xffffffffu), AM9517_NUMBER, "k 2^32 - 1, before the memory");
    refused(round_over(65535, 1), AM9517_MEMORY_LENGTH, "65,535");
    refused(round_over(65537, 0), AM9517_MEMORY_LENGTH, "65,537");
    refused(round_alone(am9517_round(chip, NULL, 0, NULL, 0, NULL, 0, 1)), AM9517_MEMORY_LENGTH, "no memory");
    expect(am9517_round(chip, at.memory, MEMORY, NULL, 0, NULL, 0, 0).reason == AM9517_REASON_DONE, "k 0", 0);
    expect(am9517_round(chip, at.memory, MEMORY, NULL, 0, NULL, 0, AM9517_ROUND_MOST).reason == AM9517_REASON_QUIET, "quiet", 0);
    all_stay("no service", 0);
    am9517_write(chip, 11, 0x45);  /* channel 1: single, device to memory, count 9 */
    am9517_write(chip, 3, 9);
    am9517_write(chip, 3, 0);
    am9517_write(chip, 15, 0x0d);
    am9517_pins(chip, 2);
    r = am9517_round(chip, at.memory, MEMORY, device, 4, NULL, 0, 3);
    expect(r.refusal == AM9517_OK && r.reason == AM9517_REASON_DONE && r.services[1] == 3, "three services", r.services[1]);
    expect(r.transfers == 3 && r.states == 12 && r.used == 3 && r.written == 0, "three transfers", (unsigned long)r.states);
    r = am9517_round(chip, at.memory, MEMORY, device + r.used, 1, NULL, 0, 3);
    expect(r.reason == AM9517_REASON_SHORT && r.services[1] == 2 && r.used == 1 && chip->in_service == 1, "short", r.services[1]);
    expect(memcmp(at.memory, device, 4) == 0 && at.memory[4] == 0x55, "bytes of the round", at.memory[3]);
    expect(run_all(1, 0).reason == AM9517_REASON_ENDED, "the open service goes on by run", 0);
    expect(guards(), "guards of rounds", 0);
}

/* ---- sheets */

/* The sum of so many body bytes, behind form and distance. */
static void seal(uint8_t *sheet, size_t body)
{
    unsigned sum = 0;
    for (size_t i = 0; i < body; i++)
        sum += sheet[i];
    sheet[body + 4] = (uint8_t)(sum & 255);
    sheet[body + 5] = (uint8_t)(sum >> 8);
}

static void saved(void)
{
    static const uint8_t trailer[8] = {1, 0, 0x30, 0, 0x12, 0, 0x44, 0x4d};
    uint8_t want[SHEET];
    memset(want, 0, sizeof want);
    want[39] = 15;
    want[43] = 3;
    memcpy(want + 48, trailer, 8);
    begin();
    refused(am9517_save(chip, at.sheet, 55), AM9517_SHEET_SHORT, "save in 55 bytes");
    refused(am9517_save(chip, NULL, 0), AM9517_SHEET_SHORT, "save in no byte");
    expect(am9517_save(chip, at.sheet, sizeof at.sheet) == AM9517_OK && memcmp(at.sheet + 4, want, SHEET) == 0, "the fresh sheet", 0);
    expect(at.sheet[0] == 0xdd && at.sheet[3] == 0xdd && guards(), "save touched the front", 0);
    expect(same_chip(chip, &before.chip), "save changed the chip", 0);
}

/* A fresh sheet with one byte changed, sealed anew or not, is refused by this number; a chip in service stays as it is. */
static void damaged(int place, uint8_t byte, int sealed, uint32_t number, const char *what)
{
    opened(0x84, 3);
    const am9517_chip fresh = am9517_fresh(AM9517_EDITION_AM9517A);
    am9517_save(&fresh, at.sheet, sizeof at.sheet);
    at.sheet[4 + place] = byte;
    if (sealed)
        seal(at.sheet + 4, 48);
    before = at;
    refused(call(LOAD), number, what);
}

static void bad_sheets(void)
{
    begin();
    refused(am9517_load(chip, NULL, 0), AM9517_SHEET_SHORT, "load of NULL");
    refused(am9517_load(chip, at.sheet, 55), AM9517_SHEET_SHORT, "load of 55 bytes");
    refused(am9517_load(chip, at.sheet, sizeof at.sheet), AM9517_SHEET_END_MARK, "all wrong: the end mark comes first");
    damaged(55, 0x4c, 0, AM9517_SHEET_END_MARK, "end mark");
    damaged(54, 0x45, 0, AM9517_SHEET_END_MARK, "end mark, first byte");
    damaged(48, 2, 0, AM9517_SHEET_FORM, "form 2");
    damaged(49, 1, 0, AM9517_SHEET_FORM, "form 0101h");
    damaged(50, 0x2f, 0, AM9517_SHEET_DISTANCE, "distance 47");
    damaged(51, 1, 0, AM9517_SHEET_DISTANCE, "distance 304");
    damaged(0, 1, 0, AM9517_SHEET_SUM, "sum");
    damaged(53, 1, 0, AM9517_SHEET_SUM, "sum, high byte");
    damaged(8, 1, 1, AM9517_SHEET_RANGE, "mode with channel bits");
    damaged(17, 0x0c, 1, AM9517_SHEET_RANGE, "mode of type 11");
    damaged(37, 16, 1, AM9517_SHEET_RANGE, "five TC bits");
    damaged(41, 2, 1, AM9517_SHEET_RANGE, "flip-flop 2");
    damaged(43, 4, 1, AM9517_SHEET_RANGE, "lowest channel 4");
    damaged(44, 2, 1, AM9517_SHEET_RANGE, "in service 2");
    damaged(45, 1, 1, AM9517_SHEET_RANGE, "serving while idle");
    damaged(47, 1, 1, AM9517_SHEET_RANGE, "latch without its mark");
}

/* A service is cut by its limit, stored, and gone on with by another chip. */
static void loaded(void)
{
    opened(0x84, 3);
    expect(run_all(2, 0).reason == AM9517_REASON_LIMIT, "cut", 0);
    expect(am9517_save(chip, at.sheet, sizeof at.sheet) == AM9517_OK, "stored in service", 0);
    const am9517_chip kept = *chip;
    memset(chip, 0xff, sizeof *chip);
    expect(am9517_check(chip) == AM9517_STATE_RANGE, "a broken chip", 0);
    expect(am9517_load(chip, at.sheet, sizeof at.sheet) == AM9517_OK && same_chip(chip, &kept), "loaded over it", 0);
    const am9517_run_told r = am9517_run(chip, at.memory, MEMORY, device + 2, 2, NULL, 0, 65536, 0);
    expect(r.reason == AM9517_REASON_ENDED && r.states == 6 && memcmp(at.memory + 0x1234, device, 4) == 0, "gone on with", r.reason);
    expect(guards(), "guards of sheets", 0);
}

/* ---- editions: the write of E */

static void all_bytes_to_e(uint8_t mask)
{
    const uint32_t want = intel() ? AM9517_OK : AM9517_REGISTER;
    am9517_chip start = *chip;
    start.mask = mask;
    for (unsigned byte = 0; byte < 256; byte++) {
        am9517_chip left = start;
        *chip = start;
        left.mask = intel() ? 0 : mask;
        expect(am9517_write(chip, 14, (uint8_t)byte) == want && same_chip(chip, &left), "write of E", byte);
    }
}

/* Whatever else the chip has, nothing but the mask changes; a read of E is refused, and so is a write during a service. */
static void writes_of_e(void)
{
    begin();
    for (uint8_t mask = 0; mask < 16; mask++)
        all_bytes_to_e(mask);
    begin();
    chip->tc = chip->request = chip->pins = 15;
    chip->command = chip->temporary = 0xff;
    chip->flip_flop = 1;
    for (int n = 0; n < 4; n++)
        chip->channels[n] = channel_of(0x1234, 0x5678, 0x9abc, 0xdef0, 0xfc);
    for (uint8_t mask = 0; mask < 16; mask++)
        all_bytes_to_e(mask);
    expect(guards() && areas_stay(), "writes of E touched something else", 0);
    before = at;
    refused(alone(am9517_read(chip, 14)), AM9517_REGISTER, "read of E");
    begin();
    am9517_pins(chip, 15);
    expect(am9517_entitled(chip).value == 0, "all masked", am9517_entitled(chip).value);
    am9517_write(chip, 14, 0x0f);
    expect(am9517_entitled(chip).value == (intel() ? 15u : 0u), "E opens all four lines", am9517_entitled(chip).value);
    chip->mask = 0;
    expect(am9517_grant(chip).refusal == AM9517_OK, "grant", 0);
    before = at;
    refused(am9517_write(chip, 14, 0), AM9517_IN_SERVICE, "write of E in service");
    refused(alone(am9517_read(chip, 14)), AM9517_IN_SERVICE, "read of E in service");
}

/* ---- editions: EOP */

/* Channel n's service open by its line: this mode, base count and count, and all other TC bits set. */
static void lined(int n, uint8_t mode, uint16_t count)
{
    begin();
    chip->channels[n] = channel_of(0x4321, 0x1234, 9, count, mode);
    chip->mask = 0;
    chip->pins = (uint8_t)(1u << n);
    expect(am9517_grant(chip).value == (uint32_t)n && chip->in_service == 1, "the line's channel", (unsigned long)n);
    chip->tc = (uint8_t)(15u ^ 1u << n);
    before = at;
}

/* What TC or EOP leaves of channel n, with this count if nothing is restored, and of its TC bit. */
static void is_over(int n, uint16_t count, int tc, const char *what)
{
    const am9517_channel *c = &chip->channels[n];
    const unsigned bit = 1u << n;
    const int restored = c->mode >> 4 & 1;
    expect(chip->tc == (tc ? 15u : 15u ^ bit), what, chip->tc);
    expect(chip->mask == (restored ? 0 : bit), what, chip->mask);
    expect(c->count == (restored ? 9 : count) && (c->address == 0x4321) == restored, what, c->count);
    expect(chip->in_service == 0 && chip->serving == 0 && chip->latch_full == 0 && chip->latch == 0, what, chip->in_service);
    expect(chip->edition == edition && guards(), what, chip->edition);
}

static void eop_of(int n, uint8_t mode)
{
    const int single = mode >> 6 == 1;
    am9517_run_told r;
    lined(n, mode, 2);
    r = run_all(9, 1);
    expect(r.reason == AM9517_REASON_ENDED && r.transfers == 1 && r.states == 4, "EOP at 1", (unsigned long)r.transfers);
    is_over(n, 1, intel(), "EOP alone");
    lined(n, mode, 0);
    expect(run_all(9, 1).reason == AM9517_REASON_ENDED, "EOP with TC", mode);
    is_over(n, 0xffff, 1, "EOP with TC");
    lined(n, mode, 0);
    expect(run_all(9, 0).reason == AM9517_REASON_ENDED, "TC", mode);
    is_over(n, 0xffff, 1, "TC alone");
    lined(n, mode, 0);
    expect(run_all(9, 2).reason == AM9517_REASON_ENDED, "EOP behind TC", mode);
    is_over(n, 0xffff, 1, "EOP behind TC");
    lined(n, mode, 2);
    r = run_all(1, 2);  /* its number is beyond the transfers made, and is not carried on */
    expect(r.reason == (single ? AM9517_REASON_ENDED : AM9517_REASON_LIMIT), "the limit comes before EOP", r.reason);
    expect(chip->tc == before.chip.tc && chip->mask == 0, "EOP beyond the limit", chip->tc);
    if (single)
        return;
    r = run_all(1, ~(uint64_t)0);
    expect(r.reason == AM9517_REASON_LIMIT && chip->tc == before.chip.tc && chip->mask == 0, "EOP at 2^64 - 1", r.reason);
    expect(run_all(9, 1).reason == AM9517_REASON_ENDED, "EOP with TC, cut", mode);
    is_over(n, 0xffff, 1, "EOP with TC, cut");
    lined(n, mode, 2);
    expect(run_all(9, 2).transfers == 2, "EOP at 2", mode);
    is_over(n, 0, intel(), "EOP where the count reads 0");
}

/* No transfer is made, so none meets EOP. */
static void no_eop(int n)
{
    am9517_run_told r;
    lined(n, 0xc0, 2);
    r = run_all(9, 1);
    expect(r.reason == AM9517_REASON_CASCADE && chip->tc == before.chip.tc, "EOP in cascade", r.reason);
    lined(n, 0x04, 2);
    r = am9517_run(chip, at.memory, MEMORY, NULL, 0, NULL, 0, 9, 1);
    expect(r.reason == AM9517_REASON_SHORT && chip->tc == before.chip.tc, "EOP with no device byte", r.reason);
    am9517_pins(chip, 0);
    r = run_all(9, 1);
    expect(r.reason == AM9517_REASON_DROPPED && chip->tc == before.chip.tc && chip->mask == 0, "EOP where the line dropped", r.reason);
}

static void eops(void)
{
    static const uint8_t kinds[] = {0x00, 0x40, 0x80}, ways[] = {0x00, 0x04, 0x08}, others[] = {0x00, 0x10, 0x20, 0x30};
    for (int n = 0; n < 4; n++) {
        for (int i = 0; i < 36; i++)
            eop_of(n, (uint8_t)(kinds[i % 3] | ways[i / 3 % 3] | others[i / 9]));
        no_eop(n);
    }
    lined(2, 0x88, 2);
    run_all(9, 1);
    before = at;
    expect(am9517_status(chip).value == (intel() ? 0x4fu : 0x4bu), "the status shows it", am9517_status(chip).value);
    expect(am9517_read(chip, 8).value == (intel() ? 0x4fu : 0x4bu) && chip->tc == 0, "and a read clears it", chip->tc);
}

/* Memory-to-memory: channel 1's count is run, so TC bit 1 is the one, whatever channel 0's count and modes are. */
static void copied(uint8_t mode0, uint8_t mode1, uint8_t hold, uint16_t count0)
{
    for (int kind = 0; kind < 3; kind++) {  /* EOP alone, EOP with TC, TC alone */
        const int tc = kind > 0;
        begin();
        chip->command = (uint8_t)(1u | hold);
        chip->channels[0] = channel_of(0x0400, 0x0300, 7, count0, mode0);
        chip->channels[1] = channel_of(0x4321, 0x1234, 9, tc ? 1 : 5, mode1);
        chip->mask = 0;
        chip->request = 15;
        chip->pins = 1;
        expect(am9517_grant(chip).value == 0, "grant of channel 0", mode0);
        chip->tc = 12;
        const am9517_run_told r = run_all(9, kind < 2 ? 2 : 0);
        const unsigned restored = mode1 >> 4 & 1;
        expect(r.reason == AM9517_REASON_ENDED && r.transfers == 2 && r.states == 16, "two bytes copied", (unsigned long)r.transfers);
        expect(r.used == 0 && r.written == 0, "the device has no part in it", (unsigned long)r.used);
        expect(chip->tc == (tc || intel() ? 14 : 12), "TC bit 1, never 0", chip->tc);
        expect(chip->mask == (restored ? 0 : 2) && chip->request == 12, "mask and requests", chip->mask);
        expect(chip->channels[1].count == (restored ? 9 : tc ? 0xffff : 3), "channel 1's count", chip->channels[1].count);
        expect(chip->edition == edition && chip->in_service == 0 && guards(), "the copy's chip", chip->edition);
    }
}

static void copies(void)
{
    static const uint8_t modes[] = {0x00, 0x10, 0x40, 0x54, 0x88, 0x98, 0xa8, 0xc0, 0xdc};
    for (int i = 0; i < 9; i++)
        for (uint16_t count0 = 0; count0 < 4; count0++) {
            copied(modes[i], 0x84, 0, count0);
            copied(modes[i], 0x94, 0, count0);
            copied(modes[i], 0xa4, 2, count0);
            copied(modes[i], 0xdc, 2, count0);
        }
}

/* ---- editions: what keeps them, and sheets */

static void edition_kept(void)
{
    begin();
    expect(am9517_reset(chip) == AM9517_OK && is_fresh(chip, edition), "reset keeps the edition", chip->edition);
    opened(0x84, 3);
    expect(am9517_reset(chip) == AM9517_OK && chip->edition == edition && chip->in_service == 0, "reset in service, too", chip->edition);
    begin();
    chip->command = chip->temporary = 0xff;
    chip->tc = chip->request = 15;
    chip->flip_flop = 1;
    chip->mask = chip->lowest = 0;
    expect(am9517_write(chip, 13, 0xff) == AM9517_OK && is_fresh(chip, edition), "master clear keeps the edition", chip->edition);
}

/* An Intel chip has no sheet of form 1: 1, 9, 15 in this order, and not a byte is written. */
static void intel_sheets(void)
{
    edition = AM9517_EDITION_INTEL_8237A;
    opened(0x84, 3);
    for (size_t size = 0; size <= sizeof at.sheet; size++)
        refused(am9517_save(chip, at.sheet, size), size < SHEET ? AM9517_SHEET_SHORT : AM9517_SHEET_NO_PLACE, "save of an Intel chip in service");
    begin();
    refused(am9517_save(chip, at.sheet, sizeof at.sheet), AM9517_SHEET_NO_PLACE, "save of an Intel chip");
    refused(am9517_save(chip, NULL, 0), AM9517_SHEET_SHORT, "save: 9 before 15");
    chip->lowest = 4;
    before = at;
    refused(am9517_save(chip, at.sheet, 55), AM9517_STATE_RANGE, "save: 1 before 9 and 15");
    refused(am9517_save(chip, at.sheet, 56), AM9517_STATE_RANGE, "save: 1 before 15");
}

/* A sheet of form 1 is an Am9517A's, whatever the chip was; refused, it leaves the chip with its edition. */
static void loaded_over(uint32_t was)
{
    const am9517_chip fresh = am9517_fresh(AM9517_EDITION_AM9517A);
    edition = was;
    begin();
    am9517_save(&fresh, at.sheet, sizeof at.sheet);
    chip->channels[2].address = 0x1234;
    before = at;
    at.sheet[4 + 55] ^= 1;
    expect(am9517_load(chip, at.sheet, sizeof at.sheet) == AM9517_SHEET_END_MARK, "a sheet is refused", was);
    expect(same_chip(chip, &before.chip), "and the chip keeps its edition", was);
    at.sheet[4 + 55] ^= 1;
    expect(am9517_load(chip, at.sheet, 55) == AM9517_SHEET_SHORT && same_chip(chip, &before.chip), "a short one, too", was);
    expect(am9517_load(chip, at.sheet, sizeof at.sheet) == AM9517_OK && same_chip(chip, &fresh), "a sheet makes an Am9517A", was);
    expect(am9517_write(chip, 14, 0) == AM9517_REGISTER && guards(), "which knows no write of E", was);
}

/* ---- editions: all else is the same, in random calls on two chips that differ in the edition alone */

static uint32_t seed = 9517;

static uint32_t drawn(uint32_t below)
{
    seed = seed * 1664525u + 1013904223u;
    return (seed >> 8) % below;
}

static void draw_chip(am9517_chip *c)
{
    for (int n = 0; n < 4; n++) {
        const uint32_t kind = drawn(4), way = drawn(kind == 3 ? 4 : 3);
        c->channels[n] = channel_of((uint16_t)drawn(65536), (uint16_t)drawn(65536), (uint16_t)drawn(12), (uint16_t)drawn(12),
                                    (uint8_t)(kind << 6 | drawn(4) << 4 | way << 2));
    }
    c->command = (uint8_t)(drawn(256) & 0xfb);
    c->temporary = (uint8_t)drawn(256);
    c->tc = (uint8_t)drawn(16), c->request = (uint8_t)drawn(16), c->mask = (uint8_t)drawn(16), c->pins = (uint8_t)drawn(16);
    c->flip_flop = (uint8_t)drawn(2);
    c->lowest = (uint8_t)drawn(4);
    c->in_service = (uint8_t)drawn(2);
    c->serving = (uint8_t)(c->in_service ? drawn(4) : 0);
    c->latch_full = (uint8_t)(c->in_service ? drawn(2) : 0);
    c->latch = (uint8_t)(c->latch_full ? drawn(256) : 0);
}

static uint64_t told(am9517_told t)
{
    return (uint64_t)t.refusal << 32 | t.value;
}

/* What the last call counted. */
static uint64_t any_transfers, any_states;

/* A log of the chip's own service, of at most k records, is judged: as it is, or with one bit of it changed. */
static uint64_t any_judging(uint8_t byte, uint32_t k)
{
    static uint8_t memory[MEMORY], log[20 * RECORD];
    am9517_chip copy = *chip;
    memcpy(memory, at.memory, MEMORY);
    const size_t size = honest_log(&copy, memory, k, 0, log);
    if (size > 0)
        log[byte % size] = (uint8_t)(log[byte % size] ^ (byte & 1));
    const am9517_judge_told j = judge_all(log, size);
    return j.refusal + 17 * j.right + 1009 * (uint64_t)(uint32_t)j.error;
}

/* One call on `chip`, its states aside, folded into a number. E is not written, nothing is saved, and no run meets EOP. */
static uint64_t any_call(uint32_t which, uint32_t reg, uint8_t byte, uint32_t k)
{
    any_transfers = any_states = 0;
    switch (which) {
    case 0: return am9517_write(chip, reg == 14 ? 13 : reg, byte);
    case 1: return told(am9517_read(chip, reg));
    case 2: return am9517_pins(chip, reg);
    case 3: return am9517_reset(chip);
    case 4: return told(am9517_grant(chip));
    case 5: return told(am9517_entitled(chip)) + am9517_check(chip);
    case 6: return told(am9517_status(chip));
    case 7: {
        const am9517_round_told r = round_all(k);
        const uint64_t services = r.services[0] + 3 * (r.services[1] + 3 * (r.services[2] + 3 * (uint64_t)r.services[3]));
        any_transfers = r.transfers, any_states = r.states;
        return r.refusal + 17 * r.reason + 97 * services + 1009 * r.transfers + 10007 * r.used + 100003 * r.written;
    }
    case 8: return any_judging(byte, k);
    default: {
        const am9517_run_told r = run_all(k, 0);
        any_transfers = r.transfers, any_states = r.states;
        return r.refusal + 17 * r.reason + 1009 * r.transfers + 10007 * r.used + 100003 * r.written;
    }
    }
}

static void alike(void)
{
    edition = AM9517_EDITION_AM9517A;
    begin();
    for (size_t i = 0; i < MEMORY; i++)
        at.memory[i] = (uint8_t)(i * 31 + i / 253);
    for (unsigned turn = 0; turn < 3000; turn++) {
        const uint32_t which = drawn(13), reg = drawn(17), k = drawn(20);
        const uint8_t byte = (uint8_t)drawn(256);
        draw_chip(chip);
        chip->waits = (uint8_t)drawn(256);
        before = at;
        const uint64_t said = any_call(which, reg, byte, k), states = any_states;
        after = at;
        at = before;
        chip->edition = AM9517_EDITION_INTEL_8237A;
        expect(any_call(which, reg, byte, k) == said && any_states == states, "both editions say the same", which);
        expect(chip->edition == AM9517_EDITION_INTEL_8237A, "the edition is kept", which);
        chip->edition = AM9517_EDITION_AM9517A;
        expect(same_chip(chip, &after.chip), "both editions leave the same chip", which);
        expect(memcmp(at.memory, after.memory, sizeof at.memory) == 0 && memcmp(at.room, after.room, sizeof at.room) == 0,
               "both editions leave the same bytes", which);
    }
    expect(guards(), "guards of both editions", 0);
}

/* ---- logs: honest ones */

static uint8_t logged[(MEMORY + 1) * RECORD];

static void found(am9517_judge_told j, size_t right, int32_t error, const char *what)
{
    expect(j.refusal == AM9517_OK && j.right == right, what, (unsigned long)j.right);
    expect(j.error == error, what, (unsigned long)(uint32_t)j.error);
}

/* The log of the service that is open in `at`; what its runs leave stands in `after`. */
static size_t honest(size_t most, size_t eop_at)
{
    before = after = at;
    return honest_log(&after.chip, after.memory, most, eop_at, logged);
}

/* Chip and memory are those that the runs left, and nothing else was touched. */
static void as_run(const char *what, unsigned long which)
{
    expect(same_chip(chip, &after.chip) && memcmp(at.memory, after.memory, sizeof at.memory) == 0, what, which);
    expect(guards() && memcmp(at.room, before.room, sizeof at.room) == 0 && memcmp(at.sheet, before.sheet, sizeof at.sheet) == 0, what, which);
}

/* Judged in two parts, wherever it is cut between two records. */
static void in_parts(size_t size)
{
    for (size_t cut = 0; cut <= size; cut += RECORD) {
        at = before;
        found(judge_all(cut ? logged : NULL, cut), cut, 0, "the first part");
        expect(cut == size || chip->in_service == 1, "open between two parts", (unsigned long)cut);
        if (cut < size)
            found(judge_all(logged + cut, size - cut), size - cut, 0, "the second part");
        as_run("two parts are the whole", (unsigned long)cut);
    }
}

/* A log whose last record is cut is right up to it; one with bytes behind the end of the service up to the end. */
static void cut_and_behind(size_t size)
{
    for (size_t rest = 1; rest < RECORD; rest++) {
        at = before;
        found(judge_all(logged, size - rest), size - RECORD, 0, "a cut record");
    }
    if (after.chip.in_service)
        return;
    memcpy(logged + size, logged + size - RECORD, RECORD);
    for (size_t more = 1; more <= RECORD; more++) {
        at = before;
        found(judge_all(logged, size + more), size, 0, "bytes behind the end");
        as_run("the service is over", (unsigned long)more);
    }
    expect(judge_alone(judge_all(logged + size, RECORD)) == AM9517_NO_SERVICE, "a part behind the end", 8);
    as_run("which changes nothing", 8);
}

/* The log of the service that is open is accepted, whole and in parts, and leaves what its runs leave. */
static void accepted(size_t most, size_t eop_at, const char *what)
{
    static uint8_t copy[64 * RECORD];
    const size_t size = honest(most, eop_at);
    memcpy(copy, logged, size);
    expect(size > 0, what, (unsigned long)most);
    found(judge_all(logged, size), size, 0, what);
    as_run(what, (unsigned long)size);
    in_parts(size);
    cut_and_behind(size);
    expect(memcmp(copy, logged, size) == 0, "the log is only looked at", (unsigned long)size);
}

static void patterned(void)
{
    for (size_t i = 0; i < MEMORY; i++)
        at.memory[i] = (uint8_t)(i * 31 + i / 253);
}

static void honest_logs(void)
{
    static const uint8_t kinds[] = {0x00, 0x40, 0x80}, ways[] = {0x00, 0x04, 0x08}, others[] = {0x00, 0x10, 0x20, 0x30};
    for (int i = 0; i < 36; i++)
        for (size_t eop_at = 0; eop_at < 4; eop_at++) {
            lined(i % 4, (uint8_t)(kinds[i % 3] | ways[i / 3 % 3] | others[i / 9]), (uint16_t)(eop_at == 3 ? 2 : 5));
            patterned();
            chip->channels[i % 4].address = (uint16_t)(eop_at == 1 ? 0xffff : 0x12ff);
            accepted(9, eop_at, "an honest log");
            for (size_t most = 1; most < 3; most++) {  /* before the first page is left, and behind it */
                at = before;
                accepted(most, 0, "one that stops early");
            }
        }
}

/* Memory-to-memory from a to a + 1 or apart, held or not, channel 0's area so many bytes, up and down. */
static void honest_copies(void)
{
    static const uint8_t modes[] = {0x88, 0x98, 0xa8, 0xb8, 0xc0, 0x44};
    for (int i = 0; i < 6; i++)
        for (unsigned k = 0; k < 8; k++) {
            begin();
            patterned();
            chip->command = (uint8_t)(1 | (k & 2));
            chip->channels[0] = channel_of(0x12fe, 0x12fe, (uint16_t)(k & 3), (uint16_t)(k & 3), modes[i]);
            chip->channels[1] = channel_of(0x4321, (uint16_t)(k & 1 ? 0x12ff : 0xfffe), 9, 7, k & 4 ? 0xa4 : 0x94);
            chip->mask = 0;
            chip->pins = 1;
            expect(am9517_grant(chip).value == 0, "grant of a copy", k);
            accepted(12, k == 5 ? 3 : 0, "an honest copy");
        }
}

/* 65,536 records, to memory and from memory to memory, the last of which ends the service. */
static void longest_logs(void)
{
    for (int copies = 0; copies < 2; copies++) {
        opened(copies ? 0x98 : 0x84, 99);
        patterned();
        chip->command = (uint8_t)copies;
        chip->channels[copies].count = 0xffff;
        chip->channels[1].mode = 0x84;
        const size_t size = honest(MEMORY + 1, 0);
        expect(size == (size_t)MEMORY * RECORD && logged[size - 1] == 5, "65,536 records", (unsigned long)size);
        found(judge_all(logged, size + 3), size, 0, "the longest log");
        as_run("all of the memory", (unsigned long)copies);
    }
}

/* ---- logs: wrong ones */

/* So many records of a block write of channel 1, which has a count of 11: the first at this address, the others as claimed. */
static size_t claimed(uint16_t first, const uint16_t *others, size_t n)
{
    lined(1, 0x84, 11);
    chip->channels[1].address = first;
    before = at;
    for (size_t i = 0; i < n; i++) {
        const uint16_t address = i == 0 ? first : others[i - 1];
        const uint8_t record[RECORD] = {1, 1, (uint8_t)(address & 255), (uint8_t)(address >> 8), 0, 0, (uint8_t)(0x40 + i), 0};
        memcpy(logged + i * RECORD, record, RECORD);
    }
    return n * RECORD;
}

/* A vendor takes a count of 11 for eleven transfers: the eleventh has TC and last of service. */
static void eleven(void)
{
    static const uint16_t addresses[] = {0x1235, 0x1236, 0x1237, 0x1238, 0x1239, 0x123a, 0x123b, 0x123c, 0x123d, 0x123e, 0x123f};
    const size_t size = claimed(0x1234, addresses, 11);
    logged[size - 1] = 5;
    found(judge_all(logged, size), 80, 0, "eleven with TC in the eleventh");
    expect(chip->in_service == 1 && chip->channels[1].count == 1 && chip->channels[1].address == 0x123e, "ten were made", chip->channels[1].count);
    expect(at.memory[0x1234] == 0x40 && at.memory[0x123d] == 0x49 && at.memory[0x123e] == 0x55, "ten bytes", at.memory[0x123e]);
    logged[size - 1] = 0;
    at = before;
    found(judge_all(logged, size), 88, 0, "eleven that stop early");
    expect(chip->in_service == 1 && chip->channels[1].count == 0 && at.memory[0x123e] == 0x4a, "eleven were made", chip->channels[1].count);
    claimed(0x1234, addresses, 12);
    found(judge_all(logged, 12 * RECORD), 88, 0, "the twelfth without TC");
    logged[12 * RECORD - 1] = 5;
    at = before;
    found(judge_all(logged, 12 * RECORD), 96, 0, "twelve with TC in the twelfth");
    expect(chip->in_service == 0 && chip->tc == 15 && guards(), "the service is over", chip->tc);
}

/* A carry that is lost, a step in the wrong direction, and the farthest claims. */
static void turnovers(void)
{
    static const struct { uint16_t first, then; uint8_t down; int32_t error; } claims[] = {
        {0x12ff, 0x1200, 0, -256}, {0xffff, 0xff00, 0, -256}, {0x1300, 0x13ff, 1, 256}, {0x0000, 0x00ff, 1, 256},
        {0x1234, 0x1234, 0, -1},   {0x1234, 0x1236, 0, 1},    {0x1234, 0x1233, 0, -2},  {0x0000, 0xffff, 0, -2},
        {0x7fff, 0x0000, 0, -32768}, {0x0fff, 0x9000, 0, -32768}, {0x0fff, 0x8fff, 0, 32767}, {0xffff, 0x8000, 0, -32768}};
    for (size_t i = 0; i < sizeof claims / sizeof claims[0]; i++) {
        const size_t size = claimed(claims[i].first, &claims[i].then, 2);
        chip->channels[1].mode = (uint8_t)(claims[i].down ? 0xa4 : 0x84);
        found(judge_all(logged, size), RECORD, claims[i].error, "a wrong turnover");
        expect(chip->channels[1].count == 10 && chip->in_service == 1, "one was made", chip->channels[1].count);
    }
    claimed(0x1234, NULL, 1);
    for (uint32_t address = 0; address < MEMORY; address++) {
        const uint32_t apart = (address - 0x1234) & 0xffff;
        logged[2] = (uint8_t)(address & 255);
        logged[3] = (uint8_t)(address >> 8);
        if (apart != 0)
            found(judge_all(logged, RECORD), 0, apart < 32768 ? (int32_t)apart : (int32_t)apart - 65536, "every address");
    }
    all_stay("wrong at the first record", 0);
}

/* One byte of the next record of the open service changed to every other: right exactly where the rules make that record of the
 * device's byte and the EOP that it tells. */
static void one_byte(const char *what)
{
    uint8_t good[RECORD], record[RECORD], want[RECORD];
    before = at;
    next_record(chip, at.memory, 0x5a, 0, good);
    for (unsigned all = 0; all < 256 * RECORD; all++) {
        memcpy(record, good, RECORD);
        record[all >> 8] = (uint8_t)(all & 255);
        next_record(&before.chip, before.memory, record[6], record[7] >> 1 & 1, want);
        const uint32_t apart = (record[2] + 256u * record[3] - want[2] - 256u * want[3]) & 0xffff;
        const am9517_judge_told j = judge_all(record, RECORD);
        if (memcmp(record, want, RECORD) != 0) {
            found(j, 0, apart < 32768 ? (int32_t)apart : (int32_t)apart - 65536, what);
            continue;
        }
        found(j, RECORD, 0, what);
        after = before;
        const uint8_t byte = record[6];
        uint8_t out[1];
        am9517_run(&after.chip, after.memory, MEMORY, &byte, 1, out, 1, 1, record[7] >> 1 & 1);
        as_run(what, all);
        at = before;
    }
    all_stay(what, 1);
}

static void changed_records(void)
{
    static const uint8_t modes[] = {0x84, 0x88, 0x80, 0x44, 0x48, 0x40, 0x04, 0xb4};
    for (uint16_t i = 0; i < 16; i++) {
        lined(i % 4, modes[i / 2], (uint16_t)(i % 2 ? 0 : 3));
        patterned();
        one_byte("a changed record");
    }
    opened(0x88, 3);
    chip->command = 1;
    chip->channels[1] = channel_of(0x4321, 0x4321, 3, 3, 0x84);
    patterned();
    one_byte("a changed copy");
}

/* EOP in the log ends the service; in an Intel chip it sets the TC bit, and bit 0 of the flags is the count's alone in both. */
static void eop_flags(void)
{
    static const uint16_t next[] = {0x1235, 0x1236};
    const size_t size = claimed(0x1234, next, 3);
    for (unsigned flags = 1; flags < 256; flags++) {
        at = before;
        logged[2 * RECORD - 1] = (uint8_t)flags;
        found(judge_all(logged, size), flags == 6 ? 2 * RECORD : RECORD, 0, "flags in the middle");
        expect(chip->in_service == (flags != 6) && chip->tc == (flags == 6 && intel() ? 15 : 13), "EOP ends it", chip->tc);
    }
}

/* Cascade and a dropped line: whatever the record says, it is wrong with error 0, and nothing changes. */
static void no_transfers(void)
{
    static const uint8_t modes[] = {0xc0, 0xc4, 0xdc, 0x04, 0x08, 0x00};
    for (int i = 0; i < 12; i++) {
        lined(i % 4, modes[i / 2], 3);
        if (i >= 6 || i % 2)
            am9517_pins(chip, 0);
        before = at;
        next_record(chip, at.memory, 0x5a, 0, logged);
        found(judge_all(logged, RECORD), 0, 0, "no transfer is made");
        logged[3] ^= 0x80;
        found(judge_all(logged, RECORD), 0, 0, "nor at another address");
        found(judge_all(NULL, 0), 0, 0, "no record, and none is wrong");
        expect(chip->in_service == 1, "the service stays open", (unsigned long)i);
        all_stay("no transfer", (unsigned long)i);
        if (i < 6)
            continue;
        am9517_pins(chip, 15);
        logged[3] ^= 0x80;
        found(judge_all(logged, RECORD), RECORD, 0, "the line is back");
    }
}

static void refused_logs(void)
{
    opened(0x84, 3);
    refused(judge_over(0, RECORD), AM9517_MEMORY_LENGTH, "judge over no memory");
    refused(judge_over(65535, RECORD), AM9517_MEMORY_LENGTH, "judge over 65,535");
    refused(judge_over(65537, RECORD), AM9517_MEMORY_LENGTH, "judge over 65,537");
    refused(judge_over(65537, 0), AM9517_MEMORY_LENGTH, "judge of nothing over 65,537");
    found(judge_all(NULL, 0), 0, 0, "an empty log");
    found(judge_all(first_record, 7), 0, 0, "seven bytes");
    all_stay("nothing was made", 0);
    begin();
    refused(judge_alone(judge_all(first_record, RECORD)), AM9517_NO_SERVICE, "judge while idle");
    refused(judge_alone(judge_all(NULL, 0)), AM9517_NO_SERVICE, "judge of nothing while idle");
}

/* ---- wait states: the call */

static const uint8_t some_waits[] = {0, 1, 2, 3, 127, 128, 254, 255};

enum { SOME = sizeof some_waits };

/* Every byte is refused by this number. */
static void no_waits(uint32_t number, const char *what)
{
    before = at;
    for (unsigned byte = 0; byte < 256; byte++)
        expect(am9517_waits(chip, (uint8_t)byte) == number && same_chip(chip, &before.chip), what, byte);
    all_stay(what, number);
}

/* Every byte over the waits that a chip has: nothing but the field changes. In service every one is refused. */
static void waits_set(void)
{
    for (int i = 0; i < SOME; i++) {
        begin();
        chip->tc = chip->request = chip->pins = 15;
        chip->command = chip->temporary = 0xff;
        chip->flip_flop = 1;
        for (int n = 0; n < 4; n++)
            chip->channels[n] = channel_of(0x1234, 0x5678, 0x9abc, 0xdef0, 0xfc);
        const am9517_chip start = *chip;
        for (unsigned byte = 0; byte < 256; byte++) {
            am9517_chip want = start;
            *chip = start;
            chip->waits = some_waits[i];
            want.waits = (uint8_t)byte;
            expect(am9517_waits(chip, (uint8_t)byte) == AM9517_OK && same_chip(chip, &want), "waits", byte);
        }
        expect(guards() && areas_stay(), "waits touched something else", some_waits[i]);
        opened(0x84, 3);
        chip->waits = some_waits[i];
        no_waits(AM9517_IN_SERVICE, "waits in service");
        chip->lowest = 4;
        no_waits(AM9517_STATE_RANGE, "waits: 1 before 3");
        chip->in_service = 0;
        no_waits(AM9517_STATE_RANGE, "waits of a broken chip");
    }
    begin();
    expect(am9517_waits(chip, (uint8_t)0x1ff) == AM9517_OK && chip->waits == 255, "a number of waits is narrowed", chip->waits);
    expect(am9517_waits(chip, (uint8_t)256) == AM9517_OK && is_fresh(chip, edition), "256 are none", chip->waits);
}

/* Reset and master clear leave them, also in service; so do all writes and reads of registers. */
static void waits_kept(void)
{
    for (int i = 0; i < SOME; i++) {
        const uint8_t w = some_waits[i];
        begin();
        am9517_waits(chip, w);
        am9517_chip want = *chip;
        expect(am9517_reset(chip) == AM9517_OK && same_chip(chip, &want), "reset keeps the waits", chip->waits);
        chip->command = chip->temporary = 0xff;
        chip->tc = chip->request = 15;
        chip->flip_flop = 1;
        chip->mask = chip->lowest = 0;
        expect(am9517_write(chip, 13, 0xff) == AM9517_OK && same_chip(chip, &want), "master clear keeps the waits", chip->waits);
        for (uint32_t reg = 0; reg < 16; reg++)
            for (unsigned byte = 0; byte < 256; byte += 17) {
                am9517_write(chip, reg, (uint8_t)byte);
                am9517_read(chip, reg);
                expect(chip->waits == w && chip->edition == edition, "registers keep the waits", reg);
            }
        opened(0x84, 3);
        chip->waits = w;
        expect(am9517_reset(chip) == AM9517_OK && chip->waits == w && chip->in_service == 0, "reset in service, too", chip->waits);
        expect(am9517_waits(chip, 9) == AM9517_OK && chip->waits == 9, "which leaves the chip idle", chip->waits);
    }
}

/* ---- wait states: what they cost */

/* Channel 0's service open by its line: this command, mode, address and count, with so many waits, which the call sets. */
static void slow(uint8_t command, uint8_t mode, uint16_t address, uint16_t count, uint8_t w)
{
    begin();
    chip->command = command;
    chip->channels[0] = channel_of(0x4321, address, 9, count, mode);
    chip->channels[1] = channel_of(0x4321, 0x2345, 9, count, 0x84);
    chip->mask = 0;
    chip->pins = command & 0x40 ? 14 : 1;
    expect(am9517_waits(chip, w) == AM9517_OK && am9517_grant(chip).refusal == AM9517_OK && chip->serving == 0, "slow", w);
    before = at;
}

static void took(am9517_run_told r, uint32_t reason, uint64_t transfers, uint64_t states, const char *what)
{
    expect(r.refusal == AM9517_OK && r.reason == reason && r.transfers == transfers, what, (unsigned long)r.transfers);
    expect(r.states == states, what, (unsigned long)r.states);
    expect(guards(), what, 0);
}

/* Each transfer of a service to, from or past memory takes 3 states, compressed 2, 1 with a new upper address byte, and w. */
static void slow_services(uint8_t w)
{
    static const uint8_t ways[] = {0x00, 0x04, 0x08};  /* verify, write, read */
    const uint64_t n = w;
    for (int i = 0; i < 12; i++) {
        const uint8_t way = (uint8_t)(ways[i % 3] | (i / 3 & 1 ? 0x10 : 0)), command = i / 6 ? 8 : 0;
        const uint64_t one = (command ? 2 : 3) + n;
        slow(command, 0x80 | way, 0x1234, 3, w);
        took(run_all(9, 0), AM9517_REASON_ENDED, 4, 4 * one + 1, "block");
        expect(chip->waits == w && chip->edition == edition, "a run keeps the waits", chip->waits);
        slow(command, 0x80 | way, 0x12fe, 3, w);
        took(run_all(9, 0), AM9517_REASON_ENDED, 4, 4 * one + 2, "block over a page's end");
        slow(command, 0xa0 | way, 0x1201, 3, w);
        took(run_all(9, 0), AM9517_REASON_ENDED, 4, 4 * one + 2, "block, down");
        slow(command, way, 0x1234, 3, w);
        took(run_all(9, 0), AM9517_REASON_ENDED, 4, 4 * one + 1, "demand");
        slow(command, 0x40 | way, 0x1234, 3, w);
        took(run_all(9, 0), AM9517_REASON_ENDED, 1, one + 1, "single");
        slow(command, 0x80 | way, 0x1234, 3, w);
        took(run_all(9, 2), AM9517_REASON_ENDED, 2, 2 * one + 1, "EOP at 2");
        slow(command, 0x80 | way, 0x1234, 3, w);
        took(run_all(0, 0), AM9517_REASON_LIMIT, 0, 0, "limit 0");
        took(run_all(1, 0), AM9517_REASON_LIMIT, 1, one + 1, "cut at 1");
        took(run_all(2, 0), AM9517_REASON_LIMIT, 2, 2 * one, "cut at 3");
        took(run_all(9, 0), AM9517_REASON_ENDED, 1, one, "the last one");
    }
}

/* What makes no transfer waits for nothing. */
static void slow_nothing(uint8_t w)
{
    slow(0, 0xc0, 0x1234, 3, w);
    took(run_all(9, 0), AM9517_REASON_CASCADE, 0, 0, "cascade");
    slow(0, 0x04, 0x1234, 3, w);
    took(am9517_run(chip, at.memory, MEMORY, NULL, 0, NULL, 0, 9, 0), AM9517_REASON_SHORT, 0, 0, "no device byte");
    took(am9517_run(chip, at.memory, MEMORY, device, 2, NULL, 0, 9, 0), AM9517_REASON_SHORT, 2, 7 + 2 * (uint64_t)w, "two device bytes");
    am9517_pins(chip, 0);
    took(run_all(9, 0), AM9517_REASON_DROPPED, 0, 0, "dropped");
    slow(0, 0x88, 0x1234, 3, w);
    took(am9517_run(chip, at.memory, MEMORY, NULL, 0, NULL, 0, 9, 0), AM9517_REASON_SHORT, 0, 0, "no room");
}

/* Each transfer of memory-to-memory takes 8 and 2 w, whatever timing, hold, direction and page. */
static void slow_copies(uint8_t w)
{
    static const uint8_t modes[] = {0x00, 0x44, 0x88, 0x98, 0xa8, 0xc0};
    const uint64_t one = 8 + 2 * (uint64_t)w;
    for (int i = 0; i < 24; i++) {
        const uint8_t command = (uint8_t)(1 | (i / 6 & 1 ? 2 : 0) | (i / 12 ? 8 : 0)), mode = modes[i % 6];
        slow(command, mode, 0x12fe, 4, w);
        took(run_all(9, 0), AM9517_REASON_ENDED, 5, 5 * one, "copy");
        expect(chip->waits == w && chip->tc == 2, "a copy keeps the waits", chip->waits);
        slow(command, mode, 0x12fe, 4, w);
        took(run_all(0, 0), AM9517_REASON_LIMIT, 0, 0, "copy, limit 0");
        took(run_all(2, 0), AM9517_REASON_LIMIT, 2, 2 * one, "copy, cut");
        took(run_all(9, 2), AM9517_REASON_ENDED, 2, 2 * one, "copy, EOP");
    }
    for (int n = 1; n < 4; n++) {  /* with command bit 0 the other channels' services are ordinary ones */
        slow(0, 0x84, 0, 0, w);
        took(run_all(9, 0), AM9517_REASON_ENDED, 1, 4 + (uint64_t)w, "before");
        chip->command = 1;
        chip->channels[n] = channel_of(0, 0x12fe, 0, 3, 0x84);
        chip->pins = (uint8_t)(1u << n);
        chip->mask = 0;
        expect(am9517_grant(chip).value == (uint32_t)n, "another channel", (unsigned long)n);
        took(run_all(9, 0), AM9517_REASON_ENDED, 4, 14 + 4 * (uint64_t)w, "beside memory-to-memory");
    }
}

/* The longest runs. */
static void slow_memory(uint8_t w)
{
    static uint8_t all[MEMORY];
    const uint64_t n = w;
    slow(0, 0x84, 0x1234, 0xffff, w);
    took(am9517_run(chip, at.memory, MEMORY, all, MEMORY, NULL, 0, 65536, 0), AM9517_REASON_ENDED, 65536, 196865 + 65536 * n, "65,536 bytes");
    slow(8, 0x80, 0x1200, 0xffff, w);
    took(run_all(65536, 0), AM9517_REASON_ENDED, 65536, 131328 + 65536 * n, "65,536 verified, compressed");
    slow(1, 0x88, 0x1234, 0xffff, w);
    took(run_all(65536, 0), AM9517_REASON_ENDED, 65536, 524288 + 131072 * n, "65,536 copied");
    expect(w != 255 || run_alone(run_all(1, 0)) == AM9517_NO_SERVICE, "and no more", w);
}

/* ---- wait states: rounds */

/* The same services one by one: what they count is what the round counted. */
static void one_by_one(am9517_round_told whole, uint32_t k, const char *what)
{
    uint64_t transfers = 0, states = 0;
    size_t used = 0, written = 0;
    uint32_t reason = AM9517_REASON_DONE, services = 0;
    after = at;
    at = before;
    for (; services < k && reason == AM9517_REASON_DONE; services++) {
        if (am9517_grant(chip).refusal == AM9517_NOBODY) {
            reason = AM9517_REASON_QUIET;
            break;
        }
        const am9517_run_told r = am9517_run(chip, at.memory, MEMORY, device + used, sizeof device - used, at.room + written, ROOM - written, 65536, 0);
        transfers += r.transfers, states += r.states, used += r.used, written += r.written;
        if (r.reason != AM9517_REASON_ENDED)
            reason = r.reason;
    }
    expect(whole.services[0] + whole.services[1] + whole.services[2] + whole.services[3] == services, what, services);
    expect(whole.reason == reason && whole.transfers == transfers && whole.used == used && whole.written == written, what, reason);
    expect(whole.states == states, what, (unsigned long)states);
    expect(same_chip(chip, &after.chip) && memcmp(at.memory, after.memory, sizeof at.memory) == 0, what, 0);
}

/* All channels in this mode, lines active, with so many waits. */
static void slow_lines(uint8_t command, uint8_t mode, uint16_t count, uint8_t w)
{
    begin();
    for (int n = 0; n < 4; n++)
        chip->channels[n] = channel_of((uint16_t)(0x4000 * n), (uint16_t)(0x4000 * n), count, count, mode);
    chip->command = command;
    chip->mask = 0;
    chip->pins = 15;
    expect(am9517_waits(chip, w) == AM9517_OK, "lines", w);
    before = at;
}

static void slow_rounds(uint8_t w)
{
    const uint64_t n = w;
    am9517_round_told r;
    slow_lines(0x10, 0x44, 9, w);
    r = round_all(3);
    expect(r.reason == AM9517_REASON_DONE && r.transfers == 3 && r.states == 3 * (4 + n), "single services", (unsigned long)r.states);
    expect(chip->waits == w && chip->edition == edition && guards(), "a round keeps the waits", chip->waits);
    slow_lines(0x18, 0x90, 9, w);
    r = round_all(5);
    expect(r.transfers == 50 && r.states == 5 * (10 * (2 + n) + 1), "verified blocks, compressed", (unsigned long)r.states);
    slow_lines(0x01, 0x98, 9, w);
    r = round_all(4);
    expect(r.services[0] == 4 && r.transfers == 40 && r.states == 40 * (8 + 2 * n), "copies", (unsigned long)r.states);
    slow_lines(0x11, 0x90, 9, w);
    r = round_all(6);  /* channels 0 to 3, 0, 1: two services copy */
    expect(r.services[0] == 2 && r.services[1] == 2 && r.transfers == 60, "copies and others", r.services[0]);
    expect(r.states == 20 * (8 + 2 * n) + 4 * (10 * (3 + n) + 1), "copies and others", (unsigned long)r.states);
    slow_lines(0x10, 0x94, 2, w);
    r = round_all(9);  /* the fourth byte is the second service's first */
    expect(r.reason == AM9517_REASON_SHORT && r.transfers == 4 && r.states == 2 + 4 * (3 + n), "a round cut short", (unsigned long)r.states);
    slow_lines(0x10, 0xc0, 2, w);
    r = round_all(9);
    expect(r.reason == AM9517_REASON_CASCADE && r.states == 0, "a round in cascade", (unsigned long)r.states);
}

/* In all modes and commands, with 255 waits and with none. */
static void rounds_of_services(void)
{
    static const uint8_t modes[] = {0x40, 0x44, 0x48, 0x80, 0x90, 0x94, 0x98, 0x50, 0x54, 0x00, 0x10, 0xb0};
    for (int i = 0; i < 12; i++)
        for (unsigned command = 0; command < 64; command++)
            if (!(command & 4)) {
                slow_lines((uint8_t)(command & 31), modes[i], (uint16_t)(i % 3), command < 32 ? 255 : 0);
                const am9517_round_told r = round_all(7);
                one_by_one(r, 7, "a round and its services");
            }
}

/* 127 copies of all memory with 255 waits are the first to pass 32 bits; 4,096 are the most that is counted. */
static void long_rounds(void)
{
    am9517_round_told r;
    slow_lines(0x01, 0x98, 0xffff, 255);
    chip->channels[1].address = chip->channels[1].base_address = 0x8000;
    r = round_all(126);
    expect(r.reason == AM9517_REASON_DONE && r.states == 4277403648u, "126 copies of all memory", (unsigned long)r.states);
    r = round_all(127);
    expect(r.reason == AM9517_REASON_DONE && r.transfers == 8323072, "127 copies of all memory", (unsigned long)r.transfers);
    expect(r.states == (uint64_t)127 * 33947648 && r.states > 0xffffffffu, "more states than 32 bits hold", (unsigned long)r.states);
    r = round_all(AM9517_ROUND_MOST);
    expect(r.services[0] == 4096 && r.transfers == 268435456, "4,096 copies of all memory", (unsigned long)r.transfers);
    expect(r.states == (uint64_t)4096 * 33947648, "139,049,566,208 states", (unsigned long)r.states);
    expect(chip->waits == 255 && guards(), "guards of long rounds", 0);
    slow_lines(0x10, 0x90, 0xffff, 255);
    r = round_all(255);
    expect(r.reason == AM9517_REASON_DONE && r.transfers == 16711680, "all memory verified 255 times", (unsigned long)r.transfers);
    expect(r.states == (uint64_t)255 * 16908544 && r.states > 0xffffffffu, "more states than 32 bits hold, verified", (unsigned long)r.states);
    slow_lines(0x11, 0x90, 0xffff, 255);
    r = round_all(512);
    expect(r.services[0] == 128 && r.services[3] == 128 && r.transfers == 33554432, "128 copies among others", (unsigned long)r.transfers);
    expect(r.states == (uint64_t)128 * 33947648 + (uint64_t)384 * 16908544, "and their states", (unsigned long)r.states);
}

/* ---- wait states: sheets */

/* A chip with waits has none of form 1: 1, 9, 15 in this order, and not a byte is written. */
static void slow_sheets(void)
{
    for (unsigned w = 0; w < 256; w++) {
        const uint32_t want = w == 0 && !intel() ? AM9517_OK : AM9517_SHEET_NO_PLACE;
        begin();
        am9517_waits(chip, (uint8_t)w);
        before = at;
        refused(am9517_save(chip, at.sheet, 55), AM9517_SHEET_SHORT, "save: 9 before the 15 of waits");
        expect(am9517_save(chip, at.sheet, sizeof at.sheet) == want && same_chip(chip, &before.chip), "save of waits", w);
        expect(areas_stay() == (want != AM9517_OK) && guards(), "a sheet of waits", w);
    }
    opened(0x84, 3);
    chip->waits = 1;
    before = at;
    for (size_t size = 0; size <= sizeof at.sheet; size++)
        refused(am9517_save(chip, at.sheet, size), size < SHEET ? AM9517_SHEET_SHORT : AM9517_SHEET_NO_PLACE, "save of waits in service");
    chip->lowest = 4;
    before = at;
    refused(am9517_save(chip, at.sheet, 55), AM9517_STATE_RANGE, "save of waits: 1 before 9 and 15");
    refused(am9517_save(chip, at.sheet, 56), AM9517_STATE_RANGE, "save of waits: 1 before 15");
    begin();
    am9517_waits(chip, 7);
    am9517_waits(chip, 0);
    expect(am9517_save(chip, at.sheet, SHEET) == (intel() ? AM9517_SHEET_NO_PLACE : AM9517_OK), "save where the waits are gone", 0);
}

/* A sheet of form 1 tells of no waits, whatever the chip had; refused, it leaves them. */
static void slow_loads(void)
{
    const am9517_chip fresh = am9517_fresh(AM9517_EDITION_AM9517A);
    for (int i = 0; i < SOME; i++) {
        begin();
        am9517_waits(chip, some_waits[i]);
        am9517_save(&fresh, at.sheet, sizeof at.sheet);
        before = at;
        refused(am9517_load(chip, at.sheet, 55), AM9517_SHEET_SHORT, "a short sheet leaves the waits");
        at.sheet[4 + 52] ^= 1;
        before = at;
        refused(call(LOAD), AM9517_SHEET_SUM, "a bad sheet leaves the waits");
        at.sheet[4 + 52] ^= 1;
        expect(call(LOAD) == AM9517_OK && same_chip(chip, &fresh), "a sheet has no waits", some_waits[i]);
        expect(am9517_save(chip, at.sheet, sizeof at.sheet) == AM9517_OK, "so what was loaded can be saved", 0);
    }
}

/* ---- wait states: all else is the same, in random calls on chips that differ in the waits alone */

static void as_fast(void)
{
    edition = AM9517_EDITION_AM9517A;
    begin();
    for (size_t i = 0; i < MEMORY; i++)
        at.memory[i] = (uint8_t)(i * 31 + i / 253);
    for (unsigned turn = 0; turn < 1000; turn++) {
        const uint32_t which = drawn(13), reg = drawn(17), k = drawn(20);
        const uint8_t byte = (uint8_t)drawn(256);
        uint64_t more = 0;  /* states of one wait state */
        draw_chip(chip);
        chip->edition = (uint8_t)drawn(2);
        chip->waits = 0;
        before = at;
        const int copies = (chip->command & 1) != 0, copy = copies && chip->serving == 0 && which > 7;
        const uint64_t said = any_call(which, reg, byte, k), states = any_states, transfers = any_transfers;
        after = at;
        for (int i = 0; i < 3; i++) {
            const uint8_t w = (uint8_t)(i < 2 ? (uint32_t)i + 1 : drawn(256));
            at = before;
            chip->waits = w;
            expect(any_call(which, reg, byte, k) == said && any_transfers == transfers, "a slow chip says the same", which);
            more = i == 0 ? any_states - states : more;
            expect(any_states == states + w * more, "and takes so many states for each wait state", (unsigned long)any_states);
            expect(chip->waits == w, "the waits are kept", chip->waits);
            chip->waits = 0;
            expect(same_chip(chip, &after.chip), "a slow chip is left as a fast one", which);
            expect(memcmp(at.memory, after.memory, sizeof at.memory) == 0 && memcmp(at.room, after.room, sizeof at.room) == 0,
                   "a slow chip leaves the same bytes", which);
        }
        if (which == 7 && copies)
            expect(transfers <= more && more <= 2 * transfers, "a wait state of a round", (unsigned long)more);
        else
            expect(more == (copy ? 2 : 1) * transfers, "a wait state of a transfer", (unsigned long)more);
    }
    expect(guards(), "guards of slow chips", 0);
}

/* ---- padding: the bytes behind the modes mean nothing */

static void pad(am9517_chip *c, int byte)
{
    const am9517_chip fields = *c;
    memset(c, byte, sizeof *c);
    for (int n = 0; n < 4; n++) {
        c->channels[n].base_address = fields.channels[n].base_address;
        c->channels[n].address = fields.channels[n].address;
        c->channels[n].base_count = fields.channels[n].base_count;
        c->channels[n].count = fields.channels[n].count;
        c->channels[n].mode = fields.channels[n].mode;
    }
    memcpy(&c->tc, &fields.tc, offsetof(am9517_chip, waits) + 1 - offsetof(am9517_chip, tc));
}

static void padding(void)
{
    static const int bytes[] = {0x00, 0xff, 0xa5};
    for (int which = 0; which <= LOAD2; which++)
        for (int open = 0; open < 2; open++) {
            am9517_chip first = am9517_fresh(edition);
            uint32_t said = 0;
            for (int i = 0; i < 3; i++) {
                if (open)
                    opened(0x94, 3);
                else
                    begin();
                const am9517_chip fresh = am9517_fresh(AM9517_EDITION_AM9517A);
                if (which == LOAD)
                    am9517_save(&fresh, at.sheet, sizeof at.sheet);
                if (which == LOAD2)
                    am9517_save2(&fresh, at.sheet, sizeof at.sheet);
                pad(chip, bytes[i]);
                const uint32_t now = call(which);
                expect(i == 0 || (now == said && same_chip(chip, &first)), "padding says something", (unsigned long)which);
                said = now;
                first = *chip;
            }
        }
}

/* ---- looking calls write nothing: these chips lie where a write ends the program */

#define STILL(edition, waits) \
    {{{1, 2, 3, 4, 0x84}, {5, 6, 7, 8, 0x44}, {9, 10, 11, 12, 0}, {13, 14, 15, 16, 0xc0}}, 1, 0, 14, 3, 1, 0, 1, 0x12, 2, 0, edition, 0x5a, 0x10, waits}
static const am9517_chip still[4] = {STILL(AM9517_EDITION_AM9517A, 0), STILL(AM9517_EDITION_INTEL_8237A, 0), STILL(AM9517_EDITION_AM9517A, 255),
                                     STILL(AM9517_EDITION_INTEL_8237A, 1)};

/* The body of their sheets. */
static const uint8_t still_body[48] = {1, 0, 2, 0, 3, 0, 4, 0, 0x84, 5, 0, 6, 0, 7, 0, 8, 0, 0x44, 9, 0, 10, 0, 11, 0, 12, 0, 0, 13, 0,
                                       14, 0, 15, 0, 16, 0, 0xc0, 0x10, 1, 0, 14, 0x5a, 0, 3, 2, 1, 0, 1, 0x12};

static void looks(void)
{
    begin();
    for (int i = 0; i < 4; i++) {
        expect(am9517_check(&still[i]) == AM9517_OK, "check of a constant", 0);
        expect(am9517_entitled(&still[i]).value == 1, "entitled of a constant", am9517_entitled(&still[i]).value);
        expect(am9517_status(&still[i]).value == 0x31, "status of a constant", am9517_status(&still[i]).value);
    }
    for (int i = 1; i < 4; i++)
        expect(am9517_save(&still[i], at.sheet + 4, SHEET) == AM9517_SHEET_NO_PLACE && areas_stay(), "no save of such a constant", (unsigned long)i);
    expect(am9517_save(&still[0], at.sheet + 4, SHEET) == AM9517_OK, "save of a constant", 0);
    expect(memcmp(at.sheet + 4, still_body, sizeof still_body) == 0, "the sheet's layout", 0);
    expect(am9517_load(chip, at.sheet + 4, SHEET) == AM9517_OK && same_chip(chip, &still[0]), "and back", 0);
}

/* ---- sheets of both forms: what a form has, and its calls */

enum { ROW = SHEET + 4 };  /* bytes of at.sheet and of at.target */

typedef struct form {
    size_t size, body;  /* bytes of a sheet, and of what its trailer seals */
    uint8_t number;
    uint32_t (*save)(const am9517_chip *, uint8_t *, size_t);
    uint32_t (*load)(am9517_chip *, const uint8_t *, size_t);
    uint32_t (*convert)(const uint8_t *, size_t, uint8_t *, size_t);  /* into the other form */
} form;
static const form forms[2] = {{SHEET, 48, 1, am9517_save, am9517_load, am9517_forward},
                              {SHEET2, 50, 2, am9517_save2, am9517_load2, am9517_back}};
static const form *const one = &forms[0], *const two = &forms[1];

static const form *other_than(const form *f)
{
    return f == one ? two : one;
}

/* The sheet of this form lies at the end of at.sheet. */
static uint8_t *sheet_of(const form *f)
{
    return at.sheet + ROW - f->size;
}

static int all_are(const uint8_t *bytes, size_t n, uint8_t byte)
{
    for (size_t i = 0; i < n; i++)
        if (bytes[i] != byte)
            return 0;
    return 1;
}

static int target_stays(void)
{
    return all_are(at.target, ROW, 0xbb);
}

/* The chip's sheet of this form is put at the end of at.sheet, and the chip is one in service from now on. */
static void put_sheet(const form *f, const am9517_chip *c)
{
    opened(0x84, 3);
    chip->waits = 9;
    expect(f->save(c, at.sheet, sizeof at.sheet) == AM9517_OK, "a sheet to begin with", f->number);
    before = at;
}

/* ---- sheets of both forms: form 2 holds edition and waits */

static void is_form_2(const uint8_t *sheet, const am9517_chip *c, const uint8_t *body, const char *what)
{
    unsigned sum = (unsigned)c->edition + c->waits;
    for (int i = 0; i < 48; i++)
        sum += body[i];
    const uint8_t trailer[8] = {2, 0, 0x32, 0, (uint8_t)(sum & 255), (uint8_t)(sum >> 8), 0x44, 0x4d};
    expect(sheet[0] == c->edition && sheet[1] == c->waits, what, sheet[0]);
    expect(memcmp(sheet + 2, body, 48) == 0 && memcmp(sheet + 50, trailer, 8) == 0, what, sheet[50]);
}

/* Stored in form 2 and loaded over a broken chip, it is the same. */
static void comes_back(const am9517_chip *c, const char *what)
{
    expect(am9517_save2(c, at.sheet, sizeof at.sheet) == AM9517_OK, what, c->edition);
    memset(chip, 0xff, sizeof *chip);
    expect(am9517_load2(chip, at.sheet, sizeof at.sheet) == AM9517_OK && same_chip(chip, c), what, c->waits);
}

static void second_sheets(void)
{
    static const uint8_t trailer[8] = {2, 0, 0x32, 0, 0x1a, 0, 0x44, 0x4d};
    uint8_t body[48] = {0};
    am9517_chip slow = am9517_fresh(AM9517_EDITION_INTEL_8237A);
    slow.waits = 7;
    body[39] = 15, body[43] = 3;
    begin();
    comes_back(&slow, "an Intel chip with 7 waits");
    is_form_2(at.sheet + 2, &slow, body, "its sheet");
    expect(at.sheet[2] == 1 && at.sheet[3] == 7 && memcmp(at.sheet + 52, trailer, 8) == 0, "byte by byte", at.sheet[3]);
    expect(at.sheet[0] == 0xdd && at.sheet[1] == 0xdd && guards(), "save2 touched the front", at.sheet[1]);
    for (int i = 0; i < 4; i++) {
        begin();
        comes_back(&still[i], "a constant");
        is_form_2(at.sheet + 2, &still[i], still_body, "the layout of form 2");
    }
    for (unsigned all = 0; all < 1024; all++) {
        am9517_chip c = all & 1 ? still[0] : am9517_fresh(AM9517_EDITION_AM9517A);
        c.edition = all >> 1 & 1;
        c.waits = (uint8_t)(all >> 2);
        comes_back(&c, "every edition and every number of waits");
    }
    expect(guards() && target_stays(), "guards of form 2", 0);
}

/* A slice of each length: too short it is 9, else its last bytes alone are written, or read. */
static void lengths(const form *f)
{
    uint8_t want[SHEET2];
    expect(f->save(&still[0], want, f->size) == AM9517_OK, "a sheet alone", f->number);
    for (size_t n = 0; n <= ROW; n++) {
        const int good = n >= f->size;
        begin();
        expect(f->save(&still[0], n ? at.sheet : NULL, n) == (good ? AM9517_OK : AM9517_SHEET_SHORT), "save into so many bytes", (unsigned long)n);
        expect(all_are(at.sheet, good ? n - f->size : n, 0xdd) && all_are(at.sheet + n, ROW - n, 0xdd), "bytes beside the sheet", (unsigned long)n);
        expect(!good || memcmp(at.sheet + n - f->size, want, f->size) == 0, "the sheet at the end", (unsigned long)n);
        put_sheet(f, &still[0]);
        expect(f->load(chip, n ? at.sheet + ROW - n : NULL, n) == (good ? AM9517_OK : AM9517_SHEET_SHORT), "load from so many bytes", (unsigned long)n);
        expect(same_chip(chip, good ? &still[0] : &before.chip) && areas_stay() && guards(), "what the load left", (unsigned long)n);
    }
}

/* ---- sheets of both forms: converting */

/* Source and target of all lengths: 9 where either is too short, else the target's last bytes alone are written. */
static void all_lengths(const form *f)
{
    const form *to = other_than(f);
    uint8_t want[SHEET2];
    expect(to->save(&still[0], want, to->size) == AM9517_OK, "the other form's sheet", to->number);
    put_sheet(f, &still[0]);
    for (size_t n = 0; n <= ROW; n++)
        for (size_t m = 0; m <= ROW; m++) {
            const int good = n >= f->size && m >= to->size;
            const uint32_t no = f->convert(n ? at.sheet + ROW - n : NULL, n, m ? at.target : NULL, m);
            expect(no == (good ? AM9517_OK : AM9517_SHEET_SHORT), "of so many bytes into so many", (unsigned long)(n * 100 + m));
            expect(all_are(at.target, good ? m - to->size : m, 0xbb) && all_are(at.target + m, ROW - m, 0xbb), "bytes beside it", (unsigned long)m);
            expect(!good || memcmp(at.target + m - to->size, want, to->size) == 0, "the other form at the end", (unsigned long)m);
            expect(memcmp(at.sheet, before.sheet, sizeof at.sheet) == 0 && guards(), "the source stays", (unsigned long)n);
            memset(at.target, 0xbb, sizeof at.target);
        }
}

/* A sheet goes into the other form and comes out of it: the same bytes, and the other form's own in between. */
static void there_and_back(const form *f, const am9517_chip *c)
{
    const form *to = other_than(f);
    uint8_t sheet[SHEET2], between[SHEET2], again[SHEET2];
    expect(f->save(c, sheet, f->size) == AM9517_OK, "to be converted", f->number);
    expect(f->convert(sheet, f->size, at.target, sizeof at.target) == AM9517_OK, "there", f->number);
    expect(to->save(c, between, to->size) == AM9517_OK && memcmp(at.target + ROW - to->size, between, to->size) == 0, "as it is stored", f->number);
    expect(all_are(at.target, ROW - to->size, 0xbb), "bytes before it", f->number);
    expect(to->convert(at.target, sizeof at.target, again, f->size) == AM9517_OK && memcmp(sheet, again, f->size) == 0, "and back", f->number);
    memset(at.target, 0xbb, sizeof at.target);
}

static void conversions(void)
{
    am9517_chip c = am9517_fresh(AM9517_EDITION_AM9517A);
    begin();
    for (int i = 0; i < 2; i++) {
        there_and_back(&forms[i], &c);
        there_and_back(&forms[i], &still[0]);
    }
    for (int i = 0; i < 500; i++) {
        draw_chip(&c);
        there_and_back(&forms[i % 2], &c);
    }
    expect(guards(), "guards of conversions", 0);
}

/* Back is refused by 15 exactly where edition or waits isn't 0, and not a byte of the target is written. */
static void no_way_back(void)
{
    for (unsigned all = 0; all < 512; all++) {
        am9517_chip c = still[0];
        c.edition = all & 1;
        c.waits = (uint8_t)(all >> 1);
        if (all == 0)
            continue;
        put_sheet(two, &c);
        expect(am9517_back(at.sheet, sizeof at.sheet, at.target, sizeof at.target) == AM9517_SHEET_NO_PLACE, "back of edition or waits", all);
        expect(target_stays() && memcmp(at.sheet, before.sheet, sizeof at.sheet) == 0 && guards(), "15 changed an area", all);
    }
    refused(am9517_back(at.sheet, sizeof at.sheet, at.target, 55), AM9517_SHEET_SHORT, "back: 9 before 15");
}

/* ---- sheets of both forms: damage */

/* A sheet of this form in at.sheet is refused by these numbers: by its own reader and converter, and by the other form's. */
static void refused_by_all(const form *f, uint32_t own, uint32_t others, const char *what, unsigned long which)
{
    const form *g = other_than(f);
    expect(f->load(chip, at.sheet, sizeof at.sheet) == own, what, which);
    expect(f->convert(at.sheet, sizeof at.sheet, at.target, sizeof at.target) == own, what, which);
    expect(g->load(chip, at.sheet, sizeof at.sheet) == others, what, which);
    expect(g->convert(at.sheet, sizeof at.sheet, at.target, sizeof at.target) == others, what, which);
    expect(same_chip(chip, &before.chip) && target_stays(), what, which);
}

/* What the own reader says of one changed byte. */
static uint32_t own_fault(const form *f, size_t place)
{
    static const uint8_t trailer[8] = {11, 11, 12, 12, 13, 13, 10, 10};
    return place < f->body ? 13 : trailer[place - f->body];
}

/* And the other form's: it is still not its form, or, if that byte was changed so, not its distance. */
static uint32_t others_fault(const form *f, size_t place, unsigned byte)
{
    if (place >= f->body + 6)
        return AM9517_SHEET_END_MARK;
    return place == f->body && byte == other_than(f)->number ? AM9517_SHEET_DISTANCE : AM9517_SHEET_FORM;
}

/* Every byte of a good sheet, changed to every other one. */
static void changed_bytes(const form *f, const am9517_chip *c)
{
    put_sheet(f, c);
    uint8_t *const sheet = sheet_of(f);
    for (size_t place = 0; place < f->size; place++) {
        const uint8_t good = sheet[place];
        for (unsigned byte = 0; byte < 256; byte++) {
            sheet[place] = (uint8_t)byte;
            if (byte != good)
                refused_by_all(f, own_fault(f, place), others_fault(f, place, byte), "a changed byte", (unsigned long)place);
        }
        sheet[place] = good;
    }
    expect(areas_stay() && guards(), "changed bytes changed others", f->number);
    expect(f->load(chip, at.sheet, sizeof at.sheet) == AM9517_OK && same_chip(chip, c), "the sheet was good", f->number);
}

/* A sound sheet is refused by the other form's readers: by 11, or by 9 in fewer bytes than theirs. */
static void other_forms(void)
{
    for (int i = 0; i < 4; i++) {
        put_sheet(two, &still[i]);
        refused(call(LOAD), AM9517_SHEET_FORM, "load of form 2");
        refused(am9517_load(chip, at.sheet + 4, SHEET), AM9517_SHEET_FORM, "load of 56 bytes of form 2");
        refused(am9517_forward(at.sheet, sizeof at.sheet, at.target, sizeof at.target), AM9517_SHEET_FORM, "forward of form 2");
    }
    put_sheet(one, &still[0]);
    for (size_t n = SHEET; n <= ROW; n++) {
        const uint32_t want = n < SHEET2 ? AM9517_SHEET_SHORT : AM9517_SHEET_FORM;
        refused(am9517_load2(chip, at.sheet + ROW - n, n), want, "load2 of form 1");
        refused(am9517_back(at.sheet + ROW - n, n, at.target, sizeof at.target), want, "back of form 1");
    }
}

/* Several faults at once: bit 0 end mark, 1 form, 2 distance, 3 sum, 4 range. */
static void damage(const form *f, unsigned faults)
{
    uint8_t *const sheet = sheet_of(f), *const trailer = sheet + f->body;
    if (faults & 16) {
        sheet[f->body - 5] = 4;  /* the lowest channel */
        seal(sheet, f->body);
    }
    trailer[4] ^= (uint8_t)(faults & 8 ? 1 : 0);
    trailer[2] ^= (uint8_t)(faults & 4 ? 1 : 0);
    trailer[1] ^= (uint8_t)(faults & 2 ? 1 : 0);
    trailer[7] ^= (uint8_t)(faults & 1 ? 1 : 0);
}

/* What converting says of a sheet that loading refuses by this number: 15 comes behind all of them. */
static uint32_t behind(uint32_t number, int has_no_place)
{
    return number == 0 && has_no_place ? 15 : number;
}

/* The first of several faults is told, and 9 before all of them. */
static void first_fault(const form *f, const am9517_chip *c, unsigned faults)
{
    const form *to = other_than(f);
    uint32_t want = 0;
    for (uint32_t n = 0; n < 5 && want == 0; n++)
        want = faults >> n & 1 ? 10 + n : 0;
    const uint32_t into = behind(want, f == two && (c->edition || c->waits));
    put_sheet(f, c);
    damage(f, faults);
    before = at;
    refused(f->convert(at.sheet, sizeof at.sheet, at.target, to->size - 1), AM9517_SHEET_SHORT, "9 of the target comes first");
    refused(f->convert(sheet_of(f) + 1, f->size - 1, at.target, sizeof at.target), AM9517_SHEET_SHORT, "9 of the source comes first");
    refused(f->load(chip, sheet_of(f) + 1, f->size - 1), AM9517_SHEET_SHORT, "9 of a load comes first");
    expect(f->convert(at.sheet, sizeof at.sheet, at.target, sizeof at.target) == into, "the first fault converting", faults);
    expect(target_stays() == (into != AM9517_OK), "what is refused is not written", faults);
    expect(f->load(chip, at.sheet, sizeof at.sheet) == want, "the first fault loading", faults);
    expect(same_chip(chip, want == AM9517_OK ? c : &before.chip) && guards(), "what is refused is not loaded", faults);
}

/* A sheet of form 2 with one byte changed and sealed anew breaks a range, or doesn't. */
static void sealed(size_t place, uint8_t byte, uint32_t number, const char *what)
{
    const am9517_chip fresh = am9517_fresh(AM9517_EDITION_AM9517A);
    put_sheet(two, &fresh);
    sheet_of(two)[place] = byte;
    seal(sheet_of(two), two->body);
    before = at;
    expect(am9517_load2(chip, at.sheet, sizeof at.sheet) == number, what, byte);
    expect(number == AM9517_OK || same_chip(chip, &before.chip), what, byte);
    const uint32_t into = behind(number, place < 2 && byte);
    expect(am9517_back(at.sheet, sizeof at.sheet, at.target, sizeof at.target) == into, what, byte);
    expect(target_stays() == (into != AM9517_OK) && guards(), what, byte);
}

static void ranges(void)
{
    static const struct { uint8_t place, most; } fields[] = {{37, 15}, {38, 15}, {39, 15}, {41, 1}, {42, 15}, {43, 3}};
    for (unsigned byte = 0; byte < 256; byte++) {
        sealed(0, (uint8_t)byte, byte > 1 ? AM9517_SHEET_RANGE : AM9517_OK, "the edition's range");
        sealed(1, (uint8_t)byte, AM9517_OK, "any number of waits");
        sealed(2 + 36, (uint8_t)byte, AM9517_OK, "any command");
        for (size_t i = 0; i < sizeof fields / sizeof fields[0]; i++)
            sealed(2u + fields[i].place, (uint8_t)byte, byte > fields[i].most ? AM9517_SHEET_RANGE : AM9517_OK, "a field's range");
        for (size_t n = 0; n < 4; n++) {
            const int bad = (byte & 3) != 0 || ((byte & 12) == 12 && byte < 192);
            sealed(2 + 9 * n + 8, (uint8_t)byte, bad ? AM9517_SHEET_RANGE : AM9517_OK, "a mode's range");
        }
    }
    sealed(2 + 44, 1, AM9517_OK, "in service");
    sealed(2 + 44, 2, AM9517_SHEET_RANGE, "in service 2");
    sealed(2 + 45, 1, AM9517_SHEET_RANGE, "serving while idle");
    sealed(2 + 46, 1, AM9517_SHEET_RANGE, "latch full while idle");
    sealed(2 + 47, 1, AM9517_SHEET_RANGE, "latch without its mark");
}

static void both_forms(void)
{
    edition = AM9517_EDITION_AM9517A;
    second_sheets();
    conversions();
    no_way_back();
    other_forms();
    ranges();
    for (int i = 0; i < 2; i++) {
        lengths(&forms[i]);
        all_lengths(&forms[i]);
        changed_bytes(&forms[i], &still[0]);
        for (unsigned faults = 0; faults < 32; faults++)
            first_fault(&forms[i], &still[0], faults);
    }
    for (int i = 1; i < 4; i++) {
        changed_bytes(two, &still[i]);
        for (unsigned faults = 0; faults < 32; faults++)
            first_fault(two, &still[i], faults);
    }
}

/* A service of an Intel chip with waits is cut by its limit, stored in form 2, and gone on with by another chip. */
static void loaded2(void)
{
    edition = AM9517_EDITION_INTEL_8237A;
    opened(0x84, 3);
    chip->waits = 7;
    expect(run_all(2, 0).reason == AM9517_REASON_LIMIT, "cut", 2);
    const am9517_chip kept = *chip;
    comes_back(&kept, "stored in service");
    const am9517_run_told r = am9517_run(chip, at.memory, MEMORY, device + 2, 2, NULL, 0, 65536, 1);
    expect(r.reason == AM9517_REASON_ENDED && r.transfers == 1 && r.states == 3 + 7 && chip->tc == 1, "gone on with, and met by EOP", r.reason);
    expect(guards(), "guards of form 2 in service", 0);
}

/* What an edition shares with the other, and what it does alone. */
static void of_edition(uint32_t which)
{
    edition = which;
    bad_chips();
    fresh_chips();
    registers();
    services();
    runs_to_memory();
    runs_from_memory();
    whole_memory();
    rounds();
    orders();
    honest_logs();
    honest_copies();
    eleven();
    turnovers();
    changed_records();
    eop_flags();
    no_transfers();
    refused_logs();
    bad_sheets();
    writes_of_e();
    eops();
    copies();
    edition_kept();
    waits_set();
    waits_kept();
    for (int i = 0; i < SOME; i++) {
        slow_services(some_waits[i]);
        slow_nothing(some_waits[i]);
        slow_copies(some_waits[i]);
        slow_memory(some_waits[i]);
        slow_rounds(some_waits[i]);
    }
    rounds_of_services();
    slow_sheets();
    slow_loads();
    padding();
}

int main(void)
{
    of_edition(AM9517_EDITION_AM9517A);
    of_edition(AM9517_EDITION_INTEL_8237A);
    intel_sheets();
    for (uint32_t was = 0; was < 4; was++)
        loaded_over(was < 3 ? was : 0xffffffffu);
    alike();
    as_fast();
    edition = AM9517_EDITION_AM9517A;
    long_rounds();
    longest_logs();
    texts();
    saved();
    loaded();
    looks();
    both_forms();
    loaded2();
    printf("%u checks, %u wrong\n", checks, wrong);
    return wrong != 0;
}
