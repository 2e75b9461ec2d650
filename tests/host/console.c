/* The rack console's line protocol, spoken through the C library: what the comparer plays against.
 *
 * `state BYTES` sets the chip's fields, whatever their ranges, and leaves its edition and waits; `full BYTES` sets these, too;
 * `state` and `full` show them; `sheet` and `load`, `sheet2` and `load2`, `forward` and `back` are the library's. The chip stands
 * between guard bytes. After each command what the looking calls say is held to what the operations say of a copy, and a chip in
 * its ranges must come back whole out of its own sheet of either form; an Intel chip or one with waits, which has none of form 1,
 * must be refused by 15, and as an Am9517A without waits come back out of that one's, which converts both ways. An empty log is
 * judged as a run of no transfer is refused, or not. The board's commands stand in console_board.h. */
#include <stdio.h>
#include <stdlib.h>
#include <string.h>

#include "fields.h"

enum { ARRAY = 65537, MOST = 70000, LINE = 200002, GUARD = 8 };

static struct {
    uint8_t front[GUARD];
    am9517_chip chip;
    uint8_t back[GUARD];
} cell;
static am9517_chip *const chip = &cell.chip;
static uint8_t memory[ARRAY];
static uint8_t queue[MOST];
static uint8_t room[MOST];
static uint8_t given[LINE / 2];
static uint8_t slice[MOST];
static size_t lent = 65536, queued, room_size, position, given_size;

/* ---- answers */

static void fail(const char *what)
{
    printf("host: %s\n", what);
    exit(1);
}

static void say(const char *text)
{
    fwrite(text, 1, strlen(text), stdout);
}

static void say_bytes(const char *word, const uint8_t *from, size_t n)
{
    static char text[2 * MOST + 16];
    static const char digits[] = "0123456789abcdef";
    size_t at = strlen(word);
    memcpy(text, word, at);
    text[at++] = ' ';
    if (n == 0)
        text[at++] = '-';
    for (size_t i = 0; i < n; i++) {
        text[at++] = digits[from[i] >> 4];
        text[at++] = digits[from[i] & 15];
    }
    text[at++] = '\n';
    fwrite(text, 1, at, stdout);
}

static int refused(uint32_t number)
{
    if (number == AM9517_OK)
        return 0;
    printf("refused %u\n", (unsigned)number);
    return 1;
}

static void done(uint32_t number)
{
    if (!refused(number))
        say("ok\n");
}

/* ---- the chip and what is around it */

/* An Intel chip, or one with waits, has no sheet of form 1, and not a byte is written; nor has it one in too few bytes, nor out
 * of its sheet of form 2. */
static void look_at_no_sheet(void)
{
    uint8_t sheet[AM9517_SHEET_SIZE], second[AM9517_SHEET2_SIZE];
    memset(sheet, 0x5a, sizeof sheet);
    if (am9517_save(chip, sheet, sizeof sheet) != AM9517_SHEET_NO_PLACE)
        fail("an Intel chip or one with waits is stored");
    if (am9517_save(chip, sheet, sizeof sheet - 1) != AM9517_SHEET_SHORT)
        fail("15 comes before 9");
    if (am9517_save2(chip, second, sizeof second) != AM9517_OK)
        fail("form 2 has no place for it");
    if (am9517_back(second, sizeof second, sheet, sizeof sheet) != AM9517_SHEET_NO_PLACE)
        fail("edition or waits are lost on the way back");
    for (size_t i = 0; i < sizeof sheet; i++)
        if (sheet[i] != 0x5a)
            fail("a refused sheet was written");
}

/* The chip's sheet of form 2 has it in full and gives it back, over a chip of the other edition. */
static void look_at_second(void)
{
    uint8_t sheet[AM9517_SHEET2_SIZE], mine[FULL], theirs[FULL];
    am9517_chip other = am9517_fresh(1u - chip->edition);
    get_full(chip, mine);
    if (am9517_save2(chip, sheet, sizeof sheet) != AM9517_OK || memcmp(sheet, mine, FULL) != 0)
        fail("the sheet of form 2 is not the chip's");
    if (am9517_load(&other, sheet, sizeof sheet) != AM9517_SHEET_FORM)
        fail("form 2 is read as form 1");
    if (am9517_load2(&other, sheet, sizeof sheet) != AM9517_OK)
        fail("the chip's sheet of form 2 is refused");
    get_full(&other, theirs);
    if (memcmp(mine, theirs, FULL) != 0)
        fail("the chip is another out of its sheet of form 2");
}

/* A chip's sheet of form 1 goes forward into its sheet of form 2, and comes back out of it. */
static void look_at_ways(const am9517_chip *c, const uint8_t *sheet)
{
    uint8_t second[AM9517_SHEET2_SIZE], stored[AM9517_SHEET2_SIZE], first[AM9517_SHEET_SIZE];
    if (am9517_save2(c, stored, sizeof stored) != AM9517_OK)
        fail("no sheet of form 2 to compare with");
    if (am9517_forward(sheet, sizeof first, second, sizeof second) != AM9517_OK || memcmp(second, stored, sizeof second) != 0)
        fail("forward gives another sheet than save2");
    if (am9517_back(stored, sizeof stored, first, sizeof first) != AM9517_OK || memcmp(first, sheet, sizeof first) != 0)
        fail("back gives another sheet than save");
}

/* The sheet of an Am9517A of the chip's fields, without waits, has them in their places and gives them back, over a chip of
 * either edition with waits or without. */
static void look_at_sheet(void)
{
    uint8_t sheet[AM9517_SHEET_SIZE], mine[FULL], theirs[FULL];
    am9517_chip copy = *chip, other = am9517_fresh(chip->edition);
    if (chip->edition != AM9517_EDITION_AM9517A || chip->waits != 0)
        look_at_no_sheet();
    copy.edition = AM9517_EDITION_AM9517A;
    copy.waits = 0;
    other.waits = chip->waits;
    get_full(&copy, mine);
    if (am9517_save(&copy, sheet, sizeof sheet) != AM9517_OK || memcmp(sheet, mine + 2, BODY) != 0)
        fail("the sheet is not the chip's");
    if (am9517_load(&other, sheet, sizeof sheet) != AM9517_OK)
        fail("the chip's sheet is refused");
    get_full(&other, theirs);
    if (memcmp(mine, theirs, FULL) != 0)
        fail("the chip is another out of its sheet");
    look_at_ways(&copy, sheet);
}

/* A copy takes other waits exactly while it is idle, and nothing else of it changes. */
static void look_at_waits(uint32_t wrong)
{
    uint8_t mine[FULL], theirs[FULL];
    am9517_chip copy = *chip;
    const uint8_t other = (uint8_t)(chip->waits + 1);
    const uint32_t want = wrong != AM9517_OK ? wrong : chip->in_service ? AM9517_IN_SERVICE : AM9517_OK;
    get_full(chip, mine);
    if (am9517_waits(&copy, other) != want)
        fail("waits and the chip differ");
    get_full(&copy, theirs);
    mine[1] = want == AM9517_OK ? other : chip->waits;
    if (memcmp(mine, theirs, FULL) != 0)
        fail("waits set something else");
}

/* An empty log is accepted where a run isn't refused, and leaves a copy as it is. */
static void look_at_logs(uint32_t wrong)
{
    uint8_t mine[FULL], theirs[FULL];
    am9517_chip copy = *chip;
    const uint32_t want = wrong != AM9517_OK ? wrong : lent != AM9517_MEMORY_SIZE ? AM9517_MEMORY_LENGTH : chip->in_service ? AM9517_OK : AM9517_NO_SERVICE;
    const am9517_judge_told told = am9517_judge(&copy, memory, lent, NULL, 0);
    get_full(chip, mine);
    get_full(&copy, theirs);
    if (told.refusal != want || told.right != 0 || told.error != 0 || memcmp(mine, theirs, FULL) != 0)
        fail("an empty log says something");
}

/* What the looking calls say, held to what the operations say of a copy. */
static void look(void)
{
    const uint32_t wrong = am9517_check(chip);
    const am9517_told entitled = am9517_entitled(chip), status = am9517_status(chip);
    if (entitled.refusal != wrong || status.refusal != wrong)
        fail("two calls see different chips");
    look_at_waits(wrong);
    look_at_logs(wrong);
    if (wrong != AM9517_OK)
        return;
    look_at_sheet();
    look_at_second();
    if (chip->in_service)
        return;
    am9517_chip copy = *chip;
    if (am9517_read(&copy, 8).value != status.value)
        fail("status and register 8 differ");
    copy = *chip;
    const am9517_told grant = am9517_grant(&copy);
    if ((grant.refusal == AM9517_NOBODY) != (entitled.value == 0))
        fail("entitled and grant differ");
    if (grant.refusal == AM9517_OK && !(entitled.value >> grant.value & 1))
        fail("a channel is granted that is not entitled");
}

static void guard(void)
{
    for (int i = 0; i < GUARD; i++)
        if (cell.front[i] != 0xc3 || cell.back[i] != 0xc3)
            fail("bytes about the chip were touched");
}

/* ---- words and numbers */

static char *words[4];
static int count;

static void split(char *line)
{
    count = 0;
    for (char *at = line; *at != '\0' && *at != '#';) {
        if (*at == ' ' || *at == '\t') {
            *at++ = '\0';
            continue;
        }
        if (count < 4)
            words[count] = at;
        count++;
        while (*at != '\0' && *at != '#' && *at != ' ' && *at != '\t')
            at++;
        if (*at == '#')
            *at = '\0';
    }
}

static int digit(char c)
{
    if ('0' <= c && c <= '9')
        return c - '0';
    if ('a' <= c && c <= 'f')
        return c - 'a' + 10;
    if ('A' <= c && c <= 'F')
        return c - 'A' + 10;
    return 16;
}

static int number(const char *word, uint64_t most, uint64_t *value)
{
    const int base = word[0] == '0' && word[1] == 'x' ? 16 : 10;
    const char *at = base == 16 ? word + 2 : word;
    *value = 0;
    if (*at == '\0')
        return 0;
    for (; *at != '\0'; at++) {
        const int next = digit(*at);
        if (next >= base || *value > (~(uint64_t)0 - (unsigned)next) / (unsigned)base)
            return 0;
        *value = *value * (unsigned)base + (unsigned)next;
    }
    return *value <= most;
}

static int hex(const char *word)
{
    given_size = 0;
    if (strcmp(word, "-") == 0)
        return 1;
    if (strlen(word) % 2 != 0)
        return 0;
    for (; *word != '\0'; word += 2) {
        const int high = digit(word[0]), low = digit(word[1]);
        if (high == 16 || low == 16)
            return 0;
        given[given_size++] = (uint8_t)(16 * high + low);
    }
    return 1;
}

/* ---- commands: each answers, or returns 0 for `error` */

static int is(const char *name, int n)
{
    return count == n && strcmp(words[0], name) == 0;
}

static int small(int word, uint64_t most, uint64_t *value)
{
    return number(words[word], most, value);
}

#define WORD 0xffffffffu

static int command_state(void)
{
    if (!hex(words[1]) || given_size != BODY)
        return 0;
    set_body(chip, given);
    say("ok\n");
    return 1;
}

static int command_full(void)
{
    if (!hex(words[1]) || given_size != FULL)
        return 0;
    set_full(chip, given);
    say("ok\n");
    return 1;
}

static int command_write(void)
{
    uint64_t reg, byte;
    if (!small(1, WORD, &reg) || !small(2, 255, &byte))
        return 0;
    done(am9517_write(chip, (uint32_t)reg, (uint8_t)byte));
    return 1;
}

static int command_read(void)
{
    uint64_t reg;
    if (!small(1, WORD, &reg))
        return 0;
    const am9517_told told = am9517_read(chip, (uint32_t)reg);
    if (!refused(told.refusal))
        printf("byte 0x%02x\n", (unsigned)told.value);
    return 1;
}

static int command_pins(void)
{
    uint64_t levels;
    if (!small(1, WORD, &levels))
        return 0;
    done(am9517_pins(chip, (uint32_t)levels));
    return 1;
}

static int command_waits(void)
{
    uint64_t states;
    if (!small(1, 255, &states))
        return 0;
    done(am9517_waits(chip, (uint8_t)states));
    return 1;
}

static int command_grant(void)
{
    const am9517_told told = am9517_grant(chip);
    if (!refused(told.refusal))
        printf("channel %u\n", (unsigned)told.value);
    return 1;
}

static int command_memory(void)
{
    uint64_t n;
    if (!small(1, ARRAY, &n))
        return 0;
    lent = n;
    say("ok\n");
    return 1;
}

static int command_poke(void)
{
    uint64_t at;
    if (!small(1, ARRAY, &at) || !hex(words[2]) || at + given_size > ARRAY)
        return 0;
    memcpy(memory + at, given, given_size);
    say("ok\n");
    return 1;
}

static int command_show(const uint8_t *array, size_t size)
{
    uint64_t at, n;
    if (!small(1, size, &at) || !small(2, size, &n) || at + n > size)
        return 0;
    say_bytes("bytes", array + at, n);
    return 1;
}

static int command_feed(void)
{
    if (!hex(words[1]) || queued + given_size > MOST)
        return 0;
    memcpy(queue + queued, given, given_size);
    queued += given_size;
    say("ok\n");
    return 1;
}

static int command_fill(void)
{
    uint64_t n, byte;
    if (!small(1, MOST, &n) || !small(2, 255, &byte) || queued + n > MOST)
        return 0;
    memset(queue + queued, (int)byte, n);
    queued += n;
    say("ok\n");
    return 1;
}

static int command_room(void)
{
    uint64_t n, byte;
    if (!small(1, MOST, &n) || !small(2, 255, &byte))
        return 0;
    memset(room, (int)byte, n);
    room_size = n;
    position = 0;
    say("ok\n");
    return 1;
}

static void account(size_t used, size_t written)
{
    queued -= used;
    memmove(queue, queue + used, queued);
    position += written;
}

static void say_totals(uint64_t transfers, size_t used, size_t written, uint64_t states)
{
    printf("transfers=%lu used=%lu written=%lu states=%lu\n", (unsigned long)transfers, (unsigned long)used,
           (unsigned long)written, (unsigned long)states);
}

static int command_run(void)
{
    uint64_t limit, eop;
    if (!small(1, WORD, &limit) || !small(2, WORD, &eop))
        return 0;
    const am9517_run_told told =
        am9517_run(chip, memory, lent, queue, queued, room + position, room_size - position, limit, eop);
    if (refused(told.refusal))
        return 1;
    printf("%s ", am9517_reason_text(told.reason));
    say_totals(told.transfers, told.used, told.written, told.states);
    account(told.used, told.written);
    return 1;
}

static int command_round(void)
{
    uint64_t k;
    if (!small(1, WORD, &k))
        return 0;
    const am9517_round_told told =
        am9517_round(chip, memory, lent, queue, queued, room + position, room_size - position, (uint32_t)k);
    if (refused(told.refusal))
        return 1;
    printf("%s services=%u,%u,%u,%u ", am9517_reason_text(told.reason), (unsigned)told.services[0], (unsigned)told.services[1],
           (unsigned)told.services[2], (unsigned)told.services[3]);
    say_totals(told.transfers, told.used, told.written, told.states);
    account(told.used, told.written);
    return 1;
}

static int command_judge(void)
{
    if (!hex(words[1]))
        return 0;
    const am9517_judge_told told = am9517_judge(chip, memory, lent, given, given_size);
    if (refused(told.refusal))
        return 1;
    if (told.right == given_size)
        printf("accepted records=%lu\n", (unsigned long)(told.right / AM9517_RECORD_SIZE));
    else
        printf("wrong at=%lu error=%d\n", (unsigned long)told.right, (int)told.error);
    return 1;
}

static int command_sheet(uint32_t (*save)(const am9517_chip *, uint8_t *, size_t))
{
    uint64_t n;
    if (!small(1, MOST, &n))
        return 0;
    memset(slice, 0xee, n);
    if (!refused(save(chip, slice, n)))
        say_bytes("bytes", slice, n);
    return 1;
}

static int command_load(uint32_t (*load)(am9517_chip *, const uint8_t *, size_t))
{
    if (!hex(words[1]))
        return 0;
    done(load(chip, given, given_size));
    return 1;
}

/* What is refused leaves the slice as it was. */
static int command_convert(uint32_t (*convert)(const uint8_t *, size_t, uint8_t *, size_t))
{
    uint64_t n;
    if (!hex(words[1]) || !small(2, MOST, &n))
        return 0;
    memset(slice, 0xee, n);
    if (!refused(convert(given, given_size, slice, n))) {
        say_bytes("bytes", slice, n);
        return 1;
    }
    for (size_t i = 0; i < n; i++)
        if (slice[i] != 0xee)
            fail("a refused conversion wrote into its target");
    return 1;
}

/* The texts of the refusals, as the console's help has them. */
static int command_help(void)
{
    if (strcmp(words[1], "refusals") != 0)
        return 0;
    for (unsigned n = 1; n <= 15; n++)
        printf("%2u  %s\n", n, am9517_refusal_text(n));
    return 1;
}

static int command_show_state(void)
{
    uint8_t body[BODY];
    get_body(chip, body);
    say_bytes("state", body, BODY);
    return 1;
}

static int command_show_full(void)
{
    uint8_t full[FULL];
    get_full(chip, full);
    say_bytes("full", full, FULL);
    return 1;
}

static int command_fresh(void)
{
    uint64_t edition = AM9517_EDITION_AM9517A;
    if (count == 2 && !small(1, AM9517_EDITION_INTEL_8237A, &edition))
        return 0;
    *chip = am9517_fresh((uint32_t)edition);
    say("ok\n");
    return 1;
}

static int command_reset(void)
{
    done(am9517_reset(chip));
    return 1;
}

#include "console_board.h"

static int obey(void)
{
    if (count > 0 && words[0][0] == 'b' && words[0][1] == '.')
        return obey_board();
    if (is("peek", 3))
        return command_show(memory, ARRAY);
    if (is("out", 3))
        return command_show(room, room_size);
    return is("state", 1)     ? command_show_state()
           : is("state", 2)   ? command_state()
           : is("full", 1)    ? command_show_full()
           : is("full", 2)    ? command_full()
           : is("fresh", 1)   ? command_fresh()
           : is("fresh", 2)   ? command_fresh()
           : is("reset", 1)   ? command_reset()
           : is("help", 2)    ? command_help()
           : is("write", 3)   ? command_write()
           : is("read", 2)    ? command_read()
           : is("pins", 2)    ? command_pins()
           : is("waits", 2)   ? command_waits()
           : is("grant", 1)   ? command_grant()
           : is("memory", 2)  ? command_memory()
           : is("poke", 3)    ? command_poke()
           : is("feed", 2)    ? command_feed()
           : is("fill", 3)    ? command_fill()
           : is("room", 3)    ? command_room()
           : is("run", 3)     ? command_run()
           : is("round", 2)   ? command_round()
           : is("judge", 2)   ? command_judge()
           : is("sheet", 2)   ? command_sheet(am9517_save)
           : is("load", 2)    ? command_load(am9517_load)
           : is("sheet2", 2)  ? command_sheet(am9517_save2)
           : is("load2", 2)   ? command_load(am9517_load2)
           : is("forward", 3) ? command_convert(am9517_forward)
           : is("back", 3)    ? command_convert(am9517_back)
                              : 0;
}

static void answer(char *line, size_t n, int is_long)
{
    if (n > 0 && line[n - 1] == '\r')
        n--;
    line[n] = '\0';
    split(line);
    if (count == 0)
        return;
    if (is_long || !obey())
        say("error\n");
    guard();
    look();
    look_at_board();
}

int main(void)
{
    static char part[65536], line[LINE];
    size_t n = 0, got;
    int is_long = 0;
    memset(&cell, 0xc3, sizeof cell);
    *chip = am9517_fresh(AM9517_EDITION_AM9517A);
    begin_board();
    while ((got = fread(part, 1, sizeof part, stdin)) > 0)
        for (size_t i = 0; i < got; i++) {
            if (part[i] == '\n') {
                answer(line, n, is_long);
                n = 0;
                is_long = 0;
            } else if (n < LINE - 1) {
                line[n++] = part[i];
            } else {
                is_long = 1;
            }
        }
    if (n > 0)
        answer(line, n, is_long);
    return 0;
}
