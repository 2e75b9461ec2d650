/* The board that is lent, beside a board by hand (pair.h): random calls on both must say the same and leave the same, in every field,
 * in memory and in room, and the looking calls must see the same. Before them, refusals in their order.
 *
 *     board                  plays the calls
 *     board script SEED      prints them as a script of the rack console's `b.` commands instead
 *     board answers SEED     and the answers that the console owes it, as the board by hand gives them */
#include <stdio.h>
#include <stdlib.h>
#include <string.h>

#include "fields.h"
#include "pair.h"

enum { BOARD = 1 + 2 * FULL, MOST = 600, SLICE = 70, GUARD = 8, STEPS = 20000, LINES = 1500 };

static enum { CALLS, SCRIPT, ANSWERS } mode = CALLS;
static struct {
    uint8_t front[GUARD];
    am9517_board board;
    uint8_t back[GUARD];
} cell;
static am9517_board *const board = &cell.board;
static pair by_hand;
static uint8_t memory[2][AM9517_MEMORY_SIZE + 1], room[2][MOST], queue[MOST];
static size_t lent = AM9517_MEMORY_SIZE, queued, room_size, position;
static unsigned long step;

/* ---- what is drawn, and what is printed */

static uint64_t drawn = 9517;

static uint32_t below(uint32_t n)
{
    drawn ^= drawn << 13;
    drawn ^= drawn >> 7;
    drawn ^= drawn << 17;
    return (uint32_t)(drawn * 0x2545f4914f6cdd1du >> 33) % n;
}

static int one_in(uint32_t n)
{
    return below(n) == 0;
}

#define LINE(...) do { if (mode == SCRIPT) printf(__VA_ARGS__); } while (0)
#define ANSWER(...) do { if (mode == ANSWERS) printf(__VA_ARGS__); } while (0)

static void bytes(const uint8_t *from, size_t n)
{
    if (n == 0)
        printf("-");
    for (size_t i = 0; i < n; i++)
        printf("%02x", (unsigned)from[i]);
}

static void fail(const char *what)
{
    printf("board: %s (step %lu)\n", what, step);
    exit(1);
}

static void same(uint64_t mine, uint64_t theirs, const char *what)
{
    if (mine != theirs)
        fail(what);
}

static void done(uint32_t mine, uint32_t theirs, const char *what)
{
    same(mine, theirs, what);
    if (theirs == 0)
        ANSWER("ok\n");
    else
        ANSWER("refused %u\n", (unsigned)theirs);
}

static void told(am9517_told mine, am9517_told theirs, const char *what)
{
    same(mine.refusal, theirs.refusal, what);
    same(mine.value, theirs.value, what);
    if (theirs.refusal != 0)
        ANSWER("refused %u\n", (unsigned)theirs.refusal);
}

/* ---- both boards in bytes */

static void get_board(uint8_t *full)
{
    am9517_board copy = *board;
    full[0] = copy.granted_last;
    get_full(&copy.first, full + 1);
    get_full(&copy.second, full + 1 + FULL);
}

static void get_pair(uint8_t *full)
{
    full[0] = by_hand.last;
    get_full(&by_hand.chips[0], full + 1);
    get_full(&by_hand.chips[1], full + 1 + FULL);
}

static void set_both(const uint8_t *full)
{
    board->granted_last = by_hand.last = full[0];
    set_full(&board->first, full + 1);
    set_full(&board->second, full + 1 + FULL);
    set_full(&by_hand.chips[0], full + 1);
    set_full(&by_hand.chips[1], full + 1 + FULL);
}

static void compare(void)
{
    uint8_t mine[BOARD], theirs[BOARD];
    get_board(mine);
    get_pair(theirs);
    if (memcmp(mine, theirs, BOARD) != 0)
        fail("the boards differ");
    if (memcmp(memory[0], memory[1], sizeof memory[0]) != 0)
        fail("the memories differ");
    if (memcmp(room[0], room[1], sizeof room[0]) != 0)
        fail("the rooms differ");
    for (int i = 0; i < GUARD; i++)
        if (cell.front[i] != 0xc3 || cell.back[i] != 0xc3)
            fail("bytes about the board were touched");
    same(am9517_board_check(board), pair_check(&by_hand), "check");
    same(am9517_board_entitled(board).refusal, pair_entitled(&by_hand).refusal, "entitled");
    same(am9517_board_entitled(board).value, pair_entitled(&by_hand).value, "entitled");
}

/* ---- a board that a host may have put together: in its ranges, mostly */

static void put_word(uint8_t *at, uint32_t word)
{
    at[0] = (uint8_t)(word & 255);
    at[1] = (uint8_t)(word >> 8 & 255);
}

static uint8_t some_mode(void)
{
    const uint32_t mode_of = one_in(10) ? 3 : below(3);
    return (uint8_t)(mode_of << 6 | below(4) << 4 | (mode_of == 3 ? below(4) : below(3)) << 2);
}

static void some_chip(uint8_t *full, int in_service)
{
    uint8_t *const body = full + 2, *const last = body + 36;
    full[0] = (uint8_t)below(2);
    full[1] = (uint8_t)(one_in(3) ? below(256) : 0);
    for (int n = 0; n < 4; n++) {
        for (int i = 0; i < 4; i++)
            put_word(body + 9 * n + 2 * i, i < 2 || one_in(6) ? below(65536) : below(6));
        body[9 * n + 8] = some_mode();
    }
    last[0] = (uint8_t)(below(2) << 4 | below(2) << 3 | (one_in(8) ? 4 : 0) | (one_in(3) ? below(4) : 0) | (one_in(4) ? below(4) << 6 : 0));
    for (int i = 1; i < 4; i++)
        last[i] = (uint8_t)(one_in(3) ? 0 : below(16));
    last[4] = (uint8_t)below(256);
    last[5] = (uint8_t)below(2);
    last[6] = (uint8_t)below(16);
    last[7] = (uint8_t)below(4);
    last[8] = (uint8_t)in_service;
    last[9] = (uint8_t)(in_service ? below(4) : 0);
    last[10] = (uint8_t)(in_service ? below(2) : 0);
    last[11] = (uint8_t)(last[10] ? below(256) : 0);
}

static void step_state(void)
{
    uint8_t full[BOARD];
    const uint32_t serves = one_in(4) ? one_in(12) ? 3 : 1 + below(2) : 0;
    full[0] = (uint8_t)below(2);
    some_chip(full + 1, (int)(serves & 1));
    some_chip(full + 1 + FULL, (int)(serves >> 1));
    if (one_in(12))
        full[below(4) ? below(BOARD) : 0] = (uint8_t)below(256);
    set_both(full);
    if (mode == SCRIPT) {
        printf("b.state ");
        bytes(full, BOARD);
        printf("\n");
    }
    ANSWER("ok\n");
}

static void step_show(void)
{
    uint8_t full[BOARD];
    LINE("b.state\n");
    if (mode != ANSWERS)
        return;
    get_pair(full);
    printf("b.state ");
    bytes(full, BOARD);
    printf("\n");
}

static void step_fresh(void)
{
    const uint32_t first = below(2), second = below(2);
    *board = am9517_board_fresh(first, second);
    by_hand.chips[0] = am9517_fresh(first);
    by_hand.chips[1] = am9517_fresh(second);
    by_hand.last = 1;
    LINE("b.fresh %u %u\n", (unsigned)first, (unsigned)second);
    ANSWER("ok\n");
}

/* ---- operations */

static void step_write(void)
{
    const uint32_t reg = one_in(20) ? below(1000) : below(32);
    const uint8_t byte = (uint8_t)(one_in(3) ? below(16) : below(256));
    LINE("b.write %u %u\n", (unsigned)reg, (unsigned)byte);
    done(am9517_board_write(board, reg, byte), pair_write(&by_hand, reg, byte), "write");
}

static void step_read(void)
{
    const uint32_t reg = one_in(20) ? below(1000) : below(32);
    const am9517_told theirs = pair_read(&by_hand, reg);
    LINE("b.read %u\n", (unsigned)reg);
    told(am9517_board_read(board, reg), theirs, "read");
    if (theirs.refusal == 0)
        ANSWER("byte 0x%02x\n", (unsigned)theirs.value);
}

static void step_pins(void)
{
    const uint32_t levels = one_in(20) ? below(100000) : below(256);
    LINE("b.pins %u\n", (unsigned)levels);
    done(am9517_board_pins(board, levels), pair_pins(&by_hand, levels), "pins");
}

static void step_reset(void)
{
    LINE("b.reset\n");
    done(am9517_board_reset(board), pair_reset(&by_hand), "reset");
}

/* the console takes no chip number over 1 */
static uint32_t some_chip_number(void)
{
    const uint32_t which = one_in(8) ? one_in(2) ? 0xffffffffu - below(3) : 2 + below(300) : below(2);
    return mode == CALLS ? which : which & 1;
}

static void step_waits(void)
{
    const uint32_t which = some_chip_number();
    const uint8_t states = (uint8_t)below(256);
    LINE("b.waits %u %u\n", (unsigned)which, (unsigned)states);
    done(am9517_board_waits(board, which, states), pair_waits(&by_hand, which, states), "waits");
}

static void step_grant(void)
{
    const am9517_told theirs = pair_grant(&by_hand);
    LINE("b.grant\n");
    told(am9517_board_grant(board), theirs, "grant");
    if (theirs.refusal == 0)
        ANSWER("channel %u\n", (unsigned)theirs.value);
}

static void account(size_t used, size_t written)
{
    queued -= used;
    memmove(queue, queue + used, queued);
    position += written;
}

static void totals(uint64_t transfers, size_t used, size_t written, uint64_t states)
{
    ANSWER("transfers=%lu used=%lu written=%lu states=%lu\n", (unsigned long)transfers, (unsigned long)used, (unsigned long)written,
           (unsigned long)states);
    account(used, written);
}

static void step_run(void)
{
    const uint32_t limit = one_in(3) ? below(70000) : below(12), eop = one_in(3) ? below(6) : 0;
    const areas theirs_lent = {memory[1], lent, queue, queued, room[1] + position, room_size - position};
    const am9517_run_told theirs = pair_run(&by_hand, &theirs_lent, limit, eop);
    const am9517_run_told mine = am9517_board_run(board, memory[0], lent, queue, queued, room[0] + position, room_size - position, limit, eop);
    LINE("b.run %u %u\n", (unsigned)limit, (unsigned)eop);
    same(mine.refusal, theirs.refusal, "run: refusal");
    same(mine.reason, theirs.reason, "run: reason");
    same(mine.transfers, theirs.transfers, "run: transfers");
    same(mine.used, theirs.used, "run: used");
    same(mine.written, theirs.written, "run: written");
    same(mine.states, theirs.states, "run: states");
    if (theirs.refusal != 0)
        ANSWER("refused %u\n", (unsigned)theirs.refusal);
    else
        ANSWER("%s ", am9517_reason_text(theirs.reason));
    if (theirs.refusal == 0)
        totals(theirs.transfers, theirs.used, theirs.written, theirs.states);
}

static void step_round(void)
{
    const uint32_t k = one_in(4) ? below(4100) : below(20);
    const areas theirs_lent = {memory[1], lent, queue, queued, room[1] + position, room_size - position};
    const am9517_board_round_told theirs = pair_round(&by_hand, &theirs_lent, k);
    const am9517_board_round_told mine = am9517_board_round(board, memory[0], lent, queue, queued, room[0] + position, room_size - position, k);
    LINE("b.round %u\n", (unsigned)k);
    same(mine.refusal, theirs.refusal, "round: refusal");
    same(mine.reason, theirs.reason, "round: reason");
    for (int i = 0; i < 8; i++)
        same(mine.services[i], theirs.services[i], "round: services");
    same(mine.transfers, theirs.transfers, "round: transfers");
    same(mine.used, theirs.used, "round: used");
    same(mine.written, theirs.written, "round: written");
    same(mine.states, theirs.states, "round: states");
    if (theirs.refusal != 0) {
        ANSWER("refused %u\n", (unsigned)theirs.refusal);
        return;
    }
    ANSWER("%s services=", am9517_reason_text(theirs.reason));
    for (int i = 0; i < 8; i++)
        ANSWER("%u%s", (unsigned)theirs.services[i], i < 7 ? "," : " ");
    totals(theirs.transfers, theirs.used, theirs.written, theirs.states);
}

/* ---- sheets: each is then loaded, as it is or damaged, into one of the two, by one of the forms */

static void step_load(const uint8_t *sheet, size_t n)
{
    const uint32_t which = some_chip_number();
    const int form = one_in(2) ? 1 : 2;
    if (mode == SCRIPT) {
        printf("b.load %u %d ", (unsigned)which, form);
        bytes(sheet, n);
        printf("\n");
    }
    done((form == 1 ? am9517_board_load : am9517_board_load2)(board, which, sheet, n), pair_load(&by_hand, which, form, sheet, n), "load");
}

static void step_sheet(void)
{
    uint8_t mine[SLICE], theirs[SLICE];
    const uint32_t which = some_chip_number();
    const size_t n = one_in(8) ? below(58) : 56 + below(12);
    const int form = one_in(2) ? 1 : 2;
    const uint32_t refusal = (memset(theirs, 0xee, n), pair_save(&by_hand, which, form, theirs, n));
    LINE("b.sheet %u %d %u\n", (unsigned)which, form, (unsigned)n);
    memset(mine, 0xee, n);
    same((form == 1 ? am9517_board_save : am9517_board_save2)(board, which, mine, n), refusal, "save");
    if (memcmp(mine, theirs, n) != 0)
        fail("the sheets differ");
    if (mode == ANSWERS && refusal == 0) {
        printf("bytes ");
        bytes(theirs, n);
        printf("\n");
    } else if (refusal != 0) {
        ANSWER("refused %u\n", (unsigned)refusal);
    }
    if (n > 0 && one_in(4))
        mine[below((uint32_t)n)] ^= (uint8_t)(1 << below(8));
    step_load(mine, n);
}

/* ---- what the console has beside the board */

static void step_lent(void)
{
    lent = lent != AM9517_MEMORY_SIZE ? AM9517_MEMORY_SIZE : AM9517_MEMORY_SIZE - 1 + 2 * below(2);
    LINE("memory %u\n", (unsigned)lent);
    ANSWER("ok\n");
}

static void step_feed(void)
{
    const size_t n = below((uint32_t)(MOST - queued > 200 ? 200 : MOST - queued + 1));
    for (size_t i = 0; i < n; i++)
        queue[queued + i] = (uint8_t)below(256);
    if (mode == SCRIPT) {
        printf("feed ");
        bytes(queue + queued, n);
        printf("\n");
    }
    queued += n;
    ANSWER("ok\n");
}

static void step_room(void)
{
    const uint32_t byte = below(256);
    room_size = one_in(4) ? below(20) : below(MOST + 1);
    position = 0;
    memset(room[0], (int)byte, room_size);
    memset(room[1], (int)byte, room_size);
    LINE("room %u %u\n", (unsigned)room_size, (unsigned)byte);
    ANSWER("ok\n");
}

static void step_peek(void)
{
    const am9517_channel *c = &by_hand.chips[below(2)].channels[below(4)];
    const uint32_t at = (one_in(2) ? c->address : c->base_address) % 65500u, n = below(24);
    LINE("peek %u %u\n", (unsigned)at, (unsigned)n);
    if (mode != ANSWERS)
        return;
    printf("bytes ");
    bytes(memory[1] + at, n);
    printf("\n");
}

static void play(void)
{
    static void (*const steps[])(void) = {
        step_write, step_write, step_write, step_write, step_read, step_read, step_pins, step_pins,
        step_pins, step_waits, step_grant, step_grant, step_grant, step_grant, step_run, step_run, step_run, step_run, step_round,
        step_round, step_round, step_round, step_sheet, step_feed, step_feed, step_peek, step_show};
    /* an open service is run on, mostly, and a memory of the wrong length soon taken back */
    if (one_in(lent == AM9517_MEMORY_SIZE ? 80 : 4))
        step_lent();
    else if (one_in(80))
        one_in(2) ? step_reset() : step_fresh();
    else if (one_in(20))
        step_room();
    else if (pair_serves(&by_hand) && one_in(3))
        step_run();
    else if (one_in(4))
        step_state();
    else
        steps[below(sizeof steps / sizeof steps[0])]();
    compare();
}

/* ---- refusals in their order, where several hold */

static void orders(void)
{
    uint8_t sheet[AM9517_SHEET2_SIZE] = {0};
    am9517_board b = am9517_board_fresh(0, 1), none = am9517_board_fresh(0, 256);
    same(am9517_board_version(), AM9517_VERSION, "the version");
    same(am9517_board_version(), am9517_version(), "two versions");
    same(none.second.edition, 255, "an edition over 255");
    same(am9517_board_waits(&none, 2, 1), 1, "waits: 1 before 2");
    same(am9517_board_save2(&none, 2, sheet, 0), 2, "save2: 2 before 1");
    same(am9517_board_save(&none, 1, sheet, 0), 1, "save: 1 before 9");
    same(am9517_board_save(&none, 0, sheet, sizeof sheet), 0, "save: the other chip is not asked");
    same(am9517_board_save(&b, 1, sheet, 0), 9, "save: 9 before 15");
    same(am9517_board_save(&b, 1, sheet, sizeof sheet), 15, "save: 15");
    same(am9517_board_load(&b, 2, NULL, 0), 2, "load: 2 before 9");
    same(am9517_board_load2(&b, 1, NULL, 0), 9, "load2: 9");
    same(am9517_board_write(&none, 32, 0), 1, "write: 1 before 2");
    same(am9517_board_pins(&none, 256), 1, "pins: 1 before 2");
    b.second.in_service = 1;
    same(am9517_board_write(&b, 32, 0), 2, "write: 2 before 3");
    same(am9517_board_write(&b, 14, 0), 3, "write: 3 before 4");
    same(am9517_board_read(&b, 15).refusal, 3, "read: 3 before 4");
    same(am9517_board_waits(&b, 2, 0), 2, "waits: 2 before 3");
    same(am9517_board_waits(&b, 0, 0), 3, "waits: 3");
    same(am9517_board_grant(&b).refusal, 3, "grant: 3 before 6");
    same(am9517_board_round(&b, memory[0], 1, NULL, 0, NULL, 0, 4097).refusal, 2, "round: 2 before 7");
    same(am9517_board_round(&b, memory[0], 1, NULL, 0, NULL, 0, 4096).refusal, 7, "round: 7 before 3");
    b.second.in_service = 0;
    same(am9517_board_run(&b, memory[0], 1, NULL, 0, NULL, 0, 1, 0).refusal, 7, "run: 7 before 8");
    same(am9517_board_write(&b, 14, 0), 4, "write: 4 in an Am9517A");
    same(am9517_board_write(&b, 30, 0), 0, "write: E in an Intel chip");
    b.first.in_service = b.second.in_service = 1;
    same(am9517_board_check(&b), 1, "both in service");
    b.first.in_service = 0;
    b.granted_last = 2;
    same(am9517_board_check(&b), 1, "the arbiter's byte");
}

int main(int argc, char **argv)
{
    const int script = argc == 3 && strcmp(argv[1], "script") == 0, answers = argc == 3 && strcmp(argv[1], "answers") == 0;
    if (argc > 1 && !script && !answers) {
        printf("usage: board [script SEED | answers SEED]\n");
        return 2;
    }
    mode = script ? SCRIPT : answers ? ANSWERS : CALLS;
    for (size_t i = 0; mode != CALLS && argv[2][i] != '\0'; i++)
        drawn = drawn * 31 + (uint8_t)argv[2][i];
    memset(&cell, 0xc3, sizeof cell);
    orders();
    step_fresh();
    for (step = 1; step <= (mode == CALLS ? STEPS : LINES); step++)
        play();
    if (mode == CALLS)
        printf("board: refusals in their order, and %d random calls, as a board by hand\n", STEPS);
    return 0;
}
