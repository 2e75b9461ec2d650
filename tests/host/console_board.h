/* The board's commands of the console in C (console.c includes this behind its words and answers): `b.fresh` and the rest, through
 * am9517_board.h. Memory, queue and room are those of the chip's commands. The board stands between guard bytes; after each command
 * what its looking calls say is held to what a grant does with a copy. */
#ifndef CONSOLE_BOARD_H
#define CONSOLE_BOARD_H

#include "am9517_board.h"

enum { BOARD = 1 + 2 * FULL };

static struct {
    uint8_t front[GUARD];
    am9517_board board;
    uint8_t back[GUARD];
} board_cell;
static am9517_board *const board = &board_cell.board;

static void begin_board(void)
{
    memset(&board_cell, 0xc3, sizeof board_cell);
    *board = am9517_board_fresh(AM9517_EDITION_AM9517A, AM9517_EDITION_AM9517A);
}

static void look_at_board(void)
{
    const uint32_t wrong = am9517_board_check(board);
    const am9517_told entitled = am9517_board_entitled(board);
    am9517_board copy = *board;
    const am9517_told grant = am9517_board_grant(&copy);
    for (int i = 0; i < GUARD; i++)
        if (board_cell.front[i] != 0xc3 || board_cell.back[i] != 0xc3)
            fail("bytes about the board were touched");
    if (entitled.refusal != wrong || (grant.refusal == AM9517_STATE_RANGE) != (wrong != AM9517_OK))
        fail("two calls see different boards");
    if (grant.refusal == AM9517_NOBODY && entitled.value != 0)
        fail("nobody is granted, and one is entitled");
    if (grant.refusal == AM9517_OK && !(entitled.value >> grant.value & 1))
        fail("a channel of the board is granted that is not entitled");
}

static int command_board_fresh(void)
{
    uint64_t first = AM9517_EDITION_AM9517A, second = AM9517_EDITION_AM9517A;
    if (count == 3 && (!small(1, AM9517_EDITION_INTEL_8237A, &first) || !small(2, AM9517_EDITION_INTEL_8237A, &second)))
        return 0;
    *board = am9517_board_fresh((uint32_t)first, (uint32_t)second);
    say("ok\n");
    return 1;
}

static int command_board_show(void)
{
    uint8_t full[BOARD];
    full[0] = board->granted_last;
    get_full(&board->first, full + 1);
    get_full(&board->second, full + 1 + FULL);
    say_bytes("b.state", full, BOARD);
    return 1;
}

static int command_board_state(void)
{
    if (!hex(words[1]) || given_size != BOARD)
        return 0;
    board->granted_last = given[0];
    set_full(&board->first, given + 1);
    set_full(&board->second, given + 1 + FULL);
    say("ok\n");
    return 1;
}

static int command_board_write(void)
{
    uint64_t reg, byte;
    if (!small(1, WORD, &reg) || !small(2, 255, &byte))
        return 0;
    done(am9517_board_write(board, (uint32_t)reg, (uint8_t)byte));
    return 1;
}

static int command_board_read(void)
{
    uint64_t reg;
    if (!small(1, WORD, &reg))
        return 0;
    const am9517_told told = am9517_board_read(board, (uint32_t)reg);
    if (!refused(told.refusal))
        printf("byte 0x%02x\n", (unsigned)told.value);
    return 1;
}

static int command_board_pins(void)
{
    uint64_t levels;
    if (!small(1, WORD, &levels))
        return 0;
    done(am9517_board_pins(board, (uint32_t)levels));
    return 1;
}

static int command_board_reset(void)
{
    done(am9517_board_reset(board));
    return 1;
}

static int command_board_waits(void)
{
    uint64_t which, states;
    if (!small(1, AM9517_BOARD_SECOND, &which) || !small(2, 255, &states))
        return 0;
    done(am9517_board_waits(board, (uint32_t)which, (uint8_t)states));
    return 1;
}

static int command_board_grant(void)
{
    const am9517_told told = am9517_board_grant(board);
    if (!refused(told.refusal))
        printf("channel %u\n", (unsigned)told.value);
    return 1;
}

static int command_board_run(void)
{
    uint64_t limit, eop;
    if (!small(1, WORD, &limit) || !small(2, WORD, &eop))
        return 0;
    const am9517_run_told told =
        am9517_board_run(board, memory, lent, queue, queued, room + position, room_size - position, limit, eop);
    if (refused(told.refusal))
        return 1;
    printf("%s ", am9517_reason_text(told.reason));
    say_totals(told.transfers, told.used, told.written, told.states);
    account(told.used, told.written);
    return 1;
}

static int command_board_round(void)
{
    uint64_t k;
    if (!small(1, WORD, &k))
        return 0;
    const am9517_board_round_told told =
        am9517_board_round(board, memory, lent, queue, queued, room + position, room_size - position, (uint32_t)k);
    if (refused(told.refusal))
        return 1;
    printf("%s services=", am9517_reason_text(told.reason));
    for (int i = 0; i < 8; i++)
        printf("%u%s", (unsigned)told.services[i], i < 7 ? "," : " ");
    say_totals(told.transfers, told.used, told.written, told.states);
    account(told.used, told.written);
    return 1;
}

static int command_board_sheet(void)
{
    uint64_t which, form, n;
    if (!small(1, AM9517_BOARD_SECOND, &which) || !small(2, 2, &form) || form == 0 || !small(3, MOST, &n))
        return 0;
    memset(slice, 0xee, n);
    if (!refused((form == 1 ? am9517_board_save : am9517_board_save2)(board, (uint32_t)which, slice, n)))
        say_bytes("bytes", slice, n);
    return 1;
}

static int command_board_load(void)
{
    uint64_t which, form;
    if (!small(1, AM9517_BOARD_SECOND, &which) || !small(2, 2, &form) || form == 0 || !hex(words[3]))
        return 0;
    done((form == 1 ? am9517_board_load : am9517_board_load2)(board, (uint32_t)which, given, given_size));
    return 1;
}

static int obey_board(void)
{
    return is("b.fresh", 1)   ? command_board_fresh()
           : is("b.fresh", 3) ? command_board_fresh()
           : is("b.state", 1) ? command_board_show()
           : is("b.state", 2) ? command_board_state()
           : is("b.write", 3) ? command_board_write()
           : is("b.read", 2)  ? command_board_read()
           : is("b.pins", 2)  ? command_board_pins()
           : is("b.reset", 1) ? command_board_reset()
           : is("b.waits", 3) ? command_board_waits()
           : is("b.grant", 1) ? command_board_grant()
           : is("b.run", 3)   ? command_board_run()
           : is("b.round", 2) ? command_board_round()
           : is("b.sheet", 4) ? command_board_sheet()
           : is("b.load", 4)  ? command_board_load()
                              : 0;
}

#endif
