/* The calls of the board's C library (am9517_board_) and the plain model's (plain_am9517_board_, of plain_board.c), by pointers. */
#include "am9517_board.h"

/* Families of works, behind those of calls.h. */
enum { B_WRITE = C_OVER + 1, B_READ, B_PINS, B_GRANT, B_ROUND, B_NOTHING, B_OVER };

#define BOARD_CALLS_OF(side) \
    u32 side##_write(am9517_board *, u32, u8); \
    am9517_told side##_read(am9517_board *, u32); \
    u32 side##_pins(am9517_board *, u32); \
    am9517_told side##_grant(am9517_board *); \
    am9517_board_round_told side##_round(am9517_board *, u8 *, usize, const u8 *, usize, u8 *, usize, u32);

BOARD_CALLS_OF(plain_am9517_board)

struct board_calls {
    u32 (*write)(am9517_board *, u32, u8);
    am9517_told (*read)(am9517_board *, u32);
    u32 (*pins)(am9517_board *, u32);
    am9517_told (*grant)(am9517_board *);
    am9517_board_round_told (*round)(am9517_board *, u8 *, usize, const u8 *, usize, u8 *, usize, u32);
};

#define ALL_OF_BOARD(side) {side##_write, side##_read, side##_pins, side##_grant, side##_round}

static const struct board_calls BOARD_CALLS[2] = {ALL_OF_BOARD(am9517_board), ALL_OF_BOARD(plain_am9517_board)};

static u64 board_round_sum(am9517_board_round_told t)
{
    u64 begun = 0;
    for (u64 n = 0; n < 8; n++) begun += (n + 1) * t.services[n];
    return 256 * t.refusal + t.reason + begun + 2 * t.transfers + 3 * t.used + 5 * t.written + 7 * t.states;
}

/* Each turn calls with the board of the start; `board` has what the last one left. */
#define BOARD_TURNS(call) \
    for (; times > 0; times--) { \
        *board = *start; \
        sum += (call); \
    } \
    return sum;

static u64 do_board_call(int family, int side, const am9517_board *start, am9517_board *board, const struct given *g, u64 times)
{
    const struct board_calls *c = &BOARD_CALLS[side];
    u64 sum = 0;
    switch (family) {
    case B_WRITE: BOARD_TURNS(c->write(board, g->reg, g->byte))
    case B_READ: BOARD_TURNS(told_sum(c->read(board, g->reg)))
    case B_PINS: BOARD_TURNS(c->pins(board, g->byte))
    case B_GRANT: BOARD_TURNS(told_sum(c->grant(board)))
    case B_ROUND: BOARD_TURNS(board_round_sum(c->round(board, g->memory, g->memory_size, g->device, g->device_size, g->room, g->room_size, g->k)))
    default: BOARD_TURNS(({ __asm__ volatile("" ::: "memory"); 0; }))
    }
}
