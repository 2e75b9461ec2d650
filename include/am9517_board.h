/* am9517_board.h - the 7009 board, two controllers with eight lines and one memory, as a C library. Version 4.3.0.
 *
 *     am9517_board board = am9517_board_fresh(AM9517_EDITION_AM9517A, AM9517_EDITION_AM9517A);
 *     uint32_t refusal = am9517_board_write(&board, 0x1b, 0x85);    (the second chip, its channel 1)
 *     if (refusal != AM9517_OK)
 *         puts(am9517_refusal_text(refusal));
 *
 * Link with libam9517_board.a, an archive of its own: a host that has boards alone needs no libam9517.a, and one that has
 * both links both. am9517.h is included, for the chip's struct, numbers and texts; what it says of PLATFORM, EDITIONS, WAIT
 * STATES, SHEETS, REFUSALS, AREAS and THREADS holds here too, with the board in the chip's place. "Document 02" is "More
 * requests from customers"; its request A9, "The whole 7009 board", has the board's rules.
 *
 * THE BOARD is a struct that the caller owns: both chips, each a struct am9517_chip, and the arbiter's byte. Read its fields,
 * show them, copy it, keep many. A host may also set fields; a board that is out of its ranges is refused by 1: where a chip
 * is, where both chips are in service, where `granted_last` is over 1. A chip of the board may be shown by the looking calls
 * of am9517.h (am9517_status(&board.second)); a call of am9517.h that changes it knows nothing of the other chip and of the
 * arbiter. The struct has 110 bytes and is aligned to 2; one byte of padding lies at its end, and the chips have theirs.
 *
 * WHICH IS WHICH. Registers 0 to 15 are the first chip's and 16 to 31 the second's (bit 4 of the address picks it, the four
 * bits below are the chip's register). Lines and channels 0 to 3 are the first chip's, 4 to 7 the second's 0 to 3. Where a
 * call wants one chip it is told a number, AM9517_BOARD_FIRST or AM9517_BOARD_SECOND; one over 1 is refused by 2.
 *
 * THE BUS. A chip wants the bus when a channel of it is entitled. Where both want it the one not granted last gets it, else
 * the one that wants it; the channel is the one that this chip would grant by itself. Each grant, contested or not, makes its
 * chip the one granted last. In a fresh board and after a reset the first chip is first. One service at a time: while either
 * chip is in service, register accesses, waits, grants and rounds are refused by 3 for both; pins may change.
 *
 * WHAT IS PROVED. Each call does exactly what the plain call of the board, by value, does with the board that it is lent, for
 * all inputs; and that one does what A9's rules say, refused ones too. Not proved is what am9517.h names there.
 */
#ifndef AM9517_BOARD_H
#define AM9517_BOARD_H

#include "am9517.h"

#ifdef __cplusplus
extern "C" {
#endif

/* Which of the two chips. */
enum am9517_board_chip {
    AM9517_BOARD_FIRST = 0,  /* registers 0 to 15, lines and channels 0 to 3 */
    AM9517_BOARD_SECOND = 1  /* registers 16 to 31, lines and channels 4 to 7 */
};

/* One board: 110 bytes, aligned to 2. At most one of the chips is in service. */
typedef struct am9517_board {
    am9517_chip first;
    am9517_chip second;
    uint8_t granted_last;  /* 0 or 1: the chip granted last, enum am9517_board_chip */
} am9517_board;

/* How a round on the board went: services begun per channel of the eight, and totals. */
typedef struct am9517_board_round_told {
    uint32_t refusal;
    uint32_t reason;     /* enum am9517_reason */
    uint32_t services[8];
    uint64_t transfers;
    size_t used;
    size_t written;
    uint64_t states;     /* at most 139,049,566,208: more than 32 bits */
} am9517_board_round_told;

/* The structs lie as the library has them. C99 has no words for this; a build as C11 or C++11 asks. */
#if defined(__cplusplus) && __cplusplus >= 201103L
#define AM9517_BOARD_HEADER_ASK_(holds) static_assert(holds, #holds)
#define AM9517_BOARD_HEADER_ALIGNED_(type) alignof(type)
#elif !defined(__cplusplus) && defined(__STDC_VERSION__) && __STDC_VERSION__ >= 201112L
#define AM9517_BOARD_HEADER_ASK_(holds) _Static_assert(holds, #holds)
#define AM9517_BOARD_HEADER_ALIGNED_(type) _Alignof(type)
#endif
#ifdef AM9517_BOARD_HEADER_ASK_
AM9517_BOARD_HEADER_ASK_(sizeof(am9517_board) == 110 && AM9517_BOARD_HEADER_ALIGNED_(am9517_board) == 2);
AM9517_BOARD_HEADER_ASK_(offsetof(am9517_board, first) == 0 && offsetof(am9517_board, second) == 54);
AM9517_BOARD_HEADER_ASK_(offsetof(am9517_board, granted_last) == 108);
AM9517_BOARD_HEADER_ASK_(sizeof(am9517_board_round_told) == 72 && offsetof(am9517_board_round_told, services) == 8);
AM9517_BOARD_HEADER_ASK_(offsetof(am9517_board_round_told, transfers) == 40 && offsetof(am9517_board_round_told, states) == 64);
#undef AM9517_BOARD_HEADER_ASK_
#undef AM9517_BOARD_HEADER_ALIGNED_
#endif

/* AM9517_VERSION of the library that is linked, one number for both libraries: its major number must be the header's. */
uint32_t am9517_board_version(void);

/* A board of fresh chips of these editions (enum am9517_edition), the first chip being first to get the bus. A number over
 * 1 is no edition: the chip's field has it, 255 for any over 255, and every call refuses the board by 1, but for the loads
 * and a save of the other chip. */
am9517_board am9517_board_fresh(uint32_t first, uint32_t second);

/* Says whether the pair is in its ranges, and changes nothing. Refusals: 1. */
uint32_t am9517_board_check(const am9517_board *board);

/* Writes a byte to register 0 to 31, as am9517_write does with the chip that bit 4 picks. Refusals: 1, 2, 3, 4, 5. */
uint32_t am9517_board_write(am9517_board *board, uint32_t reg, uint8_t byte);

/* Reads register 0 to 31, as am9517_read does with the chip that bit 4 picks; the byte is `value`. Refusals: 1, 2, 3, 4. */
am9517_told am9517_board_read(am9517_board *board, uint32_t reg);

/* Sets the eight DREQ lines, bit n for channel n, also during a service. Refusals: 1, 2. */
uint32_t am9517_board_pins(am9517_board *board, uint32_t levels);

/* Resets both chips, also during a service; the first chip is first to get the bus then. Refusals: 1. */
uint32_t am9517_board_reset(am9517_board *board);

/* Sets the wait states of one chip, 0 to 255, while both are idle: each may have memory cards of its own. Refusals: 1, 2, 3. */
uint32_t am9517_board_waits(am9517_board *board, uint32_t which, uint8_t states);

/* Gives the bus away and begins the service of the channel that its chip picks; the channel, 0 to 7, is `value`. 6: no
 * channel of the eight is entitled. Refusals: 1, 3, 6. */
am9517_told am9517_board_grant(am9517_board *board);

/* For display: the entitled channels, bit n for channel n of the eight, in `value`. Changes nothing. Refusals: 1. */
am9517_told am9517_board_entitled(const am9517_board *board);

/* Runs the open service, whichever chip's it is, over the memory that both share, as am9517_run does. Refusals: 1, 7, 8. */
am9517_run_told am9517_board_run(am9517_board *board,
                                 uint8_t *memory, size_t memory_size,
                                 const uint8_t *device, size_t device_size,
                                 uint8_t *room, size_t room_size,
                                 uint64_t limit, uint64_t eop_at);

/* Begins up to `k` services (at most AM9517_ROUND_MOST, 4,096), the bus given to one chip or the other before each, as
 * am9517_round does with one chip: each service is granted and run with a limit of 65,536 and no EOP, until one doesn't
 * end, k are begun or nobody is entitled. Refusals: 1, 2, 7, 3. */
am9517_board_round_told am9517_board_round(am9517_board *board,
                                           uint8_t *memory, size_t memory_size,
                                           const uint8_t *device, size_t device_size,
                                           uint8_t *room, size_t room_size,
                                           uint32_t k);

/* Sheets are one per chip: these store and load one of the two, as am9517_save, am9517_load, am9517_save2 and am9517_load2
 * do. The arbiter's byte stands in none. A save asks the chip's own ranges and nothing of the other; a load looks at the
 * bytes alone, and one that leaves both chips in service is done, but every call except saves and loads then refuses the
 * board by 1: load the other chip, too. The number of the chip is asked first. Refusals of am9517_board_save: 2, 1, 9, 15;
 * of am9517_board_save2: 2, 1, 9; of the loads: 2, 9, 10, 11, 12, 13, 14. */
uint32_t am9517_board_save(const am9517_board *board, uint32_t which, uint8_t *sheet, size_t size);
uint32_t am9517_board_load(am9517_board *board, uint32_t which, const uint8_t *sheet, size_t size);
uint32_t am9517_board_save2(const am9517_board *board, uint32_t which, uint8_t *sheet, size_t size);
uint32_t am9517_board_load2(am9517_board *board, uint32_t which, const uint8_t *sheet, size_t size);

#ifdef __cplusplus
}
#endif

#endif
