/* am9517.h - one Am9517A or Intel 8237A DMA controller in software, as a C library. Version 4.3.0.
 *
 *     am9517_chip chip = am9517_fresh(AM9517_EDITION_AM9517A);
 *     uint32_t refusal = am9517_write(&chip, 0xb, 0x85);
 *     if (refusal != AM9517_OK)
 *         puts(am9517_refusal_text(refusal));
 *
 * Link with libam9517.a or libam9517.so.4. C99 or later, C++11 or later (am9517.hpp has a class for C++17). "Document 01"
 * is the rules of this controller, "One Am9517A in software: rules and limits", with what the landed requests A1 to A3, A5
 * and A8 of document 02, "More requests from customers", change in them and add. The board of two chips, A9, is a library of its
 * own: am9517_board.h.
 *
 * PLATFORM. x86-64 Linux, the System V calling convention, 64-bit pointers: the library is machine code for it and for
 * nothing else. Of the C library it wants memset alone. The shared library names the GNU C library, of any age: with
 * another C library link the archive. It has no variables, allocates nothing, reads no clock, never prints, exits or
 * aborts, and has no unwind tables: an exception can't arise in it, and it calls nothing of the host's.
 *
 * THE CHIP is a struct that the caller owns, with the registers as fields: read them, show them, copy the struct, keep
 * many. A host may also set fields; a chip that is out of the ranges told beside the fields is refused by 1 instead of
 * running wild. A zeroed struct is within its ranges but not fresh (nothing is masked): begin with am9517_fresh. The struct
 * has 54 bytes and is aligned to 2. A byte of padding lies behind each `mode`. Padding means nothing, need not be 0 in a fresh
 * chip and may change in a call: compare chips by their fields, not by memcmp.
 *
 * EDITIONS. A chip is an Am9517A or an Intel 8237A: am9517_fresh is told which, the field `edition` has it, reset and master
 * clear keep it. In an Intel chip a write of register E clears all four mask bits, where an Am9517A refuses it by 4; external
 * EOP sets the TC bit; and am9517_save refuses the chip by 15, for a sheet of form 1 has no place for the edition: store it
 * by am9517_save2. A sheet of form 1 that is loaded gives an Am9517A. All else is the same.
 *
 * WAIT STATES. Slow memory cards hold READY low: each transfer then takes that many working states more, verify too, and one of
 * memory-to-memory twice that. am9517_waits sets them, 0 to 255, in a chip of either edition, while it is idle; the field `waits`
 * has them; a fresh chip has none; reset and master clear keep them. They change `states` and nothing else: transfers, bytes and
 * registers stay as they are. A run says at most 33,947,648 states (65,536 transfers of 518), a round 139,049,566,208: more than
 * 32 bits hold, so keep `states` in 64. A sheet of form 1 has no place for them: am9517_save refuses a chip with waits by 15,
 * and such a sheet gives a chip without; one of form 2 has them.
 *
 * SHEETS are the chip as bytes, for files and for sending; memory and device are no part of them. Form 1 has 56 bytes
 * (am9517_save, am9517_load); form 2 has 58, edition and wait states before the rest (am9517_save2, am9517_load2), and every
 * chip that is in its ranges has one. A sheet is the last bytes of its slice; those before it play no part and stay.
 * am9517_forward and am9517_back write a sheet of one form in the other, with no chip: forward any good one, back exactly those
 * whose edition and waits are 0, else 15. Forward and back gives the same bytes, and so does back and forward where back is
 * allowed. Who reads one form refuses a sheet of the other, by 11 or, in too few bytes, by 9.
 *
 * LOGS are what the bus of another replica did in one service. A record has 8 bytes (AM9517_RECORD_SIZE): the serving channel;
 * the kind, 0 verify, 1 write, 2 read, 3 memory-to-memory; the address, low byte first; the second address, channel 1's in
 * memory-to-memory, else 0; the data byte, 0 for verify; the flags: bit 0 TC (the count passed 0), bit 1 external EOP, bit 2 last
 * of the service, the others 0. am9517_judge says how far a log is what the rules do next, from a chip in service and a memory.
 *
 * REFUSALS. Each call but am9517_version, am9517_fresh and the two texts says a refusal number, 0 for none. Where several
 * hold it is the first in the order that stands with the call. A refused call changes no field of the chip and no byte of
 * memory, room, sheet or target, and the other numbers of its answer are 0. All numbers may be given in full: a register over
 * 15, a limit of 2^64 - 1 and the like have defined answers. A `byte`, and the `states` of am9517_waits, is uint8_t: C itself
 * narrows what is given, so am9517_write(&chip, 8, 0x110) writes 10h and am9517_waits(&chip, 256) sets none; ask before if the
 * number may be larger.
 *
 * AREAS are a pointer and a number of bytes. What one call is lent must not overlap: chip, memory, device, room, log or sheet
 * are different areas, source and target too, so no sheet is converted in its place; the compiler relies on it. (Two chips may
 * share one memory, in calls one after the other.) A pointer to a chip is never NULL and lies at an even address. An area of 0
 * bytes is never looked into; its pointer may be anything, NULL too.
 *
 * THREADS. The library keeps nothing between two calls. Calls that share no area may run at the same time: two chips, each
 * with a memory of its own. The looking calls, whose chip is const (am9517_check, am9517_entitled, am9517_status, am9517_save,
 * am9517_save2), write no byte of the chip, so several may look at one chip at once; a source, a log and a sheet that is
 * loaded are only looked at, too. A call that changes a chip or an area must have it alone.
 *
 * WHAT IS PROVED. The code of each call, for all inputs: chip, memory, room, sheet, target and answer after it are what
 * document 01's rules say, refused ones too. Not proved: that the declarations of this header are those of the library (they
 * were read beside each other, and the tests make every call), the two texts below, which are plain C, the C compiler that
 * compiles the caller, and the code generator that made the library. What a caller must keep to is what AREAS and THREADS say:
 * good pointers, no overlap, no race.
 *
 * VERSIONS. A new major number: a struct, a call or a number has changed, compile again. A new minor number: more calls; what
 * was compiled before runs on. Sheets outlive both: form 1 is document 01's, form 2 document 02's. Version 4.2 had no board
 * beside it, and its texts of 1 and 2 none of the board's words. Version 4.1 had no am9517_judge. Version 4.0 had no form 2:
 * neither am9517_save2 and am9517_load2 nor am9517_forward and am9517_back. Version 3 had no wait states: the chip's last
 * byte was padding, and there was no am9517_waits. Version 2 had the one edition: no field for it, a struct of 52 bytes,
 * am9517_fresh(void), no refusal 15. Version 1 kept the state as a sheet and had am9517_copy; its calls took the sheet where
 * these take the chip.
 */
#ifndef AM9517_H
#define AM9517_H

/* Another platform can't link the library: say it here, not there. AM9517_ANY_PLATFORM is for tools that only read. */
#if !defined(AM9517_ANY_PLATFORM) && (!defined(__x86_64__) || !defined(__linux__) || defined(__ILP32__))
#error "am9517.h: libam9517 is for x86-64 Linux with 64-bit pointers alone"
#endif

#include <stddef.h>
#include <stdint.h>

#ifdef __cplusplus
extern "C" {
#endif

#define AM9517_VERSION_MAJOR 4
#define AM9517_VERSION_MINOR 3
#define AM9517_VERSION_PATCH 0
#define AM9517_VERSION 40300  /* major * 10000 + minor * 100 + patch */

#define AM9517_SHEET_SIZE 56      /* bytes of a stored sheet, form 1 */
#define AM9517_SHEET2_SIZE 58     /* and of one of form 2 */
#define AM9517_MEMORY_SIZE 65536  /* bytes of a memory: a run, a round and a judging take no other number */
#define AM9517_ROUND_MOST 4096    /* services that a round may be asked for */
#define AM9517_RECORD_SIZE 8      /* bytes of a record of a log */

/* Which maker's part a chip is. */
enum am9517_edition {
    AM9517_EDITION_AM9517A = 0,
    AM9517_EDITION_INTEL_8237A = 1
};

/* Document 01's refusal numbers. */
enum am9517_refusal {
    AM9517_OK = 0,
    AM9517_STATE_RANGE = 1,      /* a field of the chip is out of its range; of a board: of either chip, both in service,
                                  * or the arbiter's byte over 1 */
    AM9517_NUMBER = 2,           /* register over 15, pins over 15, or more than 4,096 services asked for; of a board: register
                                  * over 31, pins over 255, or a chip number over 1 */
    AM9517_IN_SERVICE = 3,       /* register access, waits, grant or round during a service */
    AM9517_REGISTER = 4,         /* read of 9, A, B, C, E or F, or write of E in an Am9517A */
    AM9517_MODE = 5,             /* mode byte with bits 3-2 = 11 and bits 7-6 not 11 */
    AM9517_NOBODY = 6,           /* grant with no entitled channel */
    AM9517_MEMORY_LENGTH = 7,    /* memory not of 65,536 bytes */
    AM9517_NO_SERVICE = 8,       /* run or judge with no service open */
    AM9517_SHEET_SHORT = 9,      /* slice under 56 bytes for a sheet (58 in form 2) */
    AM9517_SHEET_END_MARK = 10,  /* the sheet's last two bytes are not 44h, 4Dh */
    AM9517_SHEET_FORM = 11,      /* its form is not the one that is read */
    AM9517_SHEET_DISTANCE = 12,  /* its distance from trailer to body is not 48, in form 2 50 */
    AM9517_SHEET_SUM = 13,       /* its sum is not that of its body bytes, 48 or 50 */
    AM9517_SHEET_RANGE = 14,     /* it is sealed, and breaks a range */
    AM9517_SHEET_NO_PLACE = 15   /* form 1 has no place for edition and waits: no Intel chip and none with waits goes into it */
};

/* Why a run or a round stopped. */
enum am9517_reason {
    AM9517_REASON_REFUSED = 0,  /* it was refused: see the refusal */
    AM9517_REASON_ENDED = 1,    /* the service ended: TC, EOP, or a single transfer done */
    AM9517_REASON_DROPPED = 2,  /* the line of a demand or cascade channel went inactive: the service ended */
    AM9517_REASON_CASCADE = 3,  /* a cascade channel holds the bus: the service stays open, nothing moves */
    AM9517_REASON_LIMIT = 4,    /* the limit was reached: the service stays open */
    AM9517_REASON_SHORT = 5,    /* no device byte or no room left: the service stays open */
    AM9517_REASON_DONE = 6,     /* rounds only: all services asked for were begun */
    AM9517_REASON_QUIET = 7     /* rounds only: nobody is entitled */
};

/* One channel: 10 bytes, aligned to 2. The byte behind `mode` is padding. */
typedef struct am9517_channel {
    uint16_t base_address;
    uint16_t address;
    uint16_t base_count;
    uint16_t count;    /* N gives N + 1 transfers */
    uint8_t mode;      /* bits 1-0 are 0; bits 3-2 = 11 only where bits 7-6 = 11 */
} am9517_channel;

/* One chip: 54 bytes, aligned to 2. Idle means that `serving`, `latch_full` and `latch` are 0. */
typedef struct am9517_chip {
    am9517_channel channels[4];
    uint8_t tc;          /* 0 to 15: bit n, channel n has reached TC (Intel: or met EOP) since register 8 was read */
    uint8_t request;     /* 0 to 15: software requests, bit n for channel n */
    uint8_t mask;        /* 0 to 15: bit n, channel n's line is masked */
    uint8_t pins;        /* 0 to 15: the DREQ pins' levels */
    uint8_t in_service;  /* 0 idle, 1 in service */
    uint8_t serving;     /* 0 to 3: the serving channel; 0 while idle */
    uint8_t latch_full;  /* 0 or 1: an upper address byte was latched in this service */
    uint8_t latch;       /* that byte; 0 while there is none */
    uint8_t lowest;      /* 0 to 3: the channel of lowest priority under rotation */
    uint8_t flip_flop;   /* 0 low byte next, 1 high byte next */
    uint8_t edition;     /* 0 Am9517A, 1 Intel 8237A: enum am9517_edition */
    uint8_t temporary;
    uint8_t command;
    uint8_t waits;       /* any byte: wait states of each transfer, twice as many in memory-to-memory */
} am9517_chip;

/* A refusal, and the value where there is none. */
typedef struct am9517_told {
    uint32_t refusal;
    uint32_t value;
} am9517_told;

/* How a run went. */
typedef struct am9517_run_told {
    uint32_t refusal;
    uint32_t reason;     /* enum am9517_reason */
    uint64_t transfers;
    size_t used;         /* bytes of `device` used, from its start on */
    size_t written;      /* bytes of `room` written, from its start on */
    uint64_t states;     /* working states, wait states among them: at most 33,947,648 */
} am9517_run_told;

/* How a round went: services begun per channel, and totals. */
typedef struct am9517_round_told {
    uint32_t refusal;
    uint32_t reason;     /* enum am9517_reason */
    uint32_t services[4];
    uint64_t transfers;
    size_t used;
    size_t written;
    uint64_t states;     /* at most 139,049,566,208: more than 32 bits */
} am9517_round_told;

/* What is found of a log. */
typedef struct am9517_judge_told {
    uint32_t refusal;
    int32_t error;       /* the first wrong record's address error, -32,768 to 32,767; 0 where there is none */
    size_t right;        /* bytes of the log that are right: all of it, or the first wrong record begins there */
} am9517_judge_told;

/* The structs lie as the library has them. C99 has no words for this; a build as C11 or C++11 asks. */
#if defined(__cplusplus) && __cplusplus >= 201103L
#define AM9517_HEADER_ASK_(holds) static_assert(holds, #holds)
#define AM9517_HEADER_ALIGNED_(type) alignof(type)
#elif !defined(__cplusplus) && defined(__STDC_VERSION__) && __STDC_VERSION__ >= 201112L
#define AM9517_HEADER_ASK_(holds) _Static_assert(holds, #holds)
#define AM9517_HEADER_ALIGNED_(type) _Alignof(type)
#endif
#ifdef AM9517_HEADER_ASK_
AM9517_HEADER_ASK_(sizeof(size_t) == 8);
AM9517_HEADER_ASK_(sizeof(am9517_channel) == 10 && AM9517_HEADER_ALIGNED_(am9517_channel) == 2);
AM9517_HEADER_ASK_(sizeof(am9517_chip) == 54 && AM9517_HEADER_ALIGNED_(am9517_chip) == 2);
AM9517_HEADER_ASK_(offsetof(am9517_channel, mode) == 8 && offsetof(am9517_chip, tc) == 40);
AM9517_HEADER_ASK_(offsetof(am9517_chip, edition) == 50 && offsetof(am9517_chip, temporary) == 51);
AM9517_HEADER_ASK_(offsetof(am9517_chip, command) == 52 && offsetof(am9517_chip, waits) == 53);
AM9517_HEADER_ASK_(sizeof(am9517_told) == 8 && sizeof(am9517_run_told) == 40 && sizeof(am9517_round_told) == 56);
AM9517_HEADER_ASK_(sizeof(am9517_judge_told) == 16 && offsetof(am9517_judge_told, error) == 4);
AM9517_HEADER_ASK_(offsetof(am9517_judge_told, right) == 8);
#undef AM9517_HEADER_ASK_
#undef AM9517_HEADER_ALIGNED_
#endif

/* AM9517_VERSION of the library that is linked: its major number must be the header's. */
uint32_t am9517_version(void);

/* A fresh chip of this edition (enum am9517_edition): all zero, the wait states too, but the mask (15), the lowest channel (3)
 * and the edition. A number over 1 is no edition: the field `edition` has it, 255 for any over 255, and every call but
 * am9517_load and am9517_load2 refuses the chip by 1. */
am9517_chip am9517_fresh(uint32_t edition);

/* Says whether every field is in its range, and changes nothing. Refusals: 1. */
uint32_t am9517_check(const am9517_chip *chip);

/* Writes a byte to register 0 to 15. A write of 0 to 7 sets one byte of base and current, low byte first, and turns the
 * flip-flop over; the other registers are document 01's (figure 4 of the data sheet). In an Intel chip a write of E clears
 * all four mask bits, whatever the byte; in an Am9517A it is refused by 4. Refusals: 1, 2, 3, 4, 5. */
uint32_t am9517_write(am9517_chip *chip, uint32_t reg, uint8_t byte);

/* Reads register 0 to 15; the byte is `value`. A read of 0 to 7 gives current and turns the flip-flop over, one of 8 gives
 * the status and clears the TC bits, one of D gives the temporary byte; the others are refused by 4 in both editions.
 * Refusals: 1, 2, 3, 4. */
am9517_told am9517_read(am9517_chip *chip, uint32_t reg);

/* Sets the four DREQ pins, bit n for channel n, also during a service. Refusals: 1, 2. */
uint32_t am9517_pins(am9517_chip *chip, uint32_t levels);

/* Resets, also during a service. Addresses, counts, modes, pins, edition and wait states stay. Refusals: 1. */
uint32_t am9517_reset(am9517_chip *chip);

/* Sets the wait states, 0 to 255, of an idle chip: each transfer from now on takes that many working states more, one of
 * memory-to-memory twice that. Nothing else changes. During a service it is refused, also with the number that the chip has.
 * Refusals: 1, 3. */
uint32_t am9517_waits(am9517_chip *chip, uint8_t states);

/* Begins the service of the first entitled channel; the channel is `value`. Refusals: 1, 3, 6. */
am9517_told am9517_grant(am9517_chip *chip);

/* For display: the entitled channels, bit n for channel n, in `value`. Changes nothing. Refusals: 1. */
am9517_told am9517_entitled(const am9517_chip *chip);

/* For display: the status byte as register 8 shows it (TC bits 0-3, requesting channels 4-7) in `value`, also during
 * a service. Clears nothing. Refusals: 1. */
am9517_told am9517_status(const am9517_chip *chip);

/* Runs the open service over a memory of 65,536 bytes: at most `limit` transfers; the transfer of this call numbered `eop_at`
 * (from 1; 0: none) meets external EOP. EOP ends the service as TC does, but sets the TC bit only in an Intel chip: that of
 * the serving channel, of channel 1 in memory-to-memory, with autoinitialize too. Bytes for memory are taken from `device`,
 * bytes from memory are put into `room`; room behind the last byte written isn't touched. After "limit" or "short" the
 * service is open: call again with device + used, room + written and what is left of them. Limit and EOP number count anew
 * in each call: a limit of 100 that stopped at 100 is spent, an EOP number beyond the transfers made is forgotten.
 * `states`: a transfer takes 3, compressed 2, 1 more where the upper address byte is latched anew, and the wait states; one of
 * memory-to-memory takes 8 and twice the wait states. Refusals: 1, 7, 8. */
am9517_run_told am9517_run(am9517_chip *chip,
                           uint8_t *memory, size_t memory_size,
                           const uint8_t *device, size_t device_size,
                           uint8_t *room, size_t room_size,
                           uint64_t limit, uint64_t eop_at);

/* Begins up to `k` services (at most AM9517_ROUND_MOST, 4,096), each granted and run with a limit of 65,536 and no EOP, until
 * one doesn't end, k are begun or nobody is entitled. Each service is handed the device bytes not yet used and the room
 * behind the last byte written; a round stopped by "short" or "cascade" leaves its last service open, for am9517_run to go
 * on with. For more than 4,096 services call again with device + used and room + written. `states` may pass 32 bits.
 * Refusals: 1, 2, 7, 3. */
am9517_round_told am9517_round(am9517_chip *chip,
                               uint8_t *memory, size_t memory_size,
                               const uint8_t *device, size_t device_size,
                               uint8_t *room, size_t room_size,
                               uint32_t k);

/* Judges a log of the open service, made by another replica, over a memory of 65,536 bytes. A record is right where all its bytes
 * are what the rules do next, the device's byte and external EOP taken from the record itself. `right` is the number of bytes that
 * are right. It is `log_size` where the log is accepted, as an empty one is and an honest one that stops early; else the first
 * wrong record begins there: log + right and the rest is what goes back to the vendor. `error` is that record's address less the
 * right one, modulo 65,536, as -32,768 to 32,767. It is 0 where the address is right and another byte is wrong, where under 8
 * bytes are left, and where the rules make no transfer: behind the end of the service, with the line dropped, in cascade. Chip
 * and memory are left as the right records made them; a dropped line is not applied, the service stays open. A log may be handed
 * over in parts of whole records: judge the next part where this one was accepted and chip->in_service is 1; where it is 0 the
 * service is over, and any byte behind it is wrong with error 0, though a call would be refused by 8. Refusals: 1, 7, 8. */
am9517_judge_told am9517_judge(am9517_chip *chip,
                               uint8_t *memory, size_t memory_size,
                               const uint8_t *log, size_t log_size);

/* Stores the chip as a sheet of form 1 in the last 56 bytes of `sheet`; bytes before them aren't touched. A chip in service
 * can be stored, and goes on after am9517_load. Memory and device are not part of it. Form 1 has no place for edition and wait
 * states: an Intel chip, and one whose `waits` is not 0, is refused by 15 (am9517_save2 stores it). Refusals: 1, 9, 15. */
uint32_t am9517_save(const am9517_chip *chip, uint8_t *sheet, size_t size);

/* Loads the chip from the sheet in the last 56 bytes of `sheet`. What the chip was plays no part: it is an Am9517A without wait
 * states then, for form 1 tells of no other. Refused, it stays, with its edition and waits. A sheet of form 2 is refused by 11.
 * Refusals: 9, 10, 11, 12, 13, 14. */
uint32_t am9517_load(am9517_chip *chip, const uint8_t *sheet, size_t size);

/* Stores the chip as a sheet of form 2 in the last 58 bytes of `sheet`, AM9517_SHEET2_SIZE; bytes before them aren't touched.
 * Its edition and its wait states stand in it, so that a chip of either edition, with waits or without, is stored, in service
 * too. Refusals: 1, 9. */
uint32_t am9517_save2(const am9517_chip *chip, uint8_t *sheet, size_t size);

/* Loads the chip from the sheet of form 2 in the last 58 bytes of `sheet`, edition and wait states too. What the chip was plays
 * no part. Refused, it stays. A sheet of form 1 is refused by 11, in fewer than 58 bytes by 9; an edition over 1 is a range.
 * Refusals: 9, 10, 11, 12, 13, 14. */
uint32_t am9517_load2(am9517_chip *chip, const uint8_t *sheet, size_t size);

/* Writes the sheet of form 1 in the last 56 bytes of `source` as one of form 2 in the last 58 bytes of `target`, with edition 0
 * and no wait states; bytes before them aren't touched. Source and target may not overlap. 9 is either's: a source under 56
 * bytes or a target under 58. Refusals: 9, 10, 11, 12, 13, 14. */
uint32_t am9517_forward(const uint8_t *source, size_t source_size, uint8_t *target, size_t target_size);

/* Writes the sheet of form 2 in the last 58 bytes of `source` as one of form 1 in the last 56 bytes of `target`, where its
 * edition and its wait states are 0; else 15. Source and target may not overlap. 9 is either's: a source under 58 bytes or a
 * target under 56. Refusals: 9, 10, 11, 12, 13, 14, 15. */
uint32_t am9517_back(const uint8_t *source, size_t source_size, uint8_t *target, size_t target_size);

/* A refusal number in words, the rack console's (`help refusals`); there is a text for every number. */
static inline const char *am9517_refusal_text(uint32_t refusal)
{
    switch (refusal) {
    case 0: return "not refused";
    case 1:
        return "the state breaks a range of the sheet section; on the board also: both chips in service, an arbiter byte over 1";
    case 2:
        return "register number over 15, pins over 15, or more than 4,096 services asked for; on the board: over 31, over 255, "
               "a chip number over 1";
    case 3: return "register access, waits, grant or round during a service";
    case 4: return "read of 9, A, B, C, E, F, or write of E in an Am9517A";
    case 5: return "mode byte with bits 3-2 = 11 and bits 7-6 not 11";
    case 6: return "grant with no entitled channel";
    case 7: return "memory not of 65,536 bytes";
    case 8: return "run or judge with no service open";
    case 9: return "slice under 56 bytes for a sheet (58 in form 2)";
    case 10: return "sheet fault: end mark";
    case 11: return "sheet fault: first two trailer bytes";
    case 12: return "sheet fault: distance";
    case 13: return "sheet fault: sum";
    case 14: return "sheet fault: range";
    case 15: return "form 1 has no place for edition and waits";
    default: return "no refusal has this number";
    }
}

/* A reason in one word, the rack console's; there is a text for every number. */
static inline const char *am9517_reason_text(uint32_t reason)
{
    switch (reason) {
    case 0: return "refused";
    case 1: return "ended";
    case 2: return "dropped";
    case 3: return "cascade";
    case 4: return "limit";
    case 5: return "short";
    case 6: return "done";
    case 7: return "quiet";
    default: return "no reason has this number";
    }
}

#ifdef __cplusplus
}
#endif

#endif
