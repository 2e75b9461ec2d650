/* The board by hand, in the tests' own words: two chips, each changed by the chip's own library, and the byte of the arbiter.
 * Document 02's A9 has the rules. */
#ifndef PAIR_H
#define PAIR_H

#include "am9517_board.h"

typedef struct pair {
    am9517_chip chips[2];
    uint8_t last;
} pair;

/* what a run and a round are lent */
typedef struct areas {
    uint8_t *memory;
    size_t memory_size;
    const uint8_t *device;
    size_t device_size;
    uint8_t *room;
    size_t room_size;
} areas;

static inline int pair_serves(const pair *p)
{
    return p->chips[0].in_service != 0 || p->chips[1].in_service != 0;
}

static inline uint32_t pair_check(const pair *p)
{
    const int both = p->chips[0].in_service != 0 && p->chips[1].in_service != 0;
    const int good = am9517_check(&p->chips[0]) == 0 && am9517_check(&p->chips[1]) == 0;
    return good && p->last <= 1 && !both ? 0 : 1;
}

static inline uint32_t pair_access(const pair *p, uint32_t reg)
{
    return pair_check(p) ? 1u : reg > 31 ? 2u : pair_serves(p) ? 3u : 0u;
}

static inline uint32_t pair_write(pair *p, uint32_t reg, uint8_t byte)
{
    const uint32_t no = pair_access(p, reg);
    return no ? no : am9517_write(&p->chips[reg / 16], reg % 16, byte);
}

static inline am9517_told pair_read(pair *p, uint32_t reg)
{
    am9517_told told = {pair_access(p, reg), 0};
    return told.refusal ? told : am9517_read(&p->chips[reg / 16], reg % 16);
}

static inline uint32_t pair_pins(pair *p, uint32_t levels)
{
    if (pair_check(p) || levels > 255)
        return pair_check(p) ? 1 : 2;
    return am9517_pins(&p->chips[0], levels & 15) + am9517_pins(&p->chips[1], levels >> 4);
}

static inline uint32_t pair_reset(pair *p)
{
    if (pair_check(p))
        return 1;
    p->last = 1;
    return am9517_reset(&p->chips[0]) + am9517_reset(&p->chips[1]);
}

static inline uint32_t pair_waits(pair *p, uint32_t which, uint8_t states)
{
    const uint32_t no = pair_check(p) ? 1u : which > 1 ? 2u : pair_serves(p) ? 3u : 0u;
    return no ? no : am9517_waits(&p->chips[which], states);
}

static inline am9517_told pair_entitled(const pair *p)
{
    const am9517_told told = {pair_check(p), 0};
    const am9517_told both = {0, am9517_entitled(&p->chips[0]).value + 16 * am9517_entitled(&p->chips[1]).value};
    return told.refusal ? told : both;
}

/* of two that want the bus the one not granted last */
static inline am9517_told pair_grant(pair *p)
{
    const uint32_t want = pair_entitled(p).value;
    am9517_told told = {pair_check(p) ? 1u : pair_serves(p) ? 3u : want == 0 ? 6u : 0u, 0};
    const int first = (want & 15) != 0, second = want >> 4 != 0;
    const uint8_t winner = (uint8_t)(first && second ? 1 - p->last : second);
    if (told.refusal)
        return told;
    p->last = winner;
    told = am9517_grant(&p->chips[winner]);
    told.value += 4u * winner;
    return told;
}

static inline am9517_run_told pair_run(pair *p, const areas *a, uint64_t limit, uint64_t eop_at)
{
    am9517_run_told told = {0, 0, 0, 0, 0, 0};
    told.refusal = pair_check(p) ? 1u : a->memory_size != AM9517_MEMORY_SIZE ? 7u : !pair_serves(p) ? 8u : 0u;
    return told.refusal ? told : am9517_run(&p->chips[p->chips[0].in_service ? 0 : 1], a->memory, a->memory_size, a->device, a->device_size,
                                            a->room, a->room_size, limit, eop_at);
}

/* grant, then run with a limit of 65,536 and no EOP, as often as k says */
static inline am9517_board_round_told pair_round(pair *p, const areas *a, uint32_t k)
{
    am9517_board_round_told told = {0, 0, {0, 0, 0, 0, 0, 0, 0, 0}, 0, 0, 0, 0};
    const uint32_t no = pair_check(p) ? 1u : k > 4096 ? 2u : a->memory_size != AM9517_MEMORY_SIZE ? 7u : pair_serves(p) ? 3u : 0u;
    told.refusal = no;
    told.reason = no ? AM9517_REASON_REFUSED : AM9517_REASON_DONE;
    for (uint32_t i = 0; no == 0 && i < k; i++) {
        const am9517_told grant = pair_grant(p);
        const areas rest = {a->memory, a->memory_size, a->device + told.used, a->device_size - told.used, a->room + told.written,
                            a->room_size - told.written};
        if (grant.refusal) {
            told.reason = AM9517_REASON_QUIET;
            break;
        }
        const am9517_run_told run = pair_run(p, &rest, 65536, 0);
        told.services[grant.value]++;
        told.transfers += run.transfers;
        told.used += run.used;
        told.written += run.written;
        told.states += run.states;
        if (run.reason != AM9517_REASON_ENDED) {
            told.reason = run.reason;
            break;
        }
    }
    return told;
}

static inline uint32_t pair_save(const pair *p, uint32_t which, int form, uint8_t *sheet, size_t size)
{
    return which > 1 ? 2 : (form == 1 ? am9517_save : am9517_save2)(&p->chips[which], sheet, size);
}

static inline uint32_t pair_load(pair *p, uint32_t which, int form, const uint8_t *sheet, size_t size)
{
    return which > 1 ? 2 : (form == 1 ? am9517_load : am9517_load2)(&p->chips[which], sheet, size);
}

#endif
