/* The calls of am9517_board.h over the plain model, by pointer: plain_am9517_board_write for am9517_board_write, and so on. */
#include "plain.h"
#include "am9517_board.h"

static int pair_valid(const am9517_board *b)
{
    return valid(&b->first) && valid(&b->second) && b->granted_last <= 1 && !(b->first.in_service && b->second.in_service);
}

static int serves(const am9517_board *b) { return b->first.in_service || b->second.in_service; }

/* What the board itself refuses of a register access. */
static u32 access_refusal(const am9517_board *b, u32 reg) { return !pair_valid(b) ? 1 : reg > 31 ? 2 : serves(b) ? 3 : 0; }

static am9517_chip *addressed(am9517_board *b, u32 reg) { return reg & 16 ? &b->second : &b->first; }

/* A write of a chip in its ranges and idle, to one of its registers. */
static u32 write_free(am9517_chip *c, u32 reg, u8 byte)
{
    if (reg == 14 && !intel(c)) return 4;
    if (reg == 11 && mode_refused(byte)) return 5;
    store_register(c, reg, byte);
    return 0;
}

u32 plain_am9517_board_write(am9517_board *b, u32 reg, u8 byte)
{
    u32 no = access_refusal(b, reg);
    if (no != 0) return no;
    am9517_chip *c = addressed(b, reg);
    return write_free(c, reg & 15, byte);
}

am9517_told plain_am9517_board_read(am9517_board *b, u32 reg)
{
    u32 no = access_refusal(b, reg);
    if (no != 0) return (am9517_told){no, 0};
    u32 said = read_free(addressed(b, reg), reg & 15);
    return said < 256 ? (am9517_told){0, said} : (am9517_told){said - 256, 0};
}

u32 plain_am9517_board_pins(am9517_board *b, u32 levels)
{
    if (!pair_valid(b)) return 1;
    if (levels > 255) return 2;
    b->first.pins = levels & 15;
    b->second.pins = (u8)(levels >> 4);
    return 0;
}

/* Who gets the bus, and its channel; 0 where nobody wants it. */
static am9517_chip *winner(am9517_board *b, int *channel)
{
    int first = picked(&b->first), second = picked(&b->second);
    int which = first < 0 ? 1 : second < 0 ? 0 : !b->granted_last;
    *channel = which ? second : first;
    return *channel < 0 ? 0 : which ? &b->second : &b->first;
}

am9517_told plain_am9517_board_grant(am9517_board *b)
{
    if (!pair_valid(b)) return (am9517_told){1, 0};
    if (serves(b)) return (am9517_told){3, 0};
    int n;
    am9517_chip *c = winner(b, &n);
    if (!c) return (am9517_told){6, 0};
    grant(c, n);
    b->granted_last = c == &b->second;
    return (am9517_told){0, (u32)n + 4u * b->granted_last};
}

am9517_board_round_told plain_am9517_board_round(am9517_board *b, u8 *memory, usize memory_size, const u8 *device, usize device_size,
                                                 u8 *room, usize room_size, u32 k)
{
    struct lent l = {memory, memory_size, device, device_size, room, room_size};
    am9517_board_round_told t = {0};
    struct counts counts = {0};
    enum reason why = DONE;
    t.refusal = !pair_valid(b) ? 1 : k > 4096 ? 2 : memory_size != 65536 ? 7 : serves(b) ? 3 : 0;
    if (t.refusal != 0) return t;
    for (u32 begun = 0; begun < k; begun++) {
        int n;
        am9517_chip *c = winner(b, &n);
        why = QUIET;
        if (!c) break;
        grant(c, n);
        b->granted_last = c == &b->second;
        t.services[n + 4 * b->granted_last]++;
        why = serve(c, l, 65536, 0, &counts);
        if (why != ENDED) break;
        why = DONE;
    }
    t.reason = (u32)why + 1;
    t.transfers = counts.transfers, t.used = counts.used, t.written = counts.written, t.states = counts.states;
    return t;
}
