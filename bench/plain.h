/* A plain model of document 01, with requests A1 to A3, A5 and A8 of document 02, in C: one transfer after the other, each rule where
   the document has it. It is the measure that the proved controller is held to; bench/check compares the two. plain.c has the
   works over it, plain_calls.c the calls of the C library by pointer; all take the struct of am9517.h. */
#include "am9517.h"
#include "works.h"

enum reason { ENDED, DROPPED, CASCADE, LIMIT, SHORT, DONE, QUIET };

/* What was counted; where bytes used and written are, too, the places of the next ones. */
struct counts {
    u64 transfers, states;
    usize used, written;
};

/* What a run or a round told: the number of its refusal or 0, else why it stopped. */
struct told {
    u32 refusal;
    enum reason why;
    struct counts counts;
    u32 services[4];
};

static int bit(u32 byte, u32 n) { return byte >> n & 1; }

static int intel(const am9517_chip *c) { return c->edition == AM9517_EDITION_INTEL_8237A; }

/* ---- ranges ---- */

static int mode_refused(u8 mode) { return (mode >> 2 & 3) == 3 && mode >> 6 != 3; }

static int valid(const am9517_chip *c)
{
    for (int n = 0; n < 4; n++)
        if ((c->channels[n].mode & 3) != 0 || mode_refused(c->channels[n].mode)) return 0;
    if (c->tc > 15 || c->request > 15 || c->mask > 15 || c->pins > 15) return 0;
    if (c->flip_flop > 1 || c->in_service > 1 || c->latch_full > 1) return 0;
    if (c->lowest > 3 || c->serving > 3 || c->edition > 1) return 0;
    if (!c->in_service && (c->serving || c->latch_full || c->latch)) return 0;
    return c->latch_full || c->latch == 0;
}

/* ---- who may be served ---- */

static int active(const am9517_chip *c, u32 n) { return bit(c->pins, n) != bit(c->command, 6); }

static int counted(const am9517_chip *c, u32 n) { return bit(c->request, n) && c->channels[n].mode >> 6 == 2; }

static int entitled(const am9517_chip *c, u32 n)
{
    if (bit(c->command, 2)) return 0;
    return (active(c, n) && !bit(c->mask, n)) || counted(c, n);
}

static int picked(const am9517_chip *c)
{
    for (u32 k = 0; k < 4; k++) {
        u32 n = bit(c->command, 4) ? (c->lowest + 1 + k) % 4 : k;
        if (entitled(c, n)) return (int)n;
    }
    return -1;
}

static void grant(am9517_chip *c, int n)
{
    if (bit(c->command, 4)) c->lowest = (u8)n;
    c->in_service = 1;
    c->serving = (u8)n;
    c->latch_full = 0;
    c->latch = 0;
}

static void end_service(am9517_chip *c)
{
    c->in_service = 0;
    c->serving = 0;
    c->latch_full = 0;
    c->latch = 0;
}

/* ---- registers ---- */

static void master_clear(am9517_chip *c)
{
    end_service(c);
    c->command = c->tc = c->request = c->temporary = c->flip_flop = 0;
    c->mask = 15;
    c->lowest = 3;
}

static u8 with_bit(u8 byte, u32 n, int value) { return (u8)((byte & ~(1u << n)) | (u32)value << n); }

static u16 with_byte(u16 word, int high, u8 byte)
{
    return high ? (u16)((word & 0xff) | byte << 8) : (u16)((word & 0xff00) | byte);
}

static void write_port(am9517_chip *c, u32 reg, u8 byte)
{
    am9517_channel *ch = &c->channels[reg / 2];
    u16 *base = reg % 2 ? &ch->base_count : &ch->base_address;
    u16 *current = reg % 2 ? &ch->count : &ch->address;
    *base = with_byte(*base, c->flip_flop, byte);
    *current = with_byte(*current, c->flip_flop, byte);
    c->flip_flop ^= 1;
}

static u32 write_refusal(const am9517_chip *c, u32 reg, u8 byte)
{
    if (!valid(c)) return 1;
    if (reg > 15) return 2;
    if (c->in_service) return 3;
    if (reg == 14 && !intel(c)) return 4;
    return reg == 11 && mode_refused(byte) ? 5 : 0;
}

/* What is written where nothing refuses it. */
static void store_register(am9517_chip *c, u32 reg, u8 byte)
{
    switch (reg) {
    case 8: c->command = byte; break;
    case 9: c->request = with_bit(c->request, byte & 3, bit(byte, 2)); break;
    case 10: c->mask = with_bit(c->mask, byte & 3, bit(byte, 2)); break;
    case 11: c->channels[byte & 3].mode = byte & 0xfc; break;
    case 12: c->flip_flop = 0; break;
    case 13: master_clear(c); break;
    case 14: c->mask = 0; break;
    case 15: c->mask = byte & 15; break;
    default: write_port(c, reg, byte);
    }
}

static u32 write_register(am9517_chip *c, u32 reg, u8 byte)
{
    u32 no = write_refusal(c, reg, byte);
    if (no != 0) return no + 256;
    store_register(c, reg, byte);
    return 0;
}

static u8 status(const am9517_chip *c)
{
    u32 requests = 0;
    for (u32 n = 0; n < 4; n++)
        if (active(c, n) || counted(c, n)) requests |= 16u << n;
    return (u8)(c->tc | requests);
}

static u8 read_port(am9517_chip *c, u32 reg)
{
    const am9517_channel *ch = &c->channels[reg / 2];
    u16 word = reg % 2 ? ch->count : ch->address;
    u8 byte = (u8)(c->flip_flop ? word >> 8 : word);
    c->flip_flop ^= 1;
    return byte;
}

static u32 read_free(am9517_chip *c, u32 reg)
{
    if (reg < 8) return read_port(c, reg);
    if (reg == 8) {
        u8 byte = status(c);
        c->tc = 0;
        return byte;
    }
    return reg == 13 ? c->temporary : 260;
}

static u32 read_register(am9517_chip *c, u32 reg)
{
    if (!valid(c)) return 257;
    if (reg > 15) return 258;
    if (c->in_service) return 259;
    return read_free(c, reg);
}

/* ---- a run of one service ---- */

struct lent {
    u8 *memory;
    usize memory_length;
    const u8 *device;
    usize device_length;
    u8 *room;
    usize room_length;
};

static u16 stepped(u16 address, u8 mode) { return (u16)(bit(mode, 5) ? address - 1 : address + 1); }

/* TC or EOP met channel n. */
static void finish(am9517_chip *c, int copies, u32 n)
{
    am9517_channel *ch = &c->channels[n];
    c->request &= (u8)~(copies ? 3u : 1u << n);
    if (bit(ch->mode, 4)) {
        ch->address = ch->base_address;
        ch->count = ch->base_count;
    } else {
        c->mask |= (u8)(1u << n);
    }
    end_service(c);
}

/* The count steps; whether TC or EOP ended the service. */
static int counted_down(am9517_chip *c, int copies, u32 n, int eop)
{
    int tc = c->channels[n].count-- == 0;
    if (tc || (eop && intel(c))) c->tc |= (u8)(1u << n);
    if (!tc && !eop) return 0;
    finish(c, copies, n);
    return 1;
}

static void copy_byte(am9517_chip *c, u8 *memory)
{
    am9517_channel *from = &c->channels[0], *to = &c->channels[1];
    c->temporary = memory[from->address];
    memory[to->address] = c->temporary;
    if (!bit(c->command, 1)) from->address = stepped(from->address, from->mode);
    if (from->count-- == 0 && bit(from->mode, 4)) from->address = from->base_address, from->count = from->base_count;
    to->address = stepped(to->address, to->mode);
}

static enum reason copy_service(am9517_chip *c, u8 *memory, u64 limit, u64 eop_at, struct counts *total)
{
    u64 made = 0;
    int over = 0;
    while (!over && made != limit) {
        copy_byte(c, memory);
        made++;
        over = counted_down(c, 1, 1, made == eop_at);
    }
    total->transfers += made;
    total->states += (8 + 2ul * c->waits) * made;
    return over ? ENDED : LIMIT;
}

/* A transfer's working states, its wait states among them; the upper address byte is latched where it is new. */
static u32 cost(am9517_chip *c, u16 address)
{
    u32 states = (bit(c->command, 3) ? 2u : 3u) + c->waits;
    if (c->latch_full && c->latch == address >> 8) return states;
    c->latch_full = 1;
    c->latch = (u8)(address >> 8);
    return states + 1;
}

static enum reason device_service(am9517_chip *c, struct lent l, u64 limit, u64 eop_at, struct counts *total)
{
    u32 n = c->serving;
    am9517_channel *ch = &c->channels[n];
    int kind = ch->mode >> 6, way = ch->mode >> 2 & 3;
    struct counts t = *total;
    u64 made = 0;
    enum reason why = ENDED;
    for (;;) {
        if ((kind == 0 || kind == 3) && !active(c, n)) {
            end_service(c);
            why = DROPPED;
            break;
        }
        if (kind == 3) { why = CASCADE; break; }
        if (made == limit) { why = LIMIT; break; }
        if (way == 1 && t.used == l.device_length) { why = SHORT; break; }
        if (way == 2 && t.written == l.room_length) { why = SHORT; break; }
        u16 address = ch->address;
        t.states += cost(c, address);
        if (way == 1) l.memory[address] = l.device[t.used++];
        if (way == 2) l.room[t.written++] = l.memory[address];
        ch->address = stepped(address, ch->mode);
        made++;
        if (counted_down(c, 0, n, made == eop_at)) break;
        if (kind == 1) {
            end_service(c);
            break;
        }
    }
    t.transfers += made;
    *total = t;
    return why;
}

static enum reason serve(am9517_chip *c, struct lent l, u64 limit, u64 eop_at, struct counts *total)
{
    if (bit(c->command, 0) && c->serving == 0) return copy_service(c, l.memory, limit, eop_at, total);
    return device_service(c, l, limit, eop_at, total);
}

static u32 run_refusal(const am9517_chip *c, usize memory_length) { return !valid(c) ? 1 : memory_length != 65536 ? 7 : !c->in_service ? 8 : 0; }

static struct told run(am9517_chip *c, struct lent l, u64 limit, u64 eop_at)
{
    struct told t = {0};
    t.refusal = run_refusal(c, l.memory_length);
    if (t.refusal == 0) t.why = serve(c, l, limit, eop_at, &t.counts);
    return t;
}

/* ---- a round ---- */

static struct told round_of(am9517_chip *c, struct lent l, u32 k)
{
    struct told t = {0};
    t.refusal = !valid(c) ? 1 : k > 4096 ? 2 : l.memory_length != 65536 ? 7 : c->in_service ? 3 : 0;
    if (t.refusal != 0) return t;
    for (u32 begun = 0; begun < k; begun++) {
        int n = picked(c);
        if (n < 0) {
            t.why = QUIET;
            return t;
        }
        grant(c, n);
        t.services[n]++;
        t.why = serve(c, l, 65536, 0, &t.counts);
        if (t.why != ENDED) return t;
    }
    t.why = DONE;
    return t;
}

/* ---- judging a log ---- */

/* What is found of a log: the number of a refusal or 0, the address error, and how many bytes are right. */
struct found {
    u32 refusal;
    int error;
    usize right;
};

/* A record as one number, its first byte lowest, as this machine has it. */
static u64 record_in(const u8 *b)
{
    u64 record;
    __builtin_memcpy(&record, b, 8);
    return record;
}

static u64 record_of(u32 channel, u32 kind, u32 address, u32 second, u32 byte, u32 flags)
{
    return channel | kind << 8 | address << 16 | (u64)second << 32 | (u64)byte << 48 | (u64)flags << 56;
}

/* The registers are kept beside the chip while the records go by: else each byte that is stored might be one of its fields. */
static struct found judge(am9517_chip *c, u8 *memory, usize memory_length, const u8 *log, usize size)
{
    struct found f = {run_refusal(c, memory_length), 0, 0};
    if (f.refusal != 0) return f;
    u32 n = c->serving;
    am9517_channel from = c->channels[n], to = c->channels[1];
    int copies = bit(c->command, 0) && n == 0, service = from.mode >> 6, single = !copies && service == 1, hold = copies && bit(c->command, 1);
    if (!copies && (service == 3 || (service == 0 && !active(c, n)))) return f;
    u32 kind = copies ? 3 : from.mode >> 2 & 3;
    u16 count = copies ? to.count : from.count, second = copies ? to.address : 0, last = from.address;
    u8 temporary = c->temporary;
    u32 flags = 0;
    for (; flags == 0 && size - f.right >= 8; f.right += 8) {
        u64 told = record_in(log + f.right);
        int tc = count == 0, eop = told >> 57 & 1;
        u32 now = (u32)(tc | eop << 1 | (tc || eop || single) << 2);
        u8 byte = kind == 0 ? 0 : kind == 1 ? (u8)(told >> 48) : memory[from.address];
        if (told != record_of(n, kind, from.address, second, byte, now)) {
            f.error = (short)((told >> 16) - from.address);
            break;
        }
        flags = now;
        last = from.address;
        if (kind == 1) memory[last] = byte;
        if (!hold) from.address = stepped(last, from.mode);
        if (copies) {
            memory[second] = temporary = byte;
            second = stepped(second, to.mode);
            if (from.count-- == 0 && bit(from.mode, 4)) from.address = from.base_address, from.count = from.base_count;
        }
        count--;
    }
    if (f.right == 0) return f;
    if (copies) c->temporary = temporary, to.address = second, to.count = count;
    else from.count = count, c->latch_full = 1, c->latch = (u8)(last >> 8);
    c->channels[n] = from;
    if (copies) c->channels[1] = to;
    if (flags & 1 || (flags & 2 && intel(c))) c->tc |= (u8)(1u << (copies ? 1 : n));
    if (flags & 3) finish(c, copies, copies ? 1 : n);
    else if (flags) end_service(c);
    return f;
}

/* ---- sheets ---- */

static u16 word(const u8 *b) { return (u16)(b[0] | b[1] << 8); }

static u32 sum_of(const u8 *body)
{
    u32 sum = 0;
    for (int i = 0; i < 48; i++) sum += body[i];
    return sum;
}

/* The state that form 1's body tells, whatever its ranges: an Am9517A without waits, for it has no place for either. */
static am9517_chip fields_in(const u8 *sheet)
{
    am9517_chip c;
    const u8 *b = sheet + 36;
    for (int n = 0; n < 4; n++) {
        const u8 *p = sheet + 9 * n;
        c.channels[n] = (am9517_channel){word(p), word(p + 2), word(p + 4), word(p + 6), p[8]};
    }
    c.command = b[0], c.tc = b[1], c.request = b[2], c.mask = b[3], c.temporary = b[4], c.flip_flop = b[5];
    c.pins = b[6], c.lowest = b[7], c.in_service = b[8], c.serving = b[9], c.latch_full = b[10], c.latch = b[11];
    c.edition = AM9517_EDITION_AM9517A, c.waits = 0;
    return c;
}

static void put_word(u8 *b, u32 value)
{
    b[0] = (u8)value;
    b[1] = (u8)(value >> 8);
}

/* The first fault of a trailer, 10 to 13, or 0. */
static u32 trailer_fault(const u8 *t, u32 form, u32 distance, u32 sum)
{
    if (t[6] != 0x44 || t[7] != 0x4d) return 10;
    if (word(t) != form) return 11;
    if (word(t + 2) != distance) return 12;
    return word(t + 4) != sum ? 13 : 0;
}

static void write_trailer(u8 *t, u32 form, u32 distance, u32 sum)
{
    put_word(t, form), put_word(t + 2, distance), put_word(t + 4, sum);
    t[6] = 0x44, t[7] = 0x4d;
}

static void write_body(const am9517_chip *c, u8 *sheet)
{
    const u8 fields[12] = {c->command, c->tc, c->request, c->mask, c->temporary, c->flip_flop,
                           c->pins, c->lowest, c->in_service, c->serving, c->latch_full, c->latch};
    for (int n = 0; n < 4; n++) {
        const am9517_channel *ch = &c->channels[n];
        u8 *p = sheet + 9 * n;
        put_word(p, ch->base_address), put_word(p + 2, ch->address);
        put_word(p + 4, ch->base_count), put_word(p + 6, ch->count);
        p[8] = ch->mode;
    }
    for (int i = 0; i < 12; i++) sheet[36 + i] = fields[i];
}

static void write_sheet(const am9517_chip *c, u8 *sheet)
{
    write_body(c, sheet);
    write_trailer(sheet + 48, 1, 48, sum_of(sheet));
}
