/* A log as an honest replica makes it, in the tests' own words: each record is told by the chip's fields before the transfer, and the
 * transfer is then made by am9517_run with a limit of one. Document 02's A8 has the bytes of a record. */
#ifndef RECORD_H
#define RECORD_H

#include "am9517.h"

/* The record of the next transfer, where the device gives this byte and EOP is met or not. The chip is in service. */
static inline void next_record(const am9517_chip *c, const uint8_t *memory, uint8_t device, int eop, uint8_t *record)
{
    const int copies = (c->command & 1) != 0 && c->serving == 0;
    const am9517_channel *ch = &c->channels[c->serving], *to = &c->channels[1];
    const uint16_t second = copies ? to->address : 0;
    const int kind = copies ? 3 : ch->mode >> 2 & 3, tc = (copies ? to : ch)->count == 0;
    const int last = tc || eop || (!copies && ch->mode >> 6 == 1);
    record[0] = c->serving;
    record[1] = (uint8_t)kind;
    record[2] = (uint8_t)(ch->address & 255);
    record[3] = (uint8_t)(ch->address >> 8);
    record[4] = (uint8_t)(second & 255);
    record[5] = (uint8_t)(second >> 8);
    record[6] = (uint8_t)(kind == 0 ? 0 : kind == 1 ? device : memory[ch->address]);
    record[7] = (uint8_t)((tc ? 1 : 0) | (eop ? 2 : 0) | (last ? 4 : 0));
}

/* At most `most` records of the open service, of which the one numbered `eop_at` meets EOP (0: none); chip and memory are as behind
 * them. Gives the bytes of the log: none where the service makes no transfer. */
static inline size_t honest_log(am9517_chip *c, uint8_t *memory, size_t most, size_t eop_at, uint8_t *log)
{
    size_t size = 0;
    for (size_t i = 1; i <= most && c->in_service; i++) {
        const uint8_t device = (uint8_t)(i * 7 + i / 251 + 3);
        uint8_t room[1];
        am9517_chip next = *c;
        next_record(c, memory, device, i == eop_at, log + size);
        if (am9517_run(&next, memory, AM9517_MEMORY_SIZE, &device, 1, room, 1, 1, i == eop_at).transfers == 0)
            break;
        *c = next;
        size += AM9517_RECORD_SIZE;
    }
    return size;
}

#endif
