/* The chip's fields as the bytes of the console's `full`: edition, waits, and the 48 bytes of the sheet's body, in their order. */
#ifndef FIELDS_H
#define FIELDS_H

#include "am9517.h"

enum { BODY = 48, FULL = 50 };

/* The twelve fields behind the channels. */
static inline uint8_t *field(am9517_chip *c, int i)
{
    uint8_t *const fields[12] = {&c->command, &c->tc, &c->request, &c->mask, &c->temporary, &c->flip_flop,
                                 &c->pins, &c->lowest, &c->in_service, &c->serving, &c->latch_full, &c->latch};
    return fields[i];
}

static inline uint16_t *word_of(am9517_channel *c, int i)
{
    uint16_t *const fields[4] = {&c->base_address, &c->address, &c->base_count, &c->count};
    return fields[i];
}

static inline void set_body(am9517_chip *c, const uint8_t *body)
{
    for (int n = 0; n < 4; n++) {
        for (int i = 0; i < 4; i++)
            *word_of(&c->channels[n], i) = (uint16_t)(body[9 * n + 2 * i] + 256 * body[9 * n + 2 * i + 1]);
        c->channels[n].mode = body[9 * n + 8];
    }
    for (int i = 0; i < 12; i++)
        *field(c, i) = body[36 + i];
}

static inline void get_body(am9517_chip *c, uint8_t *body)
{
    for (int n = 0; n < 4; n++) {
        for (int i = 0; i < 4; i++) {
            body[9 * n + 2 * i] = (uint8_t)(*word_of(&c->channels[n], i) & 255);
            body[9 * n + 2 * i + 1] = (uint8_t)(*word_of(&c->channels[n], i) >> 8);
        }
        body[9 * n + 8] = c->channels[n].mode;
    }
    for (int i = 0; i < 12; i++)
        body[36 + i] = *field(c, i);
}

static inline void set_full(am9517_chip *c, const uint8_t *full)
{
    c->edition = full[0];
    c->waits = full[1];
    set_body(c, full + 2);
}

static inline void get_full(am9517_chip *c, uint8_t *full)
{
    full[0] = c->edition;
    full[1] = c->waits;
    get_body(c, full + 2);
}

#endif
