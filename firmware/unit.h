/* The unit that answers: its own address, its store and its clock, around the calls of tyurkanim.h. */
#ifndef UNIT_H
#define UNIT_H

#include <stdbool.h>
#include <stddef.h>
#include <stdint.h>

#include "tyurkanim.h"

struct unit {
    uint8_t own_unit;
    uint8_t own_group;
    uint8_t level; /* what whoever asks may do: there is no login */
    uint8_t store[TYURKANIM_STORE_BYTES];
    uint8_t clock[TYURKANIM_CLOCK_BYTES];
    int64_t second_began; /* when the clock came to the second that it shows */
};

/* What became of a frame. */
struct answer {
    uint8_t outcome;
    uint16_t length; /* of the reply, 0 where none is sent */
    uint8_t reply[TYURKANIM_FRAME_BYTES];
};

/* A unit with a fresh store and the machine's time, UTC. False if own address or level are not allowed. */
bool unit_start(struct unit *unit, uint8_t own_unit, uint8_t own_group, uint8_t level, int64_t now);

/* Brings the clock to now. */
void unit_pass(struct unit *unit, int64_t now);

/* When the clock comes to its next second. */
int64_t unit_next_second(const struct unit *unit);

void unit_answer(struct unit *unit, const uint8_t *frame, size_t length, struct answer *answer, int64_t now);

#endif
