/* A round in time, by a box's own clock. Times are in microseconds. The picture is in README.md.
 *
 * A round is a number of cycles. The first ones are its negotiation, the others its distribution.
 * A cycle has K slots for the boxes' own traffic, then a turn for each box to send a packet or a schedule.
 * Slots and turns have one length. Nothing is sent in the guard time at either end of them. */
#ifndef TIMING_H
#define TIMING_H

#include <stdint.h>

enum phase { NEGOTIATION, DISTRIBUTION };

/* How far a box has come: it makes hydra_close at the end of a negotiation, hydra_end at the end of a round. */
struct place {
    uint32_t round;
    enum phase phase;
};

struct timing {
    uint32_t slots, nodes;
    uint32_t negotiation, distribution; /* in cycles */
    int64_t slot;                       /* of a slot, and of a turn */
    int64_t guard;
    int64_t air; /* the longest frame is on the air that long */
};

enum moment_kind { USE_SLOT, TAKE_TURN, CLOSE, END };

/* Something to do in a round, by the time since the round's start: not before `from`.
 * A slot or turn is left out if it cannot be begun by `to`. A close and an end are made however late it is. */
struct moment {
    enum moment_kind kind;
    uint32_t slot; /* of USE_SLOT, from 1 */
    int64_t from, to;
};

/* Now, by the machine's monotonic clock. */
int64_t now(void);

int64_t phase_length(const struct timing *t, enum phase phase);
int64_t round_length(const struct timing *t);

/* The moments of a round, in the order of time: 0 to moments_in_round - 1. */
uint32_t moments_in_round(const struct timing *t);
struct moment moment_of_round(const struct timing *t, uint32_t node, uint32_t index);

/* Closes and ends that a box at a place has made since round 0 began. */
uint64_t calls_made(struct place at);

#endif
