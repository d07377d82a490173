/* The rules that a service keeps, each in one place. docs/field.md has what breaks without them. */
#ifndef RULES_H
#define RULES_H

#include "frame.h"
#include "timing.h"

/* A frame counts only if another box of this site has sent it. */
int is_of_site(uint32_t site, uint32_t node, uint32_t nodes, const struct frame *f);

/* R1: a packet is heard only in the negotiation of the round it was sent in. */
int may_hear(struct place at, const struct frame *f);

/* R2: a schedule is taken only in the distribution of the round it was sent in. */
int may_take(struct place at, const struct frame *f);

/* R3, as a service can check it: no box ends a round before every box that is up has closed it, if the clocks'
 * skew and the greatest age of a frame are together at most the shortest phase. */
int times_fit(const struct timing *t, int64_t skew, int64_t age);

/* R4: after a reset a box takes up a neighbour's clock once that neighbour has made a close or an end since the
 * box first heard it. Then the box's own round does not go back. */
int has_gone_on(struct place first_heard, struct place heard_now);

/* Slots that were read at a round's start are used until the box's own hydra_close. */
int may_use_slots(struct place at);

#endif
