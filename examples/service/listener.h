/* A box that was reset has no clock. It listens until it may take up a neighbour's. */
#ifndef LISTENER_H
#define LISTENER_H

#include "frame.h"

struct neighbour {
    struct place first_heard; /* where the box was when it was first heard since the reset */
    int64_t start;            /* when round 0 began by its clock, as its frames tell */
};

struct listener {
    uint32_t flags; /* the boxes heard since the reset: bit j - 1 for box j */
    struct neighbour by[HYDRA_TOP_NODES];
};

/* A frame of another box has arrived. Returns 1 if that box has made a close or an end since it was first heard:
 * then its clock may be taken up. */
int listener_hears(struct listener *l, const struct timing *t, const struct frame *f, int64_t arrived);

#endif
