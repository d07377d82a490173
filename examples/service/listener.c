#include "listener.h"

#include "rules.h"

/* When round 0 began by the sender's clock, if the frame took no time. A frame that took longer gives a later time, so
 * the earliest of several is the best. */
static int64_t start_by(const struct timing *t, const struct frame *f, int64_t arrived)
{
    return arrived - f->round * round_length(t) - f->since;
}

int listener_hears(struct listener *l, const struct timing *t, const struct frame *f, int64_t arrived)
{
    struct neighbour *n = &l->by[f->sender - 1];
    uint32_t flag = UINT32_C(1) << (f->sender - 1);
    int64_t start = start_by(t, f, arrived);
    if (!(l->flags & flag))
        *n = (struct neighbour){frame_place(f), start};
    l->flags |= flag;
    if (start < n->start)
        n->start = start;
    return has_gone_on(n->first_heard, frame_place(f));
}
