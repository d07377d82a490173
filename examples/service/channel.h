/* What the air does to a frame on its way to this box: the part of the example that a real box does not have.
 * Either each frame is lost with one probability, or a plan says who hears whom in which round, and how late. */
#ifndef CHANNEL_H
#define CHANNEL_H

#include "radio.h"

enum { TOP_PLAN = 64, TOP_HELD = 64 };

/* What `sender` sends in `round` reaches this box after `late` microseconds. */
struct link {
    uint32_t round, sender;
    int64_t late;
};

struct held {
    struct frame frame;
    int64_t due;
};

struct channel {
    struct radio radio;
    uint32_t loss; /* percent */
    uint64_t seed; /* of the losses, not 0 */
    int planned;
    size_t links, holds;
    struct link link[TOP_PLAN];
    struct held held[TOP_HELD];
};

/* Reads a plan, of which a line is "ROUND SENDER RECEIVER LATE", LATE in milliseconds. What it does not name is lost.
 * 0, or -1 with errno for a file that cannot be read as one. */
int channel_plan(struct channel *c, const char *path);

/* The next frame that arrives, and when it did; 0 where there is none. */
int channel_receive(struct channel *c, struct frame *f, int64_t *arrived);

/* Returns at the time `until`, or earlier if a frame may arrive. */
void channel_wait(const struct channel *c, int64_t until);

#endif
