/* One box's service over the node's calls: what to copy from. It is handed the moments of the round and the frames that
 * arrive; it makes the calls, writes its log and broadcasts. */
#ifndef BOX_H
#define BOX_H

#include "channel.h"
#include "journal.h"
#include "listener.h"

enum { TOP_PACKETS = 8 }; /* of a box in one negotiation; hydra_send does not count them */

/* What a box is told when it is switched on. All but node and demand are the same in all boxes of a site. */
struct settings {
    uint32_t site, node, nodes, slots, rounds, heard, split;
    uint32_t demand;
    uint32_t change_round, changed_demand; /* from the start of this round on the box wants another number of slots */
    int64_t skew, age;                     /* the clocks differ by at most `skew`; an older frame is dropped */
    struct timing timing;
};

struct box {
    const struct settings *settings;
    const struct radio *radio;
    const struct journal *journal;
    int64_t start;                 /* when round 0 began by this box's clock */
    struct place at;               /* how far the box has come */
    uint32_t next;                 /* the next moment of the round */
    uint32_t demand;               /* as the node has it */
    uint32_t packets;              /* sent in this negotiation */
    int waiting;                   /* restarted, and the epoch has not ended yet */
    int sends;                     /* the last close gave a schedule to send */
    int lost;                      /* the area is no node's: the box must come back as after a reset */
    uint8_t owns[HYDRA_TOP_SLOTS]; /* 1 for a slot that is the box's in this round */
    uint8_t schedule[HYDRA_SCHEDULE_SIZE];
    uint8_t area[HYDRA_NODE_SIZE];
};

/* The whole site starts together, and round 0 begins at `start`. Whether the core accepts the settings. */
int box_begin(struct box *b, int64_t start);

/* The box was reset while others go on. It has listened, heard the boxes of `heard`, and takes up the clock by which
 * round 0 began at `start`. Whether the core accepts the settings. */
int box_restart(struct box *b, int64_t start, uint32_t heard);

/* When the next moment is. */
int64_t box_due(const struct box *b);

/* Does what the next moment is for. */
void box_act(struct box *b);

/* A frame of another box of this site has arrived. */
void box_receive(struct box *b, const struct frame *f);

#endif
