/* One box's service (box.c) and what it asks of its clock and its radio (box-run.c has fake ones). */
#ifndef BOX_H
#define BOX_H

#include <stddef.h>
#include <stdint.h>

#include "hydra.h"

/* The frame in front of each packet and each schedule: site and round in 4 bytes each, highest byte first, then the kind
 * and the sender in one byte each. Rounds are counted from 0 since the site began. */
enum { FRAME_SITE = 0, FRAME_ROUND = 4, FRAME_KIND = 8, FRAME_SENDER = 9, FRAME_HEAD = 10 };
enum frame_kind { PACKET = 1, SCHEDULE = 2 };

/* A box sends at most 8 packets in a negotiation. */
enum { TOP_PACKETS = 8 };

/* Times in milliseconds from the start of a round. Guard time: no slot is used so shortly before the close that it could
 * still be on the air when another box, whose clock is ahead, has begun the next round. */
enum { SLOT_TIME = 20, NEGOTIATION_TIME = 1000, GUARD_TIME = 50 };

/* What it is time for. */
enum moment_kind { TO_SEND, SLOT_BEGINS, FRAME_CAME, TO_CLOSE, TO_END, RESET, SWITCHED_OFF };

struct moment {
    enum moment_kind kind;
    uint32_t round;       /* the running round, as clock synchronisation tells it; its place in the epoch is round % F */
    uint32_t slot;        /* SLOT_BEGINS: counted from 0 */
    const uint8_t *bytes; /* FRAME_CAME: the frame */
    size_t length;
};

/* Whether the box takes part, and how far it is on its way back after it has lost its node. */
enum state { UP, LOST, LISTENS };

struct box {
    uint32_t site, node, nodes, slots, rounds, heard, split, demand; /* configuration */
    enum state state;
    uint32_t flags;                    /* LISTENS: the boxes heard since the reset, and the own one */
    uint32_t packets;                  /* sent in this negotiation */
    uint8_t area[HYDRA_NODE_SIZE];     /* the node */
    uint8_t may_send[HYDRA_TOP_SLOTS]; /* the slots in which this box sends its own traffic: 1 or 0 */
};

/* The service: a box of a site that starts as a whole, and its loop. */
uint32_t start(struct box *b);
void serve(struct box *b);

/* The clock: the next moment, and the time since the start of the running round. */
struct moment clock_wait(void);
uint32_t clock_time(void);

/* The radio: a frame, and the box's own traffic in a slot. */
void radio_send(const uint8_t *frame, size_t length);
void radio_use(uint32_t slot);

#endif
