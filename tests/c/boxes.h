/* Some boxes of one site for tests that take a service's steps one by one: each has its node area, the schedule that it
 * sent at its last close, and the slots that it uses. The including file sets NODES, SLOTS and ROUNDS. */
#ifndef BOXES_H
#define BOXES_H

#include <string.h>

#include "expect.h"
#include "hydra.h"

struct box {
    int up;
    uint8_t area[HYDRA_NODE_SIZE];
    uint8_t sent[HYDRA_SCHEDULE_SIZE];
    uint8_t uses[HYDRA_TOP_SLOTS]; /* 1 for a slot in which the box sends its own traffic */
};

static struct box boxes[NODES + 1]; /* by number; 0 is unused */

static inline const uint8_t *report_of(uint32_t j)
{
    static uint8_t report[HYDRA_REPORT_SIZE];
    EXPECT(hydra_read(boxes[j].area, HYDRA_NODE_SIZE, report, sizeof report) == HYDRA_DONE);
    return report;
}

static inline uint32_t version_of(uint32_t j)
{
    return word_at(report_of(j) + HYDRA_REPORT_VERSION);
}

static inline int phase_of(uint32_t j)
{
    return report_of(j)[HYDRA_REPORT_PHASE];
}

static inline int is_live(uint32_t j)
{
    return boxes[j].up && phase_of(j) != HYDRA_WAITING;
}

/* The box's own slots, as it reads them in negotiation at a version above 0; none at any other moment. */
static inline void use_slots(uint32_t j)
{
    const uint8_t *r = report_of(j);
    int may = r[HYDRA_REPORT_PHASE] == HYDRA_NEGOTIATION && word_at(r + HYDRA_REPORT_VERSION) > 0;
    for (uint32_t k = 0; k < SLOTS; k++)
        boxes[j].uses[k] = may && r[HYDRA_REPORT_OWNERS + k] == j;
}

static inline void give_up_slots(uint32_t j)
{
    memset(boxes[j].uses, 0, sizeof boxes[j].uses);
}

/* How many slots two boxes use at this moment. */
static inline int slots_used_twice(void)
{
    int found = 0;
    for (uint32_t k = 0; k < SLOTS; k++) {
        int users = 0;
        for (uint32_t j = 1; j <= NODES; j++)
            users += boxes[j].up && boxes[j].uses[k];
        found += users > 1;
    }
    return found;
}

static inline void begin_box(uint32_t j, uint32_t version, uint32_t flags, uint32_t demand)
{
    struct box *b = &boxes[j];
    memset(b, 0, sizeof *b);
    EXPECT(hydra_begin(b->area, HYDRA_NODE_SIZE, j, NODES, SLOTS, ROUNDS, 1, 0, version, flags, demand) == HYDRA_DONE);
    b->up = 1;
    use_slots(j);
}

static inline void crash_box(uint32_t j)
{
    memset(&boxes[j], 0, sizeof boxes[j]);
}

static inline void restart_box(uint32_t j, uint32_t flags, uint32_t place)
{
    struct box *b = &boxes[j];
    EXPECT(hydra_restart(b->area, HYDRA_NODE_SIZE, j, NODES, SLOTS, ROUNDS, 1, 0, flags, place) == HYDRA_DONE);
    b->up = 1;
}

static inline void want_box(uint32_t j, uint32_t demand)
{
    EXPECT(hydra_want(boxes[j].area, HYDRA_NODE_SIZE, demand) == HYDRA_DONE);
}

/* A packet of box j. */
static inline void send_box(uint32_t j, uint8_t *packet)
{
    EXPECT(hydra_send(boxes[j].area, HYDRA_NODE_SIZE, packet, HYDRA_PACKET_SIZE) == HYDRA_DONE);
}

static inline uint32_t hear_box(uint32_t j, const uint8_t *packet)
{
    return hydra_hear(boxes[j].area, HYDRA_NODE_SIZE, packet, HYDRA_PACKET_SIZE);
}

/* Each live box of a set sends, and then each hears those packets of which its number says so: bit i - 1 for box i. */
static inline void talk(const uint32_t hears[NODES + 1])
{
    uint8_t packet[NODES + 1][HYDRA_PACKET_SIZE];
    for (uint32_t i = 1; i <= NODES; i++)
        if (is_live(i))
            send_box(i, packet[i]);
    for (uint32_t j = 1; j <= NODES; j++)
        for (uint32_t i = 1; i <= NODES; i++)
            if (i != j && is_live(i) && is_live(j) && (hears[j] >> (i - 1) & 1))
                EXPECT(hear_box(j, packet[i]) == HYDRA_DONE);
}

static inline void close_box(uint32_t j)
{
    uint8_t ground[HYDRA_GROUND_SIZE];
    struct box *b = &boxes[j];
    if (is_live(j))
        EXPECT(hydra_close(b->area, HYDRA_NODE_SIZE, b->sent, sizeof b->sent, ground, sizeof ground) == HYDRA_DONE);
}

static inline void take_box(uint32_t j, uint32_t from)
{
    EXPECT(hydra_take(boxes[j].area, HYDRA_NODE_SIZE, boxes[from].sent, HYDRA_SCHEDULE_SIZE) == HYDRA_DONE);
}

static inline void end_box(uint32_t j)
{
    if (boxes[j].up)
        EXPECT(hydra_end(boxes[j].area, HYDRA_NODE_SIZE) == HYDRA_DONE);
}

#endif
