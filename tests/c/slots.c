/* Which slots a box owns, by hydra_slots and read from its node area without a call: the masks, the version and the phase say
 * what hydra_read tells, and masks that no schedule has are refused as 14. In negotiation no two boxes' masks share a slot. Exit status 0 only if all is as it must be. */
#include <string.h>

#include "expect.h"
#include "hydra.h"

enum { NODES = 6, SLOTS = 70, ROUNDS = 1, ALL = 63 };

static uint8_t area[NODES][HYDRA_NODE_SIZE];
static uint8_t air[NODES][HYDRA_PACKET_SIZE];

/* whether the masks of an area have a slot, counted from 0, for a node, counted from 1 */
static int holds(const uint8_t *a, int j, int k)
{
    if (k < 64)
        return a[HYDRA_NODE_FIRST + 8 * (j - 1) + 7 - k / 8] >> (k % 8) & 1;
    return a[HYDRA_NODE_SECOND + 2 * (j - 1) + 1 - (k - 64) / 8] >> (k % 8) & 1;
}

static void expect_masks(const uint8_t *a)
{
    uint8_t report[HYDRA_REPORT_SIZE];
    EXPECT(hydra_read(a, HYDRA_NODE_SIZE, report, sizeof report) == HYDRA_DONE);
    EXPECT(word_at(a + HYDRA_NODE_VERSION) == word_at(report + HYDRA_REPORT_VERSION));
    EXPECT(a[HYDRA_NODE_PHASE] == report[HYDRA_REPORT_PHASE]);
    for (int j = 1; j <= HYDRA_TOP_NODES; j++) {
        int count = 0;
        for (int k = 0; k < HYDRA_TOP_SLOTS; k++) {
            EXPECT(holds(a, j, k) == (report[HYDRA_REPORT_OWNERS + k] == j));
            count += holds(a, j, k);
        }
        EXPECT(a[HYDRA_NODE_HELD + j - 1] == count);
    }
}

/* What hydra_slots tells of box j, counted from 1; the number behind the third stays. */
static void own_slots(int j, uint64_t own[HYDRA_SLOTS_SIZE + 1])
{
    int count = 0;
    own[HYDRA_SLOTS_SIZE] = 7;
    EXPECT(hydra_slots(area[j - 1], HYDRA_NODE_SIZE, own, HYDRA_SLOTS_SIZE + 1) == HYDRA_DONE);
    for (int k = 0; k < HYDRA_TOP_SLOTS; k++) {
        EXPECT(hydra_slot_in(own, (uint32_t)k + 1) == holds(area[j - 1], j, k));
        count += holds(area[j - 1], j, k);
    }
    EXPECT(own[2] == (uint64_t)count && own[1] >> 16 == 0 && own[HYDRA_SLOTS_SIZE] == 7);
    EXPECT(!hydra_slot_in(own, 0) && !hydra_slot_in(own, HYDRA_TOP_SLOTS + 1));
}

/* In negotiation: no slot is in two boxes' numbers, and all of them together are the site's slots. */
static void expect_apart(uint64_t slots)
{
    uint64_t first = 0, second = 0, all = 0;
    for (int j = 1; j <= NODES; j++) {
        uint64_t own[HYDRA_SLOTS_SIZE + 1];
        own_slots(j, own);
        EXPECT((first & own[0]) == 0 && (second & own[1]) == 0);
        first |= own[0];
        second |= own[1];
        all += own[2];
    }
    EXPECT(all == slots);
}

/* In any other phase the box has none to use: 4 before 15, and no number changes. */
static void expect_none(const uint8_t *a)
{
    uint64_t own[HYDRA_SLOTS_SIZE] = {1, 2, 3};
    EXPECT(hydra_slots(a, HYDRA_NODE_SIZE, own, HYDRA_SLOTS_SIZE) == HYDRA_WRONG_PHASE);
    EXPECT(hydra_slots(a, HYDRA_NODE_SIZE, own, 0) == HYDRA_WRONG_PHASE);
    EXPECT(own[0] == 1 && own[1] == 2 && own[2] == 3);
}

static void everybody_talks(void)
{
    for (int i = 0; i < NODES; i++)
        EXPECT(hydra_send(area[i], HYDRA_NODE_SIZE, air[i], HYDRA_PACKET_SIZE) == HYDRA_DONE);
    for (int i = 0; i < NODES; i++)
        for (int k = 0; k < NODES; k++)
            EXPECT(hydra_hear(area[i], HYDRA_NODE_SIZE, air[k], HYDRA_PACKET_SIZE) == (i == k ? HYDRA_OWN_PACKET : HYDRA_DONE));
}

/* an area with one byte changed is no node's */
static void expect_refused(int at, int xor)
{
    uint8_t other[HYDRA_NODE_SIZE], before[HYDRA_NODE_SIZE];
    memcpy(other, area[0], sizeof other);
    other[at] ^= (uint8_t)xor;
    memcpy(before, other, sizeof before);
    EXPECT(hydra_want(other, sizeof other, 1) == HYDRA_NOT_A_NODE);
    EXPECT(memcmp(other, before, sizeof other) == 0);
}

int main(void)
{
    uint8_t sent[HYDRA_SCHEDULE_SIZE], ground[HYDRA_GROUND_SIZE];
    for (uint32_t i = 0; i < NODES; i++) {
        EXPECT(hydra_begin(area[i], HYDRA_NODE_SIZE, i + 1, NODES, SLOTS, ROUNDS, 1, 0, 1, ALL, 15) == HYDRA_DONE);
        expect_masks(area[i]);
    }
    expect_apart(0);
    everybody_talks();
    everybody_talks();
    for (int i = 0; i < NODES; i++) {
        EXPECT(hydra_close(area[i], HYDRA_NODE_SIZE, sent, sizeof sent, ground, sizeof ground) == HYDRA_DONE);
        expect_masks(area[i]); /* the new slots are there already, and not to be used yet: the phase says so */
        EXPECT(area[i][HYDRA_NODE_HELD + i] > 0 && area[i][HYDRA_NODE_PHASE] == HYDRA_SENDING);
        expect_none(area[i]);
        EXPECT(hydra_end(area[i], HYDRA_NODE_SIZE) == HYDRA_DONE);
        expect_masks(area[i]);
        EXPECT(area[i][HYDRA_NODE_HELD] == 12 && area[i][HYDRA_NODE_HELD + NODES - 1] == 11);
    }
    expect_apart(SLOTS);
    /* node 1 has slot 1, so slot 2 is another's: a slot of two nodes, though the count is right; a wrong count; a slot behind K; a node behind N */
    EXPECT(holds(area[0], 1, 0) && holds(area[0], 2, 1));
    area[0][HYDRA_NODE_FIRST + 7] ^= 3;
    EXPECT(hydra_want(area[0], HYDRA_NODE_SIZE, 1) == HYDRA_NOT_A_NODE);
    area[0][HYDRA_NODE_FIRST + 7] ^= 3;
    EXPECT(hydra_want(area[0], HYDRA_NODE_SIZE, 1) == HYDRA_DONE);
    expect_refused(HYDRA_NODE_HELD, 1);
    expect_refused(HYDRA_NODE_SECOND, 128);
    expect_refused(HYDRA_NODE_FIRST + 8 * NODES + 7, 1);
    expect_refused(HYDRA_NODE_HELD + NODES, 1);
    puts("which slots a box owns, read from its area: as expected");
    return 0;
}
