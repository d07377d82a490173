/* A whole epoch on three node areas, as a box's service would drive one: begin, send, hear, close, take, end, read.
 * Exit status 0 only if every answer and every report is as it must be. */
#include <string.h>

#include "expect.h"
#include "hydra.h"

enum { NODES = 3, SLOTS = 4, ROUNDS = 1 };

static uint8_t area[NODES][HYDRA_NODE_SIZE];
static uint8_t air[NODES][HYDRA_PACKET_SIZE];
static uint8_t sent[NODES][HYDRA_SCHEDULE_SIZE];

static int phase_of(int i)
{
    uint8_t report[HYDRA_REPORT_SIZE];
    EXPECT(hydra_read(area[i], HYDRA_NODE_SIZE, report, sizeof report) == HYDRA_DONE);
    return report[HYDRA_REPORT_PHASE];
}

/* version and owners of a node */
static void expect_schedule(int i, uint32_t version, const uint8_t *owners)
{
    uint8_t report[HYDRA_REPORT_SIZE];
    EXPECT(hydra_read(area[i], HYDRA_NODE_SIZE, report, sizeof report) == HYDRA_DONE);
    EXPECT(word_at(report + HYDRA_REPORT_VERSION) == version);
    EXPECT(memcmp(report + HYDRA_REPORT_OWNERS, owners, SLOTS) == 0);
}

static void everybody_sends(void)
{
    for (int i = 0; i < NODES; i++)
        EXPECT(hydra_send(area[i], HYDRA_NODE_SIZE, air[i], HYDRA_PACKET_SIZE) == HYDRA_DONE);
}

static void everybody_hears(void)
{
    for (int i = 0; i < NODES; i++)
        for (int k = 0; k < NODES; k++) {
            uint32_t r = hydra_hear(area[i], HYDRA_NODE_SIZE, air[k], HYDRA_PACKET_SIZE);
            EXPECT(r == (i == k ? HYDRA_OWN_PACKET : HYDRA_DONE));
        }
}

int main(void)
{
    static const uint8_t owners[SLOTS] = {1, 2, 3, 1};
    for (uint32_t i = 0; i < NODES; i++)
        EXPECT(hydra_begin(area[i], HYDRA_NODE_SIZE, i + 1, NODES, SLOTS, ROUNDS, 1, 0, 1, 7, 2) == HYDRA_DONE);
    /* two waves, so that each node is echoed: an own request heard back is an interaction */
    everybody_sends();
    everybody_hears();
    everybody_sends();
    everybody_hears();
    uint8_t ground[HYDRA_GROUND_SIZE];
    for (int i = 0; i < NODES; i++) {
        EXPECT(hydra_close(area[i], HYDRA_NODE_SIZE, sent[i], 10, ground, sizeof ground) == HYDRA_NO_ROOM);
        EXPECT(hydra_close(area[i], HYDRA_NODE_SIZE, sent[i], HYDRA_SCHEDULE_SIZE, ground, sizeof ground) == HYDRA_DONE);
        EXPECT(ground[HYDRA_GROUND_RULE] == HYDRA_RULE_SENT && ground[HYDRA_GROUND_MISSING] == 0);
        EXPECT(phase_of(i) == HYDRA_SENDING);
        EXPECT(memcmp(sent[i], sent[0], HYDRA_SCHEDULE_SIZE) == 0);
    }
    EXPECT(hydra_take(area[1], HYDRA_NODE_SIZE, sent[0], HYDRA_SCHEDULE_SIZE) == HYDRA_WRONG_SENDER);
    /* node 3 restarts instead: it waits, and begins at version 0 when the epoch ends */
    EXPECT(hydra_restart(area[2], HYDRA_NODE_SIZE, 3, NODES, SLOTS, ROUNDS, 1, 0, 7, 0) == HYDRA_DONE);
    EXPECT(hydra_send(area[2], HYDRA_NODE_SIZE, air[2], HYDRA_PACKET_SIZE) == HYDRA_WRONG_PHASE);
    for (int i = 0; i < NODES; i++)
        EXPECT(hydra_end(area[i], HYDRA_NODE_SIZE) == HYDRA_DONE);
    expect_schedule(0, 2, owners);
    expect_schedule(1, 2, owners);
    expect_schedule(2, 0, (const uint8_t[SLOTS]){0});
    /* a place beyond the epoch, and a split above 1 */
    area[0][55] = 2;
    EXPECT(hydra_end(area[0], HYDRA_NODE_SIZE) == HYDRA_NOT_A_NODE);
    area[1][23] = 2;
    EXPECT(hydra_read(area[1], HYDRA_NODE_SIZE, air[1], HYDRA_PACKET_SIZE) == HYDRA_NOT_A_NODE);
    puts("an epoch of three boxes: as expected");
    return 0;
}
