/* A slice of no bytes may be NULL with length 0: each call answers it as it answers any other slice of that length.
 * Exit status 0 only if every answer is as it must be, and no area changed that a refused call was lent. */
#include <string.h>

#include "expect.h"
#include "hydra-desk.h"

static uint8_t area[HYDRA_NODE_SIZE], before[HYDRA_NODE_SIZE];

/* A refusal, and the area as it was. */
static void refused(uint32_t answer, uint32_t expected)
{
    EXPECT(answer == expected);
    EXPECT(memcmp(area, before, sizeof area) == 0);
}

static uint8_t packets[HYDRA_PACKETS_SIZE], listing[30000];
static uint32_t length;

/* A run, and what it printed. */
static void replayed(uint32_t answer, const char *expected)
{
    EXPECT(answer == HYDRA_DONE);
    EXPECT(length == strlen(expected) && memcmp(listing, expected, length) == 0);
}

static void begin(uint32_t nodes)
{
    EXPECT(hydra_begin(area, sizeof area, 1, nodes, 4, 1, 1, 0, 1, 1, 2) == HYDRA_DONE);
    memcpy(before, area, sizeof area);
}

int main(void)
{
    uint8_t out[HYDRA_REPORT_SIZE];
    /* no node area */
    EXPECT(hydra_begin(NULL, 0, 1, 3, 4, 1, 1, 0, 1, 1, 2) == HYDRA_NOT_A_NODE);
    EXPECT(hydra_restart(NULL, 0, 1, 3, 4, 1, 1, 0, 1, 0) == HYDRA_NOT_A_NODE);
    EXPECT(hydra_send(NULL, 0, out, sizeof out) == HYDRA_NOT_A_NODE);
    EXPECT(hydra_hear(NULL, 0, NULL, 0) == HYDRA_NOT_A_NODE);
    EXPECT(hydra_close(NULL, 0, NULL, 0, NULL, 0) == HYDRA_NOT_A_NODE);
    EXPECT(hydra_take(NULL, 0, NULL, 0) == HYDRA_NOT_A_NODE);
    EXPECT(hydra_end(NULL, 0) == HYDRA_NOT_A_NODE);
    EXPECT(hydra_want(NULL, 0, 1) == HYDRA_NOT_A_NODE);
    EXPECT(hydra_read(NULL, 0, out, sizeof out) == HYDRA_NOT_A_NODE);
    EXPECT(hydra_slots(NULL, 0, NULL, 0) == HYDRA_NOT_A_NODE);
    /* no output, no packet, in negotiation */
    begin(3);
    refused(hydra_send(area, sizeof area, NULL, 0), HYDRA_NO_ROOM);
    refused(hydra_read(area, sizeof area, NULL, 0), HYDRA_NO_ROOM);
    refused(hydra_slots(area, sizeof area, NULL, 0), HYDRA_NO_ROOM);
    refused(hydra_hear(area, sizeof area, NULL, 0), HYDRA_WRONG_LENGTH);
    refused(hydra_take(area, sizeof area, NULL, 0), HYDRA_WRONG_PHASE);
    /* box 1 of 3 alone isn't complete: its close sends nothing and needs no output but the place of its ground; then a schedule of no bytes */
    refused(hydra_close(area, sizeof area, NULL, 0, NULL, 0), HYDRA_NO_ROOM);
    EXPECT(hydra_close(area, sizeof area, NULL, 0, out, sizeof out) == HYDRA_DONE);
    memcpy(before, area, sizeof area);
    refused(hydra_take(area, sizeof area, NULL, 0), HYDRA_WRONG_LENGTH);
    refused(hydra_hear(area, sizeof area, NULL, 0), HYDRA_WRONG_PHASE);
    /* a box alone at its site determines: its close has 84 bytes to send */
    begin(1);
    refused(hydra_close(area, sizeof area, NULL, 0, out, sizeof out), HYDRA_NO_ROOM);
    /* a script of no bytes, a packet area of none, an output of none */
    replayed(hydra_replay(NULL, 0, packets, sizeof packets, listing, sizeof listing, &length, 1, NULL, 0), "line refusal\n1 1\n");
    replayed(hydra_replay(NULL, 0, NULL, 0, listing, sizeof listing, &length, 1, NULL, 0), "line refusal\n0 15\n");
    length = 7;
    EXPECT(hydra_replay(NULL, 0, packets, sizeof packets, NULL, 0, &length, 1, NULL, 0) == HYDRA_NO_ROOM);
    EXPECT(length == 7);
    puts("slices of no bytes, NULL: as expected");
    return 0;
}
