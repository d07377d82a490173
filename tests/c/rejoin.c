/* Why a box that lost its node comes back by hydra_restart and never by hydra_begin. Three boxes, four slots, two rounds in an epoch.
 * In round 1 box 1 hears both others: it determines a schedule, and has interacted with more than half. Then boxes 2 and 3 find their areas overwritten,
 * and hear only each other from there. Box 1 reaches version 2 at the close of round 2 and keeps it at the epoch's end, which is the end of that round.
 * Boxes 2 and 3, if they began anew in round 2, end an epoch of their own with round 3, at version 2 too, with a schedule of their own: in the negotiation
 * of round 4 box 1 and box 2 both read slot 1 as theirs. With hydra_restart they are at version 0 by then, and no round has a clash.
 * Exit status 0 only if both runs are as told here. */
#include <string.h>

#include "expect.h"
#include "hydra.h"

enum { NODES = 3, SLOTS = 4, ROUNDS = 2, ALL = 7, PAIR = 6, LAST_ROUND = 9 };

enum how { BEGIN, RESTART };

static uint8_t area[NODES][HYDRA_NODE_SIZE];
static uint8_t air[NODES][HYDRA_PACKET_SIZE];

/* Version and owners of a box in negotiation. */
static const uint8_t *report_of(int i)
{
    static uint8_t report[NODES][HYDRA_REPORT_SIZE];
    EXPECT(hydra_read(area[i], HYDRA_NODE_SIZE, report[i], HYDRA_REPORT_SIZE) == HYDRA_DONE);
    return report[i];
}

static uint32_t version_of(int i)
{
    return word_at(report_of(i) + HYDRA_REPORT_VERSION);
}

static int negotiates(int i)
{
    return report_of(i)[HYDRA_REPORT_PHASE] == HYDRA_NEGOTIATION;
}

/* Slots that two boxes in negotiation each read as their own. */
static int clashes(void)
{
    int found = 0;
    for (int i = 0; i < NODES; i++)
        for (int j = 0; j < i; j++)
            for (int k = 0; k < SLOTS; k++)
                found += negotiates(i) && negotiates(j) && report_of(i)[HYDRA_REPORT_OWNERS + k] == i + 1 &&
                         report_of(j)[HYDRA_REPORT_OWNERS + k] == j + 1;
    return found;
}

/* Every box that negotiates sends, and box i + 1 hears box j + 1 where hears[i] has bit j. */
static void wave(const int hears[NODES])
{
    int sent[NODES];
    for (int i = 0; i < NODES; i++)
        sent[i] = hydra_send(area[i], HYDRA_NODE_SIZE, air[i], HYDRA_PACKET_SIZE) == HYDRA_DONE;
    for (int i = 0; i < NODES; i++)
        for (int j = 0; j < NODES; j++)
            if (sent[i] && sent[j] && (hears[i] >> j & 1))
                EXPECT(hydra_hear(area[i], HYDRA_NODE_SIZE, air[j], HYDRA_PACKET_SIZE) == HYDRA_DONE);
}

/* A round with two waves, so that a box that was heard is echoed; no schedule is received. */
static void round_with(const int hears[NODES])
{
    uint8_t out[HYDRA_SCHEDULE_SIZE], ground[HYDRA_GROUND_SIZE];
    wave(hears);
    wave(hears);
    for (int i = 0; i < NODES; i++)
        if (negotiates(i))
            EXPECT(hydra_close(area[i], HYDRA_NODE_SIZE, out, sizeof out, ground, sizeof ground) == HYDRA_DONE);
    for (int i = 0; i < NODES; i++)
        EXPECT(hydra_end(area[i], HYDRA_NODE_SIZE) == HYDRA_DONE);
}

/* Box i + 1 finds its area overwritten, in the round at place 1. */
static void come_back(int i, enum how how)
{
    memset(area[i], 0xFF, 8);
    EXPECT(hydra_end(area[i], HYDRA_NODE_SIZE) == HYDRA_NOT_A_NODE);
    if (how == BEGIN) {
        EXPECT(hydra_begin(area[i], HYDRA_NODE_SIZE, i + 1, NODES, SLOTS, ROUNDS, 1, 0, 1, PAIR, 2) == HYDRA_DONE);
    } else {
        EXPECT(hydra_restart(area[i], HYDRA_NODE_SIZE, i + 1, NODES, SLOTS, ROUNDS, 1, 0, PAIR, 1) == HYDRA_DONE);
        EXPECT(hydra_want(area[i], HYDRA_NODE_SIZE, 2) == HYDRA_DONE);
    }
}

/* Eight rounds after the first. Returns the clashes in all of their negotiations. */
static int clashes_after(enum how how)
{
    static const int round_1[NODES] = {6, 0, 0}, later[NODES] = {0, 4, 2};
    int found = 0;
    for (int i = 0; i < NODES; i++)
        EXPECT(hydra_begin(area[i], HYDRA_NODE_SIZE, i + 1, NODES, SLOTS, ROUNDS, 1, 0, 1, ALL, i == 0 ? 2 : 1) == HYDRA_DONE);
    round_with(round_1);
    come_back(1, how);
    come_back(2, how);
    for (int n = 2; n <= LAST_ROUND; n++) {
        found += clashes();
        round_with(later);
        if (n == 2)
            EXPECT(version_of(0) == 2 && memcmp(report_of(0) + HYDRA_REPORT_OWNERS, "\1\2\3\1", SLOTS) == 0);
        if (n == 3 && how == BEGIN) {
            EXPECT(version_of(1) == 2 && memcmp(report_of(1) + HYDRA_REPORT_OWNERS, "\2\3\2\3", SLOTS) == 0);
            EXPECT(negotiates(0) && negotiates(1));
            EXPECT(report_of(0)[HYDRA_REPORT_OWNERS] == 1 && report_of(1)[HYDRA_REPORT_OWNERS] == 2);
        }
    }
    return found + clashes();
}

int main(void)
{
    EXPECT(clashes_after(BEGIN) == 2); /* slots 1 and 4, in round 4; then box 1, which hears nobody, is at version 0 */
    EXPECT(clashes_after(RESTART) == 0);
    puts("coming back while others run: two owners of a slot after hydra_begin, none after hydra_restart");
    return 0;
}
