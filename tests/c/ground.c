/* The ground of a close: the rule that a script can't come to, the missing node, a site that may split, and the two bytes that are written or left. */
#include <string.h>

#include "expect.h"
#include "hydra.h"

static uint8_t area[HYDRA_NODE_SIZE], out[HYDRA_SCHEDULE_SIZE], ground[4];

/* A close whose ground is this, and of whose four lent bytes the last two stay. */
static void closes(uint8_t rule, uint8_t missing)
{
    memset(ground, 99, sizeof ground);
    EXPECT(hydra_close(area, sizeof area, out, sizeof out, ground, sizeof ground) == HYDRA_DONE);
    EXPECT(ground[HYDRA_GROUND_RULE] == rule && ground[HYDRA_GROUND_MISSING] == missing);
    EXPECT(ground[2] == 99 && ground[3] == 99);
}

int main(void)
{
    /* one box of three that heard nobody: the request of box 2 is missing */
    EXPECT(hydra_begin(area, sizeof area, 1, 3, 4, 1, 1, 0, 1, 7, 2) == HYDRA_DONE);
    closes(HYDRA_RULE_MISSING, 2);
    /* flags of itself alone: no majority of three, and no request missing */
    EXPECT(hydra_begin(area, sizeof area, 1, 3, 4, 1, 1, 0, 1, 1, 2) == HYDRA_DONE);
    closes(HYDRA_RULE_MAJORITY, 0);
    /* the same box of a site that may split: it determines and sends, and its schedule does not expire */
    EXPECT(hydra_begin(area, sizeof area, 1, 3, 4, 1, 1, 2, 1, 1, 2) == HYDRA_OUT_OF_RANGE);
    EXPECT(hydra_begin(area, sizeof area, 1, 3, 4, 1, 1, 1, 1, 1, 2) == HYDRA_DONE);
    closes(HYDRA_RULE_SENT, 0);
    EXPECT(hydra_end(area, sizeof area) == HYDRA_DONE);
    uint8_t report[HYDRA_REPORT_SIZE];
    EXPECT(hydra_read(area, sizeof area, report, sizeof report) == HYDRA_DONE);
    EXPECT(word_at(report + HYDRA_REPORT_VERSION) == 2 && report[HYDRA_REPORT_OWNERS] == 1);
    /* a box alone at its site, two rounds: determined, and not yet due */
    EXPECT(hydra_begin(area, sizeof area, 1, 1, 4, 2, 1, 0, 1, 1, 2) == HYDRA_DONE);
    /* one byte is no place for a ground: nothing changes */
    uint8_t before[HYDRA_NODE_SIZE];
    memcpy(before, area, sizeof area);
    ground[0] = 99;
    EXPECT(hydra_close(area, sizeof area, out, sizeof out, ground, 1) == HYDRA_NO_ROOM);
    EXPECT(hydra_close(area, sizeof area, out, sizeof out, NULL, 0) == HYDRA_NO_ROOM);
    EXPECT(memcmp(before, area, sizeof area) == 0 && ground[0] == 99);
    closes(HYDRA_RULE_DETERMINED, 0);
    /* it takes the top version: its mark falls, and its next close can determine nothing */
    uint8_t schedule[HYDRA_SCHEDULE_SIZE] = {HYDRA_TOP_VERSION >> 24, HYDRA_TOP_VERSION >> 16 & 255, HYDRA_TOP_VERSION >> 8 & 255, HYDRA_TOP_VERSION & 255};
    EXPECT(hydra_take(area, sizeof area, schedule, sizeof schedule) == HYDRA_DONE);
    EXPECT(hydra_end(area, sizeof area) == HYDRA_DONE);
    closes(HYDRA_RULE_TOP, 0);
    /* a refused close tells nothing */
    ground[0] = 99;
    EXPECT(hydra_close(area, sizeof area, out, sizeof out, ground, sizeof ground) == HYDRA_WRONG_PHASE);
    EXPECT(ground[0] == 99);
    puts("the ground of a close: as expected");
    return 0;
}
