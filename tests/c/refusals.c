/* What docs/box.md tells a service to do after a refusal: what helps, and what does not. Exit status 0 only if so. */
enum { NODES = 1, SLOTS = 4, ROUNDS = 1 };

#include "boxes.h"

/* 14 for an area of another length: a restart answers 14 again, so a service that restarts after each 14 would never stop. */
static void another_length(void)
{
    uint8_t area[HYDRA_NODE_SIZE + 1];
    for (size_t length = HYDRA_NODE_SIZE - 1; length <= HYDRA_NODE_SIZE + 1; length += 2) {
        EXPECT(hydra_end(area, length) == HYDRA_NOT_A_NODE);
        EXPECT(hydra_restart(area, length, 1, NODES, SLOTS, ROUNDS, 1, 0, 1, 0) == HYDRA_NOT_A_NODE);
        EXPECT(hydra_begin(area, length, 1, NODES, SLOTS, ROUNDS, 1, 0, 0, 1, 1) == HYDRA_NOT_A_NODE);
    }
}

/* 14 for an area that was overwritten: a restart helps. */
static void overwritten(void)
{
    begin_box(1, 0, 1, 1);
    memset(boxes[1].area, 0xFF, 4);
    EXPECT(hydra_end(boxes[1].area, HYDRA_NODE_SIZE) == HYDRA_NOT_A_NODE);
    restart_box(1, 1, 0);
    want_box(1, 1);
}

/* 15 at a close: for a ground under 2 bytes, whatever the output; for the output only where the node then sends. */
static void room_at_a_close(void)
{
    uint8_t out[HYDRA_SCHEDULE_SIZE], ground[HYDRA_GROUND_SIZE];
    begin_box(1, 0, 1, 1);
    EXPECT(hydra_close(boxes[1].area, HYDRA_NODE_SIZE, out, sizeof out, ground, HYDRA_GROUND_SIZE - 1) == HYDRA_NO_ROOM);
    EXPECT(hydra_close(boxes[1].area, HYDRA_NODE_SIZE, out, sizeof out - 1, ground, sizeof ground) == HYDRA_NO_ROOM);
    EXPECT(hydra_close(boxes[1].area, HYDRA_NODE_SIZE, out, sizeof out, ground, sizeof ground) == HYDRA_DONE);
}

/* A schedule of version 0 keeps the layout, so the call takes it, and the box has lost its version: the service drops it. */
static void version_0(void)
{
    static const uint8_t zeros[HYDRA_SCHEDULE_SIZE];
    enum { TWO = 2 };
    uint8_t area[HYDRA_NODE_SIZE], ground[HYDRA_GROUND_SIZE], report[HYDRA_REPORT_SIZE];
    EXPECT(hydra_begin(area, sizeof area, 1, TWO, SLOTS, ROUNDS, 1, 0, 1, 3, 1) == HYDRA_DONE);
    EXPECT(hydra_close(area, sizeof area, NULL, 0, ground, sizeof ground) == HYDRA_DONE);
    EXPECT(hydra_take(area, sizeof area, zeros, sizeof zeros) == HYDRA_DONE);
    EXPECT(hydra_read(area, sizeof area, report, sizeof report) == HYDRA_DONE);
    EXPECT(word_at(report + HYDRA_REPORT_VERSION) == 0);
}

int main(void)
{
    another_length();
    overwritten();
    room_at_a_close();
    version_0();
    puts("what a service does after a refusal: as the page says");
    return 0;
}
