/* Why a box that was reset waits, before hydra_restart, for the next close or end of the neighbour whose place it takes.
 * Three boxes, one slot, one round in an epoch. Box 1 is reset in the negotiation of round 2, in which its packet was heard.
 * Box 2, which is slower, is still in the distribution of round 1, and box 1 takes its place from box 2.
 * Restarted at once, box 1 is back in round 1: box 2's end of it lets box 1 begin in round 2 a second time, and box 1
 * determines a version with box 3 from another start than the one that box 3 heard of. No call is refused.
 * Restarted after that end, box 1 waits through round 2.
 * Exit status 0 only if boxes 1 and 3 disagree after the first run and not after the second. */
enum { NODES = 3, SLOTS = 1, ROUNDS = 1 };

#include "boxes.h"

enum when { AT_ONCE, AFTER_NEXT_END };

/* Whether two boxes give a slot to different nodes, at versions above 0. */
static int disagree(uint32_t i, uint32_t j)
{
    uint8_t first[HYDRA_REPORT_SIZE];
    memcpy(first, report_of(i), sizeof first);
    const uint8_t *second = report_of(j);
    if (word_at(first + HYDRA_REPORT_VERSION) == 0 || word_at(second + HYDRA_REPORT_VERSION) == 0)
        return 0;
    for (uint32_t k = 0; k < SLOTS; k++)
        if (first[HYDRA_REPORT_OWNERS + k] && second[HYDRA_REPORT_OWNERS + k] && first[HYDRA_REPORT_OWNERS + k] != second[HYDRA_REPORT_OWNERS + k])
            return 1;
    return 0;
}

/* Round 1: box 2 closes early, boxes 1 and 3 hear each other, close and end. Box 2 has not ended. */
static void first_round(void)
{
    uint8_t of_3[HYDRA_PACKET_SIZE], of_1[HYDRA_PACKET_SIZE];
    begin_box(1, 1, 5, 2);
    begin_box(2, 1, 7, 2);
    begin_box(3, 1, 6, 1);
    close_box(2);
    send_box(3, of_3);
    EXPECT(hear_box(1, of_3) == HYDRA_DONE);
    send_box(1, of_1);
    EXPECT(hear_box(3, of_1) == HYDRA_DONE);
    close_box(1);
    close_box(3);
    end_box(1);
    end_box(3);
}

static int disagree_after(enum when restart)
{
    uint8_t of_3[HYDRA_PACKET_SIZE], of_1[HYDRA_PACKET_SIZE];
    first_round();
    send_box(3, of_3);
    send_box(1, of_1);
    EXPECT(hear_box(3, of_1) == HYDRA_DONE);
    crash_box(1);
    if (restart == AT_ONCE) {
        restart_box(1, 5, 0);
        end_box(1); /* the end of round 1, as by box 2's clock */
    }
    end_box(2);
    if (restart == AFTER_NEXT_END)
        restart_box(1, 5, 0);
    EXPECT(hear_box(1, of_3) == (restart == AT_ONCE ? HYDRA_DONE : HYDRA_WRONG_PHASE));
    close_box(3);
    end_box(3);
    close_box(1);
    end_box(1);
    return disagree(1, 3);
}

int main(void)
{
    EXPECT(disagree_after(AT_ONCE));
    EXPECT(!disagree_after(AFTER_NEXT_END));
    puts("a restart that goes back a phase: two boxes disagree; one that waits for the neighbour's next end: they don't");
    return 0;
}
