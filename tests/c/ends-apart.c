/* How long a box may use the slots that it read in negotiation: to its own hydra_close, not to its own hydra_end.
 * Five boxes, one slot, one round in an epoch; the rounds are those of samples/one-owner-after-end.script. In round 3 box 3
 * still holds version 2, by which slot 1 is its own, while boxes 2, 4 and 5 determine version 4, by which it is box 2's.
 * All boxes have closed the round before the first of them ends it, and box 3 ends it last.
 * Used to the own end, slot 1 has two users from the end of box 2 to that of box 3. Used to the own close it never has.
 * Exit status 0 only if both runs are as told here. */
enum { NODES = 5, SLOTS = 1, ROUNDS = 1, ALL = 31 };

#include "boxes.h"

enum until { OWN_CLOSE, OWN_END };

/* Every box closes. By the right rule it has stopped to use its slots by then. */
static void close_all(enum until until)
{
    for (uint32_t j = 1; j <= NODES; j++) {
        if (until == OWN_CLOSE)
            give_up_slots(j);
        close_box(j);
    }
}

/* The boxes end in the order of a list. Returns how many moments between the ends have a slot with two users. */
static int end_all(const uint32_t order[NODES])
{
    int moments = slots_used_twice();
    for (int i = 0; i < NODES; i++) {
        if (!boxes[order[i]].up)
            continue;
        end_box(order[i]);
        use_slots(order[i]);
        moments += slots_used_twice();
    }
    return moments;
}

/* Three rounds. */
static int moments_with_two_users(enum until until)
{
    static const uint32_t by_number[NODES] = {1, 2, 3, 4, 5}, third_last[NODES] = {2, 4, 5, 1, 3};
    static const uint32_t all[NODES + 1] = {0, ALL, ALL, ALL, ALL, ALL}, most[NODES + 1] = {0, ALL, 24, 11, 18, 10},
                          without_3[NODES + 1] = {0, 0, 24, 0, 18, 10};
    int moments = 0;
    for (uint32_t j = 1; j <= NODES; j++)
        begin_box(j, 1, ALL, j == 3);
    want_box(3, 0);
    want_box(2, 1);
    talk(all); /* version 2: slot 1 is box 3's, which wants none from then on */
    close_all(until);
    moments += end_all(by_number);
    EXPECT(version_of(3) == 2 && boxes[3].uses[0]);
    talk(most); /* box 1 alone hears everybody and determines version 3; box 3 misses it */
    close_all(until);
    take_box(2, 1);
    take_box(4, 1);
    take_box(5, 1);
    moments += end_all(by_number);
    crash_box(1);
    talk(without_3);
    talk(without_3);
    EXPECT(version_of(2) == 3 && version_of(3) == 2 && boxes[3].uses[0] && !boxes[2].uses[0]);
    close_all(until);
    moments += end_all(third_last);
    EXPECT(version_of(2) == 4 && boxes[2].uses[0] && version_of(3) == 0 && !boxes[3].uses[0]);
    return moments;
}

int main(void)
{
    int by_end = moments_with_two_users(OWN_END), by_close = moments_with_two_users(OWN_CLOSE);
    printf("slots used to the own end: %d moments with two boxes in a slot; to the own close: %d\n", by_end, by_close);
    EXPECT(by_end == 3 && by_close == 0);
    return 0;
}
