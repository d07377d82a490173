/* Why a box that was reset restarts, even if its area survived and hydra_read accepts it. Three boxes, one slot, two rounds
 * in an epoch. A reset costs box 1 the whole of round 2. Its area is still a node's, but one of round 2: if the box goes on
 * with it in round 3, its epoch ends a round after that of the others, and boxes 1 and 3 use one slot. No call is refused.
 * Restarted in round 3, box 1 waits for the epoch's end, and no slot has two users.
 * Exit status 0 only if both runs are as told here. */
enum { NODES = 3, SLOTS = 1, ROUNDS = 2, ALL = 7 };

#include "boxes.h"

enum how { GOES_ON, RESTARTS };

/* Box `from` sends, and the boxes of a set hear it; one that waits refuses it. */
static void heard_by(uint32_t from, uint32_t set)
{
    uint8_t packet[HYDRA_PACKET_SIZE];
    send_box(from, packet);
    for (uint32_t j = 1; j <= NODES; j++)
        if (set >> (j - 1) & 1)
            EXPECT(hear_box(j, packet) == (is_live(j) ? HYDRA_DONE : HYDRA_WRONG_PHASE));
}

static void close_from(uint32_t first)
{
    for (uint32_t j = first; j <= NODES; j++) {
        give_up_slots(j);
        close_box(j);
    }
}

/* Returns whether a slot has two users then. */
static int end_from(uint32_t first)
{
    for (uint32_t j = first; j <= NODES; j++) {
        end_box(j);
        use_slots(j);
    }
    return slots_used_twice();
}

static int two_users(enum how how)
{
    int found = 0;
    begin_box(1, 1, ALL, 1);
    begin_box(2, 1, ALL, 0);
    begin_box(3, 1, ALL, 1);
    heard_by(2, 4);
    heard_by(3, 3);
    close_from(1);
    found += end_from(1);
    close_from(2); /* round 2, without box 1 */
    found += end_from(2);
    EXPECT(report_of(1)[HYDRA_REPORT_PHASE] == HYDRA_NEGOTIATION);
    if (how == RESTARTS)
        restart_box(1, ALL, 0);
    heard_by(2, 5);
    for (int round = 3; round <= 5; round++) {
        close_from(1);
        found += end_from(1);
    }
    return found;
}

int main(void)
{
    EXPECT(two_users(GOES_ON));
    EXPECT(!two_users(RESTARTS));
    puts("an area that survived a reset: two boxes use one slot where the box goes on with it, none where it restarts");
    return 0;
}
