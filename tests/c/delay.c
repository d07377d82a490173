/* How long it takes from hydra_begin, and from hydra_want, until a box has its slots, where every box hears every other in
 * each round. Three boxes, eight slots, two rounds in an epoch. Exit status 0 only if all is as written here. */
enum { NODES = 3, SLOTS = 8, ROUNDS = 2, ALL = 7, TOO_LONG = 20 };

#include "boxes.h"

static uint32_t slots_of(uint32_t j)
{
    uint32_t count = 0;
    use_slots(j);
    for (uint32_t k = 0; k < SLOTS; k++)
        count += boxes[j].uses[k];
    return count;
}

static void to_close(void)
{
    static const uint32_t all[NODES + 1] = {0, ALL, ALL, ALL};
    talk(all);
    for (uint32_t j = 1; j <= NODES; j++)
        close_box(j);
}

static void end_all(void)
{
    for (uint32_t j = 1; j <= NODES; j++)
        end_box(j);
}

/* Whoever sends nothing takes what another sends; then all end. */
static void to_end(void)
{
    for (uint32_t j = 1; j <= NODES; j++)
        for (uint32_t i = 1; i <= NODES && phase_of(j) == HYDRA_SILENT; i++)
            if (phase_of(i) == HYDRA_SENDING) {
                take_box(j, i);
                break;
            }
    end_all();
}

/* Rounds from a start at these versions until box 1 has two slots. The schedules of the first round are lost. */
static uint32_t after_begin(uint32_t version, uint32_t others)
{
    uint32_t rounds = 1;
    for (uint32_t j = 1; j <= NODES; j++)
        begin_box(j, j == 1 ? version : others, ALL, 2);
    to_close();
    end_all();
    for (; slots_of(1) != 2 && rounds < TOO_LONG; rounds++) {
        to_close();
        to_end();
    }
    return rounds;
}

enum when { FIRST_ROUND, BEFORE_LAST_CLOSE, AFTER_LAST_CLOSE };

/* Box 1 has one slot and wants four, in an epoch: epochs that end from then on until it has them. The others want `others`
 * slots each: with 2 there are three free slots, with 5 there is none, so that one of them has to release some first. */
static uint32_t after_want(enum when when, uint32_t others)
{
    begin_box(1, 0, ALL, 1);
    begin_box(2, 0, ALL, others);
    begin_box(3, 0, ALL, others);
    for (int i = 0; i < 2 * ROUNDS; i++) {
        to_close();
        to_end();
    }
    EXPECT(slots_of(1) == 1);
    uint32_t ends = 0, wanted = others == 2 ? 4 : 3; /* of eight slots 3, 3 and 2 are the fair share */
    for (uint32_t round = 0; slots_of(1) != wanted && round < TOO_LONG; round++) {
        if (round == 0 && when == FIRST_ROUND)
            want_box(1, 4);
        if (round == 1 && when == BEFORE_LAST_CLOSE)
            want_box(1, 4);
        to_close();
        if (round == 1 && when == AFTER_LAST_CLOSE)
            want_box(1, 4);
        to_end();
        ends += round % ROUNDS == ROUNDS - 1;
    }
    return ends;
}

int main(void)
{
    /* With the first epoch's end, at version 0 as at version 1; not so where versions differ. */
    EXPECT(after_begin(0, 0) == ROUNDS && after_begin(1, 1) == ROUNDS);
    EXPECT(after_begin(0, 1) == 2 * ROUNDS);
    /* The request follows at the epoch's last close, and the next epoch brings the slots. */
    EXPECT(after_want(FIRST_ROUND, 2) == 2 && after_want(BEFORE_LAST_CLOSE, 2) == 2);
    EXPECT(after_want(AFTER_LAST_CLOSE, 2) == 3);
    /* Slots that another has to release come an epoch later. */
    EXPECT(after_want(FIRST_ROUND, 5) == 3 && after_want(BEFORE_LAST_CLOSE, 5) == 3);
    EXPECT(after_want(AFTER_LAST_CLOSE, 5) == 4);
    puts("from a want to slots: with the end of the next epoch; an epoch more behind the last close, one more where others release first");
    return 0;
}
