/* The slots held at a site (docs/specification.md, 3.8): the whole case counted, epoch after epoch; a node that waits; each tally that is refused; a site that
 * may split; a full tally. Guards before and behind the tally show that nothing else is written. */
#include <string.h>

#include "expect.h"
#include "hydra-desk.h"

static uint32_t words[HYDRA_SITE_WORDS];
static uint8_t bytes[HYDRA_SITE_BYTES], area[HYDRA_PACKETS_SIZE];
static struct hydra_tally tallies[3];
static struct hydra_tally *const tally = tallies + 1;

static uint32_t event(uint32_t number, uint32_t node, uint32_t with)
{
    return hydra_site_event(words, HYDRA_SITE_WORDS, bytes, HYDRA_SITE_BYTES, area, HYDRA_PACKETS_SIZE, number, node, with, NULL, 0, tally, NULL, 0);
}

static uint32_t load(uint32_t rounds)
{
    static const uint32_t rows[9] = {1, 7, 2, 1, 7, 2, 1, 7, 2};
    return hydra_site_load(words, HYDRA_SITE_WORDS, bytes, HYDRA_SITE_BYTES, 3, 4, rounds, 1, 0, rows, 9, 1, NULL, 0, tally);
}

/* Epochs and total, and of each of the three nodes its slots and its held epochs; of any other node nothing. */
static void expect_tally(uint32_t epochs, uint32_t total, const uint32_t *slots, const uint32_t *held)
{
    EXPECT(tally->epochs == epochs);
    EXPECT(tally->total == total);
    for (int i = 0; i < HYDRA_TOP_NODES; i++) {
        EXPECT(tally->slots[i] == (i < 3 ? slots[i] : 0));
        EXPECT(tally->held[i] == (i < 3 ? held[i] : 0));
    }
    EXPECT(!HYDRA_TALLY_FULL(*tally));
}

/* A round in which everybody hears both others. */
static void talk(void)
{
    for (uint32_t j = 1; j <= 3; j++)
        EXPECT(event(HYDRA_SEND, j, 0) == HYDRA_DONE);
    for (uint32_t j = 1; j <= 3; j++)
        for (uint32_t p = 1; p <= 3; p++)
            EXPECT(event(HYDRA_HEAR, j, p) == (p == j ? HYDRA_OWN_PACKET : HYDRA_DONE));
    EXPECT(event(HYDRA_CLOSE, 0, 0) == HYDRA_DONE);
}

/* The whole case: as the second epoch begins, node 1 holds slots 1 and 4, node 2 slot 2, and node 3, whose schedule has expired, none. */
static void whole_case(void)
{
    static const uint32_t none[3] = {0}, slots[3] = {2, 1, 0}, held[3] = {1, 1, 0};
    memset(tallies, 0xa5, sizeof tallies);
    EXPECT(load(1) == HYDRA_DONE);
    expect_tally(1, 0, none, none);
    EXPECT(event(HYDRA_SEND, 2, 0) == HYDRA_DONE);
    EXPECT(event(HYDRA_SEND, 3, 0) == HYDRA_DONE);
    EXPECT(event(HYDRA_HEAR, 1, 1) == HYDRA_DONE);
    EXPECT(event(HYDRA_HEAR, 1, 2) == HYDRA_DONE);
    EXPECT(event(HYDRA_CLOSE, 0, 0) == HYDRA_DONE);
    EXPECT(event(HYDRA_TAKE, 2, 1) == HYDRA_DONE);
    expect_tally(1, 0, none, none);
    EXPECT(event(HYDRA_END, 0, 0) == HYDRA_DONE);
    expect_tally(2, 3, slots, held);
}

/* Two rounds in an epoch: only its last end counts. Node 3 crashes and waits: it holds nothing. */
static void later_epochs(void)
{
    static const uint32_t none[3] = {0}, first[3] = {2, 1, 1}, ones[3] = {1, 1, 1}, second[3] = {4, 2, 1}, twice[3] = {2, 2, 1};
    EXPECT(load(2) == HYDRA_DONE);
    talk();
    EXPECT(event(HYDRA_END, 0, 0) == HYDRA_DONE);
    expect_tally(1, 0, none, none);
    talk();
    EXPECT(event(HYDRA_END, 0, 0) == HYDRA_DONE);
    expect_tally(2, 4, first, ones);
    talk();
    EXPECT(event(HYDRA_END, 0, 0) == HYDRA_DONE);
    talk();
    EXPECT(event(HYDRA_CRASH, 3, 0) == HYDRA_DONE);
    EXPECT(event(HYDRA_RESTART, 3, 4) == HYDRA_DONE);
    EXPECT(event(HYDRA_END, 0, 0) == HYDRA_DONE);
    expect_tally(3, 7, second, twice);
    EXPECT(load(1) == HYDRA_DONE);
    expect_tally(1, 0, none, none);
}

/* An end refuses this tally, in any round, and changes nothing; in the wrong phase that is said first, and no other event looks at it. */
static void expect_refused(struct hydra_tally broken, uint32_t rounds)
{
    uint32_t words_before[HYDRA_SITE_WORDS];
    uint8_t bytes_before[HYDRA_SITE_BYTES];
    EXPECT(load(rounds) == HYDRA_DONE);
    *tally = broken;
    EXPECT(event(HYDRA_END, 0, 0) == HYDRA_WRONG_PHASE);
    EXPECT(event(HYDRA_CLOSE, 0, 0) == HYDRA_DONE);
    memcpy(words_before, words, sizeof words);
    memcpy(bytes_before, bytes, sizeof bytes);
    EXPECT(event(HYDRA_END, 0, 0) == HYDRA_NOT_A_NODE);
    EXPECT(memcmp(words, words_before, sizeof words) == 0 && memcmp(bytes, bytes_before, sizeof bytes) == 0);
    EXPECT(memcmp(tally, &broken, sizeof broken) == 0);
}

static void refused(void)
{
    struct hydra_tally good, t;
    memset(&good, 0, sizeof good);
    good.epochs = 3;
    good.slots[31] = 240;
    good.held[31] = 3;
    good.total = 240;
    for (uint32_t rounds = 1; rounds <= 2; rounds++) {
        EXPECT(load(rounds) == HYDRA_DONE);
        *tally = good;
        EXPECT(event(HYDRA_CLOSE, 0, 0) == HYDRA_DONE);
        EXPECT(event(HYDRA_END, 0, 0) == HYDRA_DONE);
        EXPECT(tally->epochs == (rounds == 1 ? 4 : 3));
        t = good;
        t.epochs = HYDRA_TALLY_EPOCHS + 1;
        expect_refused(t, rounds);
        t = good;
        t.held[0] = 4;
        expect_refused(t, rounds);
        t = good;
        t.slots[31] = t.total = 241;
        expect_refused(t, rounds);
        t = good;
        t.total = 239;
        expect_refused(t, rounds);
        t = good;
        memset(t.slots, 0xff, sizeof t.slots); /* their sum wraps in 32 bits */
        t.total = (uint32_t)-32;
        expect_refused(t, rounds);
    }
}

/* Two boxes that hear nobody, at a site that may split: each gives both slots to itself, and both are counted for both. */
static void split(void)
{
    static const uint32_t rows[6] = {1, 1, 2, 1, 2, 2}, slots[3] = {2, 2, 0}, held[3] = {1, 1, 0};
    EXPECT(hydra_site_load(words, HYDRA_SITE_WORDS, bytes, HYDRA_SITE_BYTES, 2, 2, 1, 1, 1, rows, 6, 1, NULL, 0, tally) == HYDRA_DONE);
    EXPECT(event(HYDRA_CLOSE, 0, 0) == HYDRA_DONE);
    EXPECT(event(HYDRA_END, 0, 0) == HYDRA_DONE);
    expect_tally(2, 4, slots, held);
}

/* A full tally stays as it is, and says so. */
static void full(void)
{
    struct hydra_tally before;
    EXPECT(load(1) == HYDRA_DONE);
    tally->epochs = HYDRA_TALLY_EPOCHS - 1;
    for (int i = 0; i < 3; i++) {
        talk();
        before = *tally;
        EXPECT(event(HYDRA_END, 0, 0) == HYDRA_DONE);
        EXPECT(HYDRA_TALLY_FULL(*tally));
        EXPECT(i == 0 || memcmp(&before, tally, sizeof before) == 0);
    }
    EXPECT(tally->total == 4);
}

int main(void)
{
    struct hydra_tally guard;
    whole_case();
    later_epochs();
    refused();
    split();
    full();
    memset(&guard, 0xa5, sizeof guard);
    EXPECT(memcmp(&tallies[0], &guard, sizeof guard) == 0 && memcmp(&tallies[2], &guard, sizeof guard) == 0);
    puts("tally: slots held, refused tallies, a full one");
    return 0;
}
