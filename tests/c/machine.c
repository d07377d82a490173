/* A site in lent memory with windows, tally and reports together. A month with windows is the month in which each box is given its wants by hand,
 * and the month in which the windows are lent to the ends alone; the reports of each close are what hydra_why tells of the same script; each refusal comes in its order, and changes nothing.
 * Exit status 0 only if all is as written here. */
#include <string.h>

#include "expect.h"
#include "reasons.h"
#include "hydra-desk.h"

enum { NODES = 3, SLOTS = 12, ROUNDS = 2, DAY = 5, EPOCHS = 30 * DAY };

/* Box 1 wants 7 in the morning and 2 at night, box 3 wants 5 in epoch 2; box 2 has no windows. */
static const struct hydra_window windows[] = {{1, 0, 2, 7}, {1, 4, 5, 2}, {3, 2, 3, 5}};
static const uint32_t rows[3 * NODES] = {1, 7, 1, 1, 7, 4, 1, 7, 1};

#define WINDOWS windows, sizeof windows / sizeof windows[0]
#define NONE NULL, 0

struct site {
    uint32_t words[HYDRA_SITE_WORDS];
    uint8_t bytes[HYDRA_SITE_BYTES], area[HYDRA_PACKETS_SIZE];
    struct hydra_tally tally;
};

static struct site lent, plain, sparing;

static uint32_t load(struct site *s, uint32_t day, const struct hydra_window *list, size_t length)
{
    return hydra_site_load(s->words, HYDRA_SITE_WORDS, s->bytes, HYDRA_SITE_BYTES, NODES, SLOTS, ROUNDS, 1, 0, rows, 3 * NODES, day, list, length, &s->tally);
}

static uint32_t event(struct site *s, uint32_t number, uint32_t node, uint32_t with, const struct hydra_window *list, size_t length)
{
    return hydra_site_event(s->words, HYDRA_SITE_WORDS, s->bytes, HYDRA_SITE_BYTES, s->area, HYDRA_PACKETS_SIZE, number, node, with, list, length, &s->tally,
                            NULL, 0);
}

/* What a listing shows of all boxes is the same at both sites. */
static void same_boxes(void)
{
    uint8_t one[HYDRA_SHOWN_SIZE], two[HYDRA_SHOWN_SIZE];
    for (uint32_t j = 1; j <= NODES; j++) {
        EXPECT(hydra_site_node(lent.words, HYDRA_SITE_WORDS, lent.bytes, HYDRA_SITE_BYTES, j, one, sizeof one) == HYDRA_DONE);
        EXPECT(hydra_site_node(plain.words, HYDRA_SITE_WORDS, plain.bytes, HYDRA_SITE_BYTES, j, two, sizeof two) == HYDRA_DONE);
        EXPECT(memcmp(one, two, sizeof one) == 0);
    }
}

static uint32_t seed = 1;

static uint32_t below(uint32_t n)
{
    seed = seed * 1664525u + 1013904223u;
    return (seed >> 16) % n;
}

/* The same event at all sites, with windows at the first, and at the third where it is an end. */
static void all(uint32_t number, uint32_t node, uint32_t with)
{
    size_t length = number == HYDRA_END ? sizeof windows / sizeof windows[0] : 0;
    uint32_t answer = event(&lent, number, node, with, WINDOWS);
    EXPECT(event(&plain, number, node, with, NONE) == answer);
    EXPECT(event(&sparing, number, node, with, windows, length) == answer);
}

/* The wants of an epoch, by hand: a box that is down refuses its want. */
static void wants(uint32_t epoch)
{
    for (uint32_t j = 1; j <= NODES; j += 2) {
        uint32_t demand = 0, answer;
        EXPECT(hydra_demand(NODES, j, DAY, WINDOWS, epoch, &demand) == HYDRA_DONE);
        answer = event(&plain, HYDRA_WANT, j, demand, NONE);
        EXPECT(answer == HYDRA_DONE || answer == HYDRA_NOT_LIVE);
    }
}

static void month(void)
{
    uint32_t loaded[3 * NODES];
    EXPECT(load(&lent, DAY, WINDOWS) == HYDRA_DONE);
    EXPECT(load(&sparing, DAY, WINDOWS) == HYDRA_DONE);
    memcpy(loaded, rows, sizeof loaded);
    loaded[2] = 7; /* the demands of epoch 0 */
    loaded[8] = 0;
    EXPECT(hydra_site_load(plain.words, HYDRA_SITE_WORDS, plain.bytes, HYDRA_SITE_BYTES, NODES, SLOTS, ROUNDS, 1, 0, loaded, 3 * NODES, 1, NONE, &plain.tally) ==
           HYDRA_DONE);
    for (uint32_t epoch = 1; epoch <= EPOCHS; epoch++) {
        for (int round = 0; round < ROUNDS; round++) {
            for (uint32_t j = 1; j <= NODES; j++)
                all(HYDRA_SEND, j, 0);
            for (uint32_t j = 1; j <= NODES; j++)
                for (uint32_t p = 1; p <= NODES; p++)
                    if (below(20))
                        all(HYDRA_HEAR, j, p);
            if (below(40) == 0)
                all(HYDRA_CRASH, 1 + below(NODES), 0);
            all(HYDRA_CLOSE, 0, 0);
            for (uint32_t j = 1; j <= NODES; j++)
                all(HYDRA_TAKE, j, 1 + below(NODES));
            if (below(4) == 0)
                for (uint32_t j = 1; j <= NODES; j++)
                    all(HYDRA_RESTART, j, 1u << (j - 1) | 1);
            if (round == ROUNDS - 1)
                wants(epoch % DAY);
            all(HYDRA_END, 0, 0);
        }
        same_boxes();
        EXPECT(memcmp(&lent.tally, &plain.tally, sizeof lent.tally) == 0);
        EXPECT(memcmp(&lent, &sparing, sizeof lent) == 0);
    }
    EXPECT(lent.tally.epochs == EPOCHS + 1 && lent.tally.total > 0);
}

/* A script, and its events at a site with an output for reports. */
static char script[HYDRA_PACKETS_SIZE * 3];
static uint8_t told[400][HYDRA_REPORTS_SIZE + 1];
static int lines, closes, close_line[400];

static void line(const char *word, uint32_t number, uint32_t node, uint32_t with)
{
    uint32_t answer;
    sprintf(script + strlen(script), "%s %u %u\n", word, (unsigned)node, (unsigned)with);
    lines++;
    memset(told[closes], 0xa5, sizeof told[closes]);
    answer = hydra_site_event(lent.words, HYDRA_SITE_WORDS, lent.bytes, HYDRA_SITE_BYTES, lent.area, HYDRA_PACKETS_SIZE, number, node, with, NONE, &lent.tally,
                              told[closes], HYDRA_REPORTS_SIZE);
    EXPECT(told[closes][HYDRA_REPORTS_SIZE] == 0xa5);
    if (number == HYDRA_CLOSE && answer == HYDRA_DONE)
        close_line[closes++] = lines;
    else
        for (int i = 0; i < HYDRA_REPORTS_SIZE; i++)
            EXPECT(told[closes][i] == 0xa5);
}

static void reports(void)
{
    int seen[8] = {0};
    sprintf(script, "nodes slots rounds heard split\n%d %d %d 1 0\nnode version flags want\n1 1 7 1\n2 1 7 4\n3 1 7 1\nevent node with\n", NODES, SLOTS, ROUNDS);
    lines = 4 + NODES;
    EXPECT(load(&lent, 1, NONE) == HYDRA_DONE);
    while (closes < 60) {
        for (uint32_t j = 1; j <= NODES; j++)
            line("send", HYDRA_SEND, j, 0);
        for (uint32_t j = 1; j <= NODES; j++)
            for (uint32_t p = 1; p <= NODES; p++)
                if (below(10))
                    line("hear", HYDRA_HEAR, j, p);
        if (below(12) == 0)
            line("crash", HYDRA_CRASH, 1 + below(NODES), 0);
        line("close", HYDRA_CLOSE, 0, 0);
        line("close", HYDRA_CLOSE, 0, 0);
        if (below(3))
            line("take", HYDRA_TAKE, 1 + below(NODES), 1 + below(NODES));
        if (below(4) == 0)
            line("restart", HYDRA_RESTART, 1 + below(NODES), 7);
        line("end", HYDRA_END, 0, 0);
    }
    const struct closed run = {script, close_line, told[0], sizeof told[0], closes};
    for (uint32_t j = 1; j <= NODES; j++)
        same_reasons(&run, j, 1, NONE, seen);
    for (int i = 0; i < closes; i++)
        for (int k = HYDRA_GROUND_SIZE * NODES; k < HYDRA_REPORTS_SIZE; k++)
            EXPECT(told[i][k] == 0);
    EXPECT(seen[HYDRA_RULE_MISSING] && seen[HYDRA_RULE_LOWER] && seen[HYDRA_RULE_REPEATS] && seen[HYDRA_RULE_DETERMINED] && seen[HYDRA_RULE_SENT]);
}

/* An event with every argument its own; the site is as it was where it is refused. */
static uint32_t tried(size_t words, size_t bytes, size_t area, uint32_t number, uint32_t node, const struct hydra_window *list, size_t length, size_t place)
{
    static uint8_t out[HYDRA_REPORTS_SIZE];
    struct site before = lent;
    uint32_t answer = hydra_site_event(lent.words, words, lent.bytes, bytes, lent.area, area, number, node, 0, list, length, &lent.tally, out, place);
    EXPECT(answer == HYDRA_DONE || memcmp(&before, &lent, sizeof lent) == 0);
    return answer;
}

#define WHOLE HYDRA_SITE_WORDS, HYDRA_SITE_BYTES, HYDRA_PACKETS_SIZE

static void refusals(void)
{
    static const struct hydra_window bad[] = {{4, 0, 1, 1}}, late[] = {{1, 0, DAY + 1, 1}};
    struct site before;
    EXPECT(load(&lent, DAY, WINDOWS) == HYDRA_DONE);
    before = lent;
    EXPECT(load(&lent, DAY, bad, 1) == HYDRA_BAD_WINDOWS && load(&lent, DAY, late, 1) == HYDRA_BAD_WINDOWS);
    EXPECT(load(&lent, 0, NONE) == HYDRA_BAD_WINDOWS && load(&lent, HYDRA_TOP_DAY + 1, NONE) == HYDRA_BAD_WINDOWS);
    /* 15, 2, 16 */
    EXPECT(hydra_site_load(lent.words, HYDRA_SITE_WORDS - 1, lent.bytes, HYDRA_SITE_BYTES, 0, 0, 0, 0, 2, rows, 1, 0, bad, 1, &lent.tally) == HYDRA_NO_ROOM);
    EXPECT(hydra_site_load(lent.words, HYDRA_SITE_WORDS, lent.bytes, HYDRA_SITE_BYTES, NODES, SLOTS, ROUNDS, 1, 0, rows, 8, 0, bad, 1, &lent.tally) ==
           HYDRA_OUT_OF_RANGE);
    EXPECT(hydra_site_load(lent.words, HYDRA_SITE_WORDS, lent.bytes, HYDRA_SITE_BYTES, NODES, SLOTS, ROUNDS, 1, 2, rows, 9, 0, bad, 1, &lent.tally) ==
           HYDRA_OUT_OF_RANGE);
    EXPECT(memcmp(&before, &lent, sizeof lent) == 0);
    /* 15 before 2, and 2 before 16 */
    EXPECT(tried(HYDRA_SITE_WORDS - 1, HYDRA_SITE_BYTES, HYDRA_PACKETS_SIZE, 0, 9, bad, 1, 0) == HYDRA_NO_ROOM);
    EXPECT(tried(HYDRA_SITE_WORDS, HYDRA_SITE_BYTES - 1, HYDRA_PACKETS_SIZE, 0, 9, bad, 1, 0) == HYDRA_NO_ROOM);
    EXPECT(tried(HYDRA_SITE_WORDS, HYDRA_SITE_BYTES, HYDRA_PACKETS_SIZE - 1, 0, 9, bad, 1, 0) == HYDRA_NO_ROOM);
    for (size_t place = 1; place < HYDRA_REPORTS_SIZE; place++)
        EXPECT(tried(WHOLE, 0, 9, bad, 1, place) == HYDRA_NO_ROOM);
    EXPECT(tried(WHOLE, 0, 9, bad, 1, HYDRA_REPORTS_SIZE) == HYDRA_OUT_OF_RANGE);
    EXPECT(tried(WHOLE, 9, 1, bad, 1, 0) == HYDRA_OUT_OF_RANGE);
    EXPECT(tried(WHOLE, HYDRA_CLOSE, 1, bad, 1, 0) == HYDRA_OUT_OF_RANGE);
    /* 3, 4, 5 before 16, for a send and others too */
    EXPECT(tried(WHOLE, HYDRA_SEND, 4, bad, 1, 0) == HYDRA_NO_SUCH_NODE);
    EXPECT(tried(WHOLE, HYDRA_END, 0, bad, 1, 0) == HYDRA_WRONG_PHASE);
    EXPECT(tried(WHOLE, HYDRA_SEND, 1, bad, 1, 0) == HYDRA_BAD_WINDOWS);
    EXPECT(tried(WHOLE, HYDRA_SEND, 1, late, 1, 0) == HYDRA_BAD_WINDOWS);
    EXPECT(tried(WHOLE, HYDRA_WANT, 1, bad, 1, 0) == HYDRA_BAD_WINDOWS);
    EXPECT(tried(WHOLE, HYDRA_CLOSE, 0, bad, 1, HYDRA_REPORTS_SIZE) == HYDRA_BAD_WINDOWS);
    EXPECT(tried(WHOLE, HYDRA_CRASH, 3, WINDOWS, 0) == HYDRA_DONE);
    EXPECT(tried(WHOLE, HYDRA_SEND, 3, bad, 1, 0) == HYDRA_NOT_LIVE);
    EXPECT(tried(WHOLE, HYDRA_CLOSE, 0, WINDOWS, HYDRA_REPORTS_SIZE) == HYDRA_DONE);
    /* an end: 4, 14, 16 */
    lent.tally.epochs = HYDRA_TALLY_EPOCHS + 1;
    EXPECT(tried(WHOLE, HYDRA_END, 1, bad, 1, 0) == HYDRA_OUT_OF_RANGE);
    EXPECT(tried(WHOLE, HYDRA_END, 0, bad, 1, 0) == HYDRA_NOT_A_NODE);
    EXPECT(tried(WHOLE, HYDRA_WANT, 1, WINDOWS, 0) == HYDRA_DONE);
    lent.tally.epochs = HYDRA_TALLY_EPOCHS;
    EXPECT(tried(WHOLE, HYDRA_END, 0, bad, 1, 0) == HYDRA_BAD_WINDOWS);
    EXPECT(tried(WHOLE, HYDRA_END, 0, WINDOWS, 0) == HYDRA_DONE);
}

int main(void)
{
    month();
    reports();
    refusals();
    puts("machine: a month with windows, the reports of each close, each refusal in its order");
    return 0;
}
