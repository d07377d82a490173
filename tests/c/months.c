/* Eight sites of a group, each with windows, tally and reports. A month at each number is the month of the same site alone, in its own memory: answers,
 * accounts, boxes and the reports of every close; those of one number are what hydra_why tells of its script. Each refusal comes in its order, and changes
 * nothing. Exit status 0 only if all is as written here. */
#include <string.h>

#include "expect.h"
#include "reasons.h"
#include "hydra-desk.h"

enum { NODES = 3, SLOTS = 12, ROUNDS = 2, DAY = 5, EPOCHS = 30 * DAY, ASKED = 5, TOP_CLOSES = 100 };

static const uint32_t rows[3 * NODES] = {1, 7, 1, 1, 7, 4, 1, 7, 1};

/* Box 1 wants more from number to number in the morning, and 2 at night; box 3 wants 5 in epoch 2; box 2 has no windows. */
static struct hydra_window windows[HYDRA_GROUP_SITES][3];

#define WINDOWS(number) windows[(number) - 1], 3
#define NONE NULL, 0

struct group {
    uint32_t words[HYDRA_GROUP_WORDS], table[HYDRA_GROUP_TABLE];
    uint8_t bytes[HYDRA_GROUP_BYTES], area[HYDRA_PACKETS_SIZE];
    struct hydra_tally tallies[HYDRA_GROUP_SITES];
};

struct site {
    uint32_t words[HYDRA_SITE_WORDS];
    uint8_t bytes[HYDRA_SITE_BYTES], area[HYDRA_PACKETS_SIZE];
    struct hydra_tally tally;
};

static struct group group, before;
static struct site alone[HYDRA_GROUP_SITES];

#define MEMORY group.words, HYDRA_GROUP_WORDS, group.bytes, HYDRA_GROUP_BYTES, group.table, HYDRA_GROUP_TABLE
#define ITS(s) (s)->words, HYDRA_SITE_WORDS, (s)->bytes, HYDRA_SITE_BYTES

/* The script of one number, and the reports of its closes. */
static char script[40000];
static uint8_t told[TOP_CLOSES][HYDRA_REPORTS_SIZE];
static int lines, closes, close_line[TOP_CLOSES];

static void asked(uint32_t kind, uint32_t node, uint32_t with, uint32_t answer, const uint8_t *reports)
{
    static const char *const words[] = {"", "send", "hear", "close", "take", "end", "want", "crash", "restart"};
    if (closes == TOP_CLOSES)
        return;
    sprintf(script + strlen(script), "%s %u %u\n", words[kind], (unsigned)node, (unsigned)with);
    lines++;
    if (kind != HYDRA_CLOSE || answer != HYDRA_DONE)
        return;
    memcpy(told[closes], reports, HYDRA_REPORTS_SIZE);
    close_line[closes++] = lines;
}

/* An event at a number, and at the site alone. */
static void both(uint32_t number, uint32_t kind, uint32_t node, uint32_t with)
{
    uint8_t one[HYDRA_REPORTS_SIZE + 1], two[HYDRA_REPORTS_SIZE + 1];
    struct site *s = alone + number - 1;
    uint32_t answer;
    memset(one, 0xa5, sizeof one);
    memset(two, 0xa5, sizeof two);
    answer = hydra_group_event(MEMORY, group.area, HYDRA_PACKETS_SIZE, number, kind, node, with, WINDOWS(number), group.tallies + number - 1, one, HYDRA_REPORTS_SIZE);
    EXPECT(answer == hydra_site_event(ITS(s), s->area, HYDRA_PACKETS_SIZE, kind, node, with, WINDOWS(number), &s->tally, two, HYDRA_REPORTS_SIZE));
    EXPECT(memcmp(one, two, sizeof one) == 0 && one[HYDRA_REPORTS_SIZE] == 0xa5);
    if (number == ASKED)
        asked(kind, node, with, answer, one);
}

static uint32_t seed = 1;

static uint32_t below(uint32_t n)
{
    seed = seed * 1664525u + 1013904223u;
    return (seed >> 16) % n;
}

static void all(uint32_t kind)
{
    for (uint32_t number = 1; number <= HYDRA_GROUP_SITES; number++)
        both(number, kind, 0, 0);
}

/* A round of all sites, the packets of one between those of the others. */
static void a_round(void)
{
    for (uint32_t j = 1; j <= NODES; j++)
        for (uint32_t number = 1; number <= HYDRA_GROUP_SITES; number++)
            both(number, HYDRA_SEND, j, 0);
    for (uint32_t j = 1; j <= NODES; j++)
        for (uint32_t number = 1; number <= HYDRA_GROUP_SITES; number++)
            for (uint32_t p = 1; p <= NODES; p++)
                if (below(20))
                    both(number, HYDRA_HEAR, j, p);
    if (below(4) == 0)
        both(1 + below(HYDRA_GROUP_SITES), HYDRA_CRASH, 1 + below(NODES), 0);
    all(HYDRA_CLOSE);
    for (uint32_t number = 1; number <= HYDRA_GROUP_SITES; number++)
        both(number, HYDRA_TAKE, 1 + below(NODES), 1 + below(NODES));
    for (uint32_t j = 1; j <= NODES; j++)
        both(1 + below(HYDRA_GROUP_SITES), HYDRA_RESTART, j, 1u << (j - 1) | 1);
    all(HYDRA_END);
}

static void same_boxes(uint32_t number)
{
    uint8_t one[HYDRA_SHOWN_SIZE], two[HYDRA_SHOWN_SIZE];
    for (uint32_t j = 1; j <= NODES; j++) {
        EXPECT(hydra_group_node(MEMORY, number, j, one, sizeof one) == HYDRA_DONE);
        EXPECT(hydra_site_node(ITS(alone + number - 1), j, two, sizeof two) == HYDRA_DONE);
        EXPECT(memcmp(one, two, sizeof one) == 0);
    }
    EXPECT(memcmp(group.tallies + number - 1, &alone[number - 1].tally, sizeof *group.tallies) == 0);
}

static void month(void)
{
    EXPECT(hydra_group_begin(MEMORY) == HYDRA_DONE);
    sprintf(script, "nodes slots rounds heard split\n%d %d %d 1 0\nnode version flags want\n1 1 7 1\n2 1 7 4\n3 1 7 1\nevent node with\n", NODES, SLOTS, ROUNDS);
    lines = 4 + NODES;
    for (uint32_t number = 1; number <= HYDRA_GROUP_SITES; number++) {
        const struct hydra_window list[3] = {{1, 0, 2, number}, {1, 4, 5, 2}, {3, 2, 3, 5}};
        memcpy(windows[number - 1], list, sizeof list);
        EXPECT(hydra_group_load(MEMORY, number, NODES, SLOTS, ROUNDS, 1, 0, rows, 3 * NODES, DAY, WINDOWS(number), group.tallies + number - 1) == HYDRA_DONE);
        EXPECT(hydra_site_load(ITS(alone + number - 1), NODES, SLOTS, ROUNDS, 1, 0, rows, 3 * NODES, DAY, WINDOWS(number), &alone[number - 1].tally) == HYDRA_DONE);
    }
    for (int epoch = 1; epoch <= EPOCHS; epoch++) {
        for (int round = 0; round < ROUNDS; round++)
            a_round();
        for (uint32_t number = 1; number <= HYDRA_GROUP_SITES; number++)
            same_boxes(number);
    }
    for (int i = 0; i < HYDRA_GROUP_SITES; i++)
        EXPECT(group.tallies[i].epochs == EPOCHS + 1 && group.tallies[i].total > 0);
    EXPECT(memcmp(group.tallies, group.tallies + 7, sizeof *group.tallies) != 0);
}

/* The reports of the number's closes are those of its script with the number's windows. */
static void reports(void)
{
    const struct closed run = {script, close_line, told[0], sizeof told[0], closes};
    int seen[8] = {0}, all = 0;
    EXPECT(closes == TOP_CLOSES);
    for (uint32_t j = 1; j <= NODES; j++)
        same_reasons(&run, j, DAY, WINDOWS(ASKED), seen);
    for (int i = 0; i < 8; i++)
        all += seen[i];
    EXPECT(all > TOP_CLOSES);
}

static const struct hydra_window bad[] = {{4, 0, 1, 1}};

/* An event of number 1 with some of its arguments its own; where it is refused, all is as it was. */
static uint32_t tried(size_t words, size_t area, uint32_t number, uint32_t kind, uint32_t node, const struct hydra_window *list, size_t length, size_t place)
{
    static uint8_t out[HYDRA_REPORTS_SIZE];
    uint32_t answer;
    before = group;
    answer = hydra_group_event(group.words, words, group.bytes, HYDRA_GROUP_BYTES, group.table, HYDRA_GROUP_TABLE, group.area, area, number, kind, node, 0, list,
                               length, group.tallies, out, place);
    EXPECT(answer == HYDRA_DONE || memcmp(&before, &group, sizeof group) == 0);
    return answer;
}

#define WHOLE HYDRA_GROUP_WORDS, HYDRA_PACKETS_SIZE

static uint32_t load(size_t words, uint32_t number, uint32_t nodes, uint32_t day, const struct hydra_window *list, size_t length)
{
    uint32_t answer;
    before = group;
    answer = hydra_group_load(group.words, words, group.bytes, HYDRA_GROUP_BYTES, group.table, HYDRA_GROUP_TABLE, number, nodes, SLOTS, 1, 1, 0, rows, 3 * NODES, day,
                              list, length, group.tallies);
    EXPECT(answer == HYDRA_DONE || memcmp(&before, &group, sizeof group) == 0);
    return answer;
}

static void refusals(void)
{
    memset(&group, 0xa5, sizeof group);
    EXPECT(hydra_group_begin(MEMORY) == HYDRA_DONE);
    /* a load: 3, 15, 2, 16 */
    EXPECT(load(0, 9, 0, 0, bad, 1) == HYDRA_NO_SUCH_NODE && load(0, 0, 0, 0, bad, 1) == HYDRA_NO_SUCH_NODE);
    EXPECT(load(HYDRA_GROUP_WORDS - 1, 1, 0, 0, bad, 1) == HYDRA_NO_ROOM);
    EXPECT(load(HYDRA_GROUP_WORDS, 1, NODES + 1, 0, bad, 1) == HYDRA_OUT_OF_RANGE);
    EXPECT(load(HYDRA_GROUP_WORDS, 1, NODES, DAY, bad, 1) == HYDRA_BAD_WINDOWS && load(HYDRA_GROUP_WORDS, 1, NODES, 0, NONE) == HYDRA_BAD_WINDOWS);
    EXPECT(load(HYDRA_GROUP_WORDS, 1, NODES, DAY, WINDOWS(1)) == HYDRA_DONE && group.tallies[0].epochs == 1);
    /* an event: 3 for the number, 15 for memory, 3 where nothing is loaded */
    EXPECT(tried(0, 0, 9, 0, 9, bad, 1, 1) == HYDRA_NO_SUCH_NODE);
    EXPECT(tried(HYDRA_GROUP_WORDS - 1, 0, 2, 0, 9, bad, 1, 1) == HYDRA_NO_ROOM);
    EXPECT(tried(HYDRA_GROUP_WORDS, 0, 2, 0, 9, bad, 1, 1) == HYDRA_NO_SUCH_NODE);
    /* 15 for area and reports, 2 */
    EXPECT(tried(HYDRA_GROUP_WORDS, HYDRA_PACKETS_SIZE - 1, 1, 0, 9, bad, 1, 0) == HYDRA_NO_ROOM);
    for (size_t place = 1; place < HYDRA_REPORTS_SIZE; place++)
        EXPECT(tried(WHOLE, 1, 0, 9, bad, 1, place) == HYDRA_NO_ROOM);
    EXPECT(tried(WHOLE, 1, 0, 9, bad, 1, HYDRA_REPORTS_SIZE) == HYDRA_OUT_OF_RANGE);
    /* 3, 4, 5, 7, 8 before 16, and 16 at any event */
    EXPECT(tried(WHOLE, 1, HYDRA_SEND, 4, bad, 1, 0) == HYDRA_NO_SUCH_NODE);
    EXPECT(tried(WHOLE, 1, HYDRA_END, 0, bad, 1, 0) == HYDRA_WRONG_PHASE);
    EXPECT(tried(WHOLE, 1, HYDRA_HEAR, 1, bad, 1, 0) == HYDRA_NO_PACKET);
    EXPECT(tried(WHOLE, 1, HYDRA_SEND, 1, bad, 1, 0) == HYDRA_BAD_WINDOWS);
    EXPECT(tried(WHOLE, 1, HYDRA_WANT, 1, bad, 1, 0) == HYDRA_BAD_WINDOWS);
    EXPECT(tried(WHOLE, 1, HYDRA_CLOSE, 0, bad, 1, HYDRA_REPORTS_SIZE) == HYDRA_BAD_WINDOWS);
    for (int packet = 0; packet < 8; packet++)
        EXPECT(tried(WHOLE, 1, HYDRA_SEND, 2, WINDOWS(1), 0) == HYDRA_DONE);
    EXPECT(tried(WHOLE, 1, HYDRA_SEND, 2, bad, 1, 0) == HYDRA_ALL_SENT);
    before = group;
    EXPECT(hydra_group_event(MEMORY, group.area, HYDRA_PACKETS_SIZE, 1, HYDRA_HEAR, 1, 1, bad, 1, group.tallies, NONE) == HYDRA_BAD_WINDOWS);
    EXPECT(hydra_group_event(MEMORY, group.area, HYDRA_PACKETS_SIZE, 1, HYDRA_HEAR, 2, 1, bad, 1, group.tallies, NONE) == HYDRA_OWN_PACKET);
    EXPECT(memcmp(&before, &group, sizeof group) == 0);
    EXPECT(tried(WHOLE, 1, HYDRA_CRASH, 3, WINDOWS(1), 0) == HYDRA_DONE);
    EXPECT(tried(WHOLE, 1, HYDRA_SEND, 3, bad, 1, 0) == HYDRA_NOT_LIVE);
    EXPECT(tried(WHOLE, 1, HYDRA_CLOSE, 0, WINDOWS(1), HYDRA_REPORTS_SIZE) == HYDRA_DONE);
    /* an end: 14, 16 */
    group.tallies[0].epochs = HYDRA_TALLY_EPOCHS + 1;
    EXPECT(tried(WHOLE, 1, HYDRA_END, 0, bad, 1, 0) == HYDRA_NOT_A_NODE);
    group.tallies[0].epochs = HYDRA_TALLY_EPOCHS;
    EXPECT(tried(WHOLE, 1, HYDRA_END, 0, bad, 1, 0) == HYDRA_BAD_WINDOWS);
    EXPECT(tried(WHOLE, 1, HYDRA_END, 0, WINDOWS(1), 0) == HYDRA_DONE);
}

/* 16 before 17 */
static void crowded(void)
{
    uint32_t many[3 * HYDRA_TOP_NODES];
    for (int i = 0; i < HYDRA_TOP_NODES; i++) {
        many[3 * i] = 1;
        many[3 * i + 1] = 0xffffffff;
        many[3 * i + 2] = 1;
    }
    EXPECT(hydra_group_load(MEMORY, 1, HYDRA_TOP_NODES, SLOTS, 1, 1, 0, many, 3 * HYDRA_TOP_NODES, 1, NONE, group.tallies) == HYDRA_DONE);
    for (uint32_t packet = 0; packet < 144; packet++)
        EXPECT(tried(WHOLE, 1, HYDRA_SEND, packet / 8 + 1, NONE, 0) == HYDRA_DONE);
    EXPECT(tried(WHOLE, 1, HYDRA_SEND, 20, NONE, 0) == HYDRA_CROWDED);
    EXPECT(tried(WHOLE, 1, HYDRA_SEND, 20, WINDOWS(1), 0) == HYDRA_BAD_WINDOWS);
    EXPECT(tried(WHOLE, 1, HYDRA_SEND, 1, WINDOWS(1), 0) == HYDRA_ALL_SENT);
}

int main(void)
{
    month();
    reports();
    refusals();
    crowded();
    puts("months: eight sites with windows, tallies and reports as if each were alone, each refusal in its order");
    return 0;
}
