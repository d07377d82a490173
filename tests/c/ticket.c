/* A ticket that is too long for a script (15): why cutting it in two does not help, and what does. A site of five boxes over
 * sixty rounds, two in an epoch; every box hears every other. Run whole by the calls on a site in lent memory, which have no
 * limit, all boxes come to version 31. The second half by itself begins at version 1 with free slots, and is another site:
 * it comes to version 16, with another schedule, and no refusal tells of it.
 * Then the limit of a script, in rounds of a full site. Exit status 0 only if all is as written here. */
#include <string.h>

#include "expect.h"
#include "hydra-desk.h"

enum { TOP_SCRIPT = 40000, ROUNDS = 2 };

static struct {
    uint32_t words[HYDRA_SITE_WORDS];
    uint8_t bytes[HYDRA_SITE_BYTES], area[HYDRA_PACKETS_SIZE];
    struct hydra_tally tally;
} site;

static char script[60000];
static size_t length;

/* One event, to the site and to the script. */
static void event(const char *word, enum hydra_event number, uint32_t node, uint32_t with)
{
    EXPECT(length + 30 < sizeof script);
    length += (size_t)sprintf(script + length, "%s %u %u\n", word, node, with);
    EXPECT(hydra_site_event(site.words, HYDRA_SITE_WORDS, site.bytes, sizeof site.bytes, site.area, sizeof site.area, number, node, with, NULL, 0, &site.tally, NULL, 0) == HYDRA_DONE);
}

/* A site whose boxes want two slots each; box 1 wants three from round 10 on. */
static void load(uint32_t nodes, uint32_t slots)
{
    uint32_t rows[3 * HYDRA_TOP_NODES], all = 0xFFFFFFFFu >> (32 - nodes);
    length = (size_t)sprintf(script, "nodes slots rounds heard split\n%u %u %u 1 0\nnode version flags want\n", nodes, slots, (unsigned)ROUNDS);
    for (uint32_t j = 1; j <= nodes; j++) {
        memcpy(rows + 3 * (j - 1), (uint32_t[]){1, all, 2}, 3 * sizeof *rows);
        length += (size_t)sprintf(script + length, "%u 1 %u 2\n", j, all);
    }
    length += (size_t)sprintf(script + length, "event node with\n");
    EXPECT(hydra_site_load(site.words, HYDRA_SITE_WORDS, site.bytes, sizeof site.bytes, nodes, slots, ROUNDS, 1, 0, rows, 3 * nodes, 1, NULL, 0, &site.tally) == HYDRA_DONE);
}

/* Every box sends and hears every other. */
static void talk(uint32_t nodes)
{
    for (uint32_t i = 1; i <= nodes; i++)
        event("send", HYDRA_SEND, i, 0);
    for (uint32_t j = 1; j <= nodes; j++)
        for (uint32_t i = 1; i <= nodes; i++)
            if (i != j)
                event("hear", HYDRA_HEAR, j, i);
}

static void rounds(uint32_t nodes, uint32_t from, uint32_t to)
{
    for (uint32_t r = from; r < to; r++) {
        if (r == 10)
            event("want", HYDRA_WANT, 1, 3);
        talk(nodes);
        event("close", HYDRA_CLOSE, 0, 0);
        event("end", HYDRA_END, 0, 0);
    }
}

static const uint8_t *shown(uint32_t node)
{
    static uint8_t out[HYDRA_SHOWN_SIZE];
    EXPECT(hydra_site_node(site.words, HYDRA_SITE_WORDS, site.bytes, sizeof site.bytes, node, out, sizeof out) == HYDRA_DONE);
    return out;
}

/* What the run of the script prints. */
static const char *listing(void)
{
    static uint8_t packets[HYDRA_PACKETS_SIZE], out[400000];
    uint32_t printed;
    EXPECT(hydra_replay((const uint8_t *)script, length, packets, sizeof packets, out, sizeof out - 1, &printed, 1, NULL, 0) == HYDRA_DONE);
    out[printed] = 0;
    return (const char *)out;
}

int main(void)
{
    uint8_t whole[HYDRA_SHOWN_SIZE];
    load(5, 11);
    rounds(5, 0, 60);
    memcpy(whole, shown(1), sizeof whole);
    EXPECT(word_at(whole + HYDRA_SHOWN_VERSION) == 31);
    load(5, 11);
    rounds(5, 30, 60);
    EXPECT(word_at(shown(1) + HYDRA_SHOWN_VERSION) == 16);
    EXPECT(memcmp(whole + HYDRA_SHOWN_OWNERS, shown(1) + HYDRA_SHOWN_OWNERS, 11) != 0);
    EXPECT(strncmp(listing(), "line refusal\nnode ", 18) == 0);
    /* Three rounds of 32 boxes fit, four don't; the calls take them. */
    load(32, 80);
    rounds(32, 0, 3);
    EXPECT(length <= TOP_SCRIPT && strncmp(listing(), "line refusal\nnode ", 18) == 0);
    rounds(32, 3, 4);
    printf("four rounds of 32 boxes that all hear all: %zu bytes, of which a script may have %d\n", length, TOP_SCRIPT);
    EXPECT(length > TOP_SCRIPT && strcmp(listing(), "line refusal\n0 15\n") == 0);
    return 0;
}
