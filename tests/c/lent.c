/* The whole case of docs/specification.md on a site in lent memory: its events are answered and its nodes shown as samples/whole-case.listing says.
 * Guards before and behind all that is lent show that nothing else is written, and a refusal writes nothing. */
#include <string.h>

#include "expect.h"
#include "hydra-desk.h"

enum { GUARD = 16 };

/* What is lent, with guards: words, bytes, packet area, output, tally. */
struct lent {
    uint32_t words[GUARD + HYDRA_SITE_WORDS + GUARD];
    uint8_t bytes[GUARD + HYDRA_SITE_BYTES + GUARD];
    uint8_t area[GUARD + HYDRA_PACKETS_SIZE + GUARD];
    uint8_t out[GUARD + HYDRA_SHOWN_SIZE + GUARD];
    struct hydra_tally tallies[3];
};

static struct lent lent, before;

static uint32_t *const words = lent.words + GUARD;
static uint8_t *const bytes = lent.bytes + GUARD;
static uint8_t *const area = lent.area + GUARD;
static uint8_t *const out = lent.out + GUARD;
static struct hydra_tally *const tally = lent.tallies + 1;

static uint32_t event(uint32_t number, uint32_t node, uint32_t with)
{
    return hydra_site_event(words, HYDRA_SITE_WORDS, bytes, HYDRA_SITE_BYTES, area, HYDRA_PACKETS_SIZE, number, node, with, NULL, 0, tally, NULL, 0);
}

static uint32_t load(uint32_t nodes, const uint32_t *rows, size_t length)
{
    return hydra_site_load(words, HYDRA_SITE_WORDS, bytes, HYDRA_SITE_BYTES, nodes, 4, 1, 1, 0, rows, length, 1, NULL, 0, tally);
}

static uint32_t show(uint32_t node)
{
    return hydra_site_node(words, HYDRA_SITE_WORDS, bytes, HYDRA_SITE_BYTES, node, out, HYDRA_SHOWN_SIZE);
}

static int stayed(void)
{
    return memcmp(&lent, &before, sizeof lent) == 0;
}

/* The row of a listing: number, state, version, flags, request, owners. */
static void expect_row(uint32_t node, uint8_t state, uint32_t version, uint32_t flags, uint8_t request, const uint8_t *owners)
{
    uint8_t free[HYDRA_TOP_SLOTS - 4] = {0};
    EXPECT(show(node) == HYDRA_DONE);
    EXPECT(out[HYDRA_SHOWN_STATE] == state);
    EXPECT(word_at(out + HYDRA_SHOWN_VERSION) == version);
    EXPECT(word_at(out + HYDRA_SHOWN_FLAGS) == flags);
    EXPECT(out[HYDRA_SHOWN_REQUEST] == request);
    EXPECT(memcmp(out + HYDRA_SHOWN_OWNERS, owners, 4) == 0);
    EXPECT(memcmp(out + HYDRA_SHOWN_OWNERS + 4, free, sizeof free) == 0);
}

static void expect_refusals(const uint32_t *rows)
{
    uint32_t odd[9];
    before = lent;
    EXPECT(load(3, rows, 8) == HYDRA_OUT_OF_RANGE);
    EXPECT(load(2, rows, 9) == HYDRA_OUT_OF_RANGE);
    EXPECT(load(33, rows, 9) == HYDRA_OUT_OF_RANGE);
    memcpy(odd, rows, sizeof odd);
    odd[2] = 256; /* its last byte is 0 */
    EXPECT(load(3, odd, 9) == HYDRA_OUT_OF_RANGE);
    odd[2] = 16;
    EXPECT(load(3, odd, 9) == HYDRA_OUT_OF_RANGE);
    EXPECT(hydra_site_load(words, HYDRA_SITE_WORDS - 1, bytes, HYDRA_SITE_BYTES, 3, 4, 1, 1, 0, rows, 9, 1, NULL, 0, tally) == HYDRA_NO_ROOM);
    EXPECT(hydra_site_load(words, HYDRA_SITE_WORDS, bytes, HYDRA_SITE_BYTES - 1, 3, 4, 1, 1, 0, rows, 9, 1, NULL, 0, tally) == HYDRA_NO_ROOM);
    EXPECT(hydra_site_load(words, 0, bytes, 0, 3, 4, 1, 1, 0, rows, 8, 1, NULL, 0, tally) == HYDRA_NO_ROOM);
    EXPECT(hydra_site_load(words, HYDRA_SITE_WORDS, bytes, HYDRA_SITE_BYTES, 3, 4, 1, 1, 2, rows, 9, 1, NULL, 0, tally) == HYDRA_OUT_OF_RANGE);
    EXPECT(event(0, 1, 0) == HYDRA_OUT_OF_RANGE);
    EXPECT(event(9, 1, 0) == HYDRA_OUT_OF_RANGE);
    EXPECT(event(HYDRA_SEND, 1, 1) == HYDRA_OUT_OF_RANGE);
    EXPECT(event(HYDRA_CLOSE, 1, 0) == HYDRA_OUT_OF_RANGE);
    EXPECT(event(HYDRA_SEND, 4, 0) == HYDRA_NO_SUCH_NODE);
    EXPECT(event(HYDRA_END, 0, 0) == HYDRA_WRONG_PHASE);
    EXPECT(hydra_site_event(words, HYDRA_SITE_WORDS, bytes, HYDRA_SITE_BYTES, area, HYDRA_PACKETS_SIZE - 1, HYDRA_SEND, 1, 0, NULL, 0, tally, NULL, 0) == HYDRA_NO_ROOM);
    EXPECT(show(0) == HYDRA_NO_SUCH_NODE);
    EXPECT(show(4) == HYDRA_NO_SUCH_NODE);
    EXPECT(hydra_site_node(words, HYDRA_SITE_WORDS, bytes, HYDRA_SITE_BYTES, 4, out, 0) == HYDRA_NO_ROOM);
    EXPECT(hydra_site_node(words, HYDRA_SITE_WORDS, bytes, HYDRA_SITE_BYTES, 4, out, HYDRA_SHOWN_SIZE) == HYDRA_NO_SUCH_NODE);
    EXPECT(hydra_site_node(words, HYDRA_SITE_WORDS, bytes, HYDRA_SITE_BYTES, 1, out, HYDRA_SHOWN_SIZE - 1) == HYDRA_NO_ROOM);
    EXPECT(hydra_site_node(words, HYDRA_SITE_WORDS - 1, bytes, HYDRA_SITE_BYTES, 1, out, HYDRA_SHOWN_SIZE) == HYDRA_NO_ROOM);
    EXPECT(stayed());
}

int main(void)
{
    static const uint32_t rows[9] = {1, 7, 2, 1, 7, 2, 1, 7, 2};
    static const uint8_t new_owners[4] = {1, 2, 3, 1}, free_slots[4] = {0};
    memset(&lent, 0xa5, sizeof lent);
    before = lent;
    EXPECT(load(3, rows, 9) == HYDRA_DONE);
    expect_refusals(rows);
    EXPECT(event(HYDRA_SEND, 2, 0) == HYDRA_DONE);
    EXPECT(event(HYDRA_SEND, 3, 0) == HYDRA_DONE);
    EXPECT(event(HYDRA_HEAR, 1, 1) == HYDRA_DONE);
    EXPECT(event(HYDRA_HEAR, 1, 2) == HYDRA_DONE);
    EXPECT(event(HYDRA_CLOSE, 0, 0) == HYDRA_DONE);
    EXPECT(event(HYDRA_TAKE, 3, 2) == HYDRA_WRONG_SENDER);
    EXPECT(event(HYDRA_TAKE, 2, 1) == HYDRA_DONE);
    EXPECT(event(HYDRA_END, 0, 0) == HYDRA_DONE);
    expect_row(1, HYDRA_STATE_LIVE, 2, 7, 2, new_owners);
    expect_row(2, HYDRA_STATE_LIVE, 2, 2, 2, new_owners);
    expect_row(3, HYDRA_STATE_LIVE, 0, 4, 2, free_slots);
    EXPECT(event(HYDRA_CRASH, 1, 0) == HYDRA_DONE);
    expect_row(1, HYDRA_STATE_DOWN, 0, 0, 0, free_slots);
    EXPECT(event(HYDRA_RESTART, 1, 1) == HYDRA_DONE);
    expect_row(1, HYDRA_STATE_WAITING, 0, 0, 0, free_slots);

    /* What was not lent is as it was. */
    memcpy(before.words + GUARD, words, HYDRA_SITE_WORDS * sizeof *words);
    memcpy(before.bytes + GUARD, bytes, HYDRA_SITE_BYTES);
    memcpy(before.out + GUARD, out, HYDRA_SHOWN_SIZE);
    before.tallies[1] = *tally;
    memcpy(before.area + GUARD, area, 2 * HYDRA_PACKET_SIZE);
    memset(before.words, 0xa5, GUARD * sizeof *words);
    EXPECT(stayed());
    puts("lent: the whole case on a site in lent memory");
    return 0;
}
