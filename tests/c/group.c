/* Two sites of a group in lent memory: each goes through the whole case of docs/specification.md as if it were alone, though their packets lie between one another. Then the shares: a send
 * that finds the common places taken is refused, and a close of another site makes room again. Guards before and behind all that is lent show that nothing else is written. */
#include <string.h>

#include "expect.h"
#include "hydra-desk.h"

enum { GUARD = 16 };

/* What is lent, with guards: words, bytes, table, packet area, output. */
struct lent {
    uint32_t words[GUARD + HYDRA_GROUP_WORDS + GUARD];
    uint8_t bytes[GUARD + HYDRA_GROUP_BYTES + GUARD];
    uint32_t table[GUARD + HYDRA_GROUP_TABLE + GUARD];
    uint8_t area[GUARD + HYDRA_PACKETS_SIZE + GUARD];
    uint8_t out[GUARD + HYDRA_SHOWN_SIZE + GUARD];
};

/* One tally for all numbers: the sites of this test hold the same slots. */
static struct hydra_tally tally;

static struct lent lent, before;

static uint32_t *const words = lent.words + GUARD;
static uint8_t *const bytes = lent.bytes + GUARD;
static uint32_t *const table = lent.table + GUARD;
static uint8_t *const area = lent.area + GUARD;
static uint8_t *const out = lent.out + GUARD;

static uint32_t event(uint32_t number, uint32_t kind, uint32_t node, uint32_t with)
{
    return hydra_group_event(words, HYDRA_GROUP_WORDS, bytes, HYDRA_GROUP_BYTES, table, HYDRA_GROUP_TABLE, area, HYDRA_PACKETS_SIZE, number, kind, node, with, NULL, 0, &tally, NULL, 0);
}

static uint32_t load(uint32_t number, uint32_t nodes, const uint32_t *rows)
{
    return hydra_group_load(words, HYDRA_GROUP_WORDS, bytes, HYDRA_GROUP_BYTES, table, HYDRA_GROUP_TABLE, number, nodes, 4, 1, 1, 0, rows, 3 * nodes, 1, NULL, 0, &tally);
}

static void expect_version(uint32_t number, uint32_t node, uint32_t version)
{
    EXPECT(hydra_group_node(words, HYDRA_GROUP_WORDS, bytes, HYDRA_GROUP_BYTES, table, HYDRA_GROUP_TABLE, number, node, out, HYDRA_SHOWN_SIZE) == HYDRA_DONE);
    EXPECT(word_at(out + HYDRA_SHOWN_VERSION) == version);
}

/* A step of the whole case at two numbers, one after the other. */
static void both(uint32_t answer, uint32_t kind, uint32_t node, uint32_t with)
{
    EXPECT(event(2, kind, node, with) == answer);
    EXPECT(event(7, kind, node, with) == answer);
}

static void whole_case(void)
{
    static const uint32_t rows[9] = {1, 7, 2, 1, 7, 2, 1, 7, 2};
    EXPECT(load(2, 3, rows) == HYDRA_DONE);
    EXPECT(load(7, 3, rows) == HYDRA_DONE);
    EXPECT(load(0, 3, rows) == HYDRA_NO_SUCH_NODE);
    EXPECT(load(9, 3, rows) == HYDRA_NO_SUCH_NODE);
    EXPECT(event(3, HYDRA_SEND, 1, 0) == HYDRA_NO_SUCH_NODE);
    both(HYDRA_DONE, HYDRA_SEND, 2, 0);
    both(HYDRA_DONE, HYDRA_SEND, 3, 0);
    both(HYDRA_NO_PACKET, HYDRA_HEAR, 1, 3);
    both(HYDRA_DONE, HYDRA_HEAR, 1, 1);
    both(HYDRA_DONE, HYDRA_HEAR, 1, 2);
    both(HYDRA_DONE, HYDRA_CLOSE, 0, 0);
    both(HYDRA_WRONG_SENDER, HYDRA_TAKE, 3, 2);
    both(HYDRA_DONE, HYDRA_TAKE, 2, 1);
    both(HYDRA_DONE, HYDRA_END, 0, 0);
    for (uint32_t number = 2; number <= 7; number += 5) {
        expect_version(number, 1, 2);
        expect_version(number, 2, 2);
        expect_version(number, 3, 0);
    }
}

static void shares(void)
{
    uint32_t rows[3 * HYDRA_TOP_NODES];
    for (int i = 0; i < HYDRA_TOP_NODES; i++) {
        rows[3 * i] = 1;
        rows[3 * i + 1] = 0xffffffff;
        rows[3 * i + 2] = 1;
    }
    EXPECT(load(1, HYDRA_TOP_NODES, rows) == HYDRA_DONE);
    EXPECT(load(2, HYDRA_TOP_NODES, rows) == HYDRA_DONE);
    for (uint32_t packet = 0; packet < 144; packet++)
        EXPECT(event(1, HYDRA_SEND, packet / 8 + 1, 0) == HYDRA_DONE);
    for (uint32_t packet = 0; packet < 16; packet++)
        EXPECT(event(2, HYDRA_SEND, packet / 8 + 1, 0) == HYDRA_DONE);
    before = lent;
    EXPECT(event(1, HYDRA_SEND, 20, 0) == HYDRA_CROWDED);
    EXPECT(event(2, HYDRA_SEND, 20, 0) == HYDRA_CROWDED);
    EXPECT(event(1, HYDRA_SEND, 1, 0) == HYDRA_ALL_SENT);
    EXPECT(memcmp(&lent, &before, sizeof lent) == 0);
    EXPECT(event(1, HYDRA_CLOSE, 0, 0) == HYDRA_DONE);
    EXPECT(event(2, HYDRA_SEND, 20, 0) == HYDRA_DONE);
    EXPECT(area[0] == 20); /* the packet lies in the first place that was freed */
}

static int guarded(const void *from, size_t length)
{
    const uint8_t *byte = from;
    while (length > 0 && *byte == 0xa5) {
        byte++;
        length--;
    }
    return length == 0;
}

int main(void)
{
    memset(&lent, 0xa5, sizeof lent);
    EXPECT(hydra_group_begin(words, HYDRA_GROUP_WORDS - 1, bytes, HYDRA_GROUP_BYTES, table, HYDRA_GROUP_TABLE) == HYDRA_NO_ROOM);
    EXPECT(guarded(&lent, sizeof lent));
    EXPECT(hydra_group_begin(words, HYDRA_GROUP_WORDS, bytes, HYDRA_GROUP_BYTES, table, HYDRA_GROUP_TABLE) == HYDRA_DONE);
    whole_case();
    shares();
    EXPECT(guarded(lent.words, GUARD * sizeof *words) && guarded(words + HYDRA_GROUP_WORDS, GUARD * sizeof *words));
    EXPECT(guarded(lent.bytes, GUARD) && guarded(bytes + HYDRA_GROUP_BYTES, GUARD));
    EXPECT(guarded(lent.table, GUARD * sizeof *table) && guarded(table + HYDRA_GROUP_TABLE, GUARD * sizeof *table));
    EXPECT(guarded(lent.area, GUARD) && guarded(area + HYDRA_PACKETS_SIZE, GUARD));
    EXPECT(guarded(lent.out, GUARD) && guarded(out + HYDRA_SHOWN_SIZE, GUARD));
    puts("group: two sites as if each were alone; the shares of the common area");
    return 0;
}
