/* All seven archives linked into one program, with one call of each. Exit status 0 only if each call answers. */
#include "expect.h"
#include "hydra-desk.h"

static uint32_t words[HYDRA_GROUP_WORDS], table[HYDRA_GROUP_TABLE];
static uint8_t bytes[HYDRA_GROUP_BYTES], area[HYDRA_PACKETS_SIZE], out[40000];

int main(void)
{
    static const uint32_t rows[] = {0, 1, 2};
    struct hydra_tally tally;
    uint32_t number = 0;
    EXPECT(hydra_begin(bytes, HYDRA_NODE_SIZE, 1, 1, 1, 1, 1, 0, 0, 1, 1) == HYDRA_DONE);
    EXPECT(hydra_demand(1, 1, 1, NULL, 0, 0, &number) == HYDRA_DONE);
    EXPECT(hydra_replay(NULL, 0, area, sizeof area, out, sizeof out, &number, 1, NULL, 0) == HYDRA_DONE);
    EXPECT(hydra_why(NULL, 0, 0, area, sizeof area, out, sizeof out, &number, 1, NULL, 0) == HYDRA_DONE);
    EXPECT(hydra_reduce(NULL, 0, out, 0, &number, HYDRA_DONE) == HYDRA_NOT_GIVEN);
    EXPECT(hydra_site_load(words, HYDRA_SITE_WORDS, bytes, sizeof bytes, 1, 1, 1, 1, 0, rows, 3, 1, NULL, 0, &tally) == HYDRA_DONE);
    EXPECT(hydra_group_begin(words, HYDRA_GROUP_WORDS, bytes, sizeof bytes, table, HYDRA_GROUP_TABLE) == HYDRA_DONE);
    puts("all archives in one program: each answers");
    return 0;
}
