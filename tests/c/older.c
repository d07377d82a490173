/* A node area that an older release wrote: 276, 280 or 284 bytes, or 828 of another layout. Every call refuses it with 14 and
 * changes no byte. */
#include "hydra.h"

#include <string.h>

#include "expect.h"

static uint8_t area[HYDRA_NODE_SIZE], before[HYDRA_NODE_SIZE];
static uint8_t out[HYDRA_REPORT_SIZE], packet[HYDRA_PACKET_SIZE], ground[HYDRA_GROUND_SIZE];

static void refused(size_t length)
{
    memcpy(before, area, sizeof area);
    EXPECT(hydra_send(area, length, out, sizeof out) == HYDRA_NOT_A_NODE);
    EXPECT(hydra_hear(area, length, packet, sizeof packet) == HYDRA_NOT_A_NODE);
    EXPECT(hydra_close(area, length, out, sizeof out, ground, sizeof ground) == HYDRA_NOT_A_NODE);
    EXPECT(hydra_take(area, length, out, HYDRA_SCHEDULE_SIZE) == HYDRA_NOT_A_NODE);
    EXPECT(hydra_end(area, length) == HYDRA_NOT_A_NODE);
    EXPECT(hydra_want(area, length, 1) == HYDRA_NOT_A_NODE);
    EXPECT(hydra_read(area, length, out, sizeof out) == HYDRA_NOT_A_NODE);
    EXPECT(memcmp(before, area, sizeof area) == 0);
}

/* A node of three boxes at version 1 in negotiation, in the form before masks: words, four bytes, requests, counters, owners.
 * The words are those of the oldest form; `heard` and `split` came in behind F. */
static size_t older(int has_heard, int has_split)
{
    const uint32_t head[] = {1, 3, 4, 2}, tail[] = {1, 7, 7, 1, 1, 0, 0, 0};
    size_t at = 0;
    memset(area, 0, sizeof area);
    for (int i = 0; i < 4; i++, at += 4)
        put_word(area + at, head[i]);
    if (has_heard) {
        put_word(area + at, 1);
        at += 4;
    }
    if (has_split)
        at += 4;
    for (int i = 0; i < 8; i++, at += 4)
        put_word(area + at, tail[i]);
    area[at++] = 2; /* demand */
    area[at++] = 2; /* request */
    at += 2;        /* negotiation, not updated */
    memset(area + at, 255, 32);
    area[at] = 2;
    return at + 32 + 32 + 80 + 80;
}

int main(void)
{
    size_t length = older(0, 0);
    EXPECT(length == 276);
    refused(length);
    length = older(1, 0);
    EXPECT(length == 280);
    refused(length);
    length = older(1, 1);
    EXPECT(length == 284);
    refused(length);
    /* the same bytes at the start of an area of today's length, with owners where the masks are now */
    memset(area + 124, 1, 4);
    refused(HYDRA_NODE_SIZE);
    return 0;
}
