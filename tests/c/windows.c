/* Demands by the hour: one box whose service asks hydra_demand right before each epoch's last hydra_end, beside a replay of
 * the same epochs with the same windows. N = 1 and F = 1, so that the box determines a version, and takes its request anew,
 * in every epoch. A second run asks before the close, which is also before that end: then box and replay part.
 * Exit status 0 only if all is as written here. */
#include <string.h>

#include "expect.h"
#include "hydra-desk.h"

enum { DAY = 3, EPOCHS = 5 };

/* Wanted: 5 in epoch 0, 6 in epoch 2, nothing in epoch 1. */
static const struct hydra_window windows[] = {{1, 2, 3, 6}, {1, 0, 1, 5}};
static const uint32_t wanted[DAY] = {5, 0, 6};

#define WINDOWS windows, sizeof windows / sizeof windows[0]

static uint8_t node[HYDRA_NODE_SIZE];

/* The box begins in epoch 0 with what it wants there. */
static void begin(void)
{
    uint32_t demand = 9;
    EXPECT(hydra_demand(1, 1, DAY, WINDOWS, 0, &demand) == HYDRA_DONE);
    EXPECT(hydra_begin(node, sizeof node, 1, 1, 8, 1, 1, 0, 1, 1, demand) == HYDRA_DONE);
}

/* When the box asks for its demand. */
enum when { BEFORE_CLOSE, BEFORE_END };

static void want_for(uint32_t epoch)
{
    uint32_t demand = 9;
    EXPECT(hydra_demand(1, 1, DAY, WINDOWS, epoch, &demand) == HYDRA_DONE);
    EXPECT(demand == wanted[epoch]);
    EXPECT(hydra_want(node, sizeof node, demand) == HYDRA_DONE);
}

/* A round, which is an epoch here; `epoch` is the one that begins with its end. */
static void round_before(uint32_t epoch, enum when when)
{
    uint8_t schedule[HYDRA_SCHEDULE_SIZE], ground[HYDRA_GROUND_SIZE];
    if (when == BEFORE_CLOSE)
        want_for(epoch);
    EXPECT(hydra_close(node, sizeof node, schedule, sizeof schedule, ground, sizeof ground) == HYDRA_DONE);
    if (when == BEFORE_END)
        want_for(epoch);
    EXPECT(hydra_end(node, sizeof node) == HYDRA_DONE);
}

/* The listing of a site of one box after some epochs. */
static void replayed(uint32_t epochs, char *listing, size_t room)
{
    static uint8_t packets[HYDRA_PACKETS_SIZE], out[60000];
    char script[400] = "nodes slots rounds heard split\n1 8 1 1 0\nnode version flags want\n1 1 1 9\nevent node with\n";
    uint32_t length = 0;
    for (uint32_t i = 0; i < epochs; i++)
        strcat(script, "close 0 0\nend 0 0\n");
    EXPECT(hydra_replay((const uint8_t *)script, strlen(script), packets, sizeof packets, out, sizeof out, &length, DAY, WINDOWS) == HYDRA_DONE);
    EXPECT(length < room);
    memcpy(listing, out, length);
    listing[length] = 0;
}

/* Whether the box holds what the replay shows: version and request. */
static int same_as_replay(uint32_t epochs)
{
    static char listing[2000];
    uint8_t report[HYDRA_REPORT_SIZE];
    unsigned version = 0, flags = 0, request = 0;
    replayed(epochs, listing, sizeof listing);
    EXPECT(sscanf(listing, "line refusal\nnode state version flags request slots\n1 live %u %u %u ", &version, &flags, &request) == 3);
    EXPECT(hydra_read(node, sizeof node, report, sizeof report) == HYDRA_DONE);
    EXPECT(request == wanted[epochs == 0 ? 0 : (epochs - 1) % DAY]);
    return version == word_at(report + HYDRA_REPORT_VERSION) && request == report[HYDRA_REPORT_REQUEST];
}

/* In how many of some epochs box and replay hold the same. */
static uint32_t epochs_alike(enum when when)
{
    uint32_t alike = 0;
    begin();
    EXPECT(same_as_replay(0));
    for (uint32_t epochs = 1; epochs <= EPOCHS; epochs++) {
        round_before(epochs % DAY, when);
        alike += same_as_replay(epochs);
    }
    return alike;
}

/* What is refused, and leaves the demand as it was. */
static void refusals(void)
{
    static const struct hydra_window both[] = {{1, 0, 2, 5}, {1, 1, 3, 6}};
    uint32_t demand = 9;
    EXPECT(hydra_demand(0, 1, DAY, WINDOWS, 0, &demand) == HYDRA_OUT_OF_RANGE);
    EXPECT(hydra_demand(33, 1, DAY, WINDOWS, 0, &demand) == HYDRA_OUT_OF_RANGE);
    EXPECT(hydra_demand(1, 2, DAY, WINDOWS, 0, &demand) == HYDRA_NO_SUCH_NODE);
    EXPECT(hydra_demand(1, 1, 2, WINDOWS, 0, &demand) == HYDRA_BAD_WINDOWS);
    EXPECT(hydra_demand(1, 1, 0, NULL, 0, 0, &demand) == HYDRA_BAD_WINDOWS);
    EXPECT(hydra_demand(1, 1, DAY, both, 2, 0, &demand) == HYDRA_BAD_WINDOWS);
    EXPECT(hydra_demand(1, 1, DAY, WINDOWS, DAY, &demand) == HYDRA_OUT_OF_RANGE);
    EXPECT(demand == 9);
    /* Node 2 has no windows, and keeps its demand. */
    EXPECT(hydra_demand(2, 2, DAY, WINDOWS, 0, &demand) == HYDRA_DONE && demand == 9);
}

int main(void)
{
    EXPECT(epochs_alike(BEFORE_END) == EPOCHS);
    EXPECT(epochs_alike(BEFORE_CLOSE) == 0);
    refusals();
    puts("demands by the hour: asked for right before the end, as in the replay; before the close, otherwise");
    return 0;
}
