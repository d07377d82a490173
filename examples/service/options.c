#include "options.h"

#include "rules.h"

#include <stdio.h>
#include <stdlib.h>
#include <string.h>

/* As they are on the command line: times in milliseconds. With the greatest values a round is half an hour, so that the
 * time since its start fits into a frame's four bytes. */
static uint64_t start, slot = 24, guard = 6, air = 4, skew = 8, age = 100, offset;
static uint64_t site = 1, node, nodes = 5, slots = 4, rounds = 2, heard = 1, split, demand = 1;
static uint64_t change_round = UINT32_MAX, changed_demand, negotiation = 2, distribution = 1;
static uint64_t port = 23000, loss, seed = 1, last = UINT32_MAX, restart;
static const char *plan, *log_path;

static const struct {
    const char *name;
    uint64_t *number;
    const char **text;
    uint64_t low, high;
    const char *says;
} known[] = {
    {"--site", &site, NULL, 0, UINT32_MAX, "the site's number; frames of another site are dropped"},
    {"--node", &node, NULL, 1, HYDRA_TOP_NODES, "the box's number, 1 to N"},
    {"--nodes", &nodes, NULL, 1, HYDRA_TOP_NODES, "N, the boxes of the site"},
    {"--slots", &slots, NULL, 1, HYDRA_TOP_SLOTS, "K, the slots"},
    {"--rounds", &rounds, NULL, 1, HYDRA_TOP_ROUNDS, "F, the rounds of an epoch"},
    {"--heard", &heard, NULL, 1, HYDRA_TOP_ROUNDS,
     "rounds of an epoch in which a box must be heard to count in the next"},
    {"--split", &split, NULL, 0, 1, "1 for a site that may split"},
    {"--demand", &demand, NULL, 0, HYDRA_TOP_DEMAND, "slots that the box wants"},
    {"--change-round", &change_round, NULL, 0, UINT32_MAX, "from this round on it wants another number of slots"},
    {"--changed-demand", &changed_demand, NULL, 0, HYDRA_TOP_DEMAND, "that number"},
    {"--start", &start, NULL, 0, UINT64_C(1) << 50, "when round 0 begins, by the real-time clock, in milliseconds"},
    {"--offset", &offset, NULL, 0, 100000, "this box's clock is behind by so many milliseconds"},
    {"--skew", &skew, NULL, 0, 100000, "no two clocks differ by more, in milliseconds"},
    {"--age", &age, NULL, 0, 100000, "a frame that was received earlier is dropped, in milliseconds"},
    {"--slot", &slot, NULL, 1, 1000, "length of a slot, in milliseconds"},
    {"--guard", &guard, NULL, 0, 100000, "guard time at both ends of a slot, in milliseconds"},
    {"--air", &air, NULL, 0, 100000, "time of a frame on the air, in milliseconds"},
    {"--negotiation", &negotiation, NULL, 1, TOP_PACKETS, "cycles of a negotiation"},
    {"--distribution", &distribution, NULL, 1, TOP_PACKETS, "cycles of a distribution"},
    {"--port", &port, NULL, 1024, 65000, "box j has UDP port PORT + j"},
    {"--loss", &loss, NULL, 0, 100, "percent of the frames that are lost"},
    {"--seed", &seed, NULL, 1, UINT32_MAX, "of the losses"},
    {"--last", &last, NULL, 0, UINT32_MAX, "the box ends with the end of this round"},
    {"--restart", &restart, NULL, 0, 1, "1 for a box that was reset while others go on"},
    {"--plan", NULL, &plan, 0, 0, "file that says who hears whom, in place of --loss"},
    {"--log", NULL, &log_path, 0, 0, "file to write the log to"},
};

enum { KNOWN = sizeof known / sizeof *known };

__attribute__((noreturn)) static void refuse(const char *what, const char *why)
{
    fprintf(stderr, "box: %s: %s\n", what, why);
    exit(2);
}

static void help(void)
{
    for (size_t i = 0; i < KNOWN; i++)
        printf("%-18s %s\n", known[i].name, known[i].says);
    exit(0);
}

static void read_one(const char *name, const char *value)
{
    size_t i = 0;
    char *end;
    while (i < KNOWN && strcmp(name, known[i].name) != 0)
        i++;
    if (i == KNOWN)
        refuse(name, "no such option; --help lists them");
    if (value == NULL)
        refuse(name, "its value is missing");
    if (known[i].text != NULL) {
        *known[i].text = value;
        return;
    }
    *known[i].number = strtoull(value, &end, 10);
    if (*value < '0' || *value > '9' || *end != 0 || *known[i].number < known[i].low ||
        *known[i].number > known[i].high)
        refuse(name, "its value is no number in its range");
}

static int64_t micro(uint64_t milliseconds)
{
    return (int64_t)milliseconds * 1000;
}

static struct settings settings(void)
{
    return (struct settings){
        .site = (uint32_t)site,
        .node = (uint32_t)node,
        .nodes = (uint32_t)nodes,
        .slots = (uint32_t)slots,
        .rounds = (uint32_t)rounds,
        .heard = (uint32_t)heard,
        .split = (uint32_t)split,
        .demand = (uint32_t)demand,
        .change_round = (uint32_t)change_round,
        .changed_demand = (uint32_t)changed_demand,
        .skew = micro(skew),
        .age = micro(age),
        .timing = {(uint32_t)slots, (uint32_t)nodes, (uint32_t)negotiation, (uint32_t)distribution, micro(slot),
                   micro(guard), micro(air)},
    };
}

/* What the core cannot test: it knows nothing of time. */
static void check_times(const struct settings *s)
{
    if (2 * guard + air > slot)
        refuse("--slot", "a frame and the guard time at both ends do not fit into a slot");
    if (offset > skew)
        refuse("--offset", "the clock is further behind than --skew says of any two");
    if (!times_fit(&s->timing, s->skew, s->age))
        refuse("--skew", "skew and age together are above the shortest phase");
}

struct options options_read(int argc, char **argv)
{
    if (argc == 2 && strcmp(argv[1], "--help") == 0)
        help();
    for (int i = 1; i < argc; i += 2)
        read_one(argv[i], i + 1 < argc ? argv[i + 1] : NULL);
    if (node < 1 || node > nodes)
        refuse("--node", "it is not 1 to N");
    if (log_path == NULL)
        refuse("--log", "it is missing");
    struct settings s = settings();
    check_times(&s);
    return (struct options){
        .settings = s,
        .port = (uint32_t)port,
        .loss = (uint32_t)loss,
        .seed = (uint32_t)seed,
        .last = (uint32_t)last,
        .start = micro(start),
        .offset = micro(offset),
        .restart = restart == 1,
        .plan = plan,
        .log = log_path,
    };
}
