/* A fake clock and radio for the service in box.c, and runs of it with a fixed outcome. Of five boxes the service has the
 * first; boxes 2, 3 and 4 stand behind the radio, and box 5 is down all the time.
 * Exit status 0 only if the box did in each round what is written here. */
#include <string.h>

#include "box.h"
#include "expect.h"

enum { NODES = 5, OTHERS_FROM = 2, OTHERS_TO = 4, SLOTS = 9, ROUNDS = 2, SITE = 7, LAST_ROUND = 14, FAULT_ROUND = 6 };

/* What happens to the box in round 6: its area is overwritten, or all that it holds is lost. */
enum fault { OVERWRITTEN_BEFORE_SEND, OVERWRITTEN_BEFORE_END, RESET_IN_DISTRIBUTION };

/* The box's version in a round's negotiation, and how many slots it uses in the round. */
struct outcome {
    uint32_t version, slots;
};

/* Rounds 0 and 1: box 5 is in the flags of all, so nobody determines. From the second epoch on the four go on without it.
 * In round 6 the box loses its node. It listens through the negotiation of round 7, restarts, and begins with round 8 at
 * version 0. In the first run the others have missed it for a whole epoch and dropped it from their flags: they go on as
 * three, the box takes their version 3, in which its slots were released, and has slots again with version 4. In the other
 * two runs they heard it in round 6: they repeat their version for it, and it takes that in round 8. */
static const struct {
    enum fault fault;
    struct outcome round[LAST_ROUND];
} runs[] = {
    {OVERWRITTEN_BEFORE_SEND,
     {{0, 0}, {0, 0}, {0, 0}, {0, 0}, {1, 2}, {1, 2}, {2, 0}, {0, 0}, {0, 0}, {0, 0}, {3, 0}, {3, 0}, {4, 2}, {4, 2}}},
    {OVERWRITTEN_BEFORE_END,
     {{0, 0}, {0, 0}, {0, 0}, {0, 0}, {1, 2}, {1, 2}, {2, 2}, {0, 0}, {0, 0}, {3, 2}, {4, 2}, {4, 2}, {5, 2}, {5, 2}}},
    {RESET_IN_DISTRIBUTION,
     {{0, 0}, {0, 0}, {0, 0}, {0, 0}, {1, 2}, {1, 2}, {2, 2}, {0, 0}, {0, 0}, {3, 2}, {4, 2}, {4, 2}, {5, 2}, {5, 2}}},
};

static enum fault fault;
static struct box box;
static uint8_t other[NODES + 1][HYDRA_NODE_SIZE]; /* by number */
static uint32_t round_now, time_now;
static int in_distribution;
static uint32_t packets_sent, slots_used;                      /* by the box in this round */
static uint8_t own_packet[HYDRA_PACKET_SIZE];                  /* the last one that the box sent in this round */
static uint8_t own_schedule[HYDRA_SCHEDULE_SIZE];              /* what the box sent at its close, version 0 if nothing */
static uint8_t others_schedule[HYDRA_SCHEDULE_SIZE];           /* the same of the others */
static uint8_t frame[FRAME_HEAD + HYDRA_SCHEDULE_SIZE];        /* what the box gets */
static uint8_t old_packet[FRAME_HEAD + HYDRA_PACKET_SIZE];     /* a frame of the round before, late by a round */
static uint8_t old_schedule[FRAME_HEAD + HYDRA_SCHEDULE_SIZE]; /* the last schedule on the air before this round */

/* ---- The other boxes ---- */

static const uint8_t *report_of(const uint8_t *area)
{
    static uint8_t report[HYDRA_REPORT_SIZE];
    EXPECT(hydra_read(area, HYDRA_NODE_SIZE, report, sizeof report) == HYDRA_DONE);
    return report;
}

static void others_begin(void)
{
    for (uint32_t j = OTHERS_FROM; j <= OTHERS_TO; j++)
        EXPECT(hydra_begin(other[j], HYDRA_NODE_SIZE, j, NODES, SLOTS, ROUNDS, 1, 0, 0, 31, 2) == HYDRA_DONE);
}

/* Each of them sends a packet, and hears those of the others and the box's last one. */
static void others_talk(void)
{
    uint8_t packet[NODES + 1][HYDRA_PACKET_SIZE];
    for (uint32_t j = OTHERS_FROM; j <= OTHERS_TO; j++)
        EXPECT(hydra_send(other[j], HYDRA_NODE_SIZE, packet[j], HYDRA_PACKET_SIZE) == HYDRA_DONE);
    for (uint32_t j = OTHERS_FROM; j <= OTHERS_TO; j++) {
        for (uint32_t i = OTHERS_FROM; i <= OTHERS_TO; i++)
            if (i != j)
                EXPECT(hydra_hear(other[j], HYDRA_NODE_SIZE, packet[i], HYDRA_PACKET_SIZE) == HYDRA_DONE);
        if (packets_sent > 0)
            EXPECT(hydra_hear(other[j], HYDRA_NODE_SIZE, own_packet, sizeof own_packet) == HYDRA_DONE);
    }
}

/* They close. Whatever they send is the same, and those of them that send nothing take it, or what the box sent. */
static void others_close(void)
{
    uint8_t ground[HYDRA_GROUND_SIZE], sent[HYDRA_SCHEDULE_SIZE] = {0};
    for (uint32_t j = OTHERS_FROM; j <= OTHERS_TO; j++) {
        EXPECT(hydra_close(other[j], HYDRA_NODE_SIZE, sent, sizeof sent, ground, sizeof ground) == HYDRA_DONE);
        if (report_of(other[j])[HYDRA_REPORT_PHASE] == HYDRA_SENDING)
            memcpy(others_schedule, sent, sizeof sent);
    }
    const uint8_t *taken = word_at(others_schedule) > 0 ? others_schedule : own_schedule;
    for (uint32_t j = OTHERS_FROM; j <= OTHERS_TO; j++)
        if (word_at(taken) > 0 && report_of(other[j])[HYDRA_REPORT_PHASE] == HYDRA_SILENT)
            EXPECT(hydra_take(other[j], HYDRA_NODE_SIZE, taken, HYDRA_SCHEDULE_SIZE) == HYDRA_DONE);
}

static void others_end(void)
{
    for (uint32_t j = OTHERS_FROM; j <= OTHERS_TO; j++)
        EXPECT(hydra_end(other[j], HYDRA_NODE_SIZE) == HYDRA_DONE);
}

/* Whether one of them may use a slot now. */
static int others_use(uint32_t slot)
{
    for (uint32_t j = OTHERS_FROM; j <= OTHERS_TO; j++)
        if (report_of(other[j])[HYDRA_REPORT_PHASE] == HYDRA_NEGOTIATION && report_of(other[j])[HYDRA_REPORT_OWNERS + slot] == j)
            return 1;
    return 0;
}

/* ---- The radio ---- */

void radio_send(const uint8_t *sent, size_t length)
{
    const uint8_t *body = sent + FRAME_HEAD;
    EXPECT(word_at(sent + FRAME_SITE) == SITE && word_at(sent + FRAME_ROUND) == round_now && sent[FRAME_SENDER] == box.node);
    if (sent[FRAME_KIND] == PACKET) {
        EXPECT(length == FRAME_HEAD + HYDRA_PACKET_SIZE);
        EXPECT(++packets_sent <= TOP_PACKETS);
        memcpy(own_packet, body, HYDRA_PACKET_SIZE);
    } else {
        EXPECT(sent[FRAME_KIND] == SCHEDULE && length == FRAME_HEAD + HYDRA_SCHEDULE_SIZE);
        memcpy(own_schedule, body, HYDRA_SCHEDULE_SIZE);
    }
}

void radio_use(uint32_t slot)
{
    EXPECT(!others_use(slot));
    EXPECT(!in_distribution);
    EXPECT(time_now + SLOT_TIME + GUARD_TIME <= NEGOTIATION_TIME);
    slots_used++;
}

/* A frame of box j in this round. */
static void make_frame(uint32_t site, enum frame_kind kind, uint32_t j)
{
    put_word(frame + FRAME_SITE, site);
    put_word(frame + FRAME_ROUND, round_now);
    frame[FRAME_KIND] = (uint8_t)kind;
    frame[FRAME_SENDER] = (uint8_t)j;
}

/* ---- The moments of a round ---- */

static struct moment moment(enum moment_kind kind)
{
    return (struct moment){.kind = kind, .round = round_now};
}

static struct moment came(const uint8_t *bytes, size_t length)
{
    return (struct moment){.kind = FRAME_CAME, .round = round_now, .bytes = bytes, .length = length};
}

static struct moment nothing_came(uint32_t n)
{
    (void)n;
    return came(NULL, 0);
}

static struct moment cut_off(uint32_t n)
{
    (void)n;
    make_frame(SITE, PACKET, 2);
    return came(frame, FRAME_HEAD + 1);
}

/* A packet that stood in a queue for a round. */
static struct moment late_packet(uint32_t n)
{
    (void)n;
    return came(old_packet, sizeof old_packet);
}

static struct moment packet_of(uint32_t site, uint32_t j)
{
    make_frame(site, PACKET, j);
    EXPECT(hydra_send(other[j], HYDRA_NODE_SIZE, frame + FRAME_HEAD, HYDRA_PACKET_SIZE) == HYDRA_DONE);
    return came(frame, FRAME_HEAD + HYDRA_PACKET_SIZE);
}

/* A box 2 of another site that wants another number of slots. */
static struct moment other_site(uint32_t n)
{
    (void)n;
    struct moment m = packet_of(SITE + 1, 2);
    frame[FRAME_HEAD + 14] = 15;
    return m;
}

static struct moment packet(uint32_t n)
{
    if (n == 0)
        others_talk();
    struct moment m = packet_of(SITE, OTHERS_FROM + n);
    if (n == 0)
        memcpy(old_packet, frame, sizeof old_packet);
    return m;
}

/* More packets than the box may send; then the others hear the last one. */
static struct moment to_send(uint32_t n)
{
    if (n == 1)
        others_talk();
    return moment(TO_SEND);
}

static struct moment slot_begins(uint32_t slot)
{
    time_now = 100;
    return (struct moment){.kind = SLOT_BEGINS, .round = round_now, .slot = slot};
}

/* The service comes to it only when the close is near. */
static struct moment overslept_slot(uint32_t slot)
{
    time_now = NEGOTIATION_TIME - GUARD_TIME;
    return (struct moment){.kind = SLOT_BEGINS, .round = round_now, .slot = slot};
}

static struct moment to_close(uint32_t n)
{
    (void)n;
    in_distribution = 1;
    memset(own_schedule, 0, sizeof own_schedule);
    memset(others_schedule, 0, sizeof others_schedule);
    return moment(TO_CLOSE);
}

static struct moment late_schedule(uint32_t n)
{
    (void)n;
    others_close();
    return came(old_schedule, sizeof old_schedule);
}

static struct moment version_0(uint32_t n)
{
    (void)n;
    make_frame(SITE, SCHEDULE, 2);
    memset(frame + FRAME_HEAD, 0, HYDRA_SCHEDULE_SIZE);
    return came(frame, sizeof frame);
}

/* What the others send, if anything. */
static struct moment schedule(uint32_t n)
{
    (void)n;
    if (word_at(others_schedule) == 0)
        return nothing_came(0);
    make_frame(SITE, SCHEDULE, 2);
    memcpy(frame + FRAME_HEAD, others_schedule, HYDRA_SCHEDULE_SIZE);
    memcpy(old_schedule, frame, sizeof old_schedule);
    return came(frame, sizeof frame);
}

/* The others end the round before the box does. */
static struct moment slot_in_distribution(uint32_t slot)
{
    if (slot == 0)
        others_end();
    return slot_begins(slot);
}

static struct moment to_end(uint32_t n)
{
    (void)n;
    return moment(TO_END);
}

static struct moment maybe_fault(enum fault here)
{
    if (round_now != FAULT_ROUND || fault != here)
        return nothing_came(0);
    memset(box.area, 0xFF, 4);
    return here == RESET_IN_DISTRIBUTION ? moment(RESET) : nothing_came(0);
}

static struct moment fault_before_send(uint32_t n)
{
    (void)n;
    return maybe_fault(OVERWRITTEN_BEFORE_SEND);
}

static struct moment fault_before_end(uint32_t n)
{
    (void)n;
    return maybe_fault(OVERWRITTEN_BEFORE_END);
}

static struct moment reset(uint32_t n)
{
    (void)n;
    return maybe_fault(RESET_IN_DISTRIBUTION);
}

static const struct step {
    struct moment (*moment)(uint32_t n); /* n counts from 0 */
    uint32_t times;
} steps[] = {
    {fault_before_send, 1}, {to_send, 1},     {nothing_came, 1},  {cut_off, 1},       {late_packet, 1},
    {other_site, 1},        {packet, 3},      {to_send, 10},      {slot_begins, SLOTS}, {overslept_slot, SLOTS},
    {to_close, 1},          {reset, 1},       {late_schedule, 1}, {schedule, 1},      {version_0, 1},
    {slot_in_distribution, SLOTS}, {fault_before_end, 1}, {to_end, 1},
};

enum { STEPS = sizeof steps / sizeof steps[0] };

/* ---- The clock, and the runs ---- */

static uint32_t at, done; /* the step, and how often it was taken */
static const struct outcome *expected;

/* The box's version in negotiation; 0 where it is down. */
static void check_version(void)
{
    uint32_t version = box.state == UP ? word_at(report_of(box.area) + HYDRA_REPORT_VERSION) : 0;
    EXPECT(version == expected[round_now].version);
    packets_sent = slots_used = 0;
    in_distribution = 0;
}

uint32_t clock_time(void)
{
    return time_now;
}

struct moment clock_wait(void)
{
    if (at == STEPS) {
        EXPECT(slots_used == expected[round_now].slots);
        at = 0;
        if (++round_now == LAST_ROUND)
            return moment(SWITCHED_OFF);
    }
    if (at == 0)
        check_version();
    struct moment m = steps[at].moment(done);
    if (++done == steps[at].times) {
        done = 0;
        at++;
    }
    return m;
}

int main(void)
{
    for (size_t r = 0; r < sizeof runs / sizeof runs[0]; r++) {
        fault = runs[r].fault;
        expected = runs[r].round;
        round_now = at = done = 0;
        others_begin();
        box = (struct box){.site = SITE, .node = 1, .nodes = NODES, .slots = SLOTS, .rounds = ROUNDS, .heard = 1, .split = 0, .demand = 2};
        EXPECT(start(&box) == HYDRA_DONE);
        serve(&box);
    }
    puts("one box's service, three runs of fourteen rounds with a lost node: as expected");
    return 0;
}
