/* Boxes that keep time, with no number of the round on the air (docs/field.md, "By time"): a timetable, boxes whose calls come at most `skew` after it, packets and schedules
 * that arrive at most `age` after they were written, skew + age at most the shortest phase, and restarts no sooner than `skew` after the crash. Random runs, step by step
 * in time: what is heard or taken is of the own round, no clock goes back, no two boxes use one slot, and no two disagree.
 * Then the same with each bound one too large, or restarts at once: now a rule is broken in some run.
 * `ontime COUNT` runs COUNT of each. */
#include "clocks.h"

enum { CALLS = 24, TOP_MESSAGES = 512, SHORTEST = 6, SKEW = 2, AGE = 4, LONGER = 5 };

static uint64_t seed = 88172645463325252u;

static uint32_t below(uint32_t n)
{
    seed ^= seed << 13;
    seed ^= seed >> 7;
    seed ^= seed << 17;
    return (uint32_t)(seed >> 20) % n;
}

static struct boxes s;

/* What one run is held to. */
static struct {
    uint32_t skew, age, wait; /* wait: a restart comes no sooner after the crash */
} rule;

/* A packet (from 1), or a schedule of a round (packet 0), on its way. */
struct message {
    uint32_t arrives, to, packet, from, round;
};

static struct message message[TOP_MESSAGES];
static uint32_t messages, due[CALLS + 2], next_call[BOXES], crashed_at[BOXES];

static int rules_kept;

static void set_call(uint32_t i, uint32_t now)
{
    uint32_t call = due[s.box[i].clock + 1] + below(rule.skew + 1);
    next_call[i] = call < now ? now : call;
}

/* To each other box, unless it is lost on the way. */
static void transmit(uint32_t now, uint32_t from, uint32_t packet)
{
    for (uint32_t j = 1; j <= BOXES; j++)
        if (j != from && below(4) > 0 && messages < TOP_MESSAGES)
            message[messages++] = (struct message){now + below(rule.age + 1), j, packet, from, s.box[from - 1].clock / 2};
}

static void call(uint32_t i, uint32_t now)
{
    struct box *b = &s.box[i];
    struct line l = {GO, i + 1, 0, 0};
    EXPECT(take_step(&s, &l) == HYDRA_DONE);
    if (!negotiates(b) && b->up && b->sent[b->clock / 2])
        transmit(now, i + 1, 0);
    set_call(i, now + 1);
}

/* A message that has arrived is handed to its call at once; the call refuses what is out of phase as 4. */
static void arrive(const struct message *m)
{
    struct box *b = &s.box[m->to - 1];
    struct line l = m->packet > 0 ? (struct line){HEAR, m->to, m->packet, 0} : (struct line){TAKE, m->to, m->from, m->round};
    if (is_live(b) && take_step(&s, &l) == HYDRA_DONE)
        rules_kept &= b->clock / 2 == m->round; /* R1, R2 */
}

/* A restart with a clock that is on time, whichever of those. */
static void come_up(uint32_t i, uint32_t now)
{
    struct box *b = &s.box[i];
    uint32_t before = b->clock, clock = 0;
    while (clock < CALLS && due[clock + 1] <= now)
        clock++;
    if (clock > 0 && now < due[clock] + rule.skew && below(2))
        clock--;
    if (clock >= CALLS)
        return;
    rules_kept &= before <= clock; /* R4 */
    if (before <= clock)
        EXPECT(take_step(&s, &(struct line){RESTART, i + 1, clock, below(ALL + 1) | 1u << i}) == HYDRA_DONE);
    set_call(i, now);
}

static void act(uint32_t i, uint32_t now)
{
    struct box *b = &s.box[i];
    uint32_t what = below(100);
    if (!b->up) {
        if (crashed_at[i] + rule.wait <= now && what < 20)
            come_up(i, now);
    } else if (what == 0) {
        take_step(&s, &(struct line){CRASH, i + 1, 0, 0});
        crashed_at[i] = now;
    } else if (what < 5) {
        take_step(&s, &(struct line){WANT, i + 1, below(3), 0});
    } else if (what < 60 && is_live(b) && negotiates(b) && s.packets < TOP_PACKETS) {
        if (take_step(&s, &(struct line){SEND, i + 1, 0, 0}) == HYDRA_DONE)
            transmit(now, i + 1, s.packets);
    }
}

/* Whether a run kept the rules; one that does has no slot used twice and no boxes that disagree. */
static int run(void)
{
    static const uint32_t flags[BOXES] = {ALL, ALL, ALL};
    const uint32_t demand[BOXES] = {below(3), below(3), below(3)};
    rules_kept = 1;
    messages = 0;
    for (uint32_t n = 0; n <= CALLS; n++)
        due[n + 1] = due[n] + SHORTEST + below(LONGER);
    start(&s, 1 + below(2), 1 + below(2), flags, demand);
    for (uint32_t i = 0; i < BOXES; i++)
        set_call(i, 0);
    for (uint32_t now = 0; now < due[CALLS - 1] && rules_kept; now++) {
        for (uint32_t i = 0; i < BOXES; i++)
            if (s.box[i].up && next_call[i] == now)
                call(i, now);
        for (uint32_t m = 0; m < messages; m++)
            if (message[m].arrives == now)
                arrive(&message[m]);
        for (uint32_t i = 0; i < BOXES; i++)
            act(i, now);
        EXPECT(!rules_kept || rule.skew > SHORTEST || !one_slot(&s));
    }
    EXPECT(!rules_kept || !disagree(&s));
    return rules_kept;
}

static long runs_kept(long count, uint32_t skew, uint32_t age, uint32_t wait, unsigned long *versions)
{
    long kept = 0;
    rule.skew = skew;
    rule.age = age;
    rule.wait = wait;
    for (long n = 0; n < count; n++) {
        kept += run();
        for (uint32_t i = 0; i < BOXES; i++)
            *versions += s.box[i].read[s.box[i].clock / 2] ? word_at(s.box[i].report[s.box[i].clock / 2]) : 0;
    }
    return kept;
}

int main(int argc, char **argv)
{
    long count = argc > 1 ? atol(argv[1]) : 2000;
    unsigned long versions = 0, other = 0;
    long kept = runs_kept(count, SKEW, AGE, SKEW, &versions);
    long older = runs_kept(count, SKEW, AGE + 1, SKEW, &other), wider = runs_kept(count, SKEW + 1, AGE, SKEW + 1, &other), sooner = runs_kept(count, SKEW, AGE, 0, &other);
    printf("on time: %ld of %ld runs kept the rules, at versions of %lu in all; with an age one larger %ld, a skew one larger %ld, restarts at once %ld\n", kept, count,
           versions, older, wider, sooner);
    EXPECT(kept == count && versions > 0 && older < count && wider < count && sooner < count);
    return 0;
}
