/* Boxes with a clock each that keep the rules of docs/field.md, by random lists:
 * - any order of the boxes' steps, with packets and schedules of the own round alone (R1, R2) and clocks that never go back (R4): no two boxes disagree in a negotiation
 *   that both have come to, and each box holds, in every phase, the bytes of the sorted list under one clock (docs/desk.md, "From the boxes' logs to a script");
 * - the same with ends that wait and restarts abreast (R3): no two boxes use one slot at one moment.
 * `apart COUNT` runs COUNT lists of each kind. tests/c/stale.c breaks the rules one by one. */
#include "clocks.h"

enum { TOP_LINES = 256, MOST_ROUNDS = 12 };

static uint64_t seed = 88172645463325252u;

static uint32_t below(uint32_t n)
{
    seed ^= seed << 13;
    seed ^= seed >> 7;
    seed ^= seed << 17;
    return (uint32_t)(seed >> 20) % n;
}

static struct boxes s;

/* What each box did, by the clock at which it did it: `late` from its first crash or restart in a distribution on. */
struct entry {
    struct line line;
    uint32_t clock;
    int late;
};

static struct entry log_of[BOXES][TOP_LINES];
static uint32_t logged[BOXES];
static uint8_t held[BOXES][2 * MOST_ROUNDS + 4][HYDRA_NODE_SIZE]; /* by clock: the area as it last was, */
static uint8_t was_up[BOXES][2 * MOST_ROUNDS + 4];                /* and whether the box was up */

static void note(const struct line *l, uint32_t clock)
{
    struct entry *e = log_of[l->a - 1], *end = e + logged[l->a - 1];
    int late = clock % 2 == 1 && (l->step == CRASH || l->step == RESTART);
    EXPECT(logged[l->a - 1] < TOP_LINES);
    for (; e < end; e++)
        late |= e->clock == clock && e->late;
    *end = (struct entry){*l, clock, late};
    logged[l->a - 1]++;
}

static void keep(uint32_t j)
{
    const struct box *b = &s.box[j - 1];
    was_up[j - 1][b->clock] = (uint8_t)b->up;
    memcpy(held[j - 1][b->clock], b->area, sizeof b->area);
}

/* A step that is done and noted, or one that the box's host refuses. */
static void step(struct line l)
{
    struct box *b = &s.box[l.a - 1];
    uint32_t clock = l.step == RESTART ? l.b : b->clock;
    EXPECT((broken_by(&s, &l) & ~R3) == 0);
    if (take_step(&s, &l) != HYDRA_DONE)
        return;
    if (l.step != GO)
        note(&l, clock);
    keep(l.a);
}

static void go(uint32_t j, int orderly)
{
    struct line l = {GO, j, 0, 0};
    if (s.box[j - 1].clock < 2 * MOST_ROUNDS && !(orderly && broken_by(&s, &l)))
        step(l);
}

/* The clock of a box that was down may have gone on by any number of calls. */
static void come_up(uint32_t j, int orderly)
{
    struct line l = {RESTART, j, s.box[j - 1].clock + below(4), below(ALL + 1) | 1u << (j - 1)};
    if (l.b > 2 * MOST_ROUNDS || (orderly && broken_by(&s, &l)))
        return;
    while (s.box[j - 1].clock < l.b)
        step((struct line){GO, j, 0, 0});
    step(l);
}

/* A send, heard at once by those in the same negotiation whom the radio reaches. */
static void talk(uint32_t j, uint32_t reach)
{
    uint32_t p = s.packets + 1;
    if (p > TOP_PACKETS)
        return;
    step((struct line){SEND, j, 0, 0});
    for (uint32_t i = 1; p == s.packets && i <= BOXES; i++)
        if (below(100) < reach && s.box[i - 1].clock == s.box[j - 1].clock && is_live(&s.box[i - 1]))
            step((struct line){HEAR, i, p, 0});
}

/* A packet of the own negotiation, however long ago it was sent; a schedule of the own distribution, whatever its sender has done since. */
static void hear_late(uint32_t j)
{
    uint32_t p = 1 + below(TOP_PACKETS);
    if (p <= s.packets && s.packet[p - 1].round == s.box[j - 1].clock / 2)
        step((struct line){HEAR, j, p, 0});
}

static void take(uint32_t j)
{
    uint32_t i = 1 + below(BOXES), round = s.box[j - 1].clock / 2;
    if (s.box[i - 1].sent[round])
        step((struct line){TAKE, j, i, round});
}

static void some_step(int orderly, uint32_t reach)
{
    uint32_t j = 1 + below(BOXES), what = below(100);
    struct box *b = &s.box[j - 1];
    if (what < 25)
        go(j, orderly);
    else if (!b->up)
        come_up(j, orderly);
    else if (what < 95 && is_live(b))
        negotiates(b) ? what < 85 ? talk(j, reach) : hear_late(j) : take(j);
    else if (what < 98)
        step((struct line){WANT, j, below(3), 0});
    else if (what == 99)
        step((struct line){CRASH, j, 0, 0});
}

/* The sorted list. */

static struct boxes one;
static uint32_t number_of[TOP_PACKETS + 1]; /* a packet's number there */

/* The entries of one phase, a box's own in its order, the boxes' in any: only a hearing stands behind the send of its packet. */
static void replay_phase(uint32_t clock, int late)
{
    uint32_t at[BOXES] = {0}, sent_here[BOXES] = {0};
    for (int left = 1; left > 0;) {
        left = 0;
        for (uint32_t turn = 0, first = below(BOXES); turn < BOXES; turn++) {
            uint32_t i = (first + turn) % BOXES;
            struct line l;
            while (at[i] < logged[i] && (log_of[i][at[i]].clock != clock || log_of[i][at[i]].late != late))
                at[i]++;
            if (at[i] == logged[i])
                continue;
            left++;
            l = log_of[i][at[i]].line;
            if (l.step == HEAR) {
                if (number_of[l.b] == 0)
                    continue;
                l.b = number_of[l.b];
            }
            if (l.step == SEND) {
                uint32_t p = 1, mine = 0;
                for (; p <= s.packets; p++)
                    if (s.packet[p - 1].sender == i + 1 && s.packet[p - 1].round == clock / 2 && mine++ == sent_here[i])
                        break;
                sent_here[i]++;
                number_of[p] = one.packets + 1;
            }
            EXPECT(l.step != TAKE || is_live(&one.box[l.b - 1])); /* else a replay refuses it as 5 */
            EXPECT(take_step(&one, &l) == HYDRA_DONE);
            at[i]++;
        }
    }
}

static void compare(uint32_t clock)
{
    for (uint32_t i = 0; i < BOXES; i++)
        if (clock <= s.box[i].clock) {
            EXPECT(one.box[i].up == was_up[i][clock]);
            EXPECT(!one.box[i].up || memcmp(one.box[i].area, held[i][clock], HYDRA_NODE_SIZE) == 0);
        }
}

static void replay(uint32_t slots, uint32_t rounds, const uint32_t *flags, const uint32_t *demand)
{
    uint32_t last = 0;
    for (uint32_t i = 0; i < BOXES; i++)
        last = s.box[i].clock > last ? s.box[i].clock : last;
    start(&one, slots, rounds, flags, demand);
    memset(number_of, 0, sizeof number_of);
    for (uint32_t clock = 0; clock <= last; clock++) {
        replay_phase(clock, 0);
        if (clock % 2 == 1)
            replay_phase(clock, 1);
        compare(clock);
        for (uint32_t j = 1; j <= BOXES; j++) {
            struct line l = {GO, j, 0, 0};
            EXPECT(take_step(&one, &l) == HYDRA_DONE);
        }
    }
}

/* What the lists did, so that a run in which nothing happens is seen. */
static unsigned long versions, in_use, rounds_apart;

static void one_list(int orderly)
{
    uint32_t slots = 1 + below(2), rounds = 1 + below(2), flags[BOXES], demand[BOXES], steps = 20 + below(120), reach = 40 + below(61);
    for (uint32_t i = 0; i < BOXES; i++) {
        flags[i] = below(3) ? ALL : below(ALL + 1) | 1u << i;
        demand[i] = below(3);
    }
    memset(logged, 0, sizeof logged);
    start(&s, slots, rounds, flags, demand);
    for (uint32_t j = 1; j <= BOXES; j++)
        keep(j);
    for (; steps > 0; steps--) {
        some_step(orderly, reach);
        EXPECT(!orderly || !one_slot(&s));
    }
    EXPECT(!disagree(&s));
    for (uint32_t i = 0; i < BOXES; i++) {
        uint32_t round = s.box[i].clock / 2;
        versions += s.box[i].read[round] ? word_at(s.box[i].report[round]) : 0;
        rounds_apart += s.box[i].clock / 2 != s.box[0].clock / 2;
        for (uint32_t k = 0; k < slots; k++)
            in_use += s.box[i].uses[k];
    }
    replay(slots, rounds, flags, demand);
}

int main(int argc, char **argv)
{
    long count = argc > 1 ? atol(argv[1]) : 10000;
    for (int orderly = 0; orderly < 2; orderly++) {
        versions = in_use = rounds_apart = 0;
        for (long i = 0; i < count; i++)
            one_list(orderly);
        printf("%ld lists with R1, R2, R4%s: boxes agree and are those of the sorted list (versions %lu, slots in use %lu, boxes rounds apart %lu)\n", count,
               orderly ? " and R3, no slot used twice" : "", versions, in_use, rounds_apart);
        EXPECT(versions > 0 && in_use > 0 && rounds_apart > 0);
    }
    return 0;
}
