/* What breaks where a service does not keep the rules of docs/field.md. Each case is a list of steps of three boxes with a clock each, on the C calls, in which one rule is
 * broken: two boxes then use one slot at one moment, or disagree in one negotiation. The same list with the rule kept has neither. No call of either run is refused.
 * (A box that begins anew while others run is tests/c/rejoin.c; boxes that keep the rules are tests/c/apart.c and tests/c/ontime.c.) */
#include "clocks.h"

enum { TOP_STEPS = 64 };

enum harm { ONE_SLOT = 1, DISAGREE = 2 };

/* A step of both runs, of the one that breaks the rule, or of the one that keeps it. */
enum run { BOTH, BREAKS, MENDS };

struct list {
    const char *name;
    int rule; /* the one that it breaks; 0 for what follows the four */
    enum harm harm;
    uint32_t slots, rounds, flags[BOXES], demand[BOXES];
    int until_end; /* the rule that is broken: slots used until the own hydra_end */
    int emptied;   /* boxes empty their receive queues at each close and end */
    struct {
        struct line line;
        enum run run;
    } step[TOP_STEPS];
};

static const struct list lists[] = {
    {"a packet heard one round late", R1, ONE_SLOT, 1, 1, {ALL, ALL, ALL}, {2, 1, 1}, 0, 0,
     {{{SEND, 3, 0, 0}, BOTH}, {{HEAR, 2, 1, 0}, BOTH}, {{SEND, 2, 0, 0}, BOTH}, {{HEAR, 1, 2, 0}, BOTH}, {{HEAR, 3, 2, 0}, BOTH},
      {{SEND, 3, 0, 0}, BOTH}, {{HEAR, 2, 3, 0}, BOTH}, {{SEND, 2, 0, 0}, BOTH}, {{GO, 0, 0, 0}, BOTH}, {{GO, 0, 0, 0}, BOTH},
      {{SEND, 2, 0, 0}, BOTH}, {{HEAR, 3, 5, 0}, BOTH}, {{HEAR, 1, 4, 0}, BREAKS}, {{SEND, 3, 0, 0}, BOTH}, {{HEAR, 2, 6, 0}, BOTH},
      {{GO, 0, 0, 0}, BOTH}, {{GO, 0, 0, 0}, BOTH}}},
    {"a packet that stood in a send queue, receive queues emptied at each close", R1, ONE_SLOT, 2, 1, {ALL, ALL, ALL}, {1, 1, 1}, 0, 1,
     {{{SEND, 1, 0, 0}, BOTH}, {{HEAR, 3, 1, 0}, BOTH}, {{SEND, 3, 0, 0}, BOTH}, {{HEAR, 1, 2, 0}, BOTH}, {{HEAR, 2, 2, 0}, BOTH},
      {{GO, 2, 0, 0}, BOTH}, {{GO, 3, 0, 0}, BOTH}, {{GO, 1, 0, 0}, BOTH}, {{GO, 2, 0, 0}, BOTH}, {{GO, 3, 0, 0}, BOTH}, {{AIR, 1, 0, 0}, BREAKS},
      {{HEAR, 2, 1, 0}, BREAKS}, {{GO, 1, 0, 0}, BOTH}, {{SEND, 1, 0, 0}, BOTH}, {{HEAR, 3, 3, 0}, BOTH}, {{GO, 2, 0, 0}, BOTH},
      {{GO, 1, 0, 0}, BOTH}, {{GO, 3, 0, 0}, BOTH}, {{GO, 3, 0, 0}, BOTH}, {{GO, 2, 0, 0}, BOTH}}},
    {"a packet heard one round early", R1, DISAGREE, 1, 1, {ALL, ALL, ALL}, {0, 2, 0}, 0, 0,
     {{{SEND, 3, 0, 0}, BOTH}, {{HEAR, 1, 1, 0}, BOTH}, {{SEND, 1, 0, 0}, BOTH}, {{HEAR, 2, 2, 0}, BOTH}, {{HEAR, 3, 2, 0}, BOTH},
      {{GO, 3, 0, 0}, BOTH}, {{GO, 2, 0, 0}, BOTH}, {{GO, 3, 0, 0}, BOTH}, {{GO, 2, 0, 0}, BOTH}, {{SEND, 2, 0, 0}, BOTH}, {{HEAR, 3, 3, 0}, BOTH},
      {{GO, 1, 0, 0}, BOTH}, {{GO, 1, 0, 0}, BOTH}, {{SEND, 1, 0, 0}, BOTH}, {{HEAR, 3, 4, 0}, BOTH}, {{GO, 3, 0, 0}, BOTH}, {{GO, 3, 0, 0}, BOTH},
      {{SEND, 3, 0, 0}, BOTH}, {{HEAR, 2, 5, 0}, BREAKS}, {{GO, 2, 0, 0}, BOTH}, {{GO, 2, 0, 0}, BOTH}}},
    {"a schedule taken one round late", R2, ONE_SLOT, 1, 1, {ALL, ALL, ALL}, {2, 1, 2}, 0, 0,
     {{{SEND, 2, 0, 0}, BOTH}, {{HEAR, 3, 1, 0}, BOTH}, {{SEND, 3, 0, 0}, BOTH}, {{HEAR, 1, 2, 0}, BOTH}, {{HEAR, 2, 2, 0}, BOTH},
      {{SEND, 2, 0, 0}, BOTH}, {{HEAR, 3, 3, 0}, BOTH}, {{GO, 0, 0, 0}, BOTH}, {{GO, 0, 0, 0}, BOTH}, {{SEND, 2, 0, 0}, BOTH},
      {{HEAR, 3, 4, 0}, BOTH}, {{SEND, 3, 0, 0}, BOTH}, {{HEAR, 2, 5, 0}, BOTH}, {{GO, 0, 0, 0}, BOTH}, {{TAKE, 1, 1, 0}, BREAKS},
      {{GO, 0, 0, 0}, BOTH}}},
    {"a schedule taken one round early", R2, ONE_SLOT, 2, 2, {ALL, 6, ALL}, {2, 2, 0}, 0, 0,
     {{{SEND, 1, 0, 0}, BOTH}, {{HEAR, 3, 1, 0}, BOTH}, {{SEND, 3, 0, 0}, BOTH}, {{HEAR, 1, 2, 0}, BOTH}, {{HEAR, 2, 2, 0}, BOTH},
      {{GO, 0, 0, 0}, BOTH}, {{GO, 0, 0, 0}, BOTH}, {{GO, 0, 0, 0}, BOTH}, {{GO, 0, 0, 0}, BOTH}, {{SEND, 1, 0, 0}, BOTH}, {{HEAR, 3, 3, 0}, BOTH},
      {{GO, 3, 0, 0}, BOTH}, {{GO, 3, 0, 0}, BOTH}, {{GO, 1, 0, 0}, BOTH}, {{GO, 3, 0, 0}, BOTH}, {{TAKE, 1, 3, 3}, BREAKS}, {{GO, 1, 0, 0}, BOTH}}},
    {"an end that does not wait for a close", R3, ONE_SLOT, 2, 1, {ALL, ALL, 6}, {2, 2, 0}, 0, 0,
     {{{SEND, 2, 0, 0}, BOTH}, {{HEAR, 3, 1, 0}, BOTH}, {{SEND, 3, 0, 0}, BOTH}, {{HEAR, 1, 2, 0}, BOTH}, {{HEAR, 2, 2, 0}, BOTH},
      {{GO, 2, 0, 0}, BOTH}, {{GO, 1, 0, 0}, BOTH}, {{GO, 3, 0, 0}, BOTH}, {{GO, 2, 0, 0}, BOTH}, {{GO, 3, 0, 0}, BOTH}, {{SEND, 3, 0, 0}, BOTH},
      {{HEAR, 2, 3, 0}, BOTH}, {{GO, 1, 0, 0}, BOTH}, {{GO, 2, 0, 0}, BOTH}, {{GO, 1, 0, 0}, MENDS}, {{GO, 3, 0, 0}, MENDS}, {{GO, 2, 0, 0}, BOTH}}},
    {"a restart rounds behind the others", R3, ONE_SLOT, 1, 1, {ALL, ALL, ALL}, {0, 0, 1}, 0, 0,
     {{{SEND, 1, 0, 0}, BOTH}, {{HEAR, 2, 1, 0}, BOTH}, {{SEND, 2, 0, 0}, BOTH}, {{HEAR, 1, 2, 0}, BOTH}, {{HEAR, 3, 2, 0}, BOTH},
      {{WANT, 1, 1, 0}, BOTH}, {{GO, 1, 0, 0}, BOTH}, {{GO, 2, 0, 0}, BOTH}, {{GO, 3, 0, 0}, BOTH}, {{TAKE, 1, 3, 0}, BOTH}, {{GO, 1, 0, 0}, BOTH},
      {{GO, 2, 0, 0}, BOTH}, {{CRASH, 3, 0, 0}, BOTH}, {{SEND, 1, 0, 0}, BOTH}, {{HEAR, 2, 3, 0}, BOTH}, {{SEND, 2, 0, 0}, BOTH},
      {{HEAR, 1, 4, 0}, BOTH}, {{GO, 1, 0, 0}, BOTH}, {{GO, 2, 0, 0}, BOTH}, {{GO, 1, 0, 0}, BOTH}, {{GO, 2, 0, 0}, BOTH}, {{SEND, 2, 0, 0}, BOTH},
      {{HEAR, 1, 5, 0}, BOTH}, {{GO, 2, 0, 0}, BOTH}, {{GO, 1, 0, 0}, BOTH}, {{GO, 1, 0, 0}, BOTH}, {{GO, 2, 0, 0}, BOTH}, {{SEND, 1, 0, 0}, BOTH},
      {{HEAR, 2, 6, 0}, BOTH}, {{SEND, 2, 0, 0}, BOTH}, {{HEAR, 1, 7, 0}, BOTH}, {{GO, 2, 0, 0}, BOTH}, {{GO, 1, 0, 0}, BOTH}, {{GO, 1, 0, 0}, BOTH},
      {{GO, 2, 0, 0}, BOTH}, {{SEND, 2, 0, 0}, BOTH}, {{HEAR, 1, 8, 0}, BOTH}, {{GO, 2, 0, 0}, BOTH}, {{GO, 1, 0, 0}, BOTH}, {{GO, 1, 0, 0}, BOTH},
      {{RESTART, 3, 2, 7}, BREAKS}, {{RESTART, 3, 9, 7}, MENDS}, {{GO, 3, 0, 0}, BREAKS}, {{GO, 3, 0, 0}, BREAKS}, {{GO, 3, 0, 0}, BREAKS},
      {{TAKE, 3, 1, 2}, BREAKS}, {{GO, 3, 0, 0}, BREAKS}}},
    {"ends that do not wait for a waiting box", R3, ONE_SLOT, 1, 1, {ALL, ALL, ALL}, {0, 0, 1}, 0, 0,
     {{{SEND, 1, 0, 0}, BOTH}, {{HEAR, 2, 1, 0}, BOTH}, {{SEND, 2, 0, 0}, BOTH}, {{HEAR, 1, 2, 0}, BOTH}, {{HEAR, 3, 2, 0}, BOTH},
      {{GO, 1, 0, 0}, BOTH}, {{GO, 2, 0, 0}, BOTH}, {{GO, 3, 0, 0}, BOTH}, {{TAKE, 2, 3, 0}, BOTH}, {{GO, 1, 0, 0}, BOTH}, {{GO, 2, 0, 0}, BOTH},
      {{CRASH, 3, 0, 0}, BOTH}, {{RESTART, 3, 2, 7}, BOTH}, {{SEND, 1, 0, 0}, BOTH}, {{HEAR, 2, 3, 0}, BOTH}, {{SEND, 2, 0, 0}, BOTH},
      {{HEAR, 1, 4, 0}, BOTH}, {{WANT, 2, 1, 0}, BOTH}, {{GO, 1, 0, 0}, BOTH}, {{GO, 2, 0, 0}, BOTH}, {{GO, 3, 0, 0}, MENDS}, {{GO, 1, 0, 0}, BOTH},
      {{GO, 2, 0, 0}, BOTH}, {{GO, 3, 0, 0}, MENDS}, {{SEND, 1, 0, 0}, BOTH}, {{HEAR, 2, 5, 0}, BOTH}, {{GO, 2, 0, 0}, BOTH}, {{GO, 1, 0, 0}, BOTH},
      {{GO, 3, 0, 0}, MENDS}, {{GO, 1, 0, 0}, BOTH}, {{GO, 2, 0, 0}, BOTH}, {{GO, 3, 0, 0}, MENDS}, {{SEND, 1, 0, 0}, BOTH}, {{HEAR, 2, 6, 0}, BOTH},
      {{SEND, 2, 0, 0}, BOTH}, {{HEAR, 1, 7, 0}, BOTH}, {{GO, 2, 0, 0}, BOTH}, {{GO, 1, 0, 0}, BOTH}, {{GO, 3, 0, 0}, MENDS}, {{GO, 1, 0, 0}, BOTH},
      {{GO, 2, 0, 0}, BOTH}, {{GO, 3, 0, 0}, MENDS}, {{SEND, 1, 0, 0}, BOTH}, {{HEAR, 2, 8, 0}, BOTH}, {{GO, 1, 0, 0}, BOTH}, {{GO, 2, 0, 0}, BOTH},
      {{GO, 3, 0, 0}, MENDS}, {{GO, 2, 0, 0}, BOTH}, {{GO, 3, 0, 0}, BREAKS}, {{GO, 3, 0, 0}, BREAKS}, {{GO, 3, 0, 0}, BREAKS},
      {{TAKE, 3, 2, 2}, BREAKS}, {{GO, 3, 0, 0}, BREAKS}}},
    {"a restart that goes back to its neighbour's place", R4, DISAGREE, 2, 1, {5, ALL, ALL}, {1, 1, 0}, 0, 0,
     {{{SEND, 1, 0, 0}, BOTH}, {{HEAR, 2, 1, 0}, BOTH}, {{HEAR, 3, 1, 0}, BOTH}, {{GO, 2, 0, 0}, BOTH}, {{SEND, 3, 0, 0}, BOTH},
      {{HEAR, 1, 2, 0}, BOTH}, {{GO, 3, 0, 0}, BOTH}, {{GO, 1, 0, 0}, BOTH}, {{GO, 1, 0, 0}, BOTH}, {{GO, 3, 0, 0}, BOTH}, {{SEND, 1, 0, 0}, BOTH},
      {{HEAR, 3, 3, 0}, BOTH}, {{CRASH, 1, 0, 0}, BOTH}, {{RESTART, 1, 1, 3}, BREAKS}, {{RESTART, 1, 2, 3}, MENDS}, {{GO, 3, 0, 0}, BOTH},
      {{GO, 2, 0, 0}, BOTH}, {{GO, 1, 0, 0}, BREAKS}, {{SEND, 2, 0, 0}, BOTH}, {{HEAR, 1, 4, 0}, BREAKS}, {{GO, 2, 0, 0}, BOTH},
      {{GO, 1, 0, 0}, BOTH}, {{GO, 3, 0, 0}, BOTH}, {{GO, 1, 0, 0}, BOTH}}},
    {"slots used until the own end", 0, ONE_SLOT, 2, 1, {ALL, ALL, ALL}, {1, 1, 2}, 1, 0,
     {{{SEND, 3, 0, 0}, BOTH}, {{HEAR, 1, 1, 0}, BOTH}, {{SEND, 1, 0, 0}, BOTH}, {{HEAR, 2, 2, 0}, BOTH}, {{HEAR, 3, 2, 0}, BOTH},
      {{GO, 3, 0, 0}, BOTH}, {{GO, 1, 0, 0}, BOTH}, {{GO, 2, 0, 0}, BOTH}, {{GO, 3, 0, 0}, BOTH}, {{GO, 1, 0, 0}, BOTH}, {{SEND, 1, 0, 0}, BOTH},
      {{HEAR, 3, 3, 0}, BOTH}, {{GO, 3, 0, 0}, BOTH}, {{GO, 2, 0, 0}, BOTH}, {{GO, 2, 0, 0}, BOTH}, {{GO, 1, 0, 0}, BOTH}, {{GO, 3, 0, 0}, BOTH}}},
    {"a request changed on the air, within the layout", 0, ONE_SLOT, 1, 1, {ALL, ALL, ALL}, {1, 1, 1}, 0, 0,
     {{{SEND, 3, 0, 0}, BOTH}, {{HEAR, 1, 1, 0}, BOTH}, {{HEAR, 2, 1, 0}, BOTH}, {{SEND, 2, 0, 0}, BOTH}, {{HEAR, 1, 2, 0}, BOTH},
      {{SEND, 1, 0, 0}, BOTH}, {{CHANGE, 3, 1, 0}, BREAKS}, {{HEAR, 2, 3, 0}, BOTH}, {{GO, 0, 0, 0}, BOTH}, {{GO, 0, 0, 0}, BOTH}}},
};

static struct boxes s;

/* One step, and the rules that it breaks; box 0 stands for all three in turn. */
static int take(const struct list *l, struct line line)
{
    uint32_t first = line.a, last = line.a;
    int broken = 0;
    if (line.step == GO && line.a == 0) {
        first = 1;
        last = BOXES;
    }
    EXPECT(line.step != HEAR || !l->emptied || s.packet[line.b - 1].received[line.a - 1] == s.box[line.a - 1].clock);
    for (line.a = first; line.a <= last; line.a++) {
        broken |= broken_by(&s, &line);
        EXPECT(take_step(&s, &line) == HYDRA_DONE);
    }
    return broken;
}

/* What harm a run of a list does at any of its moments. The one run breaks the list's rule, the other does not. */
static int harm_of(const struct list *l, int broken)
{
    int harm = 0, rules = 0;
    start(&s, l->slots, l->rounds, l->flags, l->demand);
    s.until_end = broken && l->until_end;
    for (uint32_t n = 0; l->step[n].line.step != STOP; n++)
        if (l->step[n].run == BOTH || (l->step[n].run == BREAKS) == broken) {
            rules |= take(l, l->step[n].line);
            harm |= (one_slot(&s) ? ONE_SLOT : 0) | (disagree(&s) ? DISAGREE : 0);
        }
    EXPECT((rules & l->rule) == (broken ? l->rule : 0));
    return harm;
}

int main(void)
{
    for (size_t i = 0; i < sizeof lists / sizeof *lists; i++) {
        int kept = harm_of(&lists[i], 0), broken = harm_of(&lists[i], 1);
        printf("%s: %s\n", lists[i].name, broken & ONE_SLOT ? "two boxes use one slot" : broken & DISAGREE ? "two boxes disagree" : "no harm");
        EXPECT(kept == 0 && (broken & lists[i].harm));
    }
    return 0;
}
