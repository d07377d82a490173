#define _DEFAULT_SOURCE
#include "timing.h"

#include <time.h>

int64_t now(void)
{
    struct timespec t;
    clock_gettime(CLOCK_MONOTONIC, &t);
    return (int64_t)t.tv_sec * 1000000 + t.tv_nsec / 1000;
}

static int64_t cycle_length(const struct timing *t)
{
    return (int64_t)(t->slots + t->nodes) * t->slot;
}

int64_t phase_length(const struct timing *t, enum phase phase)
{
    return cycle_length(t) * (phase == NEGOTIATION ? t->negotiation : t->distribution);
}

int64_t round_length(const struct timing *t)
{
    return phase_length(t, NEGOTIATION) + phase_length(t, DISTRIBUTION);
}

/* Each slot of a cycle, and the box's own turn. */
static uint32_t moments_in_cycle(const struct timing *t)
{
    return t->slots + 1;
}

uint32_t moments_in_round(const struct timing *t)
{
    return (t->negotiation + t->distribution) * moments_in_cycle(t) + 2;
}

static struct moment moment_of_cycle(const struct timing *t, uint32_t node, uint32_t cycle, uint32_t index)
{
    int is_slot = index < t->slots;
    uint32_t part = is_slot ? index : t->slots + node - 1;
    int64_t start = cycle_length(t) * cycle + t->slot * part;
    return (struct moment){
        .kind = is_slot ? USE_SLOT : TAKE_TURN,
        .slot = is_slot ? index + 1 : 0,
        .from = start + t->guard,
        .to = start + t->slot - t->guard - t->air,
    };
}

struct moment moment_of_round(const struct timing *t, uint32_t node, uint32_t index)
{
    uint32_t close = t->negotiation * moments_in_cycle(t), end = moments_in_round(t) - 1;
    if (index == close)
        return (struct moment){.kind = CLOSE, .from = phase_length(t, NEGOTIATION)};
    if (index == end)
        return (struct moment){.kind = END, .from = round_length(t)};
    uint32_t i = index < close ? index : index - 1; /* the close stands between the phases */
    return moment_of_cycle(t, node, i / moments_in_cycle(t), i % moments_in_cycle(t));
}

uint64_t calls_made(struct place at)
{
    return 2 * (uint64_t)at.round + (at.phase == DISTRIBUTION);
}
