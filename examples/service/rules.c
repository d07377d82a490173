#include "rules.h"

int is_of_site(uint32_t site, uint32_t node, uint32_t nodes, const struct frame *f)
{
    return f->site == site && f->sender >= 1 && f->sender <= nodes && f->sender != node;
}

int may_hear(struct place at, const struct frame *f)
{
    return f->kind == FRAME_PACKET && at.phase == NEGOTIATION && f->round == at.round;
}

int may_take(struct place at, const struct frame *f)
{
    return f->kind == FRAME_SCHEDULE && at.phase == DISTRIBUTION && f->round == at.round;
}

int times_fit(const struct timing *t, int64_t skew, int64_t age)
{
    return skew + age <= phase_length(t, NEGOTIATION) && skew + age <= phase_length(t, DISTRIBUTION);
}

int has_gone_on(struct place first_heard, struct place heard_now)
{
    return calls_made(heard_now) > calls_made(first_heard);
}

int may_use_slots(struct place at)
{
    return at.phase == NEGOTIATION;
}
