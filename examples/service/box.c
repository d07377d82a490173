#include "box.h"

#include "rules.h"

#include <string.h>

/* ---- Calls and their answers ---- */

/* Whether a call was done. A refused call has changed nothing, and the box goes on without it. After 14 the area is of
 * no use any more: the box comes back as after a reset. */
static int done(struct box *b, const char *call, uint32_t answer)
{
    if (answer != HYDRA_DONE)
        journal_call(b->journal, b->at, "refused %s %u", call, answer);
    if (answer == HYDRA_NOT_A_NODE)
        b->lost = 1;
    return answer == HYDRA_DONE;
}

/* Whether the node sends its schedule in this distribution. */
static int node_sends(struct box *b)
{
    uint8_t report[HYDRA_REPORT_SIZE];
    int known = done(b, "read", hydra_read(b->area, sizeof b->area, report, sizeof report));
    return known && report[HYDRA_REPORT_PHASE] == HYDRA_SENDING;
}

static void want(struct box *b, uint32_t demand)
{
    if (!done(b, "want", hydra_want(b->area, sizeof b->area, demand)))
        return;
    journal_call(b->journal, b->at, "want %u", demand);
    b->demand = demand;
}

/* ---- Time ---- */

static int64_t round_start(const struct box *b)
{
    return b->start + b->at.round * round_length(&b->settings->timing);
}

static struct moment next_moment(const struct box *b)
{
    return moment_of_round(&b->settings->timing, b->settings->node, b->next);
}

int64_t box_due(const struct box *b)
{
    return round_start(b) + next_moment(b).from;
}

/* ---- Sending ---- */

static void broadcast(const struct box *b, uint8_t kind, uint8_t number, const uint8_t *body)
{
    const struct settings *s = b->settings;
    uint32_t since = (uint32_t)(now() - round_start(b));
    struct frame f = {s->site, b->at.round, since, kind, (uint8_t)s->node, number, {0}};
    memcpy(f.body, body, body_length(kind));
    radio_broadcast(b->radio, &f);
}

/* The log is written before the packet is sent, here and at the close: see journal.h. */
static void send_packet(struct box *b)
{
    uint8_t packet[HYDRA_PACKET_SIZE];
    if (b->packets == TOP_PACKETS || !done(b, "send", hydra_send(b->area, sizeof b->area, packet, sizeof packet)))
        return;
    b->packets++;
    journal_call(b->journal, b->at, "send %u", b->packets);
    broadcast(b, FRAME_PACKET, (uint8_t)b->packets, packet);
}

static void take_turn(struct box *b)
{
    if (b->at.phase == NEGOTIATION && !b->waiting)
        send_packet(b);
    if (b->at.phase == DISTRIBUTION && b->sends)
        broadcast(b, FRAME_SCHEDULE, 0, b->schedule);
}

/* The box's own traffic. The times in the log are for whoever checks the logs of a run.
 * A radio is handed the time by which a frame must be on the air, and refuses a late one. UDP has no such time, so the
 * box looks at the clock once more: if it was stalled meanwhile, the frame counts as refused. */
static void use_slot(struct box *b, uint32_t slot, int64_t latest)
{
    uint8_t body = (uint8_t)slot;
    int64_t from = now();
    if (!b->owns[slot - 1] || !may_use_slots(b->at) || from > latest)
        return;
    broadcast(b, FRAME_DATA, 0, &body);
    int64_t sent = now(), to = sent + b->settings->timing.air;
    if (sent <= latest)
        journal_call(b->journal, b->at, "use %u %lld %lld", slot, (long long)from, (long long)to);
    else
        journal_call(b->journal, b->at, "late %u", slot);
}

/* ---- The round ---- */

/* The slots that are the node's now, in negotiation, are the box's until its own close. A node that waits is refused
 * them as 4. */
static void start_round(struct box *b)
{
    uint64_t own[HYDRA_SLOTS_SIZE];
    const struct settings *s = b->settings;
    uint32_t answer = hydra_slots(b->area, sizeof b->area, own, HYDRA_SLOTS_SIZE);
    b->waiting = answer != HYDRA_DONE;
    b->packets = 0;
    b->sends = 0;
    memset(b->owns, 0, sizeof b->owns);
    if (answer != HYDRA_WRONG_PHASE && done(b, "slots", answer))
        for (uint32_t k = 0; k < s->slots; k++)
            b->owns[k] = (uint8_t)hydra_slot_in(own, k + 1);
    if (b->at.round >= s->change_round && b->demand != s->changed_demand)
        want(b, s->changed_demand);
}

/* The box does not act on the schedule that its node has from now on, until the round has ended. A node that sends
 * passes it on. */
static void close_round(struct box *b)
{
    static const char *const rules[] = {"", "missing", "majority", "lower", "repeats", "top", "determined", "sent"};
    uint8_t ground[HYDRA_GROUND_SIZE], *schedule = b->schedule;
    if (done(b, "close", hydra_close(b->area, sizeof b->area, schedule, HYDRA_SCHEDULE_SIZE, ground, sizeof ground))) {
        const char *rule = rules[ground[HYDRA_GROUND_RULE]];
        journal_call(b->journal, b->at, "close %s %u", rule, ground[HYDRA_GROUND_MISSING]);
        b->sends = node_sends(b);
    }
}

static void end_round(struct box *b)
{
    if (!done(b, "end", hydra_end(b->area, sizeof b->area)))
        return;
    journal_call(b->journal, b->at, "end");
    b->at = (struct place){b->at.round + 1, NEGOTIATION};
    start_round(b);
}

/* A box that overslept sends nothing: its slot or turn may be another's by now. */
void box_act(struct box *b)
{
    struct moment m = next_moment(b);
    int64_t latest = round_start(b) + m.to;
    b->next = m.kind == END ? 0 : b->next + 1;
    if (m.kind == USE_SLOT)
        use_slot(b, m.slot, latest);
    if (m.kind == TAKE_TURN && now() <= latest)
        take_turn(b);
    if (m.kind == CLOSE && !b->waiting)
        close_round(b);
    if (m.kind == CLOSE)
        b->at.phase = DISTRIBUTION; /* a waiting box makes no close, but its clock goes on */
    if (m.kind == END)
        end_round(b);
}

/* ---- Hearing and taking ---- */

/* The number in the frame is written to the log, so it must be of the box that made the packet. */
static void hear(struct box *b, const struct frame *f)
{
    if (f->body[0] == f->sender && done(b, "hear", hydra_hear(b->area, sizeof b->area, f->body, HYDRA_PACKET_SIZE)))
        journal_call(b->journal, b->at, "hear %u %u", f->sender, f->number);
}

/* A box that sends takes nothing. No box sends version 0, so such a schedule is damaged or foreign. */
static void take(struct box *b, const struct frame *f)
{
    if (b->sends || get_word(f->body) == 0)
        return;
    if (done(b, "take", hydra_take(b->area, sizeof b->area, f->body, HYDRA_SCHEDULE_SIZE)))
        journal_call(b->journal, b->at, "take %u", f->sender);
}

void box_receive(struct box *b, const struct frame *f)
{
    if (b->waiting || b->lost)
        return;
    if (may_hear(b->at, f))
        hear(b, f);
    if (may_take(b->at, f))
        take(b, f);
}

/* ---- Beginning and coming back ---- */

static uint32_t own_flag(const struct settings *s)
{
    return UINT32_C(1) << (s->node - 1);
}

static uint32_t every_flag(const struct settings *s)
{
    return UINT32_MAX >> (HYDRA_TOP_NODES - s->nodes);
}

int box_begin(struct box *b, int64_t start)
{
    const struct settings *s = b->settings;
    enum { VERSION = 1 }; /* the same in all boxes */
    b->start = start;
    b->at = (struct place){0, NEGOTIATION};
    b->next = 0;
    b->demand = s->demand;
    uint32_t answer = hydra_begin(b->area, sizeof b->area, s->node, s->nodes, s->slots, s->rounds, s->heard, s->split,
                                  VERSION, every_flag(s), s->demand);
    if (!done(b, "begin", answer))
        return 0;
    journal_call(b->journal, b->at, "begin %u %u %u", VERSION, every_flag(s), s->demand);
    start_round(b);
    return 1;
}

/* The place that the clock shows. */
static void take_up_clock(struct box *b, int64_t start)
{
    const struct timing *t = &b->settings->timing;
    int64_t since = now() - start;
    b->start = start;
    b->at.round = (uint32_t)(since / round_length(t));
    b->at.phase = since % round_length(t) < phase_length(t, NEGOTIATION) ? NEGOTIATION : DISTRIBUTION;
    for (b->next = 0; next_moment(b).from <= since % round_length(t);)
        b->next++;
}

/* The flags are the boxes heard since the reset, and the own one. If a box that is down were in them, the whole site
 * would wait for its request until the epoch ends. A restarted node wants nothing until it is told. */
int box_restart(struct box *b, int64_t start, uint32_t heard)
{
    const struct settings *s = b->settings;
    uint32_t flags = heard | own_flag(s);
    take_up_clock(b, start);
    b->lost = 0;
    b->waiting = 1;
    b->sends = 0;
    memset(b->owns, 0, sizeof b->owns);
    uint32_t answer = hydra_restart(b->area, sizeof b->area, s->node, s->nodes, s->slots, s->rounds, s->heard, s->split,
                                    flags, b->at.round % s->rounds);
    if (!done(b, "restart", answer))
        return 0;
    journal_call(b->journal, b->at, "restart %u", flags);
    want(b, b->at.round >= s->change_round ? s->changed_demand : s->demand);
    return 1;
}
