/* One box's service over the node's calls, to copy from. docs/box.md says why it does what it does.
 * box-run.c is a fake clock and radio with other boxes behind it; tests/c/advice has edits of this file that break a rule,
 * and the run must notice each of them. */
#include "box.h"

#include <string.h>

#include "expect.h"

static uint32_t bit_of(uint32_t node)
{
    return 1u << (node - 1);
}

/* No slot is this box's. */
static void give_up_slots(struct box *b)
{
    memset(b->may_send, 0, sizeof b->may_send);
}

/* A round starts: the slots that the node owns now are the box's until its own close. A node that waits has none. */
static uint32_t start_round(struct box *b)
{
    uint64_t own[HYDRA_SLOTS_SIZE];
    give_up_slots(b);
    b->packets = 0;
    uint32_t answer = hydra_slots(b->area, sizeof b->area, own, HYDRA_SLOTS_SIZE);
    if (answer == HYDRA_DONE)
        for (uint32_t k = 0; k < b->slots; k++)
            b->may_send[k] = (uint8_t)hydra_slot_in(own, k + 1);
    return answer == HYDRA_WRONG_PHASE ? HYDRA_DONE : answer;
}

/* The whole site starts together: all boxes at version 0, each with the flags of all. */
uint32_t start(struct box *b)
{
    uint32_t all = 0xFFFFFFFFu >> (HYDRA_TOP_NODES - b->nodes);
    b->state = UP;
    uint32_t answer = hydra_begin(b->area, sizeof b->area, b->node, b->nodes, b->slots, b->rounds, b->heard, b->split, 0, all, b->demand);
    return answer != HYDRA_DONE ? answer : start_round(b);
}

/* The node is lost, by a reset or by 14. The box is down, and the round in which it is lost is not one to restart in. */
static void lose_node(struct box *b)
{
    give_up_slots(b);
    b->state = LOST;
    b->flags = bit_of(b->node);
}

/* The box has listened through a whole negotiation, so the box whose clock it follows has closed since. Now it restarts,
 * and waits for the epoch's end. Its demand is 0 until it is set again. An area of another length is 14 here too. */
static void come_back(struct box *b, uint32_t round)
{
    uint32_t answer =
        hydra_restart(b->area, sizeof b->area, b->node, b->nodes, b->slots, b->rounds, b->heard, b->split, b->flags, round % b->rounds);
    EXPECT(answer == HYDRA_DONE); /* else the configuration is wrong: a service stops here and says so */
    EXPECT(hydra_want(b->area, sizeof b->area, b->demand) == HYDRA_DONE);
    b->state = UP;
}

static void send_frame(const struct box *b, uint32_t round, enum frame_kind kind, const uint8_t *body, size_t length)
{
    uint8_t frame[FRAME_HEAD + HYDRA_SCHEDULE_SIZE];
    put_word(frame + FRAME_SITE, b->site);
    put_word(frame + FRAME_ROUND, round);
    frame[FRAME_KIND] = (uint8_t)kind;
    frame[FRAME_SENDER] = (uint8_t)b->node;
    memcpy(frame + FRAME_HEAD, body, length);
    radio_send(frame, FRAME_HEAD + length);
}

static uint32_t send_packet(struct box *b, uint32_t round)
{
    uint8_t packet[HYDRA_PACKET_SIZE];
    if (b->packets == TOP_PACKETS)
        return HYDRA_DONE;
    uint32_t answer = hydra_send(b->area, sizeof b->area, packet, sizeof packet);
    if (answer == HYDRA_DONE) {
        b->packets++;
        send_frame(b, round, PACKET, packet, sizeof packet);
    }
    return answer;
}

/* The box may have overslept, so it looks at the time before each use of a slot. */
static void use_slot(const struct box *b, uint32_t slot)
{
    if (b->may_send[slot] && clock_time() + SLOT_TIME + GUARD_TIME <= NEGOTIATION_TIME)
        radio_use(slot);
}

/* The body of a frame of this round is handed on; the call itself refuses a kind that belongs to the other phase, as 4.
 * No box sends version 0, so a schedule with it is not one of ours. */
static uint32_t hand_on(struct box *b, const uint8_t *frame, size_t length)
{
    const uint8_t *body = frame + FRAME_HEAD;
    size_t rest = length - FRAME_HEAD;
    if (frame[FRAME_KIND] == PACKET)
        return hydra_hear(b->area, sizeof b->area, body, rest);
    if (frame[FRAME_KIND] == SCHEDULE && rest >= 4 && word_at(body) > 0)
        return hydra_take(b->area, sizeof b->area, body, rest);
    return HYDRA_DONE;
}

/* What came from another site or in another round is dropped. A box that is down only notes whom it hears. */
static uint32_t frame_came(struct box *b, uint32_t round, const uint8_t *frame, size_t length)
{
    if (length < FRAME_HEAD || word_at(frame + FRAME_SITE) != b->site || word_at(frame + FRAME_ROUND) != round)
        return HYDRA_DONE;
    uint32_t sender = frame[FRAME_SENDER];
    if (b->state == LISTENS && 1 <= sender && sender <= b->nodes)
        b->flags |= bit_of(sender);
    return b->state == UP ? hand_on(b, frame, length) : HYDRA_DONE;
}

/* Negotiation ends, and with it the use of the slots. A node that sends has its schedule in the output. */
static uint32_t close_round(struct box *b, uint32_t round)
{
    uint8_t schedule[HYDRA_SCHEDULE_SIZE], ground[HYDRA_GROUND_SIZE], report[HYDRA_REPORT_SIZE];
    give_up_slots(b); /* not at the end: another box may have ended before */
    uint32_t answer = hydra_close(b->area, sizeof b->area, schedule, sizeof schedule, ground, sizeof ground);
    if (answer != HYDRA_DONE)
        return answer;
    answer = hydra_read(b->area, sizeof b->area, report, sizeof report);
    if (answer == HYDRA_DONE && report[HYDRA_REPORT_PHASE] == HYDRA_SENDING)
        send_frame(b, round, SCHEDULE, schedule, sizeof schedule);
    return answer;
}

static uint32_t end_round(struct box *b)
{
    uint32_t answer = hydra_end(b->area, sizeof b->area);
    return answer != HYDRA_DONE ? answer : start_round(b);
}

/* A box that is up. */
static uint32_t do_moment(struct box *b, const struct moment *m)
{
    switch (m->kind) {
    case TO_SEND:
        return send_packet(b, m->round);
    case SLOT_BEGINS:
        use_slot(b, m->slot);
        return HYDRA_DONE;
    case FRAME_CAME:
        return frame_came(b, m->round, m->bytes, m->length);
    case TO_CLOSE:
        return close_round(b, m->round);
    case TO_END:
        return end_round(b);
    default:
        return HYDRA_DONE;
    }
}

/* A box that is down listens from the next start of a round to that round's close. */
static void listen(struct box *b, const struct moment *m)
{
    if (m->kind == FRAME_CAME)
        frame_came(b, m->round, m->bytes, m->length);
    else if (m->kind == TO_END && b->state == LOST)
        b->state = LISTENS;
    else if (m->kind == TO_CLOSE && b->state == LISTENS)
        come_back(b, m->round);
}

/* The loop. 9 to 13 is a packet or schedule to drop, 4 a node that waits or a frame of the other phase: both are passed
 * over, since the area is as it was. A box that finds its node lost at an end listens from there. */
void serve(struct box *b)
{
    for (struct moment m = clock_wait(); m.kind != SWITCHED_OFF; m = clock_wait()) {
        if (m.kind == RESET || (b->state == UP && do_moment(b, &m) == HYDRA_NOT_A_NODE))
            lose_node(b);
        if (b->state != UP)
            listen(b, &m);
    }
}
