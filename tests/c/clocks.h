/* Three boxes with a clock each, on the C calls alone: the model of crates/apart/specs/Apart.antt, for the tests of docs/field.md.
 * A clock counts the closes and ends that it has come past: it is even in negotiation and odd in distribution, and half of it is the round.
 * A box uses a slot from its reading in negotiation to its own close. */
#ifndef CLOCKS_H
#define CLOCKS_H

#include <string.h>

#include "expect.h"
#include "hydra.h"

enum { BOXES = 3, ALL = 7, TOP_PACKETS = 256, TOP_CLOCK = 64, TOP_SENT = 8 };

enum step {
    STOP,
    SEND,    /* a fills the next packet; packets are counted from 1 over the whole list */
    HEAR,    /* a hears packet b */
    GO,      /* the clock of a goes on: hydra_close, or hydra_end */
    TAKE,    /* a takes what b sent at its close of round c */
    WANT,    /* a wants b slots */
    CRASH,   /* a crashes */
    RESTART, /* a restarts with the clock at b and the flags c */
    CHANGE,  /* on the air the request of box b in packet a becomes c */
    AIR,     /* packet a goes on the air now, and not when it was filled */
};

struct line {
    enum step step;
    uint32_t a, b, c;
};

struct packet {
    uint32_t sender, round, received[BOXES]; /* received: the clock of each box when the packet was on the air */
    uint8_t bytes[HYDRA_PACKET_SIZE];
};

struct box {
    int up;
    uint32_t clock, sends; /* sends: packets of this negotiation */
    uint8_t area[HYDRA_NODE_SIZE];
    uint8_t out[TOP_CLOCK][HYDRA_SCHEDULE_SIZE];  /* by round: what it sent at its close, */
    uint8_t sent[TOP_CLOCK];                      /* and whether it did */
    uint8_t report[TOP_CLOCK][HYDRA_REPORT_SIZE]; /* by round: what it last read in negotiation, */
    uint8_t read[TOP_CLOCK];                      /* and whether it was live there */
    uint8_t uses[HYDRA_TOP_SLOTS];
};

struct boxes {
    uint32_t slots, rounds, packets;
    int until_end; /* a service that uses its slots until its hydra_end */
    struct box box[BOXES];
    struct packet packet[TOP_PACKETS];
};

static void report_of(const struct box *b, uint8_t *report)
{
    EXPECT(hydra_read(b->area, sizeof b->area, report, HYDRA_REPORT_SIZE) == HYDRA_DONE);
}

static int phase_of(const struct box *b)
{
    uint8_t r[HYDRA_REPORT_SIZE];
    report_of(b, r);
    return r[HYDRA_REPORT_PHASE];
}

static int is_live(const struct box *b)
{
    return b->up && phase_of(b) != HYDRA_WAITING;
}

static int negotiates(const struct box *b)
{
    return b->clock % 2 == 0;
}

/* What a box reads after a step of its own: in negotiation it is noted, and the slots with the own number are in use from then on. */
static void look(const struct boxes *s, struct box *b, uint32_t j)
{
    uint32_t round = b->clock / 2;
    int live = is_live(b);
    if (negotiates(b)) {
        b->read[round] = (uint8_t)live;
        if (live)
            report_of(b, b->report[round]);
        for (uint32_t k = 0; k < s->slots; k++)
            b->uses[k] = live && b->report[round][HYDRA_REPORT_OWNERS + k] == j;
    } else if (!b->up || !s->until_end) {
        memset(b->uses, 0, sizeof b->uses);
    }
}

static void start(struct boxes *s, uint32_t slots, uint32_t rounds, const uint32_t *flags, const uint32_t *demand)
{
    memset(s, 0, sizeof *s);
    s->slots = slots;
    s->rounds = rounds;
    for (uint32_t i = 0; i < BOXES; i++) {
        struct box *b = &s->box[i];
        EXPECT(hydra_begin(b->area, sizeof b->area, i + 1, BOXES, slots, rounds, 1, 0, 1, flags[i], demand[i]) == HYDRA_DONE);
        b->up = 1;
        look(s, b, i + 1);
    }
}

/* A clock goes on: a live box closes, a box that is up ends. */
static uint32_t go_on(struct box *b)
{
    uint8_t ground[HYDRA_GROUND_SIZE];
    uint32_t round = b->clock / 2, answer = HYDRA_DONE;
    if (negotiates(b) && is_live(b)) {
        answer = hydra_close(b->area, sizeof b->area, b->out[round], HYDRA_SCHEDULE_SIZE, ground, sizeof ground);
        b->sent[round] = phase_of(b) == HYDRA_SENDING;
    } else if (!negotiates(b) && b->up) {
        answer = hydra_end(b->area, sizeof b->area);
    }
    b->clock++;
    b->sends = 0;
    return answer;
}

static void on_air(const struct boxes *s, struct packet *p)
{
    for (uint32_t i = 0; i < BOXES; i++)
        p->received[i] = s->box[i].clock;
}

/* A packet into the next place; a service counts its packets itself. */
static uint32_t fill(struct boxes *s, struct box *b, uint32_t j)
{
    struct packet *p = &s->packet[s->packets];
    uint32_t answer;
    if (b->sends == TOP_SENT)
        return HYDRA_ALL_SENT;
    answer = hydra_send(b->area, sizeof b->area, p->bytes, sizeof p->bytes);
    if (answer == HYDRA_DONE) {
        p->sender = j;
        p->round = b->clock / 2;
        on_air(s, p);
        b->sends++;
        s->packets++;
    }
    return answer;
}

/* One step, by the calls alone: none of the rules of docs/field.md is tested here. */
static uint32_t take_step(struct boxes *s, const struct line *l)
{
    struct box *b = l->step == CHANGE || l->step == AIR ? NULL : &s->box[l->a - 1];
    uint32_t answer = HYDRA_DONE;
    switch (l->step) {
    case SEND:
        answer = fill(s, b, l->a);
        break;
    case HEAR:
        answer = hydra_hear(b->area, sizeof b->area, s->packet[l->b - 1].bytes, HYDRA_PACKET_SIZE);
        break;
    case GO:
        answer = go_on(b);
        break;
    case TAKE:
        answer = s->box[l->b - 1].sent[l->c] ? hydra_take(b->area, sizeof b->area, s->box[l->b - 1].out[l->c], HYDRA_SCHEDULE_SIZE) : HYDRA_WRONG_SENDER;
        break;
    case WANT:
        answer = hydra_want(b->area, sizeof b->area, l->b);
        break;
    case CRASH:
        b->up = 0;
        memset(b->area, 0xA5, sizeof b->area);
        break;
    case RESTART:
        b->clock = l->b;
        answer = hydra_restart(b->area, sizeof b->area, l->a, BOXES, s->slots, s->rounds, 1, 0, l->c, l->b / 2 % s->rounds);
        b->up = 1;
        b->sends = 0;
        break;
    case CHANGE:
        s->packet[l->a - 1].bytes[12 + l->b] = (uint8_t)l->c; /* the requests stand behind the sender and three words */
        break;
    case AIR:
        on_air(s, &s->packet[l->a - 1]);
        break;
    case STOP:
        break;
    }
    if (b != NULL)
        look(s, b, l->a);
    return answer;
}

/* Where a clock has come to a round, the other has closed the one before. */
static inline int abreast(uint32_t c, uint32_t d)
{
    return c / 2 * 2 <= d + 1 && d / 2 * 2 <= c + 1;
}

/* R3: an end waits for the close of every box that is up, and a restart is abreast of them. */
static inline int out_of_turn(const struct boxes *s, const struct line *l)
{
    const struct box *b = &s->box[l->a - 1];
    for (uint32_t i = 0; i < BOXES; i++)
        if (i != l->a - 1 && s->box[i].up && (l->step == RESTART ? !abreast(s->box[i].clock, l->b) : b->up && !negotiates(b) && s->box[i].clock < b->clock))
            return 1;
    return 0;
}

/* The rules that a step breaks. */
enum rule { R1 = 1, R2 = 2, R3 = 4, R4 = 8 };

static inline int broken_by(const struct boxes *s, const struct line *l)
{
    switch (l->step) {
    case HEAR:
        return s->packet[l->b - 1].round == s->box[l->a - 1].clock / 2 ? 0 : R1;
    case TAKE:
        return l->c == s->box[l->a - 1].clock / 2 ? 0 : R2;
    case GO:
        return out_of_turn(s, l) ? R3 : 0;
    case RESTART:
        return (out_of_turn(s, l) ? R3 : 0) | (l->b < s->box[l->a - 1].clock ? R4 : 0);
    default:
        return 0;
    }
}

/* Whether two reports agree: versions at most one apart, the same owners at one version, no slot of two boxes. */
static int agree(const uint8_t *q, const uint8_t *r)
{
    uint32_t v = word_at(q), w = word_at(r);
    if (v == 0 || w == 0)
        return 1;
    for (uint32_t k = HYDRA_REPORT_OWNERS; k < HYDRA_REPORT_OWNERS + HYDRA_TOP_SLOTS; k++)
        if (q[k] != r[k] && (v == w || (q[k] != 0 && r[k] != 0)))
            return 0;
    return v <= w + 1 && w <= v + 1;
}

/* Two boxes disagree in a negotiation that both have come to. */
static int disagree(const struct boxes *s)
{
    for (uint32_t round = 0; round < TOP_CLOCK; round++)
        for (uint32_t i = 0; i < BOXES; i++)
            for (uint32_t j = 0; j < i; j++)
                if (s->box[i].read[round] && s->box[j].read[round] && !agree(s->box[i].report[round], s->box[j].report[round]))
                    return 1;
    return 0;
}

/* Two boxes use one slot at this moment. */
static int one_slot(const struct boxes *s)
{
    for (uint32_t k = 0; k < s->slots; k++) {
        int users = 0;
        for (uint32_t i = 0; i < BOXES; i++)
            users += s->box[i].uses[k];
        if (users > 1)
            return 1;
    }
    return 0;
}

#endif
