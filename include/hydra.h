/* hydra.h: the calls of the Hydra node core for a box's service. Archive libhydra.a, x86-64 only.
 *
 * All functions keep their state in memory that the caller lends, and nowhere else. So the calls
 * are re-entrant: two threads may make them at once on different memory.
 * Each call returns HYDRA_DONE or a refusal. After a refusal every lent byte is what it was.
 * Memory that a call writes must not overlap other memory of the same call.
 * A slice of no bytes may be NULL with length 0. No other pointer may be NULL.
 * In areas, packets, schedules and reports a word is 4 bytes, highest byte first.
 *
 * The calls need no other library, no C library and no runtime. The desk's calls are in
 * hydra-desk.h. This header is for C89 and later, and for C++. */
#ifndef HYDRA_H
#define HYDRA_H

#include <stddef.h>
#include <stdint.h>

/* The release. A release with the same major number keeps the layout of node areas, packets and
 * schedules, the script's format and the symbols (docs/versions.md). */
#define HYDRA_VERSION_MAJOR 2
#define HYDRA_VERSION_MINOR 0
#define HYDRA_VERSION_PATCH 0
#define HYDRA_VERSION "2.0.0"

/* An answer that nobody looks at is a mistake, and the compiler says so where it can. */
#if defined(__GNUC__) || defined(__clang__)
#define HYDRA_ANSWER __attribute__((warn_unused_result)) uint32_t
#define HYDRA_INLINE static __inline__ __attribute__((unused))
#else
#define HYDRA_ANSWER uint32_t
#define HYDRA_INLINE static
#endif

/* A call whose arguments have changed has a symbol of its own, so that an object that was
 * compiled with an older header does not link. */
#define hydra_begin hydra_begin_3
#define hydra_restart hydra_restart_3
#define hydra_close hydra_close_2

#ifdef __cplusplus
extern "C" {
#endif

/* Limits: N (nodes), K (slots) and F (rounds in an epoch) from 1, versions and demands from 0. */
#define HYDRA_TOP_NODES 32
#define HYDRA_TOP_SLOTS 80
#define HYDRA_TOP_ROUNDS 32
#define HYDRA_TOP_VERSION 1000000
#define HYDRA_TOP_DEMAND 15

/* Bytes of a node area, exactly, and of what the node's calls write and read. */
#define HYDRA_NODE_SIZE 828
#define HYDRA_PACKET_SIZE 45
#define HYDRA_SCHEDULE_SIZE 84
#define HYDRA_REPORT_SIZE 96

/* Numbers that hydra_slots writes. */
#define HYDRA_SLOTS_SIZE 3

/* Where a node area holds its slots, for a box that looks them up without a call
 * (docs/node-area.md).
 * Node j has a first word of 8 bytes at HYDRA_NODE_FIRST + 8 * (j - 1), a second word of 2 bytes
 * at HYDRA_NODE_SECOND + 2 * (j - 1), both highest byte first, and a byte that counts its slots
 * at HYDRA_NODE_HELD + (j - 1). Slot k + 1 is bit k of the first word for k < 64, and bit k - 64
 * of the second word from there on.
 * The rule of hydra_slots decides when a box uses these slots: the word at HYDRA_NODE_VERSION is
 * above 0 (at version 0 all masks are 0), and the byte at HYDRA_NODE_PHASE is HYDRA_NEGOTIATION.
 * No test is made here. The bytes say what hydra_read would tell if the last call on the area
 * answered HYDRA_DONE; after HYDRA_NOT_A_NODE they mean nothing. */
#define HYDRA_NODE_NUMBER 0
#define HYDRA_NODE_VERSION 24
#define HYDRA_NODE_PHASE 58
#define HYDRA_NODE_FIRST 124
#define HYDRA_NODE_SECOND 380
#define HYDRA_NODE_HELD 444

/* Bytes of the ground of a close: the rule, and the lowest missing node, 0 for none. */
#define HYDRA_GROUND_SIZE 2
#define HYDRA_GROUND_RULE 0
#define HYDRA_GROUND_MISSING 1

/* Places in a report. Version, flags and place are words. The owner of slot k + 1 is the byte at
 * HYDRA_REPORT_OWNERS + k. */
#define HYDRA_REPORT_VERSION 0
#define HYDRA_REPORT_OWNERS 4
#define HYDRA_REPORT_FLAGS 84
#define HYDRA_REPORT_PLACE 88
#define HYDRA_REPORT_DEMAND 92
#define HYDRA_REPORT_REQUEST 93
#define HYDRA_REPORT_PHASE 94
#define HYDRA_REPORT_UPDATED 95

/* The phase byte of a report and of a node area. */
enum hydra_phase {
    HYDRA_NEGOTIATION = 0,
    HYDRA_SILENT = 1,  /* distribution, and the node doesn't send */
    HYDRA_SENDING = 2, /* distribution, and the node sends its version and schedule */
    HYDRA_WAITING = 3  /* restarted: waits for the epoch's end */
};

/* The rule of a close: why a node sends what it sends, or nothing. The first that applies is
 * given, with two exceptions. A node that sends a new schedule always gives HYDRA_RULE_SENT.
 * While a schedule that an earlier round determined is not yet due, the rule is
 * HYDRA_RULE_DETERMINED, and the node may still repeat its old schedule. */
enum hydra_rule {
    HYDRA_RULE_MISSING = 1,    /* the request of a node of the merged flags is missing */
    HYDRA_RULE_MAJORITY = 2,   /* the merged flags are no majority; never with split 1 */
    HYDRA_RULE_LOWER = 3,      /* versions differ, and its own is lower */
    HYDRA_RULE_REPEATS = 4,    /* versions differ, and it repeats its old schedule */
    HYDRA_RULE_TOP = 5,        /* at the top version */
    HYDRA_RULE_DETERMINED = 6, /* determined, and not yet due */
    HYDRA_RULE_SENT = 7        /* a new schedule is sent */
};

/* Answers. The calls of a box (hydra_begin to hydra_slots) test their numbers (2, 3), then 14, 4,
 * 10, 15, 11, 12, 9, 13, and return the first that applies. The order of each other call is told
 * there. */
enum hydra_answer {
    HYDRA_DONE = 0,
    HYDRA_BAD_NAMES = 1,     /* a script: a names line is wrong, or a line before the events is
                                missing */
    HYDRA_OUT_OF_RANGE = 2,  /* a number out of range: N, K, F, heard, split, version, flags,
                                demand, place, epoch; a site's event that is none */
    HYDRA_NO_SUCH_NODE = 3,  /* the node is not 1 to N; in a group also: nothing is loaded at
                                that number, or a load's number is not 1 to 8 */
    HYDRA_WRONG_PHASE = 4,   /* the call belongs to another phase, or the node waits */
    HYDRA_NOT_LIVE = 5,      /* a site's event: the node, or a take's sender, is not live; for
                                a want and a crash: it is down */
    HYDRA_NOT_DOWN = 6,      /* a site's event: the node to restart is up */
    HYDRA_ALL_SENT = 7,      /* a site's event: the node has sent its 8 packets of the phase */
    HYDRA_NO_PACKET = 8,     /* a site's event: no packet of the phase has that number */
    HYDRA_OWN_PACKET = 9,    /* the packet is the node's own */
    HYDRA_WRONG_SENDER = 10, /* the taker sends itself; a site's event also: the sender sends
                                nothing */
    HYDRA_WRONG_LENGTH = 11, /* the packet or schedule has another length */
    HYDRA_BAD_CONTENTS = 12, /* its contents break the layout */
    HYDRA_TWO_REQUESTS = 13, /* merging the packet would give one node two different requests */
    HYDRA_NOT_A_NODE = 14,   /* the area is not what the library writes for a node, or has
                                another length; a site's end: the tally breaks its rules */
    HYDRA_NO_ROOM = 15,      /* too short: the output, the place of a close's ground, a packet
                                area, or the memory of a site or a group; a script above
                                40,000 bytes */
    HYDRA_BAD_WINDOWS = 16,  /* a list of windows or a day breaks the rules */
    HYDRA_CROWDED = 17,      /* a send in a group finds no place: its site has its 16 packets,
                                and the 128 that all sites share are in use */
    HYDRA_NOT_GIVEN = 18     /* the script does not give the refusal number that was asked for */
};

/* What a node wants from epoch `first` of the day to the one before `end`: node 1 to N, first
 * below end, end at most the day, demand 0 to 15. A list has at most 64 windows, and two windows
 * of one node share no epoch. */
struct hydra_window {
    uint32_t node;
    uint32_t first;
    uint32_t end;
    uint32_t demand;
};

#define HYDRA_TOP_WINDOWS 64
#define HYDRA_TOP_DAY 1440

/* ---- The calls. docs/box.md tells how a service uses them. ---- */

/* The release of the library as one number: 1002003 is 1.2.3. */
uint32_t hydra_version(void);

/* A node begins, where the whole site starts together: its number, N, K, F, heard, split,
 * version 0 or 1 with every slot free, flags (bit j - 1 for node j), demand.
 * All boxes of a site take the same N, K, F, heard and split; no call can test that. They should
 * take the same version too: 0 is the best one, and with different versions the first slots come
 * later.
 * The flags must have the own bit; give those of all N boxes. Of a number outside 1 to N the own
 * bit is not asked: the answer is HYDRA_NO_SUCH_NODE.
 * `heard` is 1 to F: a node is in the flags of the next epoch if it was heard in so many rounds.
 * With split 1 no majority is asked for: parts of a site that don't hear each other both go on,
 * and two boxes may own one slot, even after the parts meet (docs/box.md, "A site that may
 * split").
 * A box that comes back while others run calls hydra_restart. If it begins instead, two boxes
 * can own one slot in negotiation (tests/c/rejoin.c). */
HYDRA_ANSWER hydra_begin(uint8_t *area, size_t area_length, uint32_t node, uint32_t nodes,
                         uint32_t slots, uint32_t rounds, uint32_t heard, uint32_t split,
                         uint32_t version, uint32_t flags, uint32_t demand);

/* A node restarts while others run, after a reset or HYDRA_NOT_A_NODE: it waits at the place (0
 * to F - 1) of the running round, and begins at version 0 when the epoch ends. Its demand is 0
 * until hydra_want. After a reset a box restarts even if its area survived (tests/c/survived.c).
 * The place must not go back. A box that takes it from a neighbour's clock stays down until that
 * neighbour has made its next hydra_close or hydra_end, since the neighbour may be a phase
 * behind the round in which the box was reset. Restarted at once, boxes can disagree though
 * every call answers HYDRA_DONE (tests/c/restart-back.c).
 * The flags are the boxes heard since the reset, and the own one. With the flag of a box that is
 * down the whole site determines nothing for an epoch (samples/restart-flags-all.script).
 * An area of another length is HYDRA_NOT_A_NODE here too: then restarting again does not help. */
HYDRA_ANSWER hydra_restart(uint8_t *area, size_t area_length, uint32_t node, uint32_t nodes,
                           uint32_t slots, uint32_t rounds, uint32_t heard, uint32_t split,
                           uint32_t flags, uint32_t place);

/* Negotiation: the packet to send, 45 bytes at the start of the output. The node stays as it is.
 * A box sends at most 8 packets in a negotiation; the service counts them. */
HYDRA_ANSWER hydra_send(const uint8_t *area, size_t area_length, uint8_t *out, size_t out_length);

/* Negotiation: a packet was heard. Hand over only packets of this site that were sent in the
 * round in which this box is now: a packet carries no round, so the service's frame must
 * (docs/box.md). One packet that is heard a round late can put two boxes into one slot. */
HYDRA_ANSWER hydra_hear(uint8_t *area, size_t area_length, const uint8_t *packet,
                        size_t packet_length);

/* Negotiation ends, distribution begins. A node that now sends has the 84 bytes to send at the
 * start of the output; any other writes none and needs no output. The phase in the report tells
 * which.
 * The ground is written to the start of `ground`, HYDRA_GROUND_SIZE bytes: the rule, and the
 * lowest node of the merged flags whose request is missing, 0 for none, under any rule.
 * Before this call the box stops using its slots. */
HYDRA_ANSWER hydra_close(uint8_t *area, size_t area_length, uint8_t *out, size_t out_length,
                         uint8_t *ground, size_t ground_length);

/* Distribution: the 84 bytes of a sender are taken, its version and schedule. Hand over only
 * what was sent at the close of the round in which this box is now, and with a version above 0:
 * no box sends version 0, but the layout allows it, and the call would take it. */
HYDRA_ANSWER hydra_take(uint8_t *area, size_t area_length, const uint8_t *schedule,
                        size_t schedule_length);

/* The round ends; after F rounds the epoch ends. No box ends a round before every box that is
 * up, a waiting one too, has closed it. A service keeps that by time: docs/box.md, "Clocks". */
HYDRA_ANSWER hydra_end(uint8_t *area, size_t area_length);

/* Another demand, 0 to 15. The request follows when the version changes. */
HYDRA_ANSWER hydra_want(uint8_t *area, size_t area_length, uint32_t demand);

/* Negotiation: the slots that the box may use, three numbers at the start of the output. Bit k of
 * the first is slot k + 1, for k from 0 to 63; bit k of the second slot 65 + k, for k from 0 to
 * 15; the third is how many these are.
 * How long: until its own hydra_close, and not until its hydra_end. Boxes end at different
 * moments, and a box that has ended may own a slot that this one still had
 * (tests/c/ends-apart.c).
 * In distribution, and while the node waits, the answer is HYDRA_WRONG_PHASE: by then some boxes
 * have the new schedule and others the old one (samples/two-owners-in-distribution.script).
 * With split 1 an own slot may be another box's too. */
HYDRA_ANSWER hydra_slots(const uint8_t *area, size_t area_length, uint64_t *out,
                         size_t out_length);

/* What the node holds: a report of 96 bytes at the start of the output, in any phase. In
 * negotiation the slots at which it has the box's own number are those of hydra_slots. */
HYDRA_ANSWER hydra_read(const uint8_t *area, size_t area_length, uint8_t *out, size_t out_length);

/* What a node wants as an epoch of the day begins: the demand of its window that holds then, or
 * 0 outside its windows, is written to *demand. A node without windows leaves *demand as it was,
 * and so does a refusal. Tested in this order: 2 for N outside 1 to 32, 3 for
 * a node outside 1 to N, 16 for the day and the list, 2 for an epoch that is not below the day.
 * In the last round of an epoch a box asks after its hydra_close and all takings, right before
 * its hydra_end, for the epoch that then begins, and hands the demand to hydra_want. */
HYDRA_ANSWER hydra_demand(uint32_t nodes, uint32_t node, uint32_t day,
                          const struct hydra_window *windows, size_t windows_length, uint32_t epoch,
                          uint32_t *demand);

/* ---- Thin parts over the calls: nothing below is a call of its own. ---- */

/* A node area that cannot have another length. */
struct hydra_node {
    uint8_t bytes[HYDRA_NODE_SIZE];
};

/* The five figures that all boxes of a site share. */
struct hydra_settings {
    uint32_t nodes;
    uint32_t slots;
    uint32_t rounds;
    uint32_t heard;
    uint32_t split;
};

/* What hydra_read tells, as numbers. The owner of slot k + 1 is owners[k]. */
struct hydra_report {
    uint32_t version;
    uint32_t flags;
    uint32_t place;
    uint8_t owners[HYDRA_TOP_SLOTS];
    uint8_t demand;
    uint8_t request;
    uint8_t phase;
    uint8_t updated;
};

/* A word of an area, a packet, a schedule or a report. */
HYDRA_INLINE uint32_t hydra_word(const uint8_t *at)
{
    return (uint32_t)at[0] << 24 | (uint32_t)at[1] << 16 | (uint32_t)at[2] << 8 | (uint32_t)at[3];
}

/* hydra_begin and hydra_restart with the figures by name. */
HYDRA_INLINE HYDRA_ANSWER hydra_node_begin(struct hydra_node *node, uint32_t number,
                                           const struct hydra_settings *site, uint32_t version,
                                           uint32_t flags, uint32_t demand)
{
    return hydra_begin(node->bytes, HYDRA_NODE_SIZE, number, site->nodes, site->slots,
                       site->rounds, site->heard, site->split, version, flags, demand);
}

HYDRA_INLINE HYDRA_ANSWER hydra_node_restart(struct hydra_node *node, uint32_t number,
                                             const struct hydra_settings *site, uint32_t flags,
                                             uint32_t place)
{
    return hydra_restart(node->bytes, HYDRA_NODE_SIZE, number, site->nodes, site->slots,
                         site->rounds, site->heard, site->split, flags, place);
}

/* hydra_read with its report as numbers; after a refusal *report is what it was. */
HYDRA_INLINE HYDRA_ANSWER hydra_node_read(const struct hydra_node *node,
                                          struct hydra_report *report)
{
    uint8_t out[HYDRA_REPORT_SIZE];
    unsigned k;
    uint32_t answer = hydra_read(node->bytes, HYDRA_NODE_SIZE, out, HYDRA_REPORT_SIZE);
    if (answer != HYDRA_DONE)
        return answer;
    report->version = hydra_word(out + HYDRA_REPORT_VERSION);
    report->flags = hydra_word(out + HYDRA_REPORT_FLAGS);
    report->place = hydra_word(out + HYDRA_REPORT_PLACE);
    for (k = 0; k < HYDRA_TOP_SLOTS; k++)
        report->owners[k] = out[HYDRA_REPORT_OWNERS + k];
    report->demand = out[HYDRA_REPORT_DEMAND];
    report->request = out[HYDRA_REPORT_REQUEST];
    report->phase = out[HYDRA_REPORT_PHASE];
    report->updated = out[HYDRA_REPORT_UPDATED];
    return answer;
}

/* Whether the three numbers of hydra_slots have a slot (1 to K). */
HYDRA_INLINE int hydra_slot_in(const uint64_t *slots, uint32_t slot)
{
    uint32_t k = slot - 1;
    return k < HYDRA_TOP_SLOTS && (slots[k / 64] >> k % 64 & 1) != 0;
}

/* Read from the area without a call. As above: they say something only if the last call on the
 * area answered HYDRA_DONE, and while no other thread makes a call on it. */
HYDRA_INLINE uint32_t hydra_node_version(const struct hydra_node *node)
{
    return hydra_word(node->bytes + HYDRA_NODE_VERSION);
}

HYDRA_INLINE uint32_t hydra_node_phase(const struct hydra_node *node)
{
    return node->bytes[HYDRA_NODE_PHASE];
}

/* Whether the box may use a slot (1 to K) now, by its node: it is in negotiation and the slot is
 * its own. Whether its close is overdue only its clock knows: look at the time too. */
HYDRA_INLINE int hydra_owns(const struct hydra_node *node, uint32_t slot)
{
    uint32_t own = hydra_word(node->bytes + HYDRA_NODE_NUMBER);
    uint32_t k = slot - 1;
    const uint8_t *first, *second;
    if (hydra_node_phase(node) != HYDRA_NEGOTIATION || own - 1 >= HYDRA_TOP_NODES)
        return 0;
    first = node->bytes + HYDRA_NODE_FIRST + 8 * (own - 1);
    second = node->bytes + HYDRA_NODE_SECOND + 2 * (own - 1);
    if (k < 64)
        return first[7 - k / 8] >> k % 8 & 1;
    if (k < HYDRA_TOP_SLOTS)
        return second[1 - (k - 64) / 8] >> k % 8 & 1;
    return 0;
}

/* How many slots the box may use now: 0 outside negotiation. */
HYDRA_INLINE uint32_t hydra_owned(const struct hydra_node *node)
{
    uint32_t own = hydra_word(node->bytes + HYDRA_NODE_NUMBER);
    if (hydra_node_phase(node) != HYDRA_NEGOTIATION || own - 1 >= HYDRA_TOP_NODES)
        return 0;
    return node->bytes[HYDRA_NODE_HELD + (own - 1)];
}

/* An answer in words, and a rule of a close. */
HYDRA_INLINE const char *hydra_answer_text(uint32_t answer)
{
    switch (answer) {
    case HYDRA_DONE:
        return "done";
    case HYDRA_BAD_NAMES:
        return "a names line is wrong, or a line is missing";
    case HYDRA_OUT_OF_RANGE:
        return "a number is out of range";
    case HYDRA_NO_SUCH_NODE:
        return "no such node";
    case HYDRA_WRONG_PHASE:
        return "wrong phase";
    case HYDRA_NOT_LIVE:
        return "the node is not live";
    case HYDRA_NOT_DOWN:
        return "the node is not down";
    case HYDRA_ALL_SENT:
        return "the node has sent its 8 packets";
    case HYDRA_NO_PACKET:
        return "no packet of that number";
    case HYDRA_OWN_PACKET:
        return "the node's own packet";
    case HYDRA_WRONG_SENDER:
        return "the taker sends, or the sender does not";
    case HYDRA_WRONG_LENGTH:
        return "wrong length";
    case HYDRA_BAD_CONTENTS:
        return "the contents break the layout";
    case HYDRA_TWO_REQUESTS:
        return "two requests of one node";
    case HYDRA_NOT_A_NODE:
        return "not a node, or a spoilt tally";
    case HYDRA_NO_ROOM:
        return "too short, or a script that is too long";
    case HYDRA_BAD_WINDOWS:
        return "the windows or the day break the rules";
    case HYDRA_CROWDED:
        return "the places that all sites share are taken";
    case HYDRA_NOT_GIVEN:
        return "the script does not give that number";
    default:
        return "no answer of this library";
    }
}

HYDRA_INLINE const char *hydra_rule_text(uint32_t rule)
{
    switch (rule) {
    case HYDRA_RULE_MISSING:
        return "the request of a known node is missing";
    case HYDRA_RULE_MAJORITY:
        return "too few nodes are known";
    case HYDRA_RULE_LOWER:
        return "others have a newer version";
    case HYDRA_RULE_REPEATS:
        return "it repeats the newest version";
    case HYDRA_RULE_TOP:
        return "its version is the greatest";
    case HYDRA_RULE_DETERMINED:
        return "determined, and sent with the epoch's last close";
    case HYDRA_RULE_SENT:
        return "a new schedule is sent";
    default:
        return "no rule";
    }
}

#ifdef __cplusplus
}
#endif

#endif
