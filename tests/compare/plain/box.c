/* box.c: the calls of a box in plain C, in place on the bytes of the node area.
 *
 * It follows docs/specification.md (the numbers in brackets are its sections) and
 * docs/node-area.md. It is a yardstick for the library's speed and a third implementation for its
 * tests; nothing of it is proved, and no box runs it.
 *
 * A schedule is masks and counts where it lies. Owners are written for the air and for a report,
 * and read from the air; nowhere else are there any. */
#include "box.h"

#include <string.h>

#include "hydra.h"
#include "packet.h"

/* The area (docs/node-area.md). */
enum {
    NUMBER = 0,
    NODES = 4,
    SLOTS = 8,
    ROUNDS = 12,
    OFTEN = 16, /* the figure `heard` */
    SPLIT = 20,
    VERSION = 24,
    FLAGS = 28,
    MERGED = 32,
    LOWEST = 36,
    HIGHEST = 40,
    HEARD = 44,
    MET = 48,
    PLACE = 52,
    DEMAND = 56,
    REQUEST = 57,
    PHASE = 58,
    UPDATED = 59,
    KNOWN = 60,
    COUNTERS = 92,
    SCHEDULE = 124,
    DETERMINED = 476
};

/* The masks of a schedule: first words, second words, counts. */
enum { SECOND = 256, COUNT = 320, MASKS_SIZE = 352 };

/* ---- Words, highest byte first ---- */

static uint64_t word64(const uint8_t *at)
{
    uint64_t w;
    memcpy(&w, at, sizeof w);
    return __builtin_bswap64(w);
}

static uint32_t word16(const uint8_t *at)
{
    uint16_t w;
    memcpy(&w, at, sizeof w);
    return __builtin_bswap16(w);
}

static void put_word64(uint8_t *at, uint64_t w)
{
    w = __builtin_bswap64(w);
    memcpy(at, &w, sizeof w);
}

static void put_word16(uint8_t *at, uint32_t w)
{
    uint16_t half = __builtin_bswap16((uint16_t)w);
    memcpy(at, &half, sizeof half);
}

/* ---- Eight bytes in one step ---- */

static int all_zero(const uint8_t *at, size_t length)
{
    uint64_t found = 0;
    size_t i = 0;
    for (; i + 32 <= length; i += 32)
        found |= eight(at + i) | eight(at + i + 8) | eight(at + i + 16) | eight(at + i + 24);
    for (; i + 8 <= length; i += 8)
        found |= eight(at + i);
    for (; i < length; i++)
        found |= at[i];
    return found == 0;
}

/* No byte is above `most`, which is below 128; the length is a multiple of 8. */
static int none_above(const uint8_t *at, size_t length, uint32_t most)
{
    uint64_t above = 0;
    size_t i;
    for (i = 0; i < length; i += 8)
        above |= eight(at + i) | (eight(at + i) + EACH * (127 - most));
    return top_bits(above) == 0;
}

/* ---- Sets of nodes (1) ---- */

static int has(uint32_t set, uint32_t node)
{
    return (set & single(node)) != 0;
}

static int is_majority(uint32_t set, uint32_t nodes)
{
    return 2 * (uint32_t)__builtin_popcount(set) > nodes;
}

/* Whether these nodes may determine a schedule, or keep one: all may where a site may split. */
static int are_enough(const uint8_t *area, uint32_t set)
{
    return word(area + SPLIT) == 1 || is_majority(set, word(area + NODES));
}

/* ---- Requests of 32 nodes, a byte each (packet.h) ---- */

static int requests_hold(const uint8_t *requests)
{
    uint64_t wrong = 0;
    unsigned j;
    for (j = 0; j < TOP_NODES; j += 8) {
        uint64_t w = eight(requests + j);
        uint64_t none = top_bits(w) * NO_REQUEST;
        wrong |= (w ^ none) & (none | EACH * 0xF0);
    }
    return wrong == 0;
}

/* Some node has one request here and another there (refusal 13). */
static int requests_clash(const uint8_t *known, const uint8_t *sent)
{
    uint64_t clash = 0;
    unsigned j;
    for (j = 0; j < TOP_NODES; j += 8) {
        uint64_t one = eight(known + j), other = eight(sent + j);
        uint64_t both = top_bits(one | other) ^ EACH;
        clash |= (one ^ other) & both * 0xFF;
    }
    return clash != 0;
}

/* ---- Masks (docs/node-area.md) ---- */

static unsigned ones(uint64_t first, uint32_t second)
{
    unsigned count = (unsigned)__builtin_popcountll(first);
    return second == 0 ? count : count + (unsigned)__builtin_popcount(second);
}

/* The bits of the slots from K up, in a first and in a second word. */
static uint64_t beyond_first(uint32_t slots)
{
    return slots < 64 ? ~(uint64_t)0 << slots : 0;
}

static uint32_t beyond_second(uint32_t slots)
{
    return slots < 64 ? 0xFFFF : 0xFFFFu << (slots - 64) & 0xFFFF;
}

/* Node indices from N up have no slot. */
static int unused_masks_are_zero(const uint8_t *masks, uint32_t nodes)
{
    uint32_t unused = TOP_NODES - nodes;
    return all_zero(masks + 8 * nodes, 8 * unused) &&
           all_zero(masks + SECOND + 2 * nodes, 2 * unused) &&
           all_zero(masks + COUNT + nodes, unused);
}

/* The masks are tidy, with no slot beyond K and no node beyond N. */
static int masks_hold(const uint8_t *masks, uint32_t nodes, uint32_t slots)
{
    uint64_t first_taken = beyond_first(slots);
    uint32_t second_taken = beyond_second(slots);
    uint32_t j;
    for (j = 0; j < nodes; j++) {
        uint64_t first = word64(masks + 8 * j);
        uint32_t second = word16(masks + SECOND + 2 * j);
        if ((first & first_taken) != 0 || (second & second_taken) != 0)
            return 0;
        if (ones(first, second) != masks[COUNT + j])
            return 0;
        first_taken |= first;
        second_taken |= second;
    }
    return unused_masks_are_zero(masks, nodes);
}

static void clear_masks(uint8_t *masks)
{
    memset(masks, 0, MASKS_SIZE);
}

/* Node index j gets slot index k. */
static void give_slot(uint8_t *masks, unsigned j, unsigned k)
{
    uint8_t bit = (uint8_t)(1 << k % 8);
    if (k < 64)
        masks[8 * j + 7 - k / 8] |= bit;
    else
        masks[SECOND + 2 * j + 1 - (k - 64) / 8] |= bit;
    masks[COUNT + j]++;
}

static void masks_of_owners(uint8_t *masks, const uint8_t *owners, uint32_t slots)
{
    uint32_t k;
    clear_masks(masks);
    for (k = 0; k < slots; k++)
        if (owners[k] != 0)
            give_slot(masks, owners[k] - 1u, k);
}

static void owners_of_masks(uint8_t *owners, const uint8_t *masks, uint32_t nodes)
{
    uint32_t j;
    memset(owners, 0, HYDRA_TOP_SLOTS);
    for (j = 0; j < nodes; j++) {
        uint64_t first = word64(masks + 8 * j);
        uint32_t second = word16(masks + SECOND + 2 * j);
        for (; first != 0; first &= first - 1)
            owners[__builtin_ctzll(first)] = (uint8_t)(j + 1);
        for (; second != 0; second &= second - 1)
            owners[64 + __builtin_ctz(second)] = (uint8_t)(j + 1);
    }
}

/* The version and schedule as on the air (5). */
static void put_schedule(uint8_t *out, const uint8_t *area)
{
    memcpy(out, area + VERSION, 4);
    owners_of_masks(out + 4, area + SCHEDULE, word(area + NODES));
}

/* ---- Whether an area is a node's (refusal 14) ---- */

static int is_set_of(uint32_t set, uint32_t nodes)
{
    return (set & ~all_of(nodes)) == 0;
}

static int figures_hold(uint32_t nodes, uint32_t slots, uint32_t rounds, uint32_t often,
                        uint32_t split)
{
    return nodes - 1 < HYDRA_TOP_NODES && slots - 1 < HYDRA_TOP_SLOTS &&
           rounds - 1 < HYDRA_TOP_ROUNDS && often - 1 < rounds && split <= 1;
}

/* Number, version, flags, demand and request. */
static int holdings_hold(const uint8_t *area)
{
    uint32_t own = word(area + NUMBER), nodes = word(area + NODES), flags = word(area + FLAGS);
    return own - 1 < nodes && is_set_of(flags, nodes) && has(flags, own) &&
           word(area + VERSION) <= HYDRA_TOP_VERSION && area[DEMAND] <= HYDRA_TOP_DEMAND &&
           area[REQUEST] <= HYDRA_TOP_DEMAND;
}

/* What has lapsed is 0, and a request that has lapsed is none. */
static int round_is_lapsed(const uint8_t *area)
{
    uint64_t known = eight(area + KNOWN) & eight(area + KNOWN + 8) & eight(area + KNOWN + 16) &
                     eight(area + KNOWN + 24);
    return known == EACH * NO_REQUEST && all_zero(area + MERGED, MET - MERGED);
}

static int round_holds(const uint8_t *area)
{
    uint32_t nodes = word(area + NODES), version = word(area + VERSION);
    uint32_t merged = word(area + MERGED), highest = word(area + HIGHEST);
    return word(area + LOWEST) <= version && version <= highest && highest <= HYDRA_TOP_VERSION &&
           is_set_of(merged, nodes) && is_set_of(word(area + HEARD), nodes) &&
           (word(area + FLAGS) & ~merged) == 0 && requests_hold(area + KNOWN) &&
           (requesters(area + KNOWN) & ~merged) == 0 &&
           area[KNOWN + word(area + NUMBER) - 1] == area[REQUEST];
}

static int phase_holds(const uint8_t *area)
{
    switch (area[PHASE]) {
    case HYDRA_NEGOTIATION:
        return round_holds(area);
    case HYDRA_SILENT:
    case HYDRA_SENDING:
        return round_is_lapsed(area);
    case HYDRA_WAITING:
        return round_is_lapsed(area) && word(area + VERSION) == 0 && area[REQUEST] == 0 &&
               area[UPDATED] == 0 && word(area + MET) == 0;
    default:
        return 0;
    }
}

/* The closes of this epoch that the node has seen: no counter is above them. */
static uint32_t closes_seen(const uint8_t *area)
{
    uint32_t place = word(area + PLACE);
    if (area[PHASE] == HYDRA_WAITING)
        return 0;
    return area[PHASE] == HYDRA_NEGOTIATION ? place : place + 1;
}

static int counters_hold(const uint8_t *area)
{
    uint32_t nodes = word(area + NODES);
    return none_above(area + COUNTERS, TOP_NODES, closes_seen(area)) &&
           all_zero(area + COUNTERS + nodes, TOP_NODES - nodes);
}

static int epoch_holds(const uint8_t *area)
{
    return word(area + PLACE) < word(area + ROUNDS) &&
           is_set_of(word(area + MET), word(area + NODES)) && counters_hold(area);
}

/* A schedule that the node does not have is all 0: at version 0, and without `updated`. */
static int schedules_hold(const uint8_t *area)
{
    uint32_t nodes = word(area + NODES), slots = word(area + SLOTS), version = word(area + VERSION);
    int held = version == 0 ? all_zero(area + SCHEDULE, MASKS_SIZE)
                            : masks_hold(area + SCHEDULE, nodes, slots);
    if (!held || area[UPDATED] > 1)
        return 0;
    if (area[UPDATED] == 0)
        return all_zero(area + DETERMINED, MASKS_SIZE);
    return version < HYDRA_TOP_VERSION && masks_hold(area + DETERMINED, nodes, slots);
}

static int is_node(const uint8_t *area, size_t length)
{
    return length == HYDRA_NODE_SIZE &&
           figures_hold(word(area + NODES), word(area + SLOTS), word(area + ROUNDS),
                        word(area + OFTEN), word(area + SPLIT)) &&
           holdings_hold(area) && phase_holds(area) && epoch_holds(area) && schedules_hold(area);
}

/* ---- The round (3) ---- */

static int is_last_round(const uint8_t *area)
{
    return word(area + PLACE) + 1 == word(area + ROUNDS);
}

static void lapse_round(uint8_t *area)
{
    memset(area + MERGED, 0, MET - MERGED);
    memset(area + KNOWN, NO_REQUEST, TOP_NODES);
}

/* 3.1, Start: lines 5 to 8. */
static void start_round(uint8_t *area)
{
    area[PHASE] = HYDRA_NEGOTIATION;
    memcpy(area + MERGED, area + FLAGS, 4);
    memcpy(area + LOWEST, area + VERSION, 4);
    memcpy(area + HIGHEST, area + VERSION, 4);
    put_word(area + HEARD, 0);
    memset(area + KNOWN, NO_REQUEST, TOP_NODES);
    area[KNOWN + word(area + NUMBER) - 1] = area[REQUEST];
}

/* The request is the demand as it was when the version last became another number. */
static void set_version(uint8_t *area, uint32_t version)
{
    if (version != word(area + VERSION))
        area[REQUEST] = area[DEMAND];
    put_word(area + VERSION, version);
}

static void forget_determined(uint8_t *area)
{
    if (area[UPDATED] == 0)
        return;
    area[UPDATED] = 0;
    clear_masks(area + DETERMINED);
}

/* ---- Beginning and restarting (3, 3.5) ---- */

static int flags_hold(uint32_t flags, uint32_t node, uint32_t nodes)
{
    return is_set_of(flags, nodes) && (node - 1 >= nodes || has(flags, node));
}

/* A waiting node that has its figures and flags alone. */
static void put_idle(uint8_t *area, uint32_t node, uint32_t nodes, uint32_t slots, uint32_t rounds,
                     uint32_t often, uint32_t split, uint32_t flags)
{
    memset(area, 0, HYDRA_NODE_SIZE);
    put_word(area + NUMBER, node);
    put_word(area + NODES, nodes);
    put_word(area + SLOTS, slots);
    put_word(area + ROUNDS, rounds);
    put_word(area + OFTEN, often);
    put_word(area + SPLIT, split);
    put_word(area + FLAGS, flags);
    area[PHASE] = HYDRA_WAITING;
    lapse_round(area);
}

uint32_t plain_begin(uint8_t *area, size_t area_length, uint32_t node, uint32_t nodes,
                     uint32_t slots, uint32_t rounds, uint32_t heard, uint32_t split,
                     uint32_t version, uint32_t flags, uint32_t demand)
{
    if (!figures_hold(nodes, slots, rounds, heard, split) || version > 1 ||
        demand > HYDRA_TOP_DEMAND || !flags_hold(flags, node, nodes))
        return HYDRA_OUT_OF_RANGE;
    if (node - 1 >= nodes)
        return HYDRA_NO_SUCH_NODE;
    if (area_length != HYDRA_NODE_SIZE)
        return HYDRA_NOT_A_NODE;
    put_idle(area, node, nodes, slots, rounds, heard, split, flags);
    put_word(area + VERSION, version);
    area[DEMAND] = area[REQUEST] = (uint8_t)demand;
    start_round(area);
    return HYDRA_DONE;
}

uint32_t plain_restart(uint8_t *area, size_t area_length, uint32_t node, uint32_t nodes,
                       uint32_t slots, uint32_t rounds, uint32_t heard, uint32_t split,
                       uint32_t flags, uint32_t place)
{
    if (!figures_hold(nodes, slots, rounds, heard, split) || place >= rounds ||
        !flags_hold(flags, node, nodes))
        return HYDRA_OUT_OF_RANGE;
    if (node - 1 >= nodes)
        return HYDRA_NO_SUCH_NODE;
    if (area_length != HYDRA_NODE_SIZE)
        return HYDRA_NOT_A_NODE;
    put_idle(area, node, nodes, slots, rounds, heard, split, flags);
    put_word(area + PLACE, place);
    return HYDRA_DONE;
}

/* ---- Negotiation (3.1) ---- */

uint32_t plain_send(const uint8_t *area, size_t area_length, uint8_t *out, size_t out_length)
{
    if (!is_node(area, area_length))
        return HYDRA_NOT_A_NODE;
    if (area[PHASE] != HYDRA_NEGOTIATION)
        return HYDRA_WRONG_PHASE;
    if (out_length < HYDRA_PACKET_SIZE)
        return HYDRA_NO_ROOM;
    out[SENDER] = area[NUMBER + 3];
    memcpy(out + SENT_LOWEST, area + LOWEST, 4);
    memcpy(out + SENT_HIGHEST, area + HIGHEST, 4);
    memcpy(out + SENT_FLAGS, area + MERGED, 4);
    memcpy(out + SENT_REQUESTS, area + KNOWN, TOP_NODES);
    return HYDRA_DONE;
}

/* Whether some node of a site of so many nodes could have sent this packet (refusal 12). */
static int packet_holds(const uint8_t *packet, uint32_t nodes)
{
    uint32_t flags = word(packet + SENT_FLAGS), highest = word(packet + SENT_HIGHEST);
    const uint8_t *requests = packet + SENT_REQUESTS;
    uint32_t from;
    if (packet[SENDER] - 1u >= nodes || word(packet + SENT_LOWEST) > highest ||
        highest > HYDRA_TOP_VERSION || !is_set_of(flags, nodes) || !requests_hold(requests))
        return 0;
    from = requesters(requests);
    return has(from, packet[SENDER]) && (from & ~flags) == 0;
}

/* Line 16: sender and hearer know of each other. */
static int is_mutual(const uint8_t *area, const uint8_t *packet)
{
    return has(word(area + MERGED), packet[SENDER]) &&
           has(word(packet + SENT_FLAGS), word(area + NUMBER));
}

/* Lines 19 to 21. */
static void merge(uint8_t *area, const uint8_t *packet)
{
    if (word(packet + SENT_LOWEST) < word(area + LOWEST))
        memcpy(area + LOWEST, packet + SENT_LOWEST, 4);
    if (word(packet + SENT_HIGHEST) > word(area + HIGHEST))
        memcpy(area + HIGHEST, packet + SENT_HIGHEST, 4);
    put_word(area + MERGED, word(area + MERGED) | word(packet + SENT_FLAGS));
    join_requests(area + KNOWN, packet + SENT_REQUESTS);
}

uint32_t plain_hear(uint8_t *area, size_t area_length, const uint8_t *packet,
                    size_t packet_length)
{
    uint32_t from;
    if (!is_node(area, area_length))
        return HYDRA_NOT_A_NODE;
    if (area[PHASE] != HYDRA_NEGOTIATION)
        return HYDRA_WRONG_PHASE;
    if (packet_length != HYDRA_PACKET_SIZE)
        return HYDRA_WRONG_LENGTH;
    if (!packet_holds(packet, word(area + NODES)))
        return HYDRA_BAD_CONTENTS;
    if (packet[SENDER] == word(area + NUMBER))
        return HYDRA_OWN_PACKET;
    from = requesters(packet + SENT_REQUESTS);
    if (is_mutual(area, packet)) {
        if (requests_clash(area + KNOWN, packet + SENT_REQUESTS))
            return HYDRA_TWO_REQUESTS;
        put_word(area + MET, word(area + MET) | from);
        merge(area, packet);
    }
    put_word(area + HEARD, word(area + HEARD) | from);
    return HYDRA_DONE;
}

/* ---- Allotment (4), on masks ---- */

/* 2, Targets: single slots are dealt to the nodes in rising order, over and over. */
static void deal_targets(uint8_t *targets, const uint8_t *area)
{
    const uint8_t *known = area + KNOWN;
    uint32_t left = word(area + SLOTS), asking = requesters(known), turn;
    memset(targets, 0, TOP_NODES);
    while (asking != 0) {
        for (turn = asking; turn != 0; turn &= turn - 1) {
            unsigned j = (unsigned)__builtin_ctz(turn);
            if (targets[j] == known[j]) {
                asking &= ~((uint32_t)1 << j);
            } else if (left == 0) {
                return;
            } else {
                targets[j]++;
                left--;
            }
        }
    }
}

/* The slots that no node has, in both words. */
struct free_slots {
    uint64_t first;
    uint32_t second;
};

static struct free_slots free_slots(const uint8_t *area)
{
    const uint8_t *masks = area + SCHEDULE;
    uint32_t nodes = word(area + NODES), slots = word(area + SLOTS), j;
    struct free_slots free = {~beyond_first(slots), ~beyond_second(slots) & 0xFFFF};
    for (j = 0; j < nodes; j++) {
        free.first &= ~word64(masks + 8 * j);
        free.second &= ~word16(masks + SECOND + 2 * j);
    }
    return free;
}

/* 3, Keep: of each node the lowest slots, as many as its target; so the highest ones go. */
static void keep(uint8_t *to, const uint8_t *from, const uint8_t *targets, uint32_t nodes)
{
    uint32_t j;
    for (j = 0; j < nodes; j++) {
        uint64_t first = word64(from + 8 * j);
        uint32_t second = word16(from + SECOND + 2 * j);
        unsigned count = from[COUNT + j];
        for (; count > targets[j] && second != 0; count--)
            second ^= 0x80000000 >> __builtin_clz(second);
        for (; count > targets[j]; count--)
            first ^= 0x8000000000000000 >> __builtin_clzll(first);
        put_word64(to + 8 * j, first);
        put_word16(to + SECOND + 2 * j, second);
        to[COUNT + j] = (uint8_t)count;
    }
}

/* The lowest free slot's index, which is then no longer free. */
static unsigned take_free(struct free_slots *free)
{
    unsigned k;
    if (free->first != 0) {
        k = (unsigned)__builtin_ctzll(free->first);
        free->first &= free->first - 1;
    } else {
        k = 64 + (unsigned)__builtin_ctz(free->second);
        free->second &= free->second - 1;
    }
    return k;
}

/* 4, Fill: a slot goes to the node with the fewest slots, the lowest number first. So the nodes
 * with no slot are served in rising order, then all that have one, and so on. */
static void fill(uint8_t *to, struct free_slots free, const uint8_t *targets, uint32_t nodes)
{
    uint32_t below = all_of(nodes), turn; /* a node leaves it at its target */
    unsigned fewest;
    for (fewest = 0; below != 0; fewest++) {
        for (turn = below; turn != 0; turn &= turn - 1) {
            unsigned j = (unsigned)__builtin_ctz(turn);
            if (to[COUNT + j] == targets[j])
                below &= ~((uint32_t)1 << j);
            else if (free.first == 0 && free.second == 0)
                return;
            else if (to[COUNT + j] == fewest)
                give_slot(to, j, take_free(&free));
        }
    }
}

/* The next schedule, written over the determined one or over the old one itself. */
static void allot(uint8_t *area, uint8_t *to)
{
    uint32_t nodes = word(area + NODES);
    struct free_slots free = free_slots(area);
    uint8_t targets[TOP_NODES];
    deal_targets(targets, area);
    keep(to, area + SCHEDULE, targets, nodes);
    fill(to, free, targets, nodes);
}

/* ---- Close (3.2, 3.6) ---- */

/* What the close finds before it changes anything. */
struct verdict {
    uint32_t missing; /* the nodes of M' without a request */
    int enough;       /* M' is a majority, or none is asked for */
    int level;        /* lowest and highest version are the same */
    int determines;
    int repeats;
    int raises; /* the determined schedule becomes the schedule */
};

static struct verdict verdict(const uint8_t *area)
{
    uint32_t merged = word(area + MERGED), version = word(area + VERSION);
    uint32_t highest = word(area + HIGHEST);
    struct verdict v;
    int complete;
    v.missing = merged & ~requesters(area + KNOWN);
    v.enough = are_enough(area, merged);
    v.level = word(area + LOWEST) == highest;
    complete = v.missing == 0 && v.enough;
    v.determines = complete && v.level && version < HYDRA_TOP_VERSION;
    v.repeats = complete && !v.level && version == highest;
    v.raises = (v.determines || area[UPDATED] == 1) && is_last_round(area);
    return v;
}

/* The rule of the ground, from the area as it was before the close. */
static uint8_t rule(const uint8_t *area, const struct verdict *v)
{
    if (v->raises)
        return HYDRA_RULE_SENT;
    if (area[UPDATED] == 1)
        return HYDRA_RULE_DETERMINED;
    if (v->missing != 0)
        return HYDRA_RULE_MISSING;
    if (!v->enough)
        return HYDRA_RULE_MAJORITY;
    if (v->determines)
        return HYDRA_RULE_DETERMINED;
    if (v->level)
        return HYDRA_RULE_TOP;
    return v->repeats ? HYDRA_RULE_REPEATS : HYDRA_RULE_LOWER;
}

static void put_ground(uint8_t *ground, const uint8_t *area, const struct verdict *v)
{
    ground[HYDRA_GROUND_RULE] = rule(area, v);
    ground[HYDRA_GROUND_MISSING] = v->missing == 0 ? 0 : (uint8_t)(__builtin_ctz(v->missing) + 1);
}

/* Lines 30 and 31. */
static void count_heard(uint8_t *area)
{
    uint32_t heard = word(area + HEARD);
    for (; heard != 0; heard &= heard - 1)
        area[COUNTERS + __builtin_ctz(heard)]++;
}

/* Lines 34 and 35. What this close determines goes where the schedule is at once. */
static void raise(uint8_t *area, int determines)
{
    if (determines)
        allot(area, area + SCHEDULE);
    else
        memcpy(area + SCHEDULE, area + DETERMINED, MASKS_SIZE);
    forget_determined(area);
    set_version(area, word(area + VERSION) + 1);
}

static void determine(uint8_t *area)
{
    allot(area, area + DETERMINED);
    area[UPDATED] = 1;
}

uint32_t plain_close(uint8_t *area, size_t area_length, uint8_t *out, size_t out_length,
                     uint8_t *ground, size_t ground_length)
{
    struct verdict v;
    int sends;
    if (!is_node(area, area_length))
        return HYDRA_NOT_A_NODE;
    if (area[PHASE] != HYDRA_NEGOTIATION)
        return HYDRA_WRONG_PHASE;
    v = verdict(area);
    sends = v.raises || v.repeats;
    if (ground_length < HYDRA_GROUND_SIZE || (sends && out_length < HYDRA_SCHEDULE_SIZE))
        return HYDRA_NO_ROOM;
    put_ground(ground, area, &v);
    if (v.raises)
        raise(area, v.determines);
    else if (v.determines)
        determine(area);
    count_heard(area);
    lapse_round(area);
    area[PHASE] = sends ? HYDRA_SENDING : HYDRA_SILENT;
    if (sends)
        put_schedule(out, area);
    return HYDRA_DONE;
}

/* ---- Distribution (3.3) ---- */

/* Whether some node of the site could have sent this schedule (refusal 12). */
static int schedule_holds(const uint8_t *schedule, const uint8_t *area)
{
    const uint8_t *owners = schedule + 4;
    uint32_t version = word(schedule), slots = version == 0 ? 0 : word(area + SLOTS);
    return version <= HYDRA_TOP_VERSION &&
           none_above(owners, HYDRA_TOP_SLOTS, word(area + NODES)) &&
           all_zero(owners + slots, HYDRA_TOP_SLOTS - slots);
}

uint32_t plain_take(uint8_t *area, size_t area_length, const uint8_t *schedule,
                    size_t schedule_length)
{
    uint32_t version;
    if (!is_node(area, area_length))
        return HYDRA_NOT_A_NODE;
    if (area[PHASE] == HYDRA_NEGOTIATION || area[PHASE] == HYDRA_WAITING)
        return HYDRA_WRONG_PHASE;
    if (area[PHASE] == HYDRA_SENDING)
        return HYDRA_WRONG_SENDER;
    if (schedule_length != HYDRA_SCHEDULE_SIZE)
        return HYDRA_WRONG_LENGTH;
    if (!schedule_holds(schedule, area))
        return HYDRA_BAD_CONTENTS;
    version = word(schedule);
    if (version != word(area + VERSION))
        forget_determined(area);
    set_version(area, version);
    masks_of_owners(area + SCHEDULE, schedule + 4, word(area + SLOTS));
    put_word(area + MET, all_of(word(area + NODES)));
    return HYDRA_DONE;
}

/* ---- End (3.4, 3.5) ---- */

/* Lines 49 to 54: the nodes whose counter is `heard` or more, and the node itself. Counters are
 * below 128, so the sum sets the top bit of just these. */
static uint32_t next_flags(const uint8_t *area)
{
    uint32_t flags = single(word(area + NUMBER)), often = word(area + OFTEN), j;
    for (j = 0; j < TOP_NODES; j += 8)
        flags |= gathered(top_bits(eight(area + COUNTERS + j) + EACH * (128 - often))) << j;
    return flags;
}

/* Line 48: version 0, and all slots are free. */
static void expire(uint8_t *area)
{
    set_version(area, 0);
    clear_masks(area + SCHEDULE);
}

/* Lines 45 to 55; the node counts itself among those met. */
static void end_epoch(uint8_t *area)
{
    forget_determined(area);
    if (!are_enough(area, word(area + MET) | single(word(area + NUMBER))))
        expire(area);
    put_word(area + FLAGS, next_flags(area));
    memset(area + COUNTERS, 0, TOP_NODES);
    put_word(area + MET, 0);
}

uint32_t plain_end(uint8_t *area, size_t area_length)
{
    int last, waits;
    if (!is_node(area, area_length))
        return HYDRA_NOT_A_NODE;
    if (area[PHASE] == HYDRA_NEGOTIATION)
        return HYDRA_WRONG_PHASE;
    last = is_last_round(area);
    waits = area[PHASE] == HYDRA_WAITING;
    put_word(area + PLACE, last ? 0 : word(area + PLACE) + 1);
    if (waits && !last)
        return HYDRA_DONE;
    if (waits)
        area[REQUEST] = area[DEMAND];
    else if (last)
        end_epoch(area);
    start_round(area);
    return HYDRA_DONE;
}

/* ---- Demand, slots and report (6) ---- */

uint32_t plain_want(uint8_t *area, size_t area_length, uint32_t demand)
{
    if (demand > HYDRA_TOP_DEMAND)
        return HYDRA_OUT_OF_RANGE;
    if (!is_node(area, area_length))
        return HYDRA_NOT_A_NODE;
    area[DEMAND] = (uint8_t)demand;
    return HYDRA_DONE;
}

uint32_t plain_slots(const uint8_t *area, size_t area_length, uint64_t *out, size_t out_length)
{
    uint32_t j;
    if (!is_node(area, area_length))
        return HYDRA_NOT_A_NODE;
    if (area[PHASE] != HYDRA_NEGOTIATION)
        return HYDRA_WRONG_PHASE;
    if (out_length < HYDRA_SLOTS_SIZE)
        return HYDRA_NO_ROOM;
    j = word(area + NUMBER) - 1;
    out[0] = word64(area + SCHEDULE + 8 * j);
    out[1] = word16(area + SCHEDULE + SECOND + 2 * j);
    out[2] = area[SCHEDULE + COUNT + j];
    return HYDRA_DONE;
}

uint32_t plain_read(const uint8_t *area, size_t area_length, uint8_t *out, size_t out_length)
{
    if (!is_node(area, area_length))
        return HYDRA_NOT_A_NODE;
    if (out_length < HYDRA_REPORT_SIZE)
        return HYDRA_NO_ROOM;
    put_schedule(out, area);
    memcpy(out + HYDRA_REPORT_FLAGS, area + FLAGS, 4);
    memcpy(out + HYDRA_REPORT_PLACE, area + PLACE, 4);
    memcpy(out + HYDRA_REPORT_DEMAND, area + DEMAND, 4);
    return HYDRA_DONE;
}

/* Each call takes what the library's takes. */
#define IS_TYPE_OF(one, other) __builtin_types_compatible_p(__typeof__(one), __typeof__(other))
#define SAME_TYPE(name) _Static_assert(IS_TYPE_OF(plain_##name, hydra_##name), #name)
SAME_TYPE(begin);
SAME_TYPE(restart);
SAME_TYPE(send);
SAME_TYPE(hear);
SAME_TYPE(close);
SAME_TYPE(take);
SAME_TYPE(end);
SAME_TYPE(want);
SAME_TYPE(slots);
SAME_TYPE(read);
