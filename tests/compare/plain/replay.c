/* replay.c: the run of a script in plain C, in place on masks and on the lent packet area.
 *
 * It follows docs/specification.md (the numbers in brackets are its sections). It is a yardstick
 * for the speed of hydra_replay and one more implementation for its tests; nothing of it is
 * proved.
 *
 * What cannot happen in a script is not tested for: its packets lie where nobody else writes, and
 * a node's request stays the same in a negotiation. So there are no refusals 12 and 13. */
#include "replay.h"

#include <string.h>

#include "hydra-desk.h"
#include "packet.h"

enum { NODES = HYDRA_TOP_NODES, SLOTS = HYDRA_TOP_SLOTS, TOP_SENDS = 8 };
enum { TOP_SCRIPT = 40000, ROOM_FACTOR = 9, ROOM_MORE = 30000 };

/* Of each node the slots that it has, in two words, and their number (2). */
struct masks {
    uint64_t first[NODES];
    uint16_t second[NODES];
    uint8_t count[NODES];
};

struct node {
    uint32_t version, flags, merged, lowest, highest;
    uint32_t known; /* the nodes whose requests it has */
    uint32_t heard, met;
    uint8_t state, sends, updated, demand, request;
    uint8_t requests[NODES];
    uint8_t counters[NODES];
    struct masks schedule, determined;
};

struct site {
    uint32_t nodes, slots, rounds, often, split;
    uint32_t place, distribution, packets;
    uint32_t day, epoch;
    const struct hydra_window *windows; /* lent, and tested as the site is loaded */
    size_t windows_length;
    uint8_t sent[NODES]; /* packets of each node in this negotiation */
    struct node node[NODES];
    uint8_t *area; /* lent: the packets of this negotiation, 45 bytes each */
};

static int are_enough(const struct site *site, uint32_t set)
{
    return site->split == 1 || 2 * (uint32_t)__builtin_popcount(set) > site->nodes;
}

/* ---- Allotment (4) ---- */

struct free_slots {
    uint64_t first;
    uint32_t second;
};

static struct free_slots unowned(const struct masks *masks, uint32_t nodes, uint32_t slots)
{
    struct free_slots free;
    uint64_t first = 0;
    uint32_t second = 0, j;
    for (j = 0; j < nodes; j++) {
        first |= masks->first[j];
        second |= masks->second[j];
    }
    free.first = ~first & (slots < 64 ? ((uint64_t)1 << slots) - 1 : ~(uint64_t)0);
    free.second = ~second & (slots < 64 ? 0 : (1u << (slots - 64)) - 1);
    return free;
}

/* Steps 1 and 2. Where all that is asked for fits, that is the target. */
static void deal(uint8_t *targets, const struct node *node, uint32_t slots)
{
    uint32_t asking = node->known, sum = 0, turn;
    memset(targets, 0, NODES);
    for (turn = asking; turn != 0; turn &= turn - 1) {
        unsigned j = (unsigned)__builtin_ctz(turn);
        targets[j] = node->requests[j];
        sum += targets[j];
    }
    if (sum <= slots)
        return;
    memset(targets, 0, NODES);
    for (;;) {
        for (turn = asking; turn != 0; turn &= turn - 1) {
            unsigned j = (unsigned)__builtin_ctz(turn);
            if (targets[j] == node->requests[j]) {
                asking &= ~((uint32_t)1 << j);
                continue;
            }
            if (slots-- == 0)
                return;
            targets[j]++;
        }
    }
}

/* Step 3: the highest slots of a node go until as many are left as its target says. */
static void keep(struct masks *to, const struct masks *from, const uint8_t *targets,
                 uint32_t nodes)
{
    uint32_t j;
    for (j = 0; j < nodes; j++) {
        uint64_t first = from->first[j];
        uint32_t second = from->second[j], count = from->count[j];
        for (; count > targets[j]; count--) {
            if (second != 0)
                second &= ~(0x80000000u >> __builtin_clz(second));
            else
                first &= ~(0x8000000000000000u >> __builtin_clzll(first));
        }
        to->first[j] = first;
        to->second[j] = (uint16_t)second;
        to->count[j] = (uint8_t)count;
    }
}

static void give(struct masks *to, unsigned j, struct free_slots *free)
{
    uint64_t first = free->first & -free->first;
    uint32_t second = first != 0 ? 0 : free->second & -free->second;
    to->first[j] |= first;
    to->second[j] |= (uint16_t)second;
    to->count[j]++;
    free->first ^= first;
    free->second ^= second;
}

/* Step 4: those with the fewest slots first, each level in rising order. */
static void fill(struct masks *to, struct free_slots free, const uint8_t *targets, uint32_t nodes)
{
    uint32_t below = 0, level, turn, j;
    for (j = 0; j < nodes; j++)
        below |= (uint32_t)(to->count[j] < targets[j]) << j;
    for (level = 0; below != 0; level++) {
        for (turn = below; turn != 0; turn &= turn - 1) {
            j = (unsigned)__builtin_ctz(turn);
            if (to->count[j] != level)
                continue;
            if (free.first == 0 && free.second == 0)
                return;
            give(to, j, &free);
            if (to->count[j] == targets[j])
                below &= ~((uint32_t)1 << j);
        }
    }
}

static void allot(const struct site *site, const struct node *node, struct masks *to)
{
    struct free_slots free = unowned(&node->schedule, site->nodes, site->slots);
    uint8_t targets[NODES];
    deal(targets, node, site->slots);
    keep(to, &node->schedule, targets, site->nodes);
    fill(to, free, targets, site->nodes);
}

/* ---- The round (3) ---- */

static void start_round(struct node *node, uint32_t number)
{
    node->merged = node->flags;
    node->lowest = node->highest = node->version;
    node->heard = 0;
    node->known = single(number);
    memset(node->requests, NO_REQUEST, NODES);
    node->requests[number - 1] = node->request;
}

static void set_version(struct node *node, uint32_t version)
{
    if (node->version != version)
        node->request = node->demand;
    node->version = version;
}

static uint8_t *packet_at(const struct site *site, uint32_t index)
{
    return site->area + index * HYDRA_PACKET_SIZE;
}

static void send(struct site *site, uint32_t number)
{
    const struct node *node = &site->node[number - 1];
    uint8_t *packet = packet_at(site, site->packets++);
    site->sent[number - 1]++;
    packet[SENDER] = (uint8_t)number;
    put_word(packet + SENT_LOWEST, node->lowest);
    put_word(packet + SENT_HIGHEST, node->highest);
    put_word(packet + SENT_FLAGS, node->merged);
    memcpy(packet + SENT_REQUESTS, node->requests, NODES);
}

static void hear(struct node *node, uint32_t number, const uint8_t *packet)
{
    uint32_t known = requesters(packet + SENT_REQUESTS), flags = word(packet + SENT_FLAGS);
    uint32_t lowest = word(packet + SENT_LOWEST), highest = word(packet + SENT_HIGHEST);
    node->heard |= known;
    if ((node->merged & single(packet[SENDER])) == 0 || (flags & single(number)) == 0)
        return;
    node->met |= known;
    node->known |= known;
    node->merged |= flags;
    if (lowest < node->lowest)
        node->lowest = lowest;
    if (highest > node->highest)
        node->highest = highest;
    join_requests(node->requests, packet + SENT_REQUESTS);
}

/* 3.2 */
static void close_node(const struct site *site, struct node *node)
{
    int complete = (node->merged & ~node->known) == 0 && are_enough(site, node->merged);
    int level = node->lowest == node->highest;
    int determines = complete && level && node->version < HYDRA_TOP_VERSION;
    int last = site->place + 1 == site->rounds;
    uint32_t turn;
    for (turn = node->heard; turn != 0; turn &= turn - 1)
        node->counters[__builtin_ctz(turn)]++;
    node->sends = complete && !level && node->version == node->highest;
    if (last && (determines || node->updated)) {
        if (determines)
            allot(site, node, &node->schedule);
        else
            node->schedule = node->determined;
        node->updated = 0;
        node->sends = 1;
        set_version(node, node->version + 1);
    } else if (determines) {
        allot(site, node, &node->determined);
        node->updated = 1;
    }
}

static void close_all(struct site *site)
{
    uint32_t j;
    for (j = 0; j < site->nodes; j++)
        if (site->node[j].state == HYDRA_STATE_LIVE)
            close_node(site, &site->node[j]);
    site->packets = 0;
    memset(site->sent, 0, NODES);
    site->distribution = 1;
}

/* 3.3 */
static void take(const struct site *site, struct node *node, const struct node *from)
{
    if (node->version != from->version)
        node->updated = 0;
    set_version(node, from->version);
    node->schedule = from->schedule;
    node->met = all_of(site->nodes);
}

/* 3.4, of a node that is live */
static void end_epoch(const struct site *site, struct node *node, uint32_t number)
{
    uint32_t j, flags = single(number);
    node->updated = 0;
    if (!are_enough(site, node->met | single(number)) && node->version != 0) {
        set_version(node, 0);
        memset(&node->schedule, 0, sizeof node->schedule);
    }
    for (j = 0; j < site->nodes; j++)
        flags |= (uint32_t)(node->counters[j] >= site->often) << j;
    node->flags = flags;
    memset(node->counters, 0, NODES);
    node->met = 0;
}

/* ---- Demands by the hour (3.7) ---- */

static int window_holds(const struct site *site, const struct hydra_window *window)
{
    return window->node - 1 < site->nodes && window->first < window->end &&
           window->end <= site->day && window->demand <= HYDRA_TOP_DEMAND;
}

static int overlap(const struct hydra_window *v, const struct hydra_window *w)
{
    return v->node == w->node && v->first < w->end && w->first < v->end;
}

/* Pairs are looked at only where a list is not in order. */
static int windows_hold(const struct site *site)
{
    const struct hydra_window *list = site->windows;
    size_t i, k;
    int in_order = 1;
    if (site->day - 1 >= HYDRA_TOP_DAY || site->windows_length > HYDRA_TOP_WINDOWS)
        return 0;
    for (i = 0; i < site->windows_length; i++) {
        if (!window_holds(site, &list[i]))
            return 0;
        if (i > 0 && (list[i - 1].node > list[i].node ||
                      (list[i - 1].node == list[i].node && list[i - 1].end > list[i].first)))
            in_order = 0;
    }
    for (i = 1; !in_order && i < site->windows_length; i++)
        for (k = 0; k < i; k++)
            if (overlap(&list[k], &list[i]))
                return 0;
    return 1;
}

/* The demands of the epoch, in one pass over the windows. */
static void give_demands(struct site *site)
{
    uint8_t due[NODES] = {0};
    uint32_t given = 0;
    size_t i;
    for (i = 0; i < site->windows_length; i++) {
        const struct hydra_window *window = &site->windows[i];
        given |= single(window->node);
        if (site->epoch - window->first < window->end - window->first)
            due[window->node - 1] = (uint8_t)window->demand;
    }
    for (; given != 0; given &= given - 1) {
        uint32_t j = (uint32_t)__builtin_ctz(given);
        if (site->node[j].state != HYDRA_STATE_DOWN)
            site->node[j].demand = due[j];
    }
}

/* The first epoch of a site just loaded. */
static void begin_day(struct site *site)
{
    uint32_t j;
    if (site->windows_length == 0)
        return;
    give_demands(site);
    for (j = 0; j < site->nodes; j++) {
        site->node[j].request = site->node[j].demand;
        start_round(&site->node[j], j + 1);
    }
}

static void next_epoch(struct site *site)
{
    site->epoch = site->epoch + 1 < site->day ? site->epoch + 1 : 0;
    if (site->windows_length != 0)
        give_demands(site);
}

static void end_all(struct site *site)
{
    uint32_t j;
    int last = site->place + 1 == site->rounds;
    if (last)
        next_epoch(site);
    site->place = last ? 0 : site->place + 1;
    site->distribution = 0;
    for (j = 0; j < site->nodes; j++) {
        struct node *node = &site->node[j];
        if (node->state == HYDRA_STATE_LIVE) {
            if (last)
                end_epoch(site, node, j + 1);
            start_round(node, j + 1);
        } else if (node->state == HYDRA_STATE_WAITING && last) {
            node->state = HYDRA_STATE_LIVE;
            node->request = node->demand;
            start_round(node, j + 1);
        }
    }
}

/* 3.5: all but the flags is as nothing had been. */
static void restart(struct node *node, uint32_t flags)
{
    memset(node, 0, sizeof *node);
    node->state = HYDRA_STATE_WAITING;
    node->flags = flags;
}

/* ---- Events (7, 9): the answer ---- */

static int is_node(const struct site *site, uint32_t number)
{
    return number - 1 < site->nodes;
}

/* Bits from N up whatever the number, the own bit if there is one. */
static int flags_hold(const struct site *site, uint32_t number, uint32_t flags)
{
    return (flags & ~all_of(site->nodes)) == 0 &&
           (!is_node(site, number) || (flags & single(number)) != 0);
}

/* A live node in negotiation may send and hear. */
static uint32_t in_negotiation(const struct site *site, uint32_t number)
{
    if (!is_node(site, number))
        return HYDRA_NO_SUCH_NODE;
    if (site->distribution)
        return HYDRA_WRONG_PHASE;
    if (site->node[number - 1].state != HYDRA_STATE_LIVE)
        return HYDRA_NOT_LIVE;
    return HYDRA_DONE;
}

static uint32_t on_send(struct site *site, uint32_t number, uint32_t with)
{
    if (with != 0)
        return HYDRA_OUT_OF_RANGE;
    uint32_t refused = in_negotiation(site, number);
    if (refused != HYDRA_DONE)
        return refused;
    if (site->sent[number - 1] == TOP_SENDS)
        return HYDRA_ALL_SENT;
    send(site, number);
    return HYDRA_DONE;
}

static uint32_t on_hear(struct site *site, uint32_t number, uint32_t with)
{
    uint32_t refused = in_negotiation(site, number);
    if (refused != HYDRA_DONE)
        return refused;
    if (with - 1 >= site->packets)
        return HYDRA_NO_PACKET;
    if (packet_at(site, with - 1)[SENDER] == number)
        return HYDRA_OWN_PACKET;
    hear(&site->node[number - 1], number, packet_at(site, with - 1));
    return HYDRA_DONE;
}

static uint32_t on_close(struct site *site, uint32_t number, uint32_t with)
{
    if ((number | with) != 0)
        return HYDRA_OUT_OF_RANGE;
    if (site->distribution)
        return HYDRA_WRONG_PHASE;
    close_all(site);
    return HYDRA_DONE;
}

static uint32_t on_take(struct site *site, uint32_t number, uint32_t with)
{
    struct node *taker, *sender;
    if (!is_node(site, number) || !is_node(site, with))
        return HYDRA_NO_SUCH_NODE;
    if (!site->distribution)
        return HYDRA_WRONG_PHASE;
    taker = &site->node[number - 1];
    sender = &site->node[with - 1];
    if (taker->state != HYDRA_STATE_LIVE || sender->state != HYDRA_STATE_LIVE)
        return HYDRA_NOT_LIVE;
    if (taker->sends || !sender->sends)
        return HYDRA_WRONG_SENDER;
    take(site, taker, sender);
    return HYDRA_DONE;
}

static uint32_t on_end(struct site *site, uint32_t number, uint32_t with)
{
    if ((number | with) != 0)
        return HYDRA_OUT_OF_RANGE;
    if (!site->distribution)
        return HYDRA_WRONG_PHASE;
    end_all(site);
    return HYDRA_DONE;
}

static uint32_t on_want(struct site *site, uint32_t number, uint32_t with)
{
    if (with > HYDRA_TOP_DEMAND)
        return HYDRA_OUT_OF_RANGE;
    if (!is_node(site, number))
        return HYDRA_NO_SUCH_NODE;
    if (site->node[number - 1].state == HYDRA_STATE_DOWN)
        return HYDRA_NOT_LIVE;
    site->node[number - 1].demand = (uint8_t)with;
    return HYDRA_DONE;
}

static uint32_t on_crash(struct site *site, uint32_t number, uint32_t with)
{
    if (with != 0)
        return HYDRA_OUT_OF_RANGE;
    if (!is_node(site, number))
        return HYDRA_NO_SUCH_NODE;
    if (site->node[number - 1].state == HYDRA_STATE_DOWN)
        return HYDRA_NOT_LIVE;
    site->node[number - 1].state = HYDRA_STATE_DOWN;
    return HYDRA_DONE;
}

static uint32_t on_restart(struct site *site, uint32_t number, uint32_t with)
{
    if (!flags_hold(site, number, with))
        return HYDRA_OUT_OF_RANGE;
    if (!is_node(site, number))
        return HYDRA_NO_SUCH_NODE;
    if (site->node[number - 1].state != HYDRA_STATE_DOWN)
        return HYDRA_NOT_DOWN;
    restart(&site->node[number - 1], with);
    return HYDRA_DONE;
}

/* ---- The script (7) ---- */

struct text {
    const uint8_t *at, *end;
    uint32_t line; /* the last one that was read */
};

typedef uint32_t event(struct site *, uint32_t, uint32_t);

static int word_is(const struct text *text, const char *word, size_t length)
{
    return (size_t)(text->end - text->at) >= length && memcmp(text->at, word, length) == 0;
}

static event *event_word(struct text *text)
{
    static const struct {
        char word[9];
        uint8_t length;
        event *event;
    } words[] = {{"hear ", 5, on_hear},       {"send ", 5, on_send},   {"take ", 5, on_take},
                 {"close ", 6, on_close},     {"end ", 4, on_end},     {"want ", 5, on_want},
                 {"restart ", 8, on_restart}, {"crash ", 6, on_crash}};
    size_t i;
    for (i = 0; i < sizeof words / sizeof words[0]; i++) {
        if (word_is(text, words[i].word, words[i].length)) {
            text->at += words[i].length;
            return words[i].event;
        }
    }
    return NULL;
}

/* A number and the byte behind it; 0 if they are not there. */
static int number(struct text *text, uint32_t *value, uint8_t behind)
{
    const uint8_t *at = text->at;
    uint64_t sum = 0;
    /* No such number has more than ten digits. */
    for (; at < text->end && (unsigned)*at - '0' <= 9 && at - text->at < 11; at++)
        sum = 10 * sum + *at - '0';
    if (at == text->at || at == text->end || *at != behind || sum > 0xFFFFFFFF ||
        (*text->at == '0' && at - text->at > 1))
        return 0;
    text->at = at + 1;
    *value = (uint32_t)sum;
    return 1;
}

/* On to the next line. */
static void skip_line(struct text *text)
{
    const uint8_t *newline = memchr(text->at, '\n', (size_t)(text->end - text->at));
    text->at = newline == NULL ? text->end : newline + 1;
}

/* A line of so many numbers. */
static int numbers(struct text *text, uint32_t *values, int count)
{
    int i;
    for (i = 0; i < count; i++)
        if (!number(text, &values[i], i + 1 < count ? ' ' : '\n'))
            return 0;
    return 1;
}

static uint32_t names(struct text *text, const char *line)
{
    size_t length = strlen(line);
    text->line++;
    if (!word_is(text, line, length))
        return HYDRA_BAD_NAMES;
    text->at += length;
    return HYDRA_DONE;
}

static uint32_t settings(struct text *text, struct site *site)
{
    uint32_t v[5];
    text->line++;
    if (text->at == text->end)
        return HYDRA_BAD_NAMES;
    if (!numbers(text, v, 5) || v[0] - 1 >= HYDRA_TOP_NODES || v[1] - 1 >= HYDRA_TOP_SLOTS ||
        v[2] - 1 >= HYDRA_TOP_ROUNDS || v[3] - 1 >= v[2] || v[4] > 1)
        return HYDRA_OUT_OF_RANGE;
    memset(site, 0, offsetof(struct site, node) + v[0] * sizeof site->node[0]);
    site->nodes = v[0];
    site->slots = v[1];
    site->rounds = v[2];
    site->often = v[3];
    site->split = v[4];
    return HYDRA_DONE;
}

static uint32_t row(struct text *text, struct site *site, uint32_t number)
{
    struct node *node = &site->node[number - 1];
    uint32_t v[4];
    text->line++;
    if (text->at == text->end)
        return HYDRA_BAD_NAMES;
    if (!numbers(text, v, 4) || v[0] != number || v[1] > 1 || !flags_hold(site, number, v[2]) ||
        v[3] > HYDRA_TOP_DEMAND)
        return HYDRA_OUT_OF_RANGE;
    node->state = HYDRA_STATE_LIVE;
    node->version = v[1];
    node->flags = v[2];
    node->demand = node->request = (uint8_t)v[3];
    start_round(node, number);
    return HYDRA_DONE;
}

static uint32_t table(struct text *text, struct site *site)
{
    uint32_t j, answer = names(text, "node version flags want\n");
    for (j = 1; answer == HYDRA_DONE && j <= site->nodes; j++)
        answer = row(text, site, j);
    return answer == HYDRA_DONE ? names(text, "event node with\n") : answer;
}

/* The next line is run: its answer. */
static uint32_t line(struct text *text, struct site *site)
{
    uint32_t v[2];
    event *event = event_word(text);
    text->line++;
    if (event != NULL && numbers(text, v, 2))
        return event(site, v[0], v[1]);
    skip_line(text);
    return HYDRA_OUT_OF_RANGE;
}

/* ---- The listing (8) ---- */

static uint8_t *put(uint8_t *out, const char *text)
{
    size_t length = strlen(text);
    memcpy(out, text, length);
    return out + length;
}

static uint8_t *put_number(uint8_t *out, uint32_t value, uint8_t behind)
{
    uint8_t digits[10];
    int count = 0;
    do {
        digits[count++] = (uint8_t)('0' + value % 10);
        value /= 10;
    } while (value != 0);
    while (count > 0)
        *out++ = digits[--count];
    *out++ = behind;
    return out;
}

static uint8_t *put_refusal(uint8_t *out, uint32_t line, uint32_t answer)
{
    return put_number(put_number(out, line, ' '), answer, '\n');
}

static uint8_t *put_owners(uint8_t *out, const struct masks *masks, const struct site *site)
{
    uint8_t owners[SLOTS] = {0};
    uint32_t j, k;
    for (j = 0; masks != NULL && j < site->nodes; j++) {
        uint64_t first = masks->first[j];
        uint32_t second = masks->second[j];
        for (; first != 0; first &= first - 1)
            owners[__builtin_ctzll(first)] = (uint8_t)(j + 1);
        for (; second != 0; second &= second - 1)
            owners[64 + __builtin_ctz(second)] = (uint8_t)(j + 1);
    }
    for (k = 1; k <= site->slots; k++)
        out = put_number(out, owners[k - 1], k < site->slots ? ',' : '\n');
    return out;
}

static uint8_t *put_row(uint8_t *out, const struct site *site, uint32_t number)
{
    const struct node *node = &site->node[number - 1];
    out = put_number(out, number, ' ');
    if (node->state != HYDRA_STATE_LIVE) {
        out = put(out, node->state == HYDRA_STATE_DOWN ? "down 0 0 0 " : "waiting 0 0 0 ");
        return put_owners(out, NULL, site);
    }
    out = put(out, "live ");
    out = put_number(out, node->version, ' ');
    out = put_number(out, node->flags, ' ');
    out = put_number(out, node->request, ' ');
    return put_owners(out, &node->schedule, site);
}

static uint8_t *put_rows(uint8_t *out, const struct site *site)
{
    uint32_t j;
    out = put(out, "node state version flags request slots\n");
    for (j = 1; j <= site->nodes; j++)
        out = put_row(out, site, j);
    return out;
}

/* The whole listing of a script that is not too long: its end. */
static uint8_t *run(const uint8_t *script, size_t length, uint8_t *area, uint8_t *out,
                    uint32_t day, const struct hydra_window *windows, size_t windows_length)
{
    struct text text = {script, script + length, 0};
    struct site site;
    uint32_t answer = names(&text, "nodes slots rounds heard split\n");
    if (answer == HYDRA_DONE)
        answer = settings(&text, &site);
    out = put(out, answer == HYDRA_DONE && site.split == 1 ? "line refusal split\n"
                                                           : "line refusal\n");
    if (answer == HYDRA_DONE)
        answer = table(&text, &site);
    if (answer != HYDRA_DONE)
        return put_refusal(out, text.line, answer);
    site.area = area;
    site.day = day;
    site.windows = windows;
    site.windows_length = windows_length;
    if (!windows_hold(&site))
        return put_refusal(out, 0, HYDRA_BAD_WINDOWS);
    begin_day(&site);
    while (text.at < text.end) {
        answer = line(&text, &site);
        if (answer != HYDRA_DONE)
            out = put_refusal(out, text.line, answer);
    }
    return put_rows(out, &site);
}

uint32_t plain_replay(const uint8_t *script, size_t script_length, uint8_t *area,
                      size_t area_length, uint8_t *out, size_t out_length, uint32_t *length,
                      uint32_t day, const struct hydra_window *windows, size_t windows_length)
{
    size_t shorter = script_length < TOP_SCRIPT ? script_length : TOP_SCRIPT;
    uint8_t *end;
    if (out_length < ROOM_FACTOR * shorter + ROOM_MORE)
        return HYDRA_NO_ROOM;
    if (script_length > TOP_SCRIPT || area_length < HYDRA_PACKETS_SIZE)
        end = put(out, "line refusal\n0 15\n");
    else
        end = run(script, script_length, area, out, day, windows, windows_length);
    *length = (uint32_t)(end - out);
    return HYDRA_DONE;
}
