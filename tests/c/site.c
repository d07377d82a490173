/* Runs a replay script with the node's C calls alone: one node area for each box, and nothing of the site's code.
 * It reads a script from standard input and prints the listing, so that it can be compared with what `replay` prints.
 * `site areas` prints behind it a line for each box that is up: "area NODE BYTES", the node area in hexadecimal.
 * What a host of several boxes must know itself is here: the lines, the phase, who is up, and the packets on the air.
 * It is the executable face of the theorem on the boxes' bytes (docs/field.md): before each call it tests what crates/boxes/specs/fleet/Fleet.antt names under
 * "The answers", and nothing else. */
#include <string.h>

#include "expect.h"
#include "hydra.h"

enum { TOP_SCRIPT = 40000, TOP_SENT = 8, TOP_PACKETS = HYDRA_TOP_NODES * TOP_SENT };

struct box {
    int up;
    uint32_t packets; /* how many of this phase it has sent, whether or not it has crashed since */
    uint8_t area[HYDRA_NODE_SIZE];
    uint8_t sent[HYDRA_SCHEDULE_SIZE]; /* what its last close sent */
};

struct site {
    uint32_t nodes, slots, rounds, heard, split, place, packets;
    int negotiates;
    struct box box[HYDRA_TOP_NODES];
    uint8_t air[TOP_PACKETS][HYDRA_PACKET_SIZE];
};

struct text {
    const uint8_t *at, *end;
};

static uint8_t script[TOP_SCRIPT + 1];

static struct site site;

/* The next line without its byte 10: 1, or 0 where none is left, or -1 where its byte 10 is missing. */
static int next_line(struct text *t, struct text *line)
{
    const uint8_t *p = t->at;
    if (p == t->end)
        return 0;
    while (p < t->end && *p != 10)
        p++;
    line->at = t->at;
    line->end = p;
    if (p == t->end) {
        t->at = p;
        return -1;
    }
    t->at = p + 1;
    return 1;
}

static int is_text(struct text s, const char *name)
{
    size_t n = strlen(name);
    return (size_t)(s.end - s.at) == n && memcmp(s.at, name, n) == 0;
}

/* The field up to the next space, which is passed over; `more` says whether there was one. */
static struct text field(struct text *line, int *more)
{
    struct text f = {line->at, line->at};
    while (f.end < line->end && *f.end != ' ')
        f.end++;
    *more = f.end < line->end;
    line->at = *more ? f.end + 1 : f.end;
    return f;
}

static int number(struct text f, uint32_t *value)
{
    uint64_t v = 0;
    if (f.at == f.end || (*f.at == '0' && f.end - f.at > 1))
        return 0;
    for (; f.at < f.end; f.at++) {
        if (*f.at < '0' || *f.at > '9')
            return 0;
        v = v * 10 + (uint64_t)(*f.at - '0');
        if (v > UINT32_MAX)
            return 0;
    }
    *value = (uint32_t)v;
    return 1;
}

/* `count` numbers and nothing more. */
static int numbers(struct text line, uint32_t *values, int count)
{
    for (int i = 0; i < count; i++) {
        int more;
        struct text f = field(&line, &more);
        if (!number(f, &values[i]) || more != (i + 1 < count))
            return 0;
    }
    return 1;
}

static void report_of(const struct box *b, uint8_t *out)
{
    memset(out, 0, HYDRA_REPORT_SIZE);
    EXPECT(hydra_read(b->area, sizeof b->area, out, HYDRA_REPORT_SIZE) == HYDRA_DONE);
}

static int phase_of(const struct box *b)
{
    uint8_t r[HYDRA_REPORT_SIZE];
    report_of(b, r);
    return r[HYDRA_REPORT_PHASE];
}

static int is_live(const struct box *b)
{
    return b->up && phase_of(b) != HYDRA_WAITING;
}

static int outside(uint32_t j)
{
    return j < 1 || j > site.nodes;
}

/* What is tested before a send or a hear. */
static uint32_t ready(uint32_t j)
{
    if (outside(j))
        return 3;
    if (!site.negotiates)
        return 4;
    return is_live(&site.box[j - 1]) ? 0 : 5;
}

static uint32_t do_send(uint32_t j)
{
    uint32_t refused = ready(j);
    if (refused)
        return refused;
    struct box *b = &site.box[j - 1];
    if (b->packets >= TOP_SENT)
        return 7;
    uint32_t r = hydra_send(b->area, sizeof b->area, site.air[site.packets], HYDRA_PACKET_SIZE);
    if (r == 0) {
        site.packets++;
        b->packets++;
    }
    return r;
}

static uint32_t do_hear(uint32_t j, uint32_t p)
{
    uint32_t refused = ready(j);
    if (refused)
        return refused;
    if (p < 1 || p > site.packets)
        return 8;
    struct box *b = &site.box[j - 1];
    return hydra_hear(b->area, sizeof b->area, site.air[p - 1], HYDRA_PACKET_SIZE);
}

static uint32_t do_close(void)
{
    if (!site.negotiates)
        return 4;
    uint8_t ground[HYDRA_GROUND_SIZE];
    for (uint32_t i = 0; i < site.nodes; i++) {
        struct box *b = &site.box[i];
        if (is_live(b))
            EXPECT(hydra_close(b->area, sizeof b->area, b->sent, sizeof b->sent, ground, sizeof ground) == HYDRA_DONE);
        b->packets = 0;
    }
    site.negotiates = 0;
    site.packets = 0;
    return 0;
}

static uint32_t do_take(uint32_t j, uint32_t i)
{
    if (outside(j) || outside(i))
        return 3;
    if (site.negotiates)
        return 4;
    struct box *taker = &site.box[j - 1], *sender = &site.box[i - 1];
    if (!is_live(taker) || !is_live(sender))
        return 5;
    if (phase_of(sender) != HYDRA_SENDING)
        return 10;
    return hydra_take(taker->area, sizeof taker->area, sender->sent, sizeof sender->sent);
}

static uint32_t do_end(void)
{
    if (site.negotiates)
        return 4;
    for (uint32_t i = 0; i < site.nodes; i++)
        if (site.box[i].up)
            EXPECT(hydra_end(site.box[i].area, sizeof site.box[i].area) == HYDRA_DONE);
    site.place = site.place + 1 == site.rounds ? 0 : site.place + 1;
    site.negotiates = 1;
    return 0;
}

static uint32_t do_want(uint32_t j, uint32_t d)
{
    if (d > HYDRA_TOP_DEMAND)
        return 2;
    if (outside(j))
        return 3;
    struct box *b = &site.box[j - 1];
    return b->up ? hydra_want(b->area, sizeof b->area, d) : 5;
}

static uint32_t do_crash(uint32_t j)
{
    if (outside(j))
        return 3;
    if (!site.box[j - 1].up)
        return 5;
    site.box[j - 1].up = 0;
    return 0;
}

static uint32_t do_restart(uint32_t j, uint32_t flags)
{
    /* a first trial in a spare area tells 2 and 3 apart from a node that isn't down */
    uint8_t spare[HYDRA_NODE_SIZE];
    uint32_t r = hydra_restart(spare, sizeof spare, j, site.nodes, site.slots, site.rounds, site.heard, site.split, flags, site.place);
    if (r != 0)
        return r;
    struct box *b = &site.box[j - 1];
    if (b->up)
        return 6;
    memcpy(b->area, spare, sizeof spare);
    b->up = 1;
    return 0;
}

static uint32_t event(struct text line)
{
    int more;
    uint32_t v[2];
    struct text word = field(&line, &more);
    if (!more || !numbers(line, v, 2))
        return 2;
    if (is_text(word, "send"))
        return v[1] != 0 ? 2 : do_send(v[0]);
    if (is_text(word, "hear"))
        return do_hear(v[0], v[1]);
    if (is_text(word, "close"))
        return v[0] != 0 || v[1] != 0 ? 2 : do_close();
    if (is_text(word, "take"))
        return do_take(v[0], v[1]);
    if (is_text(word, "end"))
        return v[0] != 0 || v[1] != 0 ? 2 : do_end();
    if (is_text(word, "want"))
        return do_want(v[0], v[1]);
    if (is_text(word, "crash"))
        return v[1] != 0 ? 2 : do_crash(v[0]);
    if (is_text(word, "restart"))
        return do_restart(v[0], v[1]);
    return 2;
}

/* The settings are good if a node can begin with them. */
static int settings_line(struct text line)
{
    uint32_t v[5];
    uint8_t spare[HYDRA_NODE_SIZE];
    if (!numbers(line, v, 5) || hydra_begin(spare, sizeof spare, 1, v[0], v[1], v[2], v[3], v[4], 0, 1, 0) != 0)
        return 0;
    site.nodes = v[0];
    site.slots = v[1];
    site.rounds = v[2];
    site.heard = v[3];
    site.split = v[4];
    site.negotiates = 1;
    return 1;
}

static int table_line(struct text line, uint32_t j)
{
    uint32_t v[4];
    struct box *b = &site.box[j - 1];
    if (!numbers(line, v, 4) || v[0] != j)
        return 0;
    b->up = hydra_begin(b->area, sizeof b->area, j, site.nodes, site.slots, site.rounds, site.heard, site.split, v[1], v[2], v[3]) == 0;
    return b->up;
}

/* The lines before the events: the refusal, or 0, and the number of the last line read. */
static uint32_t opening(struct text *t, uint32_t *n)
{
    struct text line;
    static const char *const names[] = {"nodes slots rounds heard split", "node version flags want", "event node with"};
    for (int part = 0; part < 3; part++) {
        *n += 1;
        if (next_line(t, &line) != 1 || !is_text(line, names[part]))
            return 1;
        uint32_t rows = part == 0 ? 1 : part == 1 ? site.nodes : 0;
        for (uint32_t j = 1; j <= rows; j++) {
            *n += 1;
            int found = next_line(t, &line);
            if (found == 0)
                return 1;
            if (found < 0 || !(part == 0 ? settings_line(line) : table_line(line, j)))
                return 2;
        }
    }
    return 0;
}

static void print_row(uint32_t j)
{
    static const uint8_t nothing[HYDRA_REPORT_SIZE];
    const struct box *b = &site.box[j - 1];
    uint8_t r[HYDRA_REPORT_SIZE];
    report_of(b, r);
    int live = is_live(b);
    const uint8_t *p = live ? r : nothing;
    printf("%u %s %u %u %u ", j, live ? "live" : b->up ? "waiting" : "down", word_at(p + HYDRA_REPORT_VERSION),
           word_at(p + HYDRA_REPORT_FLAGS), p[HYDRA_REPORT_REQUEST]);
    for (uint32_t k = 0; k < site.slots; k++)
        printf("%s%u", k > 0 ? "," : "", p[HYDRA_REPORT_OWNERS + k]);
    printf("\n");
}

static void print_area(uint32_t j)
{
    printf("area %u ", j);
    for (size_t i = 0; i < HYDRA_NODE_SIZE; i++)
        printf("%02x", site.box[j - 1].area[i]);
    printf("\n");
}

int main(int argc, char **argv)
{
    int areas = argc > 1 && strcmp(argv[1], "areas") == 0;
    size_t length = fread(script, 1, sizeof script, stdin);
    struct text t = {script, script + length}, line;
    uint32_t n = 0;
    if (length > TOP_SCRIPT) {
        printf("line refusal\n0 15\n");
        return 0;
    }
    uint32_t r = opening(&t, &n);
    printf("line refusal%s\n", site.split ? " split" : "");
    if (r != 0) {
        printf("%u %u\n", n, r);
        return 0;
    }
    for (int found; (found = next_line(&t, &line)) != 0;) {
        n++;
        r = found < 0 ? 2 : event(line);
        if (r != 0)
            printf("%u %u\n", n, r);
    }
    printf("node state version flags request slots\n");
    for (uint32_t j = 1; j <= site.nodes; j++)
        print_row(j);
    for (uint32_t j = 1; areas && j <= site.nodes; j++)
        if (site.box[j - 1].up)
            print_area(j);
    return 0;
}
