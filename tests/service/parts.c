/* The parts of examples/service that need no radio: frames, the moments of a round, the rules, a box that listens, the
 * log. usage: parts FILE    the file is written */
#include <string.h>

#include "../c/expect.h"
#include "journal.h"
#include "listener.h"
#include "rules.h"

static const struct timing timing = {
    .slots = 4, .nodes = 5, .negotiation = 2, .distribution = 1, .slot = 24, .guard = 6, .air = 4};

static struct frame frame_of(uint32_t round, uint8_t kind, uint8_t sender)
{
    return (struct frame){.site = 7, .round = round, .since = 10, .kind = kind, .sender = sender, .number = 3};
}

/* What was written is read back; another length or kind is no frame. */
static void frames(void)
{
    static const uint8_t kinds[] = {FRAME_PACKET, FRAME_SCHEDULE, FRAME_DATA};
    for (size_t i = 0; i < sizeof kinds; i++) {
        uint8_t bytes[FRAME_TOP_SIZE + 1];
        struct frame f = frame_of(0x01020304, kinds[i], 2), g;
        memset(f.body, 0xA5, body_length(f.kind));
        size_t length = frame_write(&f, bytes);
        EXPECT(length == 15 + body_length(f.kind) && bytes[4] == 1 && bytes[7] == 4 && bytes[12] == f.kind);
        EXPECT(frame_read(bytes, length, &g) && memcmp(&f, &g, sizeof f) == 0);
        EXPECT(!frame_read(bytes, length - 1, &g) && !frame_read(bytes, length + 1, &g) && !frame_read(bytes, 0, &g));
        bytes[12] = 4;
        EXPECT(!frame_read(bytes, length, &g));
    }
}

/* The moments are in the order of time and end with the end. A frame that begins in time is off the air a guard time
 * before the slot is over, so boxes whose clocks differ by up to two guard times do not meet in neighbouring slots. */
static void moments(void)
{
    int64_t cycle = 9 * timing.slot;
    uint32_t turns = 0, uses = 0;
    EXPECT(phase_length(&timing, NEGOTIATION) == 2 * cycle && round_length(&timing) == 3 * cycle);
    for (uint32_t i = 0; i < moments_in_round(&timing); i++) {
        struct moment m = moment_of_round(&timing, 5, i), before = moment_of_round(&timing, 5, i > 0 ? i - 1 : 0);
        EXPECT(before.from <= m.from);
        turns += m.kind == TAKE_TURN;
        uses += m.kind == USE_SLOT;
        EXPECT((m.kind == CLOSE) == (i == 10) && (m.kind == END) == (i == 16));
        if (m.kind == USE_SLOT || m.kind == TAKE_TURN) {
            int64_t part = m.kind == USE_SLOT ? m.slot - 1 : 8;
            EXPECT(m.from % cycle == part * timing.slot + timing.guard);
            EXPECT(m.to - m.from == timing.slot - 2 * timing.guard - timing.air);
        }
    }
    EXPECT(turns == 3 && uses == 12);
    EXPECT(moment_of_round(&timing, 5, 10).from == 2 * cycle && moment_of_round(&timing, 5, 16).from == 3 * cycle);
}

/* R1, R2 and the use of slots at every place around the round of a frame. */
static void rules(void)
{
    struct frame packet = frame_of(5, FRAME_PACKET, 2), schedule = frame_of(5, FRAME_SCHEDULE, 2),
                 data = frame_of(5, FRAME_DATA, 2);
    for (uint32_t round = 3; round <= 7; round++)
        for (int d = 0; d <= 1; d++) {
            struct place at = {round, d ? DISTRIBUTION : NEGOTIATION};
            EXPECT(may_hear(at, &packet) == (round == 5 && !d) && may_take(at, &schedule) == (round == 5 && d));
            EXPECT(!may_hear(at, &schedule) && !may_take(at, &packet) && !may_hear(at, &data) && !may_take(at, &data));
            EXPECT(may_use_slots(at) == !d);
        }
    for (uint8_t sender = 0; sender < 10; sender++) {
        packet.sender = sender;
        EXPECT(is_of_site(7, 3, 5, &packet) == (sender >= 1 && sender <= 5 && sender != 3) &&
               !is_of_site(8, 3, 5, &packet));
    }
    EXPECT(times_fit(&timing, 116, 100) && !times_fit(&timing, 117, 100) && !times_fit(&timing, 116, 101));
}

/* A neighbour in the distribution of round 5 may be a call behind the round in which this box crashed: not before its
 * next close or end is its clock taken. The clock is the earliest that its frames give. */
static void listening(void)
{
    struct listener l = {0};
    int64_t zero = 1000000, length = round_length(&timing);
    struct frame two = frame_of(5, FRAME_SCHEDULE, 2), four = frame_of(6, FRAME_PACKET, 4),
                 next = frame_of(6, FRAME_PACKET, 2);
    EXPECT(!listener_hears(&l, &timing, &two, zero + 5 * length + 10 + 9));
    EXPECT(!listener_hears(&l, &timing, &two, zero + 5 * length + 10 + 2));
    EXPECT(!listener_hears(&l, &timing, &four, zero + 6 * length + 10 - 7));
    EXPECT(l.flags == 10);
    EXPECT(listener_hears(&l, &timing, &next, zero + 6 * length + 10 + 5));
    EXPECT(l.by[1].start == zero + 2 && l.by[3].start == zero - 7 && l.flags == 10);
    two.round = 4;
    EXPECT(!listener_hears(&l, &timing, &two, zero + 9 * length));
}

/* A log is gone on with behind its last whole line. */
static void logs(const char *path)
{
    char text[100];
    struct journal j;
    FILE *f = fopen(path, "w");
    EXPECT(f != NULL && fputs("settings 1\n3 negotiation se", f) >= 0 && fclose(f) == 0);
    EXPECT(journal_open(&j, path) == 0);
    journal_call(&j, (struct place){4, DISTRIBUTION}, "take %d", 2);
    journal_area(&j, (struct place){5, NEGOTIATION}, (const uint8_t *)"\x01\xFE", 2);
    f = fopen(path, "r");
    EXPECT(f != NULL);
    text[fread(text, 1, sizeof text - 1, f)] = 0;
    EXPECT(strcmp(text, "settings 1\n4 distribution take 2\n5 negotiation area 01fe\n") == 0);
}

int main(int argc, char **argv)
{
    frames();
    moments();
    rules();
    listening();
    EXPECT(argc == 2);
    logs(argv[1]);
    puts("the parts of a service: frames, moments, rules, listening, the log");
    return 0;
}
