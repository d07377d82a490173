/* One box of a site: a process with a radio, a clock and a log. README.md tells how to build and run it. */
#define _DEFAULT_SOURCE
#include "options.h"
#include "rules.h"

#include <stdio.h>
#include <stdlib.h>
#include <time.h>

static struct options options;
static struct channel channel;
static struct journal journal;
static struct box box;

__attribute__((noreturn)) static void fail(const char *what)
{
    perror(what);
    exit(1);
}

static void need(int accepted)
{
    if (accepted)
        return;
    fprintf(stderr, "box: the core refuses the settings; the log has the answer\n");
    exit(2);
}

/* The next frame of another box of this site that has not waited in a queue for too long. */
static int receive(struct frame *f, int64_t *arrived)
{
    const struct settings *s = &options.settings;
    while (channel_receive(&channel, f, arrived))
        if (is_of_site(s->site, s->node, s->nodes, f) && now() - *arrived <= s->age)
            return 1;
    return 0;
}

/* Round 0 by the machine's monotonic clock: the real-time clock may be set while the box runs. */
static int64_t start_time(void)
{
    struct timespec t;
    clock_gettime(CLOCK_REALTIME, &t);
    return now() + options.start - ((int64_t)t.tv_sec * 1000000 + t.tv_nsec / 1000) + options.offset;
}

static void begin(void)
{
    struct frame f;
    int64_t start = start_time(), arrived;
    while (now() < start) {
        channel_wait(&channel, start);
        while (receive(&f, &arrived))
            ; /* nothing is heard before the box's own round 0 */
    }
    need(box_begin(&box, start));
}

static void come_back(void)
{
    enum { LOOK = 100000 }; /* microseconds */
    struct listener l = {0};
    struct frame f;
    int64_t arrived;
    for (;; channel_wait(&channel, now() + LOOK))
        while (receive(&f, &arrived))
            if (listener_hears(&l, &options.settings.timing, &f, arrived)) {
                need(box_restart(&box, l.by[f.sender - 1].start, l.flags));
                return;
            }
}

/* Until the end of the last round, or until the area is found to be no node's. What is due is done before a frame is
 * looked at: a box that overslept makes its closes and ends first, and then drops the frames of what it missed. */
static void serve(void)
{
    struct frame f;
    int64_t arrived;
    while (!box.lost && box.at.round <= options.last)
        if (box_due(&box) <= now())
            box_act(&box);
        else if (receive(&f, &arrived))
            box_receive(&box, &f);
        else
            channel_wait(&channel, box_due(&box));
}

int main(int argc, char **argv)
{
    options = options_read(argc, argv);
    const struct settings *s = &options.settings;
    channel = (struct channel){.loss = options.loss, .seed = options.seed * UINT64_C(0x9E3779B97F4A7C15)};
    box = (struct box){.settings = s, .radio = &channel.radio, .journal = &journal, .lost = options.restart};
    if (journal_open(&journal, options.log) != 0)
        fail(options.log);
    if (radio_open(&channel.radio, s->node, s->nodes, options.port) != 0)
        fail("radio");
    if (options.plan != NULL && channel_plan(&channel, options.plan) != 0)
        fail(options.plan);
    journal_write(&journal, "settings %u %u %u %u %u %u %u", s->site, s->node, s->nodes, s->slots, s->rounds, s->heard,
                  s->split);
    if (!options.restart)
        begin();
    while (box.lost || box.at.round <= options.last) {
        if (box.lost)
            come_back();
        serve();
    }
    journal_area(&journal, box.at, box.area, sizeof box.area);
    return 0;
}
