#include "channel.h"

#include <errno.h>
#include <stdio.h>

int channel_plan(struct channel *c, const char *path)
{
    FILE *f = fopen(path, "r");
    unsigned round, sender, receiver, late;
    int found = 0;
    if (f == NULL)
        return -1;
    c->planned = 1;
    while (c->links < TOP_PLAN && (found = fscanf(f, "%u %u %u %u", &round, &sender, &receiver, &late)) == 4)
        if (receiver == c->radio.node)
            c->link[c->links++] = (struct link){round, sender, (int64_t)late * 1000};
    fclose(f);
    errno = EINVAL;
    return found == EOF ? 0 : -1;
}

static uint32_t below(struct channel *c, uint32_t n)
{
    c->seed ^= c->seed << 13;
    c->seed ^= c->seed >> 7;
    c->seed ^= c->seed << 17;
    return (uint32_t)(c->seed >> 32) % n;
}

/* Each link of the plan brings the frame once. */
static void hold(struct channel *c, const struct frame *f, int64_t received)
{
    for (size_t i = 0; i < c->links && c->holds < TOP_HELD; i++)
        if (c->link[i].round == f->round && c->link[i].sender == f->sender)
            c->held[c->holds++] = (struct held){*f, received + c->link[i].late};
}

/* A held frame that is due. */
static int release(struct channel *c, struct frame *f, int64_t *arrived)
{
    for (size_t i = 0; i < c->holds; i++)
        if (c->held[i].due <= now()) {
            *f = c->held[i].frame;
            *arrived = c->held[i].due;
            c->held[i] = c->held[--c->holds];
            return 1;
        }
    return 0;
}

int channel_receive(struct channel *c, struct frame *f, int64_t *arrived)
{
    while (radio_receive(&c->radio, f, arrived)) {
        if (c->planned)
            hold(c, f, *arrived);
        else if (below(c, 100) >= c->loss)
            return 1;
    }
    return release(c, f, arrived);
}

void channel_wait(const struct channel *c, int64_t until)
{
    for (size_t i = 0; i < c->holds; i++)
        if (c->held[i].due < until)
            until = c->held[i].due;
    radio_wait(&c->radio, until);
}
