/* What the desk's calls touch of what they are lent. Every event of a site reads its windows, and reads the tally and writes it
 * back, a refused one too. An end of a group reads its windows, and no other event of a group does. Memory that can't be
 * written, or read, ends the program.
 * Of a longer packet area the bytes from 11,520 up stay, at a site that a load wrote, and not at any other.
 * Exit status 0 only if that is so. */
#define _GNU_SOURCE
#include <sys/mman.h>
#include <sys/wait.h>
#include <unistd.h>

#include "expect.h"
#include "hydra-desk.h"

static uint32_t words[HYDRA_GROUP_WORDS], table[HYDRA_GROUP_TABLE];
static uint8_t bytes[HYDRA_GROUP_BYTES], area[HYDRA_PACKETS_SIZE];
static const uint32_t rows[] = {1, 1, 2};

/* A page for what is lent. */
static void *page(void)
{
    void *p = mmap(NULL, 4096, PROT_READ | PROT_WRITE, MAP_PRIVATE | MAP_ANONYMOUS, -1, 0);
    EXPECT(p != MAP_FAILED);
    return p;
}

/* Whether the call ends the program, tried in a child. */
static int ends_the_program(uint32_t (*call)(void *), void *lent)
{
    int status;
    pid_t child = fork();
    EXPECT(child >= 0);
    if (child == 0) {
        call(lent);
        _exit(0);
    }
    EXPECT(waitpid(child, &status, 0) == child);
    return WIFSIGNALED(status);
}

/* A send, and a take, which is refused as 4. */
static uint32_t send(void *tally)
{
    return hydra_site_event(words, HYDRA_SITE_WORDS, bytes, sizeof bytes, area, sizeof area, HYDRA_SEND, 1, 0, NULL, 0, tally, NULL, 0);
}

static uint32_t take(void *tally)
{
    return hydra_site_event(words, HYDRA_SITE_WORDS, bytes, sizeof bytes, area, sizeof area, HYDRA_TAKE, 1, 1, NULL, 0, tally, NULL, 0);
}

/* A send with a list of one window. */
static uint32_t send_with(void *windows)
{
    static struct hydra_tally tally;
    return hydra_site_event(words, HYDRA_SITE_WORDS, bytes, sizeof bytes, area, sizeof area, HYDRA_SEND, 1, 0, windows, 1, &tally, NULL, 0);
}

static uint32_t group_event(uint32_t event, uint32_t node, const void *windows)
{
    static struct hydra_tally tally;
    return hydra_group_event(words, HYDRA_GROUP_WORDS, bytes, sizeof bytes, table, HYDRA_GROUP_TABLE, area, sizeof area, 1, event, node, 0, windows, 1, &tally, NULL, 0);
}

static uint32_t group_send(void *windows)
{
    return group_event(HYDRA_SEND, 1, windows);
}

/* Whether a send writes beyond the first 11,520 bytes of a longer packet area. */
static int writes_beyond(struct hydra_tally *tally)
{
    static uint8_t longer[2 * HYDRA_PACKETS_SIZE];
    EXPECT(hydra_site_event(words, HYDRA_SITE_WORDS, bytes, HYDRA_SITE_BYTES, longer, sizeof longer, HYDRA_SEND, 1, 0, NULL, 0, tally, NULL, 0) == HYDRA_DONE);
    for (size_t i = HYDRA_PACKETS_SIZE; i < sizeof longer; i++)
        if (longer[i])
            return 1;
    return 0;
}

int main(void)
{
    struct hydra_tally *tally = page();
    uint32_t *windows = page();
    struct hydra_tally loaded;
    EXPECT(hydra_site_load(words, HYDRA_SITE_WORDS, bytes, sizeof bytes, 1, 1, 1, 1, 0, rows, 3, 1, NULL, 0, tally) == HYDRA_DONE);
    EXPECT(!writes_beyond(tally));
    bytes[HYDRA_SITE_BYTES - 2] = bytes[HYDRA_SITE_BYTES - 3] = 200; /* counts of packets that no call writes */
    EXPECT(writes_beyond(tally));
    EXPECT(hydra_site_load(words, HYDRA_SITE_WORDS, bytes, sizeof bytes, 1, 1, 1, 1, 0, rows, 3, 1, NULL, 0, tally) == HYDRA_DONE);
    EXPECT(send(tally) == HYDRA_DONE && take(tally) == HYDRA_WRONG_PHASE);
    EXPECT(!ends_the_program(send, tally) && !ends_the_program(take, tally));
    EXPECT(mprotect(tally, 4096, PROT_READ) == 0);
    EXPECT(ends_the_program(send, tally) && ends_the_program(take, tally));
    EXPECT(ends_the_program(send, NULL));
    windows[0] = windows[2] = 1;
    EXPECT(!ends_the_program(send_with, windows) && ends_the_program(send_with, NULL));

    EXPECT(hydra_group_begin(words, HYDRA_GROUP_WORDS, bytes, sizeof bytes, table, HYDRA_GROUP_TABLE) == HYDRA_DONE);
    EXPECT(hydra_group_load(words, HYDRA_GROUP_WORDS, bytes, sizeof bytes, table, HYDRA_GROUP_TABLE, 1, 1, 1, 1, 1, 0, rows, 3, 1, NULL, 0, &loaded) == HYDRA_DONE);
    windows[0] = windows[2] = 1; /* node 1, from epoch 0 to the one before 1, demand 0 */
    EXPECT(group_send(windows) == HYDRA_DONE && !ends_the_program(group_send, windows));
    EXPECT(mprotect(windows, 4096, PROT_NONE) == 0);
    EXPECT(ends_the_program(group_send, windows));
    puts("every event of a site, alone or in a group, touches windows and tally: as the header says");
    return 0;
}
