/* Scripts with no idle event: the whole case and a longer script reduced by hydra_reduce, the answer run again, and the refusals.
 * Exit status 0 only if all is as written here. */
#include <string.h>
#include <time.h>

#include "expect.h"
#include "hydra-desk.h"

#define FIGURES "nodes slots rounds heard split\n"
#define HEAD FIGURES "3 4 1 1 0\nnode version flags want\n1 1 7 2\n2 1 7 2\n3 1 7 2\nevent node with\n"
#define CASE HEAD "send 2 0\nsend 3 0\nhear 1 1\nhear 1 2\nclose 0 0\ntake 3 2\ntake 2 1\nend 0 0\n"

static uint8_t out[40100];

/* The script reduced for the number is the text; every byte behind it is as it was. */
static void reduces(const char *script, uint32_t number, const char *text)
{
    uint32_t length = 77;
    memset(out, 201, sizeof out);
    EXPECT(hydra_reduce((const uint8_t *)script, strlen(script), out, strlen(script), &length, number) == HYDRA_DONE);
    EXPECT(length == strlen(text) && memcmp(out, text, length) == 0);
    for (size_t i = length; i < sizeof out; i++)
        EXPECT(out[i] == 201);
}

/* Refused with the answer: nothing is changed. */
static void refused(const char *script, size_t script_length, size_t room, uint32_t number, uint32_t answer)
{
    uint32_t length = 77;
    memset(out, 201, sizeof out);
    EXPECT(hydra_reduce((const uint8_t *)script, script_length, out, room, &length, number) == answer);
    EXPECT(length == 77);
    for (size_t i = 0; i < sizeof out; i++)
        EXPECT(out[i] == 201);
}

/* Appends lines, a number of times. */
static char *append(char *to, const char *lines, int times)
{
    for (int i = 0; i < times; i++)
        to += sprintf(to, "%s", lines);
    return to;
}

/* The settings and the table of 32 boxes at a site that may split, with 32 rounds in an epoch: each box has its own flag, but for the first two. */
static char *crowd(char *to)
{
    to = append(to, FIGURES "32 80 32 1 1\nnode version flags want\n1 1 3 15\n2 0 3 15\n", 1);
    for (int i = 3; i <= 32; i++)
        to += sprintf(to, "%d 1 %u 15\n", i, 1u << (i - 1));
    return append(to, "event node with\n", 1);
}

/* The events reduced for the number are the lines kept, in at most 30 seconds of processor time. Every close of these scripts has 30 boxes determine a
 * schedule, so a run of one takes long; and no large part of it can be left out as long as a line near its end is there. */
static void in_time(const char *events, uint32_t number, const char *kept)
{
    static char script[40001], text[40001];
    clock_t from = clock();
    append(crowd(script), events, 1);
    append(crowd(text), kept, 1);
    reduces(script, number, text);
    EXPECT((clock() - from) / CLOCKS_PER_SEC < 30);
}

static void long_runs(void)
{
    static char events[40001];
    char *to = events;
    for (int i = 0; i < 64; i++) {
        to = append(to, "send 1 0\nsend 2 0\nhear 1 2\nhear 2 1\n", 1);
        to = append(to, "close 0 0\nend 0 0\n", i < 63 ? 32 : 31);
    }
    to = append(to, "send 2 0\nhear 1 1\n", 7);
    append(to, "close 0 0\ntake 3 1\n", 1);
    in_time(events, 10, "close 0 0\ntake 3 1\n");
    /* The same with lines behind the one that gives the number. */
    append(to, "close 0 0\ntake 3 1\nend 0 0\nsend 1 0\n", 1);
    in_time(events, 10, "close 0 0\ntake 3 1\n");
    /* Box 5 waits, so that the first packet is box 1's. */
    to = events;
    for (int i = 0; i < 63; i++) {
        to = append(to, "crash 5 0\nrestart 5 16\n", 1);
        to = append(to, "close 0 0\nend 0 0\n", i < 62 ? 32 : 31);
    }
    to = append(to, "send 5 0\nsend 1 0\n", 1);
    append(append(to, "want 2 1\n", 40), "hear 1 1\n", 1);
    in_time(events, 9, "send 1 0\nhear 1 1\n");
}

/* A file's bytes. */
static size_t contents(const char *name, char *bytes, size_t room)
{
    FILE *file = fopen(name, "rb");
    EXPECT(file != NULL);
    size_t length = fread(bytes, 1, room, file);
    fclose(file);
    bytes[length] = 0;
    return length;
}

/* Without arguments the cases below; with three, the script in a file reduced for a number is the text in another file. */
int main(int count, char **words)
{
    static char text[40001], longer[40001];
    if (count == 4) {
        contents(words[1], longer, sizeof longer - 1);
        contents(words[3], text, sizeof text - 1);
        reduces(longer, (uint32_t)atoi(words[2]), text);
        return 0;
    }
    /* A take from a box that does not send needs the close alone. */
    reduces(CASE, 10, HEAD "close 0 0\ntake 3 2\n");
    refused(CASE, strlen(CASE), strlen(CASE), 9, HYDRA_NOT_GIVEN);
    refused(CASE, strlen(CASE), strlen(CASE), 0, HYDRA_NOT_GIVEN);
    refused(CASE, strlen(CASE), strlen(CASE) - 1, 10, HYDRA_NO_ROOM);
    refused(CASE, strlen(CASE), strlen(CASE) - 1, 9, HYDRA_NO_ROOM);
    /* A line without byte 10 stays without it; an empty line is malformed too. */
    reduces(CASE "crash 1", 2, HEAD "crash 1");
    reduces(HEAD "\nsend 1 0\n", 2, HEAD "\n");
    /* The ninth packet needs the eight before it. */
    strcpy(text, HEAD);
    strcpy(longer, HEAD "close 0 0\nend 0 0\nsend 2 0\n");
    for (int i = 0; i < 9; i++) {
        strcat(text, "send 1 0\n");
        strcat(longer, "send 1 0\nhear 2 1\n");
    }
    reduces(longer, 7, text);
    /* Before the events the answer ends with the refused line; it is the whole script where a line is missing. */
    reduces(FIGURES "3 4 1 9 0\nnode version flags want\n", 2, FIGURES "3 4 1 9 0\n");
    reduces(FIGURES "3 4 1 1 1\nnode version flags want\n1 2 7 2\n2 1 7 2\n", 2, FIGURES "3 4 1 1 1\nnode version flags want\n1 2 7 2\n");
    reduces(FIGURES "3 4 1 1 0\n", 1, FIGURES "3 4 1 1 0\n");
    reduces("", 1, "");
    refused(FIGURES "3 4 1 1 0\n", 41, 41, 2, HYDRA_NOT_GIVEN);
    /* Too long, whichever number. */
    memset(text, '\n', sizeof text);
    refused(text, 40001, 40100, 1, HYDRA_NO_ROOM);
    refused(text, 40001, 40100, 9, HYDRA_NO_ROOM);
    refused(text, 40000, 40000, 2, HYDRA_NOT_GIVEN);
    long_runs();
    puts("reduced scripts: all as expected");
    return 0;
}
