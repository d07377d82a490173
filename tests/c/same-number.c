/* What a reduced script keeps of a ticket: the refusal's number, neither its line nor its cause. Exit status 0 only if all is
 * as written here. */
#include <string.h>

#include "expect.h"
#include "hydra-desk.h"

#define HEAD "nodes slots rounds heard split\n3 4 1 1 0\nnode version flags want\n1 1 7 2\n2 1 7 2\n3 1 7 2\nevent node with\n"
#define HEARD "send 2 0\nsend 3 0\nhear 1 1\nhear 1 2\nclose 0 0\n"

/* The script reduced for the number is the text. */
static void reduces(const char *script, uint32_t number, const char *text)
{
    static uint8_t out[40000];
    uint32_t length;
    EXPECT(hydra_reduce((const uint8_t *)script, strlen(script), out, sizeof out, &length, number) == HYDRA_DONE);
    EXPECT(length == strlen(text) && memcmp(out, text, length) == 0);
}

/* The refused lines of the script are these. */
static void refuses(const char *script, const char *lines)
{
    static uint8_t packets[HYDRA_PACKETS_SIZE], out[400000];
    uint32_t length;
    EXPECT(hydra_replay((const uint8_t *)script, strlen(script), packets, sizeof packets, out, sizeof out, &length, 1, NULL, 0) == HYDRA_DONE);
    EXPECT(strncmp((const char *)out, "line refusal\n", 13) == 0 && strncmp((const char *)out + 13, lines, strlen(lines)) == 0);
    EXPECT(out[13 + strlen(lines)] == 'n');
}

int main(void)
{
    /* Two lines have 10: line 13, since box 2 sends nothing, and line 14, since box 1 sends itself. Line 14 is meant, and the
     * script has no line behind it. The answer is about line 13. */
    refuses(HEAD HEARD "take 3 2\ntake 1 2\n", "13 10\n14 10\n");
    reduces(HEAD HEARD "take 3 2\ntake 1 2\n", 10, HEAD "close 0 0\ntake 3 2\n");
    /* A refused line changes nothing, so without line 13 the other one is refused as before, and the answer is about it. But it
     * has another cause: nobody was heard, so box 1 sends nothing, and neither does box 2. */
    refuses(HEAD HEARD "take 1 2\n", "13 10\n");
    reduces(HEAD HEARD "take 1 2\n", 10, HEAD "close 0 0\ntake 1 2\n");
    /* Box 3 waits, in the ticket; in the answer it is down. */
    refuses(HEAD "crash 3 0\nrestart 3 7\nsend 3 0\n", "10 5\n");
    reduces(HEAD "crash 3 0\nrestart 3 7\nsend 3 0\n", 5, HEAD "crash 3 0\nsend 3 0\n");
    puts("reduced scripts: the number is kept, not the line, not the cause");
    return 0;
}
