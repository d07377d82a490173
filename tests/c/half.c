/* Runs a program whose standard input fails half-way: it gives the bytes of our own, and the read after them fails instead of telling the end.
 * The input is a pipe that doesn't wait and whose other end stays open. */
#define _GNU_SOURCE
#include <fcntl.h>
#include <unistd.h>

#include "expect.h"

int main(int count, char **words)
{
    static uint8_t bytes[4096];
    int ends[2];
    EXPECT(count >= 2);
    ssize_t n = read(STDIN_FILENO, bytes, sizeof bytes);
    EXPECT(n > 0 && pipe2(ends, O_NONBLOCK) == 0);
    EXPECT(write(ends[1], bytes, (size_t)n) == n && dup2(ends[0], STDIN_FILENO) == STDIN_FILENO);
    execv(words[1], words + 1);
    EXPECT(!"the program ran");
}
