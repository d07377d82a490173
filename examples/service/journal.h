/* The log: a line for each call, so that a script of the whole site can be made from the logs of all boxes.
 * The format is in README.md. A line is written whole, before anything that the call gave is sent: what another box
 * has heard of this one stands in this one's log, whenever it was switched off. */
#ifndef JOURNAL_H
#define JOURNAL_H

#include "timing.h"

#include <stddef.h>

struct journal {
    int file;
};

/* Opens a log to write behind what it holds; half a line that a crash has left is cut off. 0, or -1 with errno. */
int journal_open(struct journal *j, const char *path);

/* A line by a format. */
__attribute__((format(printf, 2, 3))) void journal_write(const struct journal *j, const char *format, ...);

/* A line "ROUND PHASE" and what the format gives. */
__attribute__((format(printf, 3, 4))) void journal_call(const struct journal *j, struct place at, const char *format,
                                                        ...);

/* "ROUND PHASE area BYTES", in hexadecimal: the last line of a box that ends in order. */
void journal_area(const struct journal *j, struct place at, const uint8_t *area, size_t length);

#endif
