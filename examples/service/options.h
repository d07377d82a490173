/* The program's options. `box --help` lists them. */
#ifndef OPTIONS_H
#define OPTIONS_H

#include "box.h"

struct options {
    struct settings settings;
    uint32_t port, loss, seed, last; /* the box ends with the end of round `last` */
    int64_t start;                   /* of round 0, by the machine's real-time clock, in microseconds */
    int64_t offset;                  /* this box's clock is behind by that much */
    int restart;                     /* the box was reset while others go on */
    const char *plan, *log;          /* files; no plan: NULL */
};

/* Reads the options, or says what is wrong with them and ends the program. */
struct options options_read(int argc, char **argv);

#endif
