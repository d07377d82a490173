/* The reports of a script's closes, beside the reasons that hydra_why prints of the script. */
#ifndef REASONS_H
#define REASONS_H

#include "expect.h"
#include "hydra-desk.h"

#include <string.h>

/* A script, the lines of its closes, and what each close reported: so many bytes each. */
struct closed {
    const char *script;
    const int *line;
    const uint8_t *told;
    size_t told_size;
    int closes;
};

/* Box j's reasons are its reports that name a rule, in order; counts them by rule. */
static inline void same_reasons(const struct closed *run, uint32_t j, uint32_t day, const struct hydra_window *windows, size_t length, int seen[8])
{
    static const char *const rules[] = {"", "missing", "majority", "lower", "repeats", "top", "determined", "sent"};
    static uint8_t area[HYDRA_PACKETS_SIZE], out[200000];
    uint32_t printed = 0;
    const char *at = (const char *)out;
    EXPECT(hydra_why((const uint8_t *)run->script, strlen(run->script), j, area, sizeof area, out, sizeof out - 1, &printed, day, windows, length) ==
           HYDRA_DONE);
    out[printed] = 0;
    for (int i = 0; i < run->closes; i++) {
        const uint8_t *ground = run->told + (size_t)i * run->told_size + HYDRA_GROUND_SIZE * (j - 1);
        char expected[60];
        if (ground[HYDRA_GROUND_RULE] == 0) {
            EXPECT(ground[HYDRA_GROUND_MISSING] == 0);
            continue;
        }
        sprintf(expected, "%d %u %s %u\n", run->line[i], (unsigned)j, rules[ground[HYDRA_GROUND_RULE]], (unsigned)ground[HYDRA_GROUND_MISSING]);
        EXPECT(strncmp(at, expected, strlen(expected)) == 0);
        at += strlen(expected);
        seen[ground[HYDRA_GROUND_RULE]]++;
    }
    EXPECT(*at == 0);
}

#endif
