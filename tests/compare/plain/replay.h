/* replay.h: the run of a script in plain C, to be measured beside hydra_replay.
 *
 * It takes what that call takes, gives the same answer, and leaves the same bytes in the packet
 * area and the output. */
#ifndef PLAIN_REPLAY_H
#define PLAIN_REPLAY_H

#include <stddef.h>
#include <stdint.h>

#include "hydra.h"

uint32_t plain_replay(const uint8_t *script, size_t script_length, uint8_t *area,
                      size_t area_length, uint8_t *out, size_t out_length, uint32_t *length,
                      uint32_t day, const struct hydra_window *windows, size_t windows_length);

#endif
