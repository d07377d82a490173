/* box.h: the calls of a box in plain C, to be measured beside the library's.
 *
 * Each takes what the call of the same name in include/hydra.h takes, gives the same answer and
 * leaves the same bytes. The constants are that header's. */
#ifndef PLAIN_BOX_H
#define PLAIN_BOX_H

#include <stddef.h>
#include <stdint.h>

uint32_t plain_begin(uint8_t *area, size_t area_length, uint32_t node, uint32_t nodes,
                     uint32_t slots, uint32_t rounds, uint32_t heard, uint32_t split,
                     uint32_t version, uint32_t flags, uint32_t demand);
uint32_t plain_restart(uint8_t *area, size_t area_length, uint32_t node, uint32_t nodes,
                       uint32_t slots, uint32_t rounds, uint32_t heard, uint32_t split,
                       uint32_t flags, uint32_t place);
uint32_t plain_send(const uint8_t *area, size_t area_length, uint8_t *out, size_t out_length);
uint32_t plain_hear(uint8_t *area, size_t area_length, const uint8_t *packet,
                    size_t packet_length);
uint32_t plain_close(uint8_t *area, size_t area_length, uint8_t *out, size_t out_length,
                     uint8_t *ground, size_t ground_length);
uint32_t plain_take(uint8_t *area, size_t area_length, const uint8_t *schedule,
                    size_t schedule_length);
uint32_t plain_end(uint8_t *area, size_t area_length);
uint32_t plain_want(uint8_t *area, size_t area_length, uint32_t demand);
uint32_t plain_slots(const uint8_t *area, size_t area_length, uint64_t *out, size_t out_length);
uint32_t plain_read(const uint8_t *area, size_t area_length, uint8_t *out, size_t out_length);

#endif
