/* packet.h: a packet on the air, and the sets of nodes and requests in it, for both programs in
 * plain C (the numbers in brackets are sections of docs/specification.md). */
#ifndef PLAIN_PACKET_H
#define PLAIN_PACKET_H

#include <stdint.h>
#include <string.h>

#include "hydra.h"

/* A packet on the air (5). */
enum { SENDER = 0, SENT_LOWEST = 1, SENT_HIGHEST = 5, SENT_FLAGS = 9, SENT_REQUESTS = 13 };

enum { TOP_NODES = HYDRA_TOP_NODES, NO_REQUEST = 255 };

/* ---- Words, highest byte first ---- */

static inline uint32_t word(const uint8_t *at)
{
    uint32_t w;
    memcpy(&w, at, sizeof w);
    return __builtin_bswap32(w);
}

static inline void put_word(uint8_t *at, uint32_t w)
{
    w = __builtin_bswap32(w);
    memcpy(at, &w, sizeof w);
}

/* ---- Eight bytes in one step ---- */

static const uint64_t EACH = 0x0101010101010101;

static inline uint64_t eight(const uint8_t *at)
{
    uint64_t w;
    memcpy(&w, at, sizeof w);
    return w;
}

static inline uint64_t top_bits(uint64_t w)
{
    return w >> 7 & EACH;
}

/* The lowest bits of eight bytes as one byte: the product moves each to its place in the highest
 * byte. */
static inline uint32_t gathered(uint64_t lowest_bits)
{
    return (uint32_t)(lowest_bits * 0x0102040810204080 >> 56);
}

/* ---- Sets of nodes (1) ---- */

static inline uint32_t single(uint32_t node)
{
    return (uint32_t)1 << (node - 1);
}

static inline uint32_t all_of(uint32_t nodes)
{
    return 0xFFFFFFFF >> (TOP_NODES - nodes);
}

/* ---- Requests of 32 nodes, a byte each ----
 *
 * Those in range are 0 to 15, with an upper half of 0, and NO_REQUEST, which has all bits set: so
 * the top bit tells the two apart. */

/* The nodes with a request, of requests in range. */
static inline uint32_t requesters(const uint8_t *requests)
{
    uint32_t found = 0;
    unsigned j;
    for (j = 0; j < TOP_NODES; j += 8)
        found |= gathered(top_bits(eight(requests + j)) ^ EACH) << j;
    return found;
}

/* Requests that don't clash are joined by an `and`: NO_REQUEST has all bits set. */
static inline void join_requests(uint8_t *known, const uint8_t *sent)
{
    unsigned j;
    for (j = 0; j < TOP_NODES; j += 8) {
        uint64_t joined = eight(known + j) & eight(sent + j);
        memcpy(known + j, &joined, sizeof joined);
    }
}

#endif
