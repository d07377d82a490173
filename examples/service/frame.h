/* The frame in which a packet, a schedule or a box's own traffic goes over the air. The layout is in README.md. */
#ifndef FRAME_H
#define FRAME_H

#include "hydra.h"
#include "timing.h"

enum frame_kind { FRAME_PACKET = 1, FRAME_SCHEDULE = 2, FRAME_DATA = 3 };

enum { FRAME_HEAD = 15, FRAME_TOP_BODY = HYDRA_SCHEDULE_SIZE, FRAME_TOP_SIZE = FRAME_HEAD + FRAME_TOP_BODY };

struct frame {
    uint32_t site;
    uint32_t round; /* in which it was sent */
    uint32_t since; /* microseconds since that round began, by the sender's clock */
    uint8_t kind;   /* an enum frame_kind */
    uint8_t sender; /* the box, 1 to N */
    uint8_t number; /* of a packet: it is the sender's first, second, .. of the round; otherwise 0 */
    uint8_t body[FRAME_TOP_BODY];
};

/* A word of four bytes, highest byte first, as the core has them too. */
uint32_t get_word(const uint8_t *bytes);

/* The bytes of the body, 0 for a kind that does not exist. */
size_t body_length(uint8_t kind);

/* Writes the frame and returns its length. */
size_t frame_write(const struct frame *f, uint8_t *out);

/* Whether the bytes are a frame; then *f is that frame. */
int frame_read(const uint8_t *bytes, size_t length, struct frame *f);

/* Where the sender was when it sent: a schedule is sent in distribution, everything else in negotiation. */
struct place frame_place(const struct frame *f);

#endif
