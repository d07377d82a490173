#include "frame.h"

#include <string.h>

enum { AT_SITE = 0, AT_ROUND = 4, AT_SINCE = 8, AT_KIND = 12, AT_SENDER = 13, AT_NUMBER = 14 };

uint32_t get_word(const uint8_t *bytes)
{
    return (uint32_t)bytes[0] << 24 | (uint32_t)bytes[1] << 16 | (uint32_t)bytes[2] << 8 | bytes[3];
}

static void put_word(uint8_t *out, uint32_t word)
{
    for (int i = 0; i < 4; i++)
        out[i] = (uint8_t)(word >> (24 - 8 * i));
}

size_t body_length(uint8_t kind)
{
    switch (kind) {
    case FRAME_PACKET:
        return HYDRA_PACKET_SIZE;
    case FRAME_SCHEDULE:
        return HYDRA_SCHEDULE_SIZE;
    case FRAME_DATA:
        return 1;
    default:
        return 0;
    }
}

size_t frame_write(const struct frame *f, uint8_t *out)
{
    put_word(out + AT_SITE, f->site);
    put_word(out + AT_ROUND, f->round);
    put_word(out + AT_SINCE, f->since);
    out[AT_KIND] = f->kind;
    out[AT_SENDER] = f->sender;
    out[AT_NUMBER] = f->number;
    memcpy(out + FRAME_HEAD, f->body, body_length(f->kind));
    return FRAME_HEAD + body_length(f->kind);
}

int frame_read(const uint8_t *bytes, size_t length, struct frame *f)
{
    if (length < FRAME_HEAD || body_length(bytes[AT_KIND]) == 0)
        return 0;
    if (length != FRAME_HEAD + body_length(bytes[AT_KIND]))
        return 0;
    *f = (struct frame){
        .site = get_word(bytes + AT_SITE),
        .round = get_word(bytes + AT_ROUND),
        .since = get_word(bytes + AT_SINCE),
        .kind = bytes[AT_KIND],
        .sender = bytes[AT_SENDER],
        .number = bytes[AT_NUMBER],
    };
    memcpy(f->body, bytes + FRAME_HEAD, length - FRAME_HEAD);
    return 1;
}

struct place frame_place(const struct frame *f)
{
    return (struct place){f->round, f->kind == FRAME_SCHEDULE ? DISTRIBUTION : NEGOTIATION};
}
