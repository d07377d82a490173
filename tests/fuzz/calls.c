/* Fuzz target: every C call on a node, on any bytes, lengths and numbers.
 * Claims: a call returns 0 or a refusal number of the list; after a refusal every lent byte is what it was; bytes behind an output never change;
 * an accepted call leaves an area that the next call accepts; no call writes outside what it was lent. */
#include "fuzz.h"
#include "hydra.h"

struct input {
    const uint8_t *at, *end;
};

static uint8_t byte_of(struct input *in)
{
    return in->at < in->end ? *in->at++ : 0;
}

/* mostly small numbers, so that calls are often accepted */
static uint32_t number_of(struct input *in)
{
    uint8_t kind = byte_of(in);
    if (kind < 224)
        return kind % 36;
    return (uint32_t)byte_of(in) << 24 | (uint32_t)byte_of(in) << 16 | (uint32_t)byte_of(in) << 8 | byte_of(in);
}

/* mostly the right length */
static size_t length_of(struct input *in, size_t right)
{
    uint8_t kind = byte_of(in);
    if (kind < 200)
        return right;
    return kind < 228 ? right - 1 : kind < 240 ? right + 1 + kind % 8 : kind % 64;
}

static int is_answer(uint32_t r)
{
    return r == 0 || r == 2 || r == 3 || r == 4 || (r >= 9 && r <= 15);
}

static int is_node(const struct lent *area)
{
    uint8_t report[HYDRA_REPORT_SIZE];
    return hydra_read(area->bytes, area->length, report, sizeof report) == 0;
}

/* 1 in most cases, so that settings are often good */
static uint32_t heard_of(struct input *in)
{
    return byte_of(in) % 4 == 0 ? number_of(in) : 1;
}

/* 0 or 1 in most cases */
static uint32_t split_of(struct input *in)
{
    return byte_of(in) % 8 == 0 ? number_of(in) : byte_of(in) % 2;
}

/* one call on an area, with a packet or schedule to read and an output */
static uint32_t call(struct input *in, struct lent *area, struct lent *bytes, struct lent *out)
{
    uint8_t *a = area->bytes;
    size_t n = area->length;
    switch (byte_of(in) % 10) {
    case 0: {
        uint32_t node = number_of(in), nodes = number_of(in), slots = number_of(in), rounds = number_of(in), heard = heard_of(in), split = split_of(in);
        uint32_t version = number_of(in) % 3, flags = number_of(in), demand = number_of(in) % (HYDRA_TOP_DEMAND + 3);
        if (byte_of(in) % 2 == 0 && node >= 1 && node <= 32)
            flags |= (uint32_t)1 << (node - 1);
        return hydra_begin(a, n, node, nodes, slots, rounds, heard, split, version, flags, demand);
    }
    case 1: {
        uint32_t node = number_of(in), nodes = number_of(in), slots = number_of(in), rounds = number_of(in), heard = heard_of(in), split = split_of(in);
        uint32_t flags = number_of(in), place = number_of(in) % 4;
        return hydra_restart(a, n, node, nodes, slots, rounds, heard, split, flags, place);
    }
    case 2:
        return hydra_send(a, n, out->bytes, out->length);
    case 3:
        return hydra_hear(a, n, bytes->bytes, bytes->length);
    case 4: {
        uint8_t ground[HYDRA_GROUND_SIZE];
        return hydra_close(a, n, out->bytes, out->length, ground, sizeof ground);
    }
    case 5:
        return hydra_take(a, n, bytes->bytes, bytes->length);
    case 6:
        return hydra_end(a, n);
    case 7:
        return hydra_want(a, n, number_of(in) % (HYDRA_TOP_DEMAND + 3));
    case 8: {
        uint64_t own[HYDRA_SLOTS_SIZE] = {1, 1, 1};
        uint32_t r = hydra_slots(a, n, own, byte_of(in) % (HYDRA_SLOTS_SIZE + 1));
        CLAIM(r == 0 || (own[0] == 1 && own[1] == 1 && own[2] == 1));
        return r;
    }
    default:
        return hydra_read(a, n, out->bytes, out->length);
    }
}

int LLVMFuzzerTestOneInput(const uint8_t *data, size_t size)
{
    struct input in = {data, data + size};
    size_t length = length_of(&in, HYDRA_NODE_SIZE);
    size_t given = (size_t)(in.end - in.at);
    struct lent area = lend(length, in.at, byte_of(&in) % 4 == 0 ? given : 0);
    uint8_t last_out[HYDRA_REPORT_SIZE] = {0};
    while (in.at < in.end) {
        struct lent before = lend(area.length, area.bytes, area.length);
        size_t room = length_of(&in, byte_of(&in) % 2 == 0 ? HYDRA_REPORT_SIZE : HYDRA_PACKET_SIZE);
        struct lent out = lend(room, last_out, sizeof last_out);
        struct lent was = lend(room, out.bytes, room);
        size_t count = length_of(&in, byte_of(&in) % 2 == 0 ? HYDRA_PACKET_SIZE : HYDRA_SCHEDULE_SIZE);
        struct lent bytes = lend(count, last_out, sizeof last_out);
        uint32_t r = call(&in, &area, &bytes, &out);
        CLAIM(is_answer(r));
        if (r != 0) {
            CLAIM(memcmp(area.bytes, before.bytes, area.length) == 0);
            CLAIM(memcmp(out.bytes, was.bytes, room) == 0);
        } else {
            CLAIM(is_node(&area));
            if (room > HYDRA_REPORT_SIZE)
                CLAIM(memcmp(out.bytes + HYDRA_REPORT_SIZE, was.bytes + HYDRA_REPORT_SIZE, room - HYDRA_REPORT_SIZE) == 0);
            memcpy(last_out, out.bytes, room < sizeof last_out ? room : sizeof last_out);
        }
        give_back(&before);
        give_back(&out);
        give_back(&was);
        give_back(&bytes);
    }
    give_back(&area);
    return 0;
}

#ifndef LIBFUZZER
int main(int argc, char **argv)
{
    return bounded_loop(argc, argv, 4096);
}
#endif
