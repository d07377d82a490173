/* Fuzz target: the run of a whole script, on any bytes, with any packet area and output.
 * Claims: the answer is 0 or 15; a refusal changes nothing; the output starts with a first head, ends with byte 10, and fits; bytes behind it never
 * change; a second run from the same bytes gives the same output and the same area. */
#include "fuzz.h"
#include "hydra-desk.h"

enum { AREA = 11520, TOP = 40000 };

static size_t room_for(size_t length)
{
    return 9 * (length < TOP ? length : TOP) + 30000;
}

static uint32_t run(const uint8_t *data, size_t size, struct lent *area, struct lent *out, uint32_t *length)
{
    return hydra_replay(data, size, area->bytes, area->length, out->bytes, out->length, length, 1, NULL, 0);
}

static int starts(const struct lent *out, uint32_t length, const char *head, size_t size)
{
    return length >= size && memcmp(out->bytes, head, size) == 0;
}

int LLVMFuzzerTestOneInput(const uint8_t *data, size_t size)
{
    static const char head[] = "line refusal\n", split_head[] = "line refusal split\n";
    size_t area_length = size % 97 == 0 ? AREA - 1 : AREA;
    size_t room = room_for(size) - (size % 89 == 0 ? 1 : 0);
    uint32_t length = 7, again = 7;
    struct lent area = lend(area_length, data, size), area2 = lend(area_length, data, size);
    struct lent out = lend(room, NULL, 0), out2 = lend(room, NULL, 0);
    uint32_t r = run(data, size, &area, &out, &length);
    CLAIM(r == (room < room_for(size) ? 15u : 0u));
    if (r != 0) {
        CLAIM(length == 7);
        CLAIM(memcmp(area.bytes, area2.bytes, area_length) == 0);
        CLAIM(memcmp(out.bytes, out2.bytes, room) == 0);
    } else {
        CLAIM(length <= room && out.bytes[length - 1] == 10);
        CLAIM(starts(&out, length, head, sizeof head - 1) || starts(&out, length, split_head, sizeof split_head - 1));
        for (size_t i = length; i < room; i++)
            CLAIM(out.bytes[i] == 0);
        CLAIM(run(data, size, &area2, &out2, &again) == 0 && again == length);
        CLAIM(memcmp(out.bytes, out2.bytes, room) == 0);
        CLAIM(memcmp(area.bytes, area2.bytes, area_length) == 0);
    }
    give_back(&area);
    give_back(&area2);
    give_back(&out);
    give_back(&out2);
    return 0;
}

#ifndef LIBFUZZER
int main(int argc, char **argv)
{
    return bounded_loop(argc, argv, TOP + 64);
}
#endif
