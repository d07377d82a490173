/* What both fuzz targets share: a stop that names the claim that failed, guarded memory, and a bounded loop that stands in where no fuzzer is
 * installed. With libFuzzer (clang -fsanitize=fuzzer -DLIBFUZZER) the same targets are driven by coverage. */
#ifndef BAUMISKE_FUZZ_H
#define BAUMISKE_FUZZ_H

#include <stdint.h>
#include <stdio.h>
#include <stdlib.h>
#include <string.h>

#define CLAIM(what)                                                                                                                        \
    do {                                                                                                                                   \
        if (!(what)) {                                                                                                                     \
            fprintf(stderr, "%s:%d: %s\n", __FILE__, __LINE__, #what);                                                                     \
            abort();                                                                                                                       \
        }                                                                                                                                  \
    } while (0)

enum { GUARD = 32, GUARD_BYTE = 0xA5 };

/* Lent memory of a given length, with guard bytes before and behind it that nobody may touch. */
struct lent {
    size_t length;
    uint8_t *all, *bytes;
};

static inline struct lent lend(size_t length, const uint8_t *from, size_t count)
{
    struct lent l = {length, malloc(length + 2 * GUARD), NULL};
    CLAIM(l.all != NULL);
    memset(l.all, GUARD_BYTE, length + 2 * GUARD);
    l.bytes = l.all + GUARD;
    memset(l.bytes, 0, length);
    if (count > 0)
        memcpy(l.bytes, from, count < length ? count : length);
    return l;
}

static inline void check_guards(const struct lent *l)
{
    for (size_t i = 0; i < GUARD; i++) {
        CLAIM(l->all[i] == GUARD_BYTE);
        CLAIM(l->bytes[l->length + i] == GUARD_BYTE);
    }
}

static inline void give_back(struct lent *l)
{
    check_guards(l);
    free(l->all);
}

int LLVMFuzzerTestOneInput(const uint8_t *data, size_t size);

#ifndef LIBFUZZER
/* xorshift64: any seed but 0 */
static inline uint64_t random_next(uint64_t *state)
{
    uint64_t x = *state;
    x ^= x << 13;
    x ^= x >> 7;
    x ^= x << 17;
    return *state = x;
}

/* Runs the target `count` times, on mutations of the files given and of what came before. */
static inline int bounded_loop(int argc, char **argv, size_t largest)
{
    unsigned long count = argc > 1 ? strtoul(argv[1], NULL, 10) : 10000;
    uint64_t state = 0x9E3779B97F4A7C15u;
    uint8_t *seed = malloc(largest), *input = malloc(largest);
    CLAIM(seed != NULL && input != NULL);
    size_t seed_length = 0;
    int file = 2;
    for (unsigned long i = 0; i < count; i++) {
        if (i % 64 == 0 && argc > 2) {
            FILE *f = fopen(argv[file], "rb");
            CLAIM(f != NULL);
            seed_length = fread(seed, 1, largest, f);
            fclose(f);
            file = file + 1 < argc ? file + 1 : 2;
        }
        size_t length = seed_length;
        memcpy(input, seed, length);
        uint64_t r = random_next(&state);
        if (length == 0 || r % 4 == 0) {
            length = random_next(&state) % (r % 16 == 0 ? largest : 1024);
            for (size_t k = 0; k < length; k++)
                input[k] = (uint8_t)random_next(&state);
        }
        for (uint64_t k = random_next(&state) % 8; k > 0 && length > 0; k--)
            input[random_next(&state) % length] = (uint8_t)(r % 3 == 0 ? random_next(&state) : '0' + random_next(&state) % 11);
        if (r % 5 == 0 && length > 0)
            length = random_next(&state) % length;
        LLVMFuzzerTestOneInput(input, length);
    }
    free(seed);
    free(input);
    printf("%lu inputs, no claim failed\n", count);
    return 0;
}
#endif

#endif
