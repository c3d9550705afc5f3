// How long recipes take, and how fast parities and fragments are made, by liblrc_embed and by ISA-L. `bench/bytes` builds and
// runs it. It prints lines of words and a number: nanoseconds a recipe, or megabytes a second of the data that is read.
#define _POSIX_C_SOURCE 200809L
#include "lrc_embed.h"

#include <isa-l.h>
#include <stdio.h>
#include <stdlib.h>
#include <string.h>
#include <time.h>

#define LONGEST (1u << 20)
#define DATA 12
#define ALL 16

static uint8_t *fragments[ALL], *rebuilt;
static uint8_t rows[ALL * DATA];

static double now(void) {
    struct timespec time;
    clock_gettime(CLOCK_MONOTONIC, &time);
    return (double)time.tv_sec + (double)time.tv_nsec / 1e9;
}

static void want(bool holds) {
    if (!holds) exit(1);
}

// Seconds for one call, the fastest of five rounds of some 100 ms each.
#define SECONDS(call)                                                                                                  \
    ({                                                                                                                 \
        double best = 1e9;                                                                                             \
        for (int round = 0; round < 5; round++) {                                                                      \
            unsigned long times = 0;                                                                                   \
            double begun = now(), ended = begun;                                                                       \
            for (; ended - begun < 0.1; ended = now(), times++) call;                                                  \
            if ((ended - begun) / (double)times < best) best = (ended - begun) / (double)times;                        \
        }                                                                                                              \
        best;                                                                                                          \
    })

static void recipes(void) {
    static const struct {
        const char *name;
        uint16_t missing;
        uint8_t fragment;
    } kinds[] = {{"local", 1, 0}, {"global, two missing", 3, 0}, {"global, four missing", 0x47, 0}};
    lrc_recipe recipe;
    for (unsigned i = 0; i < sizeof kinds / sizeof *kinds; i++) {
        uint16_t missing = kinds[i].missing;
        double seconds = SECONDS(for (int n = 0; n < 1000; n++) want(lrc_embed_recipe_of(LRC_WIDE, missing, kinds[i].fragment, &recipe) == 0));
        printf("a recipe, %s|%.0f ns\n", kinds[i].name, seconds / 1000 * 1e9);
    }
}

static void encode_own(size_t length) {
    lrc_bytes data[DATA];
    lrc_buffer parities[4];
    for (unsigned d = 0; d < DATA; d++) data[d] = (lrc_bytes){fragments[d], length};
    for (unsigned j = 0; j < 4; j++) parities[j] = (lrc_buffer){fragments[DATA + j], length};
    want(lrc_embed_encode(LRC_WIDE, data, DATA, parities, 4) == LRC_DONE);
}

static void encode_isal(size_t length) {
    uint8_t tables[32 * DATA * 4];
    ec_init_tables(DATA, 4, &rows[DATA * DATA], tables);
    ec_encode_data((int)length, DATA, 4, tables, fragments, &fragments[DATA]);
}

static void rebuild_own(const lrc_recipe *recipe, size_t length) {
    lrc_bytes given[ALL];
    for (unsigned f = 0; f < ALL; f++) given[f] = (lrc_bytes){fragments[f], length};
    want(lrc_embed_rebuild(recipe, given, ALL, rebuilt, length) == LRC_DONE);
}

static void rebuild_isal(const lrc_recipe *recipe, size_t length) {
    uint8_t tables[32 * ALL], coefficients[ALL], *sources[ALL];
    int count = 0;
    for (unsigned f = 0; f < ALL; f++)
        if (recipe->coefficients[f]) sources[count] = fragments[f], coefficients[count++] = recipe->coefficients[f];
    ec_init_tables(count, 1, coefficients, tables);
    ec_encode_data((int)length, count, 1, tables, sources, &rebuilt);
}

static void speed(const char *what, size_t length, double read, double own, double isal) {
    printf("%s, %zu KiB|%.0f MB/s|%.0f MB/s\n", what, length / 1024, read / own / 1e6, read / isal / 1e6);
}

int main(void) {
    size_t length = 0;
    lrc_recipe local, global;
    want(lrc_embed_version() == LRC_EMBED_VERSION && lrc_embed_matrix(LRC_WIDE, rows, sizeof rows, &length) == LRC_DONE);
    for (unsigned f = 0; f <= ALL; f++) {
        uint8_t *block = aligned_alloc(64, LONGEST);
        want(block);
        for (size_t i = 0; i < LONGEST; i++) block[i] = (uint8_t)(i * 2654435761u >> 13) + (uint8_t)f;
        *(f < ALL ? &fragments[f] : &rebuilt) = block;
    }
    recipes();
    want(lrc_embed_recipe_of(LRC_WIDE, 1, 0, &local) == LRC_DONE && lrc_embed_recipe_of(LRC_WIDE, 3, 0, &global) == LRC_DONE);
    for (size_t n = 4096; n <= LONGEST; n *= 16) {
        speed("encode", n, (double)n * DATA, SECONDS(encode_own(n)), SECONDS(encode_isal(n)));
        speed("rebuild from 6", n, (double)n * 6, SECONDS(rebuild_own(&local, n)), SECONDS(rebuild_isal(&local, n)));
        speed("rebuild from 12", n, (double)n * 12, SECONDS(rebuild_own(&global, n)), SECONDS(rebuild_isal(&global, n)));
    }
    return 0;
}
