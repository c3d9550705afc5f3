// The matrices, recipes and buffers of lrc_embed.h beside ISA-L. tests/library/bytes builds and runs it.
// Usage: bytes SEED. It prints for each code how many sets can be decoded, how many recipes there are and how many of them read
// 3, 6 and 12 fragments, and how many runs over buffers there were. It ends at the first difference, with status 1.
#include "lrc_embed.h"

#include <isa-l.h>
#include <stdio.h>
#include <stdlib.h>
#include <string.h>

#define LONG 4096
#define LONGEST 70000
#define PARITIES 4

typedef struct {
    uint8_t number;
    unsigned data, all; // how many fragments
    uint8_t rows[LRC_FRAGMENTS * 12];
} code;

static uint8_t fragments[LRC_FRAGMENTS][LONGEST], others[PARITIES][LONGEST], rebuilt[LONGEST], product[LONGEST];
static uint64_t state;

static void want(bool holds, int line) {
    if (holds) return;
    fprintf(stderr, "bytes.c:%d: not as wanted\n", line);
    exit(1);
}
#define WANT(condition) want(condition, __LINE__)

// The next of a fixed row of numbers (SplitMix64).
static uint64_t drawn(void) {
    uint64_t z = state += 0x9e3779b97f4a7c15u;
    z = (z ^ z >> 30) * 0xbf58476d1ce4e5b9u;
    z = (z ^ z >> 27) * 0x94d049bb133111ebu;
    return z ^ z >> 31;
}

static void draw(uint8_t *bytes, size_t length) {
    for (size_t i = 0; i < length; i++) bytes[i] = (uint8_t)drawn();
}

static code code_of(uint8_t number, unsigned data) {
    code it = {.number = number, .data = data, .all = data + PARITIES};
    size_t length = 0;
    WANT(lrc_embed_matrix(number, it.rows, sizeof it.rows, &length) == LRC_DONE && length == it.all * it.data);
    return it;
}

// ISA-L's sum of `count` sources, each times its coefficient.
static void combine(int length, unsigned count, uint8_t *coefficients, uint8_t **sources, uint8_t *sum) {
    uint8_t tables[32 * LRC_FRAGMENTS];
    ec_init_tables((int)count, 1, coefficients, tables);
    ec_encode_data(length, (int)count, 1, tables, sources, &sum);
}

// The same, one product at a time. `length` is a multiple of 32.
static void add_products(int length, unsigned count, const uint8_t *coefficients, uint8_t **sources, uint8_t *sum) {
    uint8_t table[32];
    memset(sum, 0, (size_t)length);
    for (unsigned s = 0; s < count; s++) {
        gf_vect_mul_init(coefficients[s], table);
        WANT(gf_vect_mul(length, table, sources[s], product) == 0);
        for (int i = 0; i < length; i++) sum[i] ^= product[i];
    }
}

// Draws the data of a stripe, and has both write the parities: they are the same.
static void make_stripe(code *it, size_t length) {
    uint8_t tables[32 * 12 * PARITIES], *sources[12], *targets[PARITIES];
    lrc_bytes data[12];
    lrc_buffer parities[PARITIES];
    for (unsigned d = 0; d < it->data; d++) {
        draw(fragments[d], length);
        sources[d] = fragments[d], data[d] = (lrc_bytes){fragments[d], length};
    }
    for (unsigned j = 0; j < PARITIES; j++) {
        uint8_t *own = fragments[it->data + j];
        memset(own, '#', LONGEST);
        targets[j] = others[j], parities[j] = (lrc_buffer){own, length};
    }
    WANT(lrc_embed_encode(it->number, data, it->data, parities, PARITIES) == LRC_DONE);
    ec_init_tables((int)it->data, PARITIES, &it->rows[it->data * it->data], tables);
    if (length) ec_encode_data((int)length, (int)it->data, PARITIES, tables, sources, targets);
    for (unsigned j = 0; j < PARITIES; j++) {
        WANT(memcmp(fragments[it->data + j], others[j], length) == 0);
        WANT(length == LONGEST || fragments[it->data + j][length] == '#');
    }
}

// Rebuilds a fragment by a recipe, by ISA-L in two ways and by the library: all three give it. With one coefficient changed,
// ISA-L gives another.
static unsigned run_recipe(code *it, uint16_t missing, lrc_recipe recipe, size_t length) {
    uint8_t coefficients[LRC_FRAGMENTS], *sources[LRC_FRAGMENTS];
    const uint8_t *own = fragments[recipe.fragment];
    lrc_bytes given[LRC_FRAGMENTS] = {{0}};
    unsigned count = 0;
    for (unsigned f = 0; f < LRC_FRAGMENTS; f++) {
        if (recipe.coefficients[f] == 0) continue;
        WANT(f < it->all && !(missing >> f & 1));
        sources[count] = fragments[f], coefficients[count++] = recipe.coefficients[f];
        given[f] = (lrc_bytes){fragments[f], length};
    }
    memset(rebuilt, '#', LONGEST);
    WANT(lrc_embed_rebuild(&recipe, given, it->all, rebuilt, length) == LRC_DONE && memcmp(rebuilt, own, length) == 0);
    WANT(length == LONGEST || rebuilt[length] == '#');
    if (length == 0) return count;
    combine((int)length, count, coefficients, sources, rebuilt);
    WANT(memcmp(rebuilt, own, length) == 0);
    if (length % 32 == 0) {
        add_products((int)length, count, coefficients, sources, rebuilt);
        WANT(memcmp(rebuilt, own, length) == 0);
    }
    coefficients[drawn() % count] ^= (uint8_t)(1 + drawn() % 255);
    combine((int)length, count, coefficients, sources, rebuilt);
    WANT(length < 16 || memcmp(rebuilt, own, length) != 0); // (a few bytes may all be 0)
    return count;
}

// Each recipe of each set, over the bytes of one stripe.
static void run_sets(code *it) {
    unsigned long sets = 0, recipes = 0, reads[LRC_FRAGMENTS + 1] = {0};
    make_stripe(it, LONG);
    for (uint32_t missing = 1; missing < 1u << it->all; missing++) {
        bool all = true;
        for (uint8_t f = 0; f < it->all; f++) {
            lrc_recipe recipe = {0};
            if (!(missing >> f & 1)) continue;
            uint32_t status = lrc_embed_recipe_of(it->number, (uint16_t)missing, f, &recipe);
            all = all && status == LRC_DONE;
            if (status != LRC_DONE) {
                WANT(status == LRC_UNDETERMINED);
                continue;
            }
            WANT(recipe.code == it->number && recipe.fragment == f);
            reads[run_recipe(it, (uint16_t)missing, recipe, LONG)]++;
            recipes++;
        }
        sets += all;
    }
    printf("%lu %lu %lu %lu %lu\n", sets, recipes, reads[3], reads[6], reads[12]);
}

// Stripes of lengths that end within a vector, at its end and behind it; of each some fragments are rebuilt.
static unsigned long run_lengths(code *it) {
    static const size_t lengths[] = {0, 1, 15, 16, 17, 63, 64, 65, 255, 4096, 4097, 65537, LONGEST};
    unsigned long runs = 0;
    for (unsigned i = 0; i < 60; i++) {
        bool is_listed = i < sizeof lengths / sizeof *lengths;
        size_t length = is_listed ? lengths[i] : drawn() % 3000;
        make_stripe(it, length);
        for (unsigned n = 0; n < 20; n++) {
            lrc_recipe recipe = {0};
            uint8_t fragment = (uint8_t)(drawn() % it->all);
            uint16_t missing = (uint16_t)(1u << fragment | 1u << drawn() % it->all | 1u << drawn() % it->all);
            WANT(lrc_embed_recipe_of(it->number, missing, fragment, &recipe) == LRC_DONE); // (any three can be lost)
            run_recipe(it, missing, recipe, length);
            runs++;
        }
        runs++;
    }
    return runs;
}

int main(int argc, char **argv) {
    WANT(argc == 2 && lrc_embed_version() == LRC_EMBED_VERSION);
    state = strtoull(argv[1], 0, 10);
    code codes[] = {code_of(LRC_WIDE, 12), code_of(LRC_NARROW, 6)};
    unsigned long runs = 0;
    for (unsigned i = 0; i < 2; i++) run_sets(&codes[i]);
    for (unsigned i = 0; i < 2; i++) runs += run_lengths(&codes[i]);
    printf("%lu\n", runs);
    return 0;
}
