// Calls of lrc_embed.h whose instructions bench/calls counts: those in the functions `counted`, and what these call.
// Usage: calls NODES STRIPES KIND; prints how many calls were counted.
#include "lrc_embed.h"

#include <stdio.h>
#include <stdlib.h>
#include <string.h>

enum { BATCH = 64, CYCLES = 8 };

static lrc_handle handle = LRC_CLOSED;
static unsigned nodes, stripes;
static lrc_command batch[BATCH];
static lrc_lease leases[BATCH];
static unsigned long calls;

static void want(bool holds, int line) {
    if (holds) return;
    fprintf(stderr, "bench/calls.c:%d: not as wanted\n", line);
    exit(1);
}
#define WANT(condition) want(condition, __LINE__)

// What one call after the other returns. Each is counted with the step of its loop.
static uint32_t make_all(uint8_t reply_kind) {
    uint32_t wrong = 0;
    lrc_reply reply = {0};
    for (unsigned i = 0; i < BATCH; i++) {
        wrong |= lrc_embed_call(&handle, 1, &batch[i], &reply) | (uint32_t)(reply.kind ^ reply_kind);
        leases[i] = reply.lease;
    }
    return wrong;
}

__attribute__((noinline)) static uint32_t counted_calls(uint8_t reply_kind) { return make_all(reply_kind); }

__attribute__((noinline)) static uint32_t counted_levels(void) {
    uint32_t wrong = 0;
    lrc_level level;
    for (unsigned i = 0; i < BATCH; i++) wrong |= lrc_embed_level(&handle, batch[i].stripe, &level);
    return wrong;
}

__attribute__((noinline)) static uint32_t counted_homes(void) {
    uint32_t wrong = 0;
    static lrc_homes homes;
    for (unsigned i = 0; i < BATCH; i++) wrong |= lrc_embed_homes(&handle, batch[i].stripe, &homes);
    return wrong;
}

__attribute__((noinline)) static uint32_t counted_loads(void) {
    uint32_t wrong = 0, load;
    for (unsigned i = 0; i < BATCH; i++) wrong |= lrc_embed_load(&handle, batch[i].node, &load);
    return wrong;
}

static void count(uint32_t wrong) {
    WANT(wrong == 0);
    calls += BATCH;
}

static void fill_batch(uint8_t kind, unsigned cycle) {
    for (unsigned i = 0; i < BATCH; i++)
        batch[i] = (lrc_command){.kind = kind, .stripe = (uint16_t)((cycle * BATCH + i * 389) % stripes), .node = (uint16_t)(i % nodes)};
}

static void make(uint8_t kind, unsigned cycle, uint8_t reply_kind, bool is_counted) {
    fill_batch(kind, cycle);
    if (is_counted) count(counted_calls(reply_kind));
    else WANT(make_all(reply_kind) == 0);
}

static lrc_reply call(lrc_command command) {
    lrc_reply reply = {0};
    WANT(lrc_embed_call(&handle, 1, &command, &reply) == LRC_DONE);
    return reply;
}

// A node fails, and its first fragments are leased and reported; then the rest, and it joins again.
static void repair(uint16_t node, bool counts_next, bool counts_done) {
    lrc_reply reply;
    WANT(call((lrc_command){.kind = LRC_FAIL, .node = node}).kind == LRC_CHANGED);
    make(LRC_NEXT, 0, LRC_GRANTED, counts_next);
    for (unsigned i = 0; i < BATCH; i++)
        batch[i] = (lrc_command){.kind = LRC_REPORT, .stripe = leases[i].stripe, .fragment = leases[i].fragment, .epoch = leases[i].epoch};
    if (counts_done) count(counted_calls(LRC_ENDED));
    else WANT(make_all(LRC_ENDED) == 0);
    while (reply = call((lrc_command){.kind = LRC_NEXT}), reply.kind == LRC_GRANTED)
        call((lrc_command){.kind = LRC_REPORT, .stripe = reply.lease.stripe, .fragment = reply.lease.fragment, .epoch = reply.lease.epoch});
    WANT(call((lrc_command){.kind = LRC_JOIN, .node = node}).kind == LRC_CHANGED);
}

static void play(const char *kind, unsigned cycle) {
    bool drops = !strcmp(kind, "drop"), places = !strcmp(kind, "place"), grants = !strcmp(kind, "next"), ends = !strcmp(kind, "done");
    if (drops || places) {
        make(LRC_DROP, cycle, LRC_DROPPED, drops);
        make(LRC_PLACE, cycle, LRC_PLACED, places);
    } else if (grants || ends) {
        repair((uint16_t)(cycle * 11 % nodes), grants, ends);
    } else if (!strcmp(kind, "tick")) {
        make(LRC_TICK, cycle, LRC_TICKED, true);
    } else if (!strcmp(kind, "idle")) {
        make(LRC_NEXT, cycle, LRC_IDLE, true);
    } else if (!strcmp(kind, "refused")) {
        make(LRC_UP, cycle, LRC_REFUSED, true);
    } else {
        fill_batch(LRC_UP, cycle);
        if (!strcmp(kind, "level")) count(counted_levels());
        else if (!strcmp(kind, "homes")) count(counted_homes());
        else if (!strcmp(kind, "load")) count(counted_loads());
        else WANT(false);
    }
}

// The nodes and stripes of bench/embed.
int main(int argc, char **argv) {
    static char text[512 * 80];
    size_t length = 0, detail;
    WANT(argc == 4 && lrc_embed_version() == LRC_EMBED_VERSION);
    nodes = (unsigned)strtoul(argv[1], NULL, 10), stripes = (unsigned)strtoul(argv[2], NULL, 10);
    WANT(nodes >= 32 && nodes <= 512 && stripes >= 256 && stripes <= LRC_STRIPES);
    for (unsigned i = 0; i < nodes; i++)
        length += (size_t)sprintf(text + length, "[[node]]\nnumber = %u\nfault = %u\nupgrade = %u\nslots = 256\n", i, i % 32,
                                  (i / 32 + i) % 16);
    WANT(lrc_embed_open(&handle, (const uint8_t *)text, length, &detail) == LRC_DONE);
    for (unsigned i = 0; i < stripes; i++) WANT(call((lrc_command){.kind = LRC_PLACE, .stripe = (uint16_t)i}).kind == LRC_PLACED);
    for (unsigned cycle = 0; cycle < CYCLES; cycle++) play(argv[3], cycle);
    printf("%lu\n", calls);
    return 0;
}
