/* Looks of viewers beside calls of a published book, for bench/views: VIEWERS CALLS, and prints nanoseconds. */
#define _POSIX_C_SOURCE 200809L
#include <lrc_embed.h>
#include <pthread.h>
#include <stdatomic.h>
#include <stdio.h>
#include <stdlib.h>
#include <time.h>

enum { NODES = 512, STRIPES = 2000, MOST = 64 };

/* A look writes its viewer, so each has cache lines of its own. */
typedef struct {
    _Alignas(128) lrc_viewer viewer;
    uint64_t looks;
    double used;
} looker;

static lrc_published published;
static looker lookers[MOST];
static atomic_bool is_over;
static atomic_int begun;

static double clock_of(clockid_t clock) {
    struct timespec at;
    clock_gettime(clock, &at);
    return (double)at.tv_sec * 1e9 + (double)at.tv_nsec;
}

static void expect(uint32_t status, const char *what) {
    if (status == LRC_DONE) return;
    fprintf(stderr, "%s: status %u\n", what, status);
    exit(1);
}

static void *look(void *of) {
    looker *own = of;
    double begin = clock_of(CLOCK_THREAD_CPUTIME_ID);
    atomic_fetch_add(&begun, 1);
    while (!atomic_load_explicit(&is_over, memory_order_relaxed))
        for (uint16_t stripe = 0; stripe < 64; stripe++, own->looks++) {
            uint64_t place;
            uint8_t is_published;
            lrc_level level;
            expect(lrc_embed_follow(&own->viewer, &place, &is_published), "follow");
            uint32_t status = lrc_embed_level(&own->viewer.book, stripe, &level);
            if (status != LRC_UNKNOWN) expect(status, "level");
        }
    own->used = clock_of(CLOCK_THREAD_CPUTIME_ID) - begin;
    return NULL;
}

static void call(uint8_t kind, uint16_t stripe) {
    lrc_command command = {.kind = kind, .stripe = stripe};
    lrc_reply reply;
    expect(lrc_embed_call_published(&published, 1, &command, &reply), "call");
}

static void publish(size_t viewers) {
    static char nodes[NODES * 80];
    size_t length = 0, detail;
    for (int node = 0; node < NODES; node++)
        length += (size_t)sprintf(nodes + length, "[[node]]\nnumber = %d\nfault = %d\nupgrade = %d\nslots = 200\n", node, node % 64, node % 20);
    lrc_handle handle = LRC_CLOSED;
    expect(lrc_embed_open(&handle, (uint8_t *)nodes, length, &detail), "open");
    expect(lrc_embed_publish(&handle, &published), "publish");
    for (uint16_t stripe = 0; stripe < STRIPES; stripe++) call(LRC_PLACE, stripe);
    for (size_t it = 0; it < viewers; it++) expect(lrc_embed_view(&published, (uint8_t *)nodes, length, &lookers[it].viewer), "view");
}

int main(int count, char **words) {
    if (count != 3) return 2;
    size_t viewers = strtoul(words[1], NULL, 10), calls = strtoul(words[2], NULL, 10);
    if (viewers > MOST) return 2;
    pthread_t threads[MOST];
    publish(viewers);
    for (size_t it = 0; it < viewers; it++)
        if (pthread_create(&threads[it], NULL, look, &lookers[it])) return 1;
    while (atomic_load(&begun) < (int)viewers) {}
    double begin = clock_of(CLOCK_MONOTONIC), used = clock_of(CLOCK_THREAD_CPUTIME_ID);
    for (size_t it = 0; it < calls; it++) call(it % 2 ? LRC_PLACE : LRC_DROP, (uint16_t)(it / 2 % STRIPES));
    if (!calls) nanosleep(&(struct timespec){.tv_nsec = 300000000}, NULL);
    double wall = clock_of(CLOCK_MONOTONIC) - begin;
    used = clock_of(CLOCK_THREAD_CPUTIME_ID) - used;
    atomic_store(&is_over, true);
    double looked = 0, looks = 0;
    for (size_t it = 0; it < viewers; it++) {
        pthread_join(threads[it], NULL);
        looked += lookers[it].used, looks += (double)lookers[it].looks;
    }
    double each = calls ? (double)calls : 1;
    printf("%.1f %.1f %.1f\n", looks > 0 ? looked / looks : 0, calls ? used / each : 0, calls ? wall / each : 0);
    return 0;
}
