// Calls from threads where that is allowed, and where it is not. tests/library/checked.py writes made.h, builds and runs it.
// Usage: checked CASE | allowed | overlap NUMBER | nested
// CASE is that of a call in made.h, which one thread makes while others are inside of calls with its handles.
#define _POSIX_C_SOURCE 200809L
#include "lrc_embed.h"

#include <pthread.h>
#include <stdatomic.h>
#include <stdio.h>
#include <stdlib.h>
#include <string.h>

static char nodes[4096];
static size_t nodes_length;
static lrc_handle handle = LRC_CLOSED, other = LRC_CLOSED, free_handle = LRC_CLOSED;
static lrc_published published = LRC_NOT_PUBLISHED, free_published = LRC_NOT_PUBLISHED;
static lrc_viewer viewer = LRC_NO_VIEWER, second = LRC_NO_VIEWER, free_viewer = LRC_NO_VIEWER;
static _Alignas(16) unsigned char zeros[1 << 16]; // for what a call reads or writes beside its handles

static void want(bool holds, int line) {
    if (holds) return;
    fprintf(stderr, "checked.c:%d: not as wanted\n", line);
    exit(1);
}
#define WANT(condition) want(condition, __LINE__)

// A thread that waits where its call requests memory is inside of the call until `is_over`.
static _Thread_local bool waits, calls_inside;
static atomic_int waiting;
static atomic_bool is_over;

void *__real_malloc(size_t size);
void *__wrap_malloc(size_t size);
void *__wrap_malloc(size_t size) {
    if (waits) {
        waits = false;
        atomic_fetch_add(&waiting, 1);
        while (!atomic_load(&is_over)) {}
    }
    if (calls_inside) {
        size_t count = 0;
        calls_inside = false;
        lrc_embed_count(&other, &count);
    }
    return __real_malloc(size);
}

static void open_book(lrc_handle *book) {
    size_t detail = 0;
    WANT(lrc_embed_open(book, (const uint8_t *)nodes, nodes_length, &detail) == LRC_DONE);
}

static uint32_t make_viewer(lrc_viewer *it) { return lrc_embed_view(&published, (const uint8_t *)nodes, nodes_length, it); }

static void open_all(void) {
    for (int i = 0; i < 20; i++)
        nodes_length += (size_t)sprintf(nodes + nodes_length, "[[node]]\nnumber = %d\nfault = %d\nupgrade = %d\nslots = 9\n", i, i, i % 10);
    lrc_handle book = LRC_CLOSED;
    open_book(&handle), open_book(&other), open_book(&book);
    WANT(lrc_embed_publish(&book, &published) == LRC_DONE && make_viewer(&second) == LRC_DONE);
}

static uint32_t show(lrc_handle *book) {
    uint8_t text[1000];
    size_t length = 0;
    return lrc_embed_show(book, LRC_SHOW_STATUS, text, sizeof text, &length);
}

static void *wait_in_show(void *book) {
    waits = true;
    WANT(show(book) == LRC_DONE && !waits);
    return NULL;
}

static void *wait_in_view(void *unused) {
    (void)unused;
    waits = true;
    WANT(make_viewer(&viewer) == LRC_DONE && !waits);
    return NULL;
}

static uint32_t made(long number) {
    switch (number) {
#include "made.h"
    default: return 1000;
    }
}

static void started(pthread_t *thread, void *(*run)(void *), void *given) {
    int before = atomic_load(&waiting);
    WANT(pthread_create(thread, NULL, run, given) == 0);
    while (atomic_load(&waiting) == before) {}
}

// One thread is inside of a call with `handle`, and another with `published` and `viewer`.
static void make_beside(long number) {
    pthread_t threads[2];
    started(&threads[0], wait_in_show, &handle);
    started(&threads[1], wait_in_view, NULL);
    printf("%p %p %p\n", (void *)&handle, (void *)&published, (void *)&viewer);
    fflush(stdout);
    printf("status %u\n", made(number));
    exit(0);
}

// Threads are inside of a call with the published book, and of one with a handle between two others. Other handles, viewers, and
// calls without a handle are free.
static void make_allowed(void) {
    static lrc_handle row[3];
    pthread_t thread, between;
    lrc_command command = {.kind = LRC_PLACE, .stripe = 1};
    lrc_reply reply = {0};
    lrc_level level = {0};
    lrc_recipe recipe = {0};
    uint8_t text[32], is_published = 0;
    size_t length = 0;
    uint64_t at = 0;
    WANT(lrc_embed_call_published(&published, 1, &command, &reply) == LRC_DONE);
    for (int i = 0; i < 3; i++) open_book(&row[i]);
    started(&thread, wait_in_show, &published.book);
    started(&between, wait_in_show, &row[1]);
    WANT(show(&row[0]) == LRC_DONE && show(&row[2]) == LRC_DONE);
    WANT(lrc_embed_follow(&second, &at, &is_published) == LRC_DONE && at == 1);
    WANT(lrc_embed_level(&second.book, 1, &level) == LRC_DONE && show(&second.book) == LRC_DONE);
    WANT(lrc_embed_call(&other, 1, &command, &reply) == LRC_DONE && show(&handle) == LRC_DONE);
    WANT(lrc_embed_publish(&other, &free_published) == LRC_DONE && lrc_embed_unpublish(&free_published, &other) == LRC_DONE);
    WANT(lrc_embed_recipe_of(LRC_WIDE, 1, 0, &recipe) == LRC_DONE && lrc_embed_status_name(0, text, sizeof text, &length) == LRC_DONE);
    WANT(lrc_embed_close_viewer(&second) == LRC_DONE && lrc_embed_close(&other) == LRC_DONE);
    atomic_store(&is_over, true);
    WANT(pthread_join(thread, NULL) == 0 && pthread_join(between, NULL) == 0);
    WANT(lrc_embed_level(&published.book, 1, &level) == LRC_DONE); // (it is free again, for this thread too)
    printf("allowed\n");
}

// Two handles of a call that overlap.
static void make_overlap(long number) {
    if (number == 0) lrc_embed_publish(&published.book, &published);
    if (number == 1) lrc_embed_unpublish(&published, &published.book);
    if (number == 2) make_viewer((lrc_viewer *)(void *)&published);
    if (number == 3) lrc_embed_publish((lrc_handle *)(void *)&published.feed, &published);
}

int main(int count, char **words) {
    WANT(count > 1);
    open_all();
    long number = strtol(words[count - 1], NULL, 10);
    if (!strcmp(words[1], "allowed")) make_allowed();
    else if (!strcmp(words[1], "overlap")) make_overlap(number);
    else if (!strcmp(words[1], "nested")) calls_inside = true, show(&handle);
    else make_beside(number);
    return 0;
}
