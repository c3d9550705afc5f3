// Published books and their viewers, by lrc_embed.h. tests/library/views builds and runs it.
// Usage: views statuses | full | closes | ended ROUNDS | refused FIRST LAST | beside CALLS LOOKERS | times CALLS LOOKERS
// It ends at the first thing that is not as wanted, with status 1.
#define _POSIX_C_SOURCE 200809L
#include "lrc_embed.h"

#include <pthread.h>
#include <sched.h>
#include <stdatomic.h>
#include <stdio.h>
#include <stdlib.h>
#include <string.h>
#include <time.h>

#define NODES 40
#define NODE "[[node]]\nnumber = %d\nfault = %d\nupgrade = %d\nslots = 40\n"
#define STRIPES 60
#define MOST_LOOKERS 64
#define ENDING 4

static char nodes[NODES * 64];
static size_t nodes_length;

static void want(bool holds, int line) {
    if (holds) return;
    fprintf(stderr, "views.c:%d: not as wanted\n", line);
    exit(1);
}
#define WANT(condition) want(condition, __LINE__)

// ---- memory: the request of this number, from 1, is refused, and all after it until `requests` is 0 again

static _Thread_local long requests, refused_from;

static bool is_refused(void) {
    return refused_from && ++requests >= refused_from;
}

void *__real_malloc(size_t size);
void *__real_realloc(void *at, size_t size);
void *__wrap_malloc(size_t size);
void *__wrap_realloc(void *at, size_t size);
void *__wrap_malloc(size_t size) { return is_refused() ? NULL : __real_malloc(size); }
void *__wrap_realloc(void *at, size_t size) { return is_refused() ? NULL : __real_realloc(at, size); }

static void refuse_from(long number) {
    requests = 0;
    refused_from = number;
}

// ---- books

static void write_nodes(void) {
    for (int i = 0; i < NODES; i++)
        nodes_length += (size_t)sprintf(nodes + nodes_length, NODE, i, i, i % 10);
}

static void open_book(lrc_handle *book) {
    size_t detail = 0;
    WANT(lrc_embed_open(book, (const uint8_t *)nodes, nodes_length, &detail) == LRC_DONE);
}

static lrc_published published_book(void) {
    lrc_handle book = LRC_CLOSED;
    lrc_published it = LRC_NOT_PUBLISHED;
    open_book(&book);
    WANT(lrc_embed_publish(&book, &it) == LRC_DONE && lrc_embed_close(&book) == LRC_DONE);
    return it;
}

static lrc_viewer viewer_of(lrc_published *it) {
    lrc_viewer viewer = LRC_NO_VIEWER;
    WANT(lrc_embed_view(it, (const uint8_t *)nodes, nodes_length, &viewer) == LRC_DONE);
    return viewer;
}

static void close_published(lrc_published *it) {
    lrc_handle book = LRC_CLOSED;
    WANT(lrc_embed_unpublish(it, &book) == LRC_DONE && lrc_embed_close(&book) == LRC_DONE);
}

// What follows a status: that of a viewer whose book is no longer published.
#define ENDED 100

static uint32_t follow(lrc_viewer *viewer, uint64_t *at) {
    uint8_t is_published = 7;
    uint64_t before = *at;
    uint32_t status = lrc_embed_follow(viewer, at, &is_published);
    WANT(status == LRC_DONE ? is_published < 2 : is_published == 7 && *at == before);
    return status == LRC_DONE && !is_published ? ENDED : status;
}

static uint32_t call(lrc_published *it, lrc_command command) {
    lrc_reply reply = {0};
    return lrc_embed_call_published(it, 1, &command, &reply);
}

// The calls of a row: stripes come and go, nodes fail and come back, fragments are leased and reported.
static lrc_command drawn(uint64_t *row) {
    *row = *row * 6364136223846793005u + 1442695040888963407u;
    uint32_t number = (uint32_t)(*row >> 33);
    static const uint8_t kinds[] = {LRC_PLACE, LRC_PLACE, LRC_PLACE6, LRC_DROP, LRC_DOWN, LRC_UP, LRC_UP, LRC_FAIL,
                                    LRC_JOIN, LRC_JOIN, LRC_NEXT, LRC_NEXT, LRC_TICK, LRC_UPGRADE, LRC_UPGRADED, LRC_REPORT};
    lrc_command command = {.kind = kinds[number % 16], .stripe = (uint16_t)(number / 16 % STRIPES),
                           .node = (uint16_t)(number / 16 % NODES), .domain = (uint8_t)(number / 16 % 10),
                           .fragment = (uint8_t)(number / 1024 % 16), .epoch = 1};
    return command;
}

// A sum of what a book shows of all stripes, all nodes and the order of repair.
static uint64_t sum_of(lrc_handle *book) {
    static _Thread_local lrc_stripe stripes[LRC_STRIPES];
    static _Thread_local lrc_node rows[LRC_NODES];
    static _Thread_local lrc_risk risks[LRC_STRIPES];
    size_t stripe_count = 0, node_count = 0, risk_count = 0;
    WANT(lrc_embed_stripes(book, 0, stripes, LRC_STRIPES, &stripe_count) == LRC_DONE);
    WANT(lrc_embed_nodes(book, 0, rows, LRC_NODES, &node_count) == LRC_DONE);
    WANT(lrc_embed_risk(book, risks, LRC_STRIPES, &risk_count) == LRC_DONE);
    uint64_t sum = 14695981039346656037u;
    const void *parts[] = {stripes, rows, risks};
    const size_t sizes[] = {stripe_count * sizeof *stripes, node_count * sizeof *rows, risk_count * sizeof *risks};
    for (int part = 0; part < 3; part++)
        for (size_t i = 0; i < sizes[part]; i++) sum = (sum ^ ((const uint8_t *)parts[part])[i]) * 1099511628211u;
    return sum ^ risk_count << 48;
}

static uint64_t place_of(lrc_handle *book) {
    uint64_t before = 0;
    size_t count = 0;
    WANT(lrc_embed_before(book, &before) == LRC_DONE && lrc_embed_count(book, &count) == LRC_DONE);
    return before + count;
}

// ---- statuses

// Where a book or a feed is open alone.
static void test_halves(lrc_published *it, lrc_viewer *viewer) {
    const lrc_command place = {.kind = LRC_PLACE, .stripe = 1};
    const uint8_t *text = (const uint8_t *)nodes;
    lrc_viewer closed = LRC_NO_VIEWER;
    lrc_handle book = LRC_CLOSED;
    lrc_reply reply = {.kind = 99};
    uint64_t at = 77;
    open_book(&book);
    for (int part = 0; part < 2; part++) { // (a part that is moved away is closed)
        lrc_published whole = *it;
        lrc_viewer whole_viewer = *viewer;
        if (part) it->feed = (lrc_feed){0}, viewer->feed = (lrc_feed){0};
        else it->book = LRC_CLOSED, viewer->book = LRC_CLOSED;
        WANT(lrc_embed_publish(&book, it) == LRC_IS_OPEN && place_of(&book) == 0);
        WANT(lrc_embed_call_published(it, 1, &place, &reply) == LRC_IS_CLOSED && reply.kind == 99);
        WANT(lrc_embed_view(it, text, nodes_length, &closed) == LRC_IS_CLOSED);
        WANT(follow(viewer, &at) == LRC_IS_CLOSED && at == 77);
        WANT(lrc_embed_view(&whole, text, nodes_length, viewer) == LRC_IS_OPEN);
        *it = whole, *viewer = whole_viewer;
    }
    WANT(lrc_embed_close(&book) == LRC_DONE);
}

static void test_statuses(void) {
    lrc_handle book = LRC_CLOSED, other = LRC_CLOSED;
    lrc_published it = LRC_NOT_PUBLISHED;
    lrc_viewer viewer = LRC_NO_VIEWER, second = LRC_NO_VIEWER;
    const lrc_command place = {.kind = LRC_PLACE, .stripe = 1}, none = {.kind = 0};
    const uint8_t *text = (const uint8_t *)nodes;
    uint64_t at = 77;
    lrc_reply reply = {.kind = 99};
    WANT(lrc_embed_publish(&book, &it) == LRC_IS_CLOSED);
    WANT(lrc_embed_unpublish(&it, &book) == LRC_IS_CLOSED);
    WANT(lrc_embed_view(&it, text, nodes_length, &viewer) == LRC_IS_CLOSED);
    WANT(follow(&viewer, &at) == LRC_IS_CLOSED && at == 77);
    WANT(lrc_embed_close_viewer(&viewer) == LRC_DONE);
    WANT(lrc_embed_call_published(&it, 1, &place, &reply) == LRC_IS_CLOSED && reply.kind == 99);
    WANT(lrc_embed_call_published(&it, 0, &place, &reply) == LRC_OUT_OF_RANGE);
    open_book(&book);
    WANT(lrc_embed_call(&book, 1, &place, &reply) == LRC_DONE && reply.kind == LRC_PLACED);
    WANT(lrc_embed_publish(&book, &it) == LRC_DONE && lrc_embed_count(&book, &(size_t){0}) == LRC_IS_CLOSED);
    open_book(&other);
    WANT(lrc_embed_publish(&other, &it) == LRC_IS_OPEN && place_of(&other) == 0 && place_of(&it.book) == 1);
    WANT(lrc_embed_unpublish(&it, &other) == LRC_IS_OPEN && place_of(&other) == 0 && place_of(&it.book) == 1);
    reply.kind = 99;
    WANT(lrc_embed_call_published(&it, 9, &place, &reply) == LRC_OUT_OF_RANGE && reply.kind == 99);
    WANT(lrc_embed_call_published(&it, 1, &none, &reply) == LRC_OUT_OF_RANGE && reply.kind == 99);
    // Fewer nodes, a text that is none, and another domain.
    size_t last = strlen("[[node]]\nnumber = 39\nfault = 39\nupgrade = 9\nslots = 40\n");
    char *upgrade = nodes + strlen("[[node]]\nnumber = 0\nfault = 0\nupgrade = ");
    WANT(lrc_embed_view(&it, text, nodes_length - last, &viewer) == LRC_DIFFERENT);
    WANT(lrc_embed_view(&it, text, 5, &viewer) == LRC_DIFFERENT);
    WANT(lrc_embed_view(&it, NULL, 0, &viewer) == LRC_DIFFERENT);
    *upgrade = '3';
    WANT(lrc_embed_view(&it, text, nodes_length, &viewer) == LRC_DIFFERENT);
    *upgrade = '0';
    // The same nodes in another order, and in the same order by another text.
    static char others[sizeof nodes];
    const uint8_t *other_text = (const uint8_t *)others;
    memcpy(others, nodes + nodes_length - last, last), memcpy(others + last, nodes, nodes_length - last);
    WANT(lrc_embed_view(&it, other_text, nodes_length, &viewer) == LRC_DIFFERENT);
    others[0] = '\n', memcpy(others + 1, nodes, nodes_length);
    WANT(lrc_embed_view(&it, other_text, nodes_length + 1, &second) == LRC_DONE);
    WANT(sum_of(&second.book) == sum_of(&it.book) && lrc_embed_close_viewer(&second) == LRC_DONE);
    WANT(follow(&viewer, &at) == LRC_IS_CLOSED);
    WANT(lrc_embed_view(&it, text, nodes_length, &viewer) == LRC_DONE);
    WANT(lrc_embed_view(&it, text, nodes_length, &viewer) == LRC_IS_OPEN);
    test_halves(&it, &viewer);
    WANT(follow(&viewer, &at) == LRC_DONE && at == 1 && sum_of(&viewer.book) == sum_of(&it.book));
    refuse_from(1); // (there is no call to make)
    WANT(follow(&viewer, &at) == LRC_DONE && requests == 0);
    refuse_from(0);
    // A call, a refused one, and a call that the published book made on its own.
    WANT(call(&it, (lrc_command){.kind = LRC_PLACE, .stripe = 2}) == LRC_DONE && call(&it, place) == LRC_DONE);
    lrc_level level = {0};
    WANT(lrc_embed_level(&viewer.book, 2, &level) == LRC_UNKNOWN);
    WANT(follow(&viewer, &at) == LRC_DONE && at == 3 && sum_of(&viewer.book) == sum_of(&it.book));
    WANT(lrc_embed_level(&viewer.book, 2, &level) == LRC_DONE && level.kind == LRC_WHOLE);
    WANT(lrc_embed_forget(&viewer.book) == LRC_DONE && lrc_embed_forget(&it.book) == LRC_DONE);
    WANT(call(&it, (lrc_command){.kind = LRC_FAIL, .node = 3}) == LRC_DONE);
    WANT(follow(&viewer, &at) == LRC_DONE && at == 4 && sum_of(&viewer.book) == sum_of(&it.book));
    WANT(lrc_embed_call(&viewer.book, 1, &place, &reply) == LRC_DONE);
    WANT(follow(&viewer, &at) == LRC_MOVED && at == 4);
    WANT(lrc_embed_close_viewer(&viewer) == LRC_DONE && follow(&viewer, &at) == LRC_IS_CLOSED);
    viewer = viewer_of(&it);
    WANT(lrc_embed_call(&it.book, 1, &place, &reply) == LRC_DONE);
    reply.kind = 99;
    WANT(lrc_embed_call_published(&it, 1, &place, &reply) == LRC_MOVED && reply.kind == 99 && place_of(&it.book) == 5);
    WANT(lrc_embed_view(&it, text, nodes_length, &second) == LRC_MOVED);
    WANT(follow(&viewer, &at) == LRC_DONE && at == 4);
    // Taken back: what is not followed yet is followed, and then it is told.
    WANT(lrc_embed_close(&other) == LRC_DONE && lrc_embed_unpublish(&it, &other) == LRC_DONE && place_of(&other) == 5);
    WANT(follow(&viewer, &at) == ENDED && at == 4);
    WANT(lrc_embed_publish(&other, &it) == LRC_DONE);
    WANT(lrc_embed_view(&it, text, nodes_length, &second) == LRC_DONE);
    WANT(call(&it, (lrc_command){.kind = LRC_TICK}) == LRC_DONE && lrc_embed_unpublish(&it, &other) == LRC_DONE);
    WANT(follow(&second, &at) == ENDED && at == 6 && sum_of(&second.book) == sum_of(&other));
    WANT(follow(&viewer, &at) == ENDED && at == 4);
    WANT(lrc_embed_close_viewer(&viewer) == LRC_DONE && lrc_embed_close_viewer(&second) == LRC_DONE);
    WANT(lrc_embed_close(&other) == LRC_DONE);
}

// A published book that begins in an image.
static lrc_published published_image(const char *image) {
    lrc_handle book = LRC_CLOSED;
    lrc_published it = LRC_NOT_PUBLISHED;
    size_t detail = 0;
    uint32_t cause = 0;
    const uint8_t *text = (const uint8_t *)nodes, *from = (const uint8_t *)image;
    WANT(lrc_embed_open_image(&book, text, nodes_length, from, strlen(image), &detail, &cause) == LRC_DONE);
    WANT(lrc_embed_publish(&book, &it) == LRC_DONE);
    return it;
}

// A store that has gone as far as one may makes one more call: then nobody can view it, but calls and looks go on.
static void is_spent_by(const char *image, uint64_t before, lrc_command last) {
    lrc_published it = published_image(image);
    lrc_viewer viewer = viewer_of(&it), second = LRC_NO_VIEWER;
    uint64_t at = 0;
    WANT(call(&it, last) == LRC_DONE && place_of(&it.book) == before + 1);
    WANT(lrc_embed_view(&it, (const uint8_t *)nodes, nodes_length, &second) == LRC_FULL);
    WANT(follow(&second, &at) == LRC_IS_CLOSED && place_of(&it.book) == before + 1);
    WANT(follow(&viewer, &at) == LRC_DONE && at == before + 1 && sum_of(&viewer.book) == sum_of(&it.book));
    WANT(call(&it, (lrc_command){.kind = LRC_TICK}) == LRC_DONE && follow(&viewer, &at) == LRC_DONE && at == before + 2);
    WANT(lrc_embed_close_viewer(&viewer) == LRC_DONE);
    close_published(&it);
}

// Calls that are refused, and so only entries.
static void call_often(lrc_published *it, long times) {
    for (long i = 0; i < times; i++) WANT(call(it, (lrc_command){.kind = LRC_UP, .node = 1}) == LRC_DONE);
}

// The ends of a history, of a feed, and of the numbers of an image.
static void test_full(void) {
    const uint64_t most = 9223372036854775808u; // the most entries before an image
    const lrc_command up = {.kind = LRC_UP, .node = 1}, tick = {.kind = LRC_TICK};
    is_spent_by("image 1\nbefore 9223372036854775808\nclock 0\nend\n", most, up);
    is_spent_by("image 1\nbefore 5\nclock 4293967291\nend\n", 5, tick);
    is_spent_by("image 1\nbefore 5\nclock 0\nstripe6 2 15:0 17:0 18:0 19:0 20:0 21:0 22:0 - 24:0 26:0\n"
                "granted 2 0 0 0 0 0 0 0 4293967294 0 0 0 0 0 0 0 0\nend\n", 5,
                (lrc_command){.kind = LRC_LEASE, .stripe = 2, .fragment = 7});
    // One entry more than a book may have that is published.
    lrc_published it = published_image("image 1\nbefore 9223372036854775808\nclock 0\nend\n");
    lrc_handle book = LRC_CLOSED;
    WANT(call(&it, up) == LRC_DONE && lrc_embed_unpublish(&it, &book) == LRC_DONE);
    WANT(lrc_embed_publish(&book, &it) == LRC_FULL && place_of(&book) == most + 1);
    WANT(lrc_embed_unpublish(&it, &(lrc_handle){0}) == LRC_IS_CLOSED && lrc_embed_close(&book) == LRC_DONE);
    // The history is full, of the book and then of the viewer.
    uint64_t at = 77;
    lrc_reply reply = {.kind = 99};
    it = published_book();
    lrc_viewer viewer = viewer_of(&it), early = viewer_of(&it);
    call_often(&it, LRC_HISTORY_LIMIT);
    WANT(lrc_embed_call_published(&it, 1, &tick, &reply) == LRC_FULL && reply.kind == 99);
    WANT(place_of(&it.book) == LRC_HISTORY_LIMIT && follow(&viewer, &at) == LRC_DONE && at == LRC_HISTORY_LIMIT);
    WANT(lrc_embed_forget(&it.book) == LRC_DONE && call(&it, tick) == LRC_DONE);
    for (int i = 0; i < 2; i++) {
        uint32_t clock = 99;
        WANT(follow(&viewer, &at) == LRC_FULL && place_of(&viewer.book) == LRC_HISTORY_LIMIT);
        WANT(follow(&early, &at) == LRC_FULL && place_of(&early.book) == LRC_HISTORY_LIMIT);
        WANT(lrc_embed_clock(&early.book, &clock) == LRC_DONE && clock == 0);
    }
    WANT(lrc_embed_forget(&viewer.book) == LRC_DONE);
    WANT(follow(&viewer, &at) == LRC_DONE && at == LRC_HISTORY_LIMIT + 1 && sum_of(&viewer.book) == sum_of(&it.book));
    // The feed is full, and the history is not.
    call_often(&it, LRC_FEED_LIMIT - LRC_HISTORY_LIMIT - 1);
    for (int i = 0; i < 2; i++) WANT(lrc_embed_call_published(&it, 1, &tick, &reply) == LRC_FULL && reply.kind == 99);
    WANT(place_of(&it.book) == LRC_FEED_LIMIT && follow(&viewer, &at) == LRC_DONE && at == LRC_FEED_LIMIT);
    WANT(lrc_embed_unpublish(&it, &book) == LRC_DONE && lrc_embed_publish(&book, &it) == LRC_DONE);
    WANT(call(&it, tick) == LRC_DONE && follow(&viewer, &at) == ENDED && at == LRC_FEED_LIMIT);
    WANT(lrc_embed_close_viewer(&viewer) == LRC_DONE && lrc_embed_close_viewer(&early) == LRC_DONE);
    close_published(&it);
}

// Closes in each order of a published book and two viewers; a viewer shows the same after the others are closed.
static void test_closes(void) {
    static const int orders[6][3] = {{0, 1, 2}, {0, 2, 1}, {1, 0, 2}, {1, 2, 0}, {2, 0, 1}, {2, 1, 0}};
    for (int order = 0; order < 6; order++) {
        lrc_published it = published_book();
        lrc_viewer viewers[2] = {viewer_of(&it), viewer_of(&it)};
        uint64_t row = (uint64_t)order, at = 0;
        for (int i = 0; i < 200; i++) WANT(call(&it, drawn(&row)) == LRC_DONE);
        uint64_t sum = sum_of(&it.book);
        for (int i = 0; i < 3; i++) {
            int which = orders[order][i];
            if (which == 0) close_published(&it);
            else WANT(lrc_embed_close_viewer(&viewers[which - 1]) == LRC_DONE);
            for (int j = 0; j < 2; j++)
                if (follow(&viewers[j], &at) != LRC_IS_CLOSED) WANT(at == 200 && sum_of(&viewers[j].book) == sum);
        }
    }
}

// Refuses memory from each request on. What fails changes nothing, and is done once there is memory.
static void test_refused(long first, long last) {
    long told = 0;
    for (long number = first; number <= last; number++) {
        lrc_handle book = LRC_CLOSED;
        lrc_published it = LRC_NOT_PUBLISHED;
        lrc_viewer viewer = LRC_NO_VIEWER;
        uint64_t at = 0, row = 5;
        open_book(&book);
        refuse_from(number);
        uint32_t status = lrc_embed_publish(&book, &it);
        refuse_from(0);
        if (status != LRC_DONE) {
            WANT(status == LRC_OUT_OF_MEMORY && place_of(&book) == 0);
            WANT(lrc_embed_unpublish(&it, &(lrc_handle){0}) == LRC_IS_CLOSED);
            WANT(lrc_embed_publish(&book, &it) == LRC_DONE);
            told++;
        }
        for (int i = 0; i < 30; i++) WANT(call(&it, drawn(&row)) == LRC_DONE);
        refuse_from(number);
        status = lrc_embed_view(&it, (const uint8_t *)nodes, nodes_length, &viewer);
        refuse_from(0);
        if (status != LRC_DONE) {
            WANT(status == LRC_OUT_OF_MEMORY && follow(&viewer, &at) == LRC_IS_CLOSED && place_of(&it.book) == 30);
            viewer = viewer_of(&it);
            told++;
        }
        refuse_from(number);
        uint64_t made = 30;
        for (int i = 0; i < 30; i++) {
            status = call(&it, drawn(&row));
            made += status == LRC_DONE;
            told += status == LRC_OUT_OF_MEMORY;
            WANT((status == LRC_DONE || status == LRC_OUT_OF_MEMORY) && place_of(&it.book) == made);
        }
        refuse_from(number % 3 + 1);
        status = follow(&viewer, &at);
        refuse_from(0);
        told += status == LRC_OUT_OF_MEMORY;
        WANT((status == LRC_DONE || status == LRC_OUT_OF_MEMORY) && place_of(&viewer.book) <= made);
        WANT(call(&it, drawn(&row)) == LRC_DONE);
        WANT(follow(&viewer, &at) == LRC_DONE && at == made + 1 && sum_of(&viewer.book) == sum_of(&it.book));
        close_published(&it);
        WANT(lrc_embed_close_viewer(&viewer) == LRC_DONE && lrc_embed_close(&book) == LRC_DONE);
    }
    printf("%ld refused\n", told);
}

// ---- threads

typedef struct {
    lrc_viewer viewer;
    uint64_t *sums; // by place; 0 where it did not look
    uint64_t looks, last, ns;
    bool is_timed;
} looker;

static atomic_bool is_over;
static uint64_t calls;

// The processor's time of this thread, so that other programs do not count.
static uint64_t now_ns(void) {
    struct timespec now;
    clock_gettime(CLOCK_THREAD_CPUTIME_ID, &now);
    return (uint64_t)now.tv_sec * 1000000000u + (uint64_t)now.tv_nsec;
}

// Looks until the caller is over, and once more. It never goes back, and it is at the end after the last look.
static void *look(void *given) {
    looker *it = given;
    bool is_last = false;
    uint64_t begun = now_ns();
    while (!is_last) {
        is_last = atomic_load(&is_over);
        uint64_t at = 0;
        WANT(follow(&it->viewer, &at) == LRC_DONE && at >= it->last && at <= calls);
        it->last = at;
        it->looks++;
        if (it->is_timed) {
            lrc_level level;
            lrc_embed_level(&it->viewer.book, (uint16_t)(it->looks % STRIPES), &level);
        } else {
            it->sums[at] = sum_of(&it->viewer.book);
        }
    }
    WANT(it->last == calls);
    it->ns = now_ns() - begun;
    return NULL;
}

static lrc_published beside(uint64_t *sums, int lookers, looker *each, bool is_timed, uint64_t *took) {
    lrc_published it = published_book();
    pthread_t threads[MOST_LOOKERS];
    atomic_store(&is_over, false);
    for (int i = 0; i < lookers; i++) {
        each[i] = (looker){.viewer = viewer_of(&it), .is_timed = is_timed};
        if (!is_timed) each[i].sums = calloc(calls + 1, sizeof *each[i].sums);
        WANT(pthread_create(&threads[i], NULL, look, &each[i]) == 0);
    }
    uint64_t row = 1, begun = now_ns();
    for (uint64_t i = 0; i < calls; i++) {
        WANT(call(&it, drawn(&row)) == LRC_DONE);
        if (sums) sums[i + 1] = sum_of(&it.book);
    }
    *took = now_ns() - begun;
    atomic_store(&is_over, true);
    for (int i = 0; i < lookers; i++) WANT(pthread_join(threads[i], NULL) == 0);
    return it;
}

// Each look shows what the book showed at its place. A viewer is closed after the book, on another thread.
static void test_beside(int lookers) {
    uint64_t *sums = calloc(calls + 1, sizeof *sums), took = 0, looks = 0;
    looker each[MOST_LOOKERS];
    lrc_handle book = LRC_CLOSED;
    open_book(&book);
    sums[0] = sum_of(&book);
    lrc_published it = beside(sums, lookers, each, false, &took);
    close_published(&it);
    for (int i = 0; i < lookers; i++) {
        for (uint64_t at = 0; at <= calls; at++) WANT(each[i].sums[at] == 0 || each[i].sums[at] == sums[at]);
        looks += each[i].looks;
        WANT(lrc_embed_close_viewer(&each[i].viewer) == LRC_DONE);
        free(each[i].sums);
    }
    WANT(lrc_embed_close(&book) == LRC_DONE);
    free(sums);
    printf("%d lookers, %s\n", lookers, looks >= (uint64_t)lookers ? "all as the book" : "none looked");
}

static atomic_int following;

// Follows until the book is no longer published.
static void *follow_to_end(void *given) {
    looker *it = given;
    uint32_t status = LRC_DONE;
    atomic_fetch_add(&following, 1);
    while (status != ENDED) {
        status = follow(&it->viewer, &it->last);
        WANT(status == LRC_DONE || status == ENDED);
    }
    return NULL;
}

// Viewers that are told the end have all calls: they follow while the last calls are made and the book is taken back.
static void test_ended(long rounds) {
    looker each[ENDING];
    pthread_t threads[ENDING];
    lrc_handle book = LRC_CLOSED;
    open_book(&book);
    for (long round = 0; round < rounds; round++) {
        lrc_published it = LRC_NOT_PUBLISHED;
        WANT(lrc_embed_publish(&book, &it) == LRC_DONE);
        atomic_store(&following, 0);
        for (int i = 0; i < ENDING; i++) {
            each[i] = (looker){.viewer = viewer_of(&it)};
            WANT(pthread_create(&threads[i], NULL, follow_to_end, &each[i]) == 0);
        }
        while (atomic_load(&following) < ENDING) sched_yield();
        for (volatile long wait = 0; wait < round * 61 % 2000; wait++) {}
        call_often(&it, 3);
        WANT(lrc_embed_unpublish(&it, &book) == LRC_DONE);
        for (int i = 0; i < ENDING; i++) {
            WANT(pthread_join(threads[i], NULL) == 0 && each[i].last == place_of(&book));
            WANT(lrc_embed_close_viewer(&each[i].viewer) == LRC_DONE);
        }
    }
    WANT(lrc_embed_close(&book) == LRC_DONE);
}

static double look_ns(lrc_viewer *viewer, bool follows) {
    uint64_t begun = now_ns(), at = 0;
    for (int i = 0; i < 1000000; i++) {
        lrc_level level;
        if (follows) follow(viewer, &at);
        lrc_embed_level(&viewer->book, (uint16_t)(i % STRIPES), &level);
    }
    return (double)(now_ns() - begun) / 1e6;
}

// By the processor's time: a call, a look beside it, and a look where there is no new call, with and without following.
static void times(int lookers) {
    looker each[MOST_LOOKERS];
    uint64_t took = 0, looks = 0, ns = 0;
    lrc_published it = beside(NULL, lookers, each, true, &took);
    for (int i = 0; i < lookers; i++) {
        looks += each[i].looks;
        ns += each[i].ns;
        lrc_embed_close_viewer(&each[i].viewer);
    }
    lrc_viewer viewer = viewer_of(&it);
    printf("%d lookers: %.0f ns a call", lookers, (double)took / (double)calls);
    if (looks)
        printf("; %.0f ns a look beside, of %.1f calls", (double)ns / (double)looks, (double)calls * lookers / (double)looks);
    printf("; alone %.1f ns a look, %.1f without following\n", look_ns(&viewer, true), look_ns(&viewer, false));
    lrc_embed_close_viewer(&viewer);
    close_published(&it);
}

int main(int count, char **words) {
    WANT(lrc_embed_version() == LRC_EMBED_VERSION && count > 1);
    write_nodes();
    if (count > 3) calls = strtoull(words[2], NULL, 10);
    if (!strcmp(words[1], "statuses")) test_statuses();
    else if (!strcmp(words[1], "full")) test_full();
    else if (!strcmp(words[1], "closes")) test_closes();
    else if (!strcmp(words[1], "ended") && count > 2) test_ended(atol(words[2]));
    else if (!strcmp(words[1], "refused") && count > 3) test_refused(atol(words[2]), atol(words[3]));
    else if (!strcmp(words[1], "beside") && count > 3) test_beside(atoi(words[3]));
    else if (!strcmp(words[1], "times") && count > 3) times(atoi(words[3]));
    else return 2;
    return 0;
}
