// A worker reports late: its lease was revoked and granted again. Then the program starts again with the entries that it
// saved. It prints what `lrcman run` prints for the script of ../late_worker.bundle, and the number of entries replayed.
#include "lrc_embed.h"

#include <stdio.h>
#include <stdlib.h>
#include <string.h>

static void stop(const char *what, uint32_t status) {
    fprintf(stderr, "late_worker: %s: status %u\n", what, (unsigned)status);
    exit(1);
}

// The library has to have the interface of the header: with another one, structs and calls may mean something else.
static void expect_version(void) {
    unsigned found = (unsigned)lrc_embed_version();
    if (found == LRC_EMBED_VERSION) return;
    fprintf(stderr, "late_worker: the library has version %u of its interface, and the header is for version %u\n", found,
            (unsigned)LRC_EMBED_VERSION);
    exit(1);
}

// Twenty nodes with four slots, each in a fault domain of its own, in ten upgrade domains.
static size_t write_nodes(char *text, size_t room) {
    size_t length = 0;
    for (int i = 0; i < 20; i++)
        length += (size_t)snprintf(text + length, room - length,
                                   "[[node]]\nnumber = %d\nfault = %d\nupgrade = %d\nslots = 4\n", i, i, i % 10);
    return length;
}

static void open_book(lrc_handle *handle) {
    char text[2048];
    size_t length = write_nodes(text, sizeof text), detail = 0;
    uint32_t status = lrc_embed_open(handle, (const uint8_t *)text, length, &detail);
    if (status != LRC_DONE) stop("open", status);
}

static void print_reply(const lrc_reply *reply) {
    uint8_t text[198]; // the longest one has as many bytes
    size_t length = 0;
    uint32_t status = lrc_embed_reply_text(reply, text, sizeof text, &length);
    if (status != LRC_DONE) stop("reply_text", status);
    printf("%.*s\n", (int)length, (const char *)text);
}

int main(void) {
    expect_version();
    static const lrc_command script[] = {
        {.kind = LRC_PLACE, .stripe = 1},
        {.kind = LRC_FAIL, .node = 3},
        {.kind = LRC_LEASE, .stripe = 1, .fragment = 3},
        {.kind = LRC_REVOKE, .stripe = 1, .fragment = 3},
        {.kind = LRC_LEASE, .stripe = 1, .fragment = 3},
        // the first worker reports at last, and then the second
        {.kind = LRC_REPORT, .stripe = 1, .fragment = 3, .epoch = 1},
        {.kind = LRC_REPORT, .stripe = 1, .fragment = 3, .epoch = 2},
        {.kind = LRC_REPORT, .stripe = 1, .fragment = 3, .epoch = 2},
        {.kind = LRC_REVOKE, .stripe = 1, .fragment = 3},
    };
    enum { COUNT = sizeof script / sizeof *script };
    static lrc_entry log[COUNT]; // a store writes each entry to its own log before it acts on the reply
    lrc_handle handle = LRC_CLOSED;
    open_book(&handle);
    printf("script 1\n");
    for (size_t i = 0; i < COUNT; i++) {
        uint32_t status = lrc_embed_call_entry(&handle, 1, &script[i], &log[i]);
        if (status != LRC_DONE) stop("call", status);
        printf("%zu ", i + 1);
        print_reply(&log[i].reply);
    }

    // nothing is left to repair, and a worker that asks by a peek adds no entry
    const lrc_command next = {.kind = LRC_NEXT};
    lrc_reply reply = {0};
    uint32_t status = lrc_embed_peek(&handle, 1, &next, &reply);
    if (status != LRC_DONE || reply.kind != LRC_IDLE) stop("peek", status);
    lrc_embed_close(&handle);

    // the program starts again
    open_book(&handle);
    size_t position = 0, count = 0;
    status = lrc_embed_replay(&handle, log, COUNT, &position);
    if (status != LRC_DONE) stop("replay", status);
    status = lrc_embed_count(&handle, &count);
    if (status != LRC_DONE) stop("count", status);
    lrc_embed_close(&handle);
    printf("replayed %zu\n", count);

    // a log that was changed is found out
    log[4].reply.lease.epoch = 1;
    open_book(&handle);
    status = lrc_embed_replay(&handle, log, COUNT, &position);
    if (status != LRC_DIFFERENT) stop("replay of a changed log", status);
    printf("different at %zu\n", position);
    return 0;
}
