// A replica of an agreed log. It applies each record once and in order, however little memory there is, and compares the entry that
// it gets with the one that was agreed on.
//
// Usage: replica NODES RECORDS, where RECORDS has entries of 128 bytes each
//
// Prints `applied N`. Its status is 1 if it can't go on: then it may be started again, and applies the log from its beginning.
#define _POSIX_C_SOURCE 200809L
#include "lrc_embed.h"

#include <stdio.h>
#include <stdlib.h>
#include <string.h>
#include <time.h>

enum { TRIES = 1000 };

static void stop(const char *why, uint64_t number) {
    fprintf(stderr, "replica: entry %llu: %s\n", (unsigned long long)number, why);
    exit(1);
}

/* Applies the agreed record of a number. It is never passed over: without it the book would be another one from there on. */
static void apply(lrc_handle *handle, uint64_t number, const lrc_entry *agreed, lrc_reply *reply) {
    const struct timespec pause = {0, 1000000};
    for (int tries = 0; tries < TRIES; tries++) {
        uint32_t status = lrc_embed_call_at(handle, number - 1, agreed->session, &agreed->command, reply);
        if (status == LRC_DONE) return;
        if (status == LRC_MOVED) stop("it was applied before, or the one before it was not", number);
        if (status != LRC_OUT_OF_MEMORY) stop("the call is refused", number);
        nanosleep(&pause, NULL);                                 /* nothing has changed: the same call again */
    }
    stop("out of memory", number);
}

static void compare(lrc_handle *handle, uint64_t number, const lrc_entry *agreed) {
    size_t count = 0;
    lrc_entry own;
    if (lrc_embed_entries(handle, number - 1, &own, 1, &count) != LRC_DONE || count != 1) stop("there is no entry", number);
    if (memcmp(&own, agreed, sizeof own)) stop("it differs from the one that was agreed on", number);
}

static size_t read_file(const char *name, void *room, size_t most) {
    FILE *file = fopen(name, "rb");
    if (!file) stop(name, 0);
    size_t length = fread(room, 1, most, file);
    fclose(file);
    return length;
}

int main(int count, char **words) {
    static uint8_t nodes[1 << 16];
    static lrc_entry records[1 << 16];
    lrc_handle handle = LRC_CLOSED;
    size_t detail = 0;
    if (count != 3) return fprintf(stderr, "usage: replica NODES RECORDS\n"), 2;
    if (lrc_embed_version() != LRC_EMBED_VERSION) stop("the library is another one", 0);
    if (lrc_embed_open(&handle, nodes, read_file(words[1], nodes, sizeof nodes), &detail) != LRC_DONE) stop("open", 0);
    uint64_t last = read_file(words[2], records, sizeof records) / sizeof *records;
    for (uint64_t number = 1; number <= last; number++) {
        lrc_reply reply;
        apply(&handle, number, &records[number - 1], &reply);
        compare(&handle, number, &records[number - 1]);
    }
    printf("applied %llu\n", (unsigned long long)last);
    lrc_embed_close(&handle);
    return 0;
}
