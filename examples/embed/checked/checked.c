// Between a program and the library, to find mistakes with threads: a call ends the process with a message, if another thread is
// inside of a call with its handle, if two of its handles overlap, or if this thread is inside of a call, so that this is a signal
// handler or an allocator. A published book and a viewer are handles here, and their books are parts of them. `build` beside this
// file writes calls.h, which has a row for each call of lrc_embed.h that takes a handle.
#define _GNU_SOURCE
#include "lrc_embed.h"

#include <pthread.h>
#include <stdio.h>
#include <stdlib.h>
#include <unistd.h>

// A handle of a call that a thread is inside of. It stands on the stack of that call.
struct visit {
    const char *call;
    const void *handle;
    size_t size;
    int thread;
    struct visit *next, **from;
};

static pthread_mutex_t lock = PTHREAD_MUTEX_INITIALIZER;
static struct visit *visits; // of all threads, under the lock
static _Thread_local const char *volatile inside;
static _Thread_local int own_thread;

static bool overlap(const struct visit *one, const struct visit *other) {
    uintptr_t a = (uintptr_t)one->handle, b = (uintptr_t)other->handle;
    return a < b + other->size && b < a + one->size;
}

static void begin(struct visit *own, size_t count) {
    const char *outer = inside;
    if (outer) {
        fprintf(stderr, "%s: this thread is inside of %s: a call from a signal handler or an allocator\n", own->call, outer);
        abort();
    }
    inside = own->call;
    if (count > 1 && overlap(&own[0], &own[1])) {
        fprintf(stderr, "%s: the handles at %p and %p overlap\n", own->call, own[0].handle, own[1].handle);
        abort();
    }
    if (own_thread == 0) own_thread = gettid();
    pthread_mutex_lock(&lock);
    for (struct visit *it = own; it < own + count; it++) {
        for (const struct visit *other = visits; other; other = other->next) {
            if (!overlap(it, other)) continue;
            fprintf(stderr, "%s: the handle at %p is in use: thread %d is inside of %s\n", it->call, it->handle, other->thread,
                    other->call);
            abort();
        }
        it->thread = own_thread, it->next = visits, it->from = &visits;
        if (visits) visits->from = &it->next;
        visits = it;
    }
    pthread_mutex_unlock(&lock);
}

static void end(struct visit *own, size_t count) {
    pthread_mutex_lock(&lock);
    for (struct visit *it = own; it < own + count; it++) {
        *it->from = it->next;
        if (it->next) it->next->from = it->from;
    }
    pthread_mutex_unlock(&lock);
    inside = NULL;
}

// The library's own call has another name in this build.
#define CHECKED(name, given, passed, ...)                                                                                        \
    uint32_t unchecked_##name given;                                                                                             \
    uint32_t name given {                                                                                                        \
        struct visit own[] = {__VA_ARGS__};                                                                                      \
        begin(own, sizeof own / sizeof *own);                                                                                    \
        uint32_t status = unchecked_##name passed;                                                                               \
        end(own, sizeof own / sizeof *own);                                                                                      \
        return status;                                                                                                           \
    }
#define HANDLE(at) {.call = __func__, .handle = (at), .size = sizeof *(at)}
#include "calls.h"
