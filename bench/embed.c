// Measures calls of lrc_embed.h from C, in nanoseconds, and the memory of a book, in bytes. bench/embed builds and runs it, and says
// what is measured.
// Usage: embed NODES STRIPES ROUNDS; prints lines of a name and numbers.
#define _DEFAULT_SOURCE
#include "lrc_embed.h"

#include <malloc.h>
#include <stdio.h>
#include <stdlib.h>
#include <string.h>
#include <time.h>

enum { MOST_ROUNDS = 1001, MOST_ENTRIES = 400000, CYCLES = 20, BATCH = 256, MANY = 1000, LOOKS = 100000, IMAGES = 4,
       TABLES = LRC_SHOW_CAPACITY };

// The kinds of calls, each made in runs of its own.
enum kind { FILL, REFUSED, IDLE, PLACE, DROP, NEXT, REPORT, OTHER, KINDS };
static const char *const names[KINDS] = {[REFUSED] = "refused", [IDLE] = "idle", [PLACE] = "place",
                                         [DROP] = "drop",       [NEXT] = "next", [REPORT] = "report"};

static lrc_handle handle = LRC_CLOSED;
static unsigned nodes, stripes, rounds;
static lrc_entry entries[MOST_ENTRIES];
static char topology[512 * 80];
static size_t topology_length;
static uint8_t kinds[MOST_ENTRIES];
static size_t entries_count;
static double called[KINDS][MOST_ROUNDS], own[KINDS][MOST_ROUNDS], more[KINDS][MOST_ROUNDS], replayed[KINDS][MOST_ROUNDS];

// Book::add as it stands in the library, where bench/embed could make it visible. It returns 0 where it made the call.
extern uint8_t bench_book_add(void *book, uint32_t session, const void *command) __attribute__((weak));
// A command as the book has it: this library keeps the fields of all kinds so. Where another did not, the history that
// is compared would be another.
struct book_command {
    uint8_t kind, domain;
    uint16_t number;
    uint8_t fragment;
    uint32_t epoch;
};
// The command of each entry, as C has it and as the book has it.
static struct {
    lrc_command given;
    struct book_command read;
} commands[MOST_ENTRIES];

static void want(bool holds, int line) {
    if (holds) return;
    fprintf(stderr, "bench/embed.c:%d: not as wanted\n", line);
    exit(1);
}
#define WANT(condition) want(condition, __LINE__)

// The time that this program had a processor, so that others on the machine count for less.
static double now(void) {
    struct timespec time;
    clock_gettime(CLOCK_PROCESS_CPUTIME_ID, &time);
    return (double)time.tv_sec * 1e9 + (double)time.tv_nsec;
}

static int by_number(const void *left, const void *right) {
    double a = *(const double *)left, b = *(const double *)right;
    return (a > b) - (a < b);
}

static double median(double *numbers) {
    qsort(numbers, rounds, sizeof *numbers, by_number);
    return numbers[rounds / 2];
}

// The nodes that bench/run has: 256 slots each, in 32 fault domains and 16 upgrade domains.
static void write_topology(void) {
    for (unsigned i = 0; i < nodes; i++)
        topology_length += (size_t)snprintf(topology + topology_length, sizeof topology - topology_length,
                                            "[[node]]\nnumber = %u\nfault = %u\nupgrade = %u\nslots = 256\n", i, i % 32,
                                            (i / 32 + i) % 16);
}

// A book of these nodes.
static void open_new(void) {
    size_t detail;
    WANT(lrc_embed_close(&handle) == LRC_DONE);
    WANT(lrc_embed_open(&handle, (const uint8_t *)topology, topology_length, &detail) == LRC_DONE);
}

// The calls that are measured. Each is made once here, so that those that follow it can go by its reply.

static lrc_reply make(enum kind kind, lrc_command command) {
    lrc_reply reply = {0};
    WANT(entries_count < MOST_ENTRIES && lrc_embed_call(&handle, 1, &command, &reply) == LRC_DONE);
    WANT(lrc_embed_entry(&handle, entries_count, &entries[entries_count]) == LRC_DONE);
    kinds[entries_count++] = kind;
    return reply;
}

#define MAKE(of, told, ...) WANT(make(of, (lrc_command){__VA_ARGS__}).kind == (told))

// A node is lost. All that it held is leased, and then reported; it joins again.
static void make_repairs(uint16_t node) {
    static lrc_lease leases[256];
    size_t count = 0;
    lrc_reply reply;
    MAKE(OTHER, LRC_CHANGED, .kind = LRC_FAIL, .node = node);
    while (reply = make(count < 256 ? NEXT : OTHER, (lrc_command){.kind = LRC_NEXT}), reply.kind == LRC_GRANTED)
        leases[count++] = reply.lease;
    kinds[entries_count - 1] = OTHER;
    for (size_t i = 0; i < count; i++)
        MAKE(REPORT, LRC_ENDED, .kind = LRC_REPORT, .stripe = leases[i].stripe, .fragment = leases[i].fragment,
                  .epoch = leases[i].epoch);
    MAKE(OTHER, LRC_CHANGED, .kind = LRC_JOIN, .node = node);
}

static void make_all(void) {
    open_new();
    for (unsigned s = 0; s < stripes; s++) MAKE(FILL, LRC_PLACED, .kind = LRC_PLACE, .stripe = (uint16_t)s);
    for (unsigned cycle = 0; cycle < CYCLES; cycle++) {
        uint16_t at[BATCH];
        for (unsigned i = 0; i < BATCH; i++) at[i] = (uint16_t)((cycle * BATCH + i) % stripes);
        for (unsigned i = 0; i < BATCH; i++) MAKE(DROP, LRC_DROPPED, .kind = LRC_DROP, .stripe = at[i]);
        for (unsigned i = 0; i < BATCH; i++) MAKE(PLACE, LRC_PLACED, .kind = LRC_PLACE, .stripe = at[i]);
        make_repairs((uint16_t)(cycle * 11 % nodes));
        for (unsigned i = 0; i < MANY; i++)
            MAKE(REFUSED, LRC_REFUSED, .kind = LRC_UP, .node = (uint16_t)(i % nodes));
        for (unsigned i = 0; i < MANY; i++) MAKE(IDLE, LRC_IDLE, .kind = LRC_NEXT);
    }
}

// One after the other, over the runs of calls of one kind.

static void call_run(size_t from, size_t to) {
    lrc_reply reply = {0};
    uint32_t wrong = 0;
    for (size_t i = from; i < to; i++) wrong |= lrc_embed_call(&handle, 1, &commands[i].given, &reply);
    WANT(wrong == LRC_DONE);
}

static void replay_run(size_t from, size_t to) {
    size_t position;
    WANT(lrc_embed_replay(&handle, entries + from, to - from, &position) == LRC_DONE);
}

static void own_run(size_t from, size_t to) {
    uint8_t wrong = 0;
    for (size_t i = from; i < to; i++) wrong |= bench_book_add(handle.at, 1, &commands[i].read);
    WANT(wrong == 0);
}

// The book has `place6` right behind `place`, and counts from 0.
static uint8_t book_kind(uint8_t kind) { return kind == LRC_PLACE ? 0 : kind == LRC_PLACE6 ? 1 : kind; }

static bool names_stripe(uint8_t kind) { return kind < LRC_FAIL || kind == LRC_PLACE6; }

static void read_all(void) {
    for (size_t i = 0; i < entries_count; i++) {
        const lrc_command *given = &entries[i].command;
        commands[i].given = *given;
        commands[i].read = (struct book_command){.kind = book_kind(given->kind),
                                                 .domain = given->domain,
                                                 .number = names_stripe(given->kind) ? given->stripe : given->node,
                                                 .fragment = given->fragment,
                                                 .epoch = given->epoch};
    }
}

// The history is that of the calls that were made once.
static void compare_all(void) {
    size_t count = 0;
    lrc_entry entry = {0};
    WANT(lrc_embed_count(&handle, &count) == LRC_DONE && count == entries_count);
    for (size_t i = 0; i < count; i++)
        WANT(lrc_embed_entry(&handle, i, &entry) == LRC_DONE && memcmp(&entry, &entries[i], sizeof entry) == 0);
}

// What a call of each kind takes in this round, on a new book.
static void time_runs(void (*run)(size_t, size_t), double (*times)[MOST_ROUNDS], unsigned round) {
    size_t counts[KINDS] = {0}, to;
    open_new();
    for (size_t from = 0; from < entries_count; from = to) {
        for (to = from; to < entries_count && kinds[to] == kinds[from]; to++) {}
        double begun = now();
        run(from, to);
        times[kinds[from]][round] += now() - begun;
        counts[kinds[from]] += to - from;
    }
    for (int kind = 0; kind < KINDS; kind++) times[kind][round] /= (double)counts[kind];
    compare_all();
}

// Looks, and calls that do next to nothing.

enum look { VERSION, COUNT, CLOSED, FULL, LOAD, MODE, LEVEL, MISSING, HOMES, PEEK, IMAGE, OPEN_IMAGE, ALL_LOOKS };
static const char *const look_names[ALL_LOOKS] = {"version", "count", "closed", "full",  "load",       "mode", "level",
                                                  "missing", "homes", "peek",   "image", "open_image"};
static double looked[ALL_LOOKS][MOST_ROUNDS];

// What a call takes that answers this status, if it is made so often.
#define TIME_OF(times, look, status, call)                                                                             \
    do {                                                                                                               \
        uint32_t wrong = 0;                                                                                            \
        double begun = now();                                                                                          \
        for (unsigned i = 0; i < (times); i++) wrong |= (call) ^ (status);                                             \
        looked[look][round] = (now() - begun) / (times);                                                               \
        WANT(wrong == 0);                                                                                              \
    } while (0)
#define TIME(look, status, call) TIME_OF(LOOKS, look, status, call)

static void time_looks(unsigned round) {
    static uint16_t some_nodes[1024], some_stripes[1024];
    size_t count;
    uint32_t load;
    lrc_mode mode = {0};
    lrc_level level = {0};
    uint16_t missing;
    lrc_homes homes = {0};
    const lrc_command next = {.kind = LRC_NEXT};
    lrc_reply reply = {0};
    for (unsigned i = 0; i < 1024; i++) some_nodes[i] = (uint16_t)(i * 389 % nodes), some_stripes[i] = (uint16_t)(i * 389 % stripes);
    TIME(VERSION, LRC_EMBED_VERSION, lrc_embed_version());
    TIME(COUNT, LRC_DONE, lrc_embed_count(&handle, &count));
    TIME(LOAD, LRC_DONE, lrc_embed_load(&handle, some_nodes[i % 1024], &load));
    TIME(MODE, LRC_DONE, lrc_embed_mode(&handle, some_nodes[i % 1024], &mode));
    TIME(LEVEL, LRC_DONE, lrc_embed_level(&handle, some_stripes[i % 1024], &level));
    TIME(MISSING, LRC_DONE, lrc_embed_missing(&handle, some_stripes[i % 1024], &missing));
    TIME(HOMES, LRC_DONE, lrc_embed_homes(&handle, some_stripes[i % 1024], &homes));
    TIME(PEEK, LRC_DONE, lrc_embed_peek(&handle, 1, &next, &reply));
}

// The image of the book, and books that begin in it, the first of which has the same image.
static void time_images(unsigned round) {
    static lrc_handle others[IMAGES];
    static uint8_t *text, *again;
    static size_t room;
    size_t length = 0, detail;
    uint32_t cause;
    WANT(lrc_embed_image(&handle, text, 0, &length) == LRC_SHORT);
    if (room < length) {
        room = length;
        WANT((text = realloc(text, room)) && (again = realloc(again, room)));
    }
    TIME_OF(IMAGES, IMAGE, LRC_DONE, lrc_embed_image(&handle, text, room, &length));
    const uint8_t *of_nodes = (const uint8_t *)topology;
    TIME_OF(IMAGES, OPEN_IMAGE, LRC_DONE,
            lrc_embed_open_image(&others[i], of_nodes, topology_length, text, length, &detail, &cause));
    WANT(lrc_embed_image(&others[0], again, room, &detail) == LRC_DONE && detail == length && memcmp(again, text, length) == 0);
    for (unsigned i = 0; i < IMAGES; i++) WANT(lrc_embed_close(&others[i]) == LRC_DONE);
}

// The tables of the book, by their lrc_view.
static double shown[TABLES + 1][MOST_ROUNDS];
static size_t table_lengths[TABLES + 1];

static void time_tables(unsigned round) {
    static uint8_t text[1 << 23];
    for (uint8_t table = 1; table <= TABLES; table++) {
        double begun = now();
        WANT(lrc_embed_show(&handle, table, text, sizeof text, &table_lengths[table]) == LRC_DONE);
        shown[table][round] = now() - begun;
    }
}

// Bytes that the program holds, as the allocator counts them.
static size_t held(void) {
    struct mallinfo2 info = mallinfo2();
    return info.uordblks + info.hblkhd;
}

static void call(lrc_command command, uint8_t reply_kind) {
    lrc_reply reply = {0};
    WANT(lrc_embed_call(&handle, 1, &command, &reply) == LRC_DONE && reply.kind == reply_kind);
}

// What a book holds with no stripe, with 1,000, or as many as there are, and with all; and what an entry of a full history does:
// of a command that is refused, and how much more of a `place`.
static void print_memory(void) {
    const unsigned filled[] = {0, stripes < 1000 ? stripes : 1000, stripes};
    const lrc_command place = {.kind = LRC_PLACE}, drop = {.kind = LRC_DROP};
    WANT(lrc_embed_close(&handle) == LRC_DONE);
    size_t none = held();
    open_new();
    for (unsigned i = 0, stripe = 0; i < 3; i++) {
        for (; stripe < filled[i]; stripe++) call((lrc_command){.kind = LRC_PLACE, .stripe = (uint16_t)stripe}, LRC_PLACED);
        printf("memory_%u %u %zu\n", i, filled[i], held() - none);
    }
    WANT(lrc_embed_forget(&handle) == LRC_DONE && lrc_embed_close(&handle) == LRC_DONE);
    open_new();
    none = held();
    for (unsigned i = 0; i < LRC_HISTORY_LIMIT; i++) call((lrc_command){.kind = LRC_UP}, LRC_REFUSED);
    size_t full = held();
    printf("entry %.1f\n", (double)(full - none) / LRC_HISTORY_LIMIT);
    WANT(lrc_embed_forget(&handle) == LRC_DONE);
    for (unsigned i = 0; i < LRC_HISTORY_LIMIT / 2; i++) call(place, LRC_PLACED), call(drop, LRC_DROPPED);
    printf("entry_of_place %.1f\n", ((double)held() - (double)full) / (LRC_HISTORY_LIMIT / 2.0));
    WANT(lrc_embed_close(&handle) == LRC_DONE);
}

// A book whose history is full answers so before it looks at the command, and one that is closed is no book.
static void time_full(void) {
    const lrc_command command = {.kind = LRC_UP};
    lrc_reply reply = {0};
    open_new();
    for (unsigned i = 0; i < LRC_HISTORY_LIMIT; i++) WANT(lrc_embed_call(&handle, 1, &command, &reply) == LRC_DONE);
    for (unsigned round = 0; round < rounds; round++) TIME(FULL, LRC_FULL, lrc_embed_call(&handle, 1, &command, &reply));
    WANT(lrc_embed_close(&handle) == LRC_DONE);
    for (unsigned round = 0; round < rounds; round++)
        TIME(CLOSED, LRC_IS_CLOSED, lrc_embed_call(&handle, 1, &command, &reply));
}

static unsigned number(const char *word, unsigned least, unsigned most) {
    unsigned long number = strtoul(word, 0, 10);
    WANT(least <= number && number <= most);
    return (unsigned)number;
}

int main(int argc, char **argv) {
    WANT(argc == 4);
    nodes = number(argv[1], 32, 512), stripes = number(argv[2], BATCH, LRC_STRIPES), rounds = number(argv[3], 1, MOST_ROUNDS);
    // (so that the books of later rounds get memory that was touched)
    WANT(mallopt(M_MMAP_THRESHOLD, 1 << 30) && mallopt(M_TRIM_THRESHOLD, 1 << 30));
    write_topology();
    make_all();
    bool has_own = bench_book_add;
    read_all();
    for (unsigned round = 0; round < rounds; round++) {
        if (has_own) time_runs(own_run, own, round);
        time_runs(call_run, called, round);
        for (int kind = 0; kind < KINDS; kind++) more[kind][round] = called[kind][round] - own[kind][round];
        time_runs(replay_run, replayed, round);
        time_looks(round);
        time_images(round);
        time_tables(round);
    }
    time_full();
    for (int look = 0; look < ALL_LOOKS; look++) printf("%s %.1f\n", look_names[look], median(looked[look]));
    for (int kind = REFUSED; kind < OTHER; kind++) {
        printf("%s %.1f %.1f", names[kind], median(called[kind]), median(replayed[kind]));
        if (has_own) printf(" %.1f %.1f", median(own[kind]), median(more[kind]));
        printf("\n");
    }
    for (int table = 1; table <= TABLES; table++) printf("show_%d %.0f %zu\n", table, median(shown[table]), table_lengths[table]);
    print_memory();
    return 0;
}
