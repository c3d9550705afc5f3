// Each function of lrc_embed.h with each of its statuses, from C. tests/library/embed builds and runs it, also where memory is
// refused: a call that memory was refused to has changed nothing that the looks show, and is made again. Before each call a
// peek reports its reply, requests no memory, and changes nothing that the looks show.
// Usage: embed [images | full | alone | onward]. It prints how many requests for memory there were. With `images` books also
// begin in images that are wrong or have the largest numbers, and with `full` a history is filled besides. With `alone` each
// request is refused in a copy of the process that made those before it, and with `onward` it and all that follow: it is
// reported which copies did not end as they have to. With REFUSE_EACH=N in the environment every Nth request has a copy. To
// see one of them again, with REFUSE=N the Nth request is refused, from 1, and with REFUSE_FROM=N the Nth and all later ones.
#define _POSIX_C_SOURCE 200809L
#include "lrc_embed.h"

#include <stdio.h>
#include <stdlib.h>
#include <string.h>
#include <sys/wait.h>
#include <unistd.h>

// The linker puts these between the library and the C library (--wrap), to count the blocks that are held and to refuse
// requests.
extern void *__real_malloc(size_t);
extern void *__real_realloc(void *, size_t);
extern void __real_free(void *);
void *__wrap_malloc(size_t);
void *__wrap_realloc(void *, size_t);
void __wrap_free(void *);

static long held;
static unsigned long requests, refuse, refuse_from, refuse_each, wrong_copies;
// Which of `refuse` and `refuse_from` a copy of the process sets at each request, if there are to be copies.
static unsigned long *set_in_copy;
static bool is_copy;
// What is asked of a book between the calls that are tried is neither counted nor refused.
static bool is_looking;

// Makes a copy of the process, to which this request is refused, and waits until it ends.
static void refuse_in_copy(void) {
    int status = 0, wanted = set_in_copy == &refuse ? 0 : 3;
    pid_t copy = fork();
    if (copy == 0) {
        alarm(60);
        *set_in_copy = requests;
        set_in_copy = 0, wrong_copies = 0, is_copy = true;
    } else if (copy < 0 || waitpid(copy, &status, 0) != copy || !WIFEXITED(status) || WEXITSTATUS(status) != wanted) {
        fprintf(stderr, "request %lu: status %d\n", requests, status);
        wrong_copies++;
    }
}

static bool refuses_this(void) {
    if (is_looking) return false;
    requests++;
    if (set_in_copy && requests % refuse_each == 0) refuse_in_copy();
    return requests == refuse || (refuse_from != 0 && requests >= refuse_from);
}

void *__wrap_malloc(size_t size) {
    void *block = refuses_this() ? 0 : __real_malloc(size);
    held += block != 0;
    return block;
}

void *__wrap_realloc(void *old, size_t size) {
    void *block = refuses_this() ? 0 : __real_realloc(old, size);
    held += block != 0 && old == 0;
    return block;
}

void __wrap_free(void *block) {
    held -= block != 0;
    __real_free(block);
}

static lrc_handle handle = LRC_CLOSED;

static void want(bool holds, const char *file, int line) {
    if (holds) return;
    fprintf(stderr, "%s:%d: not as wanted\n", file, line);
    exit(1);
}
#define WANT(condition) want(condition, __FILE__, __LINE__)

#define ENTRIES 100
#define STRIPES 4
#define NODES 21
#define HOMES 8
// All looks at a book: at its entries, at the stripes that are placed here and one that is not, and at its nodes and one
// more; with each status.
typedef struct {
    size_t count, at_risk;
    uint64_t before;
    uint32_t clock;
    lrc_entry entries[ENTRIES];
    lrc_homes homes[STRIPES];
    lrc_level levels[STRIPES];
    uint16_t missing[STRIPES];
    uint8_t codes[STRIPES];
    lrc_lease leases[STRIPES][LRC_FRAGMENTS];
    uint32_t loads[NODES];
    lrc_mode modes[NODES];
    lrc_risk rows[STRIPES], first;
    lrc_repair_plan plans[STRIPES][LRC_FRAGMENTS];
    lrc_recipe recipes[STRIPES][LRC_FRAGMENTS];
    uint8_t downs[NODES], upgrading;
    uint32_t statuses[6 + ENTRIES + STRIPES * (4 + 3 * LRC_FRAGMENTS) + NODES * 3];
} looks_of_book;

// The rows of all walks.
static struct {
    lrc_stripe stripes[STRIPES];
    lrc_node nodes[NODES];
    lrc_lease leases[STRIPES * LRC_FRAGMENTS];
    lrc_entry entries[ENTRIES];
    lrc_fragment homes[NODES][HOMES];
    size_t stripe_count, node_count, lease_count, entry_count, home_counts[NODES];
} walked;

// The rows of walks are what the looks return.
static void agree(const looks_of_book *it) {
    size_t stripe = 0, lease = 0, homes[NODES] = {0};
    WANT(lrc_embed_stripes(&handle, 0, walked.stripes, STRIPES, &walked.stripe_count) == LRC_DONE);
    WANT(lrc_embed_nodes(&handle, 0, walked.nodes, NODES, &walked.node_count) == LRC_DONE);
    WANT(lrc_embed_leases(&handle, 0, 0, walked.leases, STRIPES * LRC_FRAGMENTS, &walked.lease_count) == LRC_DONE);
    WANT(lrc_embed_entries(&handle, it->before, walked.entries, ENTRIES, &walked.entry_count) == LRC_DONE);
    for (uint16_t s = 0; s < STRIPES; s++) {
        lrc_stripe row = {.stripe = s, .missing = it->missing[s], .code = it->codes[s], .level = it->levels[s]};
        if (it->codes[s] == 0) continue;
        WANT(stripe < walked.stripe_count && memcmp(&row, &walked.stripes[stripe++], sizeof row) == 0);
        for (uint8_t f = 0; f < LRC_FRAGMENTS; f++)
            if (it->leases[s][f].epoch != 0)
                WANT(memcmp(&it->leases[s][f], &walked.leases[lease++], sizeof walked.leases[0]) == 0);
    }
    WANT(stripe == walked.stripe_count && lease == walked.lease_count && walked.node_count == NODES - 1);
    for (uint16_t n = 0; n < NODES - 1; n++) {
        lrc_node row = {.number = n, .slots = 4, .load = it->loads[n], .fault = (uint8_t)n, .upgrade = n % 10,
                        .mode = it->modes[n].mode, .is_online = it->modes[n].is_online, .is_down = it->downs[n]};
        WANT(memcmp(&row, &walked.nodes[n], sizeof row) == 0);
        WANT(lrc_embed_homes_on(&handle, n, 0, 0, walked.homes[n], HOMES, &walked.home_counts[n]) == LRC_DONE);
    }
    for (uint16_t s = 0; s < STRIPES; s++)
        for (uint8_t f = 0; f < LRC_FRAGMENTS; f++) {
            const lrc_home *home = &it->homes[s].homes[f];
            lrc_fragment place = {.stripe = s, .fragment = f};
            if (!home->is_there) continue;
            WANT(memcmp(&place, &walked.homes[home->seat.node][homes[home->seat.node]++], sizeof place) == 0);
        }
    WANT(memcmp(homes, walked.home_counts, sizeof homes) == 0);
    WANT(walked.entry_count == it->count && memcmp(it->entries, walked.entries, it->count * sizeof *it->entries) == 0);
    WANT(it->at_risk == 0 || memcmp(&it->first, &it->rows[0], sizeof it->first) == 0);
}

static void look(looks_of_book *it) {
    uint32_t *status = it->statuses;
    memset(it, 0, sizeof *it);
    is_looking = true;
    *status++ = lrc_embed_count(&handle, &it->count);
    WANT(it->count <= ENTRIES);
    *status++ = lrc_embed_clock(&handle, &it->clock);
    *status++ = lrc_embed_before(&handle, &it->before);
    for (uint16_t stripe = 0; stripe < STRIPES; stripe++) {
        *status++ = lrc_embed_homes(&handle, stripe, &it->homes[stripe]);
        *status++ = lrc_embed_level(&handle, stripe, &it->levels[stripe]);
        *status++ = lrc_embed_missing(&handle, stripe, &it->missing[stripe]);
        *status++ = lrc_embed_code(&handle, stripe, &it->codes[stripe]);
        for (uint8_t fragment = 0; fragment < LRC_FRAGMENTS; fragment++) {
            *status++ = lrc_embed_lease(&handle, stripe, fragment, &it->leases[stripe][fragment]);
            *status++ = lrc_embed_repair(&handle, stripe, fragment, &it->plans[stripe][fragment]);
            *status++ = lrc_embed_recipe(&handle, stripe, fragment, &it->recipes[stripe][fragment]);
        }
    }
    for (uint16_t node = 0; node < NODES; node++) {
        *status++ = lrc_embed_load(&handle, node, &it->loads[node]);
        *status++ = lrc_embed_mode(&handle, node, &it->modes[node]);
        *status++ = lrc_embed_is_down(&handle, node, &it->downs[node]);
    }
    *status++ = lrc_embed_risk(&handle, it->rows, STRIPES, &it->at_risk);
    *status++ = lrc_embed_first_risk(&handle, &it->first);
    *status++ = lrc_embed_upgrading(&handle, &it->upgrading);
    for (size_t i = 0; i < it->count; i++) *status++ = lrc_embed_entry(&handle, i, &it->entries[i]);
    if (it->statuses[0] == LRC_DONE && !is_copy) agree(it); // (a walk takes longer than all looks)
    is_looking = false;
}

static looks_of_book before, after;

// Whether the looks are as before.
static bool is_as_before(void) {
    look(&after);
    return memcmp(&before, &after, sizeof before) == 0;
}

// Memory was refused twice in a row, so it is refused for good. The book can still be read and closed.
static void give_up(void) {
    look(&after);
    WANT(after.statuses[0] == LRC_DONE || after.statuses[0] == LRC_IS_CLOSED);
    WANT(lrc_embed_close(&handle) == LRC_DONE && held == 0);
    _Exit(3);
}

static size_t count_of(void) {
    size_t count = 0;
    uint32_t status = lrc_embed_count(&handle, &count);
    WANT(status == LRC_DONE || status == LRC_IS_CLOSED);
    return count;
}

// The status of a call that is made again where memory was refused.
#define STATUS(status, call)                                                                                           \
    do {                                                                                                               \
        look(&before);                                                                                                 \
        status = (call);                                                                                               \
        if (status == LRC_OUT_OF_MEMORY) {                                                                             \
            WANT(is_as_before());                                                                                      \
            status = (call);                                                                                           \
            if (status == LRC_OUT_OF_MEMORY) {                                                                         \
                WANT(is_as_before());                                                                                  \
                give_up();                                                                                             \
            }                                                                                                          \
        }                                                                                                              \
    } while (0)

static uint32_t open_text(const char *text, size_t *detail) {
    uint32_t status;
    STATUS(status, lrc_embed_open(&handle, (const uint8_t *)text, strlen(text), detail));
    return status;
}

static const char *twenty(void) {
    static char text[2048];
    size_t length = 0;
    for (int i = 0; i < 20; i++)
        length += (size_t)snprintf(text + length, sizeof text - length,
                                   "[[node]]\nnumber = %d\nfault = %d\nupgrade = %d\nslots = 4\n", i, i, i % 10);
    return text;
}

static void open_twenty(void) {
    size_t detail = 99;
    WANT(open_text(twenty(), &detail) == LRC_DONE && detail == 99);
}

static lrc_reply peek(uint8_t session, lrc_command command) {
    lrc_reply reply;
    unsigned long requested = requests;
    memset(&reply, 0xa5, sizeof reply);
    look(&before);
    WANT(lrc_embed_peek(&handle, session, &command, &reply) == LRC_DONE);
    WANT(requests == requested && is_as_before());
    return reply;
}

static lrc_reply make(uint8_t session, lrc_command command) {
    lrc_reply reply, peeked = peek(session, command);
    uint32_t status;
    memset(&reply, 0xa5, sizeof reply);
    STATUS(status, lrc_embed_call(&handle, session, &command, &reply));
    WANT(status == LRC_DONE && memcmp(&peeked, &reply, sizeof reply) == 0);
    return reply;
}

#define MAKE(session, ...) make(session, (lrc_command){__VA_ARGS__})
static bool is_refused(lrc_reply reply, uint8_t refusal, uint32_t detail) {
    return reply.kind == LRC_REFUSED && reply.refusal == refusal && reply.detail == detail;
}

static void texts(void) {
    size_t detail = 99;
    WANT(open_text("node = [", &detail) == LRC_SYNTAX && detail == 0);
    WANT(open_text("", &detail) == LRC_NO_NODES && detail == 0);
    uint32_t status;
    STATUS(status, lrc_embed_open(&handle, 0, 0, &detail)); // as any text without bytes
    WANT(status == LRC_NO_NODES && detail == 0);
    WANT(open_text("node = [{ number = 7, fault = 0, upgrade = 0, slots = 1 }, {}]", &detail) == LRC_BAD_FIELD);
    WANT(detail == 1);
    WANT(open_text("node = [{ number = 7, fault = 256, upgrade = 0, slots = 1 }]", &detail) == LRC_NODE_OUT_OF_RANGE);
    WANT(detail == 0);
#define SEVEN "{ number = 7, fault = 0, upgrade = 0, slots = 1 },"
    WANT(open_text("node = [" SEVEN SEVEN "]", &detail) == LRC_DOUBLE_NODE && detail == 7);
    static char many[513 * 64];
    size_t length = (size_t)snprintf(many, sizeof many, "node = [");
    for (int i = 0; i < 513; i++)
        length += (size_t)snprintf(many + length, sizeof many - length,
                                   "{ number = %d, fault = 0, upgrade = 0, slots = 1 },", i);
    snprintf(many + length, sizeof many - length, "]");
    WANT(open_text(many, &detail) == LRC_TOO_MANY && detail == 0);
}

// Each look and call of a closed handle, which writes nothing.
static void closed(void) {
    static const union {
        uint8_t bytes[sizeof(lrc_entry)];
        lrc_entry entry;
    } pattern = {{0xa5, 0xa5, 0xa5, 0xa5, 0xa5, 0xa5, 0xa5, 0xa5}};
    union {
        lrc_reply reply;
        lrc_homes homes;
        lrc_level level;
        uint16_t missing;
        uint8_t code;
        lrc_lease lease;
        uint32_t load;
        lrc_mode mode;
        lrc_risk rows[2];
        lrc_repair_plan plan;
        lrc_stripe stripes[2];
        lrc_node nodes[2];
        lrc_lease leases[2];
        lrc_fragment fragments[2];
        lrc_outlook outlooks[2];
        lrc_recipe recipe;
        size_t number;
        uint64_t wide;
        uint8_t text[2];
        lrc_entry entry;
    } found = {.entry = pattern.entry};
    lrc_command command = {.kind = LRC_NEXT};
    size_t number = 99;
    uint8_t is_safe = 99;
    const uint16_t none = 0;
    WANT(lrc_embed_call(&handle, 1, &command, &found.reply) == LRC_IS_CLOSED);
    WANT(lrc_embed_call(&handle, 9, &command, &found.reply) == LRC_OUT_OF_RANGE);
    WANT(lrc_embed_peek(&handle, 1, &command, &found.reply) == LRC_IS_CLOSED);
    WANT(lrc_embed_peek(&handle, 9, &command, &found.reply) == LRC_OUT_OF_RANGE);
    WANT(lrc_embed_replay(&handle, &found.entry, 1, &number) == LRC_IS_CLOSED);
    WANT(lrc_embed_homes(&handle, 1, &found.homes) == LRC_IS_CLOSED);
    WANT(lrc_embed_level(&handle, 1, &found.level) == LRC_IS_CLOSED);
    WANT(lrc_embed_missing(&handle, 1, &found.missing) == LRC_IS_CLOSED);
    WANT(lrc_embed_code(&handle, 1, &found.code) == LRC_IS_CLOSED);
    WANT(lrc_embed_code(&handle, LRC_STRIPES, &found.code) == LRC_OUT_OF_RANGE);
    WANT(lrc_embed_lease(&handle, 1, 1, &found.lease) == LRC_IS_CLOSED);
    WANT(lrc_embed_load(&handle, 1, &found.load) == LRC_IS_CLOSED);
    WANT(lrc_embed_mode(&handle, 1, &found.mode) == LRC_IS_CLOSED);
    WANT(lrc_embed_risk(&handle, found.rows, 2, &number) == LRC_IS_CLOSED);
    WANT(lrc_embed_call_at(&handle, 0, 1, &command, &found.reply) == LRC_IS_CLOSED);
    WANT(lrc_embed_call_at(&handle, 1, 9, &command, &found.reply) == LRC_OUT_OF_RANGE);
    WANT(lrc_embed_repair(&handle, 1, 1, &found.plan) == LRC_IS_CLOSED);
    WANT(lrc_embed_repair(&handle, 1, LRC_FRAGMENTS, &found.plan) == LRC_OUT_OF_RANGE);
    WANT(lrc_embed_recipe(&handle, 1, 1, &found.recipe) == LRC_IS_CLOSED);
    WANT(lrc_embed_recipe(&handle, LRC_STRIPES, 1, &found.recipe) == LRC_OUT_OF_RANGE);
    WANT(lrc_embed_is_down(&handle, 1, &found.code) == LRC_IS_CLOSED);
    WANT(lrc_embed_upgrading(&handle, &found.code) == LRC_IS_CLOSED);
    WANT(lrc_embed_first_risk(&handle, found.rows) == LRC_IS_CLOSED);
    WANT(lrc_embed_stripes(&handle, 0, found.stripes, 2, &number) == LRC_IS_CLOSED);
    WANT(lrc_embed_nodes(&handle, 0, found.nodes, 2, &number) == LRC_IS_CLOSED);
    WANT(lrc_embed_leases(&handle, 0, 0, found.leases, 2, &number) == LRC_IS_CLOSED);
    WANT(lrc_embed_homes_on(&handle, 0, 0, 0, found.fragments, 2, &number) == LRC_IS_CLOSED);
    WANT(lrc_embed_entries(&handle, 0, &found.entry, 1, &number) == LRC_IS_CLOSED);
    WANT(lrc_embed_forecast(&handle, LRC_STOP, &none, 1, found.outlooks, 2, &number, &is_safe) == LRC_IS_CLOSED);
    WANT(lrc_embed_forecast(&handle, 0, &none, 1, found.outlooks, 2, &number, &is_safe) == LRC_OUT_OF_RANGE);
    WANT(lrc_embed_count(&handle, &found.number) == LRC_IS_CLOSED);
    WANT(lrc_embed_clock(&handle, &found.load) == LRC_IS_CLOSED);
    WANT(lrc_embed_before(&handle, &found.wide) == LRC_IS_CLOSED);
    WANT(lrc_embed_forget(&handle) == LRC_IS_CLOSED);
    WANT(lrc_embed_image(&handle, found.text, 2, &number) == LRC_IS_CLOSED);
    WANT(lrc_embed_entry(&handle, 0, &found.entry) == LRC_IS_CLOSED);
    WANT(number == 99 && is_safe == 99 && memcmp(&found, pattern.bytes, sizeof pattern.bytes) == 0);
    WANT(lrc_embed_close(&handle) == LRC_DONE);
}

static void ranges(void) {
    const lrc_command outside[] = {
        {.kind = 0},
        {.kind = LRC_PLACE6 + 1},
        {.kind = 255},
        {.kind = LRC_PLACE, .stripe = LRC_STRIPES},
        {.kind = LRC_PLACE6, .stripe = LRC_STRIPES},
        {.kind = LRC_DROP, .stripe = 65535},
        {.kind = LRC_LEASE, .stripe = 1, .fragment = LRC_FRAGMENTS},
        {.kind = LRC_REPORT, .stripe = LRC_STRIPES, .fragment = 1},
        {.kind = LRC_ABANDON, .stripe = 1, .fragment = 255},
        {.kind = LRC_REVOKE, .stripe = LRC_STRIPES, .fragment = LRC_FRAGMENTS},
    };
    lrc_reply reply = {.kind = 99};
    for (size_t i = 0; i < sizeof outside / sizeof *outside; i++) {
        WANT(lrc_embed_call(&handle, 1, &outside[i], &reply) == LRC_OUT_OF_RANGE);
        WANT(lrc_embed_peek(&handle, 1, &outside[i], &reply) == LRC_OUT_OF_RANGE);
        WANT(lrc_embed_call_at(&handle, 0, 1, &outside[i], &reply) == LRC_OUT_OF_RANGE);
    }
    const lrc_command next = {.kind = LRC_NEXT, .stripe = 65535, .fragment = 255, .node = 65535};
    WANT(lrc_embed_call(&handle, 0, &next, &reply) == LRC_OUT_OF_RANGE);
    WANT(lrc_embed_call(&handle, LRC_SESSIONS + 1, &next, &reply) == LRC_OUT_OF_RANGE);
    WANT(lrc_embed_peek(&handle, 0, &next, &reply) == LRC_OUT_OF_RANGE);
    WANT(lrc_embed_peek(&handle, LRC_SESSIONS + 1, &next, &reply) == LRC_OUT_OF_RANGE);
    WANT(lrc_embed_call_at(&handle, 0, 0, &next, &reply) == LRC_OUT_OF_RANGE);
    WANT(lrc_embed_call_at(&handle, 0, LRC_SESSIONS + 1, &next, &reply) == LRC_OUT_OF_RANGE);
    WANT(reply.kind == 99 && count_of() == 0);
    WANT(make(LRC_SESSIONS, next).kind == LRC_IDLE);
    WANT(is_refused(MAKE(1, .kind = LRC_LEASE, .stripe = LRC_STRIPES - 1, .fragment = LRC_FRAGMENTS - 1),
                    LRC_UNKNOWN_STRIPE, 0));
    lrc_level level = {.kind = 99};
    lrc_lease lease = {.epoch = 99};
    WANT(lrc_embed_level(&handle, LRC_STRIPES, &level) == LRC_OUT_OF_RANGE && level.kind == 99);
    WANT(lrc_embed_level(&handle, LRC_STRIPES - 1, &level) == LRC_UNKNOWN && level.kind == 99);
    WANT(lrc_embed_lease(&handle, 1, LRC_FRAGMENTS, &lease) == LRC_OUT_OF_RANGE && lease.epoch == 99);
    WANT(lrc_embed_lease(&handle, LRC_STRIPES, 1, &lease) == LRC_OUT_OF_RANGE && lease.epoch == 99);
    WANT(lrc_embed_lease(&handle, 1, LRC_FRAGMENTS - 1, &lease) == LRC_UNKNOWN && lease.epoch == 99);
    lrc_repair_plan plan = {.repair = 99};
    WANT(lrc_embed_repair(&handle, 1, LRC_FRAGMENTS, &plan) == LRC_OUT_OF_RANGE && plan.repair == 99);
    WANT(lrc_embed_repair(&handle, LRC_STRIPES, 1, &plan) == LRC_OUT_OF_RANGE && plan.repair == 99);
    WANT(lrc_embed_repair(&handle, 1, 1, &plan) == LRC_UNKNOWN && plan.repair == 99);
    lrc_recipe recipe = {.code = 99};
    WANT(lrc_embed_recipe(&handle, 1, LRC_FRAGMENTS, &recipe) == LRC_OUT_OF_RANGE && recipe.code == 99);
    WANT(lrc_embed_recipe(&handle, LRC_STRIPES, 1, &recipe) == LRC_OUT_OF_RANGE && recipe.code == 99);
    WANT(lrc_embed_recipe(&handle, 1, 1, &recipe) == LRC_UNKNOWN && recipe.code == 99);
}

static void leases(void) {
    lrc_lease lease = {0};
    WANT(is_refused(MAKE(1, .kind = LRC_LEASE, .stripe = 1, .fragment = 3), LRC_NOT_NEEDED, 0));
    WANT(MAKE(1, .kind = LRC_FAIL, .node = 3).kind == LRC_CHANGED);
    lrc_reply reply = MAKE(2, .kind = LRC_NEXT);
    WANT(reply.kind == LRC_GRANTED && reply.repair == LRC_LOCAL && reply.sources[5] == 12);
    WANT(reply.lease.stripe == 1 && reply.lease.fragment == 3 && reply.lease.holder == 2 && reply.lease.epoch == 1);
    WANT(lrc_embed_lease(&handle, 1, 3, &lease) == LRC_DONE && lease.expiry == 3 && reply.lease.expiry == 0);
    lease.expiry = 0;
    WANT(memcmp(&lease, &reply.lease, sizeof lease) == 0);
    WANT(lrc_embed_lease(&handle, 1, 4, &lease) == LRC_UNKNOWN);
    lrc_repair_plan plan = {.repair = 99, .reserved = 99};
    WANT(lrc_embed_repair(&handle, 1, 3, &plan) == LRC_DONE && plan.repair == LRC_LOCAL && plan.reserved == 0);
    WANT(memcmp(plan.sources, reply.sources, sizeof plan.sources) == 0);
    lrc_recipe recipe = {.code = 99};
    WANT(lrc_embed_recipe(&handle, 1, 3, &recipe) == LRC_DONE && recipe.code == LRC_WIDE && recipe.fragment == 3);
    for (unsigned f = 0; f < LRC_FRAGMENTS; f++) WANT(recipe.coefficients[f] == (f != 3 && (f < 6 || f == 12)));
    WANT(is_refused(MAKE(1, .kind = LRC_LEASE, .stripe = 1, .fragment = 3), LRC_ALREADY_LEASED, 1));
    WANT(is_refused(MAKE(1, .kind = LRC_ABANDON, .stripe = 1, .fragment = 3, .epoch = 1), LRC_NOT_HOLDER, 2));
    WANT(MAKE(2, .kind = LRC_ABANDON, .stripe = 1, .fragment = 3, .epoch = 1).kind == LRC_ENDED);
    WANT(is_refused(MAKE(2, .kind = LRC_REPORT, .stripe = 1, .fragment = 3, .epoch = 1), LRC_STALE, 0));
    reply = MAKE(4, .kind = LRC_LEASE, .stripe = 1, .fragment = 3);
    WANT(reply.kind == LRC_GRANTED && reply.lease.epoch == 2);
    uint16_t target = reply.lease.target.node;
    WANT(MAKE(1, .kind = LRC_DOWN, .node = target).kind == LRC_CHANGED);
    WANT(is_refused(MAKE(4, .kind = LRC_REPORT, .stripe = 1, .fragment = 3, .epoch = 2), LRC_TARGET_OFFLINE, target));
    WANT(MAKE(1, .kind = LRC_UP, .node = target).kind == LRC_CHANGED);
    WANT(MAKE(4, .kind = LRC_REPORT, .stripe = 1, .fragment = 3, .epoch = 2).kind == LRC_ENDED);
    WANT(is_refused(MAKE(1, .kind = LRC_REVOKE, .stripe = 1, .fragment = 3), LRC_NO_LEASE, 0));
    WANT(MAKE(1, .kind = LRC_JOIN, .node = 3).kind == LRC_CHANGED);
}

static void nodes(void) {
    lrc_mode mode = {0};
    uint32_t load = 99;
    WANT(MAKE(1, .kind = LRC_DRAIN, .node = 0).kind == LRC_CHANGED);
    WANT(lrc_embed_mode(&handle, 0, &mode) == LRC_DONE && mode.mode == LRC_DRAINING && mode.is_online == 1);
    WANT(lrc_embed_load(&handle, 0, &load) == LRC_DONE && load == 1);
    WANT(is_refused(MAKE(1, .kind = LRC_RETIRE, .node = 0), LRC_NOT_EMPTY, 1));
    lrc_reply reply = MAKE(1, .kind = LRC_LEASE, .stripe = 1, .fragment = 0);
    WANT(reply.kind == LRC_GRANTED && reply.repair == LRC_MOVE);
    WANT(MAKE(1, .kind = LRC_REVOKE, .stripe = 1, .fragment = 0).kind == LRC_ENDED);
    WANT(MAKE(1, .kind = LRC_UNDRAIN, .node = 0).kind == LRC_CHANGED);
    WANT(is_refused(MAKE(1, .kind = LRC_UNDRAIN, .node = 0), LRC_WRONG_MODE, 0));
    WANT(is_refused(MAKE(1, .kind = LRC_FAIL, .node = 20), LRC_UNKNOWN_NODE, 0));
    WANT(lrc_embed_mode(&handle, 20, &mode) == LRC_UNKNOWN && mode.mode == LRC_DRAINING);
    uint8_t is_down = 99;
    WANT(lrc_embed_is_down(&handle, 20, &is_down) == LRC_UNKNOWN && is_down == 99);
    WANT(lrc_embed_is_down(&handle, 0, &is_down) == LRC_DONE && is_down == 0);
    WANT(MAKE(1, .kind = LRC_DOWN, .node = 0).kind == LRC_CHANGED);
    WANT(lrc_embed_is_down(&handle, 0, &is_down) == LRC_DONE && is_down == 1);
    WANT(MAKE(1, .kind = LRC_UP, .node = 0).kind == LRC_CHANGED);
    WANT(lrc_embed_load(&handle, 20, &load) == LRC_UNKNOWN && load == 1);
    WANT(MAKE(1, .kind = LRC_DRAIN, .node = 3).kind == LRC_CHANGED);
    WANT(MAKE(1, .kind = LRC_RETIRE, .node = 3).kind == LRC_CHANGED);
    WANT(lrc_embed_mode(&handle, 3, &mode) == LRC_DONE && mode.mode == LRC_GONE && mode.is_online == 0);
}

static bool has_ticked(uint8_t session, uint32_t clock, uint32_t ended) {
    lrc_reply reply = MAKE(session, .kind = LRC_TICK);
    uint32_t found = 99;
    WANT(lrc_embed_clock(&handle, &found) == LRC_DONE);
    return reply.kind == LRC_TICKED && reply.clock == clock && reply.ended == ended && found == clock;
}

// Two sessions have leases that a third one's ticks end, each at the third tick after its grant. Then both are granted again.
static void ticks(void) {
    lrc_lease lease = {.epoch = 99};
    uint32_t load = 99;
    for (uint16_t node = 5; node < 7; node++) {
        WANT(MAKE(1, .kind = LRC_FAIL, .node = node).kind == LRC_CHANGED);
        WANT(MAKE(1, .kind = LRC_JOIN, .node = node).kind == LRC_CHANGED);
    }
    WANT(MAKE(2, .kind = LRC_LEASE, .stripe = 1, .fragment = 5).kind == LRC_GRANTED);
    WANT(has_ticked(3, 1, 0));
    lrc_seat target = MAKE(4, .kind = LRC_LEASE, .stripe = 1, .fragment = 6).lease.target;
    WANT(lrc_embed_load(&handle, target.node, &load) == LRC_DONE && load == 1);
    WANT(has_ticked(3, 2, 0) && has_ticked(2, 3, 1));
    WANT(lrc_embed_lease(&handle, 1, 5, &lease) == LRC_UNKNOWN && lease.epoch == 99);
    WANT(lrc_embed_lease(&handle, 1, 6, &lease) == LRC_DONE && lease.holder == 4 && lease.expiry == 4);
    WANT(is_refused(MAKE(2, .kind = LRC_REPORT, .stripe = 1, .fragment = 5, .epoch = 1), LRC_STALE, 0));
    WANT(has_ticked(3, 4, 1));
    WANT(lrc_embed_load(&handle, target.node, &load) == LRC_DONE && load == 0);
    WANT(is_refused(MAKE(1, .kind = LRC_REVOKE, .stripe = 1, .fragment = 6), LRC_NO_LEASE, 0));
    for (uint8_t fragment = 5; fragment < 7; fragment++) {
        WANT(MAKE(2, .kind = LRC_LEASE, .stripe = 1, .fragment = fragment).lease.epoch == 2);
        WANT(MAKE(2, .kind = LRC_REPORT, .stripe = 1, .fragment = fragment, .epoch = 2).kind == LRC_ENDED);
    }
    WANT(has_ticked(3, 5, 0));
}

static void upgrades(void) {
    uint8_t domain = 99;
    lrc_risk row = {.stripe = 77};
    WANT(MAKE(1, .kind = LRC_PLACE, .stripe = 2).kind == LRC_PLACED);
    WANT(lrc_embed_upgrading(&handle, &domain) == LRC_UNKNOWN && domain == 99);
    WANT(lrc_embed_first_risk(&handle, &row) == LRC_UNKNOWN && row.stripe == 77);
    WANT(MAKE(1, .kind = LRC_UPGRADE, .domain = 1).kind == LRC_CHANGED);
    WANT(lrc_embed_upgrading(&handle, &domain) == LRC_DONE && domain == 1);
    unsigned long requested = requests;
    WANT(lrc_embed_first_risk(&handle, &row) == LRC_DONE && row.stripe < STRIPES && row.level.kind == LRC_AT_RISK);
    WANT(requests == requested);
    WANT(is_refused(MAKE(1, .kind = LRC_UPGRADE, .domain = 2), LRC_UPGRADE_RUNNING, 1));
    WANT(is_refused(MAKE(1, .kind = LRC_UPGRADED, .domain = 2), LRC_NOT_UPGRADING, 0));
    WANT(is_refused(MAKE(1, .kind = LRC_UPGRADE, .domain = 10), LRC_UNKNOWN_DOMAIN, 0));
}

// Two stripes at risk while domain 1 upgrades.
static void looks(void) {
    lrc_risk rows[3] = {{.stripe = 77}, {.stripe = 77}, {.stripe = 77}};
    lrc_homes homes = {0};
    lrc_level level = {0};
    uint16_t missing = 0;
    size_t count = 99;
    uint32_t status;
    STATUS(status, lrc_embed_risk(&handle, rows, 1, &count));
    WANT(status == LRC_SHORT && count == 2 && rows[0].stripe == 77);
    STATUS(status, lrc_embed_risk(&handle, rows, 0, &count));
    WANT(status == LRC_SHORT && count == 2 && rows[0].stripe == 77);
    STATUS(status, lrc_embed_risk(&handle, 0, 0, &count));
    WANT(status == LRC_SHORT && count == 2);
    STATUS(status, lrc_embed_risk(&handle, rows, 3, &count));
    WANT(status == LRC_DONE && count == 2 && rows[2].stripe == 77);
    for (size_t i = 0; i < count; i++) {
        WANT(lrc_embed_level(&handle, rows[i].stripe, &level) == LRC_DONE && level.kind == LRC_AT_RISK);
        WANT(memcmp(&level, &rows[i].level, sizeof level) == 0);
        WANT(lrc_embed_missing(&handle, rows[i].stripe, &missing) == LRC_DONE);
        WANT(lrc_embed_homes(&handle, rows[i].stripe, &homes) == LRC_DONE);
        for (unsigned f = 0; f < LRC_FRAGMENTS; f++) {
            unsigned node = homes.homes[f].seat.node;
            WANT(homes.homes[f].is_there == 1);
            WANT((missing >> f & 1) == (node == 1 || node == 11));
        }
    }
    STATUS(status, lrc_embed_risk(&handle, rows, 2, &count));
    WANT(status == LRC_DONE && count == 2);
    WANT(lrc_embed_homes(&handle, 7, &homes) == LRC_UNKNOWN);
    WANT(lrc_embed_missing(&handle, 7, &missing) == LRC_UNKNOWN);
    WANT(MAKE(1, .kind = LRC_UPGRADED, .domain = 1).kind == LRC_CHANGED);
    STATUS(status, lrc_embed_risk(&handle, 0, 0, &count));
    WANT(status == LRC_DONE && count == 0);
}

static void walk(const looks_of_book *it) {
    is_looking = true;
    agree(it);
    is_looking = false;
}

// Walks with little room, from each place, which write no row behind the last one.
static void walks(void) {
    size_t count = 99;
    uint32_t status;
    unsigned long requested = requests;
    lrc_stripe stripes[3];
    lrc_node nodes[3];
    lrc_lease leases[3];
    lrc_entry entries[3];
    lrc_fragment fragments[3], marked[3];
    memset(marked, 0xa5, sizeof marked);
    look(&after);
    walk(&after);
    for (unsigned from = 0; from < 65536; from += from < 8 ? 1 : 4094) {
        size_t left = 0, at = STRIPES;
        for (size_t i = walked.stripe_count; i-- > 0;)
            if (walked.stripes[i].stripe >= from) left++, at = i;
        for (size_t room = 0; room < 4; room++) {
            size_t wanted = left < room ? left : room;
            memset(stripes, 0xa5, sizeof stripes);
            WANT(lrc_embed_stripes(&handle, (uint16_t)from, stripes, room, &count) == LRC_DONE && count == wanted);
            WANT(memcmp(stripes, walked.stripes + at, wanted * sizeof *stripes) == 0);
            for (size_t i = wanted; i < 3; i++) WANT(stripes[i].stripe == 0xa5a5);
        }
    }
    for (size_t from = 0; from < NODES + 1; from++) {
        size_t wanted = from + 3 < NODES ? 3 : from < NODES - 1 ? NODES - 1 - from : 0;
        memset(nodes, 0xa5, sizeof nodes);
        WANT(lrc_embed_nodes(&handle, from, nodes, 3, &count) == LRC_DONE && count == wanted);
        if (wanted) WANT(memcmp(nodes, walked.nodes + from, wanted * sizeof *nodes) == 0);
        for (size_t i = wanted; i < 3; i++) WANT(nodes[i].number == 0xa5a5);
    }
    for (unsigned place = 0; place < STRIPES * 18; place++) {
        uint16_t stripe = (uint16_t)(place / 18);
        uint8_t fragment = (uint8_t)(place % 18); // one and two more than the last as well
        size_t left = 0, at = 0;
        for (size_t i = walked.lease_count; i-- > 0;)
            if (walked.leases[i].stripe * 18u + walked.leases[i].fragment >= place) left++, at = i;
        WANT(lrc_embed_leases(&handle, stripe, fragment, leases, 3, &count) == LRC_DONE);
        WANT(count == (left < 3 ? left : 3) && memcmp(leases, walked.leases + at, count * sizeof *leases) == 0);
    }
    for (size_t from = 0; from <= after.count + 1; from++) {
        size_t left = from < after.count ? after.count - from : 0;
        WANT(lrc_embed_entries(&handle, after.before + from, entries, 2, &count) == LRC_DONE);
        WANT(count == (left < 2 ? left : 2));
        if (count) WANT(memcmp(entries, after.entries + from, count * sizeof *entries) == 0);
    }
    WANT(lrc_embed_stripes(&handle, 0, 0, 0, &count) == LRC_DONE && count == 0);
    WANT(lrc_embed_nodes(&handle, SIZE_MAX, 0, 0, &count) == LRC_DONE && count == 0);
    WANT(lrc_embed_leases(&handle, 65535, 255, 0, 0, &count) == LRC_DONE && count == 0);
    WANT(lrc_embed_entries(&handle, UINT64_MAX, entries, 3, &count) == LRC_DONE && count == 0);
    WANT(requests == requested); // none of these requests memory
    count = 99;
    memcpy(fragments, marked, sizeof marked);
    WANT(lrc_embed_homes_on(&handle, 20, 0, 0, fragments, 3, &count) == LRC_UNKNOWN && requests == requested);
    WANT(count == 99 && memcmp(fragments, marked, sizeof marked) == 0);
    uint16_t node = 0;
    while (walked.home_counts[node] < 2) node++;
    STATUS(status, lrc_embed_homes_on(&handle, node, 0, 0, fragments, 1, &count));
    WANT(status == LRC_DONE && count == 1 && memcmp(fragments + 1, marked, 2 * sizeof *marked) == 0);
    uint16_t stripe = fragments[0].stripe;
    uint8_t next = fragments[0].fragment + 1;
    STATUS(status, lrc_embed_homes_on(&handle, node, stripe, next, fragments, 3, &count));
    look(&after);
    walk(&after);
    WANT(status == LRC_DONE && count == walked.home_counts[node] - 1 && fragments[0].stripe > stripe);
    WANT(memcmp(fragments, walked.homes[node] + 1, count * sizeof *fragments) == 0);
    STATUS(status, lrc_embed_homes_on(&handle, node, 65535, 255, 0, 0, &count));
    WANT(status == LRC_DONE && count == 0);
}

// Whether a home of a stripe, or a target of a lease of it, is on one of these nodes.
static bool has_seat_on(const looks_of_book *it, uint16_t stripe, const uint16_t *nodes, size_t length) {
    for (size_t i = 0; i < length; i++)
        for (uint8_t f = 0; f < LRC_FRAGMENTS; f++) {
            const lrc_home *home = &it->homes[stripe].homes[f];
            const lrc_lease *lease = &it->leases[stripe][f];
            if (home->is_there && home->seat.node == nodes[i]) return true;
            if (lease->epoch != 0 && lease->target.node == nodes[i]) return true;
        }
    return false;
}

// A forecast is what the commands lead to, and only a node of the store is asked of.
static void forecasts(void) {
    lrc_outlook rows[STRIPES + 1];
    const uint16_t unknown[2] = {1, 20};
    size_t count = 99;
    uint8_t is_safe = 99;
    uint32_t status;
    memset(rows, 0xa5, sizeof rows);
    WANT(lrc_embed_forecast(&handle, 0, unknown, 1, rows, STRIPES, &count, &is_safe) == LRC_OUT_OF_RANGE);
    WANT(lrc_embed_forecast(&handle, 3, unknown, 1, rows, STRIPES, &count, &is_safe) == LRC_OUT_OF_RANGE);
    WANT(lrc_embed_forecast(&handle, LRC_LOSE, unknown, 2, rows, STRIPES, &count, &is_safe) == LRC_UNKNOWN);
    WANT(count == 99 && is_safe == 99 && rows[0].stripe == 0xa5a5);
    STATUS(status, lrc_embed_forecast(&handle, LRC_STOP, 0, 0, rows, STRIPES, &count, &is_safe));
    WANT(status == LRC_DONE && count == 0 && is_safe == 1);
    static const uint16_t stopped[4] = {2, 4, 6, 8};
    static looks_of_book now;
    look(&now);
    for (size_t n = 1; n <= 4; n++) {
        size_t found = 0, room;
        memset(rows, 0xa5, sizeof rows);
        STATUS(status, lrc_embed_forecast(&handle, LRC_STOP, stopped, n, rows, STRIPES, &count, &is_safe));
        WANT(status == LRC_DONE && count > 0 && rows[count].stripe == 0xa5a5);
        for (size_t i = 0; i < n; i++) WANT(MAKE(1, .kind = LRC_DOWN, .node = stopped[i]).kind == LRC_CHANGED);
        look(&after);
        bool is_harmed = false;
        for (uint16_t s = 0; s < STRIPES; s++) {
            lrc_outlook row = {.stripe = s, .missing = after.missing[s], .code = after.codes[s], .before = now.levels[s],
                               .after = after.levels[s]};
            if (row.code == 0 || row.after.kind == LRC_WHOLE) continue;
            row.newly_missing = after.missing[s] & (uint16_t)~now.missing[s];
            row.is_harmed = row.after.kind != LRC_AT_RISK && (row.before.kind == LRC_WHOLE || row.before.kind == LRC_AT_RISK ||
                                                              has_seat_on(&now, s, stopped, n));
            WANT(found < count && memcmp(&row, &rows[found++], sizeof row) == 0);
            if (row.is_harmed) is_harmed = true;
        }
        WANT(found == count && is_safe == !is_harmed);
        for (size_t i = 0; i < n; i++) WANT(MAKE(1, .kind = LRC_UP, .node = stopped[i]).kind == LRC_CHANGED);
        room = count - 1, is_safe = 99, count = 99;
        memset(rows, 0xa5, sizeof rows);
        STATUS(status, lrc_embed_forecast(&handle, LRC_STOP, stopped, n, rows, room, &count, &is_safe));
        WANT(status == LRC_SHORT && count == found && is_safe == !is_harmed && rows[0].stripe == 0xa5a5);
    }
}

// Where a node is lost, the leases end whose target is on it. The book is that of image_of_leased: fragment 3 of stripe 1 is
// leased, with its target on node 17, and fragment 1 of stripe 2 is there; nodes 7, 8 and 18 are offline.
static void forecast_of_leases(void) {
    const lrc_outlook wanted[2] = {
        {.stripe = 1, .missing = 0x0188, .code = LRC_WIDE, .leases_ended = 1, .before = {.kind = LRC_AT_RISK, .margin = 1},
         .after = {.kind = LRC_AT_RISK, .margin = 1}},
        {.stripe = 2, .missing = 0x0086, .newly_missing = 0x0002, .code = LRC_NARROW,
         .before = {.kind = LRC_AT_RISK, .margin = 2}, .after = {.kind = LRC_AT_RISK, .margin = 1}},
    };
    // Without node 9 too, four fragments of stripe 1 are missing, and its margin is 0; without node 10 too it is unavailable.
    static const uint16_t lost[3] = {17, 9, 10};
    lrc_outlook rows[STRIPES];
    size_t count = 99;
    uint8_t is_safe = 99;
    uint32_t status;
    STATUS(status, lrc_embed_forecast(&handle, LRC_LOSE, lost, 1, rows, STRIPES, &count, &is_safe));
    WANT(status == LRC_DONE && count == 2 && is_safe == 1 && memcmp(rows, wanted, sizeof wanted) == 0);
    STATUS(status, lrc_embed_forecast(&handle, LRC_LOSE, lost, 2, rows, STRIPES, &count, &is_safe));
    WANT(status == LRC_DONE && count == 2 && is_safe == 1 && rows[0].after.margin == 0 && rows[0].is_harmed == 0);
    STATUS(status, lrc_embed_forecast(&handle, LRC_LOSE, lost, 3, rows, STRIPES, &count, &is_safe));
    WANT(status == LRC_DONE && count == 2 && is_safe == 0 && rows[0].is_harmed == 1 && rows[1].is_harmed == 0);
    WANT(rows[0].newly_missing == (1 << 9 | 1 << 10) && rows[0].leases_ended == 1);
}

// A call is made only at the place that is expected.
static void call_at_place(void) {
    const lrc_command up = {.kind = LRC_UP, .node = 1};
    lrc_reply reply = {.kind = 99};
    uint64_t before_it = 0;
    uint32_t status;
    WANT(lrc_embed_before(&handle, &before_it) == LRC_DONE);
    uint64_t place = before_it + count_of();
    const uint64_t others[] = {0, place - 1, place + 1, before_it, UINT64_MAX};
    for (size_t i = 0; i < sizeof others / sizeof *others; i++) {
        if (others[i] == place) continue;
        look(&before);
        WANT(lrc_embed_call_at(&handle, others[i], 1, &up, &reply) == LRC_MOVED && is_as_before() && reply.kind == 99);
    }
    STATUS(status, lrc_embed_call_at(&handle, place, 1, &up, &reply));
    WANT(status == LRC_DONE && is_refused(reply, LRC_WRONG_MODE, 0));
    WANT(lrc_embed_call_at(&handle, place, 1, &up, &reply) == LRC_MOVED);
}

// The word for a number, where there is room for it and where there is not.
static void has_name(uint32_t (*name_of)(uint32_t, uint8_t *, size_t, size_t *), uint32_t number, const char *word) {
    uint8_t text[80];
    size_t length = 99;
    memset(text, '#', sizeof text);
    if (!word) {
        WANT(name_of(number, text, sizeof text, &length) == LRC_UNKNOWN && length == 99 && text[0] == '#');
        return;
    }
    WANT(name_of(number, text, strlen(word) - 1, &length) == LRC_SHORT && length == strlen(word) && text[0] == '#');
    length = 99;
    WANT(name_of(number, 0, 0, &length) == LRC_SHORT && length == strlen(word));
    WANT(name_of(number, text, strlen(word), &length) == LRC_DONE && length == strlen(word));
    WANT(memcmp(text, word, length) == 0 && text[length] == '#');
}

static uint32_t reply_name(uint32_t kind, uint8_t *text, size_t room, size_t *length) {
    return lrc_embed_reply_name((uint8_t)kind, text, room, length);
}

static uint32_t refusal_name(uint32_t refusal, uint8_t *text, size_t room, size_t *length) {
    return lrc_embed_refusal_name((uint8_t)refusal, text, room, length);
}

static void names(void) {
    static const char *const statuses[] = {
        "done", "closed handle", "open handle", "out of range", "unknown", "full", "out of memory", "short buffer",
        "different reply", "moved", "forgotten", "not determined", "miscounted buffers", "uneven buffers", 0, 0, "not TOML",
        "no nodes", "bad field", "node out of range", "double node", "too many nodes", "bad line", "invalid image", 0};
    static const char *const replies[] = {0, "placed", "dropped", "granted", "idle", "ended", "changed", "refused",
                                          "ticked", "placed", 0};
    static const char *const refusals[] = {
        0, "unknown stripe", "stripe exists", "no lawful node", "unknown node", "wrong mode", "unknown domain",
        "upgrade running", "not upgrading", "would lose", "already leased", "not needed", "unrecoverable", "stale",
        "not holder", "target offline", "no lease", "not empty", 0};
    for (uint32_t i = 0; i < sizeof statuses / sizeof *statuses; i++) has_name(lrc_embed_status_name, i, statuses[i]);
    for (uint32_t i = 0; i < sizeof replies / sizeof *replies; i++) has_name(reply_name, i, replies[i]);
    for (uint32_t i = 0; i < sizeof refusals / sizeof *refusals; i++) has_name(refusal_name, i + 100, refusals[i]);
    has_name(lrc_embed_status_name, UINT32_MAX, 0);
    has_name(reply_name, 255, 0);
    has_name(refusal_name, 255, 0);
}

// Whether a recipe reads a fragment with this coefficient.
static bool reads(const lrc_recipe *recipe, unsigned fragment, uint8_t coefficient) {
    return recipe->coefficients[fragment] == coefficient;
}

// Recipes and matrices without a book. That of docs/RULES.md rebuilds fragment 0 of a wide stripe that misses 0 and 1.
static void recipes(void) {
    static const uint8_t shown[LRC_FRAGMENTS] = {0, 0, 244, 2, 246, 247, 251, 235, 16, 203, 48, 32, 245, 0, 244, 0};
    static const uint8_t factors[12] = {1, 2, 3, 4, 5, 6, 16, 32, 48, 64, 80, 96};
    lrc_recipe recipe = {.code = 99};
    uint8_t rows[200];
    size_t length = 99;
    WANT(lrc_embed_recipe_of(0, 0, 0, &recipe) == LRC_OUT_OF_RANGE && lrc_embed_recipe_of(3, 0, 0, &recipe) == LRC_OUT_OF_RANGE);
    WANT(lrc_embed_recipe_of(LRC_WIDE, 0, 16, &recipe) == LRC_OUT_OF_RANGE);
    WANT(lrc_embed_recipe_of(LRC_NARROW, 0, 10, &recipe) == LRC_OUT_OF_RANGE);
    WANT(lrc_embed_recipe_of(LRC_WIDE, 0x47, 0, &recipe) == LRC_DONE && recipe.code == LRC_WIDE);
    recipe.code = 99;
    WANT(lrc_embed_recipe_of(LRC_NARROW, 0x47, 0, &recipe) == LRC_UNDETERMINED && recipe.code == 99);
    WANT(lrc_embed_recipe_of(LRC_WIDE, 3, 0, &recipe) == LRC_DONE && recipe.fragment == 0);
    WANT(memcmp(recipe.coefficients, shown, sizeof shown) == 0);
    WANT(lrc_embed_recipe_of(LRC_NARROW, 0xfc01, 0, &recipe) == LRC_DONE && recipe.code == LRC_NARROW);
    WANT(reads(&recipe, 0, 0) && reads(&recipe, 1, 1) && reads(&recipe, 2, 1) && reads(&recipe, 3, 0) && reads(&recipe, 6, 1));
    WANT(lrc_embed_recipe_of(LRC_WIDE, 3, 7, &recipe) == LRC_DONE && recipe.fragment == 7);
    for (unsigned f = 0; f < LRC_FRAGMENTS; f++) WANT(reads(&recipe, f, f == 7));
    memset(rows, '#', sizeof rows);
    WANT(lrc_embed_matrix(0, rows, sizeof rows, &length) == LRC_OUT_OF_RANGE && length == 99 && rows[0] == '#');
    WANT(lrc_embed_matrix(LRC_WIDE, rows, 191, &length) == LRC_SHORT && length == 192 && rows[0] == '#');
    WANT(lrc_embed_matrix(LRC_NARROW, 0, 0, &length) == LRC_SHORT && length == 60);
    WANT(lrc_embed_matrix(LRC_WIDE, rows, 192, &length) == LRC_DONE && length == 192 && rows[192] == '#');
    WANT(memcmp(&rows[14 * 12], factors, sizeof factors) == 0 && rows[0] == 1 && rows[1] == 0 && rows[13] == 1);
}

#define LONG 100
// The bytes of a stripe: those of the data are counted up, the others are not made yet.
static uint8_t bytes[LRC_FRAGMENTS][LONG];
static lrc_bytes fragments[LRC_FRAGMENTS];
static lrc_buffer parities[5];

static void begin_stripe(unsigned data_count) {
    memset(bytes, '#', sizeof bytes);
    for (unsigned f = 0; f < LRC_FRAGMENTS; f++) {
        fragments[f] = (lrc_bytes){bytes[f], LONG};
        for (unsigned i = 0; f < data_count && i < LONG; i++) bytes[f][i] = (uint8_t)(f * 37 + i * i);
    }
    for (unsigned j = 0; j < 5; j++) parities[j] = (lrc_buffer){bytes[(data_count + j) % LRC_FRAGMENTS], LONG};
}

// Nothing has been written behind the data.
static bool is_begun(unsigned data_count) {
    for (unsigned f = data_count; f < LRC_FRAGMENTS; f++)
        for (unsigned i = 0; i < LONG; i++)
            if (bytes[f][i] != '#') return false;
    return true;
}

// The parities of a stripe of a code, and each fragment rebuilt from others; and all that is refused.
static void code_stripes(uint8_t code, unsigned data_count) {
    uint8_t rebuilt[LONG + 1];
    lrc_recipe recipe = {0};
    begin_stripe(data_count);
    WANT(lrc_embed_encode(0, fragments, data_count, parities, 4) == LRC_OUT_OF_RANGE);
    WANT(lrc_embed_encode(code, fragments, data_count - 1, parities, 4) == LRC_MISCOUNTED);
    WANT(lrc_embed_encode(code, fragments, data_count, parities, 5) == LRC_MISCOUNTED);
    WANT(lrc_embed_encode(code, 0, 0, 0, 0) == LRC_MISCOUNTED);
    fragments[data_count - 1].length = LONG - 1;
    WANT(lrc_embed_encode(code, fragments, data_count, parities, 4) == LRC_UNEVEN);
    begin_stripe(data_count);
    parities[3].length = LONG - 1;
    WANT(lrc_embed_encode(code, fragments, data_count, parities, 4) == LRC_UNEVEN && is_begun(data_count));
    begin_stripe(data_count);
    for (unsigned j = 0; j < 4; j++) parities[j].length = LONG - 1;
    for (unsigned f = 0; f < data_count; f++) fragments[f].length = LONG - 1;
    WANT(lrc_embed_encode(code, fragments, data_count, parities, 4) == LRC_DONE);
    for (unsigned f = data_count; f < data_count + 4; f++) WANT(bytes[f][LONG - 1] == '#');
    begin_stripe(data_count);
    WANT(lrc_embed_encode(code, fragments, data_count, parities, 4) == LRC_DONE);
    for (unsigned j = 0; j < 4; j++) WANT(parities[j].at == bytes[data_count + j] && parities[j].length == LONG);
    for (unsigned i = 0; i < LONG; i++) {
        uint8_t sum = 0;
        for (unsigned f = 0; f < data_count / 2; f++) sum ^= bytes[f][i];
        WANT(bytes[data_count][i] == sum);
    }
    for (uint8_t f = 0; f < data_count + 4; f++)
        for (unsigned more = 0; more < 16; more++) { // (with up to four others of the first missing, where that can be)
            uint16_t missing = (uint16_t)(1u << f | more);
            if (lrc_embed_recipe_of(code, missing, f, &recipe) != LRC_DONE) continue;
            lrc_bytes given[LRC_FRAGMENTS];
            for (unsigned g = 0; g < LRC_FRAGMENTS; g++) given[g] = missing >> g & 1 ? (lrc_bytes){0, 0} : fragments[g];
            memset(rebuilt, '#', sizeof rebuilt);
            WANT(lrc_embed_rebuild(&recipe, given, data_count + 4, rebuilt, LONG) == LRC_DONE);
            WANT(memcmp(rebuilt, bytes[f], LONG) == 0 && rebuilt[LONG] == '#');
        }
    memset(rebuilt, '#', sizeof rebuilt);
    WANT(lrc_embed_recipe_of(code, 1, 0, &recipe) == LRC_DONE);
    WANT(lrc_embed_rebuild(&recipe, fragments, data_count + 3, rebuilt, LONG) == LRC_MISCOUNTED);
    fragments[1].length = 0;
    WANT(lrc_embed_rebuild(&recipe, fragments, data_count + 4, rebuilt, LONG) == LRC_UNEVEN && rebuilt[0] == '#');
    fragments[1].length = LONG, recipe.code = 0;
    WANT(lrc_embed_rebuild(&recipe, fragments, data_count + 4, rebuilt, LONG) == LRC_OUT_OF_RANGE && rebuilt[0] == '#');
    if (code == LRC_NARROW) { // (a recipe of the other code, which reads a fragment that this one lacks)
        WANT(lrc_embed_recipe_of(LRC_WIDE, 3, 0, &recipe) == LRC_DONE && recipe.coefficients[14] != 0);
        recipe.code = code;
        WANT(lrc_embed_rebuild(&recipe, fragments, data_count + 4, rebuilt, LONG) == LRC_OUT_OF_RANGE && rebuilt[0] == '#');
        WANT(lrc_embed_rebuild(&recipe, fragments, data_count + 3, rebuilt, LONG) == LRC_OUT_OF_RANGE && rebuilt[0] == '#');
    }
    for (uint8_t f = 0; f < data_count + 4; f++) { // (a copy)
        lrc_bytes given[LRC_FRAGMENTS] = {0};
        given[f] = fragments[f];
        WANT(lrc_embed_recipe_of(code, 0, f, &recipe) == LRC_DONE);
        WANT(lrc_embed_rebuild(&recipe, given, data_count + 4, rebuilt, LONG) == LRC_DONE && memcmp(rebuilt, bytes[f], LONG) == 0);
    }
    WANT(lrc_embed_recipe_of(code, 1, 0, &recipe) == LRC_DONE);
    for (unsigned g = 0; g < LRC_FRAGMENTS; g++) fragments[g] = (lrc_bytes){0, 0};
    recipe.code = code;
    WANT(lrc_embed_rebuild(&recipe, fragments, data_count + 4, 0, 0) == LRC_DONE);
}

static bool has_code(uint16_t stripe, uint8_t code) {
    uint8_t found = 99;
    return lrc_embed_code(&handle, stripe, &found) == LRC_DONE && found == code;
}

// The homes of a stripe are these seats, of the first `fragments` fragments, and all else is 0.
static bool has_homes(uint16_t stripe, lrc_seat seats[LRC_FRAGMENTS], unsigned fragments) {
    lrc_homes found, homes = {0};
    const lrc_seat none = {0};
    memset(&found, 0xa5, sizeof found);
    for (unsigned f = 0; f < fragments; f++) homes.homes[f] = (lrc_home){.seat = seats[f], .is_there = 1};
    for (unsigned f = fragments; f < LRC_FRAGMENTS; f++) WANT(memcmp(&seats[f], &none, sizeof none) == 0);
    return lrc_embed_homes(&handle, stripe, &found) == LRC_DONE && memcmp(&found, &homes, sizeof found) == 0;
}

// A narrow stripe beside a wide one: its seats, a repair from three sources, and what is asked of a fragment that it lacks.
// Then its number is given to a wide stripe.
static void narrow(void) {
    static const uint8_t sources[6] = {0, 2, 6};
    uint8_t code = 99;
    uint16_t missing = 99;
    lrc_lease lease = {.epoch = 99};
    WANT(lrc_embed_code(&handle, LRC_STRIPES, &code) == LRC_OUT_OF_RANGE && code == 99);
    WANT(lrc_embed_code(&handle, 3, &code) == LRC_UNKNOWN && code == 99);
    lrc_reply reply = MAKE(1, .kind = LRC_PLACE6, .stripe = 3);
    uint16_t node = reply.seats[1].node;
    WANT(reply.kind == LRC_PLACED6 && has_homes(3, reply.seats, LRC_NARROW_FRAGMENTS));
    WANT(has_code(3, LRC_NARROW) && has_code(1, LRC_WIDE));
    WANT(is_refused(MAKE(1, .kind = LRC_PLACE6, .stripe = 3), LRC_STRIPE_EXISTS, 0));
    WANT(is_refused(MAKE(1, .kind = LRC_PLACE, .stripe = 3), LRC_STRIPE_EXISTS, 0));
    WANT(is_refused(MAKE(1, .kind = LRC_PLACE6, .stripe = 1), LRC_STRIPE_EXISTS, 0));
    WANT(MAKE(1, .kind = LRC_FAIL, .node = node).kind == LRC_CHANGED);
    WANT(lrc_embed_missing(&handle, 3, &missing) == LRC_DONE && missing == 1 << 1);
    WANT(is_refused(MAKE(2, .kind = LRC_LEASE, .stripe = 3, .fragment = 12), LRC_NOT_NEEDED, 0));
    reply = MAKE(2, .kind = LRC_LEASE, .stripe = 3, .fragment = 1);
    WANT(reply.kind == LRC_GRANTED && reply.repair == LRC_LOCAL3);
    WANT(reply.lease.epoch == 1 && memcmp(reply.sources, sources, sizeof sources) == 0);
    WANT(is_refused(MAKE(2, .kind = LRC_REPORT, .stripe = 3, .fragment = 12, .epoch = 1), LRC_STALE, 0));
    WANT(is_refused(MAKE(2, .kind = LRC_ABANDON, .stripe = 3, .fragment = 12, .epoch = 1), LRC_STALE, 0));
    WANT(is_refused(MAKE(2, .kind = LRC_REVOKE, .stripe = 3, .fragment = 12), LRC_NO_LEASE, 0));
    WANT(lrc_embed_lease(&handle, 3, 12, &lease) == LRC_UNKNOWN && lease.epoch == 99);
    WANT(MAKE(2, .kind = LRC_REPORT, .stripe = 3, .fragment = 1, .epoch = 1).kind == LRC_ENDED);
    WANT(MAKE(1, .kind = LRC_JOIN, .node = node).kind == LRC_CHANGED);
    WANT(MAKE(1, .kind = LRC_DROP, .stripe = 3).kind == LRC_DROPPED);
    reply = MAKE(1, .kind = LRC_PLACE, .stripe = 3);
    WANT(reply.kind == LRC_PLACED && has_homes(3, reply.seats, LRC_FRAGMENTS) && has_code(3, LRC_WIDE));
}

// The replay is made again, on a new book, where memory was refused to it.
static uint32_t replay(const lrc_entry *entries, size_t count, size_t *position) {
    for (int turn = 0; turn < 2; turn++) {
        size_t at = 99;
        WANT(lrc_embed_close(&handle) == LRC_DONE);
        open_twenty();
        uint32_t status = lrc_embed_replay(&handle, entries, count / 2, &at);
        if (status == LRC_DONE) {
            WANT(at == 99 && count_of() == count / 2);
            status = lrc_embed_replay(&handle, entries + count / 2, count - count / 2, &at);
            if (status != LRC_DONE) at += count / 2;
        }
        if (status != LRC_DONE) WANT(lrc_embed_count(&handle, &at) == LRC_IS_CLOSED && at < count);
        *position = at;
        if (status != LRC_OUT_OF_MEMORY) return status;
    }
    give_up();
    return LRC_OUT_OF_MEMORY;
}

static void replays(void) {
    static lrc_entry entries[ENTRIES];
    size_t count = count_of(), position;
    WANT(count <= ENTRIES && lrc_embed_entry(&handle, count, &entries[0]) == LRC_UNKNOWN && entries[0].session == 0);
    for (size_t i = 0; i < count; i++) WANT(lrc_embed_entry(&handle, i, &entries[i]) == LRC_DONE);
    position = 99;
    WANT(lrc_embed_replay(&handle, 0, 0, &position) == LRC_DONE && position == 99 && count_of() == count);
    // The first call was made with numbers that `next` does not use: the book has 0 there, and looks at none of them.
    const lrc_command next = {.kind = LRC_NEXT};
    WANT(memcmp(&entries[0].command, &next, sizeof next) == 0);
    lrc_entry first = entries[0];
    entries[0].command.stripe = 65535, entries[0].command.reserved[4] = 1, entries[0].reserved[2] = 1;
    WANT(replay(entries, count, &position) == LRC_DONE && position == 99 && count_of() == count);
    entries[0] = first;
    for (size_t i = 0; i < count; i++) {
        lrc_entry entry;
        WANT(lrc_embed_entry(&handle, i, &entry) == LRC_DONE && memcmp(&entry, &entries[i], sizeof entry) == 0);
    }
    size_t at = count / 2 + 3;
    lrc_entry entry_there = entries[at];
    entries[at].reply.detail ^= 1;
    WANT(replay(entries, count, &position) == LRC_DIFFERENT && position == at);
    entries[at] = entry_there;
    entries[at].reply.seats[15].slot ^= 1;
    WANT(replay(entries, count, &position) == LRC_DIFFERENT && position == at);
    entries[at] = entry_there;
    entries[at].command.kind = 0;
    WANT(replay(entries, count, &position) == LRC_OUT_OF_RANGE && position == at);
    entries[at] = entry_there;
    entries[2].session = 9;
    WANT(replay(entries, count, &position) == LRC_OUT_OF_RANGE && position == 2);
}

// There is no entry before this place, which the book remembers, and none after it.
static void begins_at(uint64_t place) {
    lrc_entry row, marked;
    size_t count = 99;
    memset(&marked, 0xa5, sizeof marked);
    row = marked;
    for (uint64_t earlier = 0; earlier < place; earlier++)
        WANT(lrc_embed_entries(&handle, earlier, &row, 1, &count) == LRC_FORGOTTEN && count == 99);
    WANT(memcmp(&row, &marked, sizeof row) == 0);
    WANT(lrc_embed_entries(&handle, place, &row, 1, &count) == LRC_DONE && count == 0);
}

// A book forgets its entries: the looks are as before, but for the count, the entries, and the number of those before them.
static void forget(void) {
    uint32_t status;
    STATUS(status, lrc_embed_forget(&handle));
    WANT(status == LRC_DONE);
    look(&after);
    WANT(after.count == 0 && after.before == before.before + before.count);
    begins_at(after.before);
    after.count = before.count, after.before = before.before;
    memcpy(after.entries, before.entries, sizeof after.entries);
    WANT(memcmp(&before, &after, sizeof before) == 0);
}

// The image of a book is the same text before and after it forgets, with each size of buffer.
static void image(const char *wanted) {
    static uint8_t text[4096];
    size_t needed = 99, length = strlen(wanted);
    uint32_t status;
    memset(text, 9, sizeof text);
    STATUS(status, lrc_embed_image(&handle, text, length - 1, &needed));
    WANT(status == LRC_SHORT && needed == length && text[0] == 9);
    STATUS(status, lrc_embed_image(&handle, text, length, &needed));
    WANT(status == LRC_DONE && needed == length && memcmp(text, wanted, length) == 0 && text[length] == 9);
    memset(text, 9, sizeof text);
    STATUS(status, lrc_embed_image(&handle, text, sizeof text, &needed));
    WANT(status == LRC_DONE && needed == length);
    WANT(memcmp(text, wanted, length) == 0 && text[length] == 9);
}

static const char *image_of_leased =
    "image 1\nbefore 8\nclock 1\nupgrading 8\nnode 3 gone\nnode 5 draining\nnode 7 down\n"
    "stripe 1 0:0 1:0 2:0 - 4:0 5:0 6:0 7:0 8:0 9:0 10:0 11:0 16:0 12:0 13:0 14:0\n"
    "stripe6 2 15:0 17:0 18:0 19:0 0:1 1:1 2:1 - 4:1 5:1\n"
    "granted 1 0 0 0 1 0 0 0 0 0 0 0 0 0 0 0 0\nlease 1 3 2 17:1 4\nend\n";

static void forgets(void) {
    lrc_lease lease;
    WANT(lrc_embed_close(&handle) == LRC_DONE);
    open_twenty();
    forget();
    WANT(MAKE(1, .kind = LRC_PLACE, .stripe = 1).kind == LRC_PLACED);
    WANT(MAKE(1, .kind = LRC_PLACE6, .stripe = 2).kind == LRC_PLACED6);
    WANT(MAKE(1, .kind = LRC_FAIL, .node = 3).kind == LRC_CHANGED);
    WANT(MAKE(1, .kind = LRC_DRAIN, .node = 5).kind == LRC_CHANGED);
    WANT(MAKE(1, .kind = LRC_DOWN, .node = 7).kind == LRC_CHANGED);
    WANT(MAKE(1, .kind = LRC_UPGRADE, .domain = 8).kind == LRC_CHANGED);
    WANT(MAKE(1, .kind = LRC_TICK).kind == LRC_TICKED);
    WANT(MAKE(2, .kind = LRC_LEASE, .stripe = 1, .fragment = 3).lease.epoch == 1);
    image(image_of_leased);
    forget();
    image(image_of_leased);
    WANT(lrc_embed_lease(&handle, 1, 3, &lease) == LRC_DONE && lease.epoch == 1 && lease.holder == 2 && lease.expiry == 4);
    WANT(MAKE(1, .kind = LRC_REVOKE, .stripe = 1, .fragment = 3).kind == LRC_ENDED);
    WANT(MAKE(1, .kind = LRC_LEASE, .stripe = 1, .fragment = 3).lease.epoch == 2);
    WANT(count_of() == 2);
    forget();
    forget();
    look(&after);
    WANT(after.before == 10 && after.count == 0);
}

#include "embed_texts.h"
#include "embed_batches.h"
#include "embed_changes.h"

static uint32_t open_image(const char *nodes, const char *text, size_t *detail, uint32_t *cause) {
    uint32_t status;
    STATUS(status, lrc_embed_open_image(&handle, (const uint8_t *)nodes, strlen(nodes), (const uint8_t *)text,
                                        strlen(text), detail, cause));
    return status;
}

// The image with another text in the place of a part of it.
static const char *with(const char *part, const char *other) {
    static char text[4096];
    const char *at = strstr(image_of_leased, part);
    WANT(at != 0);
    snprintf(text, sizeof text, "%.*s%s%s", (int)(at - image_of_leased), image_of_leased, other, at + strlen(part));
    return text;
}

// A handle is opened with an image: the book has its state, and calls go on from there. Each way to be refused leaves the
// handle as it was.
static void begins(void) {
    size_t detail = 99;
    uint32_t cause = 99, status;
    lrc_lease lease;
    lrc_homes homes;
    WANT(open_image("", image_of_leased, &detail, &cause) == LRC_IS_OPEN && detail == 99);
    WANT(lrc_embed_close(&handle) == LRC_DONE);
    WANT(open_image("", image_of_leased, &detail, &cause) == LRC_NO_NODES && detail == 0);
    STATUS(status, lrc_embed_open_image(&handle, 0, 0, 0, 0, &detail, &cause)); // as any text without bytes
    WANT(status == LRC_NO_NODES && detail == 0);
    WANT(open_image("node = [", "", &detail, &cause) == LRC_SYNTAX && detail == 0);
    WANT(open_image(twenty(), "image 1\nbefore 8\n", &detail, &cause) == LRC_BAD_LINE && detail == 3);
    WANT(open_image(twenty(), "", &detail, &cause) == LRC_BAD_LINE && detail == 1 && cause == 99);
    WANT(open_image(twenty(), with("17:1", "17:0"), &detail, &cause) == LRC_INVALID_IMAGE);
    WANT(detail == 11 && cause == LRC_CAUSE_SEAT_TAKEN);
    WANT(open_image(twenty(), with("upgrading 8", "upgrading 10"), &detail, &cause) == LRC_INVALID_IMAGE);
    WANT(detail == 4 && cause == LRC_CAUSE_UNKNOWN_DOMAIN);
    detail = 99, cause = 99;
    WANT(open_image(twenty(), image_of_leased, &detail, &cause) == LRC_DONE && detail == 99 && cause == 99);
    image(image_of_leased);
    look(&after);
    WANT(after.before == 8 && after.count == 0 && after.clock == 1);
    begins_at(8);
    forecast_of_leases();
    WANT(lrc_embed_lease(&handle, 1, 3, &lease) == LRC_DONE && lease.epoch == 1 && lease.holder == 2 && lease.expiry == 4);
    forget();
    image(image_of_leased);
    WANT(is_refused(MAKE(3, .kind = LRC_REPORT, .stripe = 1, .fragment = 3, .epoch = 1), LRC_NOT_HOLDER, 2));
    WANT(MAKE(2, .kind = LRC_REPORT, .stripe = 1, .fragment = 3, .epoch = 1).kind == LRC_ENDED);
    WANT(lrc_embed_homes(&handle, 1, &homes) == LRC_DONE);
    WANT(homes.homes[3].is_there == 1 && homes.homes[3].seat.node == 17 && homes.homes[3].seat.slot == 1);
    WANT(is_refused(MAKE(1, .kind = LRC_PLACE, .stripe = 2), LRC_STRIPE_EXISTS, 0));
    forget();
    look(&after);
    WANT(after.before == 11 && after.count == 0);
    WANT(open_image(twenty(), image_of_leased, &detail, &cause) == LRC_IS_OPEN && detail == 99 && cause == 99);
}

// Each part of the image that is replaced here makes one line of it wrong.
static const struct {
    const char *part, *other;
    uint32_t status;
    size_t line;
    uint32_t cause;
} changes[] = {
    {"image 1", "image 2", LRC_BAD_LINE, 1, 0},
    {"before 8", "before 08", LRC_BAD_LINE, 2, 0},
    {"before 8", "before 18446744073709551616", LRC_BAD_LINE, 2, 0},
    {"clock 1\n", "", LRC_BAD_LINE, 3, 0},
    {"clock 1", "clock 4294967296", LRC_BAD_LINE, 3, 0},
    {"upgrading 8", "upgrading 256", LRC_BAD_LINE, 4, 0},
    {"node 3 gone", "node 3", LRC_BAD_LINE, 5, 0},
    {"node 5 draining", "node 5 draining ", LRC_BAD_LINE, 6, 0},
    {"stripe 1 0:0", "stripe 1", LRC_BAD_LINE, 8, 0},
    {"stripe 1 0:0", "stripe 1 0:0 3:0", LRC_BAD_LINE, 8, 0},
    {"stripe6 2 15:0", "stripe6 2 15:0 3:0", LRC_BAD_LINE, 9, 0},
    {"stripe6 2", "node 2 down\nstripe6 2", LRC_BAD_LINE, 9, 0},
    {"lease 1 3 2", "lease 1 3 9", LRC_BAD_LINE, 11, 0},
    {"lease 1 3 2", "lease 1 16 2", LRC_BAD_LINE, 11, 0},
    {"lease 1 3 2", "lease 4096 3 2", LRC_BAD_LINE, 11, 0},
    {"end\n", "", LRC_BAD_LINE, 12, 0},
    {"end\n", "end", LRC_BAD_LINE, 12, 0},
    {"end\n", "end\r\n", LRC_BAD_LINE, 12, 0},
    {"end\n", "end\nend\n", LRC_BAD_LINE, 13, 0},
    {"upgrading 8", "upgrading 10", LRC_INVALID_IMAGE, 4, LRC_CAUSE_UNKNOWN_DOMAIN},
    {"before 8\nclock 1\nupgrading 8", "before 9223372036854775809\nclock 1\nupgrading 10", LRC_INVALID_IMAGE, 4,
     LRC_CAUSE_UNKNOWN_DOMAIN},
    {"before 8\nclock 1\n", "before 9223372036854775809\nclock 4293967292\n", LRC_INVALID_IMAGE, 2,
     LRC_CAUSE_TOO_MANY_ENTRIES},
    {"clock 1", "clock 4293967292", LRC_INVALID_IMAGE, 3, LRC_CAUSE_TOO_MANY_TICKS},
    {"node 5 draining", "node 3 draining", LRC_INVALID_IMAGE, 6, LRC_CAUSE_OUT_OF_ORDER},
    {"node 5 draining", "node 2 draining", LRC_INVALID_IMAGE, 6, LRC_CAUSE_OUT_OF_ORDER},
    {"stripe6 2", "stripe6 1", LRC_INVALID_IMAGE, 9, LRC_CAUSE_OUT_OF_ORDER},
    {"lease 1 3", "granted 0 1 0 0 0 0 0 0 0 0 0 0 0 0 0 0 0\nlease 1 3", LRC_INVALID_IMAGE, 11, LRC_CAUSE_OUT_OF_ORDER},
    {"end", "lease 1 3 2 17:2 4\nend", LRC_INVALID_IMAGE, 12, LRC_CAUSE_OUT_OF_ORDER},
    {"granted 1 0 0 0 1", "granted 1 0 0 0 0", LRC_INVALID_IMAGE, 10, LRC_CAUSE_SAYS_NOTHING},
    {"node 7 down", "node 20 down", LRC_INVALID_IMAGE, 7, LRC_CAUSE_UNKNOWN_NODE},
    {"stripe 1 0:0", "stripe 1 20:0", LRC_INVALID_IMAGE, 8, LRC_CAUSE_UNKNOWN_NODE},
    {"node 3 gone", "node 3 gone down", LRC_INVALID_IMAGE, 5, LRC_CAUSE_GONE_AND_DOWN},
    {"upgrading 8\nnode 3 gone", "node 3 gone down", LRC_INVALID_IMAGE, 4, LRC_CAUSE_GONE_AND_DOWN},
    {"lease 1 3 2", "granted 2 0 0 0 0 0 0 0 0 0 0 0 0 1 0 0 0\nlease 2 12 2", LRC_INVALID_IMAGE, 12,
     LRC_CAUSE_UNKNOWN_FRAGMENT},
    {"stripe 1 0:0", "stripe 1 0:4", LRC_INVALID_IMAGE, 8, LRC_CAUSE_UNKNOWN_SLOT},
    {"stripe 1 0:0 1:0 2:0 -", "stripe 1 0:0 1:0 2:0 3:0", LRC_INVALID_IMAGE, 8, LRC_CAUSE_NODE_GONE},
    {"17:1 4", "3:0 4", LRC_INVALID_IMAGE, 11, LRC_CAUSE_NODE_GONE},
    {"stripe 1 0:0 1:0", "stripe 1 0:0 0:0", LRC_INVALID_IMAGE, 8, LRC_CAUSE_SEAT_TAKEN},
    {"stripe6 2 15:0", "stripe6 2 14:0", LRC_INVALID_IMAGE, 9, LRC_CAUSE_SEAT_TAKEN},
    {"stripe 1 0:0 1:0", "stripe 1 0:0 0:1", LRC_INVALID_IMAGE, 8, LRC_CAUSE_NOT_LAWFUL},    // the fault domain
    {"stripe 1 0:0 1:0", "stripe 1 0:0 10:1", LRC_INVALID_IMAGE, 8, LRC_CAUSE_NOT_LAWFUL},   // the upgrade domain
    {"17:1 4", "0:2 4", LRC_INVALID_IMAGE, 11, LRC_CAUSE_NOT_LAWFUL},
    {"granted 1 0 0 0 1", "granted 1 0 0 0 4293967295", LRC_INVALID_IMAGE, 10, LRC_CAUSE_TOO_MANY_GRANTS},
    {"lease 1 3 2", "lease 3 3 2", LRC_INVALID_IMAGE, 11, LRC_CAUSE_UNKNOWN_STRIPE},
    {"lease 1 3 2", "lease 1 4 2", LRC_INVALID_IMAGE, 11, LRC_CAUSE_NEVER_GRANTED},
    {"17:1 4", "17:1 1", LRC_INVALID_IMAGE, 11, LRC_CAUSE_WRONG_EXPIRY},
    {"17:1 4", "17:1 5", LRC_INVALID_IMAGE, 11, LRC_CAUSE_WRONG_EXPIRY},
};

// The status of a closed handle that is opened with an image over the twenty nodes, without a count of its requests.
static uint32_t try_image(const char *text, size_t *detail, uint32_t *cause) {
    const char *nodes = twenty();
    is_looking = true;
    uint32_t status = lrc_embed_open_image(&handle, (const uint8_t *)nodes, strlen(nodes), (const uint8_t *)text,
                                           strlen(text), detail, cause);
    is_looking = false;
    return status;
}

static void refused_images(void) {
    WANT(lrc_embed_close(&handle) == LRC_DONE);
    for (size_t i = 0; i < sizeof changes / sizeof *changes; i++) {
        size_t detail = 99;
        uint32_t cause = 99;
        uint32_t status = try_image(with(changes[i].part, changes[i].other), &detail, &cause);
        uint32_t wanted = changes[i].cause ? changes[i].cause : 99;
        if (status != changes[i].status || detail != changes[i].line || cause != wanted)
            fprintf(stderr, "%s: status %u, line %zu, cause %u\n", changes[i].other, status, detail, cause);
        WANT(status == changes[i].status && detail == changes[i].line && cause == wanted);
        WANT(lrc_embed_count(&handle, &detail) == LRC_IS_CLOSED);
    }
}

// A book begins in an image, whose text it has.
static void begin_in(const char *text) {
    size_t detail = 99;
    uint32_t cause = 99;
    WANT(lrc_embed_close(&handle) == LRC_DONE);
    WANT(try_image(text, &detail, &cause) == LRC_DONE && detail == 99 && cause == 99);
    image(text);
}

// Two stripes that are not recoverable. Of stripe 1 fragments 0, 1, 2 and 6 are missing: 0 while domain 0 upgrades, the others
// while their nodes are down. Those of stripe 2 have no home, and fragment 0 has a lease with its target on node 15.
static const char *image_of_waiting =
    "image 1\nbefore 9\nclock 0\nupgrading 0\nnode 1 down\nnode 2 down\nnode 6 down\n"
    "stripe6 1 0:0 1:0 2:0 3:0 4:0 5:0 6:0 7:0 8:0 9:0\nstripe6 2 - - - 3:1 4:1 5:1 - 7:1 8:1 9:1\n"
    "granted 2 1 0 0 0 0 0 0 0 0 0 0 0 0 0 0 0\nlease 2 0 1 15:0 3\nend\n";

// A stripe that is not recoverable anyway is harmed where a seat of it, a home or a target, is on one of the nodes, be that node online
// or down, or offline by its upgrade.
static void forecasts_of_waiting(void) {
    static const struct {
        uint8_t outage;
        uint16_t nodes[2];
        uint8_t is_harmed[2], leases_ended;
    } asked[] = {
        {LRC_STOP, {0, 0}, {1, 0}, 0},   {LRC_STOP, {1, 10}, {1, 0}, 0},  {LRC_STOP, {15, 2}, {1, 1}, 0},
        {LRC_STOP, {0, 15}, {1, 1}, 0},  {LRC_STOP, {6, 19}, {1, 0}, 0},  {LRC_STOP, {10, 19}, {0, 0}, 0},
        {LRC_STOP, {15, 11}, {0, 1}, 0}, {LRC_LOSE, {0, 0}, {1, 0}, 0},   {LRC_LOSE, {10, 19}, {0, 0}, 0},
        {LRC_LOSE, {6, 10}, {1, 0}, 0},  {LRC_LOSE, {15, 11}, {0, 1}, 1}, {LRC_LOSE, {1, 15}, {1, 1}, 1},
    };
    begin_in(image_of_waiting);
    for (size_t i = 0; i < sizeof asked / sizeof *asked; i++) {
        const lrc_outlook wanted[2] = {
            {.stripe = 1, .missing = 0x0047, .code = LRC_NARROW, .is_harmed = asked[i].is_harmed[0],
             .before = {.kind = LRC_UNAVAILABLE}, .after = {.kind = LRC_UNAVAILABLE}},
            {.stripe = 2, .missing = 0x0047, .code = LRC_NARROW, .is_harmed = asked[i].is_harmed[1],
             .leases_ended = asked[i].leases_ended, .before = {.kind = LRC_LOST}, .after = {.kind = LRC_LOST}},
        };
        lrc_outlook rows[STRIPES];
        size_t count = 99;
        uint8_t is_safe = 99;
        uint32_t status;
        STATUS(status, lrc_embed_forecast(&handle, asked[i].outage, asked[i].nodes, 2, rows, STRIPES, &count, &is_safe));
        WANT(status == LRC_DONE && count == 2 && memcmp(rows, wanted, sizeof wanted) == 0);
        WANT(is_safe == (asked[i].is_harmed[0] == 0 && asked[i].is_harmed[1] == 0));
    }
}

// No image is made, and nothing is forgotten.
static bool is_spent(void) {
    uint8_t text[1];
    size_t needed = 99;
    WANT(lrc_embed_image(&handle, text, sizeof text, &needed) == LRC_FULL && needed == 99);
    look(&before);
    WANT(lrc_embed_forget(&handle) == LRC_FULL);
    return is_as_before();
}

// The largest numbers of an image are taken, and the book that has gone further makes none.
static void largest_numbers(void) {
    begin_in("image 1\nbefore 0\nclock 0\nend\n");
    begin_in("image 1\nbefore 9223372036854775808\nclock 4293967291\nend\n");
    WANT(MAKE(1, .kind = LRC_TICK).clock == 4293967292 && is_spent());
    begin_in("image 1\nbefore 9223372036854775808\nclock 0\nend\n");
    WANT(MAKE(1, .kind = LRC_UP, .node = 1).kind == LRC_REFUSED && is_spent());
    begin_in("image 1\nbefore 0\nclock 0\nstripe6 2 15:0 17:0 18:0 19:0 0:1 1:1 2:1 - 4:1 5:1\n"
             "granted 2 0 0 0 0 0 0 0 4293967294 0 0 0 0 0 0 0 0\nend\n");
    WANT(MAKE(1, .kind = LRC_LEASE, .stripe = 2, .fragment = 7).lease.epoch == 4293967295 && is_spent());
}

static void fill(void) {
    lrc_command command = {.kind = LRC_UP, .node = 1};
    lrc_reply reply = {0};
    lrc_entry entry = {.session = 1, .command = command};
    size_t position = 99;
    WANT(lrc_embed_close(&handle) == LRC_DONE);
    open_twenty();
    for (size_t i = 0; i < LRC_HISTORY_LIMIT - 1; i++)
        WANT(lrc_embed_call(&handle, 1, &command, &reply) == LRC_DONE);
    reply.kind = 99;
    WANT(lrc_embed_peek(&handle, 1, &command, &reply) == LRC_DONE && is_refused(reply, LRC_WRONG_MODE, 0));
    WANT(count_of() == LRC_HISTORY_LIMIT - 1);
    WANT(lrc_embed_call(&handle, 1, &command, &reply) == LRC_DONE);
    WANT(is_refused(reply, LRC_WRONG_MODE, 0) && count_of() == LRC_HISTORY_LIMIT);
    reply.kind = 99;
    WANT(lrc_embed_call(&handle, 1, &command, &reply) == LRC_FULL && reply.kind == 99);
    WANT(lrc_embed_peek(&handle, 1, &command, &reply) == LRC_FULL && reply.kind == 99);
    WANT(lrc_embed_calls(&handle, &entry, 1, &position) == LRC_FULL && position == 0 && entry.reply.kind == 0);
    WANT(lrc_embed_call_changes(&handle, 1, &command, &entry, 0, 0, &position) == LRC_FULL && position == 0 && entry.reply.kind == 0);
    WANT(count_of() == LRC_HISTORY_LIMIT);
    const lrc_command tick = {.kind = LRC_TICK};
    uint32_t clock = 99;
    WANT(lrc_embed_call(&handle, 1, &tick, &reply) == LRC_FULL && reply.kind == 99);
    WANT(lrc_embed_peek(&handle, 1, &tick, &reply) == LRC_FULL && reply.kind == 99);
    WANT(lrc_embed_clock(&handle, &clock) == LRC_DONE && clock == 0);
    uint64_t forgotten = 99;
    WANT(lrc_embed_forget(&handle) == LRC_DONE && count_of() == 0);
    WANT(lrc_embed_before(&handle, &forgotten) == LRC_DONE && forgotten == LRC_HISTORY_LIMIT);
    for (size_t i = 0; i < LRC_HISTORY_LIMIT - 2; i++)
        WANT(lrc_embed_call(&handle, 1, &command, &reply) == LRC_DONE);
    lrc_entry last[3] = {entry, entry, entry}; // (the third has no room)
    make_some(last, 3, 2, LRC_FULL);
    WANT(lrc_embed_call(&handle, 1, &command, &reply) == LRC_FULL && count_of() == LRC_HISTORY_LIMIT);
    WANT(lrc_embed_replay(&handle, &entry, 1, &position) == LRC_FULL && position == 0);
    WANT(lrc_embed_count(&handle, &position) == LRC_IS_CLOSED);
}

static unsigned long asked(const char *name) {
    const char *text = getenv(name);
    return text ? strtoul(text, 0, 10) : 0;
}

int main(int argc, char **argv) {
    const char *word = argc > 1 ? argv[1] : "";
    bool is_full = strcmp(word, "full") == 0;
    refuse = asked("REFUSE"), refuse_from = asked("REFUSE_FROM"), refuse_each = asked("REFUSE_EACH");
    if (refuse_each == 0) refuse_each = 1;
    if (strcmp(word, "alone") == 0) set_in_copy = &refuse;
    if (strcmp(word, "onward") == 0) set_in_copy = &refuse_from;
    WANT(lrc_embed_version() == LRC_EMBED_VERSION && lrc_embed_rules_version() == LRC_RULES_VERSION);
    texts();
    closed();
    texts_of_closed();
    batches_of_closed();
    changes_of_closed();
    open_twenty();
    WANT(lrc_embed_open(&handle, (const uint8_t *)"", 0, &(size_t){0}) == LRC_IS_OPEN);
    ranges();
    WANT(MAKE(1, .kind = LRC_PLACE, .stripe = 1).seats[12].node == 16);
    WANT(is_refused(MAKE(1, .kind = LRC_PLACE, .stripe = 1), LRC_STRIPE_EXISTS, 0));
    leases();
    nodes();
    ticks();
    upgrades();
    looks();
    walks();
    forecasts();
    call_at_place();
    names();
    more_names();
    lines();
    forms();
    recipes();
    code_stripes(LRC_WIDE, 12);
    code_stripes(LRC_NARROW, 6);
    WANT(MAKE(1, .kind = LRC_DROP, .stripe = 2).kind == LRC_DROPPED);
    narrow();
    replays();
    forgets();
    texts_of_book();
    batches();
    calls_with_changes();
    begins();
    if (is_full || strcmp(word, "images") == 0) { // once, and not for each request that is refused
        refused_images();
        forecasts_of_waiting();
        largest_numbers();
    }
    if (is_full) fill();
    WANT(lrc_embed_close(&handle) == LRC_DONE);
    closed();
    WANT(held == 0);
    if (!is_copy) printf("%lu\n", requests);
    return wrong_copies != 0;
}
