// The calls of liblrc_embed: a proved book of erasure-coded stripes, for a program that keeps its own lock and its own log.
//
// A handle owns one book. lrc_embed_open makes a book from a list of nodes, and lrc_embed_open_image from a list of nodes and
// a saved state. lrc_embed_call makes one command of one session and returns its reply; lrc_embed_peek returns that reply and
// changes nothing. The looks read the book, and lrc_embed_close frees it. docs/RULES.md says what each command does, and
// docs/EMBEDDING.md how a store uses this.
//
// Every function but lrc_embed_version and lrc_embed_rules_version returns a status. It writes its results only if the
// status is LRC_DONE. lrc_embed_open, lrc_embed_open_image and lrc_embed_replay also write where they stopped, and the
// functions that return LRC_SHORT write how much room they need, and those of a forecast `is_safe` then too, as their comments
// say. lrc_embed_calls writes which calls it made, and lrc_embed_read_command the cause of a bad line. Nothing else is written.
//
// What the caller owes, since nothing checks C:
// - The library is that of this header. Compare lrc_embed_version() with LRC_EMBED_VERSION before any other call.
// - A handle begins as LRC_CLOSED. After that only these functions write it. Do not copy an open handle, since two copies
//   would own one book. It may be moved as a whole.
// - One call at a time on one handle, looks included. A lock, or a thread's start or join, orders the calls of several
//   threads. Two handles share nothing.
// - No pointer is null, except that of a text, of bytes, of entries, of nodes or of rows if its length is 0; this is tested, not
//   proved.
//   Each other pointer is aligned and points to initialized memory of the whole struct, also for results. What a call writes
//   overlaps nothing else that it is given. What it reads does not change while it runs.
// - malloc, realloc and free belong to one allocator, which aligns a block to every power of two up to 16 that divides its
//   size.
// - No call from a signal handler, or from the forked child of a process with threads.
// - Stack for the call. How much is not promised; docs/EMBEDDING.md has measurements.
// Any numbers may be passed: those out of range, short buffers and closed handles have a status of their own.
#ifndef LRC_EMBED_H
#define LRC_EMBED_H

#include <stdbool.h>
#include <stddef.h>
#include <stdint.h>

#ifdef __cplusplus
extern "C" {
#endif

// The version of the interface, which rises with every change of what this header declares: with each function, struct, field
// and number that is new or means something else. lrc_embed_version() returns that of the library. Compare them at the start,
// and go on only if they are the same. An lrc_entry has one layout in all versions, so that saved ones stay readable.
#define LRC_EMBED_VERSION 8

// The version of the rules: of what each command returns and changes. lrc_embed_rules_version() returns that of the library.
// A log replays alike in all libraries of one version of the rules. In those of another one a reply may differ, and an image
// may be refused or be of another state. So keep this number with each log and each image, and refuse another one.
#define LRC_RULES_VERSION 1

// The number of stripe numbers, which are 0 to 4095. No table of stripes has more rows.
#define LRC_STRIPES 4096
// The number of fragment numbers, which are 0 to 15. A wide stripe has all of them: 0 to 5 and 12 are group A, 6 to 11 and
// 13 are group B, 14 and 15 are global.
#define LRC_FRAGMENTS 16
// A narrow stripe has fragments 0 to 9: 0 to 2 and 6 are group A, 3 to 5 and 7 are group B, 8 and 9 are global. Fragments
// 10 to 15 of it have no home, are not missing, and need no lease.
#define LRC_NARROW_FRAGMENTS 10
// The number of sessions, which are 1 to 8. A session is whoever holds leases.
#define LRC_SESSIONS 8
// The most nodes of a text, and the most slots of a node.
#define LRC_NODES 512
#define LRC_SLOTS 256
// The most entries of a history.
#define LRC_HISTORY_LIMIT 1000000
// The most calls of a published book, until it is published again.
#define LRC_FEED_LIMIT 1048576
// The bytes of the longest image, with each line at its longest, and as many as there can be. No image has more.
#define LRC_IMAGE_MOST 3855418

enum lrc_status {
    LRC_DONE = 0,
    LRC_IS_CLOSED = 1,     // the handle is closed
    LRC_IS_OPEN = 2,       // the handle to be opened is open
    LRC_OUT_OF_RANGE = 3,  // a session, a kind of command, a stripe, a fragment, a code or an outage is out of its range
    LRC_UNKNOWN = 4,       // there is no such stripe, lease, node, entry or name, or nothing of what is asked for
    LRC_FULL = 5,          // the history has LRC_HISTORY_LIMIT entries, or a feed LRC_FEED_LIMIT calls; of lrc_embed_forget and
                           // lrc_embed_image: a number is at its end
    LRC_OUT_OF_MEMORY = 6, // memory was refused, and the history is as it was: the call may be repeated (but a replay
                           // has closed the handle)
    LRC_SHORT = 7,         // the buffer has no room for all rows, or for the whole text
    LRC_DIFFERENT = 8,     // lrc_embed_replay: a call has another reply than its entry; of lrc_embed_view: other nodes
    LRC_MOVED = 9,         // lrc_embed_call_at: the store has made more or fewer entries than expected; of a published book or a
                           // viewer: its book has made calls on its own
    LRC_FORGOTTEN = 10,    // lrc_embed_entries: the place is before the history, so what stands there is forgotten
    LRC_UNDETERMINED = 11, // a recipe: what is not missing does not determine the fragment
    LRC_MISCOUNTED = 12,   // lrc_embed_encode, lrc_embed_rebuild: the buffers are not as many as the code's fragments
    LRC_UNEVEN = 13,       // the same: the buffers are not all of one length

    // lrc_embed_open and lrc_embed_open_image: why the text is not a list of nodes
    LRC_SYNTAX = 16,            // not TOML 1.1 in UTF-8
    LRC_NO_NODES = 17,          // `node` is absent, not an array, or empty
    LRC_BAD_FIELD = 18,         // an entry of `node` lacks a whole number at one of its four keys; detail: its position
    LRC_NODE_OUT_OF_RANGE = 19, // an entry has a number out of its range; detail: its position, from 0
    LRC_DOUBLE_NODE = 20,       // two entries have the same number; detail: this number
    LRC_TOO_MANY = 21,          // more than 512 nodes

    // lrc_embed_open_image: why no book begins in the image; detail: the number of a line of its text, from 1
    LRC_BAD_LINE = 22,      // the first line that may not come where it stands, or is missing; of lrc_embed_read_command: the
                            // line is no command's; cause: an lrc_line_cause
    LRC_INVALID_IMAGE = 23, // the first line that the nodes or the lines before it do not allow; cause: an lrc_cause
};

// Why the nodes or the lines before it do not allow a line of an image. docs/FORMATS.md has the order in which they are
// asked.
enum lrc_cause {
    LRC_CAUSE_UNKNOWN_DOMAIN = 1,   // `upgrading`: no node is in this domain
    LRC_CAUSE_TOO_MANY_ENTRIES = 2, // `before`: more than 9,223,372,036,854,775,808
    LRC_CAUSE_TOO_MANY_TICKS = 3,   // `clock`: more than 4,293,967,291
    LRC_CAUSE_OUT_OF_ORDER = 4,     // a line of its section with this number, or a higher one, stands before it
    LRC_CAUSE_SAYS_NOTHING = 5,     // `granted`: all counts are 0
    LRC_CAUSE_UNKNOWN_NODE = 6,     // there is no such node
    LRC_CAUSE_GONE_AND_DOWN = 7,    // `node`: a node that is gone is not down
    LRC_CAUSE_UNKNOWN_FRAGMENT = 8, // `lease`: a narrow stripe lacks the fragment
    LRC_CAUSE_UNKNOWN_SLOT = 9,     // the node has no such slot
    LRC_CAUSE_NODE_GONE = 10,       // the seat is on a node that is gone
    LRC_CAUSE_SEAT_TAKEN = 11,      // the seat is held already
    LRC_CAUSE_NOT_LAWFUL = 12,      // another fragment of the stripe rules out the node, by the placement rules
    LRC_CAUSE_TOO_MANY_GRANTS = 13, // `granted`: a count is more than 4,293,967,294
    LRC_CAUSE_UNKNOWN_STRIPE = 14,  // `lease`: the image has no such stripe
    LRC_CAUSE_NEVER_GRANTED = 15,   // `lease`: the count of its fragment is 0
    LRC_CAUSE_WRONG_EXPIRY = 16,    // `lease`: the expiry is not one of the three numbers after the clock
};

// Why a line of a script is bad. docs/FORMATS.md has the order in which they are asked.
enum lrc_line_cause {
    LRC_LINE_UNKNOWN_WORD = 1, // the first word is not that of a command
    LRC_LINE_WORD_COUNT = 2,   // the command takes another number of words
    LRC_LINE_NOT_A_NUMBER = 3, // an argument is not a number
    LRC_LINE_OUT_OF_RANGE = 4, // an argument is a number that is out of its range
    LRC_LINE_TOO_LONG = 5,     // the line has more than 1,024 bytes
};

// A handle. All zeros is a closed one. Do not read its fields.
typedef struct {
    bool is_open;
    void *at;
} lrc_handle;

#ifdef __cplusplus
#define LRC_CLOSED (lrc_handle{})
#else
#define LRC_CLOSED ((lrc_handle){0})
#endif

// A published book and a viewer of it: a book, and an end of the feed between them. All zeros is a closed one. A program may pass
// `book` to looks, walks, peeks, forecasts and texts, and to lrc_embed_forget and lrc_embed_image; to no other call, but that a
// call made on it by mistake is told later, by LRC_MOVED. It reads no field of `feed`.
typedef struct {
    bool is_open;
    void *at;
} lrc_feed;

typedef struct {
    lrc_handle book;
    lrc_feed feed;
} lrc_published;

typedef struct {
    lrc_handle book;
    lrc_feed feed;
} lrc_viewer;

#ifdef __cplusplus
#define LRC_NOT_PUBLISHED (lrc_published{})
#define LRC_NO_VIEWER (lrc_viewer{})
#else
#define LRC_NOT_PUBLISHED ((lrc_published){{0}, {0}})
#define LRC_NO_VIEWER ((lrc_viewer){{0}, {0}})
#endif

// After each kind: the fields of lrc_command that it uses. The others may be anything, and are 0 in the entry of the history.
enum lrc_command_kind {
    LRC_PLACE = 1,     // stripe: give each fragment of a new wide stripe a home
    LRC_DROP = 2,      // stripe: remove a stripe, with its homes and leases
    LRC_LEASE = 3,     // stripe, fragment: ask for the lease of a fragment
    LRC_NEXT = 4,      // nothing: ask for the lease of the most urgent fragment
    LRC_REPORT = 5,    // stripe, fragment, epoch: the fragment is on the target of this session's lease (`done`)
    LRC_ABANDON = 6,   // stripe, fragment, epoch: give this session's lease back
    LRC_REVOKE = 7,    // stripe, fragment: end the lease, whoever holds it
    LRC_FAIL = 8,      // node: it is lost, with all that is on it
    LRC_DOWN = 9,      // node: it cannot be reached for now
    LRC_UP = 10,       // node: it can be reached again
    LRC_DRAIN = 11,    // node: it takes no further seats
    LRC_UNDRAIN = 12,  // node: it takes seats again
    LRC_RETIRE = 13,   // node: remove a draining node that holds nothing
    LRC_JOIN = 14,     // node: add a node that is gone again, empty
    LRC_UPGRADE = 15,  // domain: take all nodes of an upgrade domain offline
    LRC_UPGRADED = 16, // domain: its nodes can be reached again, except those that are down
    LRC_TICK = 17,     // nothing: advance the clock by one, and end each lease for which this is the third tick
    LRC_PLACE6 = 18,   // stripe: give each fragment of a new narrow stripe a home
};

// The numbers that commands have.
enum lrc_field {
    LRC_FIELD_STRIPE = 1,
    LRC_FIELD_FRAGMENT = 2,
    LRC_FIELD_EPOCH = 3,
    LRC_FIELD_NODE = 4,
    LRC_FIELD_DOMAIN = 5,
};

typedef struct {
    uint8_t kind;     // an lrc_command_kind
    uint8_t fragment; // 0 to 15
    uint8_t domain;   // 0 to 255
    uint8_t reserved[5];
    uint32_t epoch;
    uint16_t stripe; // 0 to 4095
    uint16_t node;   // 0 to 65535
} lrc_command;

// A slot of a node, counted from 0.
typedef struct {
    uint16_t node, slot;
} lrc_seat;

// A session's permission to move or rebuild a fragment.
typedef struct {
    uint16_t stripe;
    uint8_t fragment;
    uint8_t holder;  // the session that has it
    lrc_seat target; // the seat that the fragment gets
    uint32_t epoch;  // how often this fragment of this stripe number was leased, this time included
    uint32_t expiry; // from lrc_embed_lease: the clock at which the lease ends at the latest, that of its grant plus three.
                     // In a reply: 0, so that entries of a library without a clock replay as they are
} lrc_lease;

enum lrc_reply_kind {
    LRC_PLACED = 1,  // seats: the homes of fragments 0 to 15 of a wide stripe
    LRC_DROPPED = 2,
    LRC_GRANTED = 3, // lease, repair, sources
    LRC_IDLE = 4,    // no fragment can be leased
    LRC_ENDED = 5,   // the lease has ended
    LRC_CHANGED = 6, // the node or the upgrade domain was changed
    LRC_REFUSED = 7, // refusal, detail: only the history has changed
    LRC_TICKED = 8,  // clock, ended
    LRC_PLACED6 = 9, // seats: the homes of fragments 0 to 9 of a narrow stripe, and 0 in the last six
};

// What a leased fragment is rebuilt from.
enum lrc_repair {
    LRC_LOCAL = 1,  // sources: the six other fragments of its group in a wide stripe, in rising order
    LRC_GLOBAL = 2, // the whole stripe
    LRC_MOVE = 3,   // its own home, which is online
    LRC_LOCAL3 = 4, // sources: the three other fragments of its group in a narrow stripe, in rising order, and then 0
};

// After a refusal: what `detail` is; else it is 0.
enum lrc_refusal {
    LRC_UNKNOWN_STRIPE = 101,
    LRC_STRIPE_EXISTS = 102,
    LRC_NO_LAWFUL_NODE = 103, // the fragment for which there is no seat
    LRC_UNKNOWN_NODE = 104,
    LRC_WRONG_MODE = 105,
    LRC_UNKNOWN_DOMAIN = 106,
    LRC_UPGRADE_RUNNING = 107, // the domain that is upgrading
    LRC_NOT_UPGRADING = 108,
    LRC_WOULD_LOSE = 109,     // the first stripe that would be unrecoverable
    LRC_ALREADY_LEASED = 110, // the epoch of the live lease
    LRC_NOT_NEEDED = 111,
    LRC_UNRECOVERABLE = 112,
    LRC_STALE = 113,
    LRC_NOT_HOLDER = 114,     // the session that holds the lease
    LRC_TARGET_OFFLINE = 115, // the target's node
    LRC_NO_LEASE = 116,
    LRC_NOT_EMPTY = 117, // the number of seats on the node
};

// How a fragment is rebuilt.
typedef struct {
    uint8_t repair;     // an lrc_repair
    uint8_t sources[6]; // the fragments that it reads, in rising order, and then 0
    uint8_t reserved;
} lrc_repair_plan;

// What the kind does not use is 0.
typedef struct {
    uint8_t kind;    // an lrc_reply_kind
    uint8_t refusal; // an lrc_refusal
    uint8_t repair;  // an lrc_repair
    uint8_t sources[6];
    uint8_t reserved[3];
    uint32_t detail;
    uint32_t clock; // the number of ticks, this one included
    uint32_t ended; // the number of leases that it ended
    uint32_t reserved_number;
    lrc_lease lease;
    lrc_seat seats[LRC_FRAGMENTS];
} lrc_reply;

// A command of a session, and its reply: what a store's log saves of each call. lrc_embed_entry returns it with 0 in all
// reserved fields and in all fields that the kinds of the command and of the reply do not use, so that two books with the
// same calls have the same bytes.
typedef struct {
    uint8_t session; // 1 to 8
    uint8_t reserved[3];
    lrc_command command;
    lrc_reply reply;
} lrc_entry;

// The home of a fragment; all is 0 where it has none, and where the stripe has no such fragment.
typedef struct {
    lrc_seat seat;
    uint8_t is_there; // 0 or 1
    uint8_t reserved[3];
} lrc_home;

typedef struct {
    lrc_home homes[LRC_FRAGMENTS];
} lrc_homes;

// The code of a stripe: which fragments it has, and from which of them a lost one is rebuilt.
enum lrc_code {
    LRC_WIDE = 1,   // LRC(12,2,2), of sixteen fragments
    LRC_NARROW = 2, // LRC(6,2,2), of ten
};

enum lrc_level_kind {
    LRC_WHOLE = 1,       // no fragment is missing
    LRC_AT_RISK = 2,     // margin: how many further losses the stripe survives, 0 to 2, whichever they are
    LRC_UNAVAILABLE = 3, // not recoverable while nodes are offline
    LRC_LOST = 4,        // not recoverable
};

typedef struct {
    uint8_t kind; // an lrc_level_kind
    uint8_t margin;
    uint8_t reserved[2];
} lrc_level;

typedef struct {
    uint16_t stripe;
    uint8_t reserved[2];
    lrc_level level;
} lrc_risk;

// A stripe with its missing fragments, of which fragment f is bit f.
typedef struct {
    uint16_t stripe;
    uint16_t missing;
    uint8_t code; // an lrc_code
    uint8_t reserved[3];
    lrc_level level;
} lrc_stripe;

// A fragment of a stripe.
typedef struct {
    uint16_t stripe;
    uint8_t fragment;
    uint8_t reserved;
} lrc_fragment;

enum lrc_mode_kind { LRC_ACTIVE = 1, LRC_DRAINING = 2, LRC_GONE = 3 };

typedef struct {
    uint8_t mode;      // an lrc_mode_kind
    uint8_t is_online; // 0 or 1
    uint8_t reserved[2];
} lrc_mode;

typedef struct {
    uint16_t number;
    uint16_t slots;  // as the text has them, and so both domains
    uint32_t load;   // the number of homes and of targets of leases on it
    uint8_t fault;
    uint8_t upgrade;
    uint8_t mode;      // an lrc_mode_kind
    uint8_t is_online; // 0 or 1
    uint8_t is_down;   // 0 or 1
    uint8_t reserved[3];
} lrc_node;

// The tables of a book, which `lrcman show` prints. docs/FORMATS.md has their columns.
enum lrc_view {
    LRC_SHOW_STATUS = 1,          // a summary in names and values
    LRC_SHOW_STRIPES = 2,         // each stripe with its level, its missing fragments and its homes
    LRC_SHOW_NODES = 3,           // each node with its domains, its mode and its seats
    LRC_SHOW_LEASES = 4,          // each live lease
    LRC_SHOW_WORK = 5,            // each fragment that needs a lease, in the order of repair
    LRC_SHOW_FRAGMENTS = 6,       // each fragment of each stripe, with its home and its live lease
    LRC_SHOW_DOMAINS_FAULT = 7,   // each fault domain, with the levels after its loss
    LRC_SHOW_DOMAINS_UPGRADE = 8, // each upgrade domain, with the levels after its stop
    LRC_SHOW_HEALTH = 9,          // each reason why not all is well
    LRC_SHOW_CAPACITY = 10,       // how many more stripes of each code would be placed, and why no more
};

// What happens to nodes.
enum lrc_outage {
    LRC_STOP = 1, // they go offline, with what is on them, as by LRC_DOWN
    LRC_LOSE = 2, // they are lost, with all that is on them, as by LRC_FAIL
};

// What becomes of a stripe.
typedef struct {
    uint16_t stripe;
    uint16_t missing;       // the fragments that are missing then; fragment f is bit f
    uint16_t newly_missing; // those of them that are not missing now
    uint8_t code;           // an lrc_code
    uint8_t is_harmed;      // 0 or 1: it is unavailable or lost then; and it is neither now, or a home of it, or the target of a
                            // live lease, is on one of the nodes
    uint8_t leases_ended;   // how many leases of it end by the outage
    uint8_t reserved[3];
    lrc_level before; // its level now
    lrc_level after;  // its level then
} lrc_outlook;

// How a fragment of a stripe is rebuilt: at each position of its bytes it is the sum of the stripe's fragments, each times its
// coefficient. docs/RULES.md has the field: it is that of ISA-L. A coefficient is 0 where the fragment is not read. A fragment
// that is not missing is copied: its own coefficient is 1, and the others are 0.
typedef struct {
    uint8_t code;     // an lrc_code
    uint8_t fragment; // the one that is rebuilt
    uint8_t reserved[6];
    uint8_t coefficients[LRC_FRAGMENTS]; // by fragment; 0 where the stripe has no such fragment
} lrc_recipe;

// A fragment whose home or lease is another one after a call: both before the call, and after it. Where it had or has no lease,
// all of the lease is 0.
typedef struct {
    uint16_t stripe;
    uint8_t fragment;
    uint8_t was_leased; // 0 or 1: it had a live lease, which is lease_before
    uint8_t is_leased;  // 0 or 1: it has one, which is lease_after
    uint8_t reserved[3];
    lrc_home home_before;
    lrc_home home_after;
    lrc_lease lease_before; // with its expiry, as of lrc_embed_lease
    lrc_lease lease_after;
} lrc_change;

// Bytes that are read, and bytes that are written. The pointer may be null if the length is 0.
typedef struct {
    const uint8_t *at;
    size_t length;
} lrc_bytes;

typedef struct {
    uint8_t *at;
    size_t length;
} lrc_buffer;

// The layout that the library has of each struct: its size and alignment, and the place of each field. A compiler that has
// another one, or has it by a `#pragma pack` around this header, is refused here. Before C11 and C++11 nothing is checked.
#if defined(__cplusplus) && __cplusplus >= 201103L
#define LRC_EMBED_STRUCT(type, size, alignment)                                                                             \
    static_assert(sizeof(type) == size && alignof(type) == alignment, "the library has another layout of " #type);
#define LRC_EMBED_FIELD(type, field, place)                                                                                 \
    static_assert(offsetof(type, field) == place, "the library has another place of " #type "." #field);
#elif !defined(__cplusplus) && defined(__STDC_VERSION__) && __STDC_VERSION__ >= 201112L
#define LRC_EMBED_STRUCT(type, size, alignment)                                                                             \
    _Static_assert(sizeof(type) == size && _Alignof(type) == alignment, "the library has another layout of " #type);
#define LRC_EMBED_FIELD(type, field, place)                                                                                 \
    _Static_assert(offsetof(type, field) == place, "the library has another place of " #type "." #field);
#else
#define LRC_EMBED_STRUCT(type, size, alignment)
#define LRC_EMBED_FIELD(type, field, place)
#endif
LRC_EMBED_STRUCT(lrc_handle, 16, 8)
LRC_EMBED_FIELD(lrc_handle, is_open, 0)
LRC_EMBED_FIELD(lrc_handle, at, 8)
LRC_EMBED_STRUCT(lrc_command, 16, 4)
LRC_EMBED_FIELD(lrc_command, kind, 0)
LRC_EMBED_FIELD(lrc_command, fragment, 1)
LRC_EMBED_FIELD(lrc_command, domain, 2)
LRC_EMBED_FIELD(lrc_command, reserved, 3)
LRC_EMBED_FIELD(lrc_command, epoch, 8)
LRC_EMBED_FIELD(lrc_command, stripe, 12)
LRC_EMBED_FIELD(lrc_command, node, 14)
LRC_EMBED_STRUCT(lrc_seat, 4, 2)
LRC_EMBED_FIELD(lrc_seat, node, 0)
LRC_EMBED_FIELD(lrc_seat, slot, 2)
LRC_EMBED_STRUCT(lrc_lease, 16, 4)
LRC_EMBED_FIELD(lrc_lease, stripe, 0)
LRC_EMBED_FIELD(lrc_lease, fragment, 2)
LRC_EMBED_FIELD(lrc_lease, holder, 3)
LRC_EMBED_FIELD(lrc_lease, target, 4)
LRC_EMBED_FIELD(lrc_lease, epoch, 8)
LRC_EMBED_FIELD(lrc_lease, expiry, 12)
LRC_EMBED_STRUCT(lrc_repair_plan, 8, 1)
LRC_EMBED_FIELD(lrc_repair_plan, repair, 0)
LRC_EMBED_FIELD(lrc_repair_plan, sources, 1)
LRC_EMBED_FIELD(lrc_repair_plan, reserved, 7)
LRC_EMBED_STRUCT(lrc_reply, 108, 4)
LRC_EMBED_FIELD(lrc_reply, kind, 0)
LRC_EMBED_FIELD(lrc_reply, refusal, 1)
LRC_EMBED_FIELD(lrc_reply, repair, 2)
LRC_EMBED_FIELD(lrc_reply, sources, 3)
LRC_EMBED_FIELD(lrc_reply, reserved, 9)
LRC_EMBED_FIELD(lrc_reply, detail, 12)
LRC_EMBED_FIELD(lrc_reply, clock, 16)
LRC_EMBED_FIELD(lrc_reply, ended, 20)
LRC_EMBED_FIELD(lrc_reply, reserved_number, 24)
LRC_EMBED_FIELD(lrc_reply, lease, 28)
LRC_EMBED_FIELD(lrc_reply, seats, 44)
LRC_EMBED_STRUCT(lrc_entry, 128, 4)
LRC_EMBED_FIELD(lrc_entry, session, 0)
LRC_EMBED_FIELD(lrc_entry, reserved, 1)
LRC_EMBED_FIELD(lrc_entry, command, 4)
LRC_EMBED_FIELD(lrc_entry, reply, 20)
LRC_EMBED_STRUCT(lrc_home, 8, 2)
LRC_EMBED_FIELD(lrc_home, seat, 0)
LRC_EMBED_FIELD(lrc_home, is_there, 4)
LRC_EMBED_FIELD(lrc_home, reserved, 5)
LRC_EMBED_STRUCT(lrc_homes, 128, 2)
LRC_EMBED_FIELD(lrc_homes, homes, 0)
LRC_EMBED_STRUCT(lrc_level, 4, 1)
LRC_EMBED_FIELD(lrc_level, kind, 0)
LRC_EMBED_FIELD(lrc_level, margin, 1)
LRC_EMBED_FIELD(lrc_level, reserved, 2)
LRC_EMBED_STRUCT(lrc_risk, 8, 2)
LRC_EMBED_FIELD(lrc_risk, stripe, 0)
LRC_EMBED_FIELD(lrc_risk, reserved, 2)
LRC_EMBED_FIELD(lrc_risk, level, 4)
LRC_EMBED_STRUCT(lrc_stripe, 12, 2)
LRC_EMBED_FIELD(lrc_stripe, stripe, 0)
LRC_EMBED_FIELD(lrc_stripe, missing, 2)
LRC_EMBED_FIELD(lrc_stripe, code, 4)
LRC_EMBED_FIELD(lrc_stripe, reserved, 5)
LRC_EMBED_FIELD(lrc_stripe, level, 8)
LRC_EMBED_STRUCT(lrc_fragment, 4, 2)
LRC_EMBED_FIELD(lrc_fragment, stripe, 0)
LRC_EMBED_FIELD(lrc_fragment, fragment, 2)
LRC_EMBED_FIELD(lrc_fragment, reserved, 3)
LRC_EMBED_STRUCT(lrc_mode, 4, 1)
LRC_EMBED_FIELD(lrc_mode, mode, 0)
LRC_EMBED_FIELD(lrc_mode, is_online, 1)
LRC_EMBED_FIELD(lrc_mode, reserved, 2)
LRC_EMBED_STRUCT(lrc_node, 16, 4)
LRC_EMBED_FIELD(lrc_node, number, 0)
LRC_EMBED_FIELD(lrc_node, slots, 2)
LRC_EMBED_FIELD(lrc_node, load, 4)
LRC_EMBED_FIELD(lrc_node, fault, 8)
LRC_EMBED_FIELD(lrc_node, upgrade, 9)
LRC_EMBED_FIELD(lrc_node, mode, 10)
LRC_EMBED_FIELD(lrc_node, is_online, 11)
LRC_EMBED_FIELD(lrc_node, is_down, 12)
LRC_EMBED_FIELD(lrc_node, reserved, 13)
LRC_EMBED_STRUCT(lrc_outlook, 20, 2)
LRC_EMBED_FIELD(lrc_outlook, stripe, 0)
LRC_EMBED_FIELD(lrc_outlook, missing, 2)
LRC_EMBED_FIELD(lrc_outlook, newly_missing, 4)
LRC_EMBED_FIELD(lrc_outlook, code, 6)
LRC_EMBED_FIELD(lrc_outlook, is_harmed, 7)
LRC_EMBED_FIELD(lrc_outlook, leases_ended, 8)
LRC_EMBED_FIELD(lrc_outlook, reserved, 9)
LRC_EMBED_FIELD(lrc_outlook, before, 12)
LRC_EMBED_FIELD(lrc_outlook, after, 16)
LRC_EMBED_STRUCT(lrc_recipe, 24, 1)
LRC_EMBED_FIELD(lrc_recipe, code, 0)
LRC_EMBED_FIELD(lrc_recipe, fragment, 1)
LRC_EMBED_FIELD(lrc_recipe, reserved, 2)
LRC_EMBED_FIELD(lrc_recipe, coefficients, 8)
LRC_EMBED_STRUCT(lrc_change, 56, 4)
LRC_EMBED_FIELD(lrc_change, stripe, 0)
LRC_EMBED_FIELD(lrc_change, fragment, 2)
LRC_EMBED_FIELD(lrc_change, was_leased, 3)
LRC_EMBED_FIELD(lrc_change, is_leased, 4)
LRC_EMBED_FIELD(lrc_change, reserved, 5)
LRC_EMBED_FIELD(lrc_change, home_before, 8)
LRC_EMBED_FIELD(lrc_change, home_after, 16)
LRC_EMBED_FIELD(lrc_change, lease_before, 24)
LRC_EMBED_FIELD(lrc_change, lease_after, 40)
LRC_EMBED_STRUCT(lrc_bytes, 16, 8)
LRC_EMBED_FIELD(lrc_bytes, at, 0)
LRC_EMBED_FIELD(lrc_bytes, length, 8)
LRC_EMBED_STRUCT(lrc_feed, 16, 8)
LRC_EMBED_FIELD(lrc_feed, is_open, 0)
LRC_EMBED_FIELD(lrc_feed, at, 8)
LRC_EMBED_STRUCT(lrc_published, 32, 8)
LRC_EMBED_FIELD(lrc_published, book, 0)
LRC_EMBED_FIELD(lrc_published, feed, 16)
LRC_EMBED_STRUCT(lrc_viewer, 32, 8)
LRC_EMBED_FIELD(lrc_viewer, book, 0)
LRC_EMBED_FIELD(lrc_viewer, feed, 16)
LRC_EMBED_STRUCT(lrc_buffer, 16, 8)
LRC_EMBED_FIELD(lrc_buffer, at, 0)
LRC_EMBED_FIELD(lrc_buffer, length, 8)
#undef LRC_EMBED_STRUCT
#undef LRC_EMBED_FIELD

// The version of the library's interface, and that of its rules.
uint32_t lrc_embed_version(void);
uint32_t lrc_embed_rules_version(void);

// Opens a closed handle with a book of the nodes of the text and an empty history. DONE, IS_OPEN, OUT_OF_MEMORY, or one of
// 16 to 21, which also write `detail`. The text is not needed after the call.
uint32_t lrc_embed_open(lrc_handle *handle, const uint8_t *text, size_t length, size_t *detail);

// Opens a closed handle with a book over the nodes of one text that begins in the image of the other, with an empty history.
// The image may be one of lrc_embed_image, also over other nodes, or written by another program. DONE, IS_OPEN,
// OUT_OF_MEMORY, or one of 16 to 23, which also write `detail`; INVALID_IMAGE writes `cause` too. The nodes are checked
// first, then the form of the image, then its lines over the nodes. The texts are not needed after the call.
uint32_t lrc_embed_open_image(lrc_handle *handle, const uint8_t *nodes, size_t nodes_length, const uint8_t *image,
                              size_t image_length, size_t *detail, uint32_t *cause);

// Makes one command. DONE, also if the reply is a refusal; IS_CLOSED, OUT_OF_RANGE, FULL or OUT_OF_MEMORY, and then the
// history is as it was. After DONE the history has one more entry: this session, command and reply. To save it, take it
// from lrc_embed_call_entry, or from lrc_embed_entry, at the count less 1: the command that was passed may differ from it in bytes.
uint32_t lrc_embed_call(lrc_handle *handle, uint8_t session, const lrc_command *command, lrc_reply *reply);
// The same, with the whole entry as its result, as lrc_embed_entry would return it.
uint32_t lrc_embed_call_entry(lrc_handle *handle, uint8_t session, const lrc_command *command, lrc_entry *entry);
// The same, with a row for each fragment whose home or live lease is another one after the call, or is there only before or only
// after it, in rising order of stripe and fragment. Each other fragment has the home and the lease that it had. DONE, with `*count` rows;
// or SHORT if there are more than `length`: then the call is not made, and only `count` is written, the rows that it needs. Only
// LRC_FAIL and LRC_TICK can need more than LRC_FRAGMENTS.
uint32_t lrc_embed_call_changes(lrc_handle *handle, uint8_t session, const lrc_command *command, lrc_entry *entry,
                                lrc_change *rows, size_t length, size_t *count);

// Makes `count` calls, one after the other, as lrc_embed_call_entry makes each. Of an entry it reads the session and the command,
// and it writes the entry of the call there. DONE, if all are made; IS_CLOSED; or OUT_OF_RANGE, FULL or OUT_OF_MEMORY, as of the
// first call that can't be made. The calls before that one are made and stay, `made` is their number, and the entries from there
// on are as they were. So a store saves the first `made` entries, with each status but IS_CLOSED, which writes nothing.
uint32_t lrc_embed_calls(lrc_handle *handle, lrc_entry *entries, size_t count, size_t *made);

// The same, if the store has made `place` entries so far: if lrc_embed_before plus lrc_embed_count is `place`, so that the
// entry becomes number `place` + 1 of the store. Else MOVED, and nothing changes. So a caller that decided by what it read at
// `place` makes the call only if nothing came between. Otherwise as lrc_embed_call. The place counts entries, and to open
// a handle is none: once it was closed and opened again, over other nodes say, what was read before may be old at the same
// `place`, so read again.
uint32_t lrc_embed_call_at(lrc_handle *handle, uint64_t place, uint8_t session, const lrc_command *command, lrc_reply *reply);

// Returns the reply that lrc_embed_call would get now. Nothing changes, and no memory is requested. DONE, also if the reply
// is a refusal; IS_CLOSED, OUT_OF_RANGE or FULL, exactly if the call would return it. The reply holds until the next entry.
// A worker peeks at LRC_NEXT, and makes the call only if the reply is LRC_GRANTED.
uint32_t lrc_embed_peek(lrc_handle *handle, uint8_t session, const lrc_command *command, lrc_reply *reply);
// The same, with the whole entry that lrc_embed_call would add now as its result.
uint32_t lrc_embed_peek_entry(lrc_handle *handle, uint8_t session, const lrc_command *command, lrc_entry *entry);

// Makes the commands of `count` saved entries after the history that the book has, and compares each reply. After DONE the
// history also has these entries. With any other status the handle is closed and the book is freed; and, except for
// IS_CLOSED, `position` is that of the entry where it stopped, from 0: DIFFERENT, the book's reply is another; OUT_OF_RANGE,
// it is not an entry; FULL or OUT_OF_MEMORY. A long log may be replayed in pieces. All bytes of a reply are compared; what a
// command does not use, and what is reserved outside the reply, is ignored.
uint32_t lrc_embed_replay(lrc_handle *handle, const lrc_entry *entries, size_t count, size_t *position);

// Forgets the entries: the history is empty then, and takes LRC_HISTORY_LIMIT more. The looks return what they returned
// before, but for those at the history; epochs go on where they were. DONE, IS_CLOSED, OUT_OF_MEMORY; or FULL, if a
// fragment was leased 4,293,967,295 times or more, the clock is 4,293,967,292 or more, or the store has made more than
// 9,223,372,036,854,775,808 entries. With another status than DONE nothing changes.
// Forget only what the log has, since an entry that is forgotten can't be read any more.
uint32_t lrc_embed_forget(lrc_handle *handle);

// The looks. They change nothing.
// DONE, IS_CLOSED, OUT_OF_RANGE, or UNKNOWN if there is no such stripe.
uint32_t lrc_embed_homes(lrc_handle *handle, uint16_t stripe, lrc_homes *homes);
uint32_t lrc_embed_level(lrc_handle *handle, uint16_t stripe, lrc_level *level);
// The fragments without a home, or with one on a node that is not online. Fragment f is bit f.
uint32_t lrc_embed_missing(lrc_handle *handle, uint16_t stripe, uint16_t *missing);
// The lrc_code of the stripe, which is that of the command that placed it.
uint32_t lrc_embed_code(lrc_handle *handle, uint16_t stripe, uint8_t *code);
// The same, or UNKNOWN if the fragment has no live lease.
uint32_t lrc_embed_lease(lrc_handle *handle, uint16_t stripe, uint8_t fragment, lrc_lease *lease);
// How the fragment is rebuilt, if it needs a lease, whether or not it has one: what the next grant of it has as `repair` and
// `sources`. It is LRC_GLOBAL too where the stripe is not recoverable. UNKNOWN if the fragment needs no lease.
uint32_t lrc_embed_repair(lrc_handle *handle, uint16_t stripe, uint8_t fragment, lrc_repair_plan *plan);
// How the fragment of a live lease is rebuilt from what is not missing now, where lrc_embed_missing tells what is. If the
// fragment itself is not missing, which is a move, it is copied. Another call may get another recipe, if fragments went
// missing or came back meanwhile: a worker that cannot read one of its sources asks again. UNKNOWN if there is no such stripe,
// or the fragment has no live lease; UNDETERMINED if what is not missing does not determine it.
uint32_t lrc_embed_recipe(lrc_handle *handle, uint16_t stripe, uint8_t fragment, lrc_recipe *recipe);
// DONE, IS_CLOSED, or UNKNOWN if there is no such node. The load counts homes and targets of leases.
uint32_t lrc_embed_load(lrc_handle *handle, uint16_t node, uint32_t *load);
uint32_t lrc_embed_mode(lrc_handle *handle, uint16_t node, lrc_mode *mode);
// Whether the node is down, 0 or 1. A node that is not down may be offline all the same, since its domain upgrades or it is
// gone.
uint32_t lrc_embed_is_down(lrc_handle *handle, uint16_t node, uint8_t *is_down);
// The upgrade domain that is upgrading: DONE, IS_CLOSED, or UNKNOWN if none is.
uint32_t lrc_embed_upgrading(lrc_handle *handle, uint8_t *domain);
// The number of ticks: DONE or IS_CLOSED.
uint32_t lrc_embed_clock(lrc_handle *handle, uint32_t *clock);
// The stripes that are not whole, in the order of repair. DONE, with `*count` rows; IS_CLOSED, OUT_OF_MEMORY; or SHORT if
// there are more than `length`, which cannot be with LRC_STRIPES rows, and then only `count` is written: the rows that it
// needs.
uint32_t lrc_embed_risk(lrc_handle *handle, lrc_risk *rows, size_t length, size_t *count);
// The first of these rows, without a request for memory: DONE, IS_CLOSED, or UNKNOWN if all stripes are whole.
uint32_t lrc_embed_first_risk(lrc_handle *handle, lrc_risk *row);
// The image of the book's state as a text, whose lines docs/FORMATS.md describes. Books in the same state after as many
// entries and grants have the same text, whatever led there, and lrc_embed_open_image begins in it. DONE, with `*length` bytes;
// IS_CLOSED, OUT_OF_MEMORY; SHORT if there is room for less, and then only `length` is written: the bytes that it needs; or
// FULL, as lrc_embed_forget.
uint32_t lrc_embed_image(lrc_handle *handle, uint8_t *text, size_t room, size_t *length);
// The number of entries of the history: DONE or IS_CLOSED.
uint32_t lrc_embed_count(lrc_handle *handle, size_t *count);
// The number of entries of the store before the history: those before the image that the book began in, and those that were
// forgotten. So the entry at an index is number `before` + index + 1 of the store. DONE or IS_CLOSED.
uint32_t lrc_embed_before(lrc_handle *handle, uint64_t *before);
// The entry at an index, from 0: DONE, IS_CLOSED or UNKNOWN.
uint32_t lrc_embed_entry(lrc_handle *handle, size_t index, lrc_entry *entry);

// The walks. Each writes `*count` rows from the start of the buffer: the first rows of its table from a place on, as many as
// there is room for, whatever the numbers of the place are. If `*count` is less than `length`, the table ends there; else go
// on from the place after the last row. DONE, IS_CLOSED, or what stands at the walk; and no memory is requested, but by
// lrc_embed_homes_on. What a walk tells holds until the next entry; a walk that goes on after one may miss a row or tell an old
// one. That over entries goes on whatever comes between: their places stay.
// The stripes from the number `from` on, in rising order.
uint32_t lrc_embed_stripes(lrc_handle *handle, uint16_t from, lrc_stripe *rows, size_t length, size_t *count);
// The nodes from a position on, in the order of the text; the first is at 0.
uint32_t lrc_embed_nodes(lrc_handle *handle, size_t from, lrc_node *rows, size_t length, size_t *count);
// The live leases in rising order of stripe and fragment, with their expiry, from the fragment `from_fragment` of the stripe
// `from_stripe` on. After a row go on from its stripe, and its fragment plus 1.
uint32_t lrc_embed_leases(lrc_handle *handle, uint16_t from_stripe, uint8_t from_fragment, lrc_lease *rows, size_t length,
                          size_t *count);
// The fragments with a home on a node, in the same order, from one on. UNKNOWN if there is no such node, OUT_OF_MEMORY. A node
// has LRC_SLOTS of them at most.
uint32_t lrc_embed_homes_on(lrc_handle *handle, uint16_t node, uint16_t from_stripe, uint8_t from_fragment,
                            lrc_fragment *rows, size_t length, size_t *count);
// The entries of the store from a place on, which is the number of those before it: entry number `place` + 1 is the first
// row. So lrc_embed_before is the first place that the book still has. FORGOTTEN exactly if the place is before that, and
// then nothing is written.
uint32_t lrc_embed_entries(lrc_handle *handle, uint64_t place, lrc_entry *rows, size_t length, size_t *count);

// What would become of the stripes if all these nodes stopped at once, or were lost: `outage` is an lrc_outage. The rows are
// the stripes that would not be whole then, in rising order, also those that are not whole now. `*is_safe` is 1 if no stripe
// is harmed, else 0. So it is 0 too where a stripe that is unavailable or lost now has a home or the target of a lease on one of
// the nodes, also on one that is down. Take any LRC_UP, LRC_UPGRADED and LRC_REPORT that follow, with the outage without the
// LRC_UP of its nodes: after each of them a stripe that is not harmed is recoverable with the outage exactly if it is without.
// Other calls that follow are left out. Where a node is lost, its homes are. Nothing changes. DONE, IS_CLOSED, OUT_OF_MEMORY;
// OUT_OF_RANGE if it is no outage; UNKNOWN if there is no such node; or SHORT if there are more rows than `length`, which cannot
// be with LRC_STRIPES rows, and then only `count`, the rows that it needs, and `is_safe` are written.
uint32_t lrc_embed_forecast(lrc_handle *handle, uint8_t outage, const uint16_t *nodes, size_t nodes_length,
                            lrc_outlook *rows, size_t length, size_t *count, uint8_t *is_safe);

// The texts, which are those of lrcman to the byte. Each is written from the start of a buffer, with no zero at the end: DONE, with
// `*length` bytes; or SHORT if there is room for less, and then only `length` is written, the bytes that it needs.
// A table of the book: `view` is an lrc_view. IS_CLOSED, OUT_OF_RANGE if there is no such table, or OUT_OF_MEMORY.
uint32_t lrc_embed_show(lrc_handle *handle, uint8_t view, uint8_t *text, size_t room, size_t *length);
// The table of a forecast, with `is_safe` and statuses as of lrc_embed_forecast.
uint32_t lrc_embed_forecast_table(lrc_handle *handle, uint8_t outage, const uint16_t *nodes, size_t nodes_length, uint8_t *text,
                                  size_t room, size_t *length, uint8_t *is_safe);
// The line that `lrcman run` prints of the entry at an index, from 0: its number in the store, its reply, and LF; at most 220
// bytes. IS_CLOSED, UNKNOWN, OUT_OF_MEMORY, or FULL if lrc_embed_before is above 9,223,372,036,854,775,808.
uint32_t lrc_embed_reply_line(lrc_handle *handle, size_t index, uint8_t *text, size_t room, size_t *length);
// The text of a reply, which is its line without the number of its entry and without LF: at most 198 bytes. It takes no handle, so
// a reply that a log or a client keeps has its text without a book. OUT_OF_RANGE if the library writes no such reply: a number is
// out of range, or a field that the kind does not use is not 0; or OUT_OF_MEMORY.
uint32_t lrc_embed_reply_text(const lrc_reply *reply, uint8_t *text, size_t room, size_t *length);
// The line of a command in a script, without LF: at most 26 bytes. OUT_OF_RANGE if it is no command, or OUT_OF_MEMORY.
uint32_t lrc_embed_command_line(const lrc_command *command, uint8_t *text, size_t room, size_t *length);
// The command of a line of a script, which is given without its LF. DONE; UNKNOWN if the line is empty or a comment; or BAD_LINE,
// and then only `cause` is written, an lrc_line_cause. No memory is requested.
uint32_t lrc_embed_read_command(const uint8_t *line, size_t length, lrc_command *command, uint32_t *cause);

// A word for a number: of a status, a kind of reply, a refusal, a kind of level or of mode, a code, or a kind of repair. ASCII
// letters and spaces, at most 24, with no zero at the end. DONE, with `*length` bytes; UNKNOWN if the number has none; or SHORT if
// there is room for less, and then only `length` is written.
uint32_t lrc_embed_status_name(uint32_t status, uint8_t *text, size_t room, size_t *length);
uint32_t lrc_embed_reply_name(uint8_t kind, uint8_t *text, size_t room, size_t *length);
uint32_t lrc_embed_refusal_name(uint8_t refusal, uint8_t *text, size_t room, size_t *length);
uint32_t lrc_embed_level_name(uint8_t kind, uint8_t *text, size_t room, size_t *length);
uint32_t lrc_embed_mode_name(uint8_t kind, uint8_t *text, size_t room, size_t *length);
uint32_t lrc_embed_code_name(uint8_t code, uint8_t *text, size_t room, size_t *length);
uint32_t lrc_embed_repair_name(uint8_t repair, uint8_t *text, size_t room, size_t *length);
// The word with which the line of a kind of command begins, in the same way: at most 8 letters and digits.
uint32_t lrc_embed_command_name(uint8_t kind, uint8_t *text, size_t room, size_t *length);
// The numbers that commands of a kind have, in the order in which they stand behind that word: each an lrc_field, at most 3. DONE,
// with `*count` of them; UNKNOWN if there is no such kind; or SHORT if there is room for less, and then only `count` is written.
uint32_t lrc_embed_command_fields(uint8_t kind, uint8_t *fields, size_t room, size_t *count);
// The words of lrcman for a refusal, in the same way, at most 80 bytes: for an lrc_line_cause; for an lrc_cause; and for a status
// from SYNTAX to TOO_MANY.
uint32_t lrc_embed_line_words(uint32_t cause, uint8_t *text, size_t room, size_t *length);
uint32_t lrc_embed_cause_words(uint32_t cause, uint8_t *text, size_t room, size_t *length);
uint32_t lrc_embed_nodes_words(uint32_t status, uint8_t *text, size_t room, size_t *length);

// Looks beside calls. A published book writes each call to a feed. A viewer has a book of its own, which begins in the image of
// the published one and makes the calls of the feed as it is told to. No look of a viewer takes a lock, no call waits for a
// viewer, and there may be any number of viewers. Published book and viewers may be on different threads at the same time; each
// of them is used by one thread at a time. They may be closed in any order.
//
// Publishes the book of an open handle, which is closed then. DONE; IS_OPEN, if one of the two in `published` is open; IS_CLOSED;
// OUT_OF_MEMORY; or FULL, if the store has made more than 9,223,372,036,854,775,808 entries. With another status than DONE nothing
// changes.
uint32_t lrc_embed_publish(lrc_handle *handle, lrc_published *published);
// Takes the book back into a closed handle. Its viewers keep their books, and are told so. DONE, IS_OPEN, IS_CLOSED.
uint32_t lrc_embed_unpublish(lrc_published *published, lrc_handle *handle);
// Makes one command of a published book, as lrc_embed_call does. The call is in the feed before this returns, so each viewer that
// follows after that makes it too. Also MOVED; and FULL too if the feed is: then take the book back and publish it again.
uint32_t lrc_embed_call_published(lrc_published *published, uint8_t session, const lrc_command *command, lrc_reply *reply);
// Makes a viewer of a published book: `nodes` is the text that the book was opened with, or one of the same nodes in the same
// order. The published book stays as it is, and makes no call meanwhile. DONE; IS_OPEN, of the viewer; IS_CLOSED and MOVED, of the
// published book; OUT_OF_MEMORY; DIFFERENT, if the text is refused or its nodes are others; or FULL, as lrc_embed_forget.
uint32_t lrc_embed_view(lrc_published *published, const uint8_t *nodes, size_t length, lrc_viewer *viewer);
// Makes the calls of the published book that the viewer has not made yet, on the viewer's book. Writes the place, how many entries
// of the store its book follows from, and whether the book is still published, 0 or 1: if not, the viewer has all of its calls. A
// viewer never goes back. DONE, IS_CLOSED or MOVED; FULL, if the history of its book is, or OUT_OF_MEMORY: then it has made the
// calls before, and goes on there. No memory is requested if there is no call to make.
uint32_t lrc_embed_follow(lrc_viewer *viewer, uint64_t *place, uint8_t *is_published);
// Closes a viewer and frees its book. A closed one stays closed. Always DONE.
uint32_t lrc_embed_close_viewer(lrc_viewer *viewer);

// The bytes of a stripe. These functions take no handle, and no memory is requested: any threads may call them at once.
// docs/CODING.md says how a worker uses them.
// The recipe of a fragment of a stripe of a code, where some are missing; fragment f is bit f of `missing`. A fragment whose
// bit is not set is copied. Bits for which the code has no fragment mean nothing. DONE; OUT_OF_RANGE if there is no such code,
// or it has no such fragment; or UNDETERMINED if what is not missing does not determine it. It reads the fragments of the local
// group if no other of it is missing, else 12, or 6 of a narrow stripe: no fewer determine it. Of the sets of that size that do
// it reads the one that comes first by its numbers in rising order, so whoever asks gets the same recipe.
uint32_t lrc_embed_recipe_of(uint8_t code, uint16_t missing, uint8_t fragment, lrc_recipe *recipe);
// The generator matrix of a code, row by row, with a row for each fragment and a column for each data fragment: 16 times 12
// bytes, or 10 times 6. So ISA-L takes it, which encodes with the rows from the twelfth, or the sixth, on. DONE, with `*length`
// bytes; OUT_OF_RANGE if there is no such code; or SHORT if there is room for less, and then only `length` is written.
uint32_t lrc_embed_matrix(uint8_t code, uint8_t *rows, size_t room, size_t *length);
// Writes the four parities of a stripe, in order. `data_fragments` has the data fragments in order, 12 or 6, and all buffers
// have one length, which may be 0. DONE; OUT_OF_RANGE if there is no such code; MISCOUNTED or UNEVEN, and then nothing is
// written. The array of buffers stays as it is. ISA-L does the same faster.
uint32_t lrc_embed_encode(uint8_t code, const lrc_bytes *data_fragments, size_t data_fragments_count,
                          lrc_buffer *parities, size_t parities_count);
// Writes what a recipe makes of the fragments of a stripe, which stand by number: as many as the code has, 16 or 10. Those
// whose coefficient is not 0 are as long as `rebuilt`. The others are not read, and may be empty. DONE; OUT_OF_RANGE if the
// recipe's code is none, or has no fragment of a coefficient that is not 0; MISCOUNTED or UNEVEN; and then nothing is written.
uint32_t lrc_embed_rebuild(const lrc_recipe *recipe, const lrc_bytes *fragments, size_t fragments_count, uint8_t *rebuilt,
                           size_t length);

// Closes the handle and frees its book. A closed handle stays closed. Always DONE.
uint32_t lrc_embed_close(lrc_handle *handle);

#ifdef __cplusplus
}
#endif

#endif
