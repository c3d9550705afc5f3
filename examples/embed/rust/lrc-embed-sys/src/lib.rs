//! The declarations of `lrc_embed.h`, as they stand there: `declare` writes this file. The crate `lrc-embed` is a safe one over it.
//!
//! What the caller owes stands at the head of the header, and in `docs/EMBEDDING.md`.
#![no_std]
#![allow(non_camel_case_types)]

use core::ffi::c_void;
use core::mem::{align_of, offset_of, size_of};

/// A closed handle.
pub const LRC_CLOSED: lrc_handle = lrc_handle { is_open: false, at: core::ptr::null_mut() };

/// The version of the interface, which rises with every change of what this header declares: with each function, struct, field and
/// number that is new or means something else. lrc_embed_version() returns that of the library. Compare them at the start, and go
/// on only if they are the same. An lrc_entry has one layout in all versions, so that saved ones stay readable.
pub const LRC_EMBED_VERSION: u32 = 8;

/// The version of the rules: of what each command returns and changes. lrc_embed_rules_version() returns that of the library. A
/// log replays alike in all libraries of one version of the rules. In those of another one a reply may differ, and an image may be
/// refused or be of another state. So keep this number with each log and each image, and refuse another one.
pub const LRC_RULES_VERSION: u32 = 1;

/// The number of stripe numbers, which are 0 to 4095. No table of stripes has more rows.
pub const LRC_STRIPES: usize = 4096;

/// The number of fragment numbers, which are 0 to 15. A wide stripe has all of them: 0 to 5 and 12 are group A, 6 to 11 and 13 are
/// group B, 14 and 15 are global.
pub const LRC_FRAGMENTS: usize = 16;

/// A narrow stripe has fragments 0 to 9: 0 to 2 and 6 are group A, 3 to 5 and 7 are group B, 8 and 9 are global. Fragments 10 to
/// 15 of it have no home, are not missing, and need no lease.
pub const LRC_NARROW_FRAGMENTS: usize = 10;

/// The number of sessions, which are 1 to 8. A session is whoever holds leases.
pub const LRC_SESSIONS: usize = 8;

/// The most nodes of a text, and the most slots of a node.
pub const LRC_NODES: usize = 512;

pub const LRC_SLOTS: usize = 256;

/// The most entries of a history.
pub const LRC_HISTORY_LIMIT: usize = 1000000;

/// The most calls of a published book, until it is published again.
pub const LRC_FEED_LIMIT: usize = 1048576;

/// The bytes of the longest image, with each line at its longest, and as many as there can be. No image has more.
pub const LRC_IMAGE_MOST: usize = 3855418;

// lrc_status
pub const LRC_DONE: u32 = 0;
/// the handle is closed
pub const LRC_IS_CLOSED: u32 = 1;
/// the handle to be opened is open
pub const LRC_IS_OPEN: u32 = 2;
/// a session, a kind of command, a stripe, a fragment, a code or an outage is out of its range
pub const LRC_OUT_OF_RANGE: u32 = 3;
/// there is no such stripe, lease, node, entry or name, or nothing of what is asked for
pub const LRC_UNKNOWN: u32 = 4;
/// the history has LRC_HISTORY_LIMIT entries, or a feed LRC_FEED_LIMIT calls; of lrc_embed_forget and lrc_embed_image: a number is
/// at its end
pub const LRC_FULL: u32 = 5;
/// memory was refused, and the history is as it was: the call may be repeated (but a replay has closed the handle)
pub const LRC_OUT_OF_MEMORY: u32 = 6;
/// the buffer has no room for all rows, or for the whole text
pub const LRC_SHORT: u32 = 7;
/// lrc_embed_replay: a call has another reply than its entry; of lrc_embed_view: other nodes
pub const LRC_DIFFERENT: u32 = 8;
/// lrc_embed_call_at: the store has made more or fewer entries than expected; of a published book or a viewer: its book has made
/// calls on its own
pub const LRC_MOVED: u32 = 9;
/// lrc_embed_entries: the place is before the history, so what stands there is forgotten
pub const LRC_FORGOTTEN: u32 = 10;
/// a recipe: what is not missing does not determine the fragment
pub const LRC_UNDETERMINED: u32 = 11;
/// lrc_embed_encode, lrc_embed_rebuild: the buffers are not as many as the code's fragments
pub const LRC_MISCOUNTED: u32 = 12;
/// the same: the buffers are not all of one length
pub const LRC_UNEVEN: u32 = 13;
/// not TOML 1.1 in UTF-8
pub const LRC_SYNTAX: u32 = 16;
/// `node` is absent, not an array, or empty
pub const LRC_NO_NODES: u32 = 17;
/// an entry of `node` lacks a whole number at one of its four keys; detail: its position
pub const LRC_BAD_FIELD: u32 = 18;
/// an entry has a number out of its range; detail: its position, from 0
pub const LRC_NODE_OUT_OF_RANGE: u32 = 19;
/// two entries have the same number; detail: this number
pub const LRC_DOUBLE_NODE: u32 = 20;
/// more than 512 nodes
pub const LRC_TOO_MANY: u32 = 21;
/// the first line that may not come where it stands, or is missing; of lrc_embed_read_command: the line is no command's; cause: an
/// lrc_line_cause
pub const LRC_BAD_LINE: u32 = 22;
/// the first line that the nodes or the lines before it do not allow; cause: an lrc_cause
pub const LRC_INVALID_IMAGE: u32 = 23;

// lrc_cause: Why the nodes or the lines before it do not allow a line of an image. docs/FORMATS.md has the order in which they
// are asked.
/// `upgrading`: no node is in this domain
pub const LRC_CAUSE_UNKNOWN_DOMAIN: u32 = 1;
/// `before`: more than 9,223,372,036,854,775,808
pub const LRC_CAUSE_TOO_MANY_ENTRIES: u32 = 2;
/// `clock`: more than 4,293,967,291
pub const LRC_CAUSE_TOO_MANY_TICKS: u32 = 3;
/// a line of its section with this number, or a higher one, stands before it
pub const LRC_CAUSE_OUT_OF_ORDER: u32 = 4;
/// `granted`: all counts are 0
pub const LRC_CAUSE_SAYS_NOTHING: u32 = 5;
/// there is no such node
pub const LRC_CAUSE_UNKNOWN_NODE: u32 = 6;
/// `node`: a node that is gone is not down
pub const LRC_CAUSE_GONE_AND_DOWN: u32 = 7;
/// `lease`: a narrow stripe lacks the fragment
pub const LRC_CAUSE_UNKNOWN_FRAGMENT: u32 = 8;
/// the node has no such slot
pub const LRC_CAUSE_UNKNOWN_SLOT: u32 = 9;
/// the seat is on a node that is gone
pub const LRC_CAUSE_NODE_GONE: u32 = 10;
/// the seat is held already
pub const LRC_CAUSE_SEAT_TAKEN: u32 = 11;
/// another fragment of the stripe rules out the node, by the placement rules
pub const LRC_CAUSE_NOT_LAWFUL: u32 = 12;
/// `granted`: a count is more than 4,293,967,294
pub const LRC_CAUSE_TOO_MANY_GRANTS: u32 = 13;
/// `lease`: the image has no such stripe
pub const LRC_CAUSE_UNKNOWN_STRIPE: u32 = 14;
/// `lease`: the count of its fragment is 0
pub const LRC_CAUSE_NEVER_GRANTED: u32 = 15;
/// `lease`: the expiry is not one of the three numbers after the clock
pub const LRC_CAUSE_WRONG_EXPIRY: u32 = 16;

// lrc_line_cause: Why a line of a script is bad. docs/FORMATS.md has the order in which they are asked.
/// the first word is not that of a command
pub const LRC_LINE_UNKNOWN_WORD: u32 = 1;
/// the command takes another number of words
pub const LRC_LINE_WORD_COUNT: u32 = 2;
/// an argument is not a number
pub const LRC_LINE_NOT_A_NUMBER: u32 = 3;
/// an argument is a number that is out of its range
pub const LRC_LINE_OUT_OF_RANGE: u32 = 4;
/// the line has more than 1,024 bytes
pub const LRC_LINE_TOO_LONG: u32 = 5;

// lrc_command_kind: After each kind: the fields of lrc_command that it uses. The others may be anything, and are 0 in the entry
// of the history.
/// stripe: give each fragment of a new wide stripe a home
pub const LRC_PLACE: u8 = 1;
/// stripe: remove a stripe, with its homes and leases
pub const LRC_DROP: u8 = 2;
/// stripe, fragment: ask for the lease of a fragment
pub const LRC_LEASE: u8 = 3;
/// nothing: ask for the lease of the most urgent fragment
pub const LRC_NEXT: u8 = 4;
/// stripe, fragment, epoch: the fragment is on the target of this session's lease (`done`)
pub const LRC_REPORT: u8 = 5;
/// stripe, fragment, epoch: give this session's lease back
pub const LRC_ABANDON: u8 = 6;
/// stripe, fragment: end the lease, whoever holds it
pub const LRC_REVOKE: u8 = 7;
/// node: it is lost, with all that is on it
pub const LRC_FAIL: u8 = 8;
/// node: it cannot be reached for now
pub const LRC_DOWN: u8 = 9;
/// node: it can be reached again
pub const LRC_UP: u8 = 10;
/// node: it takes no further seats
pub const LRC_DRAIN: u8 = 11;
/// node: it takes seats again
pub const LRC_UNDRAIN: u8 = 12;
/// node: remove a draining node that holds nothing
pub const LRC_RETIRE: u8 = 13;
/// node: add a node that is gone again, empty
pub const LRC_JOIN: u8 = 14;
/// domain: take all nodes of an upgrade domain offline
pub const LRC_UPGRADE: u8 = 15;
/// domain: its nodes can be reached again, except those that are down
pub const LRC_UPGRADED: u8 = 16;
/// nothing: advance the clock by one, and end each lease for which this is the third tick
pub const LRC_TICK: u8 = 17;
/// stripe: give each fragment of a new narrow stripe a home
pub const LRC_PLACE6: u8 = 18;

// lrc_field: The numbers that commands have.
pub const LRC_FIELD_STRIPE: u8 = 1;
pub const LRC_FIELD_FRAGMENT: u8 = 2;
pub const LRC_FIELD_EPOCH: u8 = 3;
pub const LRC_FIELD_NODE: u8 = 4;
pub const LRC_FIELD_DOMAIN: u8 = 5;

// lrc_reply_kind
/// seats: the homes of fragments 0 to 15 of a wide stripe
pub const LRC_PLACED: u8 = 1;
pub const LRC_DROPPED: u8 = 2;
/// lease, repair, sources
pub const LRC_GRANTED: u8 = 3;
/// no fragment can be leased
pub const LRC_IDLE: u8 = 4;
/// the lease has ended
pub const LRC_ENDED: u8 = 5;
/// the node or the upgrade domain was changed
pub const LRC_CHANGED: u8 = 6;
/// refusal, detail: only the history has changed
pub const LRC_REFUSED: u8 = 7;
/// clock, ended
pub const LRC_TICKED: u8 = 8;
/// seats: the homes of fragments 0 to 9 of a narrow stripe, and 0 in the last six
pub const LRC_PLACED6: u8 = 9;

// lrc_repair: What a leased fragment is rebuilt from.
/// sources: the six other fragments of its group in a wide stripe, in rising order
pub const LRC_LOCAL: u8 = 1;
/// the whole stripe
pub const LRC_GLOBAL: u8 = 2;
/// its own home, which is online
pub const LRC_MOVE: u8 = 3;
/// sources: the three other fragments of its group in a narrow stripe, in rising order, and then 0
pub const LRC_LOCAL3: u8 = 4;

// lrc_refusal: After a refusal: what `detail` is; else it is 0.
pub const LRC_UNKNOWN_STRIPE: u8 = 101;
pub const LRC_STRIPE_EXISTS: u8 = 102;
/// the fragment for which there is no seat
pub const LRC_NO_LAWFUL_NODE: u8 = 103;
pub const LRC_UNKNOWN_NODE: u8 = 104;
pub const LRC_WRONG_MODE: u8 = 105;
pub const LRC_UNKNOWN_DOMAIN: u8 = 106;
/// the domain that is upgrading
pub const LRC_UPGRADE_RUNNING: u8 = 107;
pub const LRC_NOT_UPGRADING: u8 = 108;
/// the first stripe that would be unrecoverable
pub const LRC_WOULD_LOSE: u8 = 109;
/// the epoch of the live lease
pub const LRC_ALREADY_LEASED: u8 = 110;
pub const LRC_NOT_NEEDED: u8 = 111;
pub const LRC_UNRECOVERABLE: u8 = 112;
pub const LRC_STALE: u8 = 113;
/// the session that holds the lease
pub const LRC_NOT_HOLDER: u8 = 114;
/// the target's node
pub const LRC_TARGET_OFFLINE: u8 = 115;
pub const LRC_NO_LEASE: u8 = 116;
/// the number of seats on the node
pub const LRC_NOT_EMPTY: u8 = 117;

// lrc_code: The code of a stripe: which fragments it has, and from which of them a lost one is rebuilt.
/// LRC(12,2,2), of sixteen fragments
pub const LRC_WIDE: u8 = 1;
/// LRC(6,2,2), of ten
pub const LRC_NARROW: u8 = 2;

// lrc_level_kind
/// no fragment is missing
pub const LRC_WHOLE: u8 = 1;
/// margin: how many further losses the stripe survives, 0 to 2, whichever they are
pub const LRC_AT_RISK: u8 = 2;
/// not recoverable while nodes are offline
pub const LRC_UNAVAILABLE: u8 = 3;
/// not recoverable
pub const LRC_LOST: u8 = 4;

// lrc_mode_kind
pub const LRC_ACTIVE: u8 = 1;
pub const LRC_DRAINING: u8 = 2;
pub const LRC_GONE: u8 = 3;

// lrc_view: The tables of a book, which `lrcman show` prints. docs/FORMATS.md has their columns.
/// a summary in names and values
pub const LRC_SHOW_STATUS: u8 = 1;
/// each stripe with its level, its missing fragments and its homes
pub const LRC_SHOW_STRIPES: u8 = 2;
/// each node with its domains, its mode and its seats
pub const LRC_SHOW_NODES: u8 = 3;
/// each live lease
pub const LRC_SHOW_LEASES: u8 = 4;
/// each fragment that needs a lease, in the order of repair
pub const LRC_SHOW_WORK: u8 = 5;
/// each fragment of each stripe, with its home and its live lease
pub const LRC_SHOW_FRAGMENTS: u8 = 6;
/// each fault domain, with the levels after its loss
pub const LRC_SHOW_DOMAINS_FAULT: u8 = 7;
/// each upgrade domain, with the levels after its stop
pub const LRC_SHOW_DOMAINS_UPGRADE: u8 = 8;
/// each reason why not all is well
pub const LRC_SHOW_HEALTH: u8 = 9;
/// how many more stripes of each code would be placed, and why no more
pub const LRC_SHOW_CAPACITY: u8 = 10;

// lrc_outage: What happens to nodes.
/// they go offline, with what is on them, as by LRC_DOWN
pub const LRC_STOP: u8 = 1;
/// they are lost, with all that is on them, as by LRC_FAIL
pub const LRC_LOSE: u8 = 2;

/// A handle. All zeros is a closed one. Do not read its fields.
#[repr(C)]
#[derive(Debug)]
pub struct lrc_handle {
    pub is_open: bool,
    pub at: *mut c_void,
}

/// A published book and a viewer of it: a book, and an end of the feed between them. All zeros is a closed one. A program may pass
/// `book` to looks, walks, peeks, forecasts and texts, and to lrc_embed_forget and lrc_embed_image; to no other call, but that a
/// call made on it by mistake is told later, by LRC_MOVED. It reads no field of `feed`.
#[repr(C)]
#[derive(Debug)]
pub struct lrc_feed {
    pub is_open: bool,
    pub at: *mut c_void,
}

#[repr(C)]
#[derive(Debug)]
pub struct lrc_published {
    pub book: lrc_handle,
    pub feed: lrc_feed,
}

#[repr(C)]
#[derive(Debug)]
pub struct lrc_viewer {
    pub book: lrc_handle,
    pub feed: lrc_feed,
}

#[repr(C)]
#[derive(Clone, Copy, Debug, Default, PartialEq, Eq, Hash)]
pub struct lrc_command {
    /// an lrc_command_kind
    pub kind: u8,
    /// 0 to 15
    pub fragment: u8,
    /// 0 to 255
    pub domain: u8,
    pub reserved: [u8; 5],
    pub epoch: u32,
    /// 0 to 4095
    pub stripe: u16,
    /// 0 to 65535
    pub node: u16,
}

/// A slot of a node, counted from 0.
#[repr(C)]
#[derive(Clone, Copy, Debug, Default, PartialEq, Eq, Hash)]
pub struct lrc_seat {
    pub node: u16,
    pub slot: u16,
}

/// A session's permission to move or rebuild a fragment.
#[repr(C)]
#[derive(Clone, Copy, Debug, Default, PartialEq, Eq, Hash)]
pub struct lrc_lease {
    pub stripe: u16,
    pub fragment: u8,
    /// the session that has it
    pub holder: u8,
    /// the seat that the fragment gets
    pub target: lrc_seat,
    /// how often this fragment of this stripe number was leased, this time included
    pub epoch: u32,
    /// from lrc_embed_lease: the clock at which the lease ends at the latest, that of its grant plus three. In a reply: 0, so that
    /// entries of a library without a clock replay as they are
    pub expiry: u32,
}

/// How a fragment is rebuilt.
#[repr(C)]
#[derive(Clone, Copy, Debug, Default, PartialEq, Eq, Hash)]
pub struct lrc_repair_plan {
    /// an lrc_repair
    pub repair: u8,
    /// the fragments that it reads, in rising order, and then 0
    pub sources: [u8; 6],
    pub reserved: u8,
}

/// What the kind does not use is 0.
#[repr(C)]
#[derive(Clone, Copy, Debug, Default, PartialEq, Eq, Hash)]
pub struct lrc_reply {
    /// an lrc_reply_kind
    pub kind: u8,
    /// an lrc_refusal
    pub refusal: u8,
    /// an lrc_repair
    pub repair: u8,
    pub sources: [u8; 6],
    pub reserved: [u8; 3],
    pub detail: u32,
    /// the number of ticks, this one included
    pub clock: u32,
    /// the number of leases that it ended
    pub ended: u32,
    pub reserved_number: u32,
    pub lease: lrc_lease,
    pub seats: [lrc_seat; LRC_FRAGMENTS],
}

/// A command of a session, and its reply: what a store's log saves of each call. lrc_embed_entry returns it with 0 in all reserved
/// fields and in all fields that the kinds of the command and of the reply do not use, so that two books with the same calls have
/// the same bytes.
#[repr(C)]
#[derive(Clone, Copy, Debug, Default, PartialEq, Eq, Hash)]
pub struct lrc_entry {
    /// 1 to 8
    pub session: u8,
    pub reserved: [u8; 3],
    pub command: lrc_command,
    pub reply: lrc_reply,
}

/// The home of a fragment; all is 0 where it has none, and where the stripe has no such fragment.
#[repr(C)]
#[derive(Clone, Copy, Debug, Default, PartialEq, Eq, Hash)]
pub struct lrc_home {
    pub seat: lrc_seat,
    /// 0 or 1
    pub is_there: u8,
    pub reserved: [u8; 3],
}

#[repr(C)]
#[derive(Clone, Copy, Debug, Default, PartialEq, Eq, Hash)]
pub struct lrc_homes {
    pub homes: [lrc_home; LRC_FRAGMENTS],
}

#[repr(C)]
#[derive(Clone, Copy, Debug, Default, PartialEq, Eq, Hash)]
pub struct lrc_level {
    /// an lrc_level_kind
    pub kind: u8,
    pub margin: u8,
    pub reserved: [u8; 2],
}

#[repr(C)]
#[derive(Clone, Copy, Debug, Default, PartialEq, Eq, Hash)]
pub struct lrc_risk {
    pub stripe: u16,
    pub reserved: [u8; 2],
    pub level: lrc_level,
}

/// A stripe with its missing fragments, of which fragment f is bit f.
#[repr(C)]
#[derive(Clone, Copy, Debug, Default, PartialEq, Eq, Hash)]
pub struct lrc_stripe {
    pub stripe: u16,
    pub missing: u16,
    /// an lrc_code
    pub code: u8,
    pub reserved: [u8; 3],
    pub level: lrc_level,
}

/// A fragment of a stripe.
#[repr(C)]
#[derive(Clone, Copy, Debug, Default, PartialEq, Eq, Hash)]
pub struct lrc_fragment {
    pub stripe: u16,
    pub fragment: u8,
    pub reserved: u8,
}

#[repr(C)]
#[derive(Clone, Copy, Debug, Default, PartialEq, Eq, Hash)]
pub struct lrc_mode {
    /// an lrc_mode_kind
    pub mode: u8,
    /// 0 or 1
    pub is_online: u8,
    pub reserved: [u8; 2],
}

#[repr(C)]
#[derive(Clone, Copy, Debug, Default, PartialEq, Eq, Hash)]
pub struct lrc_node {
    pub number: u16,
    /// as the text has them, and so both domains
    pub slots: u16,
    /// the number of homes and of targets of leases on it
    pub load: u32,
    pub fault: u8,
    pub upgrade: u8,
    /// an lrc_mode_kind
    pub mode: u8,
    /// 0 or 1
    pub is_online: u8,
    /// 0 or 1
    pub is_down: u8,
    pub reserved: [u8; 3],
}

/// What becomes of a stripe.
#[repr(C)]
#[derive(Clone, Copy, Debug, Default, PartialEq, Eq, Hash)]
pub struct lrc_outlook {
    pub stripe: u16,
    /// the fragments that are missing then; fragment f is bit f
    pub missing: u16,
    /// those of them that are not missing now
    pub newly_missing: u16,
    /// an lrc_code
    pub code: u8,
    /// 0 or 1: it is unavailable or lost then; and it is neither now, or a home of it, or the target of a live lease, is on one of
    /// the nodes
    pub is_harmed: u8,
    /// how many leases of it end by the outage
    pub leases_ended: u8,
    pub reserved: [u8; 3],
    /// its level now
    pub before: lrc_level,
    /// its level then
    pub after: lrc_level,
}

/// How a fragment of a stripe is rebuilt: at each position of its bytes it is the sum of the stripe's fragments, each times its
/// coefficient. docs/RULES.md has the field: it is that of ISA-L. A coefficient is 0 where the fragment is not read. A fragment
/// that is not missing is copied: its own coefficient is 1, and the others are 0.
#[repr(C)]
#[derive(Clone, Copy, Debug, Default, PartialEq, Eq, Hash)]
pub struct lrc_recipe {
    /// an lrc_code
    pub code: u8,
    /// the one that is rebuilt
    pub fragment: u8,
    pub reserved: [u8; 6],
    /// by fragment; 0 where the stripe has no such fragment
    pub coefficients: [u8; LRC_FRAGMENTS],
}

/// A fragment whose home or lease is another one after a call: both before the call, and after it. Where it had or has no lease,
/// all of the lease is 0.
#[repr(C)]
#[derive(Clone, Copy, Debug, Default, PartialEq, Eq, Hash)]
pub struct lrc_change {
    pub stripe: u16,
    pub fragment: u8,
    /// 0 or 1: it had a live lease, which is lease_before
    pub was_leased: u8,
    /// 0 or 1: it has one, which is lease_after
    pub is_leased: u8,
    pub reserved: [u8; 3],
    pub home_before: lrc_home,
    pub home_after: lrc_home,
    /// with its expiry, as of lrc_embed_lease
    pub lease_before: lrc_lease,
    pub lease_after: lrc_lease,
}

/// Bytes that are read, and bytes that are written. The pointer may be null if the length is 0.
#[repr(C)]
#[derive(Clone, Copy, Debug)]
pub struct lrc_bytes {
    pub at: *const u8,
    pub length: usize,
}

#[repr(C)]
#[derive(Clone, Copy, Debug)]
pub struct lrc_buffer {
    pub at: *mut u8,
    pub length: usize,
}

// The layout that the library has of each struct.
const _: () = {
    assert!(size_of::<lrc_handle>() == 16 && align_of::<lrc_handle>() == 8);
    assert!(offset_of!(lrc_handle, is_open) == 0);
    assert!(offset_of!(lrc_handle, at) == 8);
    assert!(size_of::<lrc_command>() == 16 && align_of::<lrc_command>() == 4);
    assert!(offset_of!(lrc_command, kind) == 0);
    assert!(offset_of!(lrc_command, fragment) == 1);
    assert!(offset_of!(lrc_command, domain) == 2);
    assert!(offset_of!(lrc_command, reserved) == 3);
    assert!(offset_of!(lrc_command, epoch) == 8);
    assert!(offset_of!(lrc_command, stripe) == 12);
    assert!(offset_of!(lrc_command, node) == 14);
    assert!(size_of::<lrc_seat>() == 4 && align_of::<lrc_seat>() == 2);
    assert!(offset_of!(lrc_seat, node) == 0);
    assert!(offset_of!(lrc_seat, slot) == 2);
    assert!(size_of::<lrc_lease>() == 16 && align_of::<lrc_lease>() == 4);
    assert!(offset_of!(lrc_lease, stripe) == 0);
    assert!(offset_of!(lrc_lease, fragment) == 2);
    assert!(offset_of!(lrc_lease, holder) == 3);
    assert!(offset_of!(lrc_lease, target) == 4);
    assert!(offset_of!(lrc_lease, epoch) == 8);
    assert!(offset_of!(lrc_lease, expiry) == 12);
    assert!(size_of::<lrc_repair_plan>() == 8 && align_of::<lrc_repair_plan>() == 1);
    assert!(offset_of!(lrc_repair_plan, repair) == 0);
    assert!(offset_of!(lrc_repair_plan, sources) == 1);
    assert!(offset_of!(lrc_repair_plan, reserved) == 7);
    assert!(size_of::<lrc_reply>() == 108 && align_of::<lrc_reply>() == 4);
    assert!(offset_of!(lrc_reply, kind) == 0);
    assert!(offset_of!(lrc_reply, refusal) == 1);
    assert!(offset_of!(lrc_reply, repair) == 2);
    assert!(offset_of!(lrc_reply, sources) == 3);
    assert!(offset_of!(lrc_reply, reserved) == 9);
    assert!(offset_of!(lrc_reply, detail) == 12);
    assert!(offset_of!(lrc_reply, clock) == 16);
    assert!(offset_of!(lrc_reply, ended) == 20);
    assert!(offset_of!(lrc_reply, reserved_number) == 24);
    assert!(offset_of!(lrc_reply, lease) == 28);
    assert!(offset_of!(lrc_reply, seats) == 44);
    assert!(size_of::<lrc_entry>() == 128 && align_of::<lrc_entry>() == 4);
    assert!(offset_of!(lrc_entry, session) == 0);
    assert!(offset_of!(lrc_entry, reserved) == 1);
    assert!(offset_of!(lrc_entry, command) == 4);
    assert!(offset_of!(lrc_entry, reply) == 20);
    assert!(size_of::<lrc_home>() == 8 && align_of::<lrc_home>() == 2);
    assert!(offset_of!(lrc_home, seat) == 0);
    assert!(offset_of!(lrc_home, is_there) == 4);
    assert!(offset_of!(lrc_home, reserved) == 5);
    assert!(size_of::<lrc_homes>() == 128 && align_of::<lrc_homes>() == 2);
    assert!(offset_of!(lrc_homes, homes) == 0);
    assert!(size_of::<lrc_level>() == 4 && align_of::<lrc_level>() == 1);
    assert!(offset_of!(lrc_level, kind) == 0);
    assert!(offset_of!(lrc_level, margin) == 1);
    assert!(offset_of!(lrc_level, reserved) == 2);
    assert!(size_of::<lrc_risk>() == 8 && align_of::<lrc_risk>() == 2);
    assert!(offset_of!(lrc_risk, stripe) == 0);
    assert!(offset_of!(lrc_risk, reserved) == 2);
    assert!(offset_of!(lrc_risk, level) == 4);
    assert!(size_of::<lrc_stripe>() == 12 && align_of::<lrc_stripe>() == 2);
    assert!(offset_of!(lrc_stripe, stripe) == 0);
    assert!(offset_of!(lrc_stripe, missing) == 2);
    assert!(offset_of!(lrc_stripe, code) == 4);
    assert!(offset_of!(lrc_stripe, reserved) == 5);
    assert!(offset_of!(lrc_stripe, level) == 8);
    assert!(size_of::<lrc_fragment>() == 4 && align_of::<lrc_fragment>() == 2);
    assert!(offset_of!(lrc_fragment, stripe) == 0);
    assert!(offset_of!(lrc_fragment, fragment) == 2);
    assert!(offset_of!(lrc_fragment, reserved) == 3);
    assert!(size_of::<lrc_mode>() == 4 && align_of::<lrc_mode>() == 1);
    assert!(offset_of!(lrc_mode, mode) == 0);
    assert!(offset_of!(lrc_mode, is_online) == 1);
    assert!(offset_of!(lrc_mode, reserved) == 2);
    assert!(size_of::<lrc_node>() == 16 && align_of::<lrc_node>() == 4);
    assert!(offset_of!(lrc_node, number) == 0);
    assert!(offset_of!(lrc_node, slots) == 2);
    assert!(offset_of!(lrc_node, load) == 4);
    assert!(offset_of!(lrc_node, fault) == 8);
    assert!(offset_of!(lrc_node, upgrade) == 9);
    assert!(offset_of!(lrc_node, mode) == 10);
    assert!(offset_of!(lrc_node, is_online) == 11);
    assert!(offset_of!(lrc_node, is_down) == 12);
    assert!(offset_of!(lrc_node, reserved) == 13);
    assert!(size_of::<lrc_outlook>() == 20 && align_of::<lrc_outlook>() == 2);
    assert!(offset_of!(lrc_outlook, stripe) == 0);
    assert!(offset_of!(lrc_outlook, missing) == 2);
    assert!(offset_of!(lrc_outlook, newly_missing) == 4);
    assert!(offset_of!(lrc_outlook, code) == 6);
    assert!(offset_of!(lrc_outlook, is_harmed) == 7);
    assert!(offset_of!(lrc_outlook, leases_ended) == 8);
    assert!(offset_of!(lrc_outlook, reserved) == 9);
    assert!(offset_of!(lrc_outlook, before) == 12);
    assert!(offset_of!(lrc_outlook, after) == 16);
    assert!(size_of::<lrc_recipe>() == 24 && align_of::<lrc_recipe>() == 1);
    assert!(offset_of!(lrc_recipe, code) == 0);
    assert!(offset_of!(lrc_recipe, fragment) == 1);
    assert!(offset_of!(lrc_recipe, reserved) == 2);
    assert!(offset_of!(lrc_recipe, coefficients) == 8);
    assert!(size_of::<lrc_change>() == 56 && align_of::<lrc_change>() == 4);
    assert!(offset_of!(lrc_change, stripe) == 0);
    assert!(offset_of!(lrc_change, fragment) == 2);
    assert!(offset_of!(lrc_change, was_leased) == 3);
    assert!(offset_of!(lrc_change, is_leased) == 4);
    assert!(offset_of!(lrc_change, reserved) == 5);
    assert!(offset_of!(lrc_change, home_before) == 8);
    assert!(offset_of!(lrc_change, home_after) == 16);
    assert!(offset_of!(lrc_change, lease_before) == 24);
    assert!(offset_of!(lrc_change, lease_after) == 40);
    assert!(size_of::<lrc_bytes>() == 16 && align_of::<lrc_bytes>() == 8);
    assert!(offset_of!(lrc_bytes, at) == 0);
    assert!(offset_of!(lrc_bytes, length) == 8);
    assert!(size_of::<lrc_feed>() == 16 && align_of::<lrc_feed>() == 8);
    assert!(offset_of!(lrc_feed, is_open) == 0);
    assert!(offset_of!(lrc_feed, at) == 8);
    assert!(size_of::<lrc_published>() == 32 && align_of::<lrc_published>() == 8);
    assert!(offset_of!(lrc_published, book) == 0);
    assert!(offset_of!(lrc_published, feed) == 16);
    assert!(size_of::<lrc_viewer>() == 32 && align_of::<lrc_viewer>() == 8);
    assert!(offset_of!(lrc_viewer, book) == 0);
    assert!(offset_of!(lrc_viewer, feed) == 16);
    assert!(size_of::<lrc_buffer>() == 16 && align_of::<lrc_buffer>() == 8);
    assert!(offset_of!(lrc_buffer, at) == 0);
    assert!(offset_of!(lrc_buffer, length) == 8);
};

extern "C" {
    /// The version of the library's interface, and that of its rules.
    pub fn lrc_embed_version() -> u32;
    /// The version of the library's interface, and that of its rules.
    pub fn lrc_embed_rules_version() -> u32;
    /// Opens a closed handle with a book of the nodes of the text and an empty history. DONE, IS_OPEN, OUT_OF_MEMORY, or one of 16
    /// to 21, which also write `detail`. The text is not needed after the call.
    pub fn lrc_embed_open(handle: *mut lrc_handle, text: *const u8, length: usize, detail: *mut usize) -> u32;
    /// Opens a closed handle with a book over the nodes of one text that begins in the image of the other, with an empty history.
    /// The image may be one of lrc_embed_image, also over other nodes, or written by another program. DONE, IS_OPEN,
    /// OUT_OF_MEMORY, or one of 16 to 23, which also write `detail`; INVALID_IMAGE writes `cause` too. The nodes are checked
    /// first, then the form of the image, then its lines over the nodes. The texts are not needed after the call.
    pub fn lrc_embed_open_image(
        handle: *mut lrc_handle,
        nodes: *const u8,
        nodes_length: usize,
        image: *const u8,
        image_length: usize,
        detail: *mut usize,
        cause: *mut u32,
    ) -> u32;
    /// Makes one command. DONE, also if the reply is a refusal; IS_CLOSED, OUT_OF_RANGE, FULL or OUT_OF_MEMORY, and then the
    /// history is as it was. After DONE the history has one more entry: this session, command and reply. To save it, take it from
    /// lrc_embed_call_entry, or from lrc_embed_entry, at the count less 1: the command that was passed may differ from it in
    /// bytes.
    pub fn lrc_embed_call(handle: *mut lrc_handle, session: u8, command: *const lrc_command, reply: *mut lrc_reply) -> u32;
    /// The same, with the whole entry as its result, as lrc_embed_entry would return it.
    pub fn lrc_embed_call_entry(handle: *mut lrc_handle, session: u8, command: *const lrc_command, entry: *mut lrc_entry) -> u32;
    /// The same, with a row for each fragment whose home or live lease is another one after the call, or is there only before or
    /// only after it, in rising order of stripe and fragment. Each other fragment has the home and the lease that it had. DONE,
    /// with `*count` rows; or SHORT if there are more than `length`: then the call is not made, and only `count` is written, the
    /// rows that it needs. Only LRC_FAIL and LRC_TICK can need more than LRC_FRAGMENTS.
    pub fn lrc_embed_call_changes(
        handle: *mut lrc_handle,
        session: u8,
        command: *const lrc_command,
        entry: *mut lrc_entry,
        rows: *mut lrc_change,
        length: usize,
        count: *mut usize,
    ) -> u32;
    /// Makes `count` calls, one after the other, as lrc_embed_call_entry makes each. Of an entry it reads the session and the
    /// command, and it writes the entry of the call there. DONE, if all are made; IS_CLOSED; or OUT_OF_RANGE, FULL or
    /// OUT_OF_MEMORY, as of the first call that can't be made. The calls before that one are made and stay, `made` is their
    /// number, and the entries from there on are as they were. So a store saves the first `made` entries, with each status but
    /// IS_CLOSED, which writes nothing.
    pub fn lrc_embed_calls(handle: *mut lrc_handle, entries: *mut lrc_entry, count: usize, made: *mut usize) -> u32;
    /// The same, if the store has made `place` entries so far: if lrc_embed_before plus lrc_embed_count is `place`, so that the
    /// entry becomes number `place` + 1 of the store. Else MOVED, and nothing changes. So a caller that decided by what it read at
    /// `place` makes the call only if nothing came between. Otherwise as lrc_embed_call. The place counts entries, and to open a
    /// handle is none: once it was closed and opened again, over other nodes say, what was read before may be old at the same
    /// `place`, so read again.
    pub fn lrc_embed_call_at(
        handle: *mut lrc_handle,
        place: u64,
        session: u8,
        command: *const lrc_command,
        reply: *mut lrc_reply,
    ) -> u32;
    /// Returns the reply that lrc_embed_call would get now. Nothing changes, and no memory is requested. DONE, also if the reply
    /// is a refusal; IS_CLOSED, OUT_OF_RANGE or FULL, exactly if the call would return it. The reply holds until the next entry. A
    /// worker peeks at LRC_NEXT, and makes the call only if the reply is LRC_GRANTED.
    pub fn lrc_embed_peek(handle: *mut lrc_handle, session: u8, command: *const lrc_command, reply: *mut lrc_reply) -> u32;
    /// The same, with the whole entry that lrc_embed_call would add now as its result.
    pub fn lrc_embed_peek_entry(handle: *mut lrc_handle, session: u8, command: *const lrc_command, entry: *mut lrc_entry) -> u32;
    /// Makes the commands of `count` saved entries after the history that the book has, and compares each reply. After DONE the
    /// history also has these entries. With any other status the handle is closed and the book is freed; and, except for
    /// IS_CLOSED, `position` is that of the entry where it stopped, from 0: DIFFERENT, the book's reply is another; OUT_OF_RANGE,
    /// it is not an entry; FULL or OUT_OF_MEMORY. A long log may be replayed in pieces. All bytes of a reply are compared; what a
    /// command does not use, and what is reserved outside the reply, is ignored.
    pub fn lrc_embed_replay(handle: *mut lrc_handle, entries: *const lrc_entry, count: usize, position: *mut usize) -> u32;
    /// Forgets the entries: the history is empty then, and takes LRC_HISTORY_LIMIT more. The looks return what they returned
    /// before, but for those at the history; epochs go on where they were. DONE, IS_CLOSED, OUT_OF_MEMORY; or FULL, if a fragment
    /// was leased 4,293,967,295 times or more, the clock is 4,293,967,292 or more, or the store has made more than
    /// 9,223,372,036,854,775,808 entries. With another status than DONE nothing changes. Forget only what the log has, since an
    /// entry that is forgotten can't be read any more.
    pub fn lrc_embed_forget(handle: *mut lrc_handle) -> u32;
    /// The looks. They change nothing. DONE, IS_CLOSED, OUT_OF_RANGE, or UNKNOWN if there is no such stripe.
    pub fn lrc_embed_homes(handle: *mut lrc_handle, stripe: u16, homes: *mut lrc_homes) -> u32;
    /// The looks. They change nothing. DONE, IS_CLOSED, OUT_OF_RANGE, or UNKNOWN if there is no such stripe.
    pub fn lrc_embed_level(handle: *mut lrc_handle, stripe: u16, level: *mut lrc_level) -> u32;
    /// The fragments without a home, or with one on a node that is not online. Fragment f is bit f.
    pub fn lrc_embed_missing(handle: *mut lrc_handle, stripe: u16, missing: *mut u16) -> u32;
    /// The lrc_code of the stripe, which is that of the command that placed it.
    pub fn lrc_embed_code(handle: *mut lrc_handle, stripe: u16, code: *mut u8) -> u32;
    /// The same, or UNKNOWN if the fragment has no live lease.
    pub fn lrc_embed_lease(handle: *mut lrc_handle, stripe: u16, fragment: u8, lease: *mut lrc_lease) -> u32;
    /// How the fragment is rebuilt, if it needs a lease, whether or not it has one: what the next grant of it has as `repair` and
    /// `sources`. It is LRC_GLOBAL too where the stripe is not recoverable. UNKNOWN if the fragment needs no lease.
    pub fn lrc_embed_repair(handle: *mut lrc_handle, stripe: u16, fragment: u8, plan: *mut lrc_repair_plan) -> u32;
    /// How the fragment of a live lease is rebuilt from what is not missing now, where lrc_embed_missing tells what is. If the
    /// fragment itself is not missing, which is a move, it is copied. Another call may get another recipe, if fragments went
    /// missing or came back meanwhile: a worker that cannot read one of its sources asks again. UNKNOWN if there is no such
    /// stripe, or the fragment has no live lease; UNDETERMINED if what is not missing does not determine it.
    pub fn lrc_embed_recipe(handle: *mut lrc_handle, stripe: u16, fragment: u8, recipe: *mut lrc_recipe) -> u32;
    /// DONE, IS_CLOSED, or UNKNOWN if there is no such node. The load counts homes and targets of leases.
    pub fn lrc_embed_load(handle: *mut lrc_handle, node: u16, load: *mut u32) -> u32;
    /// DONE, IS_CLOSED, or UNKNOWN if there is no such node. The load counts homes and targets of leases.
    pub fn lrc_embed_mode(handle: *mut lrc_handle, node: u16, mode: *mut lrc_mode) -> u32;
    /// Whether the node is down, 0 or 1. A node that is not down may be offline all the same, since its domain upgrades or it is
    /// gone.
    pub fn lrc_embed_is_down(handle: *mut lrc_handle, node: u16, is_down: *mut u8) -> u32;
    /// The upgrade domain that is upgrading: DONE, IS_CLOSED, or UNKNOWN if none is.
    pub fn lrc_embed_upgrading(handle: *mut lrc_handle, domain: *mut u8) -> u32;
    /// The number of ticks: DONE or IS_CLOSED.
    pub fn lrc_embed_clock(handle: *mut lrc_handle, clock: *mut u32) -> u32;
    /// The stripes that are not whole, in the order of repair. DONE, with `*count` rows; IS_CLOSED, OUT_OF_MEMORY; or SHORT if
    /// there are more than `length`, which cannot be with LRC_STRIPES rows, and then only `count` is written: the rows that it
    /// needs.
    pub fn lrc_embed_risk(handle: *mut lrc_handle, rows: *mut lrc_risk, length: usize, count: *mut usize) -> u32;
    /// The first of these rows, without a request for memory: DONE, IS_CLOSED, or UNKNOWN if all stripes are whole.
    pub fn lrc_embed_first_risk(handle: *mut lrc_handle, row: *mut lrc_risk) -> u32;
    /// The image of the book's state as a text, whose lines docs/FORMATS.md describes. Books in the same state after as many
    /// entries and grants have the same text, whatever led there, and lrc_embed_open_image begins in it. DONE, with `*length`
    /// bytes; IS_CLOSED, OUT_OF_MEMORY; SHORT if there is room for less, and then only `length` is written: the bytes that it
    /// needs; or FULL, as lrc_embed_forget.
    pub fn lrc_embed_image(handle: *mut lrc_handle, text: *mut u8, room: usize, length: *mut usize) -> u32;
    /// The number of entries of the history: DONE or IS_CLOSED.
    pub fn lrc_embed_count(handle: *mut lrc_handle, count: *mut usize) -> u32;
    /// The number of entries of the store before the history: those before the image that the book began in, and those that were
    /// forgotten. So the entry at an index is number `before` + index + 1 of the store. DONE or IS_CLOSED.
    pub fn lrc_embed_before(handle: *mut lrc_handle, before: *mut u64) -> u32;
    /// The entry at an index, from 0: DONE, IS_CLOSED or UNKNOWN.
    pub fn lrc_embed_entry(handle: *mut lrc_handle, index: usize, entry: *mut lrc_entry) -> u32;
    /// The walks. Each writes `*count` rows from the start of the buffer: the first rows of its table from a place on, as many as
    /// there is room for, whatever the numbers of the place are. If `*count` is less than `length`, the table ends there; else go
    /// on from the place after the last row. DONE, IS_CLOSED, or what stands at the walk; and no memory is requested, but by
    /// lrc_embed_homes_on. What a walk tells holds until the next entry; a walk that goes on after one may miss a row or tell an
    /// old one. That over entries goes on whatever comes between: their places stay. The stripes from the number `from` on, in
    /// rising order.
    pub fn lrc_embed_stripes(handle: *mut lrc_handle, from: u16, rows: *mut lrc_stripe, length: usize, count: *mut usize) -> u32;
    /// The nodes from a position on, in the order of the text; the first is at 0.
    pub fn lrc_embed_nodes(handle: *mut lrc_handle, from: usize, rows: *mut lrc_node, length: usize, count: *mut usize) -> u32;
    /// The live leases in rising order of stripe and fragment, with their expiry, from the fragment `from_fragment` of the stripe
    /// `from_stripe` on. After a row go on from its stripe, and its fragment plus 1.
    pub fn lrc_embed_leases(
        handle: *mut lrc_handle,
        from_stripe: u16,
        from_fragment: u8,
        rows: *mut lrc_lease,
        length: usize,
        count: *mut usize,
    ) -> u32;
    /// The fragments with a home on a node, in the same order, from one on. UNKNOWN if there is no such node, OUT_OF_MEMORY. A
    /// node has LRC_SLOTS of them at most.
    pub fn lrc_embed_homes_on(
        handle: *mut lrc_handle,
        node: u16,
        from_stripe: u16,
        from_fragment: u8,
        rows: *mut lrc_fragment,
        length: usize,
        count: *mut usize,
    ) -> u32;
    /// The entries of the store from a place on, which is the number of those before it: entry number `place` + 1 is the first
    /// row. So lrc_embed_before is the first place that the book still has. FORGOTTEN exactly if the place is before that, and
    /// then nothing is written.
    pub fn lrc_embed_entries(handle: *mut lrc_handle, place: u64, rows: *mut lrc_entry, length: usize, count: *mut usize) -> u32;
    /// What would become of the stripes if all these nodes stopped at once, or were lost: `outage` is an lrc_outage. The rows are
    /// the stripes that would not be whole then, in rising order, also those that are not whole now. `*is_safe` is 1 if no stripe
    /// is harmed, else 0. So it is 0 too where a stripe that is unavailable or lost now has a home or the target of a lease on one
    /// of the nodes, also on one that is down. Take any LRC_UP, LRC_UPGRADED and LRC_REPORT that follow, with the outage without
    /// the LRC_UP of its nodes: after each of them a stripe that is not harmed is recoverable with the outage exactly if it is
    /// without. Other calls that follow are left out. Where a node is lost, its homes are. Nothing changes. DONE, IS_CLOSED,
    /// OUT_OF_MEMORY; OUT_OF_RANGE if it is no outage; UNKNOWN if there is no such node; or SHORT if there are more rows than
    /// `length`, which cannot be with LRC_STRIPES rows, and then only `count`, the rows that it needs, and `is_safe` are written.
    pub fn lrc_embed_forecast(
        handle: *mut lrc_handle,
        outage: u8,
        nodes: *const u16,
        nodes_length: usize,
        rows: *mut lrc_outlook,
        length: usize,
        count: *mut usize,
        is_safe: *mut u8,
    ) -> u32;
    /// The texts, which are those of lrcman to the byte. Each is written from the start of a buffer, with no zero at the end:
    /// DONE, with `*length` bytes; or SHORT if there is room for less, and then only `length` is written, the bytes that it needs.
    /// A table of the book: `view` is an lrc_view. IS_CLOSED, OUT_OF_RANGE if there is no such table, or OUT_OF_MEMORY.
    pub fn lrc_embed_show(handle: *mut lrc_handle, view: u8, text: *mut u8, room: usize, length: *mut usize) -> u32;
    /// The table of a forecast, with `is_safe` and statuses as of lrc_embed_forecast.
    pub fn lrc_embed_forecast_table(
        handle: *mut lrc_handle,
        outage: u8,
        nodes: *const u16,
        nodes_length: usize,
        text: *mut u8,
        room: usize,
        length: *mut usize,
        is_safe: *mut u8,
    ) -> u32;
    /// The line that `lrcman run` prints of the entry at an index, from 0: its number in the store, its reply, and LF; at most 220
    /// bytes. IS_CLOSED, UNKNOWN, OUT_OF_MEMORY, or FULL if lrc_embed_before is above 9,223,372,036,854,775,808.
    pub fn lrc_embed_reply_line(handle: *mut lrc_handle, index: usize, text: *mut u8, room: usize, length: *mut usize) -> u32;
    /// The text of a reply, which is its line without the number of its entry and without LF: at most 198 bytes. It takes no
    /// handle, so a reply that a log or a client keeps has its text without a book. OUT_OF_RANGE if the library writes no such
    /// reply: a number is out of range, or a field that the kind does not use is not 0; or OUT_OF_MEMORY.
    pub fn lrc_embed_reply_text(reply: *const lrc_reply, text: *mut u8, room: usize, length: *mut usize) -> u32;
    /// The line of a command in a script, without LF: at most 26 bytes. OUT_OF_RANGE if it is no command, or OUT_OF_MEMORY.
    pub fn lrc_embed_command_line(command: *const lrc_command, text: *mut u8, room: usize, length: *mut usize) -> u32;
    /// The command of a line of a script, which is given without its LF. DONE; UNKNOWN if the line is empty or a comment; or
    /// BAD_LINE, and then only `cause` is written, an lrc_line_cause. No memory is requested.
    pub fn lrc_embed_read_command(line: *const u8, length: usize, command: *mut lrc_command, cause: *mut u32) -> u32;
    /// A word for a number: of a status, a kind of reply, a refusal, a kind of level or of mode, a code, or a kind of repair.
    /// ASCII letters and spaces, at most 24, with no zero at the end. DONE, with `*length` bytes; UNKNOWN if the number has none;
    /// or SHORT if there is room for less, and then only `length` is written.
    pub fn lrc_embed_status_name(status: u32, text: *mut u8, room: usize, length: *mut usize) -> u32;
    /// A word for a number: of a status, a kind of reply, a refusal, a kind of level or of mode, a code, or a kind of repair.
    /// ASCII letters and spaces, at most 24, with no zero at the end. DONE, with `*length` bytes; UNKNOWN if the number has none;
    /// or SHORT if there is room for less, and then only `length` is written.
    pub fn lrc_embed_reply_name(kind: u8, text: *mut u8, room: usize, length: *mut usize) -> u32;
    /// A word for a number: of a status, a kind of reply, a refusal, a kind of level or of mode, a code, or a kind of repair.
    /// ASCII letters and spaces, at most 24, with no zero at the end. DONE, with `*length` bytes; UNKNOWN if the number has none;
    /// or SHORT if there is room for less, and then only `length` is written.
    pub fn lrc_embed_refusal_name(refusal: u8, text: *mut u8, room: usize, length: *mut usize) -> u32;
    /// A word for a number: of a status, a kind of reply, a refusal, a kind of level or of mode, a code, or a kind of repair.
    /// ASCII letters and spaces, at most 24, with no zero at the end. DONE, with `*length` bytes; UNKNOWN if the number has none;
    /// or SHORT if there is room for less, and then only `length` is written.
    pub fn lrc_embed_level_name(kind: u8, text: *mut u8, room: usize, length: *mut usize) -> u32;
    /// A word for a number: of a status, a kind of reply, a refusal, a kind of level or of mode, a code, or a kind of repair.
    /// ASCII letters and spaces, at most 24, with no zero at the end. DONE, with `*length` bytes; UNKNOWN if the number has none;
    /// or SHORT if there is room for less, and then only `length` is written.
    pub fn lrc_embed_mode_name(kind: u8, text: *mut u8, room: usize, length: *mut usize) -> u32;
    /// A word for a number: of a status, a kind of reply, a refusal, a kind of level or of mode, a code, or a kind of repair.
    /// ASCII letters and spaces, at most 24, with no zero at the end. DONE, with `*length` bytes; UNKNOWN if the number has none;
    /// or SHORT if there is room for less, and then only `length` is written.
    pub fn lrc_embed_code_name(code: u8, text: *mut u8, room: usize, length: *mut usize) -> u32;
    /// A word for a number: of a status, a kind of reply, a refusal, a kind of level or of mode, a code, or a kind of repair.
    /// ASCII letters and spaces, at most 24, with no zero at the end. DONE, with `*length` bytes; UNKNOWN if the number has none;
    /// or SHORT if there is room for less, and then only `length` is written.
    pub fn lrc_embed_repair_name(repair: u8, text: *mut u8, room: usize, length: *mut usize) -> u32;
    /// The word with which the line of a kind of command begins, in the same way: at most 8 letters and digits.
    pub fn lrc_embed_command_name(kind: u8, text: *mut u8, room: usize, length: *mut usize) -> u32;
    /// The numbers that commands of a kind have, in the order in which they stand behind that word: each an lrc_field, at most 3.
    /// DONE, with `*count` of them; UNKNOWN if there is no such kind; or SHORT if there is room for less, and then only `count` is
    /// written.
    pub fn lrc_embed_command_fields(kind: u8, fields: *mut u8, room: usize, count: *mut usize) -> u32;
    /// The words of lrcman for a refusal, in the same way, at most 80 bytes: for an lrc_line_cause; for an lrc_cause; and for a
    /// status from SYNTAX to TOO_MANY.
    pub fn lrc_embed_line_words(cause: u32, text: *mut u8, room: usize, length: *mut usize) -> u32;
    /// The words of lrcman for a refusal, in the same way, at most 80 bytes: for an lrc_line_cause; for an lrc_cause; and for a
    /// status from SYNTAX to TOO_MANY.
    pub fn lrc_embed_cause_words(cause: u32, text: *mut u8, room: usize, length: *mut usize) -> u32;
    /// The words of lrcman for a refusal, in the same way, at most 80 bytes: for an lrc_line_cause; for an lrc_cause; and for a
    /// status from SYNTAX to TOO_MANY.
    pub fn lrc_embed_nodes_words(status: u32, text: *mut u8, room: usize, length: *mut usize) -> u32;
    /// Looks beside calls. A published book writes each call to a feed. A viewer has a book of its own, which begins in the image
    /// of the published one and makes the calls of the feed as it is told to. No look of a viewer takes a lock, no call waits for
    /// a viewer, and there may be any number of viewers. Published book and viewers may be on different threads at the same time;
    /// each of them is used by one thread at a time. They may be closed in any order.  Publishes the book of an open handle, which
    /// is closed then. DONE; IS_OPEN, if one of the two in `published` is open; IS_CLOSED; OUT_OF_MEMORY; or FULL, if the store
    /// has made more than 9,223,372,036,854,775,808 entries. With another status than DONE nothing changes.
    pub fn lrc_embed_publish(handle: *mut lrc_handle, published: *mut lrc_published) -> u32;
    /// Takes the book back into a closed handle. Its viewers keep their books, and are told so. DONE, IS_OPEN, IS_CLOSED.
    pub fn lrc_embed_unpublish(published: *mut lrc_published, handle: *mut lrc_handle) -> u32;
    /// Makes one command of a published book, as lrc_embed_call does. The call is in the feed before this returns, so each viewer
    /// that follows after that makes it too. Also MOVED; and FULL too if the feed is: then take the book back and publish it
    /// again.
    pub fn lrc_embed_call_published(
        published: *mut lrc_published,
        session: u8,
        command: *const lrc_command,
        reply: *mut lrc_reply,
    ) -> u32;
    /// Makes a viewer of a published book: `nodes` is the text that the book was opened with, or one of the same nodes in the same
    /// order. The published book stays as it is, and makes no call meanwhile. DONE; IS_OPEN, of the viewer; IS_CLOSED and MOVED,
    /// of the published book; OUT_OF_MEMORY; DIFFERENT, if the text is refused or its nodes are others; or FULL, as
    /// lrc_embed_forget.
    pub fn lrc_embed_view(published: *mut lrc_published, nodes: *const u8, length: usize, viewer: *mut lrc_viewer) -> u32;
    /// Makes the calls of the published book that the viewer has not made yet, on the viewer's book. Writes the place, how many
    /// entries of the store its book follows from, and whether the book is still published, 0 or 1: if not, the viewer has all of
    /// its calls. A viewer never goes back. DONE, IS_CLOSED or MOVED; FULL, if the history of its book is, or OUT_OF_MEMORY: then
    /// it has made the calls before, and goes on there. No memory is requested if there is no call to make.
    pub fn lrc_embed_follow(viewer: *mut lrc_viewer, place: *mut u64, is_published: *mut u8) -> u32;
    /// Closes a viewer and frees its book. A closed one stays closed. Always DONE.
    pub fn lrc_embed_close_viewer(viewer: *mut lrc_viewer) -> u32;
    /// The bytes of a stripe. These functions take no handle, and no memory is requested: any threads may call them at once.
    /// docs/CODING.md says how a worker uses them. The recipe of a fragment of a stripe of a code, where some are missing;
    /// fragment f is bit f of `missing`. A fragment whose bit is not set is copied. Bits for which the code has no fragment mean
    /// nothing. DONE; OUT_OF_RANGE if there is no such code, or it has no such fragment; or UNDETERMINED if what is not missing
    /// does not determine it. It reads the fragments of the local group if no other of it is missing, else 12, or 6 of a narrow
    /// stripe: no fewer determine it. Of the sets of that size that do it reads the one that comes first by its numbers in rising
    /// order, so whoever asks gets the same recipe.
    pub fn lrc_embed_recipe_of(code: u8, missing: u16, fragment: u8, recipe: *mut lrc_recipe) -> u32;
    /// The generator matrix of a code, row by row, with a row for each fragment and a column for each data fragment: 16 times 12
    /// bytes, or 10 times 6. So ISA-L takes it, which encodes with the rows from the twelfth, or the sixth, on. DONE, with
    /// `*length` bytes; OUT_OF_RANGE if there is no such code; or SHORT if there is room for less, and then only `length` is
    /// written.
    pub fn lrc_embed_matrix(code: u8, rows: *mut u8, room: usize, length: *mut usize) -> u32;
    /// Writes the four parities of a stripe, in order. `data_fragments` has the data fragments in order, 12 or 6, and all buffers
    /// have one length, which may be 0. DONE; OUT_OF_RANGE if there is no such code; MISCOUNTED or UNEVEN, and then nothing is
    /// written. The array of buffers stays as it is. ISA-L does the same faster.
    pub fn lrc_embed_encode(
        code: u8,
        data_fragments: *const lrc_bytes,
        data_fragments_count: usize,
        parities: *mut lrc_buffer,
        parities_count: usize,
    ) -> u32;
    /// Writes what a recipe makes of the fragments of a stripe, which stand by number: as many as the code has, 16 or 10. Those
    /// whose coefficient is not 0 are as long as `rebuilt`. The others are not read, and may be empty. DONE; OUT_OF_RANGE if the
    /// recipe's code is none, or has no fragment of a coefficient that is not 0; MISCOUNTED or UNEVEN; and then nothing is
    /// written.
    pub fn lrc_embed_rebuild(
        recipe: *const lrc_recipe,
        fragments: *const lrc_bytes,
        fragments_count: usize,
        rebuilt: *mut u8,
        length: usize,
    ) -> u32;
    /// Closes the handle and frees its book. A closed handle stays closed. Always DONE.
    pub fn lrc_embed_close(handle: *mut lrc_handle) -> u32;
}
