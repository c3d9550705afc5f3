//! Words for numbers, for people: nothing where a number has none.
//!
//! ```
//! # use lrc_embed::{sys, words};
//! assert_eq!(words::refusal_name(sys::LRC_NO_LAWFUL_NODE).as_deref(), Some("no lawful node"));
//! assert_eq!(words::refusal_name(100), None);
//! ```
use crate::texts::written;
use lrc_embed_sys as sys;

// (longer words than names are asked for twice)
macro_rules! words {
    ($($(#[$said:meta])* $name:ident($number:ty) = $call:ident;)*) => {$(
        $(#[$said])*
        pub fn $name(number: $number) -> Option<String> {
            written(24, |text, room, length| unsafe { sys::$call(number, text, room, length) }).ok()
        }
    )*};
}

words! {
    /// Of a status.
    status_name(u32) = lrc_embed_status_name;
    /// Of a kind of reply.
    reply_name(u8) = lrc_embed_reply_name;
    /// Of a refusal.
    refusal_name(u8) = lrc_embed_refusal_name;
    /// Of a kind of level.
    level_name(u8) = lrc_embed_level_name;
    /// Of a kind of mode.
    mode_name(u8) = lrc_embed_mode_name;
    /// Of a code.
    code_name(u8) = lrc_embed_code_name;
    /// Of a kind of repair.
    repair_name(u8) = lrc_embed_repair_name;
    /// With which the line of a kind of command begins.
    command_name(u8) = lrc_embed_command_name;
    /// Why a line of a script is bad, of a cause as [`sys::LRC_LINE_UNKNOWN_WORD`].
    line_words(u32) = lrc_embed_line_words;
    /// Why a line of an image is invalid, of a cause as [`sys::LRC_CAUSE_SEAT_TAKEN`].
    cause_words(u32) = lrc_embed_cause_words;
    /// Why a text of nodes is refused, of a status from [`sys::LRC_SYNTAX`] to [`sys::LRC_TOO_MANY`].
    nodes_words(u32) = lrc_embed_nodes_words;
}

/// The numbers that commands of a kind have, in the order of their lines: each one as [`sys::LRC_FIELD_STRIPE`].
pub fn command_fields(kind: u8) -> Option<Vec<u8>> {
    let (mut fields, mut count) = ([0; 3], 0);
    let status = unsafe { sys::lrc_embed_command_fields(kind, fields.as_mut_ptr(), fields.len(), &mut count) };
    (status == sys::LRC_DONE).then(|| fields[..count].to_vec())
}
