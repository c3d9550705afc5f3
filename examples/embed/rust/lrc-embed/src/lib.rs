//! A proved book of erasure-coded stripes, over `liblrc_embed`: a [`Book`] owns it, and [`recipe_of`], [`matrix`], [`encode`] and
//! [`rebuild`] are for the bytes of stripes. [`read_command`], [`command_line`], [`reply_text`] and [`words`] are for people.
//! `docs/EMBEDDING.md` says how a store keeps its lock and its log around a book, and `lrc_embed.h` what each call returns. The
//! structs are those of the header.
//!
//! A book may go from one thread to another, but no two threads use it at once:
//!
//! ```compile_fail
//! fn shared<T: Sync>() {}
//! shared::<lrc_embed::Book>();
//! ```
//!
//! ```
//! fn sent<T: Send>() {}
//! sent::<lrc_embed::Book>();
//! ```
mod bytes;
mod command;
mod texts;
mod views;
pub mod words;

use std::cell::UnsafeCell;
use std::fmt::{self, Display, Formatter};

pub use bytes::{encode, matrix, rebuild, recipe_of};
pub use command::Command;
pub use texts::{command_line, read_command, reply_text};
pub use views::{Published, Viewer};
pub use lrc_embed_sys as sys;
pub use sys::{
    lrc_change as Change, lrc_entry as Entry, lrc_fragment as Fragment, lrc_home as Home, lrc_lease as Lease, lrc_level as Level, lrc_mode as Mode,
    lrc_node as Node, lrc_outlook as Outlook, lrc_recipe as Recipe, lrc_repair_plan as RepairPlan, lrc_reply as Reply,
    lrc_risk as Risk, lrc_seat as Seat, lrc_stripe as Stripe,
};

/// A status of the library other than done.
#[derive(Clone, Copy, Debug, PartialEq, Eq)]
pub struct Fault {
    /// The status, as [`sys::LRC_FULL`]; 0 if the library has another version than this crate.
    pub status: u32,
    /// Where it stopped: the position of a node or an entry, the number of a node, or the line of an image. Else 0.
    pub detail: u64,
    /// Why the line of an image is invalid, as [`sys::LRC_CAUSE_SEAT_TAKEN`], or that of a script is bad, as
    /// [`sys::LRC_LINE_UNKNOWN_WORD`]. Else 0.
    pub cause: u32,
}

impl Display for Fault {
    fn fmt(&self, text: &mut Formatter) -> fmt::Result {
        let Fault { status, detail, cause } = *self;
        if status == 0 {
            let own = sys::LRC_EMBED_VERSION;
            return write!(text, "the library has version {detail} of its interface, and this crate is for version {own}");
        }
        let why = match status {
            sys::LRC_BAD_LINE => words::line_words(cause),
            sys::LRC_INVALID_IMAGE => words::cause_words(cause),
            _ => words::nodes_words(status),
        };
        let name = words::status_name(status).unwrap_or_else(|| format!("status {status}"));
        write!(text, "{name}{}", why.map_or_else(String::new, |why| format!(": {why}")))
    }
}

impl std::error::Error for Fault {}

/// Done, or the fault.
pub(crate) fn done(status: u32) -> Result<(), Fault> {
    found_at(status, 0, 0)
}

fn found_at(status: u32, detail: usize, cause: u32) -> Result<(), Fault> {
    match status {
        sys::LRC_DONE => Ok(()),
        sys::LRC_INVALID_IMAGE => Err(Fault { status, detail: detail as u64, cause }),
        _ => Err(Fault { status, detail: detail as u64, cause: 0 }),
    }
}

/// The result, or nothing if there is no such thing.
fn known<T>(status: u32, result: T) -> Result<Option<T>, Fault> {
    if_known(done(status).map(|()| result))
}

/// Nothing where there is no such thing.
pub(crate) fn if_known<T>(result: Result<T, Fault>) -> Result<Option<T>, Fault> {
    match result {
        Err(Fault { status: sys::LRC_UNKNOWN, .. }) => Ok(None),
        result => result.map(Some),
    }
}

/// The library has to have the interface of this crate: with another one, structs and calls may mean something else.
fn expect_version() -> Result<(), Fault> {
    match unsafe { sys::lrc_embed_version() } {
        sys::LRC_EMBED_VERSION => Ok(()),
        found => Err(Fault { status: 0, detail: found.into(), cause: 0 }),
    }
}

/// The version of the library's rules, which is kept with each log and each image.
pub fn rules_version() -> u32 {
    unsafe { sys::lrc_embed_rules_version() }
}

/// What would become of the stripes after an outage.
#[derive(Clone, Debug)]
pub struct Forecast {
    /// The stripes that would not be whole, in rising order.
    pub rows: Vec<Outlook>,
    /// Whether no stripe is harmed.
    pub is_safe: bool,
}

/// What happens to nodes.
#[derive(Clone, Copy, Debug, PartialEq, Eq)]
#[repr(u8)]
pub enum Outage {
    /// They go offline, with what is on them.
    Stop = sys::LRC_STOP,
    /// They are lost, with all that is on them.
    Lose = sys::LRC_LOSE,
}

/// A book. It is closed when it is dropped.
#[derive(Debug)]
#[repr(transparent)] // (a published book begins with it, as in C)
pub struct Book {
    handle: UnsafeCell<sys::lrc_handle>, // (looks take it as C does, and change nothing)
}

// A thread may have it after another one; no thread's own memory is in it.
unsafe impl Send for Book {}

/// A look: a call of the library with the handle of a book, which writes its result.
macro_rules! looked {
    ($book:expr, $call:ident($($given:expr),*), $result:expr) => {{
        let mut result = $result;
        let status = unsafe { sys::$call($book.handle.get(), $($given,)* &mut result) };
        known(status, result)
    }};
}

impl Book {
    fn closed() -> Result<Book, Fault> {
        expect_version()?;
        Ok(Book { handle: UnsafeCell::new(sys::LRC_CLOSED) })
    }

    /// Opens a book over the nodes of a text, with an empty history.
    pub fn open(nodes: &str) -> Result<Book, Fault> {
        let (book, mut detail) = (Book::closed()?, 0);
        let status = unsafe { sys::lrc_embed_open(book.handle.get(), nodes.as_ptr(), nodes.len(), &mut detail) };
        found_at(status, detail, 0).map(|()| book)
    }

    /// Opens a book over the nodes of one text that begins in the image of the other.
    pub fn open_image(nodes: &str, image: &str) -> Result<Book, Fault> {
        let (book, mut detail, mut cause) = (Book::closed()?, 0, 0);
        let (at, (text, room)) = (book.handle.get(), (image.as_ptr(), image.len()));
        let status = unsafe { sys::lrc_embed_open_image(at, nodes.as_ptr(), nodes.len(), text, room, &mut detail, &mut cause) };
        found_at(status, detail, cause).map(|()| book)
    }

    /// Makes a command of a session, 1 to 8. A refusal is a reply. A store that keeps a log takes [`Book::call_entry`].
    pub fn call(&mut self, session: u8, command: Command) -> Result<Reply, Fault> {
        let mut reply = Reply::default();
        done(unsafe { sys::lrc_embed_call(self.handle.get(), session, &command.into(), &mut reply) }).map(|()| reply)
    }

    /// Makes a command, and returns its entry, which a store saves before it acts on the reply.
    pub fn call_entry(&mut self, session: u8, command: Command) -> Result<Entry, Fault> {
        let mut entry = Entry::default();
        done(unsafe { sys::lrc_embed_call_entry(self.handle.get(), session, &command.into(), &mut entry) }).map(|()| entry)
    }

    /// Makes a command, and returns its entry and a row for each fragment whose home or live lease it changed.
    pub fn call_changes(&mut self, session: u8, command: Command) -> Result<(Entry, Vec<Change>), Fault> {
        let (mut entry, mut count) = (Entry::default(), sys::LRC_FRAGMENTS);
        loop {
            let mut rows = vec![Change::default(); count];
            let (book, at) = (self.handle.get(), rows.as_mut_ptr());
            let status = unsafe {
                sys::lrc_embed_call_changes(book, session, &command.into(), &mut entry, at, rows.len(), &mut count)
            };
            if status != sys::LRC_SHORT {
                rows.truncate(count);
                return done(status).map(|()| (entry, rows));
            } // (else nothing was made, and the count is that of the rows it needs)
        }
    }

    /// Makes the calls of the sessions and commands of these entries, one after the other, and writes each entry there. Returns how
    /// many are made, and why the next one is not, if one is left: those before it stay.
    pub fn calls(&mut self, entries: &mut [Entry]) -> (usize, Result<(), Fault>) {
        let mut made = 0;
        let status = unsafe { sys::lrc_embed_calls(self.handle.get(), entries.as_mut_ptr(), entries.len(), &mut made) };
        (made, found_at(status, made, 0))
    }

    /// A call, if the store has made as many entries as this so far.
    pub fn call_at(&mut self, place: u64, session: u8, command: Command) -> Result<Reply, Fault> {
        let mut reply = Reply::default();
        done(unsafe { sys::lrc_embed_call_at(self.handle.get(), place, session, &command.into(), &mut reply) }).map(|()| reply)
    }

    /// The reply that a call would get now.
    pub fn peek(&self, session: u8, command: Command) -> Result<Reply, Fault> {
        let mut reply = Reply::default();
        done(unsafe { sys::lrc_embed_peek(self.handle.get(), session, &command.into(), &mut reply) }).map(|()| reply)
    }

    /// The entry that a call would add now.
    pub fn peek_entry(&self, session: u8, command: Command) -> Result<Entry, Fault> {
        let mut entry = Entry::default();
        done(unsafe { sys::lrc_embed_peek_entry(self.handle.get(), session, &command.into(), &mut entry) }).map(|()| entry)
    }

    /// Makes the commands of saved entries, and compares each reply. After a fault, whose detail is the position of its entry, the
    /// book is closed.
    pub fn replay(&mut self, entries: &[Entry]) -> Result<(), Fault> {
        let mut position = 0;
        let status = unsafe { sys::lrc_embed_replay(self.handle.get(), entries.as_ptr(), entries.len(), &mut position) };
        found_at(status, position, 0)
    }

    /// Empties the history. The looks return what they returned before, but for those at entries.
    pub fn forget(&mut self) -> Result<(), Fault> {
        done(unsafe { sys::lrc_embed_forget(self.handle.get()) })
    }

    /// The homes of a stripe's fragments, or nothing if there is no such stripe.
    pub fn homes(&self, stripe: u16) -> Result<Option<[Home; sys::LRC_FRAGMENTS]>, Fault> {
        Ok(looked!(self, lrc_embed_homes(stripe), sys::lrc_homes::default())?.map(|found| found.homes))
    }

    pub fn level(&self, stripe: u16) -> Result<Option<Level>, Fault> {
        looked!(self, lrc_embed_level(stripe), Level::default())
    }

    /// The fragments that are missing: fragment f is bit f.
    pub fn missing(&self, stripe: u16) -> Result<Option<u16>, Fault> {
        looked!(self, lrc_embed_missing(stripe), 0)
    }

    /// The code of a stripe, [`sys::LRC_WIDE`] or [`sys::LRC_NARROW`].
    pub fn code(&self, stripe: u16) -> Result<Option<u8>, Fault> {
        looked!(self, lrc_embed_code(stripe), 0)
    }

    /// The live lease of a fragment.
    pub fn lease(&self, stripe: u16, fragment: u8) -> Result<Option<Lease>, Fault> {
        looked!(self, lrc_embed_lease(stripe, fragment), Lease::default())
    }

    /// How a fragment is rebuilt, if it needs a lease.
    pub fn repair(&self, stripe: u16, fragment: u8) -> Result<Option<RepairPlan>, Fault> {
        looked!(self, lrc_embed_repair(stripe, fragment), RepairPlan::default())
    }

    /// How the fragment of a live lease is rebuilt from what is not missing now.
    pub fn recipe(&self, stripe: u16, fragment: u8) -> Result<Option<Recipe>, Fault> {
        looked!(self, lrc_embed_recipe(stripe, fragment), Recipe::default())
    }

    /// The homes and the targets of leases on a node.
    pub fn load(&self, node: u16) -> Result<Option<u32>, Fault> {
        looked!(self, lrc_embed_load(node), 0)
    }

    pub fn mode(&self, node: u16) -> Result<Option<Mode>, Fault> {
        looked!(self, lrc_embed_mode(node), Mode::default())
    }

    pub fn is_down(&self, node: u16) -> Result<Option<bool>, Fault> {
        Ok(looked!(self, lrc_embed_is_down(node), 0)?.map(|found: u8| found == 1))
    }

    /// The upgrade domain that is upgrading.
    pub fn upgrading(&self) -> Result<Option<u8>, Fault> {
        looked!(self, lrc_embed_upgrading(), 0)
    }

    /// The number of ticks.
    pub fn clock(&self) -> Result<u32, Fault> {
        let mut clock = 0;
        done(unsafe { sys::lrc_embed_clock(self.handle.get(), &mut clock) }).map(|()| clock)
    }

    /// The stripes that are not whole, in the order of repair.
    pub fn risk(&self) -> Result<Vec<Risk>, Fault> {
        let (mut rows, mut count) = (vec![Risk::default(); sys::LRC_STRIPES], 0);
        done(unsafe { sys::lrc_embed_risk(self.handle.get(), rows.as_mut_ptr(), rows.len(), &mut count) })?;
        rows.truncate(count);
        Ok(rows)
    }

    /// The first of these.
    pub fn first_risk(&self) -> Result<Option<Risk>, Fault> {
        looked!(self, lrc_embed_first_risk(), Risk::default())
    }

    /// The entries that the history has.
    pub fn count(&self) -> Result<usize, Fault> {
        let mut count = 0;
        done(unsafe { sys::lrc_embed_count(self.handle.get(), &mut count) }).map(|()| count)
    }

    /// The entries of the store before the history.
    pub fn before(&self) -> Result<u64, Fault> {
        let mut before = 0;
        done(unsafe { sys::lrc_embed_before(self.handle.get(), &mut before) }).map(|()| before)
    }

    /// The entry at an index, from 0.
    pub fn entry(&self, index: usize) -> Result<Option<Entry>, Fault> {
        looked!(self, lrc_embed_entry(index), Entry::default())
    }

    /// The entry of the last call.
    pub fn last_entry(&self) -> Result<Option<Entry>, Fault> {
        match self.count()? {
            0 => Ok(None),
            count => self.entry(count - 1),
        }
    }

    /// All rows of a walk: `call` writes rows from a place on, and `after` is the place behind a row, of so many.
    fn walked<R: Copy + Default, P>(
        mut place: P,
        mut call: impl FnMut(&P, &mut [R], &mut usize) -> u32,
        after: impl Fn(&P, &R) -> P,
    ) -> Result<Vec<R>, Fault> {
        let (mut rows, mut all) = ([R::default(); 256], Vec::new());
        loop {
            let mut count = 0;
            done(call(&place, &mut rows, &mut count))?;
            all.extend_from_slice(&rows[..count]);
            if count < rows.len() {
                return Ok(all);
            }
            place = after(&place, &rows[count - 1]);
        }
    }

    /// The stripes, in rising order.
    pub fn stripes(&self) -> Result<Vec<Stripe>, Fault> {
        let at = self.handle.get();
        let call = |from: &u16, rows: &mut [Stripe], count: &mut usize| unsafe {
            sys::lrc_embed_stripes(at, *from, rows.as_mut_ptr(), rows.len(), count)
        };
        Book::walked(0, call, |_, row| row.stripe + 1)
    }

    /// The nodes, in the order of the text.
    pub fn nodes(&self) -> Result<Vec<Node>, Fault> {
        let at = self.handle.get();
        let call = |from: &usize, rows: &mut [Node], count: &mut usize| unsafe {
            sys::lrc_embed_nodes(at, *from, rows.as_mut_ptr(), rows.len(), count)
        };
        Book::walked(0, call, |from, _| from + 256)
    }

    /// The live leases, in rising order of stripe and fragment.
    pub fn leases(&self) -> Result<Vec<Lease>, Fault> {
        let at = self.handle.get();
        let call = |from: &(u16, u8), rows: &mut [Lease], count: &mut usize| unsafe {
            sys::lrc_embed_leases(at, from.0, from.1, rows.as_mut_ptr(), rows.len(), count)
        };
        Book::walked((0, 0), call, |_, row| (row.stripe, row.fragment + 1))
    }

    /// The fragments with a home on a node, or nothing if there is no such node.
    pub fn homes_on(&self, node: u16) -> Result<Option<Vec<Fragment>>, Fault> {
        let at = self.handle.get();
        let call = |from: &(u16, u8), rows: &mut [Fragment], count: &mut usize| unsafe {
            sys::lrc_embed_homes_on(at, node, from.0, from.1, rows.as_mut_ptr(), rows.len(), count)
        };
        if_known(Book::walked((0, 0), call, |_, row| (row.stripe, row.fragment + 1)))
    }

    /// The entries of the store from a place on, which is the number of those before it.
    pub fn entries(&self, place: u64) -> Result<Vec<Entry>, Fault> {
        let at = self.handle.get();
        let call = |from: &u64, rows: &mut [Entry], count: &mut usize| unsafe {
            sys::lrc_embed_entries(at, *from, rows.as_mut_ptr(), rows.len(), count)
        };
        Book::walked(place, call, |from, _| from + 256)
    }

    /// What would become of the stripes after an outage of all these nodes at once, or nothing if there is no such node.
    pub fn forecast(&self, outage: Outage, nodes: &[u16]) -> Result<Option<Forecast>, Fault> {
        let (mut rows, mut count, mut is_safe) = (vec![Outlook::default(); sys::LRC_STRIPES], 0, 0);
        let (at, (out, room)) = (self.handle.get(), (rows.as_mut_ptr(), rows.len()));
        let status = unsafe {
            sys::lrc_embed_forecast(at, outage as u8, nodes.as_ptr(), nodes.len(), out, room, &mut count, &mut is_safe)
        };
        rows.truncate(count);
        known(status, Forecast { rows, is_safe: is_safe == 1 })
    }
}

impl Drop for Book {
    fn drop(&mut self) {
        unsafe { sys::lrc_embed_close(self.handle.get()) };
    }
}
