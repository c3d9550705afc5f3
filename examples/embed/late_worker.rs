// The late worker of late_worker.c from Rust, by a type that owns the handle.
use std::ffi::c_void;
use std::fmt::{self, Display, Formatter};
use std::process::ExitCode;

const VERSION: u32 = 8;
const DONE: u32 = 0;
const DIFFERENT: u32 = 8;
const GRANTED: u8 = 3;
const IDLE: u8 = 4;
const WIDE: u8 = 1;
const STRIPES: usize = 4096;

#[repr(C)]
struct Handle {
    is_open: bool,
    at: *mut c_void,
}

/// The kinds of the commands of the script below.
#[derive(Clone, Copy)]
enum Kind {
    Place = 1,
    Lease = 3,
    Next = 4,
    Report = 5,
    Revoke = 7,
    Fail = 8,
}

#[repr(C)]
#[derive(Clone, Copy, Default)]
struct Command {
    kind: u8,
    fragment: u8,
    domain: u8,
    reserved: [u8; 5],
    epoch: u32,
    stripe: u16,
    node: u16,
}

#[repr(C)]
#[derive(Clone, Copy, Default)]
struct Seat {
    node: u16,
    slot: u16,
}

#[repr(C)]
#[derive(Clone, Copy, Default)]
struct Lease {
    stripe: u16,
    fragment: u8,
    holder: u8,
    target: Seat,
    epoch: u32,
    expiry: u32,
}

#[repr(C)]
#[derive(Clone, Copy, Default)]
struct Reply {
    kind: u8,
    refusal: u8,
    repair: u8,
    sources: [u8; 6],
    reserved: [u8; 3],
    detail: u32,
    clock: u32,
    ended: u32,
    reserved_number: u32,
    lease: Lease,
    seats: [Seat; 16],
}

#[repr(C)]
#[derive(Clone, Copy, Default)]
struct Entry {
    session: u8,
    reserved: [u8; 3],
    command: Command,
    reply: Reply,
}

#[repr(C)]
#[derive(Clone, Copy, Default)]
struct Level {
    kind: u8,
    margin: u8,
    reserved: [u8; 2],
}

#[repr(C)]
#[derive(Clone, Copy, Default)]
struct Risk {
    stripe: u16,
    reserved: [u8; 2],
    level: Level,
}

/// How a fragment is rebuilt: the sum of the stripe's fragments, each times its coefficient.
#[repr(C)]
#[derive(Clone, Copy, Default)]
struct Recipe {
    code: u8,
    fragment: u8,
    reserved: [u8; 6],
    coefficients: [u8; 16],
}

/// Bytes that are read, and bytes that are written.
#[repr(C)]
struct Bytes {
    at: *const u8,
    length: usize,
}

#[repr(C)]
struct Buffer {
    at: *mut u8,
    length: usize,
}

unsafe extern "C" {
    safe fn lrc_embed_version() -> u32;
    safe fn lrc_embed_rules_version() -> u32;
    fn lrc_embed_open(handle: &mut Handle, text: *const u8, length: usize, detail: &mut usize) -> u32;
    fn lrc_embed_call(handle: &mut Handle, session: u8, command: &Command, reply: &mut Reply) -> u32;
    fn lrc_embed_peek(handle: &mut Handle, session: u8, command: &Command, reply: &mut Reply) -> u32;
    fn lrc_embed_replay(handle: &mut Handle, entries: *const Entry, count: usize, position: &mut usize) -> u32;
    fn lrc_embed_risk(handle: &mut Handle, rows: *mut Risk, length: usize, count: &mut usize) -> u32;
    fn lrc_embed_count(handle: &mut Handle, count: &mut usize) -> u32;
    fn lrc_embed_entry(handle: &mut Handle, index: usize, entry: &mut Entry) -> u32;
    fn lrc_embed_reply_text(reply: &Reply, text: *mut u8, room: usize, length: &mut usize) -> u32;
    fn lrc_embed_recipe(handle: &mut Handle, stripe: u16, fragment: u8, recipe: &mut Recipe) -> u32;
    fn lrc_embed_encode(code: u8, data: *const Bytes, data_count: usize, parities: *mut Buffer, parities_count: usize) -> u32;
    fn lrc_embed_rebuild(recipe: &Recipe, fragments: *const Bytes, count: usize, rebuilt: *mut u8, length: usize) -> u32;
    fn lrc_embed_close(handle: &mut Handle) -> u32;
}

/// Why a call is not done.
enum Fault {
    /// A status other than done, and the position of the fault in the input.
    Status { status: u32, position: usize },
    /// The log is of this version of the rules, and the library of another one.
    OtherRules(u32),
}

impl Display for Fault {
    fn fmt(&self, f: &mut Formatter) -> fmt::Result {
        match self {
            Fault::Status { status, position } => write!(f, "status {status} at {position}"),
            Fault::OtherRules(rules) => {
                let own = lrc_embed_rules_version();
                write!(f, "the log is of version {rules} of the rules, and the library of version {own}")
            }
        }
    }
}

fn done(status: u32, position: usize) -> Result<(), Fault> {
    if status == DONE { Ok(()) } else { Err(Fault::Status { status, position }) }
}

/// What a store saves: the version of the rules, and the entries.
struct Log {
    rules: u32,
    entries: Vec<Entry>,
}

/// A book. The handle is written by the library alone.
struct Book(Handle);

// SAFETY: `Send` is proved of the handle in the library, and each call has the book by `&mut`.
unsafe impl Send for Book {}

impl Book {
    fn open(nodes: &str) -> Result<Book, Fault> {
        let mut book = Book(Handle { is_open: false, at: std::ptr::null_mut() });
        let mut detail = 0;
        // SAFETY: the handle is closed, and pointer and length are those of one slice.
        let status = unsafe { lrc_embed_open(&mut book.0, nodes.as_ptr(), nodes.len(), &mut detail) };
        done(status, detail).map(|()| book)
    }

    /// A book after the calls of a log, if its replies are those of the library's rules.
    fn replay(nodes: &str, log: &Log) -> Result<Book, Fault> {
        if log.rules != lrc_embed_rules_version() {
            return Err(Fault::OtherRules(log.rules));
        }
        let mut book = Book::open(nodes)?;
        let mut position = 0;
        let entries = &log.entries;
        // SAFETY: as above.
        let status = unsafe { lrc_embed_replay(&mut book.0, entries.as_ptr(), entries.len(), &mut position) };
        done(status, position).map(|()| book)
    }

    fn call(&mut self, session: u8, command: &Command) -> Result<Reply, Fault> {
        let mut reply = Reply::default();
        // SAFETY: the library made the handle, and any numbers will do.
        done(unsafe { lrc_embed_call(&mut self.0, session, command, &mut reply) }, 0).map(|()| reply)
    }

    /// The reply that a call would get now.
    fn peek(&mut self, session: u8, command: &Command) -> Result<Reply, Fault> {
        let mut reply = Reply::default();
        // SAFETY: as above.
        done(unsafe { lrc_embed_peek(&mut self.0, session, command, &mut reply) }, 0).map(|()| reply)
    }

    fn count(&mut self) -> Result<usize, Fault> {
        let mut count = 0;
        // SAFETY: as above.
        done(unsafe { lrc_embed_count(&mut self.0, &mut count) }, 0).map(|()| count)
    }

    fn entry(&mut self, index: usize) -> Result<Entry, Fault> {
        let mut entry = Entry::default();
        // SAFETY: as above.
        done(unsafe { lrc_embed_entry(&mut self.0, index, &mut entry) }, 0).map(|()| entry)
    }

    /// How the fragment of a live lease is rebuilt from what is not missing now.
    fn recipe(&mut self, stripe: u16, fragment: u8) -> Result<Recipe, Fault> {
        let mut recipe = Recipe::default();
        // SAFETY: as above.
        done(unsafe { lrc_embed_recipe(&mut self.0, stripe, fragment, &mut recipe) }, 0).map(|()| recipe)
    }

    fn risk(&mut self) -> Result<Vec<Risk>, Fault> {
        let mut rows = vec![Risk::default(); STRIPES];
        let mut count = 0;
        // SAFETY: pointer and length are those of one slice.
        done(unsafe { lrc_embed_risk(&mut self.0, rows.as_mut_ptr(), rows.len(), &mut count) }, 0)?;
        rows.truncate(count);
        Ok(rows)
    }
}

/// Buffers as C takes them.
fn bytes_of(buffers: &[Vec<u8>]) -> Vec<Bytes> {
    buffers.iter().map(|buffer| Bytes { at: buffer.as_ptr(), length: buffer.len() }).collect()
}

/// The four parities of a stripe, of its data fragments in order.
fn encode(code: u8, data: &[Vec<u8>]) -> Result<Vec<Vec<u8>>, Fault> {
    let read = bytes_of(data);
    let mut parities = vec![vec![0; data[0].len()]; 4];
    let mut written: Vec<Buffer> = parities.iter_mut().map(|it| Buffer { at: it.as_mut_ptr(), length: it.len() }).collect();
    // SAFETY: each pointer and length are those of one slice, and no two of those that are written overlap.
    let status = unsafe { lrc_embed_encode(code, read.as_ptr(), read.len(), written.as_mut_ptr(), written.len()) };
    done(status, 0).map(|()| parities)
}

/// The fragment that a recipe rebuilds, of so many bytes. What is not read may be empty.
fn rebuild(recipe: &Recipe, fragments: &[Vec<u8>], length: usize) -> Result<Vec<u8>, Fault> {
    let read = bytes_of(fragments);
    let mut rebuilt = vec![0; length];
    // SAFETY: as above.
    let status = unsafe { lrc_embed_rebuild(recipe, read.as_ptr(), read.len(), rebuilt.as_mut_ptr(), length) };
    done(status, 0).map(|()| rebuilt)
}

impl Drop for Book {
    fn drop(&mut self) {
        // SAFETY: the library made the handle.
        unsafe { lrc_embed_close(&mut self.0) };
    }
}

/// What `lrcman run` prints of a reply: at most 198 bytes.
impl Display for Reply {
    fn fmt(&self, f: &mut Formatter) -> fmt::Result {
        let (mut text, mut length) = ([0; 198], 0);
        // SAFETY: pointer and length are those of one slice.
        match unsafe { lrc_embed_reply_text(self, text.as_mut_ptr(), text.len(), &mut length) } {
            DONE => write!(f, "{}", String::from_utf8_lossy(&text[..length])),
            _ => Err(fmt::Error),
        }
    }
}

fn of_fragment(kind: Kind, epoch: u32) -> Command {
    Command { kind: kind as u8, stripe: 1, fragment: 3, epoch, ..Command::default() }
}

fn main() -> ExitCode {
    let found = lrc_embed_version();
    if found != VERSION {
        eprintln!("late_worker: the library has version {found} of its interface, and this program is for version {VERSION}");
        return ExitCode::FAILURE;
    }
    match run() {
        Ok(()) => ExitCode::SUCCESS,
        Err(fault) => {
            eprintln!("late_worker: {fault}");
            ExitCode::FAILURE
        }
    }
}

/// What a worker does under the lease of fragment 3: its bytes are rebuilt from the others.
fn expect_rebuilt(book: &mut Book) -> Result<(), Fault> {
    let data: Vec<Vec<u8>> = (0..12).map(|d: u8| (0..100).map(|i: u8| i.wrapping_mul(d + 3)).collect()).collect();
    let mut stripe = [data.as_slice(), &encode(WIDE, &data)?].concat();
    let lost = std::mem::take(&mut stripe[3]);
    let recipe = book.recipe(1, 3)?;
    assert_eq!((recipe.code, recipe.fragment), (WIDE, 3));
    assert_eq!(rebuild(&recipe, &stripe, lost.len())?, lost);
    Ok(())
}

fn run() -> Result<(), Fault> {
    let nodes: String = (0..20)
        .map(|i| format!("[[node]]\nnumber = {i}\nfault = {i}\nupgrade = {}\nslots = 4\n", i % 10))
        .collect();
    let script = [
        Command { kind: Kind::Place as u8, stripe: 1, ..Command::default() },
        Command { kind: Kind::Fail as u8, node: 3, ..Command::default() },
        of_fragment(Kind::Lease, 0),
        of_fragment(Kind::Revoke, 0),
        of_fragment(Kind::Lease, 0),
        of_fragment(Kind::Report, 1),
        of_fragment(Kind::Report, 2),
        of_fragment(Kind::Report, 2),
        of_fragment(Kind::Revoke, 0),
    ];
    let mut book = Book::open(&nodes)?;
    println!("script 1");
    for command in &script {
        let reply = book.call(1, command)?;
        println!("{} {reply}", book.count()?);
        if reply.kind == GRANTED {
            expect_rebuilt(&mut book)?;
        }
    }
    // nothing is left to repair, and a worker that asks by a peek adds no entry
    let next = Command { kind: Kind::Next as u8, ..Command::default() };
    assert_eq!(book.peek(1, &next)?.kind, IDLE);
    let entries = (0..book.count()?).map(|i| book.entry(i)).collect::<Result<Vec<Entry>, Fault>>()?;
    let mut log = Log { rules: lrc_embed_rules_version(), entries };

    // a book may go to another thread
    let mut again = Book::replay(&nodes, &log)?;
    let ended = std::thread::spawn(move || again.count().and_then(|count| Ok((count, again.risk()?.len()))));
    let (count, at_risk) = ended.join().unwrap()?;
    assert_eq!(at_risk, 0);
    println!("replayed {count}");
    log.entries[4].reply.lease.epoch = 1;
    match Book::replay(&nodes, &log) {
        Err(Fault::Status { status: DIFFERENT, position }) => println!("different at {position}"),
        other => other.map(drop)?,
    }
    log.rules += 1;
    assert!(matches!(Book::replay(&nodes, &log), Err(Fault::OtherRules(rules)) if rules == log.rules));
    Ok(())
}
