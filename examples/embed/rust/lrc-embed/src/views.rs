//! Published books, and viewers that look beside their calls.
use crate::{done, Book, Command, Fault, Reply};
use std::cell::UnsafeCell;
use std::ops::Deref;
use sys::{lrc_published, lrc_viewer};

use lrc_embed_sys as sys;

/// A published book: its viewers make each of its calls. It is closed when it is dropped. Its looks are those of a [`Book`].
///
/// ```
/// fn sent<T: Send>() {}
/// sent::<lrc_embed::Published>();
/// sent::<lrc_embed::Viewer>();
/// ```
#[derive(Debug)]
#[repr(C)]
pub struct Published {
    book: Book,
    feed: UnsafeCell<sys::lrc_feed>,
}

/// A viewer of a published book: a book of its own that follows it, on any thread, for looks without a lock. It is closed when
/// it is dropped.
#[derive(Debug)]
#[repr(C)]
pub struct Viewer {
    book: Book,
    feed: UnsafeCell<sys::lrc_feed>,
}

// A thread may have them after another one, as a `Book`; what ends of a feed share is made for several threads.
unsafe impl Send for Published {}
unsafe impl Send for Viewer {}

fn no_feed() -> UnsafeCell<sys::lrc_feed> {
    UnsafeCell::new(sys::lrc_feed { is_open: false, at: std::ptr::null_mut() })
}

impl Published {
    /// Publishes a book. If that fails, the book is closed.
    pub fn new(book: Book) -> Result<Published, Fault> {
        let mut published = Published { book: Book::closed()?, feed: no_feed() };
        done(unsafe { sys::lrc_embed_publish(book.handle.get(), published.pair()) }).map(|()| published)
    }

    fn pair(&mut self) -> *mut lrc_published {
        (self as *mut Published).cast()
    }

    /// Makes a command of a session, 1 to 8. Whoever follows after it sees it.
    pub fn call(&mut self, session: u8, command: Command) -> Result<Reply, Fault> {
        let mut reply = Reply::default();
        done(unsafe { sys::lrc_embed_call_published(self.pair(), session, &command.into(), &mut reply) }).map(|()| reply)
    }

    /// Makes a viewer, over the text of the book's nodes.
    pub fn view(&mut self, nodes: &str) -> Result<Viewer, Fault> {
        let mut viewer = Viewer { book: Book::closed()?, feed: no_feed() };
        let status = unsafe { sys::lrc_embed_view(self.pair(), nodes.as_ptr(), nodes.len(), viewer.pair()) };
        done(status).map(|()| viewer)
    }

    /// Empties the history, as [`Book::forget`]. Viewers are not concerned.
    pub fn forget(&mut self) -> Result<(), Fault> {
        self.book.forget()
    }

    /// Takes the book back. Its viewers are told so when they have followed to the end.
    pub fn into_book(mut self) -> Result<Book, Fault> {
        let book = Book::closed()?;
        done(unsafe { sys::lrc_embed_unpublish(self.pair(), book.handle.get()) }).map(|()| book)
    }
}

impl Viewer {
    fn pair(&mut self) -> *mut lrc_viewer {
        (self as *mut Viewer).cast()
    }

    /// Makes the calls of the published book that it has not made yet. Returns how many entries of the store it follows from, and
    /// whether the book is still published.
    pub fn follow(&mut self) -> Result<(u64, bool), Fault> {
        let (mut place, mut is_published) = (0, 0);
        done(unsafe { sys::lrc_embed_follow(self.pair(), &mut place, &mut is_published) }).map(|()| (place, is_published == 1))
    }

    /// Empties the history of its book, as [`Book::forget`].
    pub fn forget(&mut self) -> Result<(), Fault> {
        self.book.forget()
    }
}

impl Deref for Published {
    type Target = Book;

    fn deref(&self) -> &Book {
        &self.book
    }
}

impl Deref for Viewer {
    type Target = Book;

    fn deref(&self) -> &Book {
        &self.book
    }
}

impl Drop for Published {
    fn drop(&mut self) {
        let mut book = sys::LRC_CLOSED;
        unsafe { sys::lrc_embed_unpublish(self.pair(), &mut book) };
        unsafe { sys::lrc_embed_close(&mut book) };
    }
}

impl Drop for Viewer {
    fn drop(&mut self) {
        unsafe { sys::lrc_embed_close_viewer(self.pair()) };
    }
}
