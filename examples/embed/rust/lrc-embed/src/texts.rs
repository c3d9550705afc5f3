//! The texts of `lrcman`, to the byte: tables of a book, lines of commands, and replies.
use crate::{done, if_known, Book, Command, Fault, Outage, Reply};
use lrc_embed_sys::{self as sys, lrc_command};

const TABLE: usize = 1 << 20; // room that is enough for most tables: to ask with none costs as much as the table

/// The text that a call writes, which has so much room at first.
pub(crate) fn written(room: usize, mut call: impl FnMut(*mut u8, usize, &mut usize) -> u32) -> Result<String, Fault> {
    let (mut text, mut length) = (vec![0; room], 0);
    loop {
        match call(text.as_mut_ptr(), text.len(), &mut length) {
            sys::LRC_SHORT => text.resize(length, 0),
            status => {
                done(status)?;
                text.truncate(length);
                return Ok(String::from_utf8_lossy(&text).into_owned());
            }
        }
    }
}

/// The command of a line of a script, which is given without its end; nothing if the line is empty or a comment. A bad line is a
/// fault with [`sys::LRC_BAD_LINE`] and its cause, as [`sys::LRC_LINE_UNKNOWN_WORD`].
///
/// ```
/// # use lrc_embed::{read_command, sys, Command};
/// assert_eq!(read_command("done 7 3 1"), Ok(Some(Command::Report { stripe: 7, fragment: 3, epoch: 1 })));
/// assert_eq!(read_command("place 4096").unwrap_err().cause, sys::LRC_LINE_OUT_OF_RANGE);
/// ```
pub fn read_command(line: &str) -> Result<Option<Command>, Fault> {
    let (mut command, mut cause) = (lrc_command::default(), 0);
    match unsafe { sys::lrc_embed_read_command(line.as_ptr(), line.len(), &mut command, &mut cause) } {
        status @ sys::LRC_BAD_LINE => Err(Fault { status, detail: 0, cause }),
        status => if_known(done(status).and_then(|()| command.try_into())),
    }
}

/// The line of a command in a script, without its end.
pub fn command_line(command: Command) -> Result<String, Fault> {
    written(26, |text, room, length| unsafe { sys::lrc_embed_command_line(&command.into(), text, room, length) })
}

/// What `lrcman run` prints of a reply, which needs no book. A fault with [`sys::LRC_OUT_OF_RANGE`] if no library writes such a
/// reply.
///
/// ```
/// # use lrc_embed::{reply_text, sys, Reply};
/// let reply = Reply { kind: sys::LRC_REFUSED, refusal: sys::LRC_NOT_HOLDER, detail: 2, ..Reply::default() };
/// assert_eq!(reply_text(&reply).unwrap(), "refused 114 2");
/// ```
pub fn reply_text(reply: &Reply) -> Result<String, Fault> {
    written(198, |text, room, length| unsafe { sys::lrc_embed_reply_text(reply, text, room, length) })
}

impl Book {
    /// A table of the book, as `lrcman show` prints it: the view is one as [`sys::LRC_SHOW_STATUS`].
    pub fn show(&self, view: u8) -> Result<String, Fault> {
        written(TABLE, |text, room, length| unsafe { sys::lrc_embed_show(self.handle.get(), view, text, room, length) })
    }

    /// The table of a forecast, as `lrcman may-stop` or `may-lose` prints it, and whether no stripe is harmed. Nothing if there is
    /// no such node.
    pub fn forecast_table(&self, outage: Outage, nodes: &[u16]) -> Result<Option<(String, bool)>, Fault> {
        let (at, mut is_safe) = (self.handle.get(), 0);
        let text = written(TABLE, |text, room, length| unsafe {
            sys::lrc_embed_forecast_table(at, outage as u8, nodes.as_ptr(), nodes.len(), text, room, length, &mut is_safe)
        });
        if_known(text.map(|text| (text, is_safe == 1)))
    }

    /// The line that `lrcman run` prints of the entry at an index, with its end.
    pub fn reply_line(&self, index: usize) -> Result<Option<String>, Fault> {
        let at = self.handle.get();
        if_known(written(220, |text, room, length| unsafe { sys::lrc_embed_reply_line(at, index, text, room, length) }))
    }

    /// The text of the image of the state, in which a book can begin.
    pub fn image(&self) -> Result<String, Fault> {
        written(1 << 20, |text, room, length| unsafe { sys::lrc_embed_image(self.handle.get(), text, room, length) })
    }
}
