//! The commands, as a store makes them.
use crate::Fault;
use lrc_embed_sys::{self as sys, lrc_command};

/// A command; `docs/RULES.md` says what each does.
#[derive(Clone, Copy, Debug, PartialEq, Eq, Hash)]
pub enum Command {
    Place { stripe: u16 },
    Place6 { stripe: u16 },
    Drop { stripe: u16 },
    Lease { stripe: u16, fragment: u8 },
    Next,
    Report { stripe: u16, fragment: u8, epoch: u32 },
    Abandon { stripe: u16, fragment: u8, epoch: u32 },
    Revoke { stripe: u16, fragment: u8 },
    Fail { node: u16 },
    Down { node: u16 },
    Up { node: u16 },
    Drain { node: u16 },
    Undrain { node: u16 },
    Retire { node: u16 },
    Join { node: u16 },
    Upgrade { domain: u8 },
    Upgraded { domain: u8 },
    Tick,
}

impl From<Command> for lrc_command {
    fn from(command: Command) -> lrc_command {
        let of = |kind| lrc_command { kind, ..lrc_command::default() };
        match command {
            Command::Place { stripe } => lrc_command { stripe, ..of(sys::LRC_PLACE) },
            Command::Place6 { stripe } => lrc_command { stripe, ..of(sys::LRC_PLACE6) },
            Command::Drop { stripe } => lrc_command { stripe, ..of(sys::LRC_DROP) },
            Command::Lease { stripe, fragment } => lrc_command { stripe, fragment, ..of(sys::LRC_LEASE) },
            Command::Next => of(sys::LRC_NEXT),
            Command::Report { stripe, fragment, epoch } => lrc_command { stripe, fragment, epoch, ..of(sys::LRC_REPORT) },
            Command::Abandon { stripe, fragment, epoch } => lrc_command { stripe, fragment, epoch, ..of(sys::LRC_ABANDON) },
            Command::Revoke { stripe, fragment } => lrc_command { stripe, fragment, ..of(sys::LRC_REVOKE) },
            Command::Fail { node } => lrc_command { node, ..of(sys::LRC_FAIL) },
            Command::Down { node } => lrc_command { node, ..of(sys::LRC_DOWN) },
            Command::Up { node } => lrc_command { node, ..of(sys::LRC_UP) },
            Command::Drain { node } => lrc_command { node, ..of(sys::LRC_DRAIN) },
            Command::Undrain { node } => lrc_command { node, ..of(sys::LRC_UNDRAIN) },
            Command::Retire { node } => lrc_command { node, ..of(sys::LRC_RETIRE) },
            Command::Join { node } => lrc_command { node, ..of(sys::LRC_JOIN) },
            Command::Upgrade { domain } => lrc_command { domain, ..of(sys::LRC_UPGRADE) },
            Command::Upgraded { domain } => lrc_command { domain, ..of(sys::LRC_UPGRADED) },
            Command::Tick => of(sys::LRC_TICK),
        }
    }
}

/// The command of an entry. It has [`sys::LRC_OUT_OF_RANGE`] if there is no such kind.
impl TryFrom<lrc_command> for Command {
    type Error = Fault;

    fn try_from(command: lrc_command) -> Result<Command, Fault> {
        let lrc_command { stripe, fragment, epoch, node, domain, .. } = command;
        Ok(match command.kind {
            sys::LRC_PLACE => Command::Place { stripe },
            sys::LRC_PLACE6 => Command::Place6 { stripe },
            sys::LRC_DROP => Command::Drop { stripe },
            sys::LRC_LEASE => Command::Lease { stripe, fragment },
            sys::LRC_NEXT => Command::Next,
            sys::LRC_REPORT => Command::Report { stripe, fragment, epoch },
            sys::LRC_ABANDON => Command::Abandon { stripe, fragment, epoch },
            sys::LRC_REVOKE => Command::Revoke { stripe, fragment },
            sys::LRC_FAIL => Command::Fail { node },
            sys::LRC_DOWN => Command::Down { node },
            sys::LRC_UP => Command::Up { node },
            sys::LRC_DRAIN => Command::Drain { node },
            sys::LRC_UNDRAIN => Command::Undrain { node },
            sys::LRC_RETIRE => Command::Retire { node },
            sys::LRC_JOIN => Command::Join { node },
            sys::LRC_UPGRADE => Command::Upgrade { domain },
            sys::LRC_UPGRADED => Command::Upgraded { domain },
            sys::LRC_TICK => Command::Tick,
            _ => return Err(Fault { status: sys::LRC_OUT_OF_RANGE, detail: 0, cause: 0 }),
        })
    }
}
