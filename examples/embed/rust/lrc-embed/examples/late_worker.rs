//! The late worker of `examples/embed/late_worker.c` over the safe crate.
use lrc_embed::{reply_text, sys, Book, Command, Entry, Fault};

fn main() -> Result<(), Fault> {
    let node = |number: u16| format!("[[node]]\nnumber = {number}\nfault = {number}\nupgrade = {}\nslots = 4\n", number % 10);
    let nodes: String = (0..20).map(node).collect();
    let (stripe, fragment) = (1, 3);
    let script = [
        Command::Place { stripe },
        Command::Fail { node: 3 },
        Command::Lease { stripe, fragment },
        Command::Revoke { stripe, fragment },
        Command::Lease { stripe, fragment },
        Command::Report { stripe, fragment, epoch: 1 },
        Command::Report { stripe, fragment, epoch: 2 },
        Command::Report { stripe, fragment, epoch: 2 },
        Command::Revoke { stripe, fragment },
    ];
    let mut log: Vec<Entry> = Vec::new();
    let mut book = Book::open(&nodes)?;
    println!("script 1");
    for command in script {
        let entry = book.call_entry(1, command)?;
        // A store writes the entry to its own log before it acts on the reply.
        log.push(entry);
        println!("{} {}", book.count()?, reply_text(&entry.reply)?);
    }

    // The program starts again; a long log is read and replayed in pieces.
    let mut again = Book::open(&nodes)?;
    again.replay(&log[..5])?;
    again.replay(&log[5..])?;
    println!("replayed {}", again.count()?);

    // A log that was changed is found out.
    log[4].reply.lease.epoch = 1;
    match Book::open(&nodes)?.replay(&log) {
        Err(fault) if fault.status == sys::LRC_DIFFERENT => println!("different at {}", fault.detail),
        other => other?,
    }
    Ok(())
}
