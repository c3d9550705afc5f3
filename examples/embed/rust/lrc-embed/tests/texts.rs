//! Texts and words, as docs/RULES.md and docs/FORMATS.md have them, over the nodes of `examples/place_one_stripe.bundle`.
use lrc_embed::{command_line, read_command, reply_text, sys, words, Book, Command, Fault, Outage, Reply};

fn book() -> Book {
    let node = |number: u16| format!("[[node]]\nnumber = {number}\nfault = {number}\nupgrade = {}\nslots = 4\n", number % 10);
    let mut book = Book::open(&(0..20).map(node).collect::<String>()).unwrap();
    for line in ["place 1", "fail 3"] {
        book.call(1, read_command(line).unwrap().unwrap()).unwrap();
    }
    book
}

fn status<T>(result: Result<T, Fault>) -> u32 {
    result.err().unwrap().status
}

#[test]
fn lines_of_commands() {
    let (stripe, fragment, epoch, node, domain) = (7, 8, 9, 10, 11);
    let all = [
        (Command::Place { stripe }, "place 7"),
        (Command::Place6 { stripe }, "place6 7"),
        (Command::Drop { stripe }, "drop 7"),
        (Command::Lease { stripe, fragment }, "lease 7 8"),
        (Command::Next, "next"),
        (Command::Report { stripe, fragment, epoch }, "done 7 8 9"),
        (Command::Abandon { stripe, fragment, epoch }, "abandon 7 8 9"),
        (Command::Revoke { stripe, fragment }, "revoke 7 8"),
        (Command::Fail { node }, "fail 10"),
        (Command::Down { node }, "down 10"),
        (Command::Up { node }, "up 10"),
        (Command::Drain { node }, "drain 10"),
        (Command::Undrain { node }, "undrain 10"),
        (Command::Retire { node }, "retire 10"),
        (Command::Join { node }, "join 10"),
        (Command::Upgrade { domain }, "upgrade 11"),
        (Command::Upgraded { domain }, "upgraded 11"),
        (Command::Tick, "tick"),
    ];
    for (command, line) in all {
        assert_eq!((command_line(command).unwrap(), read_command(line)), (line.to_owned(), Ok(Some(command))));
        let kind = sys::lrc_command::from(command).kind;
        assert_eq!(words::command_name(kind).as_deref(), line.split(' ').next());
        assert_eq!(words::command_fields(kind).unwrap().len(), line.split(' ').count() - 1, "{line}");
    }
    assert_eq!((read_command(""), read_command("# place 1")), (Ok(None), Ok(None)));
    assert_eq!(status(command_line(Command::Place { stripe: 4096 })), sys::LRC_OUT_OF_RANGE);
    assert_eq!(words::command_fields(sys::LRC_REPORT), Some(vec![sys::LRC_FIELD_STRIPE, sys::LRC_FIELD_FRAGMENT, sys::LRC_FIELD_EPOCH]));
    for kind in [0, 19] {
        let none = sys::lrc_command { kind, ..sys::lrc_command::default() };
        assert_eq!((status(Command::try_from(none)), words::command_fields(kind)), (sys::LRC_OUT_OF_RANGE, None));
    }
}

#[test]
fn bad_lines() {
    let long = "#".repeat(1025);
    for (line, cause, said) in [
        ("place12 1", sys::LRC_LINE_UNKNOWN_WORD, "the first word is not a command"),
        ("next 1", sys::LRC_LINE_WORD_COUNT, "the command takes another number of words"),
        ("place 01", sys::LRC_LINE_NOT_A_NUMBER, "an argument is not a number"),
        ("lease 1 16", sys::LRC_LINE_OUT_OF_RANGE, "a number is out of its range"),
        (&long, sys::LRC_LINE_TOO_LONG, "the line has more than 1024 bytes"),
    ] {
        let fault = read_command(line).unwrap_err();
        assert_eq!((fault.status, fault.detail, fault.cause), (sys::LRC_BAD_LINE, 0, cause), "{line}");
        assert_eq!((words::line_words(cause).as_deref(), fault.to_string()), (Some(said), format!("bad line: {said}")));
    }
}

#[test]
fn entries_of_calls() {
    let mut book = book();
    let planned = book.peek_entry(2, Command::Next).unwrap();
    assert_eq!((book.count().unwrap(), planned.session, planned.reply.kind), (2, 2, sys::LRC_GRANTED));
    assert_eq!(Command::try_from(planned.command), Ok(Command::Next));
    let made = book.call_entry(2, Command::Next).unwrap();
    assert_eq!((made, book.count().unwrap(), book.last_entry().unwrap()), (planned, 3, Some(made)));
    assert_eq!((status(book.peek_entry(9, Command::Next)), status(book.call_entry(0, Command::Next))), (sys::LRC_OUT_OF_RANGE, 3));
    assert_eq!(reply_text(&made.reply).unwrap(), "granted 1 3 17:0 epoch 1 local 0 1 2 4 5 12");
    assert_eq!(book.reply_line(2).unwrap().unwrap(), "3 granted 1 3 17:0 epoch 1 local 0 1 2 4 5 12\n");
    let placed = "1 placed 0:0 1:0 2:0 3:0 4:0 5:0 6:0 7:0 8:0 9:0 10:0 11:0 16:0 12:0 13:0 14:0\n";
    assert_eq!((book.reply_line(0).unwrap().as_deref(), book.reply_line(3)), (Some(placed), Ok(None)));
}

#[test]
fn texts_of_replies() {
    let seat = lrc_embed::Seat { node: 65535, slot: 65535 };
    let longest = reply_text(&Reply { kind: sys::LRC_PLACED, seats: [seat; 16], ..Reply::default() }).unwrap();
    assert_eq!((longest.len(), longest), (198, format!("placed{}", " 65535:65535".repeat(16))));
    let refused = |refusal, detail| reply_text(&Reply { kind: sys::LRC_REFUSED, refusal, detail, ..Reply::default() });
    assert_eq!(refused(sys::LRC_STALE, 0).unwrap(), "refused 113");
    assert_eq!(refused(sys::LRC_WOULD_LOSE, 0).unwrap(), "refused 109 0");
    assert_eq!((status(refused(sys::LRC_STALE, 1)), status(refused(118, 0))), (sys::LRC_OUT_OF_RANGE, sys::LRC_OUT_OF_RANGE));
    assert_eq!(status(reply_text(&Reply::default())), sys::LRC_OUT_OF_RANGE);
}

#[test]
fn tables() {
    let mut book = book();
    book.call(2, Command::Next).unwrap();
    assert_eq!(book.show(sys::LRC_SHOW_LEASES).unwrap(), "stripe,fragment,holder,target,epoch,expiry\n1,3,2,17:0,1,3\n");
    assert_eq!((status(book.show(0)), status(book.show(11))), (sys::LRC_OUT_OF_RANGE, sys::LRC_OUT_OF_RANGE));
    let columns = "stripe,code,level_before,margin_before,level_after,margin_after,missing_after,missing_fragments_after,leases_ended,harmed";
    for (outage, nodes, row, is_safe) in [
        (Outage::Stop, &[4][..], "1,wide,risk,2,risk,1,0x0018,3 4,0,no", true),
        (Outage::Lose, &[0, 1, 2, 17][..], "1,wide,risk,2,lost,-,0x000f,0 1 2 3,1,yes", false),
    ] {
        assert_eq!(book.forecast_table(outage, nodes).unwrap().unwrap(), (format!("{columns}\n{row}\n"), is_safe));
    }
    assert_eq!(book.forecast_table(Outage::Stop, &[99]), Ok(None));
    let rows = book.forecast_table(Outage::Stop, &[]).unwrap().unwrap();
    assert_eq!(rows, (format!("{columns}\n1,wide,risk,2,risk,2,0x0008,3,0,no\n"), true));
}

#[test]
fn words_for_numbers() {
    for (found, right) in [
        (words::status_name(sys::LRC_OUT_OF_MEMORY), "out of memory"),
        (words::reply_name(sys::LRC_TICKED), "ticked"),
        (words::refusal_name(sys::LRC_NO_LAWFUL_NODE), "no lawful node"),
        (words::level_name(sys::LRC_AT_RISK), "risk"),
        (words::mode_name(sys::LRC_DRAINING), "draining"),
        (words::code_name(sys::LRC_NARROW), "narrow"),
        (words::repair_name(sys::LRC_LOCAL3), "local"),
        (words::command_name(sys::LRC_REPORT), "done"),
        (words::cause_words(sys::LRC_CAUSE_UNKNOWN_NODE), "the topology has no such node"),
        (words::nodes_words(sys::LRC_TOO_MANY), "the topology has more than 512 nodes"),
    ] {
        assert_eq!(found.as_deref(), Some(right));
    }
    let none = [
        words::status_name(99),
        words::reply_name(0),
        words::refusal_name(100),
        words::level_name(0),
        words::mode_name(0),
        words::code_name(0),
        words::repair_name(0),
        words::command_name(0),
        words::line_words(0),
        words::cause_words(0),
        words::nodes_words(sys::LRC_BAD_LINE),
    ];
    assert!(none.iter().all(Option::is_none), "{none:?}");
    let fault = Book::open("").err().unwrap();
    assert_eq!(fault.to_string(), "no nodes: the topology has no nodes");
}
