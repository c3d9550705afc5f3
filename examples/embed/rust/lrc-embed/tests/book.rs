//! Each call of a book, with what docs/RULES.md and the examples say of it. Nodes 0 to 19 have four slots each, a fault domain of
//! their own, and upgrade domains 0 to 9 in turn, as in `examples/place_one_stripe.bundle`.
use lrc_embed::{matrix, recipe_of, rules_version, sys, Book, Command, Entry, Fault, Outage, Published};

fn nodes() -> String {
    let node = |number: u16| format!("[[node]]\nnumber = {number}\nfault = {number}\nupgrade = {}\nslots = 4\n", number % 10);
    (0..20).map(node).collect()
}

fn book(commands: &[Command]) -> Book {
    let mut book = Book::open(&nodes()).unwrap();
    for command in commands {
        assert_ne!(book.call(1, *command).unwrap().kind, sys::LRC_REFUSED, "{command:?}");
    }
    book
}

fn fault<T>(result: Result<T, Fault>) -> (u32, u64, u32) {
    let fault = result.err().unwrap();
    (fault.status, fault.detail, fault.cause)
}

/// Stripe 1, of which fragment 3 was on the node that failed.
const FAILED: [Command; 2] = [Command::Place { stripe: 1 }, Command::Fail { node: 3 }];

#[test]
fn versions() {
    assert_eq!(unsafe { sys::lrc_embed_version() }, sys::LRC_EMBED_VERSION);
    assert_eq!(env!("CARGO_PKG_VERSION_MAJOR"), sys::LRC_EMBED_VERSION.to_string());
    assert_eq!(rules_version(), sys::LRC_RULES_VERSION);
    let told = Fault { status: 0, detail: 3, cause: 0 }.to_string();
    assert!(told.starts_with("the library has version 3 of its interface"), "{told}");
    assert_eq!(Fault { status: sys::LRC_OUT_OF_MEMORY, detail: 0, cause: 0 }.to_string(), "out of memory");
    assert_eq!(Fault { status: 99, detail: 0, cause: 0 }.to_string(), "status 99");
}

#[test]
fn texts_that_no_book_begins_in() {
    assert_eq!(fault(Book::open("node = [")), (sys::LRC_SYNTAX, 0, 0));
    assert_eq!(fault(Book::open("")), (sys::LRC_NO_NODES, 0, 0));
    let twice = nodes() + "[[node]]\nnumber = 7\nfault = 1\nupgrade = 1\nslots = 1\n";
    assert_eq!(fault(Book::open(&twice)), (sys::LRC_DOUBLE_NODE, 7, 0));
    assert_eq!(fault(Book::open_image(&nodes(), "image of a store\n")), (sys::LRC_BAD_LINE, 1, 0));
    let image = book(&FAILED).image().unwrap();
    let line = image.lines().position(|it| it == "before 2").unwrap() as u64 + 1;
    let found = fault(Book::open_image(&nodes(), &image.replace("before 2\n", "before 9223372036854775809\n")));
    assert_eq!(found, (sys::LRC_INVALID_IMAGE, line, sys::LRC_CAUSE_TOO_MANY_ENTRIES));
}

#[test]
fn numbers_of_commands() {
    let (stripe, fragment, epoch, node, domain) = (7, 8, 9, 10, 11);
    let all = [
        (Command::Place { stripe }, 1),
        (Command::Drop { stripe }, 2),
        (Command::Lease { stripe, fragment }, 3),
        (Command::Next, 4),
        (Command::Report { stripe, fragment, epoch }, 5),
        (Command::Abandon { stripe, fragment, epoch }, 6),
        (Command::Revoke { stripe, fragment }, 7),
        (Command::Fail { node }, 8),
        (Command::Down { node }, 9),
        (Command::Up { node }, 10),
        (Command::Drain { node }, 11),
        (Command::Undrain { node }, 12),
        (Command::Retire { node }, 13),
        (Command::Join { node }, 14),
        (Command::Upgrade { domain }, 15),
        (Command::Upgraded { domain }, 16),
        (Command::Tick, 17),
        (Command::Place6 { stripe }, 18),
    ];
    for (command, kind) in all {
        let made = sys::lrc_command::from(command);
        let said = format!("{command:?}");
        let has = |word: &str, value: u32| if said.contains(word) { value } else { 0 };
        let found = [made.kind.into(), made.stripe.into(), made.fragment.into(), made.epoch, made.node.into(), made.domain.into()];
        assert_eq!(found, [kind, has("stripe", 7), has("fragment", 8), has("epoch", 9), has("node", 10), has("domain", 11)], "{said}");
    }
}

#[test]
fn calls() {
    let mut book = book(&FAILED);
    assert_eq!(fault(book.call(9, Command::Tick)), (sys::LRC_OUT_OF_RANGE, 0, 0));
    assert_eq!(fault(book.call_at(1, 1, Command::Tick)), (sys::LRC_MOVED, 0, 0));
    let peeked = book.peek(2, Command::Next).unwrap();
    assert_eq!(book.count().unwrap(), 2);
    let granted = book.call_at(2, 2, Command::Next).unwrap();
    assert_eq!((granted, granted.kind, granted.repair), (peeked, sys::LRC_GRANTED, sys::LRC_LOCAL));
    assert_eq!((granted.lease.stripe, granted.lease.fragment, granted.sources), (1, 3, [0, 1, 2, 4, 5, 12]));
    let entry = book.last_entry().unwrap().unwrap();
    assert_eq!((entry.session, entry.command.kind, entry.reply), (2, sys::LRC_NEXT, granted));
    let refused = book.call(1, Command::Report { stripe: 1, fragment: 3, epoch: 1 }).unwrap();
    assert_eq!((refused.kind, refused.refusal, refused.detail), (sys::LRC_REFUSED, sys::LRC_NOT_HOLDER, 2));
}

#[test]
fn calls_in_a_group() {
    let mut book = book(&FAILED);
    let of = |session, command: Command| Entry { session, command: command.into(), ..Entry::default() };
    let report = Command::Report { stripe: 1, fragment: 3, epoch: 1 };
    let mut entries = [of(2, Command::Next), of(2, report), of(9, Command::Tick), of(1, Command::Tick)];
    let (made, result) = book.calls(&mut entries);
    assert_eq!((made, fault(result)), (2, (sys::LRC_OUT_OF_RANGE, 2, 0)));
    assert_eq!(entries.map(|it| it.reply.kind), [sys::LRC_GRANTED, sys::LRC_ENDED, 0, 0]);
    assert_eq!(entries[..2], [book.entry(2).unwrap().unwrap(), book.entry(3).unwrap().unwrap()]);
    assert_eq!((book.calls(&mut entries[3..]), book.calls(&mut [])), ((1, Ok(())), (0, Ok(()))));
    assert_eq!((entries[3].reply.clock, book.count().unwrap()), (1, 5));
}

#[test]
fn looks() {
    let mut book = book(&FAILED);
    let homes = book.homes(1).unwrap().unwrap();
    assert_eq!((homes[12].seat.node, homes[12].is_there, homes[3].is_there), (16, 1, 0));
    let level = book.level(1).unwrap().unwrap();
    assert_eq!((level.kind, level.margin), (sys::LRC_AT_RISK, 2));
    assert_eq!((book.missing(1).unwrap(), book.code(1).unwrap()), (Some(0x0008), Some(sys::LRC_WIDE)));
    assert_eq!(book.repair(1, 3).unwrap().unwrap().sources, [0, 1, 2, 4, 5, 12]);
    assert_eq!((book.lease(1, 3).unwrap(), book.recipe(1, 3).unwrap(), book.repair(1, 4).unwrap()), (None, None, None));
    book.call(5, Command::Lease { stripe: 1, fragment: 3 }).unwrap();
    let lease = book.lease(1, 3).unwrap().unwrap();
    assert_eq!((lease.holder, lease.target.node, lease.epoch, lease.expiry), (5, 17, 1, 3));
    assert_eq!(book.leases().unwrap(), [lease]);
    let read: Vec<usize> = (0..16).filter(|it| book.recipe(1, 3).unwrap().unwrap().coefficients[*it] != 0).collect();
    assert_eq!(read, [0, 1, 2, 4, 5, 12]);
    assert_eq!((book.load(0).unwrap(), book.load(15).unwrap(), book.load(17).unwrap()), (Some(1), Some(0), Some(1)));
    assert_eq!(book.mode(3).unwrap().unwrap().mode, sys::LRC_GONE);
    book.call(1, Command::Down { node: 5 }).unwrap();
    assert_eq!((book.is_down(5).unwrap(), book.is_down(6).unwrap()), (Some(true), Some(false)));
    assert_eq!((book.upgrading().unwrap(), book.clock().unwrap()), (None, 0));
    book.call(1, Command::Tick).unwrap();
    book.call(1, Command::Upgrade { domain: 9 }).unwrap();
    assert_eq!((book.upgrading().unwrap(), book.clock().unwrap()), (Some(9), 1));
    let risk = book.risk().unwrap();
    assert_eq!((risk.len(), risk[0].stripe, book.first_risk().unwrap()), (1, 1, Some(risk[0])));
    for none in [book.homes(2).unwrap().is_none(), book.level(2).unwrap().is_none(), book.load(99).unwrap().is_none()] {
        assert!(none);
    }
    assert_eq!(fault(book.level(4096)).0, sys::LRC_OUT_OF_RANGE);
}

#[test]
fn walks() {
    let mut book = book(&[]);
    for stripe in 0..80 {
        book.call(1, if stripe < 2 { Command::Place { stripe } } else { Command::Drop { stripe } }).unwrap();
    }
    for _ in 0..256 {
        book.call(1, Command::Tick).unwrap();
    }
    let stripes = book.stripes().unwrap();
    assert_eq!(stripes.iter().map(|it| (it.stripe, it.code)).collect::<Vec<_>>(), [(0, sys::LRC_WIDE), (1, sys::LRC_WIDE)]);
    assert_eq!(book.nodes().unwrap().iter().map(|it| it.number).collect::<Vec<_>>(), (0..20).collect::<Vec<_>>());
    let on: Vec<_> = book.homes_on(0).unwrap().unwrap().iter().map(|it| it.stripe).collect();
    assert_eq!((on.contains(&0) || on.contains(&1), book.homes_on(99).unwrap().is_none()), (true, true));
    let entries = book.entries(0).unwrap();
    assert_eq!((entries.len(), entries[0], entries[335]), (336, book.entry(0).unwrap().unwrap(), book.last_entry().unwrap().unwrap()));
    assert_eq!((book.entries(300).unwrap(), book.entry(336).unwrap()), (entries[300..].to_vec(), None));
    book.forget().unwrap();
    assert_eq!((book.count().unwrap(), book.before().unwrap(), book.clock().unwrap()), (0, 336, 256));
    assert_eq!((fault(book.entries(335)).0, book.entries(336).unwrap(), book.last_entry().unwrap()), (sys::LRC_FORGOTTEN, vec![], None));
}

#[test]
fn images_and_replays() {
    let first = book(&FAILED);
    let image = first.image().unwrap();
    let second = Book::open_image(&nodes(), &image).unwrap();
    assert_eq!((second.image().unwrap(), second.before().unwrap(), second.count().unwrap()), (image.clone(), 2, 0));
    let mut log = first.entries(0).unwrap();
    let mut third = Book::open(&nodes()).unwrap();
    third.replay(&log).unwrap();
    assert_eq!((third.image().unwrap(), third.entries(0).unwrap()), (image, log.clone()));
    log[1].reply.kind = sys::LRC_IDLE;
    let mut changed = Book::open(&nodes()).unwrap();
    assert_eq!(fault(changed.replay(&log)), (sys::LRC_DIFFERENT, 1, 0));
    assert_eq!((fault(changed.count()).0, fault(changed.call(1, Command::Tick)).0), (sys::LRC_IS_CLOSED, sys::LRC_IS_CLOSED));
    third.replay(&[]).unwrap();
}

#[test]
fn forecasts() {
    let book = book(&FAILED);
    let four = book.forecast(Outage::Lose, &[0, 1, 2]).unwrap().unwrap();
    assert_eq!((four.is_safe, four.rows.len(), four.rows[0].after.kind), (false, 1, sys::LRC_LOST));
    let one = book.forecast(Outage::Stop, &[4]).unwrap().unwrap();
    assert_eq!((one.is_safe, one.rows.len(), one.rows[0].newly_missing), (true, 1, 0x0010));
    assert!(book.forecast(Outage::Stop, &[99]).unwrap().is_none());
    assert!(book.forecast(Outage::Stop, &[]).unwrap().unwrap().is_safe);
}

#[test]
fn bytes() {
    for (code, width, fragments) in [(sys::LRC_WIDE, 12, 16), (sys::LRC_NARROW, 6, 10)] {
        let data: Vec<Vec<u8>> = (0..width).map(|it| (0..50).map(|at| (it * 31 + at * 7 + 1) as u8).collect()).collect();
        let mut parities = vec![vec![0; 50]; 4];
        let read: Vec<&[u8]> = data.iter().map(Vec::as_slice).collect();
        lrc_embed::encode(code, &read, &mut parities.iter_mut().map(Vec::as_mut_slice).collect::<Vec<_>>()).unwrap();
        let stripe: Vec<&[u8]> = read.into_iter().chain(parities.iter().map(Vec::as_slice)).collect();
        let rows = matrix(code).unwrap();
        assert_eq!((rows.len(), rows[0], rows[1], rows[width + 1]), (width * fragments, 1, 0, 1));
        for fragment in 0..fragments {
            let recipe = recipe_of(code, 1 << fragment, fragment as u8).unwrap().unwrap();
            let mut rebuilt = vec![0; 50];
            let without: Vec<&[u8]> = stripe.iter().enumerate().map(|(it, bytes)| if it == fragment { &[] } else { *bytes }).collect();
            lrc_embed::rebuild(&recipe, &without, &mut rebuilt).unwrap();
            assert_eq!(rebuilt, stripe[fragment], "code {code}, fragment {fragment}");
        }
        assert_eq!(fault(lrc_embed::encode(code, &stripe[..2], &mut [])).0, sys::LRC_MISCOUNTED);
    }
    assert_eq!((recipe_of(sys::LRC_WIDE, 0x004f, 0).unwrap(), fault(recipe_of(3, 1, 0)).0), (None, sys::LRC_OUT_OF_RANGE));
}

#[test]
fn threads() {
    let mut book = book(&[Command::Place { stripe: 1 }]);
    let book = std::thread::spawn(move || {
        book.call(1, Command::Fail { node: 3 }).unwrap();
        book
    });
    assert_eq!(book.join().unwrap().missing(1).unwrap(), Some(0x0008));
}

#[test]
fn calls_say_what_they_change() {
    let mut book = book(&[Command::Place { stripe: 1 }]);
    let before = book.homes(1).unwrap().unwrap()[3];
    let (entry, rows) = book.call_changes(1, Command::Fail { node: 3 }).unwrap();
    assert_eq!((entry.reply.kind, rows.len()), (sys::LRC_CHANGED, 1));
    let (row, after) = (rows[0], book.homes(1).unwrap().unwrap()[3]);
    assert_eq!((row.stripe, row.fragment, row.home_before, row.home_after), (1, 3, before, after));
    assert_eq!((row.was_leased, row.is_leased), (0, 0));
    let (entry, rows) = book.call_changes(2, Command::Next).unwrap();
    assert_eq!((rows.len(), rows[0].was_leased, rows[0].is_leased), (1, 0, 1));
    assert_eq!((rows[0].lease_after.epoch, rows[0].lease_after.target), (1, entry.reply.lease.target));
    assert_eq!(book.call_changes(2, Command::Up { node: 3 }).unwrap().1.len(), 0); // (a refusal)
    assert_eq!((fault(book.call_changes(9, Command::Next)).0, book.count().unwrap()), (sys::LRC_OUT_OF_RANGE, 4));
}

#[test]
fn viewers_follow_a_published_book() {
    let mut published = Published::new(book(&FAILED)).unwrap();
    let mut viewer = published.view(&nodes()).unwrap();
    assert_eq!(fault(published.view("node = [")), (sys::LRC_DIFFERENT, 0, 0));
    assert_eq!(viewer.follow().unwrap(), (2, true));
    assert_eq!(viewer.level(1).unwrap(), published.level(1).unwrap());
    assert_eq!(published.call(1, Command::Place { stripe: 2 }).unwrap().kind, sys::LRC_PLACED);
    assert_eq!(viewer.level(2).unwrap(), None);
    assert_eq!(viewer.follow().unwrap(), (3, true));
    assert_eq!(viewer.level(2).unwrap().unwrap().kind, sys::LRC_WHOLE);
    viewer.forget().unwrap();
    published.forget().unwrap();
    let other = std::thread::spawn(move || (viewer.follow().unwrap(), viewer));
    let (at, mut viewer) = other.join().unwrap();
    assert_eq!(at, (3, true));
    let mut taken = published.into_book().unwrap();
    assert_eq!(taken.call(1, Command::Drop { stripe: 2 }).unwrap().kind, sys::LRC_DROPPED);
    assert_eq!(viewer.follow().unwrap(), (3, false));
    assert_eq!(viewer.level(2).unwrap().unwrap().kind, sys::LRC_WHOLE);
}
