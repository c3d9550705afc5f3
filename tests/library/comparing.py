"""A book of the library beside a store of the model in tests/model/rules.py: what both report, and the calls that both make."""
from tests import harness
from tests.library import library, texts, walked
from tests.library.library import lrc_embed
from tests.model import image_text, recipe_rules, rules

FRAGMENTS = range(lrc_embed.FRAGMENTS)
STRIPES = 24
# The kind of a reply by the number of its seats, and the repair by the number of its sources.
PLACED, LOCAL = {16: 1, 10: 9}, {6: 1, 3: 4}


class Differs(Exception):
    """The book and the model differ."""


# What a book and a model report of a stripe and of the whole store.


def stripe_in_book(book, stripe):
    """The code, the level, the missing fragments, the homes and the leases of a stripe, or None."""
    code, level, missing, homes = book.code(stripe), book.level(stripe), book.missing(stripe), book.homes(stripe)
    leases = [book.lease(stripe, fragment) for fragment in FRAGMENTS]
    if level is None:
        if (code, missing, homes) != (None, None, None) or any(leases):
            raise Differs(f"stripe {stripe} is known to some calls alone")
        return None
    seats = [str(home.seat) if home.is_there else None for home in homes.homes]
    held = [(lease.holder, str(lease.target), lease.epoch, lease.expiry) if lease else None for lease in leases]
    return library.code_word(code), library.level_words(level), missing.value, seats, held


def lease_in_model(store, key):
    lease = store.leases.get(key)
    return lease and (lease.holder, "%d:%d" % lease.target, lease.epoch, lease.expiry)


def stripe_in_model(store, stripe):
    if stripe not in store.stripes:
        return None
    level = store.level(stripe)
    words = level and (level, str(store.margin(stripe)) if level == "risk" else "-")
    homes = [store.homes.get((stripe, fragment)) for fragment in FRAGMENTS]
    seats = [home and "%d:%d" % home for home in homes]
    leases = [lease_in_model(store, (stripe, fragment)) for fragment in FRAGMENTS]
    return store.stripes[stripe].name, words, store.missing(stripe), seats, leases


def compare_recipe(book, store, key):
    """The recipe of a fragment: there is one exactly if it has a live lease and what is not missing determines it, and it is one by
    the rules."""
    try:
        recipe = book.recipe(*key)
    except lrc_embed.Fault as fault:
        recipe = fault.status
    if key not in store.leases:
        expect(f"the recipe of {key} without a lease", recipe, None)
        return
    code, missing = store.stripes[key[0]], store.missing(key[0])
    if not recipe_rules.is_known(code, missing, key[1]):
        expect(f"the recipe of {key}, which nothing determines", recipe, lrc_embed.Status.UNDETERMINED)
        return
    named = recipe.code, recipe.fragment, bytes(recipe.reserved)
    expect(f"what the recipe of {key} is for", named, (book.code(key[0]).value, key[1], bytes(6)))
    expect(f"the recipe of {key}, {recipe.sources()}", recipe_rules.fault_of(code, missing, key[1], recipe.sources()), None)


def expect(name, found, right):
    if found != right:
        raise Differs(f"{name}: {found}, and not {right}")


def image_in_book(book):
    """The text of the image of a book, or None where its numbers are at their end."""
    try:
        return book.image()
    except lrc_embed.Fault as fault:
        if fault.status != lrc_embed.Status.FULL:
            raise
        return None


def compare(book, store, count):
    """Compares everything that a book reports."""
    expect("count", book.before() + book.count(), count)
    expect("clock", book.clock(), store.clock)
    for stripe in range(STRIPES + 1):
        expect(f"stripe {stripe}", stripe_in_book(book, stripe), stripe_in_model(store, stripe))
    for key in [*store.leases, (count % STRIPES, count % lrc_embed.FRAGMENTS)]:
        compare_recipe(book, store, key)
    expect("loads", list(library.load_rows(book, store.nodes)), list(store.load_rows()))
    expect("risk", list(library.risk_rows(book)), list(store.risk_rows()))
    expect("image", image_in_book(book), None if store.is_spent(count) else store.image(count))
    asked = [*store.stripes, STRIPES]  # (a stripe that is not there needs no repair)
    found = walked.rows_in_book(book, store.nodes, asked, 1 + count % 7)
    for (name, rows), (_, right) in zip(found, walked.rows_in_model(store, asked), strict=True):
        expect(name, rows, right)
    outage = walked.drawn_outage(store, count)
    expect(f"forecast {outage}", walked.forecast_in_book(book, *outage), walked.forecast_in_model(store, *outage))
    if count % 10 == 0:  # (the model takes its time)
        for name, found, right in texts.texts_of(book, store, count, count // 10):
            expect(name, found, right)
    last, before = range(max(0, book.count() - 5), book.count()), book.before()
    found = [bytes(entry) for entry in book.entries(before + last.start, 2)]
    expect("the last entries", found, [bytes(book.entry(i)) for i in last])
    expect("the entries after the last", list(book.entries(count + 1)), [])
    if before:
        expect("the entries that are forgotten", status_of(lambda: list(book.entries(before - 1))), lrc_embed.Status.FORGOTTEN)


def compare_reply(shared, found, right):
    """A reply is the model's, by its fields and by its text. It has the kind and the repair of its code, and 0 after its seats and
    its sources."""
    expect("reply", library.text_of(found), right)
    expect("text of the reply", lrc_embed.reply_text(shared, found), right)
    # (only a look has the expiry of a lease: in replies it stays 0, as in earlier logs)
    expect("expiry in the reply", found.lease.expiry, 0)
    words = right.split(" ")
    seats = len(words) - 1 if words[0] == "placed" else 0
    sources = len(words) - 7 if words[6:7] == ["local"] else 0
    if seats:
        expect("kind of the reply", found.kind, PLACED[seats])
    if sources:
        expect("repair of the reply", found.repair, LOCAL[sources])
    expect("after the seats", [str(seat) for seat in found.seats[seats:]], ["0:0"] * (len(found.seats) - seats))
    expect("after the sources", list(found.sources[sources:]), [0] * (len(found.sources) - sources))


def fragments_in_model(store):
    """The homes and the leases of a store, by stripe and fragment."""
    seats = {key: "%d:%d" % seat for key, seat in store.homes.items()}
    return seats, {key: lease_in_model(store, key) for key in store.leases}


def changes_in_model(was, now):
    """The fragments whose home or lease differs, in order, with the homes and the leases before and after."""
    keys = sorted({key for held in (*was, *now) for key in held})
    rows = [(key, was[0].get(key), now[0].get(key), was[1].get(key), now[1].get(key)) for key in keys]
    return [row for row in rows if row[1] != row[2] or row[3] != row[4]]


def change_in_book(row):
    """The same of a row of the library."""
    key = row.stripe, row.fragment
    expect("what is reserved in a row", bytes(row.reserved), bytes(3))
    homes = [str(home.seat) if home.is_there else None for home in (row.home_before, row.home_after)]
    leases = []
    for is_there, lease in ((row.was_leased, row.lease_before), (row.is_leased, row.lease_after)):
        expect("the fragment of a lease", (lease.stripe, lease.fragment), key if is_there else (0, 0))
        leases.append((lease.holder, str(lease.target), lease.epoch, lease.expiry) if is_there else None)
        if not is_there:
            expect("a lease that is not there", bytes(lease), bytes(len(bytes(lease))))
    return key, *homes, *leases


def status_of(call):
    """The status of a call of the library."""
    try:
        call()
    except lrc_embed.Fault as fault:
        return fault.status
    return lrc_embed.Status.DONE


def make(book, store, session, line, count, looks=False):
    """Makes a call on both, after `count` calls, and returns its reply. Before it a peek returns the reply. It changes
    nothing, which `looks` compares."""
    command = library.command_of(line)
    peeked = book.peek(session, command)
    if looks:
        elsewhere = status_of(lambda: book.call_at(count + 1, session, command))
        expect("a call elsewhere", elsewhere, lrc_embed.Status.MOVED)
        compare(book, store, count)
    # (in turn by the four ways of a call)
    planned, rows = book.peek_entry(session, command), None
    if looks:
        found = book.call_at(book.before() + book.count(), session, command)
    elif count % 3 == 0:
        made, rows = book.call_changes(session, command, count % 4)
        expect("entry of the call", bytes(made), bytes(book.entry(book.count() - 1)))
        found = made.reply
    elif count % 3 == 1:
        made = book.call_entry(session, command)
        expect("entry of the call", bytes(made), bytes(book.entry(book.count() - 1)))
        found = made.reply
    else:
        found = book.call(session, command)
    was = fragments_in_model(store)
    right = store.call(session, line)
    if rows is not None:
        expect("what the call changed", [change_in_book(row) for row in rows], changes_in_model(was, fragments_in_model(store)))
    expect("reply that a peek reports", bytes(peeked), bytes(found))
    compare_reply(book.library, found, right)
    entry = book.entry(book.count() - 1)
    expect("session of the entry", entry.session, session)
    expect("command of the entry", bytes(entry.command), bytes(command))
    expect("reply of the entry", bytes(entry.reply), bytes(found))
    expect("entry that a peek returns", bytes(planned), bytes(entry))
    expect("line of the reply", book.reply_line(book.count() - 1), f"{book.before() + book.count()} {right}\n")
    expect("line of the command", lrc_embed.command_line(book.library, command), line)
    return right


# Books and stores that begin in an image.


def begun_in_model(nodes, text, kind=rules.Store):
    """The fault of an image: None, the number of its bad line, or that of a line that is wrong and the cause. Where it has
    none, the store that begins in it too, and the number of entries before it."""
    try:
        return None, *kind.begin(nodes, text)
    except image_text.BadLine as bad:
        return bad.args[0], None, None
    except rules.WrongLine as wrong:
        return wrong.args, None, None


def begun_in_book(shared, nodes, text):
    """The same fault as the library reports it; and where there is none, the book."""
    try:
        return None, lrc_embed.Book(shared, harness.topology_of(nodes), image=text)
    except lrc_embed.Fault as fault:
        if fault.status == lrc_embed.Status.BAD_LINE:
            return fault.position, None
        if fault.status == lrc_embed.Status.INVALID_IMAGE:
            return (fault.position, fault.cause), None
        raise
