"""Books that begin in images, as the worked examples of docs/EMBEDDING.md have them: over other nodes, and in a store that is
taken over. The texts of the documents are those that are tried here."""
import re

from tests import harness
from tests.harness import TOP, Node
from tests.library.library import command_of, text_of
# (which tests/library/library.py has loaded)
from lrc_embed import FRAGMENTS, IMAGE_MOST, NODES, STRIPES, Book, Cause, Command, CommandKind, Fault, ModeKind, Status

TWENTY = harness.nodes_in_order(20, 4)
HEADER = f"{TOP}/crates/lrc_embed/include/lrc_embed.h"
STRIPE_1 = "stripe 1 0:0 1:0 2:0 3:0 4:0 5:0 6:0 7:0 8:0 9:0 10:0 11:0 16:0 12:0 13:0 14:0\n"
IMAGE = f"image 1\nbefore 7\nclock 0\nnode 7 down\n{STRIPE_1}end\n"


def most_of_image():
    """The most bytes of an image, worked by docs/FORMATS.md: each line that there can be, at its longest. A wide stripe has the
    longest line of its number; each fragment has a lease."""
    head = "image 1\nbefore 9223372036854775808\nclock 4293967291\nupgrading 255\nend\n" + NODES * "node 65535 draining down\n"
    stripe = "stripe {0}" + FRAGMENTS * " 65535:255" + "\ngranted {0}" + FRAGMENTS * " 4294967294" + "\n"
    leases = "".join(f"lease {{0}} {fragment} 8 65535:255 4293967294\n" for fragment in range(FRAGMENTS))
    return len(head) + sum(len((stripe + leases).format(number)) for number in range(STRIPES))


def refusal(library, nodes, image):
    """The status, the line and the cause for which no book begins; None if one does."""
    try:
        Book(library, harness.topology_of(nodes), image=image).close()
    except Fault as fault:
        return fault.status, fault.position, fault.cause
    return None


def images_of_document():
    """The images of docs/EMBEDDING.md that have an end."""
    text = harness.read(f"{TOP}/docs/EMBEDDING.md").decode()
    blocks = re.findall(r"(?:^    .*\n)+", text, re.M)
    lines = [re.sub(r"^    ", "", block, flags=re.M) for block in blocks]
    return [block for block in lines if block.startswith("image ") and block.endswith("\nend\n")]


def test_takeover(count, library):
    found, repaired = images_of_document()
    right = Status.INVALID_IMAGE, 5, Cause.NOT_LAWFUL
    count.check("images: a placement that is not lawful", refusal(library, TWENTY, found) == right)
    with Book(library, harness.topology_of(TWENTY), image=found.replace("2 0:1 10:1", "2 0:1 -")) as book:
        level = book.level(2)
        count.check("images: a stripe without one home", (level.kind, level.margin) == (2, 2))
        reply = text_of(book.call(1, command_of("next")))
        count.check(f"images: its repair: {reply}", reply == "granted 2 1 17:0 epoch 1 local 0 2 3 4 5 12")
        book.call(1, command_of("done 2 1 1"))
        count.check("images: a store that was taken over", book.image() == repaired)


def test_more(count, library):
    """A node more, more slots, and the nodes in another order."""
    turned = dict(reversed(TWENTY.items()))
    for nodes in (TWENTY | {20: Node(20, 0, 4)}, TWENTY | {7: Node(7, 7, 8)}, turned):
        with Book(library, harness.topology_of(nodes), image=IMAGE) as book:
            count.check("images: the image over other nodes", book.image() == IMAGE)
            count.check("images: a node is down over other nodes", not book.mode(7).is_online)
    with Book(library, harness.topology_of(TWENTY | {20: Node(20, 0, 4)}), image=IMAGE) as book:
        mode = book.mode(20)
        new = mode.mode, mode.is_online, book.load(20).value
        count.check(f"images: a node that is added: {new}", new == (ModeKind.ACTIVE, 1, 0))
        seats = book.call(1, Command(CommandKind.PLACE, stripe=2)).seats
        count.check("images: a stripe on a node that is added", 20 in [seat.node for seat in seats])


def test_less(count, library):
    """Fewer slots, a node left out, and a domain left out."""
    moved = IMAGE.replace("0:0", "0:3")
    small = TWENTY | {0: Node(0, 0, 3)}
    count.check("images: fewer slots", refusal(library, small, IMAGE) is None)
    count.check("images: a slot that is gone", refusal(library, small, moved) == (Status.INVALID_IMAGE, 5, Cause.UNKNOWN_SLOT))
    less = {number: node for number, node in TWENTY.items() if number != 17}
    count.check("images: a node left out", refusal(library, less, IMAGE) is None)
    named = IMAGE.replace("7 down\n", "7 down\nnode 17 gone\n")
    right = Status.INVALID_IMAGE, 5, Cause.UNKNOWN_NODE
    count.check("images: a node left out that has a line", refusal(library, less, named) == right)
    less = {number: node for number, node in TWENTY.items() if number != 3}
    count.check("images: a node left out that is in use", refusal(library, less, IMAGE) == right)
    upgrading = IMAGE.replace("clock 0\n", "clock 0\nupgrading 10\n")
    right = Status.INVALID_IMAGE, 4, Cause.UNKNOWN_DOMAIN
    count.check("images: an upgrading domain left out", refusal(library, TWENTY, upgrading) == right)


def test_domains(count, library):
    """A rack with another number, two racks that become one, and a node with another number."""
    renumbered = TWENTY | {2: Node(42, 2, 4)}
    count.check("images: a rack that is renumbered", refusal(library, renumbered, IMAGE) is None)
    joined = TWENTY | {2: Node(4, 2, 4)}
    right = Status.INVALID_IMAGE, 5, Cause.NOT_LAWFUL
    count.check("images: two racks that become one", refusal(library, joined, IMAGE) == right)
    nodes = {107 if number == 7 else number: node for number, node in TWENTY.items()}
    image = IMAGE.replace(" 7:", " 107:").replace("node 7 ", "node 107 ")
    with Book(library, harness.topology_of(nodes), image=image) as book:
        count.check("images: a node that is renumbered", book.image() == image and book.load(107).value == 1)


def test_most(count):
    found = most_of_image()
    count.check(f"images: the longest one has {found} bytes, and not {IMAGE_MOST}", found == IMAGE_MOST)
    count.check("images: the header says so", f"#define LRC_IMAGE_MOST {found}\n" in harness.read(HEADER).decode())


def test(count, library):
    test_most(count)
    test_takeover(count, library)
    test_more(count, library)
    test_less(count, library)
    test_domains(count, library)
