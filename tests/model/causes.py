"""Images that are written by hand after docs/FORMATS.md (The image of a state), and what becomes of each."""
from tests.harness import nodes_in_order
from tests.model.rules import Cause

TWENTY = nodes_in_order(20, 4)
IMAGE = """image 1
before 8
clock 1
upgrading 8
node 3 gone
node 5 draining
node 7 down
stripe 1 0:0 1:0 2:0 - 4:0 5:0 6:0 7:0 8:0 9:0 10:0 11:0 16:0 12:0 13:0 14:0
stripe6 2 15:0 17:0 18:0 19:0 0:1 1:1 2:1 - 4:1 5:1
granted 1 0 0 0 1 0 0 0 0 0 0 0 0 0 0 0 0
granted 2 0 0 0 0 0 0 0 7 0 0 0 0 0 9 0 0
lease 1 3 2 17:1 4
lease 2 7 1 16:1 3
end
"""
STRIPES = "\n".join(IMAGE.split("\n")[7:9])
TURNED = "\n".join(reversed(STRIPES.split("\n")))

# Each image is this one with other words in place of some, or a text of its own.

TAKEN = [
    {}, "image 1\nbefore 0\nclock 0\nend\n",
    {"before 8": f"before {2**63}"},
    {"clock 1": "clock 4293967291", "lease 1 3 2 17:1 4": "lease 1 3 2 17:1 4293967292",
     "lease 2 7 1 16:1 3": "lease 2 7 1 16:1 4293967294"},
    {"upgrading 8\n": ""}, {"upgrading 8": "upgrading 9"},
    {"node 5 draining": "node 5 draining down"}, {"node 3 gone\n": ""}, {"node 7 down": "node 7 draining"},
    {"15:0": "15:3"}, {" 0:0 1:0": " - -"},
    {"granted 1 0": "granted 1 4293967294"}, {"lease 1": "granted 4095" + 16 * " 1" + "\nlease 1"},
    {"17:1 4": "17:1 2"}, {"17:1 4": "18:1 3"},
    {" 5:0": " -", " 5:1": " -", "17:1 4": "5:1 4"},  # a target on a draining node
    {"granted 1 0 0 0 1 0": "granted 1 0 0 0 1 1", "lease 2 7 1 16:1": "lease 1 4 1 4:2"},  # a target beside its own home
]

WRONG = [
    (4, Cause.UNKNOWN_DOMAIN, {"upgrading 8": "upgrading 10"}),
    (4, Cause.UNKNOWN_DOMAIN, {"upgrading 8": "upgrading 10", "before 8": f"before {2**64 - 1}"}),
    (2, Cause.TOO_MANY_ENTRIES, {"before 8": f"before {2**63 + 1}"}),
    (2, Cause.TOO_MANY_ENTRIES, {"before 8": f"before {2**63 + 1}", "clock 1": "clock 4294967295", "node 3": "node 20"}),
    (3, Cause.TOO_MANY_TICKS, {"clock 1": "clock 4293967292"}),
    (6, Cause.OUT_OF_ORDER, {"node 5": "node 3"}),
    (7, Cause.OUT_OF_ORDER, {"node 7 down": "node 4 gone down"}),
    (9, Cause.OUT_OF_ORDER, {"stripe6 2": "stripe6 1"}),
    (9, Cause.OUT_OF_ORDER, {STRIPES: TURNED}),
    (11, Cause.OUT_OF_ORDER, {"granted 2": "granted 1"}),
    (13, Cause.OUT_OF_ORDER, {"lease 2 7": "lease 1 3"}),
    (13, Cause.OUT_OF_ORDER, {"lease 2 7": "lease 1 2"}),
    (10, Cause.SAYS_NOTHING, {"granted 1 0 0 0 1": "granted 1 0 0 0 0"}),
    (7, Cause.UNKNOWN_NODE, {"node 7 down": "node 20 gone down"}),
    (9, Cause.UNKNOWN_NODE, {"15:0": "20:0"}),
    (12, Cause.UNKNOWN_NODE, {"17:1": "20:1"}),
    (5, Cause.GONE_AND_DOWN, {"node 3 gone": "node 3 gone down"}),
    (13, Cause.UNKNOWN_FRAGMENT, {"lease 2 7 1 16:1": "lease 2 13 1 20:9"}),
    (9, Cause.UNKNOWN_SLOT, {"15:0": "15:4"}),
    (12, Cause.UNKNOWN_SLOT, {"17:1": "3:4"}),
    (8, Cause.NODE_GONE, {" - 4:0": " 3:0 4:0"}),
    (12, Cause.NODE_GONE, {"17:1": "3:1"}),
    (8, Cause.SEAT_TAKEN, {"1:0 2:0": "1:0 1:0"}),
    (9, Cause.SEAT_TAKEN, {" 4:1": " 4:0"}),
    (12, Cause.SEAT_TAKEN, {"17:1": "17:0"}),
    (13, Cause.SEAT_TAKEN, {"16:1": "17:1"}),
    (8, Cause.NOT_LAWFUL, {"1:0 2:0": "1:0 1:3"}),  # two fragments on one node
    (8, Cause.NOT_LAWFUL, {"1:0 2:0": "1:0 10:1"}),  # two of one class in one upgrade domain
    (12, Cause.NOT_LAWFUL, {"17:1": "6:1"}),
    (12, Cause.NOT_LAWFUL, {"17:1": "15:1"}),
    (13, Cause.NOT_LAWFUL, {"granted 1 0 0 0 1 0": "granted 1 0 0 0 1 1", "lease 2 7 1 16:1": "lease 1 4 1 17:2"}),
    (10, Cause.TOO_MANY_GRANTS, {"granted 1 0": "granted 1 4293967295"}),
    (11, Cause.TOO_MANY_GRANTS, {" 9 0 0\n": " 9 0 4294967295\n"}),
    (12, Cause.UNKNOWN_STRIPE, {"lease 1 3 2 17:1 4": "lease 0 3 2 20:9 9"}),
    (12, Cause.UNKNOWN_STRIPE, {STRIPES: STRIPES.split("\n")[0]}),
    (12, Cause.NEVER_GRANTED, {"lease 1 3 2 17:1 4": "lease 1 2 2 20:9 9"}),
    (12, Cause.WRONG_EXPIRY, {"17:1 4": "20:9 1"}),
    (12, Cause.WRONG_EXPIRY, {"17:1 4": "17:1 5"}),
    (13, Cause.WRONG_EXPIRY, {"clock 1": "clock 3"}),
    (11, Cause.WRONG_EXPIRY, {"upgrading 8\n": "", "17:1 4": "17:1 0"}),
    (9, Cause.UNKNOWN_SLOT, {"15:0": "15:4", "granted 1 0 0 0 1": "granted 1 0 0 0 0", "17:1 4": "17:1 5"}),
]

BAD = [
    (1, ""), (1, "\n"), (1, "image 1"), (2, "image 1\n"), (2, "image 1\nend\n"), (4, "image 1\nbefore 0\nclock 0\n"),
    (1, {"image 1": "image 2"}), (1, {"image 1": " image 1"}), (1, {"image 1\n": ""}), (1, {"image 1": "image 1\r"}),
    (2, {"before 8": "before 08"}), (2, {"before 8": f"before {2**64}"}), (2, {"before 8\n": ""}),
    (2, {"before 8\nclock 1": "clock 1\nbefore 8"}), (3, {"before 8": "before 8\nbefore 9"}),
    (3, {"clock 1": f"clock {2**32}"}), (3, {"clock 1": "clock -1"}), (3, {"clock 1": "clock"}),
    (4, {"upgrading 8": "upgrading 256"}), (5, {"upgrading 8": "upgrading 8\nupgrading 9"}),
    (5, {"upgrading 8\nnode 3 gone": "node 3 gone\nupgrading 8"}),
    (5, {"node 3 gone": "node 3"}), (5, {"node 3 gone": "node 3 active"}), (5, {"node 3 gone": "node 3 down gone"}),
    (5, {"node 3 gone": "node 3 gone "}), (5, {"node 3 gone": "node  3 gone"}), (5, {"node 3 gone": "node 65536 gone"}),
    (5, {"node 3 gone": "Node 3 gone"}), (5, {"node 3 gone": ""}), (5, {"node 3 gone": "node \u0663 gone"}),
    (8, {"stripe 1": "stripe 4096"}), (8, {"stripe 1": "stripe6 1"}), (9, {"stripe6 2": "stripe 2"}),
    (8, {" 14:0": ""}), (8, {" 14:0": " 14:0 -"}), (8, {" 0:0 1:0": " 0 1:0"}), (8, {" 0:0 1:0": " 0:0:0 1:0"}),
    (8, {" 0:0 1:0": " 65536:0 1:0"}), (8, {" 0:0 1:0": " 0:65536 1:0"}), (8, {" - 4:0": " -- 4:0"}),
    (9, {STRIPES: "granted 0" + 16 * " 1" + "\n" + STRIPES}),
    (10, {"granted 1": "granted 4096"}), (10, {"granted 1 0": "granted 1"}), (10, {"granted 1 0": "granted 1 0 0"}),
    (10, {"granted 1 0": f"granted 1 {2**32}"}), (10, {"granted 1 0": "granted 1 00"}), (10, {"granted 1 0": "granted 1 -"}),
    (12, {"lease 1 3": "lease 4096 3"}), (12, {"lease 1 3": "lease 1 16"}), (12, {"lease 1 3 2": "lease 1 3 0"}),
    (12, {"lease 1 3 2": "lease 1 3 9"}), (12, {"17:1 4": "- 4"}), (12, {"17:1 4": "17:1"}), (12, {"17:1 4": "17:1 4 4"}),
    (12, {"17:1 4": f"17:1 {2**32}"}), (13, {"lease 2 7 1 16:1 3": "node 8 down"}),
    (14, {"end\n": ""}), (14, {"end\n": "end"}), (14, {"end\n": "end \n"}), (15, {"end\n": "end\n\n"}),
    (15, {"end\n": "end\nend\n"}), (15, {"end\n": "end\nx"}), (13, {"lease 1": "end\nlease 1"}),
    # (a text is read to its end before anything in it is judged)
    (14, {"upgrading 8": "upgrading 10", "end\n": ""}),
]


def text_of(image):
    """The text of an image, which is given by what is other than in the first one."""
    if isinstance(image, str):
        return image
    text = IMAGE
    for old, new in image.items():
        assert text.count(old) == 1, f"{old!r} stands {text.count(old)} times in the image"
        text = text.replace(old, new)
    return text


def test(count, who, begin):
    """A way to begin does with each image as it has to. It takes nodes and a text, and returns the text of the image in
    which it began, or what the fault is: the line that is bad, or the line that is wrong and the cause."""
    taken = [(text, text) for text in map(text_of, TAKEN)]
    wrong = [(text_of(image), (line, cause)) for line, cause, image in WRONG]
    bad = [(text_of(image), line) for line, image in BAD]
    for text, right in taken + wrong + bad:
        found = begin(TWENTY, text)
        count.check(f"{who} begins in an image with {found!r}, and not {right!r}:\n{text}", found == right)
    causes = {cause for _, cause, _ in WRONG}
    count.check(f"{who}: each cause has an image", causes == set(Cause))
