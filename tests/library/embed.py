"""Builds the library of crates/lrc_embed and tests it from C, C++, Python and Rust.

Usage: tests/library/embed [--long] [FOLDER], where FOLDER has what examples/embed/build makes; by default it is built first.

- The header is compared with lrc_records, lrc_walks, lrc_changes and lrc_embed: each struct's size, each field's offset and type, each
  function, each constant; and the structs and constants of the Python module with the header. Compilers take it without a
  warning, and refuse another layout of its structs.
- The module, the crates, the package for Go and the class in C++ call each function of the header but those that are named here.
- The examples in C, C++, Python and Rust print what the rules ask for, and refuse a library of another version.
- Lines of commands are read and written, and words told, as the pages say (tests/library/texts.py).
- The Python module refuses numbers that a field would cut down, closes a book that is no longer used, and replays in pieces,
  also logs of earlier libraries.
- Books begin in images over other nodes, and in a store that is taken over, as docs/EMBEDDING.md says.
- Every bundle of examples and examples/several is run through the library, call by call: each reply, and at the end both
  tables, the codes, the clock and the live leases are those of the model in tests/model/rules.py; the entries are replayed,
  as they are and changed; and a book begins in the image of the state, and in one between the entries, with those behind it.
- tests/library/embed.c calls each function with each status: plain and with the address and undefined-behaviour sanitizers, and in
  valgrind. Each request for memory is refused in turn, alone and with all that follow, each time in a copy (`fork`) of the
  process that made the requests before, so that these are not made once more. The program with the sanitizers takes so long
  that only every seventh request is refused alone in it; with --long each one is.
- The checked build ends a program that is in one handle from two threads, and no other (tests/library/checked.py).
- bench/embed ends well.

What is left out for want of a compiler or tool is printed. The last line is 'N passed, M failed'."""
import ctypes
import glob
import hashlib
import os
import re
import shutil
import subprocess
import sys
import tempfile
from collections import Counter
from concurrent.futures import ThreadPoolExecutor

from tests import harness
from tests.harness import CC, EXAMPLES, TESTS, TOP
from tests.library import checked, images, module, texts
from tests.library.library import code_word, command_of, load_rows, lrc_embed, of_version, risk_rows, text_of
from tests.model import rules

CRATES = ["lrc_records", "lrc_walks", "lrc_changes", "lrc_embed"]  # what the header declares: the structs, the outages, and the functions
EMBED, INCLUDE = f"{EXAMPLES}/embed", f"{TOP}/crates/lrc_embed/include"
CXX = os.environ.get("CXX", "c++")
STRICT = ["-Wall", "-Wextra", "-Werror"]
# The version of the header, and a sum of what it declares.
INTERFACE = "8", "c907aa9777d8"
COUNTED = ["-Wl,--wrap=malloc,--wrap=realloc,--wrap=free"]


def read(path):
    return harness.read(path).decode()


def write(path, text):
    with open(path, "w", encoding="utf-8") as file:
        file.write(text)


def left_out(what, why):
    print(f"left out: {what}: {why}")


# The header, beside the crates.

C_TYPES = {"u8": "uint8_t", "u16": "uint16_t", "u32": "uint32_t", "u64": "uint64_t", "usize": "size_t", "bool": "bool",
           "*mut ()": "void *", "*const u8": "const uint8_t *", "*mut u8": "uint8_t *"}
SIZES = {"u8": 1, "u16": 2, "u32": 4, "u64": 8, "usize": 8, "bool": 1, "*mut ()": 8, "*const u8": 8, "*mut u8": 8}
OWNED = {"OwnedBook", "OwnedFeed"}  # private structs, whose fields stand in those that have them
# A slice within a slice crosses as a pointer and a length: structs that the header alone names.
SLICES = {"LrcBytes": [("at", "*const u8"), ("length", "usize")], "LrcBuffer": [("at", "*mut u8"), ("length", "usize")]}
SLICES_OF = {"&[&[u8]]": "const lrc_bytes *", "&mut [&mut [u8]]": "lrc_buffer *"}


def snake(name):
    """LrcCommand or NotNeeded, as lrc_command or not_needed."""
    return re.sub(r"(?<=[a-z])(?=[A-Z])|(?<=[A-Z])(?=[A-Z][a-z])", "_", name).lower()


def sources():
    """The text of each source file of the crates, without comments, by its crate and its path in src."""
    texts = {}
    for crate in CRATES:
        src = f"{TOP}/crates/{crate}/src"
        for folder, _, names in os.walk(src):
            for name in names:
                path = os.path.join(folder, name)
                texts[f"{crate}/{os.path.relpath(path, src)}"] = re.sub(r"//.*", "", read(path))
    return texts


def structs_of(texts):
    """The fields of each struct that crosses, with their types."""
    structs = {}
    for text in texts.values():
        for name, body in re.findall(r"#\[repr\(C\)\][^{;]*?struct (\w+) \{\n(.*?)\n\}", text, re.S):
            fields = re.findall(r"^    (?:pub(?:\(crate\))? )?(?!ghost|pub ghost)(\w+): (.+),$", body, re.M)
            structs[name] = [(field, type_) for field, type_ in fields if type_ != "Global"]
    return structs | SLICES


def flat(structs, name):
    """The fields of a struct, with those of the one private struct in their place."""
    fields = []
    for field, type_ in structs[name]:
        fields += flat(structs, type_) if type_ in OWNED else [(field, type_)]
    return fields


def unknown_types(structs):
    """The types of fields that have no known size: none of C, no struct, and no array of one."""
    found = {(name, type_) for name, fields in structs.items() for _, type_ in fields
             if re.sub(r"\[(.+); \d+\]", r"\1", type_) not in {*SIZES, *structs}}
    return sorted(found)


def layout(structs, type_):
    """Size and alignment of a type of the crates."""
    array = re.fullmatch(r"\[(.+); (\d+)\]", type_)
    if array:
        size, align = layout(structs, array[1])
        return size * int(array[2]), align
    if type_ in SIZES:
        return SIZES[type_], SIZES[type_]
    end, most = 0, 1
    for _, inner in flat(structs, type_):
        size, align = layout(structs, inner)
        end, most = -(-end // align) * align + size, max(most, align)
    return -(-end // most) * most, most


def c_type(type_):
    return C_TYPES.get(type_) or snake(type_)


def fields_of(structs, name):
    """Each field of a struct, with its type, its place and its size."""
    end = 0
    for field, type_ in flat(structs, name):
        size, align = layout(structs, type_)
        end = -(-end // align) * align
        yield field, type_, end, size
        end += size


def own_asserts(structs, name):
    """The lines by which the header tells a compiler the layout of a struct."""
    size, align = layout(structs, name)
    yield f"LRC_EMBED_STRUCT({snake(name)}, {size}, {align})"
    for field, _, place, _ in fields_of(structs, name):
        yield f"LRC_EMBED_FIELD({snake(name)}, {field}, {place})"


def struct_asserts(structs, name):
    """Lines of C that hold where the header's struct is that of the crates."""
    own = snake(name)
    yield f"_Static_assert(sizeof({own}) == {layout(structs, name)[0]}, \"size of {own}\");"
    for field, type_, end, size in fields_of(structs, name):
        array = re.fullmatch(r"\[(.+); (\d+)\]", type_)
        place, item = f"(({own} *)0)->{field}", array[1] if array else type_
        yield f"_Static_assert(offsetof({own}, {field}) == {end}, \"offset of {own}.{field}\");"
        yield f"_Static_assert(sizeof({place}) == {size}, \"size of {own}.{field}\");"
        one = f"{place}[0]" if array else place
        yield f"_Static_assert(_Generic({one}, {c_type(item)}: 1, default: 0), \"type of {own}.{field}\");"


def parameters(given):
    """The parameters of an export as C has them."""
    for name, type_ in re.findall(r"(\w+): ([^,]+)", given):
        slice_of = re.fullmatch(r"&(mut )?\[(\w+)\]", type_)
        if type_ == "Global":
            continue
        if type_ in SLICES_OF:
            yield f"{SLICES_OF[type_]}{name}"
            yield f"size_t {name}_length"
        elif slice_of:
            yield f"{'' if slice_of[1] else 'const '}{c_type(slice_of[2])} *{name}"
            yield f"size_t {name}_length"
        elif type_.startswith("&mut "):
            yield f"{c_type(type_[5:])} *{name}"
        elif type_.startswith("&"):
            yield f"const {c_type(type_[1:])} *{name}"
        else:
            yield f"{c_type(type_)} {name}"


def exports_of(texts):
    """The declaration in C of each export."""
    exports = {}
    for text in texts.values():
        for name, given in re.findall(r"pub extern \"C\" fn (\w+)\(([^)]*)\) -> u32", text):
            exports[name] = f"uint32_t {name}({', '.join(parameters(given)) or 'void'});"
    return exports


def header_line(header, name):
    """The declaration of a function in the header."""
    return re.search(rf"^uint32_t {name}\([^)]*\);", header, re.M)[0]


def names_in(declaration):
    """The names of the parameters of a declaration in C, in order. Two of one type that are turned show by nothing else."""
    return re.findall(r"(\w+)\s*[,)]", declaration)


# Parameters that have another name in the header.
NAMED_ANEW = {"safe": "is_safe", "needed": "length"}

# What the names of an enum of the header begin with, where it is not LRC_ alone.
BEGINNINGS = {"lrc_cause": "LRC_CAUSE_", "lrc_line_cause": "LRC_LINE_", "lrc_view": "LRC_SHOW_",
              "lrc_field": "LRC_FIELD_"}


def numbered(text, pattern, beginning="LRC_"):
    """What a pattern finds of names and numbers, as constants of the header."""
    return {f"{beginning}{snake(name).upper()}": int(number) for name, number in re.findall(pattern, text, re.S | re.M)}


def constants_of(texts):
    """Each enum of the header, from what the crates say."""
    command, reply = texts["lrc_records/command.rt"], texts["lrc_records/reply.rt"]
    kinds, replies = command[command.index("fn read"):], reply[reply.index("fn set("):]
    return {
        "lrc_status": numbered(texts["lrc_embed/status.rt"], r"const (\w+): u32 = (\d+);"),
        # (`done` is a status of the header too)
        "lrc_command_kind": {f"LRC_{'REPORT' if name == 'Done' else snake(name).upper()}": int(number)
                             for number, name in re.findall(r"(\d+) => Some\(Command::(\w+)", kinds)},
        "lrc_reply_kind": numbered(replies, r"ReplyRef::(\w+)(?:\([^)]*\)| \{[^}]*\})? => .*?self\.kind = (\d+)"),
        "lrc_repair": numbered(texts["lrc_records/repair.rt"], r"Kind::(\w+)(?:\(\w+\))? => \((\d+),"),
        "lrc_refusal": numbered(reply, r"Refusal::(\w+)(?:\(\w+\))? => \((\d+),"),
        "lrc_level_kind": numbered(texts["lrc_records/level.rt"], r"Level::(\w+)(?:\(\w+\))? => \((\d+),"),
        "lrc_mode_kind": numbered(texts["lrc_records/mode.rt"], r"Mode::(\w+) => (\d+),"),
        "lrc_code": numbered(texts["lrc_records/code.rt"], r"Code::(\w+) => (\d+),"),
        "lrc_outage": {f"LRC_{name.upper()}": int(number)
                       for number, name in re.findall(r"(\d+) => Some\(Outage::(\w+)\)", texts["lrc_walks/outages.rt"])},
        "lrc_cause": numbered(read(f"{TOP}/crates/lrc_images/src/cause.rt"), r"^    (\w+) = (\d+),$", BEGINNINGS["lrc_cause"]),
        "lrc_field": numbered(texts["lrc_records/names.rt"], r"^const (\w+): u8 = (\d+);", BEGINNINGS["lrc_field"]),
        "lrc_line_cause": numbered(read(f"{TOP}/crates/lrc_script/src/script.rt"), r"^    (\w+) = (\d+),$",
                                   BEGINNINGS["lrc_line_cause"]),
        "lrc_view": {f"LRC_SHOW_{'_'.join(filter(None, names)).upper()}": int(number) for number, *names in
                     re.findall(r"(\d+) => Some\(View::(\w+)(?:\(DomainKind::(\w+)\))?\)", texts["lrc_embed/exports/tables.rt"])},
    }


def limits():
    """How many stripes and fragments there are."""
    text = read(f"{TOP}/crates/lrc_code/src/numbers.rt")
    return {name: int(number) for name, number in re.findall(r"pub const (\w+): usize = (\d+);", text)}


def interface_of(header):
    """The version of a header, and a sum of all that it says to a compiler."""
    words = re.sub(r"//.*", "", header).split()
    return words[words.index("LRC_EMBED_VERSION") + 1], hashlib.sha256(" ".join(words).encode()).hexdigest()[:12]


def header_enums(header):
    """The names of each enum of the header."""
    text = re.sub(r"//.*", "", header)
    return {name: re.findall(r"\b(LRC_\w+)\b", body) for name, body in re.findall(r"enum (\w+) \{(.*?)\}", text, re.S)}


def test_header(count, room):
    header, texts = read(f"{INCLUDE}/lrc_embed.h"), sources()
    structs, exports, constants = structs_of(texts), exports_of(texts), constants_of(texts)
    found = interface_of(header)
    count.check(f"the header is not that of its version: raise LRC_EMBED_VERSION, and note {found}", found == INTERFACE)
    declared = set(re.findall(r"^uint32_t (lrc_\w+)\(", header, re.M))
    count.check(f"the functions of the header: {declared ^ set(exports)}", declared == set(exports))
    for name in sorted(declared & set(exports)):
        found, wanted = names_in(header_line(header, name)), [NAMED_ANEW.get(it, it) for it in names_in(exports[name])]
        # (the length of a slice has a name in the header alone)
        same = len(found) == len(wanted) and all(it in (other, "void") or it.endswith("_length") for it, other in zip(wanted, found))
        count.check(f"the parameters of {name} are {found} in the header, {wanted} in the crate", same)
    named = set(re.findall(r"^\} (lrc_\w+);", header, re.M))
    crossing = {snake(name) for name in structs} - {snake(name) for name in OWNED}
    count.check(f"the structs of the header: {named ^ crossing}", named == crossing)
    if not count.check(f"the types of fields: {unknown_types(structs)}", not unknown_types(structs)):
        return
    asserted = re.findall(r"^LRC_EMBED_(?:STRUCT|FIELD)\(.*\)$", header, re.M)
    wanted = [line for name in structs if name not in OWNED for line in own_asserts(structs, name)]
    found = set(asserted) ^ set(wanted)
    count.check(f"the layouts that the header tells: {found}", not found and len(asserted) == len(wanted))
    enums = header_enums(header)
    for name in sorted(set(enums) | set(constants)):
        found = set(enums.get(name, ())) ^ set(constants.get(name, ()))
        count.check(f"the constants of {name}: {found}", not found and len(constants[name]) > 1)
    lines = ["#include \"lrc_embed.h\"", *exports.values()]
    for name in sorted(set(structs) - OWNED):
        lines += struct_asserts(structs, name)
    for values in constants.values():
        lines += [f"_Static_assert({name} == {value}, \"{name}\");" for name, value in values.items()]
    lines += [f"_Static_assert(LRC_{name} == {value}, \"{name}\");" for name, value in limits().items()]
    for name, constant in {"LRC_EMBED_VERSION": "VERSION", "LRC_RULES_VERSION": "RULES"}.items():
        version = re.search(rf"const {constant}: u32 = (\d+);", texts["lrc_embed/exports/open.rt"])[1]
        lines.append(f"_Static_assert({name} == {version}, \"version\");")
    write(f"{room}/header.c", "\n".join([*lines, ""]))
    count.run("the header beside the crates", CC, "-std=c11", *STRICT, "-I", INCLUDE, "-c", f"{room}/header.c", "-o",
              f"{room}/header.o")
    print(f"compared with the crates: {len(set(structs) - OWNED)} structs, {len(exports)} functions, "
          f"{len(limits()) + sum(map(len, constants.values()))} constants")
    test_module(count, structs, constants)
    test_compilers(count, room)


def test_compilers(count, room):
    """The header compiles without a warning by each standard, and one that knows assertions refuses another layout."""
    how = [*STRICT, "-Wpedantic", "-I", INCLUDE, "-c", "-o", f"{room}/alone.o"]
    compilers = [(CC, "c", standard) for standard in ("c99", "c11", "c17")]
    if shutil.which(CXX):
        compilers += [(CXX, "cpp", standard) for standard in ("c++11", "c++17", "c++20")]
    else:
        left_out("the header by a compiler of C++", f"there is no {CXX}")
    for compiler, kind, standard in compilers:
        write(f"{room}/alone.{kind}", "#include \"lrc_embed.h\"\n")
        count.run(f"the header by {standard}", compiler, f"-std={standard}", *how, f"{room}/alone.{kind}")
        for pack in (1, 2, 4) if standard != "c99" else ():
            write(f"{room}/packed.{kind}", f"#pragma pack({pack})\n#include \"lrc_embed.h\"\n")
            words = [compiler, f"-std={standard}", *how, f"{room}/packed.{kind}"]
            ended = subprocess.run(words, capture_output=True, text=True)
            is_told = "the library has another layout of lrc_handle" in ended.stderr
            count.check(f"the header by {standard}, packed by {pack}: {ended.stderr[:500]}", ended.returncode and is_told)


def test_module(count, structs, constants):
    """The Python module's structs and constants are those of the crates."""
    for name in sorted(set(structs) - OWNED):
        struct = getattr(lrc_embed, name.removeprefix("Lrc"))
        found = [(field, place, size) for field, _, place, size in fields_of(structs, name)]
        own = [(field, getattr(struct, field).offset, getattr(struct, field).size) for field, _ in struct._fields_]
        count.check(f"the module's {name}: {own}", own == found)
        count.check(f"the module's size of {name}", ctypes.sizeof(struct) == layout(structs, name)[0])
    for enum, values in constants.items():
        name = "".join(word.capitalize() for word in enum.removeprefix("lrc_").split("_"))
        own = {f"{BEGINNINGS.get(enum, 'LRC_')}{member.name}": member.value for member in getattr(lrc_embed, name)}
        count.check(f"the module's {name}: {own}", own == values)
    versions = {f"LRC_EMBED_VERSION {lrc_embed.VERSION}", f"LRC_RULES_VERSION {lrc_embed.RULES_VERSION}"}
    count.check(f"the module's versions: {versions}", versions == set(re.findall(r"LRC_\w+_VERSION \d+", read(f"{INCLUDE}/lrc_embed.h"))))
    own = {name: getattr(lrc_embed, name) for name in limits()}
    count.check(f"the module's limits: {own}", own == limits() and len(own) == 3)


# Where each language calls the library, and which functions it leaves out: where another one says more, and in C++ the texts that a
# program which does not print needs not.
BINDINGS = {
    "Python": ("examples/embed/lrc_embed.py", ""),
    "Rust": ("examples/embed/rust/lrc-embed/src/*.rs", ""),
    "Go": ("service/book/*.go", "call command_name command_fields"),
    "C++": ("examples/embed/late_worker.cpp", """
        matrix recipe_of command_line read_command command_name command_fields forecast_table reply_line reply_name level_name
        mode_name code_name repair_name cause_words line_words nodes_words"""),
}


def test_bindings(count):
    """Each language calls all functions of the header but those that are named."""
    declared = set(re.findall(r"^uint32_t lrc_embed_(\w+)\(", read(f"{INCLUDE}/lrc_embed.h"), re.M))
    for name, (files, left) in BINDINGS.items():
        text = "".join(read(it) for it in sorted(glob.glob(f"{TOP}/{files}")) if not it.endswith("_test.go"))
        called = {it for it in declared if re.search(rf"\blrc_embed_{it}\b|\"{it}\"", text)}
        count.check(f"{name} lacks {declared - called - set(left.split())}", declared - called <= set(left.split()))
        count.check(f"{name} has {called & set(left.split())}", not called & set(left.split()))


# The examples.


def example_commands(room, library, links):
    """How each example is built, if it is, with these words for the linker, and run."""
    links = [f"{room}/liblrc_embed.a", *links]
    to = {name: f"{room}/late_worker_{name}" for name in ("c", "cpp", "rs")}
    yield "C", CC, [CC, "-std=c11", "-O2", *STRICT, "-I", INCLUDE, f"{EMBED}/late_worker.c", *links, "-o", to["c"]], [to["c"]]
    cpp = [CXX, "-std=c++17", "-O2", "-pthread", *STRICT, "-I", INCLUDE, f"{EMBED}/late_worker.cpp", *links, "-o", to["cpp"]]
    yield "C++", CXX, cpp, [to["cpp"]]
    yield "Python", sys.executable, None, [sys.executable, f"{EMBED}/late_worker.py", library]
    rust = ["rustc", "--edition", "2024", "-D", "warnings", "-O", f"{EMBED}/late_worker.rs"]
    rust += [word for link in links for word in ("-C", f"link-arg={link}")]
    yield "Rust", "rustc", [*rust, "-o", to["rs"]], [to["rs"]]


def builds_rust(room):
    """Whether there is a rustc that knows the edition, and can link."""
    write(f"{room}/empty.rs", "fn main() {}\n")
    words = ["rustc", "--edition", "2024", f"{room}/empty.rs", "-o", f"{room}/empty"]
    return subprocess.run(words, capture_output=True).returncode == 0


def built_examples(count, room, library, links=()):
    """Builds each example, and returns how it is run; one that can't be built here is left out."""
    for name, needed, build, run in example_commands(room, library, links):
        if not shutil.which(needed):
            left_out(f"the example in {name}", f"there is no {needed}")
        elif name == "Rust" and not builds_rust(room):
            left_out("the example in Rust", "this rustc does not build programs of edition 2024")
        elif not build or count.run(f"building the example in {name}", *build) is not None:
            yield name, run


def test_examples(count, room, library):
    replies = read(f"{EXAMPLES}/late_worker.out").split("risk\n")[0]
    for name, run in built_examples(count, room, library):
        found = count.run(f"the example in {name}", *run)
        count.check(f"what the example in {name} prints: {found}", found == replies + "replayed 9\ndifferent at 4\n")


# Libraries of another version.


def is_refused(count, name, words, version, **how):
    """A program ends at once, and says the version of the library and its own."""
    ended = subprocess.run(words, capture_output=True, text=True, timeout=60, **how)
    said, own = ended.stderr.strip(), lrc_embed.VERSION
    wanted = rf"\w+: the library has version {version} of its interface, and (the header|this module|this program) is for version {own}"
    is_told = ended.returncode == 1 and not ended.stdout and re.fullmatch(wanted, said)
    count.check(f"{name} with a library of version {version}: status {ended.returncode}: {said}", is_told)


def test_versions(count, room):
    """Each example refuses a library of another version before any other call. The C example does so with a shared library
    too that has nothing else than its version: it is found by its name, which has the number, and was changed later."""
    for version in (lrc_embed.VERSION - 1, lrc_embed.VERSION + 1):
        other = of_version(count, room, version)
        for name, run in built_examples(count, room, other.shared, other.links):
            is_refused(count, f"the example in {name}", run, version)
        words = [CC, "-std=c11", "-I", INCLUDE, f"{EMBED}/late_worker.c", f"-L{room}", "-llrc_embed", "-Wl,-z,lazy"]
        if count.run("building the example in C with the shared library", *words, "-o", f"{room}/late_worker_so") is not None:
            own, others = ({**os.environ, "LD_LIBRARY_PATH": folder} for folder in (room, other.folder))
            count.run("the example in C with the shared library", f"{room}/late_worker_so", env=own)
            is_refused(count, "the example in C, shared,", [f"{room}/late_worker_so"], version, env=others)


# Bundles.


def leases_of(book):
    """The live leases by stripe and fragment, as the book reports them."""
    leases = {}
    for stripe in range(lrc_embed.STRIPES):
        for fragment in range(lrc_embed.FRAGMENTS if book.homes(stripe) else 0):
            lease = book.lease(stripe, fragment)
            if lease:
                target = lease.target.node, lease.target.slot
                leases[stripe, fragment] = rules.Lease(lease.holder, target, lease.epoch, lease.expiry)
    return leases


def codes_of(book):
    """The code of each stripe that is there."""
    codes = {stripe: book.code(stripe) for stripe in range(lrc_embed.STRIPES)}
    return {stripe: code_word(code) for stripe, code in codes.items() if code is not None}


def seats_on(book, leases):
    """The number of homes and targets on each node, as the book reports them."""
    held = [lease.target[0] for lease in leases.values()]
    for stripe in range(lrc_embed.STRIPES):
        homes = book.homes(stripe)
        held += [home.seat.node for home in homes.homes if home.is_there] if homes else []
    return Counter(held)


def test_replays(count, name, library, topology, log):
    """The entries are replayed, and found out where one of them is changed."""
    with lrc_embed.Book(library, topology, log) as book:
        same = [bytes(book.entry(index)) == bytes(entry) for index, entry in enumerate(log)]
        count.check(f"{name}: the entries after a replay", all(same) and book.count() == len(log))
    for at in sorted({0, len(log) // 2, len(log) - 1} if log else ()):
        changed = [lrc_embed.Entry.from_buffer_copy(entry) for entry in log]
        changed[at].reply.kind ^= 1
        try:
            lrc_embed.Book(library, topology, changed)
            count.check(f"{name}: a changed entry is replayed", False)
        except lrc_embed.Fault as fault:
            right = (fault.status, fault.position) == (lrc_embed.Status.DIFFERENT, at)
            count.check(f"{name}: a changed entry at {at}: {fault} at {fault.position}", right)


def image_after(library, topology, log, image=None):
    """The image of a book that begins in an image, or empty, after a log."""
    with lrc_embed.Book(library, topology, log, image) as book:
        return book.image()


def test_images(count, name, library, topology, log, image):
    """A book that begins in the image has it, with no entry; so does one that begins in an earlier image and replays the
    entries behind it."""
    with lrc_embed.Book(library, topology, image=image) as book:
        count.check(f"{name}: a book that begins in the image", book.image() == image)
        count.check(f"{name}: the entries before the image", (book.before(), book.count()) == (len(log), 0))
    for at in sorted({0, len(log) // 2, len(log)}):
        earlier = image_after(library, topology, log[:at])
        found = image_after(library, topology, log[at:], earlier)
        count.check(f"{name}: a book that begins in the image after {at} entries", found == image)


def test_bundle(count, library, name, bundle):
    """Each reply, and then both tables, the codes, the clock and the live leases are those of the rules. Returns which kinds of
    replies, repairs and refusals came."""
    nodes, scripts = harness.parts_of(bundle)
    topology = harness.split(bundle)[0].decode()
    store, wrong, met = rules.Store(nodes), [], set()
    with lrc_embed.Book(library, topology) as book:
        for session, line in ((i + 1, scripts[i][n]) for i, n in harness.in_turn(scripts)):
            peeked = text_of(book.peek(session, command_of(line)))
            reply, right = book.call(session, command_of(line)), store.call(session, line)
            found = text_of(reply)
            wrong += [f"peek of {line}: {peeked}, and not {right}"] if peeked != right else []
            wrong += [f"{line}: {found}, and not {right}"] if found != right else []
            text = lrc_embed.reply_text(library, reply)
            wrong += [f"the text of {right}: {text}"] if text != right else []
            met.add((reply.kind, reply.repair, reply.refusal))
        count.check(f"{name}: {wrong}", not wrong)
        count.check(f"{name}: risk", list(risk_rows(book)) == list(store.risk_rows()))
        count.check(f"{name}: load", list(load_rows(book, nodes)) == list(store.load_rows()))
        codes = {stripe: code.name for stripe, code in store.stripes.items()}
        count.check(f"{name}: codes", codes_of(book) == codes)
        count.check(f"{name}: clock", book.clock() == store.clock)
        leases = leases_of(book)
        count.check(f"{name}: leases", leases == store.leases)
        seats = seats_on(book, leases)
        count.check(f"{name}: seats", all(book.load(node).value == seats[node] for node in nodes))
        log, image = [book.entry(index) for index in range(book.count())], book.image()
    test_replays(count, name, library, topology, log)
    test_images(count, name, library, topology, log, image)
    return met


def test_bundles(count, library):
    library, met = ctypes.CDLL(library), set()
    for folder in ("", "several"):
        for name, bundle in harness.bundles_in(folder):
            met |= test_bundle(count, library, name, bundle)
    kinds = {(kind, 0, 0) for kind in (1, 2, 4, 5, 6, 8, 9)} | {(3, repair, 0) for repair in range(1, 5)}
    lacked = (kinds | {(7, 0, refusal) for refusal in range(101, 118)}) - met
    count.check(f"replies that no bundle gets: {lacked}", not lacked)


# Each function with each status.


def build_calls(count, name, room, *flags):
    to = f"{room}/calls_{name}"
    words = [CC, "-std=c11", *STRICT, *flags, "-I", INCLUDE, f"{TESTS}/library/embed.c", f"{room}/liblrc_embed.a", *COUNTED]
    return to if count.run(f"building embed.c ({name})", *words, "-o", to) is not None else None


def has_sanitizers(room):
    write(f"{room}/empty.c", "int main(void) { return 0; }\n")
    words = [CC, "-fsanitize=address,undefined", f"{room}/empty.c", "-o", f"{room}/empty"]
    return subprocess.run(words, capture_output=True).returncode == 0


def test_refusals(count, programs, is_long):
    """Requests for memory are refused in each program, alone and with all that follow."""
    runs = [(name, how) for name in programs for how in ("alone", "onward")]

    def step(run):
        return 7 if run == ("sanitized", "alone") and not is_long else 1

    def ended(run):
        env = {**os.environ, "REFUSE_EACH": str(step(run))}
        return subprocess.run([programs[run[0]], run[1]], env=env, capture_output=True, text=True, timeout=3600)

    with ThreadPoolExecutor(os.cpu_count()) as pool:
        for (name, how), found in zip(runs, pool.map(ended, runs)):
            if count.check(f"embed.c ({name}) {how}: status {found.returncode}: {found.stderr[:2000]}", found.returncode == 0):
                refused = int(found.stdout) // step((name, how))
                count.add(refused, [])
                print(f"requests for memory that were refused {how} ({name}): {refused} of {found.stdout.strip()}")


def test_calls(count, room, is_long):
    flags = {"plain": ["-O2"]}
    if has_sanitizers(room):
        flags["sanitized"] = ["-g", "-O1", "-fsanitize=address,undefined", "-fno-sanitize-recover=all"]
    else:
        left_out("the sanitizers", f"{CC} does not build with -fsanitize=address,undefined")
    programs = {name: build_calls(count, name, room, *words) for name, words in flags.items()}
    programs = {name: program for name, program in programs.items()
                if program and count.run(f"embed.c ({name})", program, "full") is not None}
    test_refusals(count, programs, is_long)
    if "plain" not in programs:
        return
    if shutil.which("valgrind"):
        words = ["valgrind", "-q", "--error-exitcode=9", "--leak-check=full"]
        count.run("embed.c in valgrind", *words, programs["plain"], "images")
    else:
        left_out("valgrind", "it is not installed")


def main(words):
    is_long, folders = "--long" in words, [word for word in words if word != "--long"]
    count = harness.Count()
    with tempfile.TemporaryDirectory() as room:
        if folders:
            shutil.copytree(folders[0], room, dirs_exist_ok=True)
        elif count.run("examples/embed/build", f"{EMBED}/build", room, timeout=7200) is None:
            return count.report()
        library = f"{room}/liblrc_embed.so"
        test_header(count, room)
        test_bindings(count)
        test_examples(count, room, library)
        test_versions(count, room)
        module.test(count, ctypes.CDLL(library))
        images.test(count, ctypes.CDLL(library))
        texts.test(count, ctypes.CDLL(library))
        test_bundles(count, library)
        test_calls(count, room, is_long)
        checked.test(count, room, exports_of(sources()))
        told = count.run("bench/embed", sys.executable, f"{TOP}/bench/embed", "--quick", room) or ""
        tables = re.findall(r"^\| `[a-z ]+` \| [\d.]+ \| \d+ \|$", told, re.M)
        count.check(f"bench/embed: {told}", len(tables) == len(lrc_embed.View) and "\na book with 256 stripes: " in told)
    return count.report()


if __name__ == "__main__":
    sys.exit(main(sys.argv[1:]))
