"""Compares the refusals, limits, versions, fields of structs and parts of tools/test that stand in
other places with those of the crates; and the walks of CONTRIBUTING.md with the tree."""
import ast
import fnmatch
import glob
import os
import re
import tomllib

import pytest

import sources
from lib import parts, scripts
from lib.build import building

HEADER, SYMBOLS = "c/krbrelay.h", "c/krbrelay.map"
REFUSALS, LIMITS = "crates/krb_seal/src/refusal.rt", "crates/krb_base/src/limits.rt"
HELP = "crates/krb_program/src/help.rt"
# The structs of the C library in Rust, and how C writes their types. Handles are none of them.
STRUCTS = ("crates/krb_structs/src/*.rt", "crates/krb_calls/src/unsealed.rt",
           "crates/krb_calls/src/frame.rt", "crates/krb_calls/src/taken.rt",
           "crates/krb_carrier_structs/src/*.rt", "crates/krb_window/src/window.rt")
HANDLES = {"sealer", "opener", "receiver", "peer", "lane", "shard", "queue"}
C_TYPES = {"uint64_t": "u64", "uint32_t": "u32", "int32_t": "i32", "uint8_t": "u8", "size_t": "usize",
           "const uint8_t *": "*const u8",
           **{f"struct krbrelay_{it}": f"Krb{it.capitalize()}" for it in
              ("address", "command", "moment", "pause", "progress", "row", "spot")}}
PYTHON_TYPES = {"c_uint64": "u64", "c_uint32": "u32", "c_int32": "i32", "c_uint8": "u8", "c_size_t": "usize",
                "c_char_p": "*const u8", "ADDRESS_LIMIT": "ADDRESS_ROOM", "CONFOUNDER_SIZE": "16",
                **{f"{it}Struct": f"Krb{it}" for it in ("Address", "Command", "Moment", "Pause", "Progress", "Row", "Spot")}}
# Bytes that a struct of Rust borrows are two fields in C.
LENT = re.compile(r"&'\w+ \[u8\]")
ORACLE = "tests/oracle"
SIZES = ("crates/krb_structs/src/room.rt", "crates/krb_structs/src/session.rt",
         "crates/krb_calls/src/many.rt", "crates/krb_calls/src/takes_many.rt", "crates/krb_commands/src/input.rt")
VERSION, PAGES = "VERSION", "c/man"
CALLS, PACKAGE = "crates/krb_c/src/message_calls.rt", "python/tests/test_library.py"
# Where the version stands: the file, the words around it, and what of it stands there. A symbol's
# version is that of the library which brought it: its major number alone is compared.
PLACES = [
    ("README.md", r"^- \*\*Status\*\*: (\S+),", "whole"),
    ("crates/krb_program/src/command.rt", r'\.version\("(.*)"\)', "whole"),
    ("tests/kit/copied.py", r"echo krbrelay (\S+)", "whole"),
    (CALLS, r"^/// The version of the library: (\w+) is ", "packed"),
    (CALLS, r"^/// The version of the library: \w+ is (.*)\.$", "whole"),
    (CALLS, r"^const VERSION: u32 = (\w+);$", "packed"),
    (CALLS, r"krbrelay_version\(\) -> u32\n    ensures { result ≡ (\w+) }", "packed"),
    (HEADER, r"^#define KRBRELAY_VERSION (\w+)u$", "packed"),
    (HEADER, r"^#define KRBRELAY_VERSION_MAJOR (\d+)$", "major"),
    (HEADER, r"^#define KRBRELAY_VERSION_MINOR (\d+)$", "minor"),
    (HEADER, r"^#define KRBRELAY_VERSION_PATCH (\d+)$", "patch"),
    ("c/Makefile", r"^VERSION = (.*)$", "whole"),
    ("c/Makefile", r"Version: ([^' ]+)", "by_make"),
    ("c/Makefile", r"set\(PACKAGE_VERSION (\S+)\)'", "by_make"),
    ("c/Makefile", r"libkrbrelay\.so\.(\d+)", "major"),
    ("packaging/debian/changelog", r"^krbrelay \((.*)-\d+\)", "whole"),
    ("packaging/debian/libkrbrelay1.symbols", r"libkrbrelay\.so\.(\d+)", "major"),
    ("packaging/debian/libkrbrelay1.symbols", r"\(symver\)KRBRELAY_\S+ (\S+)$", "whole"),
    ("c/tests/over_library.py", r"libkrbrelay\.so\.(\d+)", "major"),
    (SYMBOLS, r"KRBRELAY_(\d+)\.", "major"),
    ("python/pyproject.toml", r'^version = "(.*)"$', "whole"),
    ("python/krbrelay/__init__.py", r'^__version__ = "(.*)"$', "whole"),
    ("python/krbrelay/library.py", r"^MAJOR = (\d+)$", "major"),
    ("python/tests/test_package.py", r"krbrelay-(\S+)\.dist-info", "whole"),
    ("python/tests/test_values.py", r"library_version\(\)\[0\], (\d+)\)", "major"),
    (PACKAGE, r"Version: (\S+)\\n", "whole"),
    (PACKAGE, r"\((\d+, \d+, \d+)\)", "listed"),
    ("rust/Cargo.toml", r'^version = "(.*)"$', "whole"),
    ("go/krbrelay.go", r'^const Version = "(.*)"$', "whole"),
    ("go/README.md", r"-go-(\d\S*)$", "whole"),
    ("go/README.md", r"krbrelay@v(\S+)", "whole"),
    ("go/test", r"require krbrelay v(.*?)\\n", "whole"),
    ("conformance/runners/go/go.mod", r"^require krbrelay v(.*)$", "whole"),
    ("docs/C.md", r"libkrbrelay\.so\.(\d+)", "major"),
    ("docs/C.md", r"Within major number (\d+)", "major"),
    ("docs/PYTHON.md", r"as \((\d+, \d+, \d+)\)", "listed"),
    ("docs/krbrelay.1", r'^\.TH KRBRELAY 1 \S+ "krbrelay (.*?)"', "whole"),
    ("docs/krbrelay-check-job.1", r'^\.TH KRBRELAY\S+ 1 \S+ "krbrelay (.*?)"', "whole"),
    ("docs/krbrelay-picture.1", r'^\.TH KRBRELAY\S+ 1 \S+ "krbrelay (.*?)"', "whole"),
    ("CONTRIBUTING.md", r"tag it: `krbrelay-(\S+)`", "whole"),
]
OTHER_VERSION = "7.8.9"         # no part of which is one of a version here
# Prose whose numbers of a thousand and more are limits, but for the limit before the present one.
# Tests and benchmarks have other sizes.
PROSE = ("crates/*/src/**/*.rt", HEADER, "docs/C.md", "docs/PYTHON.md", "docs/USE.md", "docs/CRATES.md",
         PAGES + "/*.3", "python/krbrelay/*.py", "carrier/*.md", "carrier/man/*", "carrier/*/*.[ch]")
OTHER_SIZES = re.compile(r"_tests/|/tests\.rt$|/krb_bench/|^carrier/(tests|simulation)/")
NO_LIMITS = {"crates/krb_der/src/laws.rt": {65_000}, "carrier/OPERATION.md": {86_400}, "carrier/GUARANTEES.md": {1_024, 86_400},
             "carrier/sender/outbox.h": {10_000, 100_000},
             f"{PAGES}/krbrelay_demand.3": {2**32 - 1},     # seconds
             "docs/C.md": {43_127}, HEADER: {16_384}}       # a port; bytes of stack
# Here a number of five digits and more stands without commas too, and none is the last sequence number: what calls
# take and tell is one more at most.
OF_C = (HEADER, "docs/C.md", PAGES + "/*.3")
PLAIN = r"(?<![\w.#/-])\d{5,}(?![\w.])"
WALKS = "CONTRIBUTING.md"
SOURCES = ("tables/*", "crates/**/*", "python/**/*", "tools/**/*", "docs/*.md", "docs/*.1",
           "c/**/*", "tests/**/*", "conformance/**/*", "kerberos/**/*", "carrier/**/*",
           "examples/**/*", "rust/src/*", "go/*")
OF_TESTS = re.compile(r"/out/|/must-fail|mutants\.toml|_tests/|(python|carrier|kerberos|rust)/tests/|^c/tests/(?!answers\.c)|/test_|^tests/(?!oracle/)"
                      r"|__pycache__|^go/\w+_test\.go|^go/testdata")
# Running out of memory is no answer of the independent opener, and an exception of its own in
# Python.
UNTOLD = {"MEMORY"}


# ---- the crates

def refusals():
    """The number of each refusal by its name: the two tables of its methods, joined."""
    text = building.text_of(REFUSALS)
    codes = dict(re.findall(r"Refusal::(\w+) => (\d+),", text))
    names = dict(re.findall(r'Refusal::(\w+) => "(\w+)",', text))
    assert codes.keys() == names.keys() and len(codes) > 10, REFUSALS
    return {names[variant]: int(code) for variant, code in codes.items()}


def constants(path):
    """The whole numbers that a source of a crate names."""
    found = {}
    for name, words in re.findall(r"const (\w+): \w+ = ([\w +]+);", building.text_of(path)):
        terms = [found[it] if it in found else int(it) for it in words.split(" + ")]
        found[name] = sum(terms)
    return found


# ---- the copies

def of_header():
    """The answers of the header by their names, and its limits."""
    text = building.text_of(HEADER)
    listed = re.search(r"enum krbrelay_answer \{(.*?)\};", text, re.S)[1]
    answers = {name: int(code) for name, code in re.findall(r"KRBRELAY_(\w+) = (\d+)\b", listed)}
    limits = {name: int(n) for name, n in re.findall(r"#define KRBRELAY_(\w+_LIMIT) (\d+)", text)}
    limits["FRAME_OVERHEAD"] = int(re.search(r"KRBRELAY_FRAME_SIZE\(len\) \(\(len\) \+ (\d+)\)",
                                             text)[1])
    return answers, limits


def of_python(path):
    """What a module of Python names: whole numbers, dicts, and the members of its classes."""
    found = {}
    for node in ast.walk(ast.parse(building.text_of(path))):
        if not isinstance(node, ast.Assign):
            continue
        try:
            value = ast.literal_eval(node.value)
        except ValueError:
            continue
        target = node.targets[0]
        names = target.elts if isinstance(target, ast.Tuple) else [target]
        values = value if isinstance(target, ast.Tuple) else [value]
        found |= {it.id: v for it, v in zip(names, values) if isinstance(it, ast.Name)}
    return found


def structs_of_header():
    """The fields of each struct of the header, as Rust writes them, by its name."""
    text = re.sub(r"/\*.*?\*/", "", building.text_of(HEADER), flags=re.S)
    return {name: [(field, f"[{C_TYPES[kind]}; {size.removeprefix('KRBRELAY_')}]" if size else C_TYPES[kind])
                   for kind, field, size in re.findall(r"(const uint8_t \*|(?:struct )?\w+(?= )) ?(\w+)(?:\[(\w+)\])?;", body)]
            for name, body in re.findall(r"^struct krbrelay_(\w+) \{(.*?)\};", text, re.S | re.M)
            if name not in HANDLES}


def structs_of_rust():
    """The same of the structs in the crates."""
    found = {}
    for place in STRUCTS:
        for path in sorted(glob.glob(os.path.join(building.TOP, place))):
            text = building.text_of(os.path.relpath(path, building.TOP))
            for name, body in re.findall(r"#\[repr\(C\)\]\n.*?pub struct (?:Krb)?(\w+)(?:<'\w+>)? \{(.*?)\n\}",
                                         text, re.S):
                found[name.lower()] = [it for field, kind in re.findall(r"    pub (\w+): (.*),", body)
                                       for it in in_two(field, kind)]
    return found


def in_two(field, kind):
    return [(field, "*const u8"), (f"{field}_len", "usize")] if LENT.fullmatch(kind) else [(field, kind)]


def structs_of_python():
    """The same of the structs in the Python package."""
    text = building.text_of("python/krbrelay/library.py")
    found = {}
    for name, body in re.findall(r"class (\w+)Struct\(.*?\n    _fields_ = \[(.*?)\]\n", text, re.S):
        fields = re.findall(r'\("(\w+)", (\w+)(?: \* (\w+))?\)', body)
        found[name.lower()] = [
            (field, f"[{PYTHON_TYPES[kind]}; {PYTHON_TYPES.get(size, size)}]" if size
             else PYTHON_TYPES[kind]) for field, kind, size in fields if kind in PYTHON_TYPES]
    return {name: fields for name, fields in found.items() if name != "handle"}


def structs_of_crate():
    """The same of the structs in the Rust crate."""
    return {name.lower(): [(field, kind.replace("Address", "KrbAddress")) for field, kind in re.findall(r"    pub (\w+): (.*),", body)]
            for name, body in re.findall(r"pub\(crate\) struct (\w+) \{\n(.*?)\n\}", building.text_of(CRATE), re.S)
            if name != "Handle"}


CRATE, NAMES = "rust/src/sys.rs", "go/names.h"
POINTED = {"void": "c_void", "krbrelay_sealer": "Raw", "krbrelay_opener": "Raw", "krbrelay_receiver": "Raw",
           "krbrelay_peer": "Raw", "char": "u8", "size_t": "usize", "uint64_t": "u64", "uint32_t": "u32",
           "int32_t": "i32", "uint8_t": "u8", "int": "i32"}


def calls_of_header():
    """What each function of the header takes and returns, as the Rust crate declares it."""
    text = re.sub(r"/\*.*?\*/", "", building.text_of(HEADER), flags=re.S)
    declared = r"^(enum krbrelay_\w+|\w+) (krbrelay_\w+)\(([^{}]*?)\)(?:\s*KRBRELAY_\w+(?:\([\d, ]*\))?)*;"
    for returned, name, parameters in re.findall(declared, text, re.M):
        takes = [crate_type(it) for it in parameters.split(",") if it.strip() != "void"]
        gives = "" if returned == "void" else " -> u32" if returned.startswith("enum") else f" -> {POINTED[returned]}"
        yield name, (takes, gives)


def crate_type(parameter):
    """The type of a parameter of the header, which has its name, as Rust writes it."""
    words = re.sub(r"\[\w*\]", "", parameter).replace("*", " * ").split()
    name = next(it for it in words if it not in ("const", "struct"))
    known = POINTED.get(name) or name.removeprefix("krbrelay_").title()
    points = "*" in words or "[" in parameter
    return ("*const " if "const" in words else "*mut ") * points + known


def calls_of_crate():
    """The same of the declarations in the Rust crate, without those of its tests."""
    text = building.text_of(CRATE).partition("mod tests")[0]
    for name, parameters, gives in re.findall(r"^    fn (krbrelay_\w+)\((.*?)\)(.*?);$", text, re.M | re.S):
        yield name, (re.findall(r": (.*?)(?:,|$)", parameters), gives)


def of_crate():
    header = dict(calls_of_header())
    found = dict(calls_of_crate())
    yield f"{CRATE} has calls", len(found) > 30, True
    for name, call in found.items():
        yield f"{CRATE}, {name}", call, header.get(name)


def of_names():
    """Go renames each function that the C beside the proved code comes before, and no other."""
    wanted = re.findall(r"krbrelay_proved_(\w+)\(", building.text_of("c/unproved/proved.h"))
    renamed = re.findall(r"^#pragma redefine_extname krbrelay_(\w+) krbrelay_(\w+)$", building.text_of(NAMES), re.M)
    yield f"{NAMES} renames", len(wanted) > 5, True
    yield NAMES, renamed, [pair for it in wanted for pair in ((it, f"asking_{it}"), (f"proved_{it}", it))]


def quoted():
    """Each refusal that the help and the documents print: its place, number and name."""
    paths = [HELP, "README.md"] + [os.path.relpath(it, building.TOP) for it in
                                   glob.glob(os.path.join(building.TOP, "docs", "*.md"))]
    for path in sorted(paths):
        for code, name in re.findall(r"refused (\d+) ([A-Z_]+)", building.text_of(path)):
            yield path, int(code), name


def spellings(version):
    """What may stand for a version, by how much of it stands there."""
    major, minor, patch = map(int, version.split("."))
    return {"whole": version, "major": str(major), "minor": str(minor), "patch": str(patch),
            "listed": f"{major}, {minor}, {patch}", "packed": hex(major << 16 | minor << 8 | patch),
            "by_make": "$(VERSION)"}


def version():
    """What the file VERSION says."""
    return building.text_of(VERSION).strip()


def places():
    """Each place that says the version, of which the pages of the manual are one a page."""
    yield from PLACES
    for path in sorted(it for place in (PAGES, "carrier/man") for it in glob.glob(os.path.join(building.TOP, place, "*.[13578]"))):
        page = os.path.relpath(path, building.TOP)
        yield page, r'^\.TH \S+ [13578] \S+ "krbrelay (.*?)"', "whole"


def written(places, number=r"\b\d{1,3}(?:,\d{3})+\b"):
    """Each number in prose, of those with commas: its place, and the number."""
    for place in places:
        for path in sorted(glob.glob(os.path.join(building.TOP, place), recursive=True)):
            name = os.path.relpath(path, building.TOP)
            if OTHER_SIZES.search(name):
                continue
            for found in re.findall(number, building.text_of(name)):
                yield name, int(found.replace(",", ""))


def unnamed(names):
    """The refusals that the document for C, or the manual, doesn't name."""
    document = building.text_of("docs/C.md")
    pages = glob.glob(os.path.join(building.TOP, PAGES, "*.3"))
    manual = "".join(building.text_of(os.path.relpath(path, building.TOP)) for path in pages)
    return [name for name in names if f"`{name}`" not in document
            or not re.search(rf"KRBRELAY_{name}\b", manual)]


# ---- comparing: each case has a name, what was found, and what is wanted

def compared(cases):
    return pytest.mark.parametrize("found, wanted", [pytest.param(*it[1:], id=it[0]) for it in cases()])


def of_refusals():
    table, answers = refusals(), of_header()[0]
    within = range(min(table.values()), max(table.values()) + 1)
    yield HEADER, {name: code for name, code in answers.items() if code in within}, table
    told = {name: code for name, code in table.items() if name not in UNTOLD}
    named = of_python(f"{ORACLE}/opener.py")["NAMES"]
    yield f"{ORACLE}/opener.py", {name: code for code, name in named.items()}, told
    errors = of_python("python/krbrelay/errors.py")
    yield "python/krbrelay/errors.py", {it: errors.get(it) for it in told}, told
    yield "docs/C.md and c/man, refusals without a name", unnamed(table), []
    for path, code, name in quoted():
        yield f"{path}, {name}", code, table.get(name)


def of_limits():
    limits = constants(LIMITS)
    room, session, many, takes, job = map(constants, SIZES)
    proved = limits | {"ADDRESS_ROOM": session["ADDRESS_ROOM"], "LIMIT": job["LIMIT"], **many, **takes}
    for of, rows in tomllib.loads(building.text_of("tables/limits.toml")).items():
        for name, row in rows.items():
            yield f"tables/limits.toml, {of}.{name}", row["number"], proved[row.get("proved", name)]
    for path, known in (HEADER, of_header()[1]), *limits_of_bindings():
        yield f"{path}, FRAME_OVERHEAD", known["FRAME_OVERHEAD"], room["FRAME_OVERHEAD"]
    known = {*limits.values(), *job.values(), limits["LAST_NUMBER"] + 1}
    of_c = known - {limits["LAST_NUMBER"]}
    for those, found in ((known, written(PROSE)), (of_c, written(OF_C, PLAIN))):
        for path, number in found:
            yield f"{path}, {number:,}", number in those | NO_LIMITS.get(path, set()), True
    size = int(re.search(r"#define KRBRELAY_TEXT_SIZE (\d+)", building.text_of("c/krbrelay.h"))[1])
    for name, row in tomllib.loads(building.text_of("tables/answers.toml")).items():
        yield f"the text of {name} has room", len(row["text"].encode()) < size, True


def of_engine():
    """Each pause and each bound of both ends has a row, and is the same in code, definitions and model."""
    model = of_python("carrier/simulation/model.py")
    table = tomllib.loads(building.text_of("tables/engine.toml"))
    below = {(row["code"], row["number"]) for row in table["krb_engine"].values()}
    for crate, rows in table.items():
        folder = os.path.join(building.TOP, "crates", crate)
        code, named = ("".join(building.text_of(path) for path in sorted(glob.glob(f"{folder}/{of}")))
                       for of in ("src/*.rt", "specs/*.antt"))
        constants_of = dict(re.findall(r"^const ([A-Z_]+): u64 = ([\d_]+);", code, re.M))
        defined = dict(re.findall(r"^([a-z_]+) = (\d+)$", named, re.M))
        own = {it for it in constants_of if crate == "krb_engine" or (it, int(constants_of[it])) not in below}
        yield f"tables/engine.toml, the constants of {crate}", own, {it["code"] for it in rows.values()}
        yield f"tables/engine.toml, the definitions of {crate}", set(defined) - set(rows), set()
        for name, row in rows.items():
            copies = [constants_of[row["code"]], defined[name], *([model[row["model"]]] if "model" in row else [])]
            yield f"tables/engine.toml, {crate}.{name}", {int(it) for it in copies}, {row["number"]}


def limits_of_bindings():
    """The limits that the Rust crate and the Go package name, as the header names them."""
    for path, pattern in (("rust/src/lib.rs", r"const (\w+): usize = ([\d_]+);"), ("go/krbrelay.go", r"^\t(\w+) += ([\d_]+)$")):
        found = re.findall(pattern, building.text_of(path), re.M)
        named = {re.sub(r"(?<=[a-z])(?=[A-Z])", "_", name).upper(): int(number) for name, number in found}
        yield path, {name: number for name, number in named.items() if not name.endswith("_SIZE")}


def of_structs():
    room = str(constants(SIZES[1])["ADDRESS_ROOM"])
    crates = {name: [(field, kind.replace("ADDRESS_ROOM", room)) for field, kind in fields]
              for name, fields in structs_of_rust().items()}
    header, package = structs_of_header(), structs_of_python()
    yield f"{HEADER}, structs", sorted(header), sorted(crates)
    for name, fields in header.items():
        yield f"{HEADER}, struct krbrelay_{name}", fields, crates.get(name)
    yield "python/krbrelay/library.py has structs", len(package) > 5, True
    for name, fields in package.items():
        found = [(field, kind.replace("ADDRESS_ROOM", room)) for field, kind in fields]
        yield f"python/krbrelay/library.py, {name}", found, crates.get(name)


def of_crate_structs():
    header, crate = structs_of_header(), structs_of_crate()
    yield f"{CRATE} has structs", len(crate) > 7, True
    for name, fields in crate.items():
        yield f"{CRATE}, {name}", fields, header.get(name)


def said(text, around, part):
    """What stands for a version in a text, once each."""
    found = set(re.findall(around, text, re.M))
    return {hex(int(it, 0)) for it in found} if part == "packed" else found


def of_versions():
    known = spellings(version())
    for path, around, part in places():
        yield f"{path}, {around}", said(building.text_of(path), around, part), {known[part]}


def of_other_versions():
    """Each place once more, where its first and where its last word is another version: what is said
    then, and what has to be."""
    known = spellings(version())
    other = {**spellings(OTHER_VERSION), "by_make": OTHER_VERSION}
    for path, around, part in places():
        text = building.text_of(path)
        words = list(re.finditer(around, text, re.M))
        for word in {words[0], words[-1]}:
            planted = text[:word.start(1)] + other[part] + text[word.end(1):]
            yield f"{path}, {around}, at {word.start(1)}", said(planted, around, part), {known[part]}


def walk(heading):
    """The section of a change in CONTRIBUTING.md."""
    text = building.text_of(WALKS)
    return re.search(rf"^### {heading}\n(.*?)(?=^###? |\Z)", text, re.M | re.S)[1]


def named_files(text):
    """The paths of files that a text names in backquotes, or as docs/*.md."""
    return set(re.findall(r"`([\w./-]+\.(?:rt|antt|h|c|py|rs|go|3|1|8|toml|json))`", text)
               + re.findall(r"\bdocs/\w+\.md", text))


def is_named(path, names):
    return any(("/" + path).endswith("/" + name) for name in names)


def files_with(word, places):
    """The files in these places that have a word, without generated pages, mutants and tests."""
    for place in places:
        for path in glob.glob(os.path.join(building.TOP, place), recursive=True):
            name = os.path.relpath(path, building.TOP)
            if os.path.isfile(path) and not OF_TESTS.search(name):
                with open(path, encoding="utf-8", errors="replace") as file:
                    if re.search(word, file.read()):
                        yield name


# What a walk means without naming each: pages and examples, demos, symbol versions, answers of proofs.
BESIDE_WALKS = re.compile(r"^c/man/|examples/|^carrier/demo|\.map$|/proofs/krb|/proofs/receiver|_calls\.rt$|/released_names$|^docs/\w+\.md")


def of_walks():
    """The lists of places that a change touches name files that are there, and each that has the
    walk's word, which has no other meaning."""
    every = [os.path.relpath(path, building.TOP) for place in SOURCES
             for path in glob.glob(os.path.join(building.TOP, place), recursive=True)]
    walks = building.text_of(WALKS).partition("## Where a change goes")[2]
    for name in sorted(named_files(walks)):
        yield f"{WALKS} names {name}", any(("/" + path).endswith("/" + name) for path in every), True
    for heading in re.findall(r"^### (.*)$", walks, re.M):
        yield from of_walk(heading)


def of_walk(heading):
    """The files that have the word of a walk, if it names one."""
    text = walk(heading)
    word = re.match(r"\n\(`([^`]+)`\)", text)
    if not word:
        return
    names = named_files(text) | set(re.findall(r"`(Makefile)`", text))
    found = [path for path in sorted(set(files_with(word[1], SOURCES))) if not BESIDE_WALKS.search(path)]
    yield f"{WALKS}: {heading} stands in some files", len(found) > 1, True
    for path in found:
        yield f"{WALKS}: {heading}, in {path}", is_named(path, names), True


ROOMS = ("tools/", "c/", "carrier/", "conformance/", "kerberos/", "python/", "rust/", "go/", "tests/",
         "pytest ", "make ")
PROVED, TESTED = "docs/PROVED.md", "## What is only tested"
ROW = re.compile(r"^\| `([^`]+)` \| (?:([\d,]+) \| )?(.+) \|$", re.M)


def of_parts():
    """Each part has a row of what it alone sees, in their order, and those of the gate with the
    seconds that they take."""
    text = building.text_of(PROVED).partition(TESTED)[2].partition("\n## ")[0]
    rows = [row for row in ROW.findall(text) if row[0].startswith((*ROOMS, "rt "))]
    gate = [part.command for part in (parts.FIRST, parts.GATE, *parts.PARTS)]
    yield f"{PROVED}, rows", [row[0] for row in rows], gate + [part.command for part in parts.MORE]
    for name, seconds, _ in rows:
        yield f"{PROVED}, seconds of {name}", (name in gate) == bool(seconds), True


def of_order():
    """A page of the manual has the refusals of a message in the order in which they are looked for,
    which is that of the definitions."""
    text = building.text_of("crates/krb_seal/specs/Opens.antt")
    proved = [refusal.upper() for name in ("safe_header", "body_checks", "safe_checks")
              for refusal in re.findall(r", (\w+)\)(?: ∷ \[\])?$", body_of(text, name), re.M)]
    yield "the checks of a KRB-SAFE are read", (len(proved), proved[-1:]), (7, ["MODIFIED"])
    for page in ("krbrelay_opener_new", "krbrelay_receiver_new"):
        listed = building.text_of(f"{PAGES}/{page}.3").partition(".SH RETURN VALUE")[2]
        names = [it.replace("_", "") for line in re.findall(r"^\.B (KRBRELAY_.*)$", listed, re.M)
                 for it in re.findall(r"KRBRELAY_(\w+)", line)]
        yield f"{PAGES}/{page}.3, order", [it for it in names if it in proved], proved


def of_fields():
    """The fields of tables/fields.toml have the numbers of the proved code, and its names."""
    fields = tomllib.loads(building.text_of("tables/fields.toml"))
    for path, row in (("src/field.rt", r"Field::(\w+) => (\d+),"), ("specs/Field.antt", r"^number_of (\w+) = (\d+)$")):
        proved = {name: int(number) for name, number in
                  re.findall(row, building.text_of(f"crates/krb_calls/{path}"), re.M)}
        yield f"crates/krb_calls/{path}", proved, {"".join(word.title() for word in name.split("_")): it["number"]
                                                    for name, it in fields.items()}
    for name, row in fields.items():
        yield f"tables/fields.toml, {name}", row["name"], name.lower()


def of_keys():
    """The help says of a key what tables/job_keys.toml does, where tools/tables doesn't write it; and the bounds of
    a key are those that it says."""
    table, limits = (tomllib.loads(building.text_of(f"tables/{it}.toml")) for it in ("job_keys", "limits"))
    told = " ".join(building.text_of(HELP).replace(r'\"', '"').split())
    keys = table["job"] | table["sender"]
    for name, row in keys.items():
        yield f"the help has {name}", " ".join(f"{name} = {row['example']} {row['says']}".split()) in told, True
        bounds = [limits["job"].get(row[it], {"number": row[it]})["number"] for it in ("least", "most") if it in row]
        numbers = [int(it.replace(",", "")) for it in re.findall(r"\d[\d,]*", row["says"])]
        yield f"the help says the bounds of {name}", set(bounds) <= {*numbers}, True
        if row["kind"] in ("whole", "flag"):
            yield f"the help says the default of {name}", f"by default {row.get('default')}" in row["says"], "default" in row
    without = [name for name, row in keys.items() if "open" not in row.get("commands", ["open"])]
    yield f"{HELP}, open", f"and without {', '.join(without[:-1])} and {without[-1]}" in told, True


def of_options():
    """A number has a default within its bounds, which its help says, and a flag no value; no program has an option twice,
    and a unit of systemd names options of its program."""
    table = tomllib.loads(building.text_of("tables/options.toml"))
    for row in table["option"]:
        name, is_number = f"tables/options.toml, {row['word']}", row.get("kind") == "number"
        yield f"{name}, value", "value" in row, row.get("kind") != "flag"
        yield f"{name}, default in the help", "{default}" in row["help"], is_number
        if is_number and isinstance(row["most"], int):
            yield f"{name}, default", row["default"] in range(row.get("least", 0), row["most"] + 1), True
    for program in table["program"]:
        words = [row["word"] for row in table["option"] if program in row.get("at", row.get("of"))]
        yield f"tables/options.toml, options of {program}", len(words), len(set(words))
        if "ends" in table["program"][program]:
            unit = building.text_of(f"carrier/systemd/krbrelay-{program}@.service").partition("\nExecStart=")[2]
            yield f"the options of {program}'s unit", set(re.findall(r" --([a-z-]+)", unit)) <= set(words), True


# ---- what a caller leaves out

ENDS = {"Sealer": "sealer", "Opener": "opener", "Receiver": "receiver", "Peer": "peer", "Demand": "values"}


def defaults_of_python():
    """Of each argument of a public class's constructor, or field of its, that has one."""
    for name, module in ENDS.items():
        tree = ast.parse(building.text_of(f"python/krbrelay/{module}.py"))
        kind, = (it for it in tree.body if isinstance(it, ast.ClassDef) and it.name == name)
        for it in kind.body:
            if isinstance(it, ast.FunctionDef) and it.name == "__init__":
                yield from ((f"{name}.{word.arg}", ast.unparse(value)) for word, value in
                            zip(it.args.kwonlyargs, it.args.kw_defaults) if value is not None)
            elif isinstance(it, ast.AnnAssign) and it.value is not None:
                yield f"{name}.{it.target.id}", ast.unparse(it.value)


def defaults_of_rust():
    """Of the fields that a constructor, or Default, gives a value of its own."""
    text = building.text_of("rust/src/values.rs")
    for function, kind, fields in re.findall(r"fn (new|default|of_sender)\(.*?-> (Session|Expect|Demand) \{\s*\w+ \{(.*?)\}", text, re.S):
        place = f"{kind}.{function}" if function == "of_sender" else kind
        yield from ((f"{place}.{name}", value) for name, value in re.findall(r"(\w+): ([^,{}]+)", fields)
                    if value != f"Some({name})")


def defaults_of_go():
    """Of the fields that a function sets to a number; and of the one whose zero is the opposite of C's."""
    text = building.text_of("go/values.go")
    for function, fields in re.findall(r"^func (New\w+|\w+Of)\([^\n]*\{\n\treturn \w+\{(.*)\}$", text, re.M):
        yield from ((f"{function}.{name}", value) for name, value in re.findall(r"(\w+): ((?:Of\(\w+\()?\d+)", fields))
    if "raw.require_time = flag(e.RequireReceiver), flag(!e.OptionalTime)" in text:
        yield "Expect.!OptionalTime", "true"


def plain(value):
    """A default as the table says it: `Some(300)` and `Of(uint32(300` are 300, `How.REQUIRED` is required."""
    return re.split(r"::|\.|\(", value.strip().rstrip(")"))[-1].lower()


def of_defaults():
    """Each language's defaults are those of tables/defaults.toml, and no others."""
    table = tomllib.loads(building.text_of("tables/defaults.toml"))
    for language, found in (("python", defaults_of_python()), ("rust", defaults_of_rust()), ("go", defaults_of_go())):
        wanted = {place: row["value"] for row in table.values() for place in row.get(language, ())}
        found = {place: plain(value) for place, value in found}
        yield from ((f"{language}, {place}", found.get(place), wanted.get(place)) for place in sorted({*found, *wanted}))


# What a file begins with that says what it is, by its ending. A file of C leaves it to the header of its name.
BEGINS = {"c": r"/\*", "h": r"/\*|//", "rs": "//!", "go": r"//(?!go:)|//go:build .*\n\npackage \w+\n\n//", "rattle": "//!",
          "rt": "//!", "py": r'(?:#!.*\n)?"""'}
UNSAID = re.compile(r"/out/|/target/|/__init__\.py$")


def of_first_lines():
    """Each source says at its head what it is."""
    for ending, begin in BEGINS.items():
        for path in sorted(glob.glob(os.path.join(building.TOP, "**", f"*.{ending}"), recursive=True)):
            name = os.path.relpath(path, building.TOP)
            if not UNSAID.search(name) and not (ending == "c" and os.path.exists(path[:-1] + "h")):
                yield name, bool(re.match(begin, building.text_of(name))), True


REFUSALS_OF_MESSAGES = "refusals"
# What a page says in words of an answer that another call on it looks for elsewhere.
IN_WORDS = {("peer_new", "EXHAUSTED"), ("sealer_new", "MEMORY")}
# Pages that name another call's answers: those beside a call's own.
BESIDE = {"now": ("CLOCK", "RANDOM")}


def answers_of(row, refusals):
    """The names of a call's answers in their order."""
    names = [answer.partition(": ")[0] for answer in row.get("answers", ())]
    return [it for name in names for it in (refusals if name == REFUSALS_OF_MESSAGES else [name])]


def are_in_order(names, listed):
    """Whether they stand in a list in this order, and others between them."""
    rest = iter(listed)
    return all(name in rest for name in names)


def of_pages():
    """A page of the manual names the answers of its calls, and no others, each call's in their order."""
    calls = tomllib.loads(building.text_of("tables/calls.toml"))
    answers = tomllib.loads(building.text_of("tables/answers.toml"))
    refusals = sorted((it for it in answers if "checked" in answers[it]), key=lambda it: answers[it]["checked"])
    pages = {}
    for name, row in calls.items():
        pages.setdefault(row.get("page", name), []).append((name, row))
    for page, rows in pages.items():
        told = building.text_of(f"{PAGES}/krbrelay_{page}.3").partition("\n.SH RETURN VALUE")[2].partition("\n.SH ")[0]
        listed = [it for line in re.findall(r"^\.BR? (KRBRELAY_.*)$", told, re.M)
                  for it in re.findall(r"KRBRELAY_([A-Z_]+\b)", line) if it in answers and it != "OK"]
        own = {it for _, row in rows for it in answers_of(row, refusals)}
        yield f"{PAGES}/krbrelay_{page}.3, answers", set(listed), set(BESIDE.get(page, own))
        for name, row in rows if page not in BESIDE else ():
            if page == "peer_new" or name == "opener_open":
                continue        # what is authentic comes first: tools/tables writes their checks
            wanted = [it for it in answers_of(row, refusals) if (page, it) not in IN_WORDS]
            yield f"{PAGES}/krbrelay_{page}.3, order of {name}", are_in_order(wanted, listed), True


def body_of(text, name):
    """The clauses of a definition."""
    return text.partition(f"\nabbrev pub {name} :")[2].partition("\n\n")[0]


def of_tarball():
    """The tarball has what its Makefiles and Debian's packages take of it."""
    there = [*scripts.load("c/dist").sources(), "krbrelay-x86_64.s"]
    tests = re.search(r"^TESTS = (.*)$", building.text_of("c/Makefile"), re.M)[1].split()
    wanted = ["Makefile", "heap.c", "krbrelay.h", "krbrelay.map", "man/links", "unproved/answers.c",
              *(f"tests/{name}.c" for name in tests)]
    wanted += re.findall(r"tests/\w+", " ".join(re.findall(r"^WORDS_\w+ = (.*)$", building.text_of("c/Makefile"), re.M)))
    wanted += ["program/host.c", "program/check/stdout", "program/completions/krbrelay.bash", "man/krbrelay.1"]
    wanted += [f"carrier/{it}" for it in carrier_files()]
    for name in ("krbrelay.examples", "krbrelay-carrier.docs", "krbrelay-carrier.examples",
                 "libkrbrelay-dev.docs", "libkrbrelay-dev.examples", "python3-krbrelay.examples", "python3-krbrelay.docs",
                 "krbrelay-preload.docs"):
        wanted += building.text_of(f"packaging/debian/{name}").split()
    for page, _ in map(str.split, building.text_of("c/man/links").splitlines()):
        wanted.append(f"man/{page}.3")
    for name in dict.fromkeys(wanted):
        yield f"the tarball has {name}", bool(fnmatch.filter(there, name)), True


def carrier_files():
    """What the carrier's Makefile compiles and installs."""
    text = building.text_of("carrier/Makefile")
    installed = re.findall(r"systemd/\w+\.conf|systemd/\*\.service|man/\*\.[58]|completions/\w+(?:\.\w+)?", text)
    names = [*re.findall(r"\b\w+\.c\b", text), "carrier.h"]
    return [*(os.path.relpath(sources.place_of(it), sources.CARRIER) for it in names), *installed, "status"]


@compared(of_refusals)
def test_refusals(found, wanted):
    assert found == wanted


@compared(of_limits)
def test_limits(found, wanted):
    assert found == wanted


@compared(of_engine)
def test_limits_of_the_engine(found, wanted):
    assert found == wanted


@compared(of_structs)
def test_structs(found, wanted):
    assert found == wanted


@compared(of_crate_structs)
def test_structs_of_the_crate(found, wanted):
    assert found == wanted


@compared(of_crate)
def test_calls_of_the_crate(found, wanted):
    assert found == wanted


@compared(of_names)
def test_names_of_the_go_package(found, wanted):
    assert found == wanted


@compared(of_versions)
def test_versions(found, wanted):
    assert found == wanted


@compared(of_other_versions)
def test_another_version_is_seen(found, wanted):
    assert found != wanted and found


@compared(of_walks)
def test_walks(found, wanted):
    assert found == wanted


@compared(of_parts)
def test_parts(found, wanted):
    assert found == wanted


@compared(of_order)
def test_order(found, wanted):
    assert found == wanted


@compared(of_fields)
def test_fields(found, wanted):
    assert found == wanted


@compared(of_defaults)
def test_defaults(found, wanted):
    assert found == wanted


@compared(of_first_lines)
def test_first_lines(found, wanted):
    assert found == wanted


@compared(of_keys)
def test_keys_of_a_job(found, wanted):
    assert found == wanted


@compared(of_options)
def test_options_of_the_carrier(found, wanted):
    assert found == wanted


@compared(of_pages)
def test_pages(found, wanted):
    assert found == wanted


@compared(of_tarball)
def test_tarball(found, wanted):
    assert found == wanted
