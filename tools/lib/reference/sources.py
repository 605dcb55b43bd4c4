"""The public items and the definitions of the crates, as their sources have them.

`read_project` reads crates/NAME/src/*.rt and crates/NAME/specs/*.antt of all crates. It reads what
`rt fmt` lays out: an item begins at the indentation of its block and ends there. Nothing is proved
or compiled here; what a word of a contract stands for is looked up by the imports of its file.
"""
from __future__ import annotations

import dataclasses
import glob
import os
import re
from typing import Dict, Iterator, List, Optional, Set, Tuple

from lib.build import building

OPENING, CLOSING = "([{", ")]}"
KIT = "kit"         # instead of a crate: a word of the kit's libraries
WORD = re.compile(r"(?<![\w.'◌])[A-Za-z_][\w']*(?:\.[A-Za-z_][\w']*)*")


@dataclasses.dataclass(frozen=True)
class Ref:
    """What a word stands for: a definition (crate, module, word), or a type of the crate, whose
    module is ''."""
    crate: str
    module: str
    word: str

    def is_type(self) -> bool:
        return self.module == ""


@dataclasses.dataclass
class Scope:
    """What the words of a file mean: imported words, and imported modules by their names."""
    words: Dict[str, Tuple[str, str]] = dataclasses.field(default_factory=dict)
    modules: Dict[str, str] = dataclasses.field(default_factory=dict)

    def beside(self, other: Scope) -> Scope:
        return Scope({**self.words, **other.words}, {**self.modules, **other.modules})


@dataclasses.dataclass
class Clause:
    """A clause of a contract, or a ghost member of a trait or an implementation."""
    kind: str       # requires, ensures, ghost
    name: str       # '' where it has none
    text: str
    line: int
    comment: str = ""


@dataclasses.dataclass
class Function:
    name: str
    doc: str
    signature: str
    clauses: List[Clause]
    scope: Scope
    file: str
    line: int
    is_public: bool


@dataclasses.dataclass
class Implementation:
    """A trait that a type implements, with what contracts know of it."""
    header: str
    trait: str      # without its arguments; '' where it is of the type alone
    owner: str      # the type, with its arguments
    clauses: List[Clause]
    functions: List[Function]
    scope: Scope
    file: str

    def label(self) -> str:
        """The trait with its arguments, in letters."""
        words = re.findall(r"\w+", self.header[:self.header.index(" for ")].split("impl", 1)[1])
        return "-".join(words[words.index(self.trait):])


@dataclasses.dataclass
class Item:
    """A type, a trait or a constant."""
    kind: str       # struct, enum, trait, const, static, type
    name: str
    doc: str
    declaration: str
    whole: str      # with its private fields
    file: str
    line: int
    clauses: List[Clause]
    functions: List[Function]
    implementations: List[Implementation]
    scope: Scope

    def seen_as(self) -> Optional[Clause]:
        """The type that contracts see instead of it."""
        for made in self.implementations:
            if made.trait == "Model":
                return next((it for it in made.clauses if it.name == "Value"), None)
        return None


@dataclasses.dataclass
class Definition:
    ref: Ref
    kind: str       # abbrev, unfoldable, record, data
    comment: str
    text: str
    file: str
    line: int
    words: Set[str]     # those that aren't bound in it

    def lines(self) -> int:
        """The lines of its text that have more than a comment."""
        lines = (line.split("--")[0] for line in self.text.split("\n"))
        return sum(1 for line in lines if line.strip())


@dataclasses.dataclass
class Module:
    """A file of definitions."""
    crate: str
    name: str
    file: str
    comment: str
    definitions: List[Definition]
    scope: Scope
    makers: Dict[str, str]      # the constructors of its data, with their data's names


@dataclasses.dataclass
class Crate:
    name: str
    doc: str
    items: Dict[str, Item]
    functions: Dict[str, Function]
    public: List[str]               # in the order of lib.rt
    shown: Dict[str, List[str]]     # names of other crates that it passes on, by crate
    modules: Dict[str, Module]
    passed_on: Dict[str, Ref]       # modules of definitions that it passes on
    deps: List[str]                 # the crates of the repository that its line names
    below: List[str]                # all that it stands on, the nearest first


@dataclasses.dataclass
class Project:
    crates: Dict[str, Crate]

    def module_of(self, crate: str, module: str) -> Optional[Module]:
        found = self.crates.get(crate)
        if found is None:
            return None
        if module in found.passed_on:
            ref = found.passed_on[module]
            return self.module_of(ref.crate, ref.module)
        return found.modules.get(module)

    def definition(self, ref: Ref) -> Optional[Definition]:
        module = self.module_of(ref.crate, ref.module)
        if module is None:
            return None
        return next((it for it in module.definitions if it.ref.word == ref.word), None)

    def item(self, ref: Ref) -> Optional[Item]:
        crate = self.crates.get(ref.crate)
        return crate.items.get(ref.word) if crate and ref.is_type() else None

    def at(self, path: str, word: str) -> Optional[Ref]:
        """What a word of a path stands for; one of the kit has its module's path."""
        parts = path.split(".")
        if len(parts) < 3 or parts[0] != "Rattle" or parts[2] != "specs":
            return None
        crate, rest = parts[1], parts[3:]
        if crate not in self.crates:
            return Ref(KIT, path, word)
        if rest and rest[0] == "declared":
            owner = rest[-2] if rest[-1] == "TheVariants" else rest[-1]
            return Ref(crate, "", owner) if owner in self.crates[crate].items else None
        module = self.module_of(crate, ".".join(rest))
        if module is None:
            return None
        word = module.makers.get(word, word)
        found = next((it for it in module.definitions if it.ref.word == word), None)
        return found.ref if found else None

    def meaning(self, scope: Scope, word: str) -> Optional[Ref]:
        """What a word stands for where this scope is in force."""
        head, _, rest = word.partition(".")
        if head in scope.modules and rest:
            return self.at(scope.modules[head], rest.split(".")[0])
        return self.at(*scope.words[head]) if head in scope.words else None

    def type_named(self, crate: str, name: str) -> Optional[Ref]:
        """The type of this name that a crate's code can mean: its own one, or a public one of the
        crates that it stands on."""
        if name in self.crates[crate].items:
            return Ref(crate, "", name)
        for below in self.crates[crate].below:
            if name in self.crates[below].public and name in self.crates[below].items:
                return Ref(below, "", name)
        return None


# ---- text

def read(path: str) -> str:
    with open(os.path.join(building.TOP, path), encoding="utf-8") as file:
        return file.read()


RUST_ASIDE = re.compile(r'//[^\n]*|b?r#"(?s:.*?)"#|b?"(?:\\(?s:.)|[^"\\])*"'
                        r"|b?'(?:\\[^'\n]+|[^\\'\n])'")
ANTT_ASIDE = re.compile(r'--[^\n]*|"(?:\\.|[^"\\\n])*"')


def blanked(text: str, aside: re.Pattern) -> str:
    """The text with spaces in the place of comments and of what is quoted."""
    return aside.sub(lambda found: re.sub(r"[^\n]", " ", found[0]), text)


def close_of(masked: str, place: int) -> int:
    """Where the bracket at a place closes."""
    depth = 0
    for at in range(place, len(masked)):
        if masked[at] in OPENING:
            depth += 1
        elif masked[at] in CLOSING:
            depth -= 1
            if depth == 0:
                return at
    raise ValueError(f"nothing closes {masked[place:place + 40]!r}")


def angle_close(masked: str, place: int) -> int:
    """Where the angle bracket at a place closes; '->' closes none."""
    depth = 0
    for at in range(place, len(masked)):
        if masked[at] == "<":
            depth += 1
        elif masked[at] == ">" and masked[at - 1] != "-":
            depth -= 1
            if depth == 0:
                return at
    raise ValueError(f"nothing closes {masked[place:place + 40]!r}")


def dedented(text: str) -> str:
    """The lines with the indentation taken off that all but the first have."""
    first, *rest = text.strip().split("\n")
    indents = [len(line) - len(line.lstrip()) for line in rest if line.strip()]
    cut = min(indents, default=0)
    return "\n".join([first, *("    " + line[cut:] if line.strip() else "" for line in rest)])


def outdented(text: str) -> str:
    """All lines moved to the left by the indentation of the first."""
    cut = len(text) - len(text.lstrip(" "))
    return "\n".join(line[cut:] if line[:cut].strip() == "" else line for line in text.split("\n"))


# ---- imports

IMPORT = re.compile(r"([\w.]+?)(?:\.\{([^}]*)\})?(?:\s+as\s+(\w+))?$")


def take_import(words: str, scope: Scope) -> None:
    """Adds what an import names: `PATH.{A, B as C}`, `PATH` or `PATH as NAME`."""
    found = IMPORT.match(" ".join(words.split()))
    if not found:
        return
    path, names, alias = found.groups()
    if names is None:
        scope.modules[alias or path.rsplit(".", 1)[-1]] = path
        return
    for name in filter(None, (it.strip() for it in names.split(","))):
        word, _, other = name.partition(" as ")
        scope.words[other.strip() or word.strip()] = (path, word.strip())


# ---- Rust

@dataclasses.dataclass
class Piece:
    """A top-level piece of a block: its doc, its attributes, its text and the line at which that begins."""
    doc: str
    attributes: str
    text: str
    line: int


def pieces(text: str, indent: int, first: int = 1) -> Iterator[Piece]:
    """The items of a block whose lines begin at an indentation; its text begins in a line of its file."""
    masked = blanked(text, RUST_ASIDE).split("\n")
    doc, attributes, lines = [], [], []
    depth = 0
    for number, (raw, line) in enumerate(zip(text.split("\n"), masked), first):
        stripped = raw.strip()
        if not lines and depth == 0:
            if not stripped or stripped.startswith("//"):
                if stripped.startswith("///"):
                    doc.append(stripped[3:].removeprefix(" "))
                elif not stripped:
                    doc = []
                continue
            if stripped.startswith("#[") or stripped.startswith("#!["):
                attributes.append(stripped)
                continue
        lines.append(raw)
        depth += sum(line.count(it) for it in OPENING) - sum(line.count(it) for it in CLOSING)
        ends = line.rstrip().endswith(";") or (
            line.rstrip().endswith("}") and len(raw) - len(raw.lstrip()) == indent)
        if depth == 0 and ends:
            yield Piece("\n".join(doc), "\n".join(attributes), "\n".join(lines), number - len(lines) + 1)
            doc, attributes, lines = [], [], []


HEAD = re.compile(r'\s*(pub(?:\([^)]*\))?\s+)?(?:unsafe\s+|extern "C"\s+|const\s+(?=fn))*'
                  r"(fn|struct|enum|trait|impl|const|static|type|use|mod|ghost use|ghost)\b"
                  r"\s*(\w*)")
CLAUSE = re.compile(r"(requires|ensures)\*?\s+(\w*)\s*(?=\{)")
GHOST = re.compile(r"^\s*(?:pub\s+)?ghost (\w+)\s*[:=]\s*(?=\{)", re.M)


def comment_before(text: str) -> str:
    lines = (line.strip() for line in text.split("\n"))
    return " ".join(line[2:].strip() for line in lines if line.startswith("//"))


def line_at(text: str, place: int, first: int) -> int:
    """The line of a place of a text that begins in a line."""
    return first + text.count("\n", 0, place)


def clauses_from(text: str, masked: str, place: int, first: int) -> List[Clause]:
    """The clauses of a contract that begins at a place of a text, which begins in a line of its file."""
    found, before = [], place
    while True:
        at = place
        while at < len(masked) and masked[at].isspace():
            at += 1
        match = CLAUSE.match(masked, at)
        if not match:
            return found
        end = close_of(masked, match.end())
        found.append(Clause(match[1], match[2], dedented(text[match.end() + 1:end]), line_at(text, at, first),
                            comment_before(text[before:at])))
        place = before = end + 1


def function(piece: Piece, scope: Scope, file: str, name: str, is_public: bool) -> Function:
    text = outdented(piece.text)
    masked = blanked(text, RUST_ASIDE)
    at = masked.index(name, masked.index("fn ")) + len(name)
    if masked[at] == "<":
        at = angle_close(masked, at) + 1
    at = close_of(masked, masked.index("(", at)) + 1
    while masked[at] not in "{;" and not CLAUSE.match(masked, at):
        at = close_of(masked, at) + 1 if masked[at] in OPENING else at + 1
    return Function(name, piece.doc, text[:at].strip(), clauses_from(text, masked, at, piece.line), scope, file,
                    piece.line, is_public)


def ghosts(text: str, first: int) -> List[Clause]:
    """The ghost members of a block, which begins in a line of its file."""
    masked = blanked(text, RUST_ASIDE)
    found = []
    for match in GHOST.finditer(masked):
        inside = text[match.end() + 1:close_of(masked, match.end())]
        found.append(Clause("ghost", match[1], dedented(inside), line_at(text, match.start(1), first)))
    return found


def shown_fields(text: str) -> str:
    """A struct's declaration with its public fields."""
    masked = blanked(text, RUST_ASIDE)
    brace = re.compile(r"[({;]").search(masked, masked.index("struct "))
    if brace is None or brace[0] == ";":
        return text
    if brace[0] == "(":
        return text if "pub " in text[brace.start():] else text[:brace.start()] + "(..);"
    end = close_of(masked, brace.start())
    kept, chunk, dropped, depth = [], [], False, 0
    for raw, line in zip(text[brace.end():end].split("\n"), masked[brace.end():end].split("\n")):
        if not raw.strip():
            continue
        chunk.append(raw)
        depth += sum(line.count(it) for it in OPENING) - sum(line.count(it) for it in CLOSING)
        if depth == 0 and line.rstrip().endswith(","):
            is_public = any(it.strip().startswith("pub ") for it in chunk)
            kept += chunk if is_public else []
            dropped, chunk = dropped or not is_public, []
    if dropped:
        kept.append("    // private fields")
    return "\n".join([text[:brace.end()], *kept, text[end:].lstrip()])


@dataclasses.dataclass
class RustFile:
    doc: str
    items: List[Item]
    functions: List[Function]
    implementations: List[Tuple[str, Implementation]]   # with the names of their types
    uses: List[str]                                     # `pub use` lines


def doc_of(text: str) -> str:
    lines = [line[3:].removeprefix(" ") for line in text.split("\n") if line.startswith("//!")]
    return "\n".join(lines)


def body_of(piece: Piece) -> Tuple[str, int]:
    """What stands between the braces of an item, and the line in which that begins."""
    masked = blanked(piece.text, RUST_ASIDE)
    begin = masked.index("{")
    return piece.text[begin + 1:close_of(masked, begin)], line_at(piece.text, begin, piece.line)


def members(whole_piece: Piece, scope: Scope, file: str, all_public: bool
            ) -> Tuple[List[Clause], List[Function], Scope]:
    """The ghost members and the functions of a trait or an implementation."""
    functions = []
    inside, first = body_of(whole_piece)
    own = Scope()
    for piece in pieces(inside, 4, first):
        head = HEAD.match(piece.text)
        if head and head[2] == "ghost use":
            take_import(piece.text.strip()[len("ghost use "):].rstrip(";"), own)
        elif head and head[2] == "fn":
            is_public = all_public or (head[1] or "").strip() == "pub"
            functions.append(function(piece, scope, file, head[3], is_public))
    whole = scope.beside(own)
    for made in functions:
        made.scope = whole
    return ghosts(inside, first), functions, whole


def implementation(piece: Piece, scope: Scope, file: str) -> Tuple[str, Implementation]:
    masked = blanked(piece.text, RUST_ASIDE)
    header = " ".join(piece.text[:masked.index("{")].split())
    rest = header[len("impl"):].strip()
    if rest.startswith("<"):
        rest = rest[angle_close(rest, 0) + 1:].strip()
    trait, is_trait, name = rest.partition(" for ")
    if not is_trait:
        trait, name = "", rest
    plain = re.sub(r"<.*", "", name).strip().lstrip("&").split("::")[-1]
    clauses, functions, whole = members(piece, scope, file, False)
    short = re.sub(r"<.*", "", trait).split("::")[-1]
    return plain, Implementation(header, short, name.strip(), clauses, functions, whole, file)


def item(piece: Piece, kind: str, name: str, scope: Scope, file: str) -> Item:
    text = piece.text
    derives = "".join(it + "\n" for it in piece.attributes.split("\n") if it.startswith("#[derive"))
    clauses, functions = [], []
    declaration = text
    if kind == "trait":
        clauses, functions, scope = members(piece, scope, file, True)
        declaration = text[:blanked(text, RUST_ASIDE).index("{")].strip()
    elif kind == "struct":
        declaration = shown_fields(text)
        clauses = ghosts(text, piece.line)
    return Item(kind, name, piece.doc, derives + declaration, text, file, piece.line, clauses, functions, [],
                scope)


def rust_file(text: str, file: str) -> RustFile:
    scope = Scope()
    parts = list(pieces(text, 0))
    for piece in parts:
        if piece.text.startswith("ghost use "):
            take_import(piece.text[len("ghost use "):].rstrip(";"), scope)
    found = RustFile(doc_of(text), [], [], [], [])
    for piece in parts:
        head = HEAD.match(piece.text)
        if not head or "#[test]" in piece.attributes or "#[cfg(test)]" in piece.attributes:
            continue
        kind, name, is_public = head[2], head[3], (head[1] or "").strip() == "pub"
        if kind == "fn":
            found.functions.append(function(piece, scope, file, name, is_public))
            if "no_mangle" in piece.attributes:
                found.uses.append(name)
        elif kind == "impl":
            found.implementations.append(implementation(piece, scope, file))
        elif kind == "use" and is_public:
            found.uses.append(" ".join(piece.text[len("pub use "):].rstrip(";").split()))
        elif kind in ("struct", "enum", "trait", "const", "static", "type"):
            found.items.append(item(piece, kind, name, scope, file))
    return found


# ---- definitions

DEFINES = re.compile(r"^(?:(abbrev|unfoldable)(?: pub)? (\S+) :|(?:pub )?(record|data) (\w+))")
BINDERS = re.compile(r"[({]((?:[^\W\d][\w']*\s+)+):(?=\s)")
FIELD = re.compile(r"^\s+pub (\w+) :", re.M)
LABEL = re.compile(r"([{;]\s*)[^\W\d][\w']*(\s+=\s)")
LAMBDA = re.compile(r"λ((?:\s+[^\W\d][\w']*)+)\.")
LET = re.compile(r"\b(?:let\s+)([^\W\d][\w']*)|([^\W\d][\w']*)\s+(?:←|<-)\s")
PATTERN_WORD = re.compile(r"(?<![\w.'])[a-z_][\w']*(?![\w.'])")


def free_words(part: str, outer: Set[str]) -> Set[str]:
    """The words of a declaration or an equation that nothing binds there."""
    part = LABEL.sub(r"\1\2", part)
    bound = set(outer)
    for match in BINDERS.finditer(part):
        bound.update(match[1].split())
    for match in LAMBDA.finditer(part):
        bound.update(match[1].split())
    for match in LET.finditer(part):
        bound.add(match[1] or match[2])
    return {word for word in WORD.findall(part) if word.split(".")[0] not in bound}


def equations(text: str, word: str) -> Iterator[Tuple[str, str]]:
    """The parts of a definition: '' and its type, then the patterns of each equation and what
    follows them."""
    head, *rest = text.split("\n")
    parts = [[head]]
    for line in rest:
        if line.startswith(word + " ") or line.startswith(word + "\n"):
            parts.append([])
        parts[-1].append(line)
    for number, lines in enumerate(parts):
        part = "\n".join(lines)
        if number == 0:
            yield "", part
        else:
            patterns, _, after = part.partition(" =")
            yield patterns[len(word):], after


def words_of(text: str, kind: str, word: str, outer: Set[str]) -> Set[str]:
    """The words that a definition cites: all but those that it binds."""
    text = blanked(text, ANTT_ASIDE)
    if kind in ("record", "data"):
        return free_words(text, outer | set(FIELD.findall(text))) - {word, "pub", "record", "data"}
    if "◌" in word:
        return free_words(text, outer | set(PATTERN_WORD.findall(text.split("\n", 1)[1])))
    found: Set[str] = set()
    for patterns, after in equations(text, word):
        inside = outer | set(PATTERN_WORD.findall(patterns))
        found |= free_words(after, inside) | set(WORD.findall(patterns)) - inside
    return found - {word}


def comment_of(lines: List[str]) -> str:
    return "\n".join(re.sub(r"^\s*--\s?", "", line) for line in lines)


SECTION = re.compile(r"^-- ----")


def chunks(text: str) -> List[Tuple[int, List[str]]]:
    """The lines between blank lines, with the number of the first."""
    found: List[Tuple[int, List[str]]] = []
    goes_on = False
    for number, line in enumerate(text.split("\n"), 1):
        if line.strip() and not goes_on:
            found.append((number, []))
        goes_on = bool(line.strip())
        if goes_on:
            found[-1][1].append(line)
    return found


def add_definition(module: Module, comment: List[str], text: str, line: int, outer: Set[str]) -> None:
    text = outdented(text)
    found = DEFINES.match(text)
    assert found is not None
    kind, word = found[1] or found[3], found[2] or found[4]
    module.definitions.append(Definition(Ref(module.crate, module.name, word), kind,
                                         comment_of(comment), text, module.file, line,
                                         words_of(text, kind, word, outer)))
    if kind == "data":
        module.makers.update({it: word for it in re.findall(r"^\s+(\w+) :", text, re.M)})


def read_chunk(module: Module, first: int, lines: List[str], outer: Set[str]) -> Set[str]:
    """Adds the imports and the definition of a chunk, whose first line has this number. `outer` has what the enclosing
    module binds; what binds the next chunk is returned."""
    comment: List[str] = []
    for at, line in enumerate(lines):
        if SECTION.match(line):
            comment = []
        elif line.lstrip().startswith("--"):
            comment.append(line)
        elif line.startswith(("use ", "pub use ")):
            take_import(line.split("use ", 1)[1], module.scope)
        elif line.startswith("module _"):
            header = "\n".join(lines[at:]).split("where")[0]
            outer = {word for found in BINDERS.finditer(header) for word in found[1].split()}
        elif DEFINES.match(line[2:] if line.startswith("  ") else line):
            outer = outer if line.startswith("  ") else set()
            add_definition(module, comment, "\n".join(lines[at:]), first + at, outer)
            break
    return outer


def antt_module(text: str, crate: str, name: str, file: str) -> Module:
    module = Module(crate, name, file, "", [], Scope(), {})
    (number, first), *others = chunks(text)
    count = next((at for at, line in enumerate(first) if not line.startswith("--")), len(first))
    module.comment = comment_of(first[:count])
    outer: Set[str] = set()
    for at, lines in [(number + count, first[count:]), *others]:
        outer = read_chunk(module, at, lines, outer)
    return module


# ---- crates

PUB_USE = re.compile(r"([\w:]+?)::(?:\{([^}]*)\}|(\w+))$")


def public_names(uses: List[str]) -> Tuple[List[str], Dict[str, List[str]]]:
    """The names that a crate's root shows: of its own modules, and of other crates."""
    own: List[str] = []
    others: Dict[str, List[str]] = {}
    for use in uses:
        match = PUB_USE.match(use)
        if not match:
            own.append(use)
            continue
        names = [it.strip() for it in (match[2] or match[3]).split(",") if it.strip()]
        if match[1].split("::")[0].startswith("krb_"):
            others.setdefault(match[1].split("::")[0], []).extend(names)
        else:
            own.extend(names)
    return own, others


def relative(path: str) -> str:
    return os.path.relpath(path, building.TOP)


def read_crate(name: str) -> Crate:
    folder = building.folder_of(name)
    paths = sorted(glob.glob(os.path.join(folder, "src", "**", "*.rt"), recursive=True))
    files = {relative(path): rust_file(read(path), relative(path)) for path in paths}
    root = files.get(f"crates/{name}/src/lib.rt") or files[f"crates/{name}/src/main.rt"]
    uses = root.uses + [use for file in files.values() if file is not root for use in file.uses
                        if "::" not in use]
    own, others = public_names(uses)
    items = {it.name: it for file in files.values() for it in file.items}
    functions = {it.name: it for file in files.values() for it in file.functions
                 if it.is_public and it.name in own}
    for file in files.values():
        for owner, made in file.implementations:
            if owner in items:
                owner_of(made, items[owner], items).implementations.append(made)
    modules, passed_on = read_definitions(name)
    return Crate(name, root.doc, items, functions, [it for it in own if it in items or
                                                    it in functions], others, modules, passed_on,
                 building.below()[name], building.in_order(name)[-2::-1])


def owner_of(made: Implementation, named: Item, items: Dict[str, Item]) -> Item:
    """The item that an implementation is shown with: a `type NAME = TYPE;` of that very type, or
    else the type."""
    ends = f"= {made.owner};"
    aliases = (it for it in items.values() if it.kind == "type" and it.whole.endswith(ends))
    return next(aliases, named)


def read_definitions(crate: str) -> Tuple[Dict[str, Module], Dict[str, Ref]]:
    folder = os.path.join(building.folder_of(crate), "specs")
    modules: Dict[str, Module] = {}
    passed_on: Dict[str, Ref] = {}
    for path in sorted(glob.glob(os.path.join(folder, "**", "*.antt"), recursive=True)):
        name = os.path.relpath(path, folder)[:-len(".antt")].replace(os.sep, ".")
        if name == "Lib":
            for found in re.finditer(r"^pub use Rattle\.(\w+)\.specs\.([\w.]+)$", read(path), re.M):
                passed_on[found[2].rsplit(".", 1)[-1]] = Ref(found[1], found[2], "")
            continue
        modules[name] = antt_module(read(path), crate, name, relative(path))
    return modules, passed_on


def read_project() -> Project:
    return Project({name: read_crate(name) for name in building.below()})
