"""The definitions of crates, one by one: what the files of a crate name of those of other crates, and what
these name in turn. So a change of one definition is no change for who names another one of its file.

A file of definitions (`specs/*.antt`) is read as lines: a line that isn't indented and isn't a comment
begins a definition, or goes on with the one before where it begins with its name, or with no name at all.
What can't be told apart is taken together: of a file that is named as a whole, or in which a name isn't
found, as a record's field isn't, each definition counts.
"""
import functools
import os
import re
from typing import NamedTuple

from lib.build import building

# An import: a module of definitions, and what of it, if not all.
USE = re.compile(r"^\s*(?:ghost |pub )?use Rattle\.(\w+)\.specs((?:\.\w+)+)(?:\.\{([^}]*)\}| as (\w+))?", re.M)
CITED = re.compile(r"\bRattle\.(\w+)\.specs((?:\.\w+)+)")
BEGINS = re.compile(r"^(?:(?:pub|abbrev|unfoldable|mutual) )*(?:(record|data) )?([^\s:({]+)(\s+:(?= ))?")
WORD = re.compile(r"[\w'-]+")
PLAIN = re.compile(r"[\w'-]+\Z")
HEAD = "(before the first definition)"


class Name(NamedTuple):
    """A definition: its file, and its name there. All of a file has the name ''."""
    path: str
    name: str


class File(NamedTuple):
    """What a file of definitions has: of each name its lines, and what each name that is imported is."""
    lines: dict[str, str]
    imports: dict[str, frozenset[Name]]


def place(crate: str, words: str) -> str | None:
    """The file of definitions that a module is in, which a crate may pass on from another one."""
    parts = words.removeprefix(".").split(".")
    for count in range(len(parts), 0, -1):
        path = os.path.join("crates", crate, "specs", *parts[:count]) + ".antt"
        if os.path.exists(os.path.join(building.TOP, path)):
            return path
    passed = passed_on(crate).get(parts[0])
    return place(*passed) if passed else None


@functools.cache
def passed_on(crate: str) -> dict[str, tuple[str, str]]:
    """The modules of definitions that a crate passes on, each with the crate that it is of."""
    listed = os.path.join(building.TOP, "crates", crate, "specs", "Lib.antt")
    if not os.path.exists(listed):
        return {}
    found = re.findall(r"^pub use Rattle\.(\w+)\.specs\.(\w+)$", building.text_of(os.path.relpath(listed, building.TOP)), re.M)
    return {name: (of, name) for of, name in found if of != crate}


def imported(text: str) -> dict[str, frozenset[Name]]:
    """Each name that a text imports from definitions, and what it may be."""
    found: dict[str, frozenset[Name]] = {}
    for crate, words, items, alias in USE.findall(text):
        path = place(crate, words)
        if path is None:
            continue            # a type that the prover declares, or a library of the kit
        whole = frozenset({Name(path, "")})
        if not items:
            found[alias or words.rpartition(".")[2]] = whole
        for item in filter(None, map(str.strip, items.split(","))):
            name, _, local = item.partition(" as ")
            found[local.strip("◌ ") or name.strip("◌ ")] = frozenset({Name(path, name.strip())})
    return found


def is_blank(line: str) -> bool:
    """Whether a line of definitions or of a proof says nothing to the prover: it is empty or a comment."""
    return not line.strip() or line.lstrip().startswith("--")


@functools.cache
def read(path: str) -> File:
    text = building.text_of(path)
    lines: dict[str, str] = {}
    last = HEAD
    for line in text.splitlines():
        if is_blank(line) or USE.match(line):
            continue
        begins = BEGINS.match(line)
        if begins and (begins[1] or begins[3] or begins[2] in lines):
            last = begins[2]
        lines[last] = lines.get(last, "") + line + "\n"
    return File(lines, imported(text))


def named(name: Name) -> set[Name]:
    """What a definition names."""
    file = read(name.path)
    if name.name not in file.lines:
        return {Name(name.path, it) for it in file.lines}
    text = file.lines[name.name]
    words = set(WORD.findall(text))
    # An operator is taken as named wherever it can be.
    found = {Name(name.path, it) for it in file.lines if it in words or not PLAIN.match(it)}
    for word, names in file.imports.items():
        if word in words or not PLAIN.match(word):
            found |= names
    return found | cited(text)


def cited(text: str) -> set[Name]:
    """The files that a text names by their whole paths."""
    return {Name(path, "") for crate, words in CITED.findall(text) if (path := place(crate, words)) is not None}


def reached(paths: list[str]) -> set[Name]:
    """The definitions of other crates that these files name, or that those name. Of what stands in the files'
    own crate each line counts elsewhere."""
    left: set[Name] = set()
    for path in paths:
        text = building.text_of(path)
        for names in imported(text).values():
            left |= names
        left |= cited(USE.sub("", text))
    found: set[Name] = set()
    while left:
        name = left.pop()
        found.add(name)
        left |= named(name) - found
    return found


def meant(names: set[Name]) -> str:
    """The lines of these definitions, without comments."""
    return "".join(f"{it.path} {it.name}\n{read(it.path).lines.get(it.name, '')}" for it in sorted(names))
