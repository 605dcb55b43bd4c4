"""Compares the header with the proved module, the sources, unproved/proved.h and krbrelay.map."""
import functools
import re
from typing import Dict, List, Set

from lib import report
from signatures import enums, header, python_types, source
from signatures.given import HEADER, MAP, MODULE, RELEASED, Given
from signatures.header import PREFIX, Function, Header
from signatures.source import Export

INNER = PREFIX + "proved_"      # the names of proved.h, for functions that C stands before
# The header's names of what the sources call otherwise. Of a slice C has a length too.
ALSO = {"told": "session expect demand carried header", "user": "user_data", "code": "answer",
        "out": "frame frames user_data bytes name text", "body": "bytes", "number": "mode"}
LENGTHS = "len", "key_len", "room", "count"
RESULTS = {"u32": ("enum krbrelay_answer", "uint32_t"), "u64": ("uint64_t",), "usize": ("size_t",),
           None: ("void",)}
DEFINED = re.compile(r"^define (?!internal)[^@\n]*@krbrelay_\w+\(.*", re.M)
DEFINED_IN_C = re.compile(r"^\w[\w ]*\W(krbrelay_\w+)\(", re.M)
DECLARED = re.compile(r"\b(krbrelay_\w+)\([^;{]*?\)\s*(?:KRBRELAY_NONNULL\(([\d, ]*)\)\s*)?"
                      r"(?:KRBRELAY_CHECKED)?;")
SLICE = re.compile(r"\[\w+(<'_>)?\]$")     # of any length, so that it may be NULL
VERSION = re.compile(r"KRBRELAY_([\d.]+) \{(.*?)\}", re.S)


def same(count: report.Count, found: object, wanted: object, what: str) -> None:
    count.right(found == wanted, f"FAILED {what}: {wanted}, and in the header {found}")


# ---- functions

@functools.lru_cache(maxsize=2)
def in_module(text: str) -> Dict[str, List[str]]:
    """The types of each function that the module exports."""
    return dict(header.lowered(it) for it in DEFINED.findall(text))


def in_unproved(given: Given) -> Set[str]:
    """The functions that the C beside the proved code defines."""
    found = {name for text in given.unproved() for name in DEFINED_IN_C.findall(text)}
    return {it for it in found if not it.startswith(INNER)}


def outer_names(has: Header) -> Dict[str, str]:
    """The functions of proved.h, with the one that stands before each."""
    return {it: PREFIX + it.removeprefix(INNER) for it in has.functions if it.startswith(INNER)}


def compare_names(count: report.Count, given: Given, has: Header, exported: Set[str]) -> None:
    """Each function of the header is proved, or is in C; those of both are proved.h's."""
    proved, in_c = set(in_module(given.text_of(MODULE))), in_unproved(given)
    outer = outer_names(has)
    same(count, sorted(set(has.functions) - set(outer)), sorted(proved | in_c),
         "functions of module and C")
    same(count, sorted(outer.values()), sorted(proved & in_c), "functions of both, in proved.h")
    count.right(proved == exported,
                f"FAILED exports of module and source: {sorted(proved ^ exported)}")


def compare_parameters(count: report.Count, name: str, declared: Function, export: Export) -> None:
    """What pointers point to, and the names, since the module has neither."""
    plain = [re.sub(r"\bchar \*", "uint8_t *", it.type) for it in declared.takes]
    same(count, plain, [it.type for it in export.takes], f"{name}, in the source")
    for mine, theirs in zip(declared.takes, export.takes):
        fits = LENGTHS if theirs.part else (theirs.name, *ALSO.get(theirs.name, "").split())
        count.right(mine.name in fits,
                    f"FAILED {name}, names: one of {fits}, and in the header {mine.name}")
    count.right(declared.result in RESULTS.get(export.result, ()),
                f"FAILED {name} returns {export.result} in the source, and in the header"
                f" {declared.result}")


def never_null(text: str) -> Dict[str, List[int]]:
    """Which parameters the header says are never NULL, by their places."""
    return {it[1]: [int(number) for number in re.findall(r"\d+", it[2] or "")]
            for it in DECLARED.finditer(text)}


def single_values(export: Export) -> List[int]:
    """The places of pointers to a single value: these are never NULL."""
    return [at + 1 for at, it in enumerate(export.takes)
            if "*" in it.type and not SLICE.search(it.rust)]


def compare_functions(count: report.Count, given: Given, has: Header) -> None:
    exported, module = source.exports(given.sources()), in_module(given.text_of(MODULE))
    listed = never_null(given.text_of(HEADER))
    compare_names(count, given, has, set(exported))
    for name in sorted(set(module) & set(has.functions)):
        same(count, has.lowered[name], module[name], f"{name}, in the module")
    for name in sorted(set(exported) & set(has.functions)):
        compare_parameters(count, name, has.functions[name], exported[name])
        same(count, listed.get(name), single_values(exported[name]), f"{name}, never NULL")
    for inner, outer in sorted(outer_names(has).items()):
        same(count, has.functions.get(outer), has.functions[inner], f"{inner} of proved.h")


# ---- structs, and versions

def compare_structs(count: report.Count, given: Given, has: Header) -> None:
    """Fields with their offsets and sizes: clang's, and those that C's rules give the source's."""
    structs = source.Structs(given.sources())
    same(count, sorted(has.structs), sorted(structs.fields), "structs of the source")
    for name in sorted(set(has.layouts) & set(structs.fields)):
        mine, theirs = has.layouts[name], structs.layout(name)
        for one, other in zip(mine.fields, theirs.fields):
            same(count, tuple(one), tuple(other), f"struct {name}, {other.name}")
        same(count, (len(mine.fields), *mine[1:]), (len(theirs.fields), *theirs[1:]),
             f"struct {name}: fields, size and alignment")


def compare_versions(count: report.Count, given: Given, has: Header) -> None:
    """The symbol version of each function is the one that it came in."""
    mapped = {name: it[1] for it in VERSION.finditer(given.text_of(MAP))
              for name in re.findall(r"(krbrelay_\w+);", it[2])}
    released = dict(line.split() for line in given.text_of(RELEASED).splitlines()
                    if not line.startswith("#"))
    same(count, sorted(set(has.functions) - set(outer_names(has))), sorted(mapped),
         f"functions of {MAP}")
    for name in sorted(set(mapped) | set(released)):
        count.right(mapped.get(name) == released.get(name),
                    f"FAILED {name}, its version: {released.get(name)} in {RELEASED}, and"
                    f" {mapped.get(name)} in {MAP}")


def compare(count: report.Count, given: Given) -> None:
    """Compares all. NotRead where clang doesn't take the header."""
    has = header.read(given)
    compare_functions(count, given, has)
    compare_structs(count, given, has)
    python_types.compare(count, given, has)
    compare_versions(count, given, has)
    if given.library:
        enums.compare(count, given.library, has.enums)
