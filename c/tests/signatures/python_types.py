"""Compares the header with the types of the Python package, by which it calls the library."""
import ctypes
import re
import types
from typing import Any, Dict, Optional, Tuple

from lib import report
from signatures.given import PYTHON, Given
from signatures.header import Header, Layout

# C's numbers: their bytes, and whether they have a sign.
NUMBERS = {"uint8_t": (1, False), "char": (1, False), "uint32_t": (4, False), "int32_t": (4, True),
           "int": (4, True), "uint64_t": (8, False), "size_t": (8, False)}
LEAST = 5, 20       # structs and calls: with fewer the package isn't read


def number_of(c: str) -> Optional[Tuple[int, bool]]:
    return (4, False) if c.startswith("enum ") else NUMBERS.get(c)


def fits(python: Any, c: str) -> bool:
    """Whether a type of Python's passes what C takes by this one."""
    inner = c.removeprefix("const ").removesuffix("*").strip()
    if python is None:
        return c == "void"
    if python is ctypes.c_void_p:
        return c.endswith("*")
    if python is ctypes.c_char_p:
        return c.endswith("*") and NUMBERS.get(inner) == (1, False)
    if issubclass(python, ctypes.Structure):
        return c.removeprefix("struct ") in re.findall(r"krbrelay_\w+", python.__doc__)
    if hasattr(python, "contents"):
        return c.endswith("*") and fits(python._type_, inner)
    return number_of(c) == (ctypes.sizeof(python), python(-1).value < 0)


def compare_struct(count: report.Count, has: Header, name: str, struct: Any) -> None:
    layout = has.layouts.get(name, Layout([], 0, 0))
    mine = [(it.name, it.offset, it.size) for it in layout.fields]
    places = [(it[0], getattr(struct, it[0])) for it in struct._fields_]
    theirs, size = [(it, place.offset, place.size) for it, place in places], ctypes.sizeof(struct)
    count.right((mine, layout.size) == (theirs, size),
                f"FAILED Python's {name}: {theirs}, {size} bytes, and in the header {mine},"
                f" {layout.size} bytes")


def compare_call(count: report.Count, has: Header, name: str, call: Tuple[Any, list]) -> None:
    declared = has.functions.get(name)
    wanted = [declared.result, *(it.type for it in declared.takes)] if declared else []
    given = [call[0], *call[1]]
    count.right(len(given) == len(wanted) and all(map(fits, given, wanted)),
                f"FAILED Python's {name}: {[it and it.__name__ for it in given]}, and in the header"
                f" {wanted}")


def compare(count: report.Count, given: Given, has: Header) -> None:
    """The package's structs and calls, as they stand in its text."""
    package = types.ModuleType("library")
    exec(compile(given.text_of(PYTHON), PYTHON, "exec"), package.__dict__)
    classes = [it for it in vars(package).values() if isinstance(it, type)]
    structs: Dict[str, Any] = {name: it for it in classes if issubclass(it, ctypes.Structure)
                               for name in re.findall(r"krbrelay_\w+", it.__doc__)}
    count.right(len(structs) > LEAST[0] and len(package.CALLS) > LEAST[1],
                "FAILED Python's types aren't read")
    for name, struct in structs.items():
        compare_struct(count, has, name, struct)
    for name, call in package.CALLS.items():
        compare_call(count, has, name, call)
