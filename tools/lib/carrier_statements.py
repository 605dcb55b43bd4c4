"""What tools/tables writes of tables/statements.toml: the texts of a store's statements in both spellings of SQL."""
import functools
import re
import tomllib
from collections.abc import Iterator
from typing import Any

from lib.build import building
from lib.written import aligned, packed

TABLE = tomllib.loads(building.text_of("tables/statements.toml"))
SPELLINGS = "sqlite", "postgresql"


def placed(values: list[str], name: str, spelling: str) -> str:
    """The place of a value in a text."""
    number = values.index(name) + 1
    return f"?{number}" if spelling == "sqlite" else f"${number}::{TABLE['types'][re.sub('^(from|to)_', '', name)]}"


def spelt(row: dict[str, Any], spelling: str) -> list[str]:
    """The lines of a statement's text."""
    whole = re.sub(r"\{(\w+)\}", lambda word: TABLE["words"][word[1]][spelling], row["sql"])
    return re.sub(r"(?<!:):(\w+)", lambda value: placed(row["values"], value[1], spelling), whole).splitlines()


def texts(spelling: str) -> Iterator[str]:
    """The texts in C: a literal for each line of a statement, and a space before each but the first."""
    yield "static const char *const own_sql[STORE_SQL] = {"
    for name, row in TABLE["statement"].items():
        first, *others = spelt(row, spelling)
        yield from aligned(f"    [{name}] = (", [f'"{first}"', *(f'" {it}"' for it in others)], "),")
    yield "};"


def names() -> Iterator[str]:
    *lines, last = packed([*TABLE["statement"], "STORE_SQL };"], "enum store_sql { ")
    yield from (*lines, last.removesuffix(","))


PARTS = [
    *((f"carrier/stores/{it}_store.c", functools.partial(texts, it), "statements") for it in SPELLINGS),
    ("carrier/stores/store.h", names, "names of statements")]
