"""What tools/tables writes of tables/metrics.toml: the rows of the reports of the carrier's programs, and a table of
OPERATION.md."""
import functools
import tomllib
from collections.abc import Iterator

from lib.build import building
from lib.written import of_c, packed

TABLE: dict[str, dict[str, dict[str, str]]] = tomllib.loads(building.text_of("tables/metrics.toml"))
OF_HISTOGRAM = "_bucket", "_sum", "_count"      # what C and Prometheus call the parts of one


def name_of(program: str, name: str) -> str:
    return f"krbrelay_{program}_{name}"


def words_of(program: str, name: str, row: dict[str, str]) -> list[str]:
    part = OF_HISTOGRAM[0] if row["type"] == "histogram" else ""
    return [*of_c(name_of(program, name + part)), *of_c(row["type"]), *of_c(row["help"])]


def defined(program: str, macro: str) -> Iterator[str]:
    """A macro with those that have a value, and one for each other, of its first three fields."""
    lines = [f"#define {macro}(X)"]
    for name, row in TABLE[program].items():
        if "value" in row:
            lines += packed([*words_of(program, name, row), row["value"] + ")"], "    X(")
            lines[-1] = lines[-1].removesuffix(",")
    yield from (f"{it} \\" for it in lines[:-1])
    yield lines[-1]
    for name, row in TABLE[program].items():
        if "value" not in row:
            yield " \\\n  ".join(packed(words_of(program, name, row), f"#define {name.upper()} ")).removesuffix(",")
        if row["type"] == "histogram":
            yield from (f'#define {name.upper()}{it.upper()} "{name_of(program, name + it)}"' for it in OF_HISTOGRAM[1:])


def of_build() -> Iterator[str]:
    name, *others = words_of("%s", "build_info", TABLE["both"]["build_info"])
    yield f"#define BUILD_INFO {name}\n#define BUILD_INFO_IS {', '.join(others)}"


def table_of_page() -> Iterator[str]:
    yield "| Metric | Type | What it is |\n|---|---|---|"
    for group, rows in TABLE.items():
        for name, row in rows.items():
            yield f"| `{name_of('PROGRAM' if group == 'both' else group, name)}` | {row['type']} | {row['help']} |"


PARTS = [
    ("carrier/sender/sender_report.c", functools.partial(defined, "sender", "OF_SENDER"), "metrics"),
    ("carrier/receiver/shard_report.c", functools.partial(defined, "receiver", "OF_SHARD"), "metrics"),
    ("carrier/base/service.c", of_build, "metrics"),
    ("carrier/OPERATION.md", table_of_page, "metrics")]
