"""What tools/tables writes of tables/options.toml: what the carrier's programs read a command line by, and pages of the
manual."""
import functools
import textwrap
import tomllib
from collections.abc import Iterator
from typing import Any

from lib.build import building
from lib.written import aligned, of_c, of_roff, one_line, packed

Row = dict[str, Any]
TABLE = tomllib.loads(building.text_of("tables/options.toml"))
COLUMN = 19     # where a line of --help says what an option means, as carrier/base/options.c has it
OF_PYTHON = 100
CALL = "    parser.add_argument("


def options_of(program: str) -> list[Row]:
    return [row for row in TABLE["option"] if program in row.get("at", row.get("of"))]


def help_of(row: Row) -> str:
    return row["help"].replace("{default}", str(row.get("default")))


# ---- C

def fields_of(row: Row, at: str) -> Iterator[str]:
    yield f'.word = "{row["word"]}"'
    if "value" in row:
        yield f'.value = "{row["value"]}"'
    if "kind" in row:
        yield f".kind = OPTION_{row['kind'].upper()}"
    yield f".take = {at}" if row.get("kind") == "taken" else f".at = offsetof(struct options, {at})"
    yield from (f".{field} = {row[key]}" for field, key in (("low", "least"), ("high", "most"), ("initial", "default"))
                if row.get(key))


def rows_of_c(program: str) -> Iterator[str]:
    """The rows of a program, and its usage."""
    synopsis, ends = (TABLE["program"][program][it] for it in ("synopsis", "ends"))
    yield "static const struct option_row rows[] = {"
    for row in options_of(program):
        yield from packed(fields_of(row, row["at"][program]), "    { ")
        yield from aligned("      .help = ", of_c(help_of(row)), " },")
    yield "};\n\nstatic const struct usage usage = {"
    yield f'    "{program}", "{program} {synopsis}\\n",'
    yield from aligned("    ", of_c(ends + "\n"), ",")
    yield "    rows, sizeof rows / sizeof *rows\n};"


# ---- Python

def calls_of_argparse(program: str, is_told: bool = True) -> Iterator[str]:
    """A call for each option; with what it means, where argparse writes the help."""
    for row in options_of(program):
        words = [f'"--{row["word"]}"'] + (['action="store_true"'] if row.get("kind") == "flag" else [])
        words += [f'metavar="{row["value"]}"'] if is_told and "value" in row else []
        words += [row["python"]] if "python" in row else []
        begin, told = CALL + ", ".join(words), f'help="{one_line(help_of(row))}")'
        if not is_told or len(f"{begin}, {told}") <= OF_PYTHON:
            yield f"{begin}, {told}" if is_told else f"{begin})"
            continue
        lines = textwrap.wrap(one_line(help_of(row)), OF_PYTHON - len(CALL) - 10)
        yield f"{begin},"
        yield from aligned(" " * len(CALL) + "help=", [f'"{it} "' for it in lines[:-1]] + [f'"{lines[-1]}"'], ")")


def head_of_status() -> Iterator[str]:
    """How it is called, and a line for each option, or two, as C's programs print them."""
    yield from textwrap.wrap(TABLE["program"]["status"]["synopsis"], OF_PYTHON, initial_indent="    carrier/status ",
                             subsequent_indent=" " * COLUMN, break_on_hyphens=False)
    yield ""
    for row in options_of("status"):
        begin, (first, *others) = f"  --{row['word']} {row.get('value', '')}".rstrip(), help_of(row).splitlines()
        yield f"{begin:{COLUMN - 2}}  {first}"
        yield from (" " * COLUMN + it for it in others)


# ---- the manual

def synopsis(program: str) -> Iterator[str]:
    yield f".B {of_roff(f'krbrelay-{program} ' + TABLE['program'][program]['synopsis'])}"


def paragraphs(program: str) -> Iterator[str]:
    for row in options_of(program):
        for value, text in row.get("page", [[row.get("value", ""), help_of(row)]]):
            named = f"--{row['word']} {value}".strip()
            yield f".TP\n.B {of_roff(named)}\n{of_roff(one_line(text))}"
        if "see" in row:
            yield f".RB ( {of_roff(row['see'])})"
    if "ends" in TABLE["program"][program]:
        yield ".TP\n.B \\-\\-help, \\-\\-version\nPrint what these options are, or the version."


def exit_status(program: str) -> list[str]:
    return [of_roff(one_line(TABLE["program"][program]["ends"]))]


# The lines between which a part stands of which no line says so.
PLACES = {
    "synopsis": (".SH SYNOPSIS\n", ".SH DESCRIPTION"),
    "exit status": (".SH EXIT STATUS\n", ".SH DIAGNOSTICS"),
    "how status is called": ('"""Shows how sessions stand, by what outboxes, stores and the carrier have.\n\n',
                             "\nA line a session:"),
}
PYTHON = "python/krbrelay/carrier.py"
PARTS = [
    *((path, functools.partial(rows_of_c, program), "rows")
      for program, path in (("sender", "carrier/sender/sender_main.c"), ("receiver", "carrier/receiver/receiver.c"))),
    *((PYTHON, functools.partial(calls_of_argparse, it), f"options of {it}") for it in ("put", "get")),
    ("carrier/status", head_of_status, "how status is called"),
    ("carrier/status", functools.partial(calls_of_argparse, "status", False), "options"),
    *((f"carrier/man/{of['page']}", functools.partial(make, program), name) for program, of in TABLE["program"].items()
      for make, name in ((synopsis, "synopsis"), (paragraphs, "options"), (exit_status, "exit status"))
      if name != "exit status" or "ends" in of)]
