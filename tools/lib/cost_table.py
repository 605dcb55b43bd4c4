"""Tables of costs that were measured: a line for each case, with its words, the instructions, what was asked of the
allocator, and what else a table has. A test compares what it measures with them, so that a loss is seen where it
came in. Instructions differ a little with the C compiler; the others don't.
"""
import os
from collections.abc import Iterable

from lib import report
from lib.build import building

SHARE, MORE = 0.03, 64      # of the instructions
HEAD = ("instructions", "asked", "bytes", "largest")

Figures = tuple[int, ...]
Table = dict[str, Figures]


def read(path: str, first: int = 0) -> Table:
    """The figures by the words of a case, which are joined by tabs: as many as come before the instructions."""
    with open(os.path.join(building.TOP, path), encoding="utf-8") as file:
        head, *lines = (line.split("\t") for line in file.read().splitlines())
    first = first or head.index(HEAD[0])
    return {"\t".join(line[:first]): tuple(map(int, line[first:])) for line in lines}


def write(path: str, head: Iterable[str], table: Table, more: Iterable[str] = (), figures: Iterable[str] = HEAD) -> None:
    with open(os.path.join(building.TOP, path), "w", encoding="utf-8") as file:
        file.write("\t".join([*head, *figures, *more]) + "\n")
        for words, figures in table.items():
            file.write("\t".join([words, *map(str, figures)]) + "\n")


def is_near(found: int, noted: int, share: float) -> bool:
    return abs(found - noted) <= share * noted + MORE


def compare(count: report.Count, path: str, noted: Table, found: Table, share: float = SHARE) -> None:
    """Each case has about the instructions of its line, and exactly what else stands there."""
    for words in noted.keys() - found.keys():
        count.right(False, f"FAILED {path} has a case that isn't measured: {words}")
    for words, figures in found.items():
        of = noted.get(words)
        count.right(of is not None and is_near(figures[0], of[0], share) and figures[1:] == of[1:],
                    f"FAILED {words}: {figures}, and in {path} {of}: where that is meant, --write writes it anew")


def control(count: report.Count) -> None:
    """Each difference that is planted has to be reported."""
    noted: Table = {"one": (10_000, 2, 300, 200), "other": (20_000, 0, 0, 0)}
    for planted in ({"one": (10_500, 2, 300, 200)}, {"one": (9_500, 2, 300, 200)}, {"one": (10_000, 3, 300, 200)},
                    {"one": (10_000, 2, 301, 200)}, {"one": (10_000, 2, 300, 201)}, {"third": (1, 0, 0, 0)}):
        quiet = report.Count()
        quiet.right = lambda passed, _, of=quiet: of.add(bool(passed), not passed)
        compare(quiet, "", noted, {**noted, **planted})
        count.right(quiet.failed == 1, f"FAILED a planted cost isn't reported: {planted}")
    quiet = report.Count()
    quiet.right = lambda passed, _, of=quiet: of.add(bool(passed), not passed)
    compare(quiet, "", noted, {"one": noted["one"]})
    count.right(quiet.failed == 1, "FAILED a case that isn't measured isn't reported")
