"""Plants faults in krbrelay's own reader, and tells whether the cases notice them.

All faults go into a copy of the sources, of which the program is built without its proofs; a variable of the
environment chooses one. Then `krbrelay open` reads the cases until one is answered otherwise than known.toml
says, and a line for each fault names that case. Without a fault the first cases pass, which is tried first.
"""
from __future__ import annotations

import collections.abc
import contextlib
import os
import pathlib
import shutil
import subprocess
import sys
import tempfile

from lib import options, report
from lib.build import building
from lib.faults import planted as edits
from vectors import build, judging, readers
from vectors.model import Case, Group

Faults = dict[str, dict[str, str]]
# What says which fault is chosen: the variable KRBRELAY_PLANTED, a number from 1 on.
CHOSEN_IN_C = """\
#include <stdlib.h>
unsigned krbrelay_planted(void)
{
    const char *number = getenv("KRBRELAY_PLANTED");
    return number ? (unsigned)atoi(number) : 0;
}
"""
CHOSEN = """
unsafe extern "C" {
    safe fn krbrelay_planted() -> u32;
}

/// Whether this fault is chosen.
pub fn is_planted(fault: u32) -> bool {
    krbrelay_planted() == fault
}
"""
CHANGED_BELOW = ("krb_keys", "krb_time", "krb_tlv")      # crates with a fault that may not stand on krb_base
COPIED = ("crates", "crates.txt", "HANDLES", "VERSION", "tools")
OF_KIND, AT_ONCE = 2, 60    # cases of each group and flag that come first; cases of one run
UNFAULTED = 1200            # cases without a fault
LONGEST = 20_000            # digits of the longest case: the program without proofs is slow

Asked = tuple[Group, Case]


# ---- building

@contextlib.contextmanager
def copied() -> collections.abc.Iterator[pathlib.Path]:
    """A copy of what the program is built from, as it stands here."""
    with tempfile.TemporaryDirectory() as folder:
        listed = subprocess.run(["git", "-C", building.TOP, "ls-files", "-z", "--", *COPIED], check=True,
                                stdout=subprocess.PIPE, text=True)
        for path in listed.stdout.split("\0")[:-1]:
            target = pathlib.Path(folder, path)
            target.parent.mkdir(parents=True, exist_ok=True)
            shutil.copy2(pathlib.Path(building.TOP, path), target)
        subprocess.run(["git", "init", "-q", folder], check=True)
        yield pathlib.Path(folder)


def edit(top: pathlib.Path, planted: Faults) -> None:
    """Puts all faults into a copy, and in krb_base a function that says which one is chosen."""
    for number, fault in enumerate(planted.values(), 1):
        new = fault["new"].replace("FAULT", f"krb_base::is_planted({number})")
        edits.make((f"crates/{fault['file']}", fault["old"], new), str(top))
    (top / "crates" / "krb_base" / "c").mkdir()
    (top / "crates" / "krb_base" / "c" / "planted.c").write_text(CHOSEN_IN_C, encoding="utf-8")
    with open(top / "crates" / "krb_base" / "src" / "lib.rt", "a", encoding="utf-8") as file:
        file.write(CHOSEN)
    path = top / "crates.txt"
    lines = [with_base(line) for line in path.read_text(encoding="utf-8").splitlines()]
    path.write_text("\n".join(lines) + "\n", encoding="utf-8")


def with_base(line: str) -> str:
    """A line of crates.txt whose crate stands on krb_base, as each with a fault has to."""
    name = line.partition(":")[0]
    return f"{line} krb_base" if name in CHANGED_BELOW and "krb_base" not in line.split() else line


def built(planted: Faults, keep: str) -> str:
    """Builds the program with all faults, and keeps it there. Returns what the build says if it fails."""
    with copied() as top:
        edit(top, planted)
        done = subprocess.run([top / "tools" / "krbrelay", "--unproved", "--version"], check=False, text=True,
                              stdout=subprocess.PIPE, stderr=subprocess.STDOUT, env={**os.environ, "RT_ALLOW_C": "1"})
        program = top / "out" / "unproved" / "krbrelay"
        if done.returncode or not program.exists():
            return done.stdout[-2500:] or "the program isn't kept"
        shutil.copy2(program, keep)
    return ""


# ---- running

def in_order(of: readers.Implementation) -> list[Asked]:
    """What the program can be asked: a few of each group and flag first."""
    found = [it for it in judging.asked_of(of, build.built()) if len(readers.line_of(*it)) < LONGEST]
    seen: dict[tuple[str, ...], int] = {}
    ranked = []
    for group, case in found:
        kind = (group.name, group.mode, *case.flags)
        seen[kind] = seen.get(kind, 0) + 1
        ranked.append((seen[kind] > OF_KIND, case.number, (group, case)))
    return [it for _, _, it in sorted(ranked, key=lambda it: it[:2])]


def first_noticed(of: readers.Implementation, runner: readers.Runner, chosen: list[Asked]) -> tuple[Asked | None, int]:
    """The first case that isn't answered as is known, and how many were tried."""
    for start in range(0, len(chosen), AT_ONCE):
        part = chosen[start:start + AT_ONCE]
        verdicts = readers.verdicts_of(runner, part)
        for place, (group, case) in enumerate(part):
            if not judging.is_allowed(of, group, case, verdicts[case.number]):
                return (group, case), start + place + 1
    return None, len(chosen)


def runner_of(of: readers.Implementation, program: str, fault: int) -> readers.Runner:
    found = readers.built(of, readers.library_at(None, program), pathlib.Path())
    return readers.Runner(found.words, {**found.environment, "KRBRELAY_PLANTED": str(fault)})


def try_fault(count: report.Count, found: tuple[Asked | None, int], name: str) -> None:
    asked, tried = found
    told = f"case {asked[1].number} of '{asked[0].name}': {asked[1].comment}" if asked else "no case"
    count.told(asked is not None, f"{name}: noticed by {told} ({tried} tried)")


def main(words: list[str]) -> int:
    planted, count = build.table("faults"), report.Count()
    parser = options.Parser(__doc__, "--list").takes("names", nargs="*", type=options.one_of(planted), metavar="NAME")
    asked = parser.takes("--keep", metavar="FILE").parse_args(words)
    if asked.form:
        print(*planted, sep="\n")
        return 0
    of = readers.implementations()["krbrelay_open"]
    chosen = in_order(of)
    with tempfile.TemporaryDirectory() as folder:
        program = os.path.abspath(asked.keep) if asked.keep else os.path.join(folder, "krbrelay")
        said = "" if os.path.exists(program) else built(planted, program)
        if said:
            sys.exit(f"the program with faults isn't built: {said}")
        asked_first, tried = first_noticed(of, runner_of(of, program, 0), chosen[:UNFAULTED])
        count.told(asked_first is None, f"without a fault {tried} cases pass", [str(asked_first)[:300]])
        for number, name in enumerate(planted, 1):
            if name in (asked.names or planted):
                ordered = sorted(chosen, key=lambda it, first=planted[name]["group"]: it[0].name != first)
                try_fault(count, first_noticed(of, runner_of(of, program, number), ordered), name)
    return count.end()
