"""Tests how tools/test runs its parts: in which order, how many at once, what it prints of one that
fails, and that none is left when it ends. It runs in a copy of the repository, in which scripts take
the place of the kit (tests/kit/copied.py) and of each tool that is a part."""
import os
import re
import signal
import subprocess
import sys
import tempfile
import time

import pytest

from lib import parts
from lib.build import building, proving
from copied import TO_END, Copy, are_left, started, write_script

# What takes the place of a part. It notes that it begins and ends, that its priority isn't $PRIORITY,
# and that the file $ASKS is there, if so, and prints many lines. One that $FAILS names fails, and says
# so ahead of them. One that $HANGS names goes on for a minute beside a process that it started, which
# no interrupt ends.
PART = r'''#!/bin/sh
name=${0##"$PWD"/}; name=${name#tools/}; case $0 in */bin/*) name=${0##*/} ;; esac
note() { echo "$*" >> "$NOTES"; }
among() { case " $2 " in *" $1 "*) ;; *) false ;; esac; }
note "begin $name $*"
[ "$(nice)" = "$PRIORITY" ] || note "lower $name $*"
[ -z "$ASKS" ] || [ ! -e "$ASKS" ] || note "sees $name $*"
among "$name" "$FAILS" && echo "FAILED one of $name"
for line in 1 2 3 4 5 6 7 8 9 10 11 12 13 14 15 16 17 18 19 20 21 22 23 24 25; do echo "$line"; done
if among "$name" "$HANGS"; then sleep 60 & note "started $!"; wait; fi
sleep 0.3
note "end $name $*"
echo "told by $name"
! among "$name" "$FAILS"
'''
AFTER = parts.PARTS                        # what comes after the gate
COUNT = 2 + len(AFTER)
AT_ONCE = min(3, proving.cores() + 1)
QUICK_AT_ONCE = min(4, proving.cores() + 1)
BEFORE = ["begin mutants", "end mutants", "begin ci", "end ci"]
# Those that begin first where several run at once: the others wait longest for the C library, and
# these two have the longest limits beside it.
FIRST_OF_ALL = [next(part for part in AFTER if part.command == name) for name in
                (parts.LIBRARY.command, "tests/secret_places", "pytest tests/test_bench.py")][:AT_ONCE]
# What `rt ci` prints where it has proved the program, and last where all passed.
PROVED = "rt: krb_base proved\nrt: krbrelay is kept: an earlier run on this machine proved it\n"
SAYS = PROVED + "184 passed, 0 failed\n"
NOT_PROVED = "rt: krb_base NOT PROVED: goal left\n183 passed, 1 failed\n"
SOURCE = ("crates", "krb_base", "src", "lib.rt")
LIBRARY, TESTS = building.library_of("krb_base"), building.tests_of("krb_peers")


def name_of(part):
    """What is noted of a part."""
    return part.command.removeprefix("tools/")


def most(notes):
    """How many were at work at once."""
    now, found = 0, 0
    for line in notes:
        now += line.startswith("begin ") - line.startswith("end ")
        found = max(found, now)
    return found


def of(notes, what):
    """What is noted to begin or to end, in order."""
    return [line.removeprefix(what).strip() for line in notes if line.startswith(what + " ")]


def begun(notes):
    return of(notes, "begin")


def ended(notes):
    return of(notes, "end")


def line_of(out, place, part):
    """The line of a part, which has its place among all."""
    found = re.search(rf"^{place} of \d+: {re.escape(part.command)}: (.*)$", out, re.M)
    return found[1] if found else ""


def lines_of_parts(out, first=3, among=AFTER):
    return [line_of(out, place, part) for place, part in enumerate(among, first)]


def are_absent(out, need):
    """Whether the parts that need it, and no others, are told as without it."""
    return [("FAILED: missing:" in line and need in line) for line in lines_of_parts(out)] \
        == [need in part.needs for part in AFTER]


def told_of_failure(part):
    """What is printed of a part that fails, after its name and its time: the line that says so and
    the last twenty."""
    lines = [f"FAILED one of {part.tool()}", *range(7, 26), f"told by {part.tool()}"]
    return f"/out/test/{part.name()}.log\n" + "".join(f"    {line}\n" for line in lines)


class Runs:
    """tools/test in a copy."""

    def __init__(self, folder):
        self.copy = Copy(folder)
        for part in (parts.FIRST, parts.BUILD, *AFTER, *parts.MORE):
            tool = part.command.split()[0]
            write_script(os.path.join(folder, "bin", tool) if tool in ("make", "pytest") else self.copy.path(tool), PART)
        for built in (building.program_of("krbrelay"), TESTS,
                      os.path.join(LIBRARY, "format")):
            os.makedirs(os.path.dirname(self.in_copy(built)))
            write_script(self.in_copy(built), "#!/bin/sh\n")

    def in_copy(self, path):
        return path.replace(building.TOP, self.copy.top)

    def are_noted(self, *built):
        """Which of these are noted as built from the present sources."""
        return [os.path.exists(self.in_copy(building.stamp_of(it))) for it in built]

    def says(self, text):
        """Has `rt ci` print a text. Returns the file that has it."""
        path = self.copy.path("says")
        with open(path, "w", encoding="utf-8") as file:
            file.write(text)
        return path

    def run(self, words="", says=SAYS, **given):
        return self.copy.run(f"test {words}", SAYS=self.says(says), PRIORITY=str(os.nice(0)), **given)

    def logs(self):
        return sorted(os.listdir(self.copy.path("out", "test")))

    def log(self, part):
        with open(self.copy.path("out", "test", part.name() + ".log"), encoding="utf-8") as file:
            return file.read()


    def given(self, path, old, new):
        """Has a source of the tools another text. Returns what brings back its own."""
        path = self.copy.path(*path)
        text = building.text_of(path)
        assert text.count(old) == 1
        write_script(path, text.replace(old, new))
        return lambda: write_script(path, text)


@pytest.fixture
def fresh():
    """Runs in a copy in which nothing ran."""
    with tempfile.TemporaryDirectory() as folder:
        yield Runs(folder)


@pytest.fixture(scope="module")
def runs():
    """Runs in a copy in which all passed once, and what that printed and noted."""
    with tempfile.TemporaryDirectory() as folder:
        made = Runs(folder)
        made.first = made.run()
        made.first_logs = [made.log(part) for part in AFTER]
        yield made


# ---- the gate

def test_a_gate_that_fails(fresh):
    status, out, _, notes = fresh.run(says=NOT_PROVED, CI_STATUS="1")
    without = [it for it in AFTER if parts.PROGRAM not in it.needs]
    assert (status == 1 and "2 of" in out and "FAILED: status 1" in out
            and "    rt: krb_base NOT PROVED: goal left" in out and "  krb_base NOT PROVED (1 of" in out
            and out.endswith(f"{1 + len(without)} passed, {COUNT - 1 - len(without)} failed\n"))
    assert are_absent(out, parts.PROGRAM) and sorted(begun(notes)[2:]) == sorted(map(name_of, without)), \
        "what needs no program runs then"


def test_a_source_that_changes_meanwhile(fresh):
    status, out, _, _ = fresh.run(says=SAYS, CHANGES=fresh.copy.path(*SOURCE))
    assert status == 1 and are_absent(out, parts.PROGRAM) and fresh.are_noted(LIBRARY, TESTS) == [False, False]


def test_a_gate_that_fails_after_it_proved_the_program(fresh):
    status, out, _, _ = fresh.run(says=PROVED + NOT_PROVED, CI_STATUS="1")
    assert (status == 1 and not any("missing" in line for line in lines_of_parts(out))
            and fresh.are_noted(LIBRARY, TESTS) == [True, False] and out.endswith(f"{COUNT - 1} passed, 1 failed\n"))


# ---- all parts

def test_all_pass(runs):
    status, out, err, _ = runs.first
    assert status == 0 and not err and out.endswith(f"\n{COUNT} passed, 0 failed\n")
    assert runs.are_noted(LIBRARY, TESTS) == [True, True]


def test_the_first_line_estimates(runs):
    first = runs.first[1].splitlines()[0]
    assert first.startswith(f"{COUNT} parts: about ") and "the last run took" not in first
    assert "; the last run took " in runs.run()[1].splitlines()[0], "the next run says how long this one took"


def test_a_crate_that_is_proved_has_a_line(runs):
    told = rf"  krb_base proved \(1 of {len(building.below())}, \d+\.\d min\)"
    assert any(re.fullmatch(told, line) for line in runs.first[1].splitlines())


def test_order_of_parts(runs):
    notes = runs.first[3]
    assert [it.strip() for it in notes[:len(BEFORE)]] == BEFORE and most(notes[:len(BEFORE)]) == 1, \
        "the mutants and the gate come first, each alone"
    assert sorted(begun(notes)[2:]) == sorted(map(name_of, AFTER)) and sorted(ended(notes)) == sorted(begun(notes)), \
        "then each part once"
    assert most(notes) == AT_ONCE, "as many at once as there are cores, but three at most"
    assert set(map(name_of, FIRST_OF_ALL)) == set(begun(notes)[2:][:AT_ONCE]), \
        "those that take the longest, with what waits for them, come first"
    steps = [line.strip() for line in notes]
    waits = [it for it in AFTER if it.after]
    assert waits and all(steps.index("end " + it.after.removeprefix("tools/")) < steps.index(f"begin {name_of(it)}")
                         for it in waits), "no part begins before the one that it waits for has ended"


def test_output_of_parts(runs):
    told = [f"told by {it.tool()}" for it in AFTER]
    assert all(re.fullmatch(rf"{re.escape(text)} \(\d+ s\)", line)
               for text, line in zip(told, lines_of_parts(runs.first[1]), strict=True)), \
        "the line of each part has its last line and its time"
    assert all(log == "".join(f"{it}\n" for it in [*range(1, 26), text])
               for text, log in zip(told, runs.first_logs, strict=True)), "the whole output is in its log"


@pytest.mark.parametrize("part", [parts.FIRST, parts.PARTS[0], parts.PARTS[-1]], ids=lambda part: part.command)
def test_a_part_that_fails(runs, part):
    """It is told, and the others run."""
    status, out, _, notes = runs.run(FAILS=part.tool())
    line = re.search(rf"^\d+ of {COUNT}: {part.command}: (.*)$", out, re.M)[1]
    count = sum(it.tool() == part.tool() for it in [parts.FIRST, *AFTER])    # parts of that tool
    assert status == 1 and line.startswith("FAILED: status 1 (") and told_of_failure(part) in out
    assert out.endswith(f"{COUNT - count} passed, {count} failed\n") and len(ended(notes)) == COUNT


def test_what_is_told_of_one_stands_together(runs):
    status, out, _, _ = runs.run(FAILS=" ".join(it.tool() for it in AFTER))
    assert status == 1 and all(told_of_failure(part) in out for part in AFTER)
    assert out.endswith(f"2 passed, {len(AFTER)} failed\n")


def test_a_tool_that_is_missing(runs):
    status, out, _, _ = runs.run(CC="/no/compiler")
    assert status == 1 and are_absent(out, parts.COMPILER)
    assert f"missing: {parts.COMPILER}; what needs it will fail" in out.splitlines()


OVER = [it for it in AFTER if it.over is not None]
WITHOUT = [it for it in OVER if not it.over and not it.after]
OF_CRATES = "".join(f"rt: {name} proved\n" for name in sorted({name for it in OVER for name in it.over}))


@pytest.mark.parametrize("cores, says, among", [
    pytest.param(1, SAYS, WITHOUT, id="before a crate is proved"),
    pytest.param(1, OF_CRATES + SAYS, OVER, id="once all are proved"),
    pytest.param(1000, OF_CRATES + SAYS, [], id="on too few cores")])
def test_parts_beside_the_gate(runs, cores, says, among):
    """Where there are cores to spare, what stands on the crates that `rt ci` has proved runs beside it,
    one at a time, and all else after it."""
    back = runs.given(("tools", "test"), "BESIDE = 4 ", f"BESIDE = {cores} ")
    runs.given(("tools", "test"), "BEGUN = 20 ", "BEGUN = 0 ")
    noted = runs.in_copy(building.stamp_of(LIBRARY))
    os.remove(noted)
    try:
        status, _, _, notes = runs.run(says=says, CI_AWAITS=str(len(among)), ASKS=noted)
    finally:
        back()
    during = notes[notes.index("begin ci"):notes.index("end ci")][1:]
    assert sorted(of(during, "sees")) == sorted(map(name_of, among)), \
        "a library that was proved is noted for them meanwhile"
    assert status == 0 and len(ended(notes)) == COUNT
    assert sorted(begun(during)) == sorted(map(name_of, among)) and most(during) == bool(among)
    assert sorted(of(notes, "lower")) == sorted(name_of(it) for it in among if it.over), \
        "those of them that stand on a crate, and no others, have a lower priority"


def test_what_may_run_beside_the_gate():
    assert len(OVER) > len(WITHOUT) > 0
    assert not any(parts.PROGRAM in it.needs for it in OVER), "none of them needs the program"
    assert {it.after for it in OVER} <= {"", *(it.command for it in OVER)}, "what waits waits for one of them"
    assert not any("rt" in it.needs for it in WITHOUT), "what stands on no crate needs no kit"


def test_a_part_that_takes_too_long(runs):
    """It ends, with all that it started."""
    back = runs.given(("tools", "lib", "parts.py"), 'Part("tools/check_documents", 10, over', 'Part("tools/check_documents", 0.02, over')
    try:
        status, out, _, notes = runs.run(HANGS="check_documents")
    finally:
        back()
    assert status == 1 and "tools/check_documents: FAILED: it hadn't ended after 0 minutes" in out
    assert out.endswith(f"{COUNT - 1} passed, 1 failed\n") and len(started(notes)) == 1 and not are_left(notes)


@pytest.mark.parametrize("hanging", [FIRST_OF_ALL, [parts.FIRST]], ids=["parts", "first"])
@pytest.mark.parametrize("number", [signal.SIGINT, signal.SIGTERM, signal.SIGHUP], ids=lambda number: number.name)
def test_a_signal_ends_all(runs, number, hanging):
    """Those that are at work end with all that they started, and no other begins."""
    hangs = " ".join(it.tool() for it in hanging)
    with runs.copy.begin("test", SAYS=runs.says(SAYS), HANGS=hangs) as ran:
        for _ in range(300):
            time.sleep(0.1)
            if len(started(runs.copy.noted())) == len(hanging):
                break
        ran.send_signal(number)
        told = time.monotonic()
        out, _ = ran.communicate()
        took = time.monotonic() - told
    notes = runs.copy.noted()
    before = [] if hanging == [parts.FIRST] else [parts.FIRST, parts.GATE]
    assert ran.returncode == 128 + number and took < TO_END
    assert len(started(notes)) == len(hanging) and not are_left(notes)
    assert sorted(begun(notes)[len(before):]) == sorted(map(name_of, hanging)) and len(ended(notes)) == len(before)
    assert runs.logs() == sorted(it.name() + ".log" for it in (*before, *hanging))
    assert not re.search(r"^\d+ passed, \d+ failed$", out, re.M)


# ---- its forms

def test_without_proofs_the_program_is_built_unless_it_is(runs):
    status, out, _, notes = runs.run("--without-proofs")
    assert status == 0 and begun(notes)[:2] == ["mutants", "krbrelay --prove"] and len(begun(notes)) == COUNT
    assert out.endswith(f"{COUNT} passed, 0 failed\n")


def test_all_runs_further_parts_one_at_a_time(runs):
    """And at last two at a time of those that wait."""
    _, out, _, notes = found = runs.run("--all")
    absent = [it for it in parts.MORE if it.missing() not in ([], [parts.PROGRAM])]
    every = COUNT + len(parts.MORE)
    alone, waiting = ([name_of(it) for it in parts.MORE if it not in absent and it.waits == waits] for waits in (False, True))
    end = COUNT + len(alone)
    assert begun(notes)[COUNT:end] == alone and sorted(begun(notes)[end:]) == sorted(waiting)
    assert most(notes[2 * COUNT:2 * end]) == 1 and most(notes[2 * end:]) <= 2 and found[0] == bool(absent)
    assert out.endswith(f"{every - len(absent)} passed, {len(absent)} failed\n")
    assert (["FAILED: missing:" in line for line in lines_of_parts(out, COUNT + 1, parts.MORE)]
            == [it in absent for it in parts.MORE]), "one whose tools are missing fails"


@pytest.mark.parametrize("words", ["--everything", "--all --list", "--quick --all"])
def test_no_form(runs, words):
    status, out, err, notes = runs.run(words)
    assert (status, out, err.count("\n"), notes) == (2, "", 1, [])


# Notes that a program was built without its proofs from the present sources.
NOTE_UNPROVED = """
import os
from lib.build import unproved
os.makedirs(unproved.FOLDER, exist_ok=True)
open(unproved.PROGRAM, "w").close()
unproved.note()
"""


def test_quick(fresh):
    """--quick runs neither `rt ci` nor a proof, and says so in its last line but one."""
    count, build = len(parts.QUICK), name_of(parts.BUILD_UNPROVED)
    with_program = [parts.UNPROVED in it.needs for it in parts.QUICK]
    without = f"{count - sum(with_program)} passed, {sum(with_program)} failed\n"
    status, out, _, notes = fresh.run("--quick")
    assert status == 1 and out.endswith(without), "what needs the program fails where none was built"
    assert [f"FAILED: missing: {parts.UNPROVED}" in it for it in lines_of_parts(out, 1, parts.QUICK)] == with_program
    subprocess.run([sys.executable, "-c", NOTE_UNPROVED], check=True, env=fresh.copy.given,
                   cwd=fresh.copy.path("tools"))
    status, out, err, notes = fresh.run("--quick")
    lines, steps = out.splitlines(), [line.strip() for line in notes]
    assert status == 0 and not err and most(notes) == QUICK_AT_ONCE
    assert sorted(begun(notes)) == sorted(map(name_of, parts.QUICK)), "each of its parts runs once"
    before = begun(steps[:steps.index(f"end {build}")])
    assert build in before and (len(before) > 1 or QUICK_AT_ONCE == 1), "it begins with a program without proofs"
    assert not any(name_of(it) in before for it in parts.QUICK if parts.UNPROVED in it.needs), "which others wait for"
    assert lines[-2].startswith("nothing was proved") and lines[-1] == f"{count} passed, 0 failed"
    status, out, _, notes = fresh.run("--quick", FAILS="tests/repeated_frames")
    failed = next(it for it in parts.QUICK if it.tool() == "tests/repeated_frames")
    assert status == 1 and told_of_failure(failed) in out and "\nnothing was proved" in out
    assert out.endswith(f"{count - 1} passed, 1 failed\n"), "a part of --quick fails"
    fresh.copy.append("// newest\n", *SOURCE)
    status, out, _, _ = fresh.run("--quick")
    assert status == 1 and out.endswith(without), "a program of other sources is none"
