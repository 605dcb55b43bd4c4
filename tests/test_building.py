"""Tests how programs and the C library are proved and built: the order of proofs, and that no tool
takes what isn't proved from the present sources for what is; the goals of mutants; and the table of
tools. The tools run in a copy of the repository, in which scripts take the place of the kit
(tests/kit/copied.py)."""
import os
import shutil
import signal
import stat
import subprocess
import sys
import tempfile
import time

import pytest

from lib import parts, scripts
from lib.build import building, groups, levels, proving
from lib.build import mutants as tables
from copied import LIMIT, TO_END, Copy, are_left, started

GB = 1 << 30
# What the last line says of a program that isn't proved.
LAST_LINE = "some 500 times slower than the proved one: tools/krbrelay --prove makes that one."
# The commands that test or time the program, which all want a proved one.
NEED_PROVED = ("tests/repeated_frames", "tests/freed_memory --program",
               "tests/failing_calls program", "kerberos/interop", "bench 1")
# Those that take the other one by a word, and how they say it.
QUICK_FORMS = ("tests/repeated_frames --quick",)
WITHOUT = "over a program that was built without its proofs"
TAKE_A_NAME = ("tests/freed_memory --program", "tests/job_costs --check")


@pytest.fixture
def copy():
    with tempfile.TemporaryDirectory() as folder:
        yield Copy(folder)


@pytest.fixture(scope="module")
def untouched():
    """A copy for tests that change nothing."""
    with tempfile.TemporaryDirectory() as folder:
        yield Copy(folder)


@pytest.fixture(scope="module")
def proved():
    """A copy in which the program is proved, beside one without its proofs; and what was said."""
    with tempfile.TemporaryDirectory() as folder:
        made = Copy(folder)
        made.run("relay")
        made.said = made.run("krbrelay --prove")
        yield made


def test_the_kit_is_a_script(untouched):
    assert os.stat(shutil.which("rt", path=untouched.given["PATH"])).st_mode & stat.S_IXUSR


# ---- the order of proofs

def follow(schedule):
    """Proves all on a clock of the test. Returns the order, the most jobs and the most crates at
    once, and whether a core was idle beside a crate that was ready and fitted into memory."""
    order, jobs, crates, idle = [], 0, 0, False
    while schedule.waiting or schedule.running:
        while schedule.begin() is not None:
            pass
        if not schedule.running:
            break
        running = schedule.running
        used = sum(proving.memory_of(it) for it in running.values())
        jobs, crates = max(jobs, sum(running.values())), max(crates, len(running))
        fits = used + proving.MEMORY <= schedule.memory
        idle = idle or bool(schedule.ready()) and fits and sum(running.values()) < schedule.cores
        order.append(next(iter(running)))
        schedule.end(order[-1])
    return order, jobs, crates, idle


@pytest.mark.parametrize("memory", [2, 8, 24, 96])
@pytest.mark.parametrize("cores", [1, 2, 4, 16])
@pytest.mark.parametrize("top", ["krbrelay", "krb_bench", "krb_c"])
def test_order(top, cores, memory):
    deps = building.below()
    mine = {crate: deps[crate] for crate in building.in_order(top)}
    order, jobs, crates, idle = follow(proving.Schedule(mine, cores, memory * GB))
    early = [dep for place, crate in enumerate(order) for dep in mine[crate] if dep not in order[:place]]
    assert sorted(order) == sorted(mine) and order[-1] == top and not early
    assert jobs <= cores and not idle
    most = memory * GB // proving.MEMORY
    assert crates <= max(1, most) and (crates > 1) == (min(cores, most) > 1)


def test_cores_of_a_crate():
    alone = proving.Schedule({"a": [], "b": ["a"]}, 4, 96 * GB)
    assert alone.begin() == ("a", 4) and alone.begin() is None, "one crate takes all cores"
    pair = proving.Schedule({"a": [], "b": [], "c": ["a", "b"]}, 2, 96 * GB)
    assert {pair.begin(), pair.begin()} == {("a", 1), ("b", 1)} and pair.begin() is None, "two crates share them"


def test_estimates():
    one = proving.MIDDLING
    chain = proving.Schedule({"a": [], "b": ["a"], "c": ["b"]}, 1, 96 * GB)
    assert proving.left(chain, {}) == 3 * one, "a chain takes the sum"
    two = proving.Schedule({"a": [], "b": []}, 2, 96 * GB)
    assert proving.left(two, {}) == one, "two side by side take one's time"
    two.begin()
    assert proving.left(two, {"a": one / 3}) == one, "what is gone counts"
    two.begin()
    assert (proving.left(two, {"a": one / 3, "b": one / 2}) == one - one / 3
            and proving.left(two, {"a": 2 * one, "b": 2 * one}) == 0), "what is gone of both counts"
    assert len(two.running) == 2 and not two.proved, "an estimate begins nothing"


class Proof:
    """A process that ends well after some seconds, or when it is asked to."""
    returncode = 0

    def __init__(self, seconds):
        self.end = time.monotonic() + seconds

    def poll(self):
        return 0 if time.monotonic() >= self.end else None

    def terminate(self):
        self.end = 0

    def wait(self):
        return 0


def said_of(deps, took):
    """What is said of proofs that take so many seconds, and the run after them."""
    lines = []
    run = proving.Run(proving.Schedule(deps, 1, 96 * GB), lambda crate, _: Proof(took[crate]),
                      lambda crate: None, lines.append)
    run.all()
    return lines, run


def test_kept_proofs_say_nothing_of_the_time_of_others():
    kept = {"krb_base": 0, "krb_time": 0, "krb_other": 0}
    lines, run = said_of({it: [] for it in kept}, kept)
    assert len(lines) == 3 and run.wanted == 0
    assert lines[0].startswith("krb_other") and "about 1.0 min left" in lines[0]


def test_a_long_proof_has_a_line_now_and_then(monkeypatch):
    monkeypatch.setattr(proving, "SILENT", 0.5)
    lines, _ = said_of({"krb_base": [], "krb_time": ["krb_base"]}, {"krb_base": 0, "krb_time": 1.5})
    told = [it for it in lines if it.startswith("proving krb_time: ") and " left" in it]
    assert len(told) in (1, 2) and len(lines) == len(told) + 2


# ---- the tools, in a copy

def tries(copy):
    """Which of two runs builds a program."""
    return ["try" in copy.run("relay")[3] for _ in range(2)]


def test_without_proofs(copy):
    status, out, err, notes = copy.run("relay")
    assert (status == 0 and out == "unproved\n" and notes[0] == "try" and LAST_LINE in err.splitlines()[-1]
            and "unproved relay" in notes), "relay builds without proofs"
    status, out, err, notes = copy.run("show")
    assert (status == 1 and out == "unproved\n" and notes == ["unproved show"] and err.count("\n") == 1
            and LAST_LINE in err), "show takes what is kept"
    copy.append("// new\n", "crates", "krb_base", "src", "lib.rt")
    assert tries(copy) == [True, False], "a changed source is built once"
    copy.append("# new\n", "out", "unproved", "krbrelay")
    assert tries(copy) == [True, False], "a changed program is built once"
    copy.append("-- new\n", "crates", "krb_base", "specs", "Limits.antt")
    for _ in range(2):
        status, out, err, notes = copy.run("relay", KEEPS="no")
        assert status == 0 and out == "tried\n" and LAST_LINE in err.splitlines()[-1], \
            "a kit that lets nothing be kept"
    assert notes == ["try"], "which is known then"


def test_without_the_kit(copy):
    """What was built runs where there is no kit, and else it is said that there is none."""
    copy.run("relay")
    paths = [it for it in copy.given["PATH"].split(":") if not os.path.exists(os.path.join(it, "rt"))]
    no_kit = {"PATH": ":".join(paths)}
    status, out, err, notes = copy.run("relay", **no_kit)
    assert status == 0 and out == "unproved\n" and notes == ["unproved relay"] and LAST_LINE in err, \
        "without the kit what is kept runs"
    copy.append("-- newest\n", "crates", "krb_base", "specs", "Limits.antt")
    status, out, err, notes = copy.run("relay", **no_kit)
    assert status == 1 and not out and not notes and "there is no command rt" in err, "and nothing else"
    status, out, err, notes = copy.run("krbrelay --prove", **no_kit)
    assert (status == 1 and not notes
            and err == "krbrelay can't be proved: there is no command rt, which is the kit's\n"), \
        "nothing is proved without the kit"


@pytest.mark.parametrize("name, why", [("docs", "Is a directory"), ("none", "No such file or directory")])
def test_what_cannot_be_read_is_told(untouched, name, why):
    path = untouched.path(name)
    assert untouched.run(f"krbrelay relay {path}") == (1, "", f"tools/krbrelay: {path}: {why}\n", [])


@pytest.mark.parametrize("words", ["relay", "relay -", "--json relay", "--prove"])
def test_standard_input_that_is_a_directory_is_told(untouched, words):
    directory = os.open(untouched.path("docs"), os.O_RDONLY)
    ran = subprocess.run([untouched.path("tools", "krbrelay"), *words.split()], stdin=directory,
                         capture_output=True, text=True, check=False, timeout=LIMIT)
    os.close(directory)
    assert (ran.returncode, ran.stdout) == (1, "")
    assert ran.stderr == "tools/krbrelay: standard input: Is a directory\n"


@pytest.mark.parametrize("number, of_group", [
    (signal.SIGINT, True), *((it, of_group) for it in (signal.SIGHUP, signal.SIGTERM) for of_group in (True, False))])
def test_nothing_is_left_of_a_build_that_is_to_end(untouched, number, of_group):
    """Signals tools/krbrelay while `rt` works, as a terminal does its whole group: no process is left, and no folder."""
    with untouched.begin("krbrelay --version", HANGS="yes") as ran:
        end = time.monotonic() + LIMIT
        while not started(untouched.noted()) and time.monotonic() < end:
            time.sleep(0.1)
        told = time.monotonic()
        (os.killpg if of_group else os.kill)(ran.pid, number)
        ran.communicate()
    notes = untouched.noted()
    rooms = [it for it in os.listdir(untouched.path("out", "unproved")) if it.startswith("tmp")]
    assert ran.returncode == 128 + number and time.monotonic() - told < TO_END
    assert len(started(notes)) == 1 and not are_left(notes) and not rooms


def takes_the_one_without_proofs(copy, words):
    """After --quick a tool takes this program, and says so."""
    _, out, _, notes = copy.run(words)
    return (WITHOUT in out.splitlines() and any(it.startswith("unproved ") for it in notes)
            and not any(it.startswith("proved ") for it in notes))


def test_quick_forms(copy):
    for words in QUICK_FORMS:
        assert takes_the_one_without_proofs(copy, words), words


@pytest.mark.parametrize("words", QUICK_FORMS)
def test_a_quick_form_where_one_is_proved(proved, words):
    assert takes_the_one_without_proofs(proved, words)


def test_no_quick_forms(copy):
    """Where the kit lets no program be kept, there is none for --quick."""
    copy.run("relay")
    copy.append("-- newest\n", "crates", "krb_base", "specs", "Limits.antt")
    for words in QUICK_FORMS:
        status, out, err, notes = copy.run(words, KEEPS="no")
        assert (status == 1 and WITHOUT not in out
                and "there is no program krbrelay that was built without its proofs" in err
                and not any("proved " in it for it in notes)), words


def test_no_tool_runs_what_is_not_proved(copy):
    """No tool runs a program that isn't proved, wherever it lies."""
    copy.run("relay")
    kept = copy.path("out", "unproved", "krbrelay")
    for crate in ("krbrelay", "krb_bench"):
        os.makedirs(copy.path("crates", crate, "out"), exist_ok=True)
        shutil.copy(kept, copy.path("crates", crate, "out", crate))
    for name in os.listdir(copy.path("out", "unproved")):
        if name.endswith("_from"):
            shutil.copy(copy.path("out", "unproved", name),
                        copy.path("crates", "krbrelay", "out", "krbrelay.built_from"))
    for words in NEED_PROVED:
        status, _, err, notes = copy.run(words, FAILS="krb_base")
        assert (status == 1 and "krb_base isn't proved" in err and "there is no proved program" in err
                and not any("unproved" in it for it in notes)), f"{words} wants a proved program"
    for words in TAKE_A_NAME:
        status, _, err, notes = copy.run(f"{words} {kept}", FAILS="krb_base")
        assert status == 1 and "isn't the program" in err and not notes, f"{words} refuses one that is named"


def test_a_crate_that_is_not_proved(copy):
    status, out, err, notes = copy.run("krbrelay --prove", FAILS="krb_der")
    begun = {it.split()[1] for it in notes if it.startswith("begin ")}
    assert status == 1 and not out and "krb_der isn't proved" in err and "goal left" in err
    assert not begun & {"krb_seal", "krbrelay"}
    assert copy.run("relay")[1] == "unproved\n"


def test_the_program_is_proved(proved):
    status, out, err, notes = proved.said
    crates = building.in_order("krbrelay")
    deps = building.below()
    early = [dep for crate in crates for dep in deps[crate]
             if notes.index(f"begin {crate}") < notes.index(f"end {dep}")]
    lines = err.splitlines()[1:]
    assert status == 0 and not out and len(notes) == 2 * len(crates) and not early
    assert not [it for it in notes if it.startswith("waits")], "no proof waits for another"
    assert (len(lines) == len(crates)
            and all(f"proved ({place} of {len(crates)}): " in line for place, line in enumerate(lines, 1))
            and all("left" in line for line in lines[:-1]) and "left" not in lines[-1]), "a line a crate"


def test_the_proved_one_is_taken(proved):
    assert proved.run("relay") == (0, "proved\n", "", ["proved relay"])
    assert proved.run("krbrelay --prove") == (0, "", "", []), "--prove does nothing more"
    for words in ("krbrelay --prove vectors", "krbrelay vectors"):
        assert proved.run(words) == (3, "proved\n", "", ["proved vectors"]), words


def test_the_one_without_proofs_is_taken_by_its_word(proved):
    status, out, err, notes = proved.run("krbrelay --unproved vectors")
    assert status == 3 and out == "unproved\n" and notes == ["unproved vectors"] and err.endswith(f"{LAST_LINE}\n")
    status, out, err, notes = proved.run("krbrelay --unproved")
    assert status == 0 and "without its proofs" in out and not err and not notes, "alone it runs nothing"


def test_of_a_named_file_the_bytes_count(proved):
    kept, other = proved.path("out", "unproved", "krbrelay"), proved.path("other")
    ours = proved.path("crates", "krbrelay", "out", "krbrelay")
    assert proved.run(f"tests/freed_memory --program {kept}")[3] == [], "one that isn't proved is refused still"
    shutil.copy(ours, other)
    assert "proved seal" in proved.run(f"tests/freed_memory --program {other}")[3], "a copy of the proved one is taken"
    try:
        shutil.copy(kept, ours)
        assert proved.run("relay")[1] == "unproved\n", "nor is it taken in the place of the proved one"
    finally:
        shutil.copy(other, ours)


# ---- the program of this machine's level

WITH_LEVEL = {"GLIBC_TUNABLES": ""}
needs_level = pytest.mark.skipif(not levels.own(), reason="this machine has no x86-64-v3")


@needs_level
def test_the_program_of_the_level_is_built_beside_the_plain_one(proved):
    status, out, err, notes = proved.run("krbrelay --prove", **WITH_LEVEL)
    assert (status == 0 and not out and len(notes) == 1 and " --cpu x86-64-v3 " in f"{notes[0]} "
            and "krbrelay is being proved for x86-64-v3" in err)
    assert proved.run("krbrelay --prove", **WITH_LEVEL) == (0, "", "", []), "it is built once"
    assert proved.run("relay", **WITH_LEVEL) == (0, "levelled\n", "", ["levelled relay"])
    assert proved.run("relay")[1] == "proved\n", "a machine without the level runs the plain one"
    assert "proved seal" in proved.run("tests/freed_memory --program", **WITH_LEVEL)[3], "and so do tests"


@needs_level
@pytest.mark.parametrize("given", [{"SAYS_CPU": "x86-64-v2"}, {"FAILS": "krb_c"}])
def test_a_program_that_is_not_proved_for_the_level_is_not_taken(copy, given):
    copy.run("relay")
    status, out, err, _ = copy.run("krbrelay --prove", **WITH_LEVEL, **given)
    assert status == 1 and not out and "krbrelay-x86-64-v3 isn't proved" in err
    assert copy.run("relay", **WITH_LEVEL)[1] == "proved\n", "the plain one is proved, and is run"


# ---- the C library's crate

LIBRARIES = building.in_order("krb_c")[:-1]
# Notes the library of each crate that is named, as tools/test does after `rt ci`.
NOTE = """
import sys
from lib.build import building
for crate in sys.argv[1:]:
    building.note(building.library_of(crate), building.digest_of(crate))
"""


def note_libraries(copy):
    """What `rt ci` leaves and tools/test notes: the libraries below krb_c."""
    for crate in LIBRARIES:
        folder = copy.path("crates", crate, "out", "rlib", f"{crate}.rlib")
        os.makedirs(folder, exist_ok=True)
        copy.append("sums\n", folder, "format")
    subprocess.run([sys.executable, "-c", NOTE, *LIBRARIES], check=True, cwd=copy.path("tools"), env=copy.given)

IS_BUILT = """
import sys
from lib.build import building
sys.exit(not building.is_built("krb_c", building.top_of("krb_c")))
"""


def is_built(copy):
    """Whether krb_c is noted as built from the present sources."""
    return subprocess.run([sys.executable, "-c", IS_BUILT], check=False,
                          cwd=copy.path("tools"), env=copy.given).returncode == 0


def see_lines_of_crates(copy, run):
    """Of crates.txt the lines of the crates in question count, and nothing else."""
    path = copy.path("crates.txt")
    with open(path, encoding="utf-8") as file:
        before = file.read()
    copy.append("# a comment\nother: krb_base\n", "crates.txt")
    assert run()[2] == [], "a comment and a line of another crate in crates.txt change nothing"
    for what, old, new in (("an option", "krb_c staticlib:", "krb_c staticlib may_wait=1:"),
                           ("what it stands on", "\nkrb_aes: krb_base\n", "\nkrb_aes: krb_base sha1\n")):
        with open(path, "w", encoding="utf-8") as file:
            file.write(before.replace(old, new))
        assert before.count(old) == 1 and not is_built(copy), \
            f"{what} in the line of a crate in question: it is proved again"
    with open(path, "w", encoding="utf-8") as file:
        file.write(before)
    assert is_built(copy) and run()[2] == [], "the lines as they were"


def test_static_library(copy):
    """krb_c is proved over the libraries of `rt ci` if these are built from the present sources,
    else with all that it stands on."""
    def run(**given):
        status, _, err, notes = copy.run("proving.py krb_c", **given)
        return status, err, notes, [it.split()[1] for it in notes if it.startswith("begin ")]

    status, _, _, begun = run()
    assert status == 0 and sorted(begun) == sorted([*LIBRARIES, "krb_c"]), "krb_c is proved with all below"
    assert run()[2] == [], "it is proved once"
    copy.append("// new\n", "crates", "krb_c", "src", "lib.rt")
    note_libraries(copy)
    status, err, notes, _ = run(FAILS="krb_c")
    assert status == 1 and "krb_c isn't proved" in err and "goal left" in err, "one that isn't proved"
    status, err, notes, begun = run()
    assert (status == 0 and not begun and len(notes) == 1
            and notes[0].startswith("build build --crate-name krb_c src/lib.rt ")
            and all(f" --extern {it}={building.library_of(it)} ".replace(building.TOP, copy.top)
                in notes[0] for it in building.below()["krb_c"])), "krb_c is proved over the libraries of rt ci"
    with open(copy.path("out", "static", "libkrb_c.a"), encoding="utf-8") as file:
        assert file.read() == "of the prover\n", "its library is the prover's"
    with open(copy.path("out", "kept", "krb_c", "module"), encoding="utf-8") as file:
        assert file.read() == "a module\n", "what its compiler was given is kept"
    assert run()[2] == [], "it is proved once then"
    shutil.rmtree(copy.path("crates", "krb_c", "out"))
    assert run()[2] == [], "`rt ci` makes the crate's folder anew, and what was built stays"
    see_lines_of_crates(copy, run)
    copy.append("// new\n", "crates", "krb_base", "src", "lib.rt")
    assert sorted(run()[3]) == sorted([*LIBRARIES, "krb_c"]), "a changed source below"
    note_libraries(copy)
    copy.append("// newer\n", "crates", "krb_c", "src", "lib.rt")
    copy.append("other sums\n", "crates", "krb_base", "out", "rlib", "krb_base.rlib", "format")
    assert sorted(run()[3]) == sorted([*LIBRARIES, "krb_c"]), "a changed library below"


def test_what_another_kit_proved(copy):
    """It is proved again by the kit that is there now, and once."""
    note_libraries(copy)
    assert copy.run("proving.py krb_c")[0] == 0 and is_built(copy)
    with open(os.path.join(os.path.dirname(copy.top), "KIT-ID"), "w", encoding="utf-8") as file:
        file.write("another kit\n")
    assert not is_built(copy)
    note_libraries(copy)
    assert [len(copy.run("proving.py krb_c")[3]) for _ in range(2)] == [1, 0]


# In the place of what writes the assembly of krb_c, where it isn't there, and of what compiles that.
DIST = """#!/bin/sh
source=$(dirname "$0")/../crates/krb_c/src/lib.rt
shift
for it in "$@"; do cmp -s "$source" "$it" || cp "$source" "$it"; done
"""
MAKEFILE = """all: built
built: krbrelay.s krbrelay-v3.s
\techo compiles >> "$(NOTES)" && touch built
"""


def test_what_make_builds_in_c(copy):
    """It stays when `rt ci` makes the folder `out` of each crate anew, and is built again where a source changed."""
    for path, text in (("c/dist", DIST), ("c/Makefile", MAKEFILE)):
        with open(copy.path(path), "w", encoding="utf-8") as file:
            file.write(text)

    def build():
        with open(copy.notes, "w", encoding="utf-8"):
            made = subprocess.run(["make", "-s", "-C", copy.path("c")], check=False, env=copy.given, capture_output=True,
                                  text=True)
        assert (made.returncode, made.stdout) == (0, ""), made.stderr
        return any(it.startswith("build ") for it in copy.noted()), "compiles" in copy.noted()

    note_libraries(copy)
    assert build() == (True, True)
    shutil.rmtree(copy.path("crates", "krb_c", "out"), ignore_errors=True)
    assert build() == (False, False)
    copy.append("// new\n", "crates", "krb_c", "src", "lib.rt")
    assert build() == (True, True)


# ---- the table of tools

FILES = scripts.names()


def test_table(untouched):
    """`tools/test --list` has each script, by what it is for."""
    status, out, err, _ = untouched.run("test --list")
    headings = [line for line in out.splitlines() if line[0] == "#"]
    assert status == 0 and not err
    assert sorted(line.split()[0] for line in out.splitlines() if line[0] != "#") == FILES
    assert headings == [f"# {it}" for it in (*parts.VERBS, parts.OTHERS)]
    assert set(sum(parts.VERBS.values(), ())) <= set(FILES)


def test_each_part_is_a_script():
    every = [parts.FIRST, parts.BUILD, *parts.PARTS, *parts.MORE]
    assert {it.tool() for it in every} - {"make", "pytest"} <= set(FILES)


@pytest.mark.parametrize("name, _, purpose, needs", parts.table(), ids=FILES)
def test_a_script_says_what_it_does_and_what_it_needs(name, _, purpose, needs):
    assert purpose and needs and os.access(os.path.join(building.TOP, scripts.path_of(name)), os.X_OK)


# The words of tools/krbrelay are those of the program.
@pytest.mark.parametrize("name", [it for it in FILES if it != "krbrelay"])
def test_a_script_says_what_it_is_called_with(untouched, name):
    assert untouched.run(f"{name} --help") == (0, scripts.head_of(name).strip() + "\n", "", [])
    status, out, err, notes = untouched.run(f"{name} --planted")
    assert (status, out, err.count("\n"), notes) == (2, "", 1, [])


# ---- the goals of mutants

# What `rt` prints of three mutants: it cuts long lines, so the second goal has lost its end.
TRIED = """\
rt: must-fail krb_base/whole.edit: refused, as it must be: note: src/a.rt:1:1: (`returns-clause-a`)
rt: must-fail krb_base/cut.edit: refused, as it must be: ./proofs/a/Answers.antt:1:1: error: `retu
rt: must-fail krb_base/said.edit: refused, as it must be: note: src/a.rt:1:1: (`returns-clause-b`)
"""
EDIT = "file: src/lib.rt\nold: mod bytes;\nnew: mod lane;\n"
LISTED = '[said]\ngoal = "returns-clause-a"\n[gone]\ngoal = "returns"\n'


def test_goals_of_mutants(copy):
    """The goal that a table says is compared with the one at which the prover refuses the mutant."""
    folder = ("crates", "krb_base", "must-fail")
    os.mkdir(copy.path(*folder))
    for name in ("whole", "cut", "said"):
        copy.append(EDIT, *folder, f"{name}.edit")
    copy.append(LISTED, "crates", "krb_base", "mutants.toml")
    copy.append(TRIED, "tried")
    out = copy.run("mutants")[1].splitlines()
    assert ({"krb_base/cut: it has no goal", "krb_base/whole: it has no goal",
             "krb_base/gone: it changes no file"} <= set(out)), "each goal has a mutant, and each mutant a goal"
    status, out, _, _ = copy.run(f"mutants --tried {copy.path('tried')}")
    assert (status == 1 and "krb_base/said: refused at returns-clause-b, and not at returns-clause-a" in out
            and out.endswith("2 passed, 1 failed\n")), "another goal than the table's is a failure"


def test_reports():
    """What `rt ci` says of the mutants that it tries, and how one is given to it."""
    begin = "rt: must-fail krb_a/{}.edit: refused, as it must be: {}\n"
    said = "".join(begin.format(*it) for it in (
        ("one", "note: it is not proved (`returns-clause-a`)"), ("two", "error: `returns-cl"), ("three", "why")))
    assert (tables.refusals(said) == {
        ("krb_a", "one"): ("returns-clause-a", True), ("krb_a", "two"): ("returns-cl", False),
        ("krb_a", "three"): ("", False)} and not tables.refusals("krb_a proved\n")), \
        "the goal of each, whole or cut, or none"
    assert (tables.is_goal("returns-clause-a", "returns-cl", False)
            and not tables.is_goal("returns-clause-a", "returns-cl", True)
            and not tables.is_goal("returns-clause-a", "returns-clause-b", True)), \
        "a goal that is cut is its beginning"
    edits = (("src/lib.rt", "a", "b"), ("specs/A.antt", "c", ""))
    made = tables.edit_of(tables.Mutant("krb_a", "one", None, edits, False))
    assert made == "file: src/lib.rt\nold: a\nnew: b\nfile: specs/A.antt\nold: c\nnew: \n", "an edit for `rt`"
    tool = scripts.load("mutants")
    mutant = tables.Mutant("krb_a", "one", "returns-clause-a", edits, False)
    assert (tool.is_refused(mutant, ("returns-clause-a", True)) and not tool.is_refused(mutant, ("", False))
            and not tool.is_refused(mutant, None) and not tool.is_refused(mutant, ("returns-clause-b", True))
            and tool.told_of(mutant, None) == "it isn't refused"), "what counts as refused"


CYCLE_OF_TWO = """\
#[cycle(halves)]
fn a() { b() }

fn c() { }
"""


def test_functions():
    """Which path of the prover's is which function, and which mutants can't be tried together."""
    at = groups.Place
    assert (at("levels", "", "level").is_at("levels::+level")
            and not at("levels", "", "leave").is_at("levels::+level")), "the folder of a function that calls itself"
    halves = groups.place_at("src/opening.rt", CYCLE_OF_TWO, CYCLE_OF_TWO.index("{ b() }"))
    assert halves == at("opening", "", "a", "halves") and halves.is_at("opening::+halves") \
        and halves.is_like(at("opening", "", "b", "halves")) and not halves.is_at("opening::+thirds"), "the folder of a cycle"
    assert groups.place_at("src/opening.rt", CYCLE_OF_TWO, CYCLE_OF_TWO.index("{ }")) == at("opening", "", "c")
    assert (at("made", "Sealer", "end").is_at("kept::Sealer::end")
            and at("made", "Sealer", "end").is_at("kept::Sealer.Sealing::end")
            and not at("made", "Sealer", "end").is_at("kept::Opener::end")
            and not at("made", "Sealer", "end").is_at("made::end")), "a method is its type's"
    assert at("made", "", "end").is_at("made::end") and not at("made", "", "end").is_at("kept::end"), \
        "a function is its module's"
    assert (at("a", "Seal", "end").is_like(at("b", "Sealer", "end"))
            and at("a", "Sealer", "end").is_like(at("b", "Seal", "end"))
            and not at("a", "Sealer", "end").is_like(at("b", "Opener", "end"))
            and not at("a", "Sealer", "end").is_like(at("a", "Sealer", "wipe"))
            and not at("a", "", "end").is_like(at("b", "", "end")) and at("a", "", "end").is_like(at("a", "", "end"))), \
        "types of one beginning aren't told apart"


# Two mutants of each of two crates: a file, a text of one function of it, and that function.
FURTHER = {
    "krb_base": (("src/bytes.rt", "&self.vec[self.start.min(self.vec.len())..]",
                  "bytes::Bytes::as_slice"),
                 ("src/bytes.rt", "let mut bytes = VecDeque::from(vec);", "bytes::Bytes::into_vec")),
    "krb_record": (("src/record.rt", "Vec::from_slice(alloc, &[CLOSE_BYTE])",
                    "record::close_record"),
                   ("src/record.rt", "*first == TEXT_BYTE && rest.len() <= TEXT_LIMIT",
                    "record::is_text")),
}
ONE, TWO = "returns-clause-a", "returns-clause-b"


def is_open(crate, place, goal):
    """What the prover says of a function whose goal it can't prove."""
    function = f"{crate}::{FURTHER[crate][place][2]}"
    return f"fn {function}: no proof: expected answers in ./x; `search` did not prove `{goal}`\n"


def both(crate):
    """What it says where both mutants are refused."""
    return is_open(crate, 0, ONE) + is_open(crate, 1, TWO) + "logic=not-proved\n"


BOTH = both("krb_base")
NOT_ONE = is_open("krb_base", 1, TWO)
NOT_BOTH = {
    "one isn't refused": NOT_ONE,
    "one is refused by a name": NOT_ONE + "./proofs/bytes/Bytes/as_slice/Answers.antt:1:1: error: `returns-clause-a`: "
                                          "record `x` has no field `y`\n",
    "one is refused at another goal": BOTH.replace(ONE, "returns-clause-c"),
    "one is refused in another function": NOT_ONE + is_open("krb_base", 1, ONE),
}


def row(name, crate, path, text, goal):
    """A table of a mutant that changes white space."""
    return f"[{name}]\ngoal = '{goal}'\nedit = ['{path}', '{text}', ' {text}']\n"


def add_further(copy, crate):
    """Gives a crate two mutants that `rt ci` doesn't try."""
    for name, goal, (path, text, _) in zip(("one", "two"), (ONE, TWO), FURTHER[crate]):
        copy.append(row(name, crate, path, text, goal), "crates", crate, "mutants.toml")


def tried(copy, crate, says, changes=""):
    """Tries a crate's mutants, while a file changes if one is named. Returns whether all are told as
    refused, and how many checks there were."""
    copy.append(says, "says")
    status, _, _, notes = copy.run(f"mutants --try {crate}", SAYS=copy.path("says"),
                                   CHANGES=changes)
    os.remove(copy.path("says"))
    return status == 0, notes.count(f"check {crate}")


def are_refused(copy, crate, says, changes=""):
    return tried(copy, crate, says, changes)[0]


def untried(copy):
    """The crates whose mutants have to be tried."""
    return [line.split(":")[0] for line in copy.run("mutants")[1].splitlines()
            if ": not all tried" in line]


# Edits of a crate: a file, what is replaced, and by what. The first change no code, the others do.
SAME_CODE = {
    "a comment of the file": ("src/bytes.rt", "//! ", "//! Another sentence. "),
    "a comment of a function": ("src/limits.rt", "/// The most bytes of a text.\n", ""),
    "a comment after code": ("src/limits.rt", "= 1_000_000;", "= 1_000_000; // more"),
    "a blank line": ("src/limits.rt", "\n\n", "\n\n\n"),
    "a comment of definitions": ("specs/Limits.antt", "\ntext_limit = ", "\n-- more\ntext_limit = "),
    "a blank line of definitions": ("specs/Limits.antt", "\ntext_limit = ", "\n\ntext_limit = "),
}
OTHER_CODE = {
    "a line of code": ("src/limits.rt", "= 1_000_000;", "= 1_000_001;"),
    "a line of code that was a comment": ("src/lib.rt", "\nmod bytes;", "\n// mod bytes;"),
    "a clause": ("src/limits.rt", "ensures text { TEXT_LIMIT ≡ text_limit }", "ensures text { text_limit ≡ TEXT_LIMIT }"),
    "a definition": ("specs/Limits.antt", "\ntext_limit = ", "\ntext_limit = 1 + "),
    "a table": ("mutants.toml", "\n[", "\n\n["),
}


def after_edit(copy, file, old, new):
    """The crates whose mutants have to be tried after one place of krb_base is edited, which is then undone."""
    path = copy.path("crates", "krb_base", file)
    with open(path, encoding="utf-8") as opened:
        before = opened.read()
    assert old in before, "the text stands there"
    with open(path, "w", encoding="utf-8") as opened:
        opened.write(before.replace(old, new, 1))
    found = untried(copy)
    with open(path, "w", encoding="utf-8") as opened:
        opened.write(before)
    return found


@pytest.fixture(scope="module")
def with_note():
    """A copy in which the mutants of krb_base were tried."""
    with tempfile.TemporaryDirectory() as folder:
        made = Copy(folder)
        add_further(made, "krb_base")
        assert are_refused(made, "krb_base", BOTH) and not untried(made)
        yield made


@pytest.mark.parametrize("what", SAME_CODE)
def test_a_changed_comment_keeps_the_note(with_note, what):
    assert not after_edit(with_note, *SAME_CODE[what])


@pytest.mark.parametrize("what", OTHER_CODE)
def test_changed_code_asks_for_a_new_try(with_note, what):
    assert after_edit(with_note, *OTHER_CODE[what]) == ["krb_base"]


@pytest.mark.parametrize("code", ['"// {}"', r'"\" // {}"', """['"', '/'] "// {}" """, r"""'\'' "// {}" """])
def test_what_begins_like_a_comment_in_a_string_is_code(code):
    assert tables.without_comments(code.format("one")) != tables.without_comments(code.format("two"))


def test_comments_are_left_out():
    assert tables.without_comments("//! one\n\na // two\n    /// three\n\n  b  c\n") == "a\nb c"


@pytest.fixture(scope="module")
def with_mutants():
    with tempfile.TemporaryDirectory() as folder:
        made = Copy(folder)
        add_further(made, "krb_base")
        yield made


@pytest.mark.parametrize("what", NOT_BOTH)
def test_not_both_mutants(with_mutants, what):
    assert not are_refused(with_mutants, "krb_base", NOT_BOTH[what]) and untried(with_mutants) == ["krb_base"]


def test_notes_of_mutants(copy):
    """The mutants of a table have to be refused since something changed."""
    add_further(copy, "krb_base")
    assert (are_refused(copy, "krb_base", BOTH) and not untried(copy) and not are_refused(copy, "krb_base", NOT_ONE)
            and untried(copy) == ["krb_base"]), "a note goes if one isn't refused any more"
    add_further(copy, "krb_record")
    assert (are_refused(copy, "krb_base", BOTH) and untried(copy) == ["krb_record"]
            and are_refused(copy, "krb_record", both("krb_record")) and not untried(copy)), "both are refused"
    assert tried(copy, "krb_base", BOTH) == (True, 2), \
        "one check of the crate as it is, and one for mutants of two functions"
    table = ("crates", "krb_base", "mutants.toml")
    with open(copy.path(*table), encoding="utf-8") as file:
        before = file.read()
    copy.append(row("three", "krb_base", "src/limits.rt", "LANE_LIMIT: usize = ", ONE), *table)
    assert tried(copy, "krb_base", BOTH) == (True, 3), "one more for a constant"
    with open(copy.path(*table), "w", encoding="utf-8") as file:
        file.write(before)
    assert are_refused(copy, "krb_base", BOTH) and not untried(copy), "and none of it stays"
    copy.append("\n", *table)
    assert untried(copy) == ["krb_base"] and are_refused(copy, "krb_base", BOTH) and not untried(copy), \
        "another table asks for a new try"
    assert (are_refused(copy, "krb_base", BOTH, copy.path("crates", "krb_base", "src", "lib.rt"))
            and untried(copy) == ["krb_base"] and are_refused(copy, "krb_base", BOTH) and not untried(copy)), \
        "a source that changes meanwhile asks for a new try"
    below = "crates", "krb_base", "specs"
    copy.append("\n-- more\n", *below, "Limits.antt")
    copy.append("\nabbrev pub more : ℕ\nmore = 1\n", *below, "Lane.antt")
    assert untried(copy) == ["krb_base"] and are_refused(copy, "krb_base", BOTH) and not untried(copy), \
        "no comment of a definition below does, and no definition that isn't reached"
    copy.append("\nabbrev pub more : ℕ\nmore = 1\n", *below, "Limits.antt")
    assert untried(copy) == ["krb_base"] and are_refused(copy, "krb_base", BOTH) and not untried(copy), \
        "nor does one more in a file of which others are reached"
    with open(copy.path(*below, "Limits.antt"), encoding="utf-8") as file:
        limits = file.read()
    assert limits.count("\ntext_limit = ") == 1, "a text has a limit"
    with open(copy.path(*below, "Limits.antt"), "w", encoding="utf-8") as file:
        file.write(limits.replace("\ntext_limit = ", "\ntext_limit = 1 + "))
    assert untried(copy) == ["krb_base", "krb_record"], "a definition that is reached does"
