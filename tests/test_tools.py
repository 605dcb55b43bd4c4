"""Each tool of the gate reports a fault that is planted for it: what a tool never reports, it doesn't test.

Those that have a control of their own in each run are named in OWN_CONTROLS. The tools of tools/ have
theirs in test_building, test_parts, test_picture and test_reference.
"""
import contextlib
import dataclasses
import os
import re
import subprocess
import sys
import tomllib
import types

import pytest

import test_fuzz
from lib import parts, report, scripts, typed
from lib.build import assembly, building, c_tools, without_proofs
from lib.faults import checks, planted, wrapped
from signatures import plants as signature_plants
from signatures.given import Given
from vectors import held, judging, model, readers
from vectors.judging import Class

# What each of these plants in each run, and has to report.
OWN_CONTROLS = {
    "c/costs": "costs that are higher, lower or of no case (tools/lib/cost_table.py)",
    "tests/freed_memory": "strings and a key in freed blocks and in what realloc leaves (tests/preloaded/left.c)",
    "tests/secret_places": "an address and a branch by a secret (tests/secrets/src/control.rattle)",
}
LINES = ["lane 0 text 61", "lane 1 text 62", "lane 0 closed", "lane 1 closed"]


def compiled(folder, name, text, *words):
    source, made = folder / f"{name}.c", folder / name
    source.write_text(text, encoding="ascii")
    subprocess.run([*c_tools.c_compiler(), *words, str(source), "-o", str(made)], check=True)
    return str(made)


def status(*words, **how):
    return subprocess.run(words, check=False, stdout=subprocess.DEVNULL, stderr=subprocess.DEVNULL,
                          **how).returncode


# ---- proofs for a level of the processor

@pytest.mark.parametrize("said, is_proved", [
    ("logic=proved functions=77 target=x86_64-unknown-linux-gnu cpu=x86-64-v3 sum=1", True),
    ("logic=proved functions=77 target=x86_64-unknown-linux-gnu cpu=x86-64-v2 sum=1", False),
    ("logic=proved functions=77 target=x86_64-unknown-linux-gnu sum=1", False),
    ("logic=rejected functions=77 cpu=x86-64-v3 sum=1", False),
    ("logic=proved functions=77 cpu=x86-64-v2 sum=1\ncpu=x86-64-v3", False)])
def test_a_verdict_of_another_level_is_none(said, is_proved):
    assert assembly.is_proved_for("x86-64-v3", f"axioms none\n{said}\n") == is_proved


# ---- counts and statuses

@pytest.mark.parametrize("passed, failed, needs_one, ended", [
    (1, 0, False, 0), (0, 0, False, 0), (0, 0, True, 1), (1, 0, True, 0), (0, 1, False, 1),
    (5, 1, False, 1), (5, 1, True, 1), (5, 2000, False, 1)])
def test_a_count_with_a_failure_ends_with_1(passed, failed, needs_one, ended, capsys):
    count = report.Count()
    for good in (True,) * passed + (False,) * failed:
        count.right(good, "planted")
    assert count.end(needs_one=needs_one) == ended
    assert capsys.readouterr().out.splitlines()[-1] == f"{passed} passed, {failed} failed"


@pytest.mark.parametrize("how", ["right", "told", "check"])
def test_each_way_of_counting_counts_a_failure(how, capsys):
    count = report.Count()
    {"right": lambda: count.right(False, "planted"), "told": lambda: count.told(False, "planted"),
     "check": lambda: count.check("planted", True, False)}[how]()
    assert count.failed == 1 and count.passed == 0 and "planted" in capsys.readouterr().out


@pytest.mark.parametrize("checks, fails", [("CHECK(1);", False), ("CHECK(0);", True),
                                           ("CHECK(1); CHECK(0); CHECK(1);", True)])
def test_a_c_test_with_a_failed_check_ends_with_1(tmp_path, checks, fails):
    program = compiled(tmp_path, "planted", f"""#include "check.h"
int main(void) {{ {checks} return check_status("planted"); }}
""", f"-I{building.TOP}/c/tests")
    assert status(program) == (1 if fails else 0)


@pytest.mark.parametrize("fact, fails", [("1", False), ("0", True)])
def test_a_check_that_has_to_hold_ends_with_1(tmp_path, fact, fails):
    program = compiled(tmp_path, "planted", f"""#include "check.h"
int main(void) {{ check({fact}, "planted"); return 0; }}
""", f"-I{building.TOP}/c/tests")
    assert status(program) == (1 if fails else 0)


@pytest.mark.parametrize("words, ended, last", [
    ([], 1, "planted: 2 checks held, 1 failed"), (["one"], 0, "planted: 1 checks held, 0 failed"),
    (["two"], 1, "planted: 0 checks held, 1 failed"), (["one", "three"], 0, "planted: 2 checks held, 0 failed"),
    (["on"], 2, "planted: there is no such test"), (["ones"], 2, "planted: there is no such test")])
def test_a_c_test_runs_by_its_name(tmp_path, words, ended, last):
    program = compiled(tmp_path, "planted", """#include "check.h"
static void one(int fact) { CHECK(fact); }
static void two(int fact) { CHECK(fact); }
static void three(int fact) { CHECK(fact); }
int main(int count, char **words)
{
    check_only(1, count, words);
    RUN(one(1)); RUN(two(0)); RUN(three(2));
    return check_status("planted");
}
""", f"-I{building.TOP}/c/tests")
    done = subprocess.run([program, *words], check=False, stdout=subprocess.PIPE, text=True)
    assert (done.returncode, done.stdout.splitlines()[-1]) == (ended, last)


# ---- the object that is compared with the kit's

# Both functions are declared, so that a call of the other one has the same instructions.
CODE = ("extern int other(int), another(int); int shown = {data};"
        " int planted(int a) {{ return {call}(a) + {more}; }}\n")


def compared(folder, **changed):
    """Compares an object with one in which this is another."""
    plain = {"data": 7, "call": "other", "more": 300}
    objects = [compiled(folder, f"object{at}.o", CODE.format(**it), "-c", "-O2")
               for at, it in enumerate((plain, plain | changed))]
    return status(sys.executable, f"{building.TOP}/c/tests/same_code.py", *objects)


def test_the_same_object_is_taken(tmp_path):
    assert compared(tmp_path) == 0


@pytest.mark.parametrize("changed", [{"more": 301}, {"more": 300_000}, {"data": 8}, {"call": "another"},
                                     {"call": "other(1) + other"}])
def test_another_object_is_refused(tmp_path, changed):
    assert compared(tmp_path, **changed) == 1


# ---- what is searched in freed blocks

LEFT = {**scripts.load("tests/freed_memory").LEFT, "what is in no block": b"left in no block at all"}


@pytest.mark.parametrize("what", LEFT)
def test_freed_memory_ends_with_1_where_a_string_is_left(tmp_path, what):
    left = c_tools.program(str(tmp_path), "tests", "preloaded", "left.c")
    found = status(f"{building.TOP}/tests/freed_memory", f"planted={LEFT[what].hex()}", left)
    assert found == (0 if what == "what is in no block" else 1)


# ---- failing calls

@pytest.fixture(scope="module")
def sweep():
    return scripts.load("tests/failing_calls")


def text_of(lines):
    return "".join(f"{line}\n" for line in lines)


@pytest.mark.parametrize("command, lines", [
    ("show", []), ("show", LINES[:2]), ("relay", []), ("relay", LINES[:1]), ("relay", [LINES[1]]),
    ("relay", [LINES[1], LINES[0], LINES[3]])])
def test_failing_calls_takes_a_prefix_before_a_fault(sweep, command, lines):
    assert sweep.is_right(command, 4, text_of(lines), sweep.NO_MEMORY, LINES)


@pytest.mark.parametrize("command, ended, output, fault", [
    ("show", 4, text_of(["planted"]), "krbrelay: out of memory\n"),
    ("show", 4, text_of([LINES[1]]), "krbrelay: out of memory\n"),
    ("show", 4, text_of([*LINES, LINES[0]]), "krbrelay: out of memory\n"),
    ("relay", 4, text_of([LINES[2]]), "krbrelay: out of memory\n"),
    ("relay", 4, text_of([LINES[0], LINES[0]]), "krbrelay: out of memory\n"),
    ("show", 4, LINES[0], "krbrelay: out of memory\n"),
    ("show", 4, "", "krbrelay: thread fault\n"), ("show", 4, "", ""), ("show", 3, "", "krbrelay: out of memory\n"),
    ("show", 0, text_of(LINES[:3]), ""), ("show", 0, text_of(LINES), "krbrelay: out of memory\n"),
    ("show", None, "", "it hung")])
def test_failing_calls_reports_what_may_not_come(sweep, command, ended, output, fault):
    assert not sweep.is_right(command, ended, output, fault, LINES)


# ---- the fuzzer

@pytest.fixture
def fuzz(monkeypatch):
    monkeypatch.setattr(test_fuzz, "agrees", lambda *_: True)
    return test_fuzz


@pytest.mark.parametrize("got, ended, right", [
    (LINES, 0, True), (LINES, 3, False), (LINES[:3], 0, False), ([*LINES, "planted"], 0, False),
    ([*LINES[:3], "lane 1 planted"], 0, False), ([LINES[1], LINES[0], *LINES[2:]], 0, False), ([], None, False)])
def test_fuzz_compares_each_line_of_a_job(fuzz, monkeypatch, got, ended, right):
    monkeypatch.setattr(fuzz, "run", lambda *_: (got, ended))
    assert fuzz.is_right("relay", 0, "a job", LINES) == right


@pytest.mark.parametrize("got, ended, wrong", [
    (["a", "refused b"], 2, 0), (["a", "planted"], 2, 1), (["a"], 2, 2), (["a", "refused b"], 0, 2)])
def test_fuzz_compares_each_line_of_a_batch(fuzz, monkeypatch, got, ended, wrong):
    monkeypatch.setattr(fuzz, "run", lambda *_: (got, ended))
    assert fuzz.compare_batch([b"1", b"2"], 0, ["a", "refused b"]) == wrong


# ---- the judgements of the conformance suite

OPENER = readers.implementations()["oracle"]
TAKEN, OTHER = f"ok:{model.TEXT.hex()}", "ok:00"
JUDGED = [
    (model.valid(), TAKEN, Class.PASS), (model.valid(), OTHER, Class.OTHER_DATA), (model.valid(), "no:31", Class.REFUSED),
    (model.valid(), "crash: 11", Class.CRASH), (model.invalid("integrity"), "no:31", Class.PASS),
    (model.invalid("integrity"), "no:42", Class.OTHER_NAME), (model.invalid("integrity"), TAKEN, Class.ACCEPTED),
    (model.invalid("integrity"), "crash: 11", Class.CRASH), (model.acceptable(), TAKEN, Class.TAKES),
    (model.acceptable(), OTHER, Class.OTHER_DATA), (model.acceptable(), "no:31", Class.REFUSES)]


def suite_of(*verdicts):
    """A suite of one case, a message of each verdict."""
    now = model.Moment(1_700_000_000, 0)
    group = model.Group("planted", "priv", bytes(16), model.Demand(None, None, now))
    steps = tuple(model.Step(b"", verdict) for verdict in verdicts)
    group.cases.append(model.Case(1, "planted", "3.5.2", ("Normal",), steps, group.demand, len(steps) > 1))
    return group, group.cases[0]


@pytest.mark.parametrize("wanted, verdict, class_", JUDGED)
def test_a_verdict_is_judged_by_the_suite(wanted, verdict, class_):
    assert judging.class_of(OPENER, *suite_of(wanted), [verdict]) is class_


@pytest.mark.parametrize("verdicts", [[TAKEN], [TAKEN] * 3, [TAKEN, "crash: 11"]])
def test_a_stream_without_a_verdict_each_is_a_crash(verdicts):
    assert judging.class_of(OPENER, *suite_of(model.valid(), model.valid()), verdicts) is Class.CRASH


@pytest.mark.parametrize("wanted, verdict, class_", JUDGED)
def test_what_a_reader_does_otherwise_is_a_fault(wanted, verdict, class_):
    group, case = suite_of(wanted)
    of = dataclasses.replace(OPENER, can=frozenset(judging.needs_of(group, case)))
    passed, faults = held.faults(of, [group], {case.number: [verdict]})
    right = class_ in (Class.PASS, Class.REFUSES)
    assert (passed, len(faults)) == ((1, 0) if right else (0, 1))


# ---- what stands in several places

TABLES = scripts.load("tables")
PARTS = [(of, *part) for of, found in TABLES.TABLES.items() for part in found]


@pytest.mark.parametrize("of, path, lines, name", PARTS, ids=[f"{it[1]} {it[3]}" for it in PARTS])
def test_a_written_part_that_differs_is_told(of, path, lines, name, monkeypatch, capsys):
    text_of, changed = building.text_of, TABLES.with_part(building.text_of(path), of, name, [*lines(), "planted"])
    monkeypatch.setattr(TABLES.building, "text_of", lambda it: changed if it == path else text_of(it))
    assert TABLES.main(["--check"]) == 1
    assert f"{path}: its {name or 'lines'} aren't those of {of}.toml\n" in capsys.readouterr().out


def test_a_new_key_of_a_job_is_written(monkeypatch):
    flag = {"kind": "flag", "default": "false", "example": "false", "says": "planted; by default false"}
    monkeypatch.setitem(TABLES.KEYS["sender"], "scratch", flag)
    for path, lines, name in TABLES.TABLES["job_keys"]:
        assert "scratch" in TABLES.with_part(building.text_of(path), "job_keys", name, lines()).lower(), path


QUOTES = scripts.load("check_documents")
QUOTED = "c/examples/two_ends.c"


@pytest.mark.parametrize("change, fault", [
    (lambda lines: lines, None), (lambda lines: [f"  {it}" for it in lines], f"{QUOTED} has no such lines"),
    (lambda lines: [*lines[:-1], "planted();"], f"{QUOTED} has no such lines"),
    (lambda lines: [lines[1], lines[0], *lines[2:]], f"{QUOTED} has no such lines"),
    (lambda lines: [""] * 3, "it is empty")])
def test_a_block_that_is_quoted_wrong_is_told(change, fault):
    lines = building.text_of(QUOTED).splitlines()[:5]
    assert len(set(lines[:2])) == 2 and QUOTES.fault_of("c", QUOTED, change(lines)) == fault


def test_a_block_of_no_file_is_told():
    assert QUOTES.fault_of("c", "c/examples/none.c", ["int a;"]) == "no file of c/examples/: 'c/examples/none.c'"


@pytest.mark.parametrize("line, faults", [
    ("`tools/check_documents --typed`", 0), ("`tools/check_documents --planted`", 1), ("`tools/planted`", 1),
    ("`c/costs --write` and `c/costs --planted --planned`", 2)])
def test_a_command_that_is_not_there_is_told(line, faults, monkeypatch):
    monkeypatch.setattr(QUOTES, "lines_of", lambda _: [line])
    assert len(list(QUOTES.faults_of_commands("README.md"))) == faults


@pytest.mark.parametrize("lines, faults", [
    (["    krbrelay_sealer_free(&sealer);"], 1), (["```c x", "    krbrelay_sealer_free(&sealer);", "```"], 0)])
def test_code_that_is_quoted_from_no_file_is_told(lines, faults, monkeypatch):
    monkeypatch.setattr(QUOTES, "lines_of", lambda _: lines)
    assert len(list(QUOTES.faults_of_code("docs/C.md"))) == faults


@pytest.mark.parametrize("command, printed", [
    ("echo one; echo two", "one\ntwo\n"), ("echo one && sleep 50 &", ""), ("sleep 50 &", "")])
def test_a_typed_command_that_goes_on_is_not_waited_for(command, printed):
    done = subprocess.run(typed.words(command), check=True, stdin=subprocess.DEVNULL, stdout=subprocess.PIPE, text=True,
                          timeout=20)
    assert done.stdout == printed


def test_a_page_of_the_reference_that_differs_is_told():
    tool, page = scripts.load("reference"), "docs/reference/headline.md"
    files = {name: building.text_of(f"docs/reference/{name}")
             for name in os.listdir(f"{building.TOP}/docs/reference")}
    assert list(tool.stale(files)) == []
    planted_page = {**files, "headline.md": files["headline.md"] + "planted"}
    assert list(tool.stale(planted_page)) == [f"{page} isn't what tools/reference writes"]
    without = {name: text for name, text in files.items() if name != "headline.md"}
    assert list(tool.stale(without)) == [f"{page} isn't a page: tools/reference removes it"]


# ---- costs

@pytest.fixture
def job_costs(monkeypatch):
    """The tool over one small family of jobs."""
    loaded = scripts.load("tests/job_costs")
    for family in ("repeated", "of_many_senders", "with_room", "made_up", "small", "batches"):
        monkeypatch.setattr(loaded, family, lambda *_: ())
    many = loaded.many
    monkeypatch.setattr(loaded, "many", lambda *_: many(3, 10))
    return loaded


@pytest.mark.parametrize("peak, ended, right", [
    (lambda most: most, 0, True), (lambda most: most + 1, 0, False), (lambda most: most, 4, False),
    (lambda most: 0, 0, False)])
def test_a_job_over_its_bound_is_told(job_costs, monkeypatch, peak, ended, right):
    base = 1_000_000

    def seen(_program, it, least):
        return job_costs.Run(ended, peak(base + it.bound()) if least else base, 0.0)
    monkeypatch.setattr(job_costs, "seen", seen)
    assert job_costs.check("planted") == (0 if right else 1)


# ---- the control of the signatures

FOUND = ["FAILED krbrelay_planted, in the module: i64, and in the header i32"]


@pytest.mark.parametrize("found, before, expected, is_seen", [
    (FOUND, [], "krbrelay_planted, in the module: ", True), (FOUND, FOUND, "krbrelay_planted, in the module: ", False),
    (FOUND, [], "krbrelay_other, in the module: ", False), ([], [], "krbrelay_planted, in the module: ", False)])
def test_a_plant_of_signatures_has_to_be_named(monkeypatch, found, before, expected, is_seen):
    monkeypatch.setattr(signature_plants, "planted", lambda *_: None)
    monkeypatch.setattr(signature_plants, "faults_of", lambda _: found)
    plant = signature_plants.Plant("planted", "", "", "", "", expected)
    assert (signature_plants.missing(None, plant, before) == "") == is_seen


def test_a_comparison_of_signatures_that_breaks_off_has_seen_nothing(monkeypatch):
    plant = signature_plants.Plant("planted", "no such file", "", "a", "b", "FAILED")
    assert signature_plants.missing(Given({}, ""), plant, []).startswith("FileNotFoundError")


# ---- the shares of a run

def collected(command):
    """The tests that a command of pytest would run."""
    done = subprocess.run([*command.split(), "--collect-only", "-q"], cwd=building.TOP, check=True,
                          stdin=subprocess.DEVNULL, stdout=subprocess.PIPE, text=True)
    return sorted(line for line in done.stdout.splitlines() if "::" in line)


def test_the_shares_of_quick_are_all_that_is_there():
    share = re.compile(r"--share \S+ ")
    commands = [part.command for part in parts.QUICK if share.search(part.command)]
    [whole] = {share.sub("", it) for it in commands}
    all_tests = collected(whole)
    assert len(all_tests) > len(commands) > 1 and sorted(sum(map(collected, commands), [])) == all_tests


@pytest.mark.parametrize("words", ["0/2", "3/2", "1", "1/0", "a/b", "1/2/3"])
def test_what_is_no_share_is_refused(words):
    assert status("pytest", "--share", words, "--collect-only", f"{building.TOP}/tests/test_tables.py") == 4


# ---- the tools with a control of their own

@pytest.mark.parametrize("name", OWN_CONTROLS)
def test_a_tool_with_a_control_of_its_own_is_a_part(name):
    assert any(part.command.split()[0] == name for part in parts.PARTS)
    assert os.path.exists(os.path.join(building.TOP, scripts.path_of(name)))


# ---- the faults that tools/faults plants

PLANTS = planted.all_plants()


@pytest.mark.parametrize("name", PLANTS)
def test_a_plant_applies_and_names_checks(name):
    plant = PLANTS[name]
    assert all(text != building.text_of(path) for path, text in planted.applied(plant, building.text_of).items())
    assert {it.split()[0] for it in plant.checks} <= set(checks.CHECKS)


FAULTS = tomllib.loads(building.text_of("conformance/faults.toml"))


@pytest.mark.parametrize("fault", FAULTS.values(), ids=FAULTS)
def test_a_fault_of_the_conformance_suite_has_one_place(fault):
    """conformance/run --plant plants all of them at once."""
    assert building.text_of(f"crates/{fault['file']}").count(fault["old"]) == 1


@pytest.mark.parametrize("name", [it for it in PLANTS if PLANTS[it].wraps])
def test_a_plant_around_a_call_is_c(name):
    text = wrapped.source(building.text_of("c/krbrelay.h"), *PLANTS[name].wraps)
    subprocess.run([*c_tools.c_compiler(), "-std=gnu11", "-fsyntax-only", f"-I{building.TOP}/c", "-x", "c", "-"],
                   input=text, text=True, check=True)


@pytest.mark.parametrize("said, goals", [
    ("fn krb_carry::progress::Progress::take: no proof: expected answers in A; `search` did not prove `returns-clause-moved`",
     "`returns-clause-moved`"),
    ("fn krb_carry::progress::Progress::take_all: no proof: A; `search` did not prove `returns`", ""),
    ("./proofs/progress/Progress/take/Answers.antt:9:5: error: `returns-clause-moved`: the two types differ\n"
     "fn krb_carry::progress::Progress::take: not proved", "`returns-clause-moved`"),
    ("./proofs/progress/Progress/gone/Answers.antt:9:5: error: `returns-clause-moved`: the two types differ\n"
     "fn krb_carry::progress::Progress::take: not proved", ""),
    ("note: src/progress.rt:9:1: it is not proved that what the function ensures holds (`returns-clause-none`); more\n"
     "fn krb_carry::progress::Progress::take: not proved", "`returns-clause-none`"),
    ("note: src/progress.rt:9:1: it is not proved that what the function ensures holds (`returns-clause-none`); more\n"
     "fn krb_carry::progress::Progress::gone: not proved\nfn krb_carry::progress::Progress::take: not proved", ""),
    ("fn krb_carry::progress::Progress::take: proved", ""),
    ("src/progress.rt is not in the layout\nrt: krb_carry NOT PROVED", ""),
    ("fn krb_carry::progress::follow: no proof: it calls `krb_carry::progress::Progress::take`, which is not proved", "")])
def test_a_refusal_names_a_goal_of_the_function(said, goals):
    assert checks.goals_of(f"== krb_carry\n{said}\n1 passed", "krb_carry", "Progress::take") == goals


@pytest.mark.parametrize("passed, said", [(True, "3 passed, 0 failed"), (False, "FAILED a: 9\n2 passed, 1 failed")])
def test_a_tool_that_counted_is_believed(passed, said):
    assert checks.counted((passed, said)) == (passed, said)


@pytest.mark.parametrize("said, is_counted", [
    ("1 failed in 9.10s", True), ("1 failed, 2 warnings in 75.00s (0:01:15)", True), ("1 passed, 1 error in 9.10s", True),
    ("1 error in 9.10s", False), ("no tests ran in 0.10s", False)])
def test_a_case_that_has_no_programs_saw_nothing(said, is_counted):
    of = types.SimpleNamespace(installed="", top="", run=lambda *_, **__: (False, f"FAILED a\n{said}\n"))
    with contextlib.nullcontext() if is_counted else pytest.raises(without_proofs.NotCompiled):
        assert not checks.carrier_case(of, "repro", "secured")[0]


@pytest.mark.parametrize("said", [
    "", "FAILED a: 9", "Traceback (most recent call last):\nsubprocess.TimeoutExpired: it timed out after 300 seconds",
    "not at its end after 900 seconds"])
def test_a_tool_that_ended_before_its_count_saw_nothing(said):
    with pytest.raises(without_proofs.NotCompiled):
        checks.counted((False, said))


@pytest.mark.parametrize("passed, said, is_seen", [
    (False, "not so: this fault", True), (False, "not so: another one", False), (True, "this fault", False)])
def test_a_plant_is_seen_by_what_tells_it(monkeypatch, passed, said, is_seen):
    tool = scripts.load("faults")
    monkeypatch.setattr(tool, "Copy", lambda *_: None)
    monkeypatch.setattr(tool.checks, "run", lambda *_: (passed, said))
    plant = planted.Plant("planted", "none", ("c matrix",), (), says="this fault")
    assert tool.tried(plant).is_right == is_seen


def test_a_plant_around_no_call_is_told():
    with pytest.raises(wrapped.NoCall):
        wrapped.source(building.text_of("c/krbrelay.h"), "no_such_call", "", "")


@pytest.mark.parametrize("edit", [("tests/README.md", "no such text", "x"), ("tests/README.md", "e", "x")])
def test_a_plant_that_does_not_apply_is_told(edit):
    with pytest.raises(planted.NoPlant):
        planted.applied(planted.Plant("planted", "none", ("c matrix",), (edit,)), building.text_of)
