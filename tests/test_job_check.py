"""Tests tools/check_job and the reader of TOML that it has: the rows of tests/jobs/keys.toml, where faults are told
to be, and the sizes of frames. No program runs: what the rows expect is what tests/test_program.py expects of the
program, and test_fuzz.py compares both. The sizes are those of the independent sealer."""
import glob
import os
import random
import subprocess
import sys
import tomllib

import job_lines
import pytest

from lib import job_check, jobs, toml_reader
from lib.build import building
from oracle import fuzz_jobs

EXAMPLE = building.text_of(os.path.join("examples", "relay.toml"))
# A change of the example, and the answer: the words, the place, and what stands there.
CHANGES = [
    ("capacity = 2", "capacity = 65", "capacity", (2, 12), "65"),
    ("etype = 18", "etype = 19", "sender 1: etype", (20, 9), "19"),
    ("etype = 18", "", "sender 1: etype", (19, 3), "a sender without etype"),
    ("0e0f\"", "0e0g\"", "sender 0: key", (6, 39), "'g'"),
    ("0e0f\"", "0e0\"", "sender 0: key", (6, 7), "31 digits"),
    ("ffeeddccbbaa99887766554433221100", "000102030405060708090A0B0C0D0E0F", "sender 2: key",
     (34, 7), "the key of sender 0"),
    ('mode = "safe"', 'mode = "Safe"', "sender 0: mode", (7, 8), "'Safe'"),
    ("first = 7", "first = 4294967296", "sender 0: first", (8, 9), "4294967296"),
    ("2:0a000001", "02:0a000001", "sender 0: from", (9, 8), "'02:0a000001'"),
    ("2:0a000001", "2:0a0000x1", "sender 0: from", (9, 17), "'x'"),
    ("2:0a000001", "2:0a0000\\x41", "sender 0: from", (9, 8), "7 digits"),
    ("skew = 300", "skew = 300.0", "sender 0: skew", (11, 8), "300.0"),
    ("at = [1700000000000005]", "at = [1, -1]", "sender 0: at", (13, 10), "-1"),
    ("now = [1700000000000005]", "now = []", "sender 0: now", (14, 7), "a list of 0 items"),
    ('"616761696e"', '"61 "', "sender 0: texts", (15, 21), "' '"),
    ('"616761696e"', "\n61", "sender 0: texts", (16, 1), "61"),
    ('"flip 1 98 01"', '"flip 1 99 01"', "sender 0: plan", (17, 19), "byte 99 of frame 1"),
    ('"flip 1 98 01"', '"flip 3 98 01"', "sender 0: plan", (17, 19), "frame 3"),
    ('"flip 1 98 01"', '"flip 1 98 00"', "sender 0: plan", (17, 19), "the mask 00"),
    ("write_to = true", "writeto = true", "sender 2: unknown key", (39, 1), "the key 'writeto'"),
    ("capacity = 2", "Capacity = 2", "unknown key", (2, 1), "the key 'Capacity'"),
    ('plan = ["0"]', 'frames = ["00"]', "sender 2: frames", (46, 1), "the key frames"),
    ('mode = "priv"\n', 'mode = "priv\n', "toml", (22, 13), "the line ends"),
    ("skew = 300\n", "skew = 300 s\n", "toml", (11, 12), "'s'"),
    ("first = 7", "first = 7\nfirst = 8", "toml", (9, 1), "the key 'first' once more"),
    ("at = [1700000000000005]", "at = [1 2]", "toml", (13, 7), "'1 2]'"),
    ("first = 7", "first = 07", "toml", (8, 9), "'07'"),
    ("first = 7", "first 7", "toml", (8, 7), "'7'"),
    ("# frame 0", "é = [\n# frame 0", "toml", (16, 1), "'é = ['"),
]
NO_TOML = [
    "a", "a =", "= 1", "a = 1 b = 2", "[a", "[a]]", "[[a]", "[]", "a = [1", "a = [1,,2]", "a = [,]",
    "a = {b = 1", "a = {b = 1 c = 2}", "a = {b\n= 1}", "a = 'b\n'", 'a = "\\q"', 'a = "\\ud800"',
    'a = "\\u12"', "a = +", "a = 1_", "a = 0b2", "a = +0x1", "a = .5", "a = 5.", "a = 1979-02-29",
    "a = 24:00", "a = 0000-00-00", "a = 1979-05-27T07:32+24:00",
    "a = 07:32Z", "a = 1979-05-27T07:60", "a = 9223372036854775808", "a = 1e400",
    "\x00",
    "a = 'b\x7f'", "# \x01", "a = 1\rb = 2", "a = 1\na = 2", "[a]\n[a]", "a = 1\n[a]", "[a]\n[[a]]",
    "[[a]]\n[a]", "a = []\n[[a]]", "a = {}\n[a.b]", "a.b = 1\n[a]", "[a.b]\n[a]\nb.c = 1",
    'a = """b',
    'a = """b""""""', "a = " + "[" * 81 + "]" * 81, ".".join("a" * 81) + " = 1", "a = True",
    "a = nan1",
]
TOML = {
    "a = {b = 1,\n c = 2, # d\n}": {"a": {"b": 1, "c": 2}},
    'a = "\\e\\x41\\u00e9"': {"a": "\x1bAé"},
    'a = """\n b\\\n   c""""': {"a": ' bc"'},
    "a = '''\r\nb'c'''": {"a": "b'c"},
    "a.b.c = 1\na.b.d = 2": {"a": {"b": {"c": 1, "d": 2}}},
    "[a.b]\nc = 1\n[a]\nd = 2": {"a": {"b": {"c": 1}, "d": 2}},
    "[[a]]\n[a.b]\n[[a]]\nc = 1": {"a": [{"b": {}}, {"c": 1}]},
    "a = [0x1F, 0o17, 0b1, -1_0, +0]": {"a": [31, 15, 1, -10, 0]},
    "a = 1e3\nb = 1.5": {"a": 1000.0, "b": 1.5},
    "a = 1979-05-27 07:32\nb = 07:32:60": {"a": "1979-05-27 07:32", "b": "07:32:60"},
    "a = " + "[" * 80 + "]" * 80: None,
    "\ufeff\"\" = true": {"": True},
}


LINES = job_lines.Lines()
CASES = LINES.cases(LINES.lines, LINES.wide_keys, LINES.tops, LINES.order, LINES.senders, LINES.limits)


@pytest.mark.parametrize("command, data, fault", [it[1:] for it in CASES], ids=[it[0] for it in CASES])
def test_row(command, data, fault):
    assert job_check.check(data, command).words == fault


def test_there_are_rows():
    assert len(CASES) > 500


# ---- places

def told(job):
    return job_check.check(job.encode(), "relay")


def test_the_example_passes():
    assert told(EXAMPLE) is None


@pytest.mark.parametrize("old, new, words, place, found", CHANGES)
def test_place(old, new, words, place, found):
    it = told(EXAMPLE.replace(old, new, 1))
    assert (it.words, (it.line, it.column), it.found) == (words, place, found)


def test_a_byte_that_is_no_utf_8():
    it = job_check.check(EXAMPLE.encode() + b"a\xff", "relay")
    assert (it.words, it.found, it.line, it.column) == ("toml", "the byte 0xff", len(EXAMPLE.splitlines()) + 1, 2)


def test_an_input_that_is_too_long():
    assert told(EXAMPLE + "\n" * job_check.INPUT_LIMIT).words == "input"


def test_a_key_is_not_printed():
    it = told(EXAMPLE.replace("1" * 64, "1" * 63))
    assert "1111" not in it.found + it.wanted


# ---- the reader of TOML

@pytest.mark.parametrize("text", TOML)
def test_document(text):
    assert TOML[text] in (None, toml_reader.read(toml_reader.decoded(text.encode())).plain())


@pytest.mark.parametrize("text", NO_TOML)
def test_no_document(text):
    with pytest.raises(toml_reader.Fault) as fault:
        toml_reader.read(text)
    assert fault.value.found and fault.value.wanted and 0 <= fault.value.at <= len(text)


EXAMPLES = glob.glob(os.path.join(building.TOP, "examples", "*.toml"))


@pytest.mark.parametrize("path", [*EXAMPLES, job_lines.ROWS], ids=os.path.basename)
def test_python_reads_the_same(path):
    with open(path, "rb") as file:
        assert tomllib.load(file) == toml_reader.load(path)


def test_there_are_examples():
    assert len(EXAMPLES) > 3


# ---- plans

@pytest.mark.parametrize("place", range(60))
def test_sizes(place):
    """The frames of a drawn sender have the sizes by which plans are checked."""
    dice = random.Random(f"size {place}")
    sent = fuzz_jobs.sender(dice, 4)
    table = toml_reader.read(jobs.sealing(sent, sent.ats)).plain()["sender"][0]
    made = job_check.relayed.frames_of(table)
    assert [job_check.frame_size(table, it) for it in made] == [len(it) for it in sent.frames()]


# ---- the tool itself

def check_job(*words, data=""):
    done = subprocess.run([sys.executable, os.path.join(building.TOOLS, "check_job"), *words], input=data,
                          capture_output=True, check=False, text=True)
    return done.returncode, done.stdout, done.stderr


OPENED = os.path.join(building.TOP, "examples", "open.toml")


def test_a_job_that_passes():
    assert check_job(OPENED) == (0, f"{OPENED}: passes every check of krbrelay open\n", "")
    assert check_job("open", OPENED)[0] == 0
    assert check_job("seal", OPENED)[0] == 1


def test_a_job_that_fails():
    status, out, _ = check_job("-", data=EXAMPLE.replace("etype = 18", "etype = 19"))
    assert status == 1 and out.splitlines() == [
        "standard input:20:9: bad input: sender 1: etype", "  stands here:    19",
        "  may stand here: 17 or 18, the number of an encryption type (RFC 3962)"]


def test_no_file():
    assert check_job("/")[0] == 1
    assert check_job("none")[2] == "tools/check_job: none: No such file or directory\n"
    assert check_job()[0] == 2
    assert check_job("show", OPENED)[0] == 2
