"""Runs the benchmarks a little: which lines they print, and the statuses that they end with. How fast anything is
isn't looked at."""
import itertools
import re
import subprocess

import pytest

from lib import scripts
from lib.build import building

LIMIT = 120     # seconds for a run
SPEED = r"[1-9]\d*"
USAGE = ("usage: krb_bench aes ROUNDS | seal ROUNDS"
         " | lane FRAMES [CAPACITY MICROSECONDS]"
         " | relay ROUNDS SENDERS TEXTS BYTES CAPACITY [BATCH ..] | soak JOBS\n")
KINDS = list(itertools.product(("safe", "priv"), (17, 18)))
MESSAGES = [(*kind, size) for kind in KINDS for size in (64, 1_024, 60_000, 1_000_000)]
SESSIONS = [(*kind, count) for kind in KINDS for count in (1, 10)]
# Of each benchmark the lines that it prints.
LINES = {
    "aes 1": [f"{way} aes-{bits} {SPEED}" for bits in (128, 256) for way in ("encrypt", "decrypt")],
    "seal 1": [f"{mode} {etype} {size} bytes: {SPEED} made, {SPEED} read a second"
               for mode, etype, size in MESSAGES]
              + [f"{mode} {etype} sessions of {count}: {SPEED} sealed, {SPEED} opened a second"
                 for mode, etype, count in SESSIONS],
    "lane 200": [rf"capacity {capacity}: 200 frames in \d+ ms: {SPEED} frames a second"
                 for capacity in (1, 8, 64)],
    "lane 20 2 1000": [rf"capacity 2: 20 frames in \d{{2,}} ms: {SPEED} frames a second"],
    "soak 3": [f"3 jobs, {SPEED} a second, 0 other logs"],
}
BOTH_RELAYS = rf"stepped {SPEED}, threads {SPEED} texts a second: \d+ % of the time"
LINES["relay 1 2 6 64 2"] = [f"batch 1: {BOTH_RELAYS}"]
LINES["relay 1 8 6 64 1 1 3"] = [f"batch {batch}: {BOTH_RELAYS}" for batch in (1, 3)]
NOT_ITS_WORDS = ["aes", "aes x", "aes -1", "seal 1 1", "relay 1 2 6 64", "soak 4294967296",
                 "other 1"]
# What can't be: a lane of no room or too much; a relay of no sender, of nine, over lanes without
# room, of a text that is too long.
NO_RELAYS = ["lane 20 0 0", "lane 20 65 0", "relay 1 0 6 64 2", "relay 1 9 6 64 2",
             "relay 1 2 6 64 0", "relay 1 1 1 1000001 1"]


RUNS = [("", 0, [], ""), *((words, 0, lines, "") for words, lines in LINES.items()),
        *((words, 2, [], USAGE) for words in NOT_ITS_WORDS), *((words, 1, [".*"], "") for words in NO_RELAYS)]


@pytest.fixture(scope="module")
def krb_bench():
    """The program, which is proved and built first if needed."""
    return building.bench()


@pytest.mark.parametrize("words, status, lines, told", RUNS, ids=[f"krb_bench {it[0]}" for it in RUNS])
def test_run(krb_bench, words, status, lines, told):
    done = subprocess.run([krb_bench, *words.split()], stdin=subprocess.DEVNULL, check=False, capture_output=True,
                          text=True, timeout=LIMIT)
    assert (done.returncode, done.stderr) == (status, told)
    assert re.fullmatch("".join(f"{line}\n" for line in lines), done.stdout)


def test_what_only_the_crate_was_timed_with_has_no_row_of_batches():
    bench = scripts.load("bench")
    both, longer = ("safe", 17, 64), ("safe", 17, 1_000_000)
    best = {(both, "made", "C"): 100.0, (both, "together", "C"): 250.0, (longer, "made", "krb_seal"): 3.0}
    assert list(bench.table_of_batches(best))[2:] == ["| safe 17, 64 bytes | 250 | 2.50 |"]


@pytest.mark.parametrize("ours, row", [("v3", "| 64, 2 | 30 | 60 | 25 | 2.40 |"), ("v2", "| 64, 2 | 30 | 22 | 1.36 |")])
def test_each_relay_has_the_best_of_its_runs(monkeypatch, ours, row):
    bench = scripts.load("bench")
    runs = {("v2", False): [10, 30], ("v3", False): [60, 50], ("v3", True): [20, 25], ("v2", True): [22, 21]}
    monkeypatch.setattr(bench, "RELAYS", ((64, 6, 2),))
    monkeypatch.setattr(bench.building, "program_of", lambda crate: "v2")
    monkeypatch.setattr(bench.levels, "best_of", lambda crate: ours)
    monkeypatch.setattr(bench, "relayed", lambda program, row, **how: runs[program, bool(how)].pop())
    assert list(bench.table_of_relays(2))[2:] == [row]


def test_a_relay_is_timed_on_all_cores_and_on_one(krb_bench):
    bench = scripts.load("bench")
    assert bench.relayed(krb_bench, (64, 6, 2)) > 0
    assert bench.relayed(krb_bench, (64, 6, 2), preexec_fn=bench.on_one_core) > 0
