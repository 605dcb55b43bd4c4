"""Programs that have nothing to do wake rarely, with many sessions that each had a text, over SQLite; and
each text wakes them."""
import contextlib
import sqlite3
import statistics
import subprocess
import time

import pytest
from cases import Place, opened, wakes_in

SESSIONS, SHARDS = 10_000, 8
WINDOW = 5                      # seconds in which wakes are counted, of all threads of a program
MOST_A_SECOND = 2, 3            # of a sender, and of a receiver: 1 for all shards, and each looks after 5 s
PATIENCE = 120                  # seconds
# Texts, each put in so many seconds after the one before took effect, when both ends look ever more rarely; seconds
# that most of them take at most if they wake both ends: where a text waits for a look, it takes 0.6 s or more.
ONE_BY_ONE, APART, AWAKE = 8, 1.4, 0.5
EFFECTS = "SELECT count(*) FROM effect"
UNDONE = "SELECT (SELECT count(*) FROM text) + (SELECT count(*) FROM sealed)"
SHARED = ("--sessions", "sessions", "--carrier", "sqlite:carrier.db")


@pytest.fixture
def running(shipped, tmp_path):
    """Both programs, in whose folder the databases are."""
    Place.write(tmp_path / "sessions", (f"s{i} {i % SHARDS} 18 priv {i:064x} 1 10.0.0.1 10.0.0.2\n"
                                        for i in range(SESSIONS)))
    with contextlib.ExitStack() as stack:
        def start(name, *words):
            log = stack.enter_context(open(tmp_path / f"{name}.log", "wb"))
            process = subprocess.Popen([f"{shipped}/{name}", *SHARED, *words], cwd=tmp_path,
                                       stderr=log)
            stack.callback(process.wait)
            stack.callback(process.terminate)
            return process
        sender = start("sender", "--outbox", "outbox.db")
        receiver = start("receiver", "--store", "sqlite:store.db", "--shards", f"0-{SHARDS - 1}")
        await_so(lambda: ask(tmp_path / "store.db", EFFECTS) == 0
                 and ask(tmp_path / "outbox.db", UNDONE) == 0)
        yield tmp_path, sender, receiver


def await_so(is_so):
    until = time.monotonic() + PATIENCE
    while not is_so():
        assert time.monotonic() < until
        time.sleep(0.002)


def ask(path, query):
    """The number, or None while the file or its table isn't there, or is locked."""
    try:
        with contextlib.closing(sqlite3.connect(f"file:{path}?mode=ro", uri=True)) as file:
            return file.execute(query).fetchone()[0]
    except sqlite3.OperationalError:
        return None


def put(folder, names):
    with opened(folder / "outbox.db") as file:
        file.executemany("INSERT INTO text (session, body) VALUES (?, 'x')",
                         ((name,) for name in names))


def test_idle_programs_wake_rarely(running):
    folder, *processes = running
    put(folder, (f"s{i}" for i in range(SESSIONS)))
    await_so(lambda: ask(folder / "outbox.db", UNDONE) == 0)
    assert ask(folder / "store.db", EFFECTS) == SESSIONS
    await_so(lambda: all(count <= most * WINDOW
                         for count, most in zip(wakes_in(WINDOW, *processes), MOST_A_SECOND)))


def test_each_text_wakes_both_ends(running):
    folder, *_ = running
    took = []
    for count in range(ONE_BY_ONE):
        time.sleep(APART)
        began = time.monotonic()
        put(folder, [f"s{count}"])
        await_so(lambda wanted=count + 1: ask(folder / "store.db", EFFECTS) == wanted)
        took.append(time.monotonic() - began)
    assert statistics.median(took) < AWAKE, took
