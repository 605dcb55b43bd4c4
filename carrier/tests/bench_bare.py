"""Measures sender and receiver beside a bare loop (bare.c), over SQLite, and over a node of JetStream with PostgreSQL, in
turns, with texts of 60 bytes of 1, 16 and 1,000 sessions: the processor time of both processes a text, and how long each
text takes from its insertion until its effect is seen. Of each number the best turn counts."""
import contextlib
import os
import random
import signal
import sqlite3
import subprocess
import time

import cases
import engines

SESSIONS, BYTES, TURNS = (1, 16, 1000), 60, 3
AT_ONCE, ONE_BY_ONE, APART = 20_000, 150, 0.02     # texts, and seconds between two of the latter
LIMIT = 300                                        # seconds
UNDONE = "SELECT (SELECT count(*) FROM text) + (SELECT count(*) FROM sealed)"
EFFECTS = "SELECT coalesce(max(id), 0) FROM effect"


class Store:
    """How many effects a store has, asked over one connection."""

    def __init__(self, where):
        self.file = sqlite3.connect(where[7:], timeout=30) if where.startswith("sqlite:") else None
        self.psql = None if self.file else subprocess.Popen(["psql", "-qAtX", where], stdin=subprocess.PIPE,
                                                            stdout=subprocess.PIPE, text=True)

    def effects(self):
        if self.file:
            return self.file.execute(EFFECTS).fetchone()[0]
        self.psql.stdin.write(EFFECTS + ";\n")
        self.psql.stdin.flush()
        return int(self.psql.stdout.readline())

    def close(self):
        if self.file:
            self.file.close()
        else:
            self.psql.communicate()


class Pair:
    """Both processes, of one kind, over an outbox of their own in a folder."""

    def __init__(self, programs, folder, sessions, is_bare, carrier, store):
        self.names, self.count, dice = [f"s{it:04}" for it in range(sessions)], 0, random.Random(1)
        cases.Place.write(f"{folder}/sessions", [f"{it} 0 18 priv {dice.randbytes(32).hex()} 1 10.0.0.1 10.0.0.2\n"
                                                 for it in self.names])
        both = ["--sessions", f"{folder}/sessions", "--carrier", carrier]
        words = [[f"{programs}/bare", "send", f"{folder}/outbox.db", carrier],
                 [f"{programs}/bare", "receive", store, carrier]] if is_bare else [
                     [f"{programs}/sender", *both, "--outbox", f"{folder}/outbox.db"],
                     [f"{programs}/receiver", *both, "--store", store, "--shards", "0"]]
        self.processes = [subprocess.Popen(it, stderr=subprocess.DEVNULL) for it in words]
        self.await_so(lambda: os.path.exists(f"{folder}/outbox.db") and has_tables(store))
        self.outbox, self.store = sqlite3.connect(f"{folder}/outbox.db", timeout=30), Store(store)
        self.await_so(self.is_done)

    def close(self):
        self.outbox.close()
        self.store.close()
        for it in self.processes:
            it.send_signal(signal.SIGTERM)
            it.wait(LIMIT)

    def await_so(self, is_so, pause=0.02):
        until = time.monotonic() + LIMIT
        while not is_so():
            if time.monotonic() > until or any(it.poll() is not None for it in self.processes):
                raise RuntimeError(f"{self.count} texts haven't taken effect")
            time.sleep(pause)

    def is_done(self):
        """All that was put in took effect, and the outbox has none of it; its tables may not be there yet."""
        with contextlib.suppress(sqlite3.OperationalError):
            return self.has_effects() and self.outbox.execute(UNDONE).fetchone()[0] == 0
        return False

    def has_effects(self):
        return self.store.effects() == self.count

    def put(self, count):
        with self.outbox:
            self.outbox.executemany("INSERT INTO text (session, body) VALUES (?, ?)", [
                (self.names[(self.count + it) % len(self.names)], b"x" * BYTES) for it in range(count)])
        self.count += count

    def processor(self):
        """The seconds of all threads so far, by the scheduler's count."""
        nanoseconds = 0
        for it in self.processes:
            for thread in os.listdir(f"/proc/{it.pid}/task"):
                with open(f"/proc/{it.pid}/task/{thread}/schedstat", encoding="ascii") as file:
                    nanoseconds += int(file.read().split()[0])
        return nanoseconds / 1e9

    def one(self):
        """The seconds until one text's effect is seen."""
        began = time.monotonic()
        self.put(1)
        self.await_so(self.has_effects, 0.0002)
        took = time.monotonic() - began
        time.sleep(APART)
        return took


def measured(pair):
    """Microseconds of a processor a text, all at once and one by one; milliseconds until an effect, half and 99 of 100."""
    pair.put(len(pair.names))       # each session is known to both ends
    pair.await_so(pair.is_done)
    before = pair.processor()
    pair.put(AT_ONCE)
    pair.await_so(pair.is_done)
    at_once = pair.processor()
    took = sorted(pair.one() for _ in range(ONE_BY_ONE))
    pair.await_so(pair.is_done)
    return [(at_once - before) / AT_ONCE * 1e6, (pair.processor() - at_once) / ONE_BY_ONE * 1e6,
            took[ONE_BY_ONE // 2] * 1e3, took[ONE_BY_ONE * 99 // 100] * 1e3]


def has_tables(store):
    """Whether the receiver has made them."""
    if store.startswith("sqlite:"):
        return os.path.exists(store[7:])
    return engines.ask(store, "SELECT to_regclass('effect') IS NOT NULL") == [["t"]]


def turn(programs, folder, sessions, is_bare, postgres):
    """Over a carrier and a store that are new."""
    if postgres:
        postgres.ask("DROP SCHEMA public CASCADE; CREATE SCHEMA public")
    with contextlib.closing(engines.Nats(folder, 1)) if postgres else contextlib.nullcontext() as nats:
        pair = Pair(programs, folder, sessions, is_bare, nats.where if nats else f"sqlite:{folder}/carrier.db",
                    postgres.where if postgres else f"sqlite:{folder}/store.db")
        with contextlib.closing(pair):
            return measured(pair)


def compare(programs, new_folder, postgres):
    for sessions in SESSIONS:
        turns = [[turn(programs, new_folder(), sessions, is_bare, postgres) for is_bare in (False, True)]
                 for _ in range(TURNS)]
        best = [[min(column) for column in zip(*of_kind)] for of_kind in zip(*turns)]
        best.append([ours / bare for ours, bare in zip(*best)])
        for name, row in zip(("sender and receiver", "bare", "times"), best):
            print(f"| {'NATS, PostgreSQL' if postgres else 'SQLite'} | {sessions:,} | {name} | "
                  + " | ".join(f"{it:,.1f}" for it in row) + " |", flush=True)


def run(programs, new_folder):
    print("| Over | Sessions | Loop | us a text, at once | one by one | ms until an effect: p50 | p99 |")
    print("|---|--:|---|--:|--:|--:|--:|")
    compare(programs, new_folder, None)
    with contextlib.closing(engines.Postgres(new_folder())) as postgres:
        compare(programs, new_folder, postgres)
    print(f"load of the machine: {os.getloadavg()[0]:.1f} on {os.cpu_count()} cores", flush=True)
    return 0
