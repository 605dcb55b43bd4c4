"""Measures openings a second at a receiver, and what receipts cost in texts a second, over SQLite files
and one process at each end."""
import contextlib
import os
import random
import sqlite3
import subprocess
import time

import bench
import cases
import loglines
import realms

STREAMS = 4000          # each with one text, so each with an opening
TEXTS, SESSIONS, BYTES = 60_000, 16, 1000
LIMIT = 120             # seconds
RUNS = 3


def put(path, rows):
    with cases.opened(path) as file:
        file.executemany("INSERT INTO text (session, body) VALUES (?, ?)", rows)


def await_rows(path, count):
    """Waits until a store has so many effects, and a moment more."""
    until = time.monotonic() + LIMIT
    while time.monotonic() < until:
        if os.path.exists(path):
            with contextlib.suppress(sqlite3.OperationalError), cases.opened(path) as file:   # no table yet
                if file.execute("SELECT count(*) FROM effect").fetchone()[0] >= count:
                    return
        time.sleep(0.02)
    raise RuntimeError(f"{path} hasn't {count} effects")


def openings(programs, folder, realm, etype):
    """The receiver's seconds for its frames and for its store, of one row for each opening and one for
    its text."""
    common = ["--service", realms.SERVICE, "--carrier", f"sqlite:{folder}/carrier.db"]
    sender = [f"{programs}/sender", "--keytab", realm.path("sender.keytab"), "--client",
              realms.SENDER, "--etype", str(etype), "--outbox", f"{folder}/outbox.db", "--drain",
              *common]
    given = {"env": realm.environment(), "check": True, "stdout": subprocess.PIPE,
             "stderr": subprocess.STDOUT, "text": True, "timeout": LIMIT}
    subprocess.run(sender, **given)
    put(f"{folder}/outbox.db", [(f"stream-{it}", b"x" * 100) for it in range(STREAMS)])
    sent = loglines.find(subprocess.run(sender, **given).stdout, "sender_ended")[-1]
    receiver = subprocess.Popen(
        [f"{programs}/receiver", "--keytab", realm.path("receiver.keytab"), "--allow",
         realm.path("allowed"), "--store", f"sqlite:{folder}/store.db", "--shards", "0", *common],
        env=given["env"], stdout=subprocess.PIPE, stderr=subprocess.STDOUT, text=True)
    began = time.monotonic()
    await_rows(f"{folder}/store.db", STREAMS)
    took = time.monotonic() - began
    receiver.terminate()
    last = loglines.find(receiver.communicate(timeout=LIMIT)[0], "shard_ended")[-1]
    if int(last["opened"]) != STREAMS:
        raise RuntimeError(last)
    print(f"type {etype}: {STREAMS} openings: {STREAMS / float(sent['seconds']):,.0f} a second at the"
          f" sender, {STREAMS / took:,.0f} a second at the receiver, each with the session's row and"
          " a text's effect", flush=True)


def write_sessions(folder, has_receipts):
    dice = random.Random(1)
    lines = []
    for it in range(SESSIONS):
        key, back = dice.randbytes(32).hex(), dice.randbytes(32).hex()
        lines.append(f"s{it} 0 18 priv {key} 1 10.0.0.1 10.0.0.2 {back if has_receipts else ''}\n")
    cases.Place.write(f"{folder}/sessions", lines)


def both_ends(programs, folder, has_receipts):
    """The seconds until all took effect, and, with receipts, until the outbox has learned it."""
    os.makedirs(folder)
    write_sessions(folder, has_receipts)
    ends = cases.Place(programs, f"{folder}/ends", cases.Case(None, ""))
    write_sessions(f"{folder}/ends", has_receipts)
    ends.run("sender", "--drain")
    put(ends.outbox, [(f"s{it % SESSIONS}", b"x" * BYTES) for it in range(TEXTS)])
    running = [subprocess.Popen(ends.command(name), stdout=subprocess.DEVNULL,
                                stderr=subprocess.DEVNULL) for name in ("receiver", "sender")]
    began = time.monotonic()
    try:
        await_rows(ends.store.removeprefix("sqlite:"), TEXTS)
        took, learned = time.monotonic() - began, None
        with cases.opened(ends.outbox) as file:
            while has_receipts and file.execute("SELECT count(*) FROM frame").fetchone()[0] > 0:
                time.sleep(0.02)
        learned = time.monotonic() - began
    finally:
        for process in running:
            process.terminate()
            process.wait(LIMIT)
    return took, learned


def run(programs, new_folder):
    print(f"load of the machine: {os.getloadavg()[0]:.1f} on {os.cpu_count()} cores", flush=True)
    with contextlib.closing(realms.Realm(new_folder())) as realm:
        for etype in (17, 18):
            openings(programs, new_folder(), realm, etype)
    for turn in range(RUNS):
        for has_receipts in (False, True):
            took, learned = both_ends(programs, f"{new_folder()}/both", has_receipts)
            print(f"{TEXTS} texts of {bench.BYTES} bytes, one in a frame,"
                  f" {'with' if has_receipts else 'without'} receipts: {TEXTS / took:,.0f} a second;"
                  f" all is known after {learned:.2f} s", flush=True)
    return 0
