"""Measures carrier/: texts of 1,000 bytes a second as KRB-PRIV under encryption type 18, one in a
frame, in four shards with 16 sessions each, beside the rate of the carrier alone with frames of the
same size.

Four senders bring the texts into the shards. Then 1, 2 and 4 receivers, a process each with one
shard, take them, 1,024 frames a transaction: `shards` is a SQLite file for each receiver.
"""
import contextlib
import glob
import os
import random
import shutil
import subprocess
import sys
import time

import cases
import engines
import loglines

SHARDS, SESSIONS, TEXTS, BYTES, FRAME = 4, 64, 120_000, 1000, 1110
LIMIT = 300
BATCHES = (1, 16, 256)


def write_sessions(folder):
    dice = random.Random(1)
    lines = [(it % SHARDS, f"s{it:04} {it % SHARDS} 18 priv {dice.randbytes(32).hex()} 1"
                           " 10.0.0.1 10.0.0.2\n") for it in range(SESSIONS)]
    for name, wanted in [("", range(SHARDS)), *((shard, [shard]) for shard in range(SHARDS))]:
        cases.Place.write(f"{folder}/sessions{name}",
                          [line for shard, line in lines if shard in wanted])


def sender(programs, folder, carrier, replicas, shard):
    return [f"{programs}/sender", "--sessions", f"{folder}/sessions{shard}", "--outbox",
            f"{folder}/outbox{shard}.db", "--carrier", carrier, "--replicas", replicas, "--drain"]


def fill_outboxes(programs, folder, carrier, replicas):
    """Each outbox is made first, by a sender that has nothing to do."""
    at_once([sender(programs, folder, carrier, replicas, it) for it in range(SHARDS)])
    for shard in range(SHARDS):
        names = [f"s{it:04}" for it in range(SESSIONS) if it % SHARDS == shard]
        with cases.opened(f"{folder}/outbox{shard}.db") as file:
            file.executemany("INSERT INTO text (session, body) VALUES (?, ?)",
                             [(names[it % len(names)], b"x" * BYTES)
                              for it in range(TEXTS // SHARDS)] + [(name, None) for name in names])
        with cases.opened(f"{folder}/outbox{shard}.db") as file:
            file.execute("PRAGMA wal_checkpoint(TRUNCATE)")


def at_once(commands):
    """Runs programs side by side; the seconds until the last has ended, and what they print."""
    began = time.monotonic()
    running = [subprocess.Popen(words, stdout=subprocess.PIPE, stderr=subprocess.STDOUT, text=True)
               for words in commands]
    texts = [it.communicate(timeout=LIMIT)[0] for it in running]
    if any(it.returncode for it in running):
        sys.exit("\n".join(texts)[-2000:] + "\ncarrier: a program failed")
    return time.monotonic() - began, texts


def raw(programs, carrier, replicas, name):
    _, texts = at_once([[f"{programs}/raw", "--carrier", carrier, "--replicas", replicas, "--shard",
                         "90", "--frames", str(TEXTS // SHARDS), "--bytes", str(FRAME)]])
    print(f"{name:7} the carrier alone, frames of {FRAME} bytes, one process: {texts[0].strip()}",
          flush=True)


def send(programs, folder, carrier, replicas, name):
    fill_outboxes(programs, folder, carrier, replicas)
    took, texts = at_once([sender(programs, folder, carrier, replicas, it) for it in range(SHARDS)])
    found = [loglines.find(text, "sender_ended")[-1] for text in texts]
    sums = [sum(float(it[key]) for it in found)
            for key in ("seconds", "sealing", "outbox", "carrier")]
    print(f"{name:7} {SHARDS} senders: {TEXTS / took:7,.0f} texts a second; sealing"
          f" {sums[1] / sums[0]:.0%}, outbox {sums[2] / sums[0]:.0%}, carrier"
          f" {sums[3] / sums[0]:.0%}", flush=True)


def receive(programs, folder, carrier, name, store, receivers, batch=1024):
    """One row: so many receivers, each of one shard."""
    for path in glob.glob(f"{folder}/receiver*"):
        os.unlink(path)
    where = store if store.startswith("postgresql") else f"sqlite:{folder}/receiver%.db"
    _, texts = at_once([[f"{programs}/receiver", "--sessions", f"{folder}/sessions", "--store",
                         where, "--carrier", carrier, "--batch", str(batch), "--until-closed",
                         "--shards", str(it)] for it in range(receivers)])
    last = [loglines.find(text, "shard_ended")[-1] for text in texts]
    count, slowest = sum(int(it["texts"]) for it in last), max(float(it["seconds"]) for it in last)
    sums = [sum(float(it[key]) for it in last) for key in ("seconds", "opening", "carrier", "store")]
    print(f"{name:7} {store.split(':')[0]:10} {receivers} receivers, {batch:4} a transaction:"
          f" {count / slowest:7,.0f} texts a second; opening {sums[1] / sums[0]:.0%}, carrier"
          f" {sums[2] / sums[0]:.0%}, store {sums[3] / sums[0]:.0%}", flush=True)


def measure(programs, folder, carrier, replicas, name, postgres):
    raw(programs, carrier, replicas, name)
    send(programs, folder, carrier, replicas, name)
    for receivers in (1, 2, 4):
        receive(programs, folder, carrier, name, "shards", receivers)
    if postgres:
        for receivers in (1, 2, 4):
            postgres.ask("DROP TABLE IF EXISTS shard, session, passed, effect")
            receive(programs, folder, carrier, name, postgres.where, receivers)


def run(programs, new_folder):
    print(f"load of the machine: {os.getloadavg()[0]:.1f} on {os.cpu_count()} cores", flush=True)
    with contextlib.closing(engines.Postgres(new_folder())) as postgres:
        for nodes, name in ((1, "1 node"), (3, "3 nodes"), (0, "SQLite")):
            folder = new_folder()
            write_sessions(folder)
            with contextlib.closing(engines.Nats(folder, nodes)) if nodes else contextlib.nullcontext() as nats:
                carrier = nats.where if nats else f"sqlite:{folder}/carrier.db"
                measure(programs, folder, carrier, str(max(1, nodes)), name, postgres if nodes else None)
                for batch in BATCHES if nodes == 1 else ():
                    receive(programs, folder, carrier, name, "shards", 1, batch)
            shutil.rmtree(folder)
    return 0
