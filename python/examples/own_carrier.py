"""A carrier of one's own: SQLite as outbox and store, and a folder of files as the broker.

    own_carrier.py put FOLDER TEXT..    puts texts into the outbox
    own_carrier.py send FOLDER          sends until all of them took effect
    own_carrier.py receive FOLDER       receives, until it is ended
    own_carrier.py show FOLDER          prints what took effect

Kill `send` and `receive` at any time, and start them again: each text takes effect once, in order.
krbrelay.engine says what is to be done; this program does it.
"""
import pathlib
import secrets
import sqlite3
import sys
import time

from krbrelay import Address, Demand, History, Mode, Opener, Receiver, Refusal, Sealer, Text
from krbrelay.engine import (
    Asks, Probe, Publish, Read, Reading, Receipt, Receiving, Row, Sending, Spot, Stored)

# The key of the session, of encryption type 17, comes from the exchange before it.
SESSION = {"etype": 17, "key": b"chicken teriyaki", "mode": Mode.PRIV}
ALICE, BOB = Address.ip("10.0.0.1"), Address.ip("10.0.0.255")
TABLES = """
CREATE TABLE IF NOT EXISTS waiting(place INTEGER PRIMARY KEY, text TEXT);
CREATE TABLE IF NOT EXISTS frames(number INTEGER PRIMARY KEY, frame BLOB, history BLOB);
CREATE TABLE IF NOT EXISTS sender AS
    SELECT 0 next, 0 carried, 0 at, 0 done, 0 list, zeroblob(20) history;
CREATE TABLE IF NOT EXISTS effects(place INTEGER PRIMARY KEY, text TEXT);
CREATE TABLE IF NOT EXISTS receiver AS
    SELECT 0 number, zeroblob(20) history, 0 closed, 0 list, 0 offset;
"""


def database(folder, name):
    folder.mkdir(exist_ok=True)
    opened = sqlite3.connect(folder / name, timeout=60)
    opened.executescript(TABLES)
    return opened


def now():
    return time.monotonic_ns() // 1_000_000


# ---- the broker: a list of files, its name, and the last receipt

def write(folder, name, content):
    """A file that is whole, or isn't there. Returns its name as a number, if it is one."""
    part = folder / f"{name}.{secrets.token_hex(8)}"
    part.write_bytes(content)
    part.replace(folder / name)
    return name.isdigit() and int(name)


def last_of(folder):
    return sum(path.name.isdigit() for path in folder.iterdir())


def list_of(folder):
    if not (folder / "list").exists():
        write(folder, "list", secrets.token_bytes(7))
    return int.from_bytes((folder / "list").read_bytes(), "big")


# ---- the sender

def seal(outbox, count):
    """Seals so many of the texts that wait, and stores the frames: how many they were."""
    texts = outbox.execute("SELECT * FROM waiting ORDER BY place LIMIT ?", (count,)).fetchall()
    first, digest = outbox.execute("SELECT next, history FROM sender").fetchone()
    history = History(digest)
    with outbox, Sealer(**SESSION, sender=ALICE, first=first) as sealer:
        for number, (place, text) in enumerate(texts, first):
            frame = sealer.seal_record(Text(text.encode()))
            history.add(frame)
            row = number, frame, history.digest
            outbox.execute("INSERT INTO frames VALUES(?, ?, ?)", row)
            outbox.execute("DELETE FROM waiting WHERE place = ?", (place,))
        row = first + len(texts), history.digest
        outbox.execute("UPDATE sender SET next = ?, history = ?", row)
    return len(texts)


def hear(folder, outbox, sending):
    """The last receipt, if there is one that the receiver sealed."""
    try:
        with Opener(**SESSION) as opener:
            content = (folder / "receipt").read_bytes()
            said = opener.open(content, Demand(sender=BOB)).user_data
    except (FileNotFoundError, Refusal):
        return
    receipt = Receipt(int.from_bytes(said[:8], "big"), said[8:28], Asks(said[28]))
    own = outbox.execute("SELECT history FROM frames WHERE number = ?", (receipt.number - 1,))
    sending.receipt(receipt, (own.fetchone() or [bytes(20)])[0], now())


def perform(folder, outbox, sending):
    """What is to be done next: whether anything was."""
    command = sending.serve(room=8, now=now())
    if not isinstance(command, (Publish, Probe)):
        return False
    count = command.count if isinstance(command, Publish) else 1
    for number in range(command.number, command.number + count):
        found = outbox.execute("SELECT frame FROM frames WHERE number = ?", (number,))
        offset = write(folder, f"{last_of(folder) + 1:09}", found.fetchone()[0])
        sending.confirmed(number, offset, now())
    return True


def send(folder):
    outbox = database(folder, "outbox.db")
    row = outbox.execute("SELECT next, carried, at, done, list FROM sender").fetchone()
    sending = Sending(Stored(*row), now())
    while not sending.is_settled or outbox.execute("SELECT 1 FROM waiting").fetchone():
        sending.listed(list_of(folder))
        sending.sealed(seal(outbox, sending.sealing_room))
        hear(folder, outbox, sending)
        is_busy = perform(folder, outbox, sending)
        with outbox:
            outbox.execute("UPDATE sender SET carried = ?, at = ?, done = ?, list = ?",
                           sending.stored[1:])
            outbox.execute("DELETE FROM frames WHERE number < ?", (sending.done,))
        if sending.ended:
            sys.exit(f"stopped: {sending.ended.name}")
        time.sleep(0 if is_busy else 0.01)


# ---- the receiver

def take(end, frames):
    """The texts of the frames that are accepted. Of another its number is told, if it opens."""
    texts = []
    with Opener(**SESSION) as opener, Receiver(
            **SESSION, sender=ALICE, receiver=BOB, expected=end.drafted.number) as receiver:
        for frame in frames:
            try:
                texts.append((receiver.take(frame).data.decode(),))
                end.take(frame, accepted=True)
            except Refusal:
                try:
                    opened = opener.open(frame, Demand(sender=ALICE)).number
                except Refusal:
                    opened = None
                end.take(frame, accepted=False, opened=opened)
    return texts


def commit(store, reading, end, texts):
    """A transaction that compares what is stored, and sets it, with the effects: whether it did."""
    rows = *end.drafted[:2], *reading.read, *end.row[:2], *reading.spot
    with store:
        store.executemany("INSERT INTO effects(text) VALUES(?)", texts)
        is_set = store.execute(
            "UPDATE receiver SET number = ?, history = ?, list = ?, offset = ?"
            " WHERE number = ? AND history = ? AND list = ? AND offset = ?", rows)
        if is_set.rowcount == 0:
            store.rollback()
    return is_set.rowcount == 1


def load(store):
    number, history, closed, list_then, offset = store.execute("SELECT * FROM receiver").fetchone()
    return Reading(Spot(list_then, offset)), Receiving(Row(number, history, bool(closed)), now())


def receive(folder):
    store = database(folder, "store.db")
    reading, end = load(store)
    while True:
        last, offset = last_of(folder), reading.read.offset
        names = [f"{it:09}" for it in range(offset + 1, min(last, offset + 32) + 1)]
        frames = [(folder / name).read_bytes() for name in names]
        if reading.frames(list_of(folder), last, len(frames)) is Read.TAKE:
            if commit(store, reading, end, take(end, frames)):
                reading.stored()
                end.stored()
            else:
                reading, end = load(store)
        receipt = end.receipt(now())
        if receipt:
            said = receipt.number.to_bytes(8, "big") + receipt.history + bytes([receipt.asks])
            with Sealer(**SESSION, sender=BOB, first=0) as sealer:
                write(folder, "receipt", sealer.seal(said))
        time.sleep(0.01)


def main(command, name, *texts):
    folder = pathlib.Path(name)
    if command == "put":
        with database(folder, "outbox.db") as outbox:
            outbox.executemany("INSERT INTO waiting(text) VALUES(?)", [(it,) for it in texts])
    elif command == "show":
        found = database(folder, "store.db").execute("SELECT text FROM effects ORDER BY place")
        print("".join(f"{text}\n" for text, in found), end="")
    else:
        {"send": send, "receive": receive}[command](folder)


if __name__ == "__main__":
    main(*sys.argv[1:])
