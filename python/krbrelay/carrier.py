"""Into the carrier and out of it: an application puts texts into a sender's outbox, and takes them
from the receivers' store. It needs neither the library nor another module of this package, and is
installed as the commands krbrelay-put and krbrelay-get."""
from __future__ import annotations

import argparse
import contextlib
import glob
import json
import os
import sqlite3
import subprocess
import sys
import time
import urllib.parse
from typing import Any, Dict, Iterator, List, NamedTuple, Optional, Sequence, Union

Bytes = Union[bytes, bytearray, memoryview]

BUSY = 30               # seconds that another transaction may take
PAUSE = 0.2             # seconds between two looks at a store
COLUMNS = "id, session, number, part, text, client, stream"
IN_DIGITS = COLUMNS.replace("text", "encode(text, 'hex')")


class Text(NamedTuple):
    """A text that took effect."""
    id: int
    """Rises with each text: of a session in the order in which its texts were put."""
    session: str
    number: int
    """The sequence number of its message. It and `part` name the text in its session."""
    part: int
    """Its place among the texts of the message."""
    data: bytes
    client: str
    """The principal that sent it, of a session that began by a ticket; else empty."""
    stream: str
    """The stream of such a session; else empty."""


# ---- into an outbox

def open_outbox(path: str) -> sqlite3.Connection:
    """Opens the outbox that a sender has made: one file of SQLite. sqlite3.Error."""
    try:
        return sqlite3.connect(f"file:{urllib.parse.quote(path)}?mode=rw", BUSY, uri=True)
    except sqlite3.OperationalError as fault:
        raise sqlite3.OperationalError(f"{path}: {fault}; krbrelay-sender makes it") from fault


def put(outbox: sqlite3.Connection, session: str, *texts: Optional[Bytes]) -> List[int]:
    """Puts texts of a session, or of a stream, into an outbox, the last of which may be None: the
    close, after which no text follows. It is part of the connection's transaction: the caller
    commits it, with what the application stores beside it in the same file. The ids of the texts.

    sqlite3.IntegrityError where one is refused: the session was closed, a text has more than
    1,000,000 bytes, or the outbox is full. The caller rolls back then. sqlite3.Error.
    """
    rows = (outbox.execute("INSERT INTO text (session, body) VALUES (?, ?)",
                           (session, None if it is None else bytes(it))) for it in texts)
    return [it.lastrowid or 0 for it in rows]


def count_waiting(outbox: sqlite3.Connection, ids: Sequence[int]) -> int:
    """How many of these texts of an outbox didn't take effect yet, as far as receipts say."""
    listed = ", ".join(str(int(it)) for it in ids)
    found = outbox.execute(f"SELECT (SELECT count(*) FROM text WHERE id IN ({listed})) + "
                           f"(SELECT count(*) FROM sealed WHERE text IN ({listed}))")
    return int(found.fetchone()[0])


# ---- out of a store

def text_of(row: Sequence[Any]) -> Text:
    id_, session, number, part, data, client, stream = row
    return Text(int(id_), session, int(number), int(part), bytes(data), client or "", stream or "")


def chosen(after: int, session: Optional[str], limit: int) -> str:
    """What follows SELECT: the rows that are asked for."""
    named = (session or "").replace("'", "''")
    of_one = "" if session is None else f" AND session = '{named}'"
    return f"FROM effect WHERE id > {int(after)}{of_one} ORDER BY id LIMIT {int(limit)}"


def texts(store: Any, after: int = 0, session: Optional[str] = None,
          limit: int = 1000) -> Iterator[Text]:
    """The texts of a store after the one with this id, in order: of a DB-API connection to SQLite
    or PostgreSQL. What is read stays. In PostgreSQL a text may be stored after one with a higher
    id, so whoever keeps the last id reads with `take`."""
    cursor = store.cursor()
    cursor.execute(f"SELECT {COLUMNS} {chosen(after, session, limit)}")
    yield from map(text_of, iter(cursor.fetchone, None))


def take(store: Any, limit: int = 1000) -> Iterator[Text]:
    """The next texts of a store, in order, which it deletes there: of a DB-API connection to SQLite
    or PostgreSQL. It is part of the connection's transaction: what the application stores beside it
    is committed with it, so each text is dealt with once. One reader at a time keeps their
    order."""
    cursor = store.cursor()
    cursor.execute(f"DELETE FROM effect WHERE id IN (SELECT id {chosen(0, None, limit)}) "
                   f"RETURNING {COLUMNS}")
    yield from sorted(map(text_of, cursor.fetchall()))


# ---- the commands

def put_command(words: Sequence[str]) -> int:
    """Puts a text into a sender's outbox."""
    parser = argparse.ArgumentParser("krbrelay-put", description=put_command.__doc__, epilog=(
        "The status is 0, 1 if the text was refused or there is no outbox, 2 for a wrong option, "
        "and 3 if --wait ended before a receipt came."))
    parser.add_argument("session", metavar="SESSION", help="the session, or the stream")
    parser.add_argument("file", metavar="FILE", nargs="?", default="-",
                        help="the text: its bytes; by default, and for -, standard input")
    # tables/options.toml: options of put, by tools/tables
    parser.add_argument("--outbox", metavar="FILE", required=True, help="the sender's outbox")
    parser.add_argument("--lines", action="store_true", help="each line is a text, without its end")
    parser.add_argument("--close", action="store_true",
                        help="no text: the close, after which no text of the session follows")
    parser.add_argument("--wait", metavar="SECONDS", type=float,
                        help="waits for a sender, and until receipts say that all took effect")
    # end of options of put
    given = parser.parse_args(words)
    data = b"" if given.close else read(given.file)
    asked: List[Optional[Bytes]] = [None] if given.close else (
        list(data.splitlines()) if given.lines else [data])
    until = time.monotonic() + (given.wait or 0)
    with contextlib.closing(awaited_outbox(given.outbox, until)) as outbox:
        with outbox:
            ids = put(outbox, given.session, *asked)
        while given.wait is not None and count_waiting(outbox, ids):
            if time.monotonic() > until:
                print("krbrelay-put: no receipt came yet", file=sys.stderr)
                return 3
            time.sleep(PAUSE)
    return 0


def awaited_outbox(path: str, until: float) -> sqlite3.Connection:
    """The outbox, once a sender has made it, or until then."""
    while True:
        try:
            outbox = open_outbox(path)
            outbox.execute("SELECT 1 FROM sealed LIMIT 1")
            return outbox
        except sqlite3.OperationalError:
            if time.monotonic() > until:
                raise
            time.sleep(PAUSE)


def read(path: str) -> bytes:
    if path == "-":
        return sys.stdin.buffer.read()
    with open(path, "rb") as file:
        return file.read()


def object_of(it: Text) -> Dict[str, Any]:
    """What is printed of a text: as text where it is UTF-8, else in digits."""
    made: Dict[str, Any] = dict(zip(("id", "session", "number", "part"), it))
    try:
        made["text"] = it.data.decode("utf-8")
    except UnicodeDecodeError:
        made["data"] = it.data.hex()
    return {**made, "client": it.client, "stream": it.stream} if it.client else made


class Store:
    """A store, read for the command: files of SQLite, or PostgreSQL by psql."""

    def __init__(self, where: str, after: int, is_awaited: bool) -> None:
        self.where, self.after, self.is_awaited = where, after, is_awaited
        self.last: Dict[str, int] = {}

    def files(self) -> List[str]:
        place = glob.escape(self.where[len("sqlite:"):]).replace("%", "*")
        beside = (".shards", "-wal", "-shm")
        found = sorted(it for it in glob.glob(place) if not it.endswith(beside))
        if not found and not self.is_awaited:
            raise OSError(f"{self.where}: there is no such file; krbrelay-receiver makes it")
        return found

    def next(self, session: Optional[str], limit: int) -> List[Text]:
        """The next texts."""
        if not self.where.startswith("sqlite:"):
            return self.by_psql(session, limit)
        found: List[Text] = []
        for path in self.files():
            place = f"file:{urllib.parse.quote(path)}?mode=ro"
            with contextlib.closing(sqlite3.connect(place, BUSY, uri=True)) as file:
                after = self.last.get(path, self.after)
                left = limit - len(found) if is_made(file) else 0
                rows = list(texts(file, after, session, left)) if left else []
            self.last[path] = rows[-1].id if rows else after
            found += rows
        return found

    def by_psql(self, session: Optional[str], limit: int) -> List[Text]:
        after = self.last.get("", self.after)
        rows = asked_of_psql(self.where, f"SELECT {IN_DIGITS} {chosen(after, session, limit)}")
        found = [text_of([*row[:4], bytes.fromhex(row[4]), *row[5:]]) for row in rows]
        self.last[""] = found[-1].id if found else after
        return found


def is_made(file: sqlite3.Connection) -> bool:
    """Whether a receiver has made its table yet."""
    return bool(file.execute("SELECT 1 FROM sqlite_master WHERE name = 'effect'").fetchall())


def asked_of_psql(where: str, sql: str) -> List[List[str]]:
    """The rows of a query by psql, which gets a password in its environment alone. OSError."""
    parts, environment = urllib.parse.urlsplit(where), dict(os.environ)
    if parts.password:
        environment["PGPASSWORD"] = urllib.parse.unquote(parts.password)
        user, _, host = parts.netloc.rpartition("@")
        where = parts._replace(netloc=f"{user.partition(':')[0]}@{host}").geturl()
    done = subprocess.run(["psql", "-qAtXF", "\t", where, "-c", sql], env=environment, check=False,
                          stdin=subprocess.DEVNULL, capture_output=True, text=True)
    if done.returncode:
        raise OSError(f"the store: {done.stderr.strip()}")
    return [line.split("\t") for line in done.stdout.splitlines()]


def get_command(words: Sequence[str]) -> int:
    """Prints the texts of a receivers' store: a line of JSON each, or with --raw their bytes."""
    parser = argparse.ArgumentParser("krbrelay-get", description=get_command.__doc__, epilog=(
        "What is printed stays in the store. The status is 0, 1 if the store can't be read, and 2 "
        "for a wrong option."))
    parser.add_argument("session", metavar="SESSION", nargs="?", help="only texts of this session")
    # tables/options.toml: options of get, by tools/tables
    parser.add_argument("--store", metavar="WHERE", required=True,
                        help="as the receiver has it: sqlite:FILE or postgresql://.., which is "
                             "asked by psql")
    parser.add_argument("--after", metavar="ID", type=int, default=0,
                        help="only texts after the one with this id")
    parser.add_argument("--count", metavar="N", type=int, help="ends after so many texts")
    parser.add_argument("--follow", action="store_true",
                        help="waits for further texts; only of SQLite, since in PostgreSQL a "
                             "text may be stored after one with a higher id")
    parser.add_argument("--raw", action="store_true", help="prints the bytes of each text alone")
    # end of options of get
    given = parser.parse_args(words)
    if not given.store.startswith(("sqlite:", "postgresql:")):
        parser.error("--store has to begin with sqlite: or postgresql:")
    if given.follow and not given.store.startswith("sqlite:"):
        parser.error("--follow is for SQLite: in PostgreSQL a text may come after one with a "
                     "higher id. Read with krbrelay.carrier.take")
    store, left = Store(given.store, given.after, given.follow), given.count
    while left is None or left > 0:
        found = store.next(given.session, 1000 if left is None else min(left, 1000))
        for it in found:
            line = json.dumps(object_of(it)).encode() + b"\n"
            sys.stdout.buffer.write(it.data if given.raw else line)
        sys.stdout.flush()
        left = None if left is None else left - len(found)
        if not found and not given.follow:
            break
        time.sleep(0 if found else PAUSE)
    return 0


COMMANDS = {"put": put_command, "get": get_command}


def main(words: Sequence[str]) -> int:
    name = os.path.basename(words[0]).rpartition("-")[2]
    if name not in COMMANDS and len(words) > 1 and words[1] in COMMANDS:
        name, words = words[1], words[1:]
    if name not in COMMANDS:
        print("usage: python3 -m krbrelay.carrier put|get ..", file=sys.stderr)
        return 2
    try:
        return COMMANDS[name](words[1:])
    except KeyboardInterrupt:
        return 130
    except (OSError, sqlite3.Error, ValueError) as fault:
        print(f"krbrelay-{name}: {fault}", file=sys.stderr)
        return 1


if __name__ == "__main__":
    sys.exit(main(sys.argv))
