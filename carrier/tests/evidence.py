"""Why a session stands, after a case in which the carrier may lose what it confirmed.

Nothing is taken from carrier/'s word. What the carrier confirmed is what came to senders from NATS
(records.c wrote it down before their code saw it). What it has is asked of each stream itself, offset
by offset (jetstream.py), and libkrbrelay tells the numbers of those frames (numbers.c). Whether a
shard takes frames is tried with a frame of nobody. What a session demands is in the store.

A session may stand for one of two reasons, and each has to be shown:

- LOST: the sender dropped the demanded frame, and was allowed to: it and each frame before it was
  confirmed, at rising offsets. And the stream has the frame nowhere.
- DOWN: the sender still has the demanded frame, or the stream can't be read, and the shard takes no
  frame from anybody, at any node.

All else is a FAULT: a frame that stands in its stream and wasn't taken, one that waits at a sender
whose shard takes frames, and one that was dropped though it wasn't confirmed.
"""
import collections
import contextlib
import dataclasses
import json
import sqlite3
import subprocess

LOST, DOWN, FAULT = "lost", "down", "fault"
PATIENCE = 120          # seconds for one look at a stream
LOCKED = 30             # seconds to wait for an outbox


@dataclasses.dataclass
class Sending:
    """A session in its sender's outbox: numbers from `first` to below `sealed` have frames, those below
    `carried` are carried, those from `kept` on are there, so many; so many texts and closes wait. Without
    receipts `kept` is `carried`; with them a receipt says that all below it took effect."""
    first: int
    sealed: int
    carried: int
    kept: int
    frames: int
    texts: int
    closes: int

    def accounts_for(self, texts):
        """Whether each of so many texts and a close waits, or has a number of its own, and each frame
        that is kept is there: of one text a frame."""
        has_all = self.sealed - self.first + self.texts + self.closes == texts + 1
        return has_all and self.frames == self.sealed - self.kept


@dataclasses.dataclass
class Shard:
    """What a stream has: of each session and number the offsets; None: it can't be read. `content` is
    what stands at an offset."""
    takes: bool
    places: dict | None
    content: dict


def read_outbox(path, name, first):
    """How far a session is in an outbox, at one moment."""
    found = []
    with contextlib.closing(sqlite3.connect(path, timeout=LOCKED)) as file:
        file.execute("BEGIN")
        for sql in ("SELECT next, carried, iif(done < 0, carried, done) FROM session WHERE name = ?",
                    "SELECT count(*) FROM frame WHERE session = ?",
                    "SELECT count(body), count(*) - count(body) FROM text WHERE session = ?"):
            found += file.execute(sql, (name,)).fetchone() or (first, first, first)
    return Sending(first, *found)


# ---- what the carrier confirmed

def confirmations(paths):
    """What came to senders: by session and number the lists and offsets, in pairs."""
    found = collections.defaultdict(lambda: collections.defaultdict(set))
    asked = {}
    for path in paths:
        with open(path, encoding="utf-8", errors="replace") as file:
            for kind, subject, text in (line.rstrip("\n").split(" ", 2) for line in file):
                if kind == "P":
                    note_published(asked, subject, text)
                elif subject in asked:
                    note_answer(found, asked[subject], text)
    return found


def note_published(asked, subject, reply):
    """A frame that was published: under its reply's subject its session, number, list and shard."""
    words, ends = subject.split("."), reply.rsplit(".", 4)
    if words[0] == "krb" and len(ends) == 5:
        made, shard, _, number = ends[1:]
        asked[reply] = (words[2], int(number), int(made), shard)


def note_answer(found, published, text):
    name, number, made, shard = published
    answer = json.loads(text)
    if "error" not in answer and answer.get("stream") == f"KRB_{shard}" and answer.get("seq", 0) > 0:
        found[name][number].add((made, answer["seq"]))


def first_unconfirmed(confirmed, first, end):
    """The first number from `first` on and below `end` of which no copy was confirmed after one of the
    number before, in the same list or a later one; None if there is none."""
    at = (0, 0)
    for number in range(first, end):
        later = [it for it in confirmed.get(number, ()) if it > at]
        if not later:
            return number
        at = min(later)
    return None


# ---- what it has

def read_shard(ask, count, numbers, sessions):
    """A shard's stream. `ask` runs jetstream.py with a word at one node of `count`, and gives what it
    prints, or None; `numbers` is the program, which reads the file of sessions."""
    takes = any(ask(node, "takes") is not None for node in range(count))
    for node in range(count):
        lines = ask(node, "frames")
        if lines is not None:
            return numbered(takes, [line.split(" ") for line in lines.splitlines()], numbers, sessions)
    return Shard(takes, None, {})


def numbers_of(frames, numbers, sessions):
    """The number of each of these frames, which are pairs of a session and digits; "-" where it has none."""
    told = iter(subprocess.run([numbers, sessions], check=True, stdout=subprocess.PIPE, text=True,
                               input="".join(f"{name} {frame}\n" for name, frame in frames if frame),
                               timeout=PATIENCE).stdout.splitlines())
    return [next(told) if frame else "-" for _, frame in frames]


def numbered(takes, frames, numbers, sessions):
    it = Shard(takes, collections.defaultdict(lambda: collections.defaultdict(list)), {})
    told = numbers_of([frame for _, *frame in frames], numbers, sessions)
    for (offset, name, _), number in zip(frames, told):
        it.content[int(offset)] = f"{name} {number}"
        if number != "-":
            it.places[name][int(number)].append(int(offset))
    return it


# ---- the verdict

def gone(confirmed, content):
    """Where a frame was confirmed, and what stands there now."""
    return ", ".join(f"{offset}, where {content.get(offset, 'nothing')} stands"
                     for _, offset in sorted(confirmed)[:3])


def verdict(name, demanded, sending, shard, confirmed):
    """Why a session stands that demands this number, and how that is shown."""
    what = f"{name} demands {demanded}"
    here = shard.places[name][demanded] if shard.places is not None else []
    if here:
        return FAULT, f"{what}, which stands at {here[:5]} of its stream"
    if demanded >= sending.kept:
        return (FAULT if shard.takes else DOWN), (
            f"{what}, which waits at its sender; its shard takes"
            f" {'frames' if shard.takes else 'none, from anybody'}")
    missing = first_unconfirmed(confirmed, sending.first, sending.carried)
    if missing is not None:
        return FAULT, f"{what}, and its sender dropped {missing}, which wasn't confirmed in its turn"
    if shard.places is None:
        return (FAULT if shard.takes else DOWN), f"{what}, and its stream can't be read"
    return LOST, f"{what}, which was confirmed at {gone(confirmed[demanded], shard.content)}"


def closed(world):
    """The sessions whose close took effect. A world has `names` of sessions, and `ask` for its store."""
    return {name for name, in world.ask("SELECT name FROM session WHERE closed = 1")}


def standing(world, first):
    """Of each session that isn't closed why it stands, and how that is shown."""
    demanded = {name: int(number) for name, number in
                world.ask("SELECT name, next FROM session WHERE closed = 0")}
    names = sorted(set(world.names) - closed(world))
    sending = {name: world.sending(name) for name in names}
    shards = {it: world.read_shard(it) for it in set(map(world.shard_of, names))}
    confirmed = confirmations(world.records())
    return [verdict(name, demanded.get(name, first), sending[name], shards[world.shard_of(name)],
                    confirmed[name]) for name in names]
