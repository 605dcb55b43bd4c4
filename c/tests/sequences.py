#!/usr/bin/env python3
"""Random calls of the library upon a few handles, beside a model that says of each call which answer comes.

    sequences.py LIBRARY [CALLS [SEED]]     makes so many calls at least (200,000), the same for the same seed

Frames go from sealers to openers and receivers, and between peers. Arguments are at times wrong in one or several
ways, so that the first reason counts, and handles are at times empty or wiped. Frames are those of the independent
sealer of tests/oracle, and which are refused, and by which check, is what its opener says. Structs and calls are those
of python/krbrelay/library.py. No call writes more bytes than the room that it is given.
"""
import collections
import dataclasses
import functools
import pathlib
import random
import struct
import sys
import tomllib
import types
from ctypes import POINTER, byref, c_char_p, c_int, c_size_t, c_uint8, c_uint32, c_uint64, c_void_p
from typing import Any, Optional

TOP = pathlib.Path(__file__).resolve().parents[2]
sys.path[:0] = [str(TOP / it) for it in ("python", "tests", "tools")]
from krbrelay import library as c  # noqa: E402
from lib.jobs import Session  # noqa: E402
from oracle import frames, opener, reader  # noqa: E402

HANDLES, FRAMES, KEPT, LONGEST, DATA, SEVERAL, TOGETHER = 4, 16, 8, 600, 48, 13, 10
NUMBERS, LAST = 512, 2**32 - 1
SECONDS, YEAR_10000, EDGES = 1_700_000_000, 253_402_300_800, (-300_000_000, 300_000_001)
KEYS = {17: bytes(range(16)), 18: bytes([0x11]) * 32}
SAFE, PRIV = 20, 21
TEXT, BATCH, CLOSE = 1, 2, 3
IF_PRESENT, REQUIRED = 1, 2
EMPTY, LIVE, WIPED = range(3)
CLIENT, SERVER = 1, 255             # the last byte of 10.0.0.X
LETTERS = b"abcdefghijklmnopqrstuvwxyz"     # no record begins so
TOO_LONG = b"x" * (c.USER_DATA_LIMIT + 1)
BEHIND = bytes([0xA5]) * 32         # after the room of a call, which it mustn't write
UNTOLD = 777
with open(TOP / "tables/answers.toml", "rb") as _file:
    ANSWERS = tomllib.load(_file)
A = types.SimpleNamespace(**{name: it["number"] for name, it in ANSWERS.items()})
# Calls that the Python package doesn't make.
_MOMENT, _PROGRESS, _SIZE = POINTER(c.MomentStruct), POINTER(c.ProgressStruct), POINTER(c_size_t)
_BYTES, _ROOM = [c_char_p, c_size_t], [POINTER(c_uint8), c_size_t]
MORE: dict[str, tuple[Any, list[Any]]] = {
    "opener_unseal_in_place": (c_uint32, [c_void_p, *_ROOM, c_uint64, _MOMENT, _SIZE]),
    "receiver_take": (c_uint32, [c_void_p, *_BYTES, _MOMENT, POINTER(c_uint32), *_ROOM, _SIZE]),
    "sealer_seal_now": (c_uint32, [c_void_p, *_BYTES, *_ROOM, _SIZE]),
    "sealer_seal_record_now": (c_uint32, [c_void_p, c_uint32, *_BYTES, *_ROOM, _SIZE]),
    "peer_seal_now": (c_uint32, [c_void_p, *_BYTES, *_ROOM, _SIZE]),
    "progress_new": (c_uint32, [_PROGRESS, c_uint64, c_uint64, c_uint64]),
    "progress_store": (c_uint32, [_PROGRESS, c_uint64]), "progress_publish": (c_uint32, [_PROGRESS, c_uint64]),
    "progress_confirm": (c_uint32, [_PROGRESS, c_uint64, c_uint64, POINTER(c_uint32)]),
    "progress_rewind": (c_uint32, [_PROGRESS, POINTER(c_uint64)]),
    "now": (c_uint32, [_MOMENT]), "address_from": (c_uint32, [POINTER(c.AddressStruct), *_BYTES]),
    "is_supported": (c_int, []), "is_refusal": (c_int, [c_uint32]), "strerror": (c_char_p, [c_uint32]),
    "clear_stack": (None, []),
}


@dataclasses.dataclass
class Held:
    """A handle, and what it holds: the number that it seals or takes next, and of a peer what it opens next."""
    handle: c.HandleStruct = dataclasses.field(default_factory=c.HandleStruct)
    life: int = EMPTY
    etype: int = 17
    mode: int = SAFE
    number: int = 0
    names_receiver: bool = False
    closed: bool = False
    expected: int = 0
    host: int = CLIENT


@dataclasses.dataclass
class Sealed:
    """A frame, and what was sealed: user data of a record have its kind, and others 0."""
    by: Held
    frame: bytes
    user: bytes
    at: c.MomentStruct
    kind: int = 0


Kept = collections.deque[Sealed]
for _of, _name in ((frames, "derive"), (opener, "cts_open"), (reader, "message"), (reader, "part")):
    setattr(_of, _name, functools.lru_cache(1024)(getattr(_of, _name)))     # asked again and again


def unless(fact: bool, answer: int) -> int:
    """The reason of a refusal: the first one that isn't 0 is answered."""
    return 0 if fact else answer


def of_empty(it: Held) -> int:
    return unless(it.life != EMPTY, A.EMPTY)


def of_life(it: Held) -> int:
    return of_empty(it) or unless(it.life != WIPED, A.WIPED)


def of_mode(mode: int) -> int:
    return unless(mode in (SAFE, PRIV), A.MODE)


def host(last: int) -> c.AddressStruct:
    return c.AddressStruct(2, 4, (10, 0, 0, last))


def micros(at: c.MomentStruct) -> int:
    return 1_000_000 * at.seconds + at.microseconds


@functools.cache
def session_from(etype: int, mode: int, sender: int) -> Session:
    """What is opened of this sender, for the independent opener."""
    origin, to = ((2, bytes([10, 0, 0, it])) for it in (sender, CLIENT + SERVER - sender))
    return Session(KEYS[etype], "safe" if mode == SAFE else "priv", 0, origin, to)


def sealed(by: Held, user: bytes, at: c.MomentStruct, confounder: bytes, kind: int = 0) -> Sealed:
    """By the independent sealer."""
    it = session_from(by.etype, by.mode, by.host)
    body = frames.body(user, micros(at), by.number, it.origin, it.to if by.names_receiver else None)
    frame = frames.seal_safe(it.key, body) if by.mode == SAFE else frames.seal_priv(it.key, body, confounder)
    return Sealed(dataclasses.replace(by), frame, user, at, kind)


def of_unsealing(by: Held, it: Sealed, number: int, at: c.MomentStruct, sender: int = CLIENT) -> int:
    """By the independent opener, whose user data are those that were sealed."""
    try:
        user = opener.unseal(session_from(by.etype, by.mode, sender), number, micros(at), it.frame)
    except opener.Refused as refused:
        return refused.args[0]
    return unless(user == it.user, UNTOLD)


def of_taking(by: Held, it: Sealed, at: c.MomentStruct, room: int) -> int:
    return unless(not by.closed, A.AFTER_CLOSE) or of_unsealing(by, it, by.number, at) \
        or unless(it.kind != 0, A.BAD_RECORD) or unless(len(it.user) <= 1 + room, A.ROOM)


def of_opening(by: Held, it: Sealed, demand: c.DemandStruct, at: c.MomentStruct) -> int:
    """By the independent opener, which gives a body of which nothing is demanded."""
    try:
        opener.read(reader.message, it.frame)
        opener.refuse(A.MSG_TYPE, by.mode != it.by.mode)
        _, _, _, number, sender, receiver = opener.authentic(KEYS[by.etype], it.frame)
    except opener.Refused as refused:
        return refused.args[0]
    is_from = demand.how_sender == 0 or sender[1][3] == demand.sender.bytes[3]
    is_to = demand.how_receiver == 0 or receiver[1][3] == demand.receiver.bytes[3] if receiver \
        else demand.how_receiver != REQUIRED
    is_in_time = demand.how_time == 0 or abs(micros(it.at) - micros(at)) <= 1_000_000 * demand.skew
    return unless(is_from and is_to, A.BADADDR) or unless(is_in_time, A.SKEW) \
        or unless(demand.how_number == 0 or demand.number == number, A.BADORDER)


class Sequences:
    """The handles, the frames and the calls that are made of them."""

    def __init__(self, calls: Any, seed: int) -> None:
        self.calls, self.random, self.made = calls, random.Random(seed), 0
        self.sealers, self.openers, self.receivers = ([Held() for _ in range(HANDLES)] for _ in range(3))
        self.peers = [(Held(host=CLIENT), Held(host=SERVER)) for _ in range(HANDLES)]
        self.frames, self.messages = Kept(maxlen=FRAMES), [Kept(maxlen=KEPT) for _ in range(HANDLES)]
        self.window, self.taken, self.progress = c.WindowStruct(), set(), c.ProgressStruct()
        weights = {self.make_sealer: 1, self.seal: 3, self.seal_record: 3, self.seal_now: 1, self.seal_many: 2,
                   self.ask_sealer: 1, self.make_opener: 1, self.unseal: 3, self.open_frame: 4, self.make_receiver: 1,
                   self.take: 3, self.take_several: 2, self.end: 1, self.use_peer: 6, self.take_number: 1,
                   self.go_on: 1, self.name_answers: 1, self.ask_system: 1, self.read_header: 1}
        self.steps = [step for step, count in weights.items() for _ in range(count)]

    def draw(self, below: int) -> int:
        return int(self.random.random() * below)

    def one_in(self, count: int) -> bool:
        return self.random.random() * count < 1

    def holds(self, fact: bool, what: str, *told: Any) -> None:
        if not fact:
            raise AssertionError(f"after {self.made} calls: not so: {what}: {told}"[:300])

    def asked(self, name: str, *words: Any) -> Any:
        """What a call returns."""
        self.made += 1
        return getattr(self.calls, f"krbrelay_{name}")(*words)

    def call(self, name: str, expected: int, *words: Any) -> None:
        answer = self.asked(name, *words)
        self.holds(answer == expected, f"{name} answers {answer} as the model, {expected}")

    def wrote(self, name: str, expected: int, given: tuple[Any, ...], room: int, *after: Any) -> bytes:
        """What a call leaves in the room that it is given."""
        output = (c_uint8 * (room + len(BEHIND))).from_buffer_copy(bytes(room) + BEHIND)
        self.call(name, expected, *given, output, room, *after)
        self.holds(bytes(output)[room:] == BEHIND, f"{name} writes no more than its room")
        return bytes(output)[:room]

    def gave(self, name: str, expected: int, given: tuple[Any, ...], room: int, *after: Any) -> bytes:
        """The bytes that a call gives, which tells their size unless it is refused."""
        size = c_size_t(UNTOLD)
        output = self.wrote(name, expected, given, room, byref(size), *after)
        self.holds(size.value == UNTOLD if expected else size.value <= room, f"{name} tells a size", size.value)
        return b"" if expected else output[:size.value]

    # ---- arguments, some with the reason for which they are refused

    def spoil(self, *ways: tuple[Any, str, Any]) -> None:
        """At times sets one or several of these fields."""
        for of, field, value in ways:
            if self.one_in(40):
                setattr(of, field, value)

    def some_moment(self) -> tuple[c.MomentStruct, int]:
        """One within some minutes of the first frames, and at times none."""
        at = c.MomentStruct(SECONDS + self.draw(400), self.draw(1_000_000), 0)
        self.spoil((at, "reserved", 1 << self.draw(32)), (at, "microseconds", 1_000_000 + self.draw(3)),
                   (at, "seconds", YEAR_10000 + self.draw(2)))
        is_one = at.seconds < YEAR_10000 and at.microseconds < 1_000_000
        return at, unless(at.reserved == 0, A.ARGUMENT) or unless(is_one, A.MOMENT)

    def some_type(self, it: Held) -> None:
        it.etype = 16 + 3 * self.draw(2) if self.one_in(30) else 17 + self.draw(2)
        it.mode = 22 if self.one_in(30) else SAFE + self.draw(2)

    def some_user_data(self) -> bytes:
        return bytes(self.random.choices(LETTERS, k=self.draw(DATA)))

    def some_room(self, size: int) -> int:
        """Enough, exactly enough, or too little."""
        return LONGEST if self.one_in(2) else size - (size > 0 and self.one_in(4))

    def some_session(self, it: Held, first: int) -> tuple[c.SessionStruct, int]:
        to = host(CLIENT + SERVER - it.host) if it.names_receiver else c.AddressStruct()
        session = c.SessionStruct(it.mode, first, host(it.host), it.names_receiver, to)
        session.reserved[self.draw(5)] = 7 * self.one_in(40)
        self.spoil((session.receiver, "len", 41), (session.sender, "len", 41))
        is_plain = not any(session.reserved) and (session.has_receiver or session.receiver.len == 0)
        has_addresses = session.sender.len <= 40 and session.receiver.len <= 40
        return session, unless(is_plain, A.ARGUMENT) or of_mode(it.mode) or unless(has_addresses, A.ADDRESS)

    def some_end(self, it: Held) -> tuple[c.ExpectStruct, int]:
        """What an opener or a receiver is made of: mostly what some frame was sealed by."""
        by = self.random.choice(self.frames).by
        it.number, it.etype, it.mode = by.number, by.etype, by.mode
        if self.one_in(3):
            self.some_type(it)
        expect = c.ExpectStruct(it.mode, host(CLIENT), host(SERVER), 0, 1, 300)
        expect.reserved[self.draw(4)] = self.one_in(40)
        self.spoil((expect.receiver, "len", 41))
        reason = unless(not any(expect.reserved), A.ARGUMENT) or of_mode(it.mode)
        return expect, reason or unless(expect.receiver.len <= 40, A.ADDRESS)

    def some_demand(self, it: Sealed) -> tuple[c.DemandStruct, int]:
        """Demands of which each may be met or not, and at times none that there is."""
        how_sender, how_receiver, how_time, how_number = (self.draw(it) for it in (3, 3, 4, 4))
        demand = c.DemandStruct(how_sender, how_receiver, how_time, how_number, needs_time_or_number=self.draw(2))
        if how_sender:
            demand.sender = host(2 if self.one_in(8) else CLIENT)
        if how_receiver:
            demand.receiver = host(254 if self.one_in(8) else SERVER)
        if how_time:
            demand.skew = self.draw(400)
        if how_number:
            demand.number = self.draw(60) if self.one_in(8) else it.by.number
        wrong = ({"how_sender": 3}, {"how_receiver": 3}, {"how_number": 4}, {"how_time": 4}, {"how_time": 0, "skew": 1},
                 {"needs_time_or_number": 2}, {"how_receiver": 0, "receiver": host(SERVER)},
                 {"how_number": 0, "number": 1}, {"reserved": (0, 0, 0, 1)})
        chosen = self.random.choice(wrong) if self.one_in(25) else {}
        for name, value in chosen.items():
            setattr(demand, name, value)
        return demand, unless(not chosen, A.ARGUMENT)

    def some_peer_demand(self, it: Held, number: int) -> tuple[c.DemandStruct, int]:
        demand = c.DemandStruct(REQUIRED, IF_PRESENT, REQUIRED, REQUIRED, number, 300,
                                host(CLIENT + SERVER - it.host), host(it.host))
        self.spoil((demand, "how_number", self.draw(2)), (demand, "number", LAST + 2 + self.draw(2)))
        return demand, unless(demand.how_number >= 2 and demand.number <= LAST + 1, A.ARGUMENT)

    def fitting_frame(self, by: Held, number: Optional[int] = None) -> Sealed:
        """One that a handle of this mode, type and number may accept, more often than not."""
        found = self.random.choices(self.frames, k=20)
        return self.cut(next((it for it in found if (it.by.mode, it.by.etype) == (by.mode, by.etype)
                              and number in (None, it.by.number)), found[0]))

    def cut(self, it: Sealed) -> Sealed:
        """At times it has a byte more, or one less."""
        frame = it.frame + b"\0" if self.one_in(2) else it.frame[:-1]
        return dataclasses.replace(it, frame=frame) if self.one_in(30) else it

    # ---- handles

    def make(self, name: str, it: Held, before: int, after: int, *words: Any) -> None:
        """A handle of a key, which is mostly right, with reasons that come before the key's and after them."""
        key = KEYS[17 if it.etype & 1 else 18]
        size = self.draw(33) if self.one_in(30) else len(key)
        reason = unless(it.etype in KEYS, A.ETYPE) or unless(size == len(key), A.KEY_SIZE)
        expected = before or reason or after
        self.call(name, expected, byref(it.handle), it.etype, (c_uint8 * 32)(*key), size, *words)
        it.life = EMPTY if expected else LIVE
        self.holds((it.handle.count == 0) == (it.life == EMPTY), f"{name} leaves an empty handle")

    def make_sealer(self, i: int) -> None:
        it = self.sealers[i]
        self.some_type(it)
        it.names_receiver, it.number = self.one_in(2), LAST - self.draw(20) if self.one_in(4) else self.draw(50)
        session, reason = self.some_session(it, it.number)
        self.make("sealer_new", it, A.OK, reason, session)

    def make_opener(self, i: int) -> None:
        expect, reason = self.some_end(self.openers[i])
        self.make("opener_new", self.openers[i], A.OK, reason, expect)

    def make_receiver(self, i: int) -> None:
        it = self.receivers[i]
        expect, reason = self.some_end(it)
        it.closed, it.number = self.one_in(8), LAST + 1 + self.draw(2) if self.one_in(40) else it.number
        before = unless(it.number <= LAST + 1, A.ARGUMENT)
        self.make("receiver_new", it, before, reason, expect, it.number, 5 * it.closed)

    def make_peer(self, it: Held, far: Held) -> None:
        """Mostly of the other end's type, mode and numbers."""
        self.some_type(it)
        it.expected, it.number = self.draw(50), LAST - self.draw(9) if self.one_in(4) else self.draw(50)
        if far.life == LIVE and not self.one_in(4):
            it.etype, it.mode, it.expected = far.etype, far.mode, far.number
            it.number = far.expected if far.expected <= LAST else 0
        it.names_receiver = True
        (session, after), (demand, before) = self.some_session(it, it.number), self.some_peer_demand(it, it.expected)
        self.make("peer_new", it, before, after, session, demand)

    def resume_peer(self, it: Held) -> None:
        """An end is exported, and goes on from that, at times with an argument that is wrong."""
        state, number, opened = (c_uint8 * c.PEER_STATE_SIZE)(), c_uint64(99), c_uint64(99)
        self.call("peer_state", of_empty(it), byref(it.handle), number, opened)
        self.call("peer_export", of_empty(it), byref(it.handle), state)
        told = number.value, opened.value, bytes(state)
        spelt = b"krs\1" + struct.pack(">QQ", it.number, it.expected)
        wanted = (it.number, it.expected, spelt) if it.life else (99, 99, bytes(c.PEER_STATE_SIZE))
        self.holds(told == wanted, "a peer's state", told, wanted)
        if it.life == EMPTY or self.one_in(2):
            return
        is_changed, first, again = (self.one_in(20) for _ in range(3))
        state[self.draw(4)] ^= is_changed
        (session, after), (demand, before) = self.some_session(it, first), self.some_peer_demand(it, again)
        before = before or unless(not is_changed and session.first == demand.number == 0, A.ARGUMENT) \
            or unless(it.number <= LAST, A.EXHAUSTED)
        self.make("peer_resume", it, before, after, session, demand, state)

    def end(self, i: int) -> None:
        """Frees a handle, or wipes it."""
        kind, it = self.random.choice((("sealer", self.sealers[i]), ("opener", self.openers[i]),
                                       ("receiver", self.receivers[i]), ("peer", self.peers[i][self.draw(2)])))
        if kind in ("sealer", "opener") and self.one_in(2):
            self.asked(f"{kind}_wipe", byref(it.handle))
            it.life = WIPED if it.life == LIVE else it.life
        elif self.one_in(2):
            self.asked(f"{kind}_free", byref(it.handle))
            it.life = EMPTY

    # ---- sealing

    def of_sealing(self, by: Held, user: bytes, reason: int) -> int:
        return reason or unless(by.life != WIPED, A.WIPED) or unless(len(user) <= c.USER_DATA_LIMIT, A.TOO_LONG) \
            or unless(by.number <= LAST, A.EXHAUSTED)

    def seal_by(self, by: Held, to: Kept, name: str, given: tuple[Any, ...], user: bytes, kind: int = 0,
                before: int = 0) -> None:
        """Seals user data, for which there may be a reason not to."""
        (at, reason), confounder = self.some_moment(), self.random.randbytes(16)
        expected = of_empty(by) or before or self.of_sealing(by, user, reason)
        made = [] if expected else [sealed(by, user, at, confounder, kind)]
        room = self.some_room(sum(len(it.frame) for it in made))
        expected = expected or unless(len(made[0].frame) <= room, A.ROOM)
        found = self.gave(name, expected, (byref(by.handle), *given, byref(at), confounder), room)
        for it in made if expected == A.OK else ():
            self.holds(found == it.frame, "the independent sealer's frame", found, it)
            to.append(it)
            by.number += 1

    def seal(self, i: int) -> None:
        user = TOO_LONG if self.one_in(60) else self.some_user_data()
        self.seal_by(self.sealers[i], self.frames, "sealer_seal", (user, len(user)), user)

    def seal_record(self, i: int) -> None:
        kind, texts = 1 + self.draw(3), [b"text"[:self.draw(5)] for _ in range(2 + self.draw(2))]
        given = self.random.choice((0, 4, 5, LAST)) if self.one_in(20) else kind
        user = {TEXT: b"D" + self.random.randbytes(self.draw(DATA)), BATCH: frames.batch(texts),
                CLOSE: b"Cx" if self.one_in(5) else b"C"}[kind]         # a close has no bytes
        before, words = unless(given == kind and user != b"Cx", A.RECORD), (given, user[1:], len(user) - 1)
        self.seal_by(self.sealers[i], self.frames, "sealer_seal_record", words, user, kind, before)

    def seal_now(self, i: int) -> None:
        """With the system's clock and randomness: the message is kept nowhere, so the other end misses it."""
        name, by, kind = self.random.choice((
            ("sealer_seal_now", self.sealers[i], ()), ("sealer_seal_record_now", self.sealers[i], (TEXT,)),
            ("peer_seal_now", self.peers[i][self.draw(2)], ())))
        expected = of_life(by) or unless(by.number <= LAST, A.EXHAUSTED)
        self.gave(name, expected, (byref(by.handle), *kind, b"hi", 2), LONGEST)
        by.number += expected == A.OK

    def seal_many(self, i: int) -> None:
        """Up to 13 messages, or too many, of which each may be none that can be sealed: the first such one is told."""
        name, by, to = self.random.choice((("sealer_seal_many", self.sealers[i], self.frames),
                                           ("peer_seal_many", self.peers[i][self.draw(2)], self.messages[i])))
        count, first, made = c.MOST_MESSAGES + 1 if self.one_in(20) else self.draw(SEVERAL + 1), UNTOLD, []
        users = [TOO_LONG if self.one_in(200) else self.some_user_data() for _ in range(count)]
        ats, confounders = [self.some_moment() for _ in users], [self.random.randbytes(16) for _ in users]
        expected = unless(count <= c.MOST_MESSAGES, A.ARGUMENT) or of_empty(by)
        for k, (user, (at, reason)) in enumerate(zip(users, ats) if expected == A.OK else ()):
            one = dataclasses.replace(by, number=by.number + k)
            expected = self.of_sealing(one, user, reason)
            if expected:
                first = k
                break
            made.append(sealed(one, user, at, confounders[k]))
        size = sum(len(it.frame) for it in made)
        room = SEVERAL * LONGEST if self.one_in(2) else self.some_room(size)
        expected = expected or unless(size <= room, A.ROOM)
        given = (c.UnsealedStruct * (count + 1))(*(
            c.UnsealedStruct(user, len(user), at, tuple(them)) for user, (at, _), them in zip(users, ats, confounders)))
        sizes, failed = (c_size_t * (count + 1))(), c_size_t(UNTOLD)
        found = self.wrote(name, expected, (byref(by.handle), given, count), room, sizes, failed)
        self.holds(failed.value == first, "which of several failed", failed.value, first)
        if expected == A.OK:
            self.holds(found[:size] == b"".join(it.frame for it in made), "the frames of several", found)
            self.holds(sizes[:count] == [len(it.frame) for it in made], "the sizes of several", sizes[:count])
            to.extend(made)
            by.number += count

    def ask_sealer(self, i: int) -> None:
        it, told, size, (at, reason) = self.sealers[i], c_uint64(99), c_size_t(0), self.some_moment()
        self.call("sealer_next", of_empty(it), byref(it.handle), told)
        self.holds(told.value == (it.number if it.life else 99), "a sealer's number", told.value)
        user = TOO_LONG if self.one_in(9) else self.some_user_data()
        expected = of_empty(it) or reason or unless(user != TOO_LONG, A.TOO_LONG)
        self.call("sealer_frame_size", expected, byref(it.handle), len(user), at, size)
        wanted = 0 if expected else len(sealed(it, user, at, bytes(16)).frame)
        self.holds(size.value == wanted <= self.asked("frame_size", len(user)), "a frame's size", size.value, wanted)
        mode = 22 if self.one_in(30) else SAFE + self.draw(2)
        expected = of_empty(it) or of_mode(mode)
        self.call("sealer_set_mode", expected, byref(it.handle), mode)
        it.mode = it.mode if expected else mode

    # ---- opening

    def unseal(self, i: int) -> None:
        by, (at, reason), size = self.openers[i], self.some_moment(), c_size_t(UNTOLD)
        it = self.fitting_frame(by)
        number = self.draw(60) if self.one_in(6) else it.by.number
        opened, room = of_life(by) or reason or of_unsealing(by, it, number, at), self.some_room(len(it.user))
        expected = opened or unless(len(it.user) <= room, A.ROOM)
        user = self.gave("opener_unseal", expected, (byref(by.handle), it.frame, len(it.frame), number, at), room)
        self.holds(bool(expected) or user == it.user, "the user data that were sealed")
        same = (c_uint8 * len(it.frame)).from_buffer_copy(it.frame)
        self.call("opener_unseal_in_place", opened, byref(by.handle), same, len(same), number, at, size)
        self.holds(size.value == (UNTOLD if opened else len(it.user)), "the size of what is unsealed in place")
        wanted = it.frame if opened else it.user + it.frame[len(it.user):]
        self.holds(bytes(same) == wanted, "what is in place, and what stands after it", bytes(same))

    def open_frame(self, i: int) -> None:
        by, (at, reason), carried = self.openers[i], self.some_moment(), c.CarriedStruct()
        it = self.fitting_frame(by)
        (demand, no_demand), room = self.some_demand(it), self.some_room(len(it.user))
        expected = of_life(by) or no_demand or reason or of_opening(by, it, demand, at) \
            or unless(len(it.user) <= room, A.ROOM)
        given = byref(by.handle), it.frame, len(it.frame), demand, at
        user = self.gave("opener_open", expected, given, room, carried)
        self.holds(bool(expected) or user == it.user, "the user data that were sealed")
        self.carries(carried, None if expected else it)

    def open_by_peer(self, by: Held, messages: Kept) -> None:
        """Any message of the pair, its own too."""
        it, (at, reason), carried = self.cut(self.random.choice(messages)), self.some_moment(), c.CarriedStruct()
        room, sender = self.some_room(len(it.user)), CLIENT + SERVER - by.host
        expected = of_empty(by) or reason or of_unsealing(by, it, by.expected, at, sender) \
            or unless(len(it.user) <= room, A.ROOM)
        user = self.gave("peer_open", expected, (byref(by.handle), it.frame, len(it.frame), at), room, carried)
        self.holds(bool(expected) or user == it.user, "the user data that were sealed")
        self.carries(carried, it if expected in (A.OK, A.BADORDER) else None)
        by.expected += expected == A.OK

    def carries(self, carried: c.CarriedStruct, it: Optional[Sealed]) -> None:
        """What a frame carries, or nothing."""
        told = (carried.has_number, carried.number, carried.seconds, carried.microseconds, carried.has_receiver,
                carried.sender.len, carried.sender.bytes[3])
        wanted = (1, it.by.number, it.at.seconds, it.at.microseconds, it.by.names_receiver, 4, it.by.host) if it \
            else (0,) * 7
        self.holds(told == wanted, "what a frame carries", told, wanted)

    def takes(self, by: Held, it: Sealed, answer: int, number: Optional[int], kind: int, data: bytes) -> None:
        """What is told of a frame, after which the receiver goes on if it accepted it."""
        wanted = it.by.number if answer in (A.OK, A.BADORDER) else UNTOLD
        self.holds(number in (None, wanted), "the number of a frame", number, wanted)
        self.holds((kind, data) == ((99, b"") if answer else (it.kind, it.user[1:])), "a record", kind, data)
        if answer == A.OK:
            by.number, by.closed = by.number + 1, it.kind == CLOSE

    def take(self, i: int) -> None:
        by, (at, reason), kind, number = self.receivers[i], self.some_moment(), c_uint32(99), c_uint64(UNTOLD)
        it = self.fitting_frame(by, by.number)
        room = self.some_room(max(0, len(it.user) - 1))
        expected = of_empty(by) or reason or of_taking(by, it, at, room)
        name, after = ("receiver_take_numbered", (number,)) if self.one_in(2) else ("receiver_take", ())
        data = self.gave(name, expected, (byref(by.handle), it.frame, len(it.frame), at, kind), room, *after)
        self.takes(by, it, expected, number.value if after else None, kind.value, data)
        expected, closed = c_uint64(99), c_uint32(99)
        self.call("receiver_state", of_empty(by), byref(by.handle), expected, closed)
        told = expected.value, closed.value
        self.holds(told == ((by.number, by.closed) if by.life else (99, 99)), "a receiver's state", told)

    def take_several(self, i: int) -> None:
        """Several frames in one call, of which the receiver may accept some."""
        by, (at, reason), used = self.receivers[i], self.some_moment(), 0
        chosen = [self.fitting_frame(by, by.number) for _ in range(self.draw(TOGETHER + 1))]
        if chosen and reason == A.OK and self.one_in(2):        # at an edge of the skew
            at.seconds, at.microseconds = divmod(micros(chosen[0].at) + self.random.choice(EDGES), 1_000_000)
        room = TOGETHER * LONGEST if self.one_in(2) else self.draw(TOGETHER * LONGEST // 4)
        given = (c.FrameStruct * (TOGETHER + 1))(*(c.FrameStruct(it.frame, len(it.frame)) for it in chosen))
        taken = (c.TakenStruct * (TOGETHER + 1))(*(c.TakenStruct(555, 99, UNTOLD, UNTOLD) for _ in chosen))
        expected, words = of_empty(by) or reason, (byref(by.handle), given, len(chosen), at)
        output = self.wrote("receiver_take_many", expected, words, room, taken)
        for it, told in zip(chosen, taken):
            answer = 555 if expected else of_taking(by, it, at, room - used)
            self.holds(told.answer == answer, "the answer to one of several", told.answer, answer)
            self.holds(answer == A.OK or told.size == UNTOLD, "a refused frame has no size", told.size)
            data = b"" if answer else output[used:used + told.size]
            self.takes(by, it, answer, told.number, told.kind, data)
            used += len(data)

    def use_peer(self, i: int) -> None:
        """Of a pair of a client and a server."""
        place, messages, what = self.draw(2), self.messages[i], self.draw(19)
        it, far = self.peers[i][place], self.peers[i][1 - place]
        if what < 2:
            self.make_peer(it, far)
        elif what < 8:
            user = TOO_LONG if self.one_in(60) else self.random.randbytes(self.draw(DATA))
            self.seal_by(it, messages, "peer_seal", (user, len(user)), user)
        elif what < 10:
            self.resume_peer(it)
        elif messages:
            self.open_by_peer(it, messages)

    # ---- without a handle

    def take_number(self, _: int) -> None:
        highest = max(self.taken, default=0)
        number = max(0, highest - 70) + self.draw(75)
        if number >= NUMBERS:
            self.taken = set(range(self.draw(100)))
            self.asked("window_new", self.window, len(self.taken))
            return
        expected = unless(number + 64 > highest, A.TOO_OLD) or unless(number not in self.taken, A.REPEATED)
        self.call("window_take", expected, self.window, number)
        self.taken.add(number)

    def go_on(self, _: int) -> None:
        """A carrier's progress."""
        it, count, counts, again = self.progress, self.draw(4), c_uint32(9), c_uint64(0)
        if self.one_in(20):
            self.call("progress_new", unless(count < 2, A.ARGUMENT), it, 9, count * 5, 1)
        stored, published, carried = it.next, it.sent, it.carried
        number, offset = carried + self.draw(2), it.at + self.draw(2)
        self.call("progress_store", A.OK, it, count)
        self.call("progress_publish", A.OK, it, count)
        self.holds((it.next, it.sent) == (stored + count, published + count), "what is stored and published")
        is_good = number == carried and number < it.next and offset > it.at
        self.call("progress_confirm", A.OK, it, number, offset, counts)
        self.holds((counts.value, it.carried) == (is_good, carried + is_good), "what is confirmed")
        if self.one_in(9):
            wanted = it.sent - it.carried, it.carried
            self.call("progress_rewind", A.OK, it, again)
            self.holds((again.value, it.sent) == wanted, "what is published again")

    def name_answers(self, _: int) -> None:
        """Of each number what tables/answers.toml has of it."""
        number = self.draw(70) if self.one_in(2) else 900 + self.draw(25)
        known = next((it for it in ANSWERS.values() if it["number"] == number), {"class": "unknown", "text": ""})
        expected, is_refusal = unless(known["text"] != "", A.ARGUMENT), known["class"] == "refusal"
        name, text = (self.gave(f"answer_{it}", expected, (number,), c.TEXT_SIZE) for it in ("name", "text"))
        self.holds(text.decode() == known["text"], "an answer's text", text)
        self.holds(bool(expected) or name != b"" and text == self.asked("strerror", number), "an answer's name", name)
        told = self.asked("is_refusal", number), self.asked("class_of", number) == 1
        self.holds(told == (is_refusal, is_refusal), "whether it is a refusal", told)

    def ask_system(self, _: int) -> None:
        now, address, here = c.MomentStruct(0, 0, 9), c.AddressStruct(), self.random.randbytes(4)
        self.holds(self.asked("version") >> 16 == c.MAJOR and self.asked("is_supported") == 1, "what is loaded")
        self.call("now", A.OK, now)
        self.holds(now.reserved == 0 and now.microseconds < 1_000_000, "the time")
        self.call("address_from", A.OK, address, struct.pack("=HH4s8x", 2, 0, here), 16)
        self.holds(address.len == 4 and bytes(address.bytes[:4]) == here, "an address")
        self.asked("clear_stack")

    def read_header(self, _: int) -> None:
        it, header, cut = self.random.choice(self.frames), c.HeaderStruct(), self.one_in(10)
        self.call("message_header", unless(not cut, A.MALFORMED), it.frame, len(it.frame) - cut, header)
        wanted = it.by.mode, it.by.mode == SAFE
        self.holds(cut or (header.kind, header.has_number) == wanted, "what a header tells")


def main(path: str, most: int = 200_000, seed: int = 1) -> int:
    calls = c.load(path)
    for name, (result, parameters) in MORE.items():
        call = getattr(calls, f"krbrelay_{name}")
        call.restype, call.argtypes = result, parameters
    it = Sequences(calls, seed)
    try:
        while not it.frames:
            it.make_sealer(0)
            it.seal(0)
        while it.made < most:
            it.random.choice(it.steps)(it.draw(HANDLES))
    except AssertionError as fault:
        print(f"sequences: FAILED with seed {seed}: {fault}")
        return 1
    print(f"sequences: {it.made} calls, each answered as the model says")
    return 0


if __name__ == "__main__":
    sys.exit(main(sys.argv[1], *map(int, sys.argv[2:4])))
