"""Both ends of a carrier as state machines: what a sender and a receiver do, without doing it.

A program that brings its own broker and database passes in what happened, and does what they say.
No call waits or reads a clock: times are milliseconds of a clock that is never set. The sender is
the only one that repeats, and a receipt is the only word that deletes.

    sending = Sending(Stored(next=0, list=1), now)
    sending.sealed(3)                           # three frames are stored
    command = sending.serve(room=8, now=now)    # Publish(number=0, count=3)

Each call is proved (krb_engine); docs/ENGINE.md has the events and the commands. Threads may share
a value of this module: its calls come one after another, and one that finds its own thread inside
is a RuntimeError. None of them can be copied.
"""
from __future__ import annotations

import enum
import weakref
from ctypes import byref, c_uint8, c_uint32, c_uint64
from dataclasses import dataclass
from typing import Any, Callable, NamedTuple, Optional, Tuple, Union

from krbrelay.errors import check
from krbrelay.library import (
    HISTORY_SIZE, CommandStruct, FlowStruct, HandleStruct, HeadStruct, OpeningStruct, PauseStruct,
    ReadingStruct, ReceiptStruct, ReceivingStruct, RowStruct, SeenStruct, SendingStruct,
    ServedStruct, StoredStruct, library)
from krbrelay.turns import Turns, called, in_turn
from krbrelay.values import Bytes, bytes_of, flag, number_or_0, ranged

NEVER = 2**64 - 1
"""The time of a Wake that no pause ends."""


# ---- answers

class Asks(enum.IntEnum):
    """What a receipt asks for."""
    NOTHING = 1
    MISSING = 2
    """A later frame came: the demanded one is missing."""
    REFUSED = 3
    """The demanded one was refused for a reason that may pass."""


class Ended(enum.IntEnum):
    """Why a session's end at a sender is stopped."""
    OLDER = 1
    """More took effect than this outbox has sealed: it is an older copy."""
    FORKED = 2
    """Other frames took effect than those of this outbox."""


class Heard(enum.IntEnum):
    """What a sender finds by a receipt."""
    NOTHING = 0
    DELIVERED = 1
    """All frames below `done` took effect: they may be deleted."""
    ENDED = 2
    """The session is stopped."""
    AGAIN = 3
    """Of a lane: nothing yet, since the own digest can't be read now. It is to be heard again."""


class Stands(enum.IntEnum):
    """Why a session stands, for whoever looks after it."""
    OLDER = 1
    FORKED = 2
    REFUSED = 3
    """Receivers refuse the first frame that isn't done."""
    UNANSWERED = 4
    """Two probes weren't answered."""
    UNCONFIRMED = 5
    """What was published wasn't confirmed in time."""


class Outcome(enum.IntEnum):
    """What a frame is taken for."""
    ACCEPTED = 0
    REPEAT = 1
    EARLY = 2
    UNKNOWN = 3
    """It doesn't open: it is nobody's."""
    UNSETTLED = 4
    """The reason may pass."""


class Read(enum.IntEnum):
    """What a read of a shard results in."""
    NOTHING = 0
    ELSEWHERE = 1
    """The list isn't what it was: read again, from `read` on."""
    TAKE = 2
    """The frames are for the next transaction, which compares what is stored and sets `read`."""


class Judged(enum.IntEnum):
    """What an opening is taken for."""
    BEGINS = 0
    LATER = 1
    """Its turn comes later: it has to come again."""
    FORKED = 2
    """It doesn't continue what took effect."""


class Found(enum.IntEnum):
    """What a store has of a shard, beside what is known of it."""
    SAME = 0
    AHEAD = 1
    """It is further: another receiver went on."""
    BEHIND = 2
    """It has gone back, as to a copy of before: receipts may have left for what it lost."""


class Failure(enum.IntEnum):
    """Why a frame isn't taken, or a transaction isn't stored."""
    REFUSED = 1
    """The effect refuses a text, or the store refuses what one has."""
    LATER = 2
    """The effect of a text can't be had now."""
    FENCED = 3
    """Another receiver was faster."""
    FAULT = 4
    """The store has a fault, or nobody knows whether it is stored."""


class Then(enum.IntEnum):
    """What happens to a transaction after a failure."""
    STORE = 0
    """What it has is stored."""
    AGAIN = 1
    """Nothing of it is stored, and all is tried again at once."""
    WAIT = 2
    """Nothing of it is stored, and all is tried again after a pause."""


@dataclass(frozen=True)
class Load:
    """What the store has of the shard isn't known."""


@dataclass(frozen=True)
class Wait:
    """Nothing is to be done before this time, but receipts."""
    at: int


@dataclass(frozen=True)
class Take:
    """A transaction of the frames that follow."""


@dataclass(frozen=True)
class Publish:
    """So many frames leave, in order, from this number on."""
    number: int
    count: int


@dataclass(frozen=True)
class Probe:
    """The frame of this number leaves again, alone; after the session's opening, if it says so."""
    number: int
    opening: bool


@dataclass(frozen=True)
class Wake:
    """Nothing is to be done before this time."""
    at: int


@dataclass(frozen=True)
class Idle:
    """Nothing is to be done until something happens."""


@dataclass(frozen=True)
class Held:
    """Of a lane: nothing is to be done until the session's opening is released."""


Command = Union[Publish, Probe, Wake, Idle]


class Served(NamedTuple):
    """A session of a lane that is served: its place, what is to be done, and whether it counted for
    another list than the shard has now. Then all that isn't done leaves again."""
    place: int
    command: Union[Command, Held]
    is_moved: bool


@dataclass(frozen=True)
class Receipt:
    """What a receiver says of a session: all frames below this number took effect, and have this
    digest (History)."""
    number: int
    history: bytes
    asks: Asks = Asks.NOTHING


class Due(NamedTuple):
    """A receipt that leaves now, of the session at this place."""
    place: int
    receipt: Receipt


class Stored(NamedTuple):
    """What an outbox has of a session's end at a sender."""
    next: int = 0
    """The frames below this number are stored."""
    carried: int = 0
    """Those below this one count as carried,"""
    at: int = 0
    """the last of them at this offset,"""
    done: int = 0
    """and those below this one took effect."""
    list: int = 0
    """The list of the shard."""


class Row(NamedTuple):
    """What a store has of a session at a receiver."""
    number: int = 0
    """The number that is demanded."""
    history: bytes = bytes(HISTORY_SIZE)
    """The digest of all that took effect below it."""
    closed: bool = False


class Spot(NamedTuple):
    """A place in a list of a shard: all up to the offset was taken."""
    list: int
    offset: int


class Head(NamedTuple):
    """The last session of a stream that a store has: which one it is, from 1 on, and the number
    and the digest after all that took effect in it."""
    turn: int
    number: int
    history: bytes
    closed: bool


class Opening(NamedTuple):
    """What an opening says of its session: which one of the stream it is, from 1 on, and the number
    and the digest after all that was sealed in the one before it."""
    turn: int
    number: int
    history: bytes


# ---- arguments

def _number(name: str, number: int) -> int:
    return ranged(name, number, 0, NEVER)


def _digest(digest: Bytes) -> Any:
    found = bytes_of("the digest", digest)
    if len(found) != HISTORY_SIZE:
        raise ValueError(f"the digest has {len(found)} bytes: it has to have {HISTORY_SIZE}")
    return (c_uint8 * HISTORY_SIZE).from_buffer_copy(found)


def _is_same(one: Union[Sending, Receiving], other: Union[Sending, Receiving]) -> bool:
    return bool(one._turn(bytes, one._struct) == other._turn(bytes, other._struct))


# ---- pauses, and whose turn it is

class Pause(Turns):
    """When something is tried again: a pause that doubles up to a cap. ValueError, TypeError."""

    def __init__(self, length: int, now: int) -> None:
        super().__init__()
        self._struct = PauseStruct()
        called(library().krbrelay_pause_begin, byref(self._struct), _number("the length", length),
               _number("now", now))

    @in_turn
    def is_over(self, now: int) -> bool:
        return bool(library().krbrelay_pause_is_over(byref(self._struct), _number("now", now)))

    @property
    @in_turn
    def end(self) -> int:
        """When it is over, and NEVER if that is sooner."""
        found: int = library().krbrelay_pause_end(byref(self._struct))
        return found

    @in_turn
    def grow(self, cap: int, now: int) -> None:
        """The next pause begins: twice as long, up to the cap."""
        library().krbrelay_pause_grow(byref(self._struct), _number("the cap", cap),
                                      _number("now", now))


class Queue(Turns):
    """Sessions that have something to do, each once, first in and first out. A session is its place
    in the caller's table, below 2**32."""

    def __init__(self) -> None:
        super().__init__()
        self._library, self._struct = library(), HandleStruct()
        weakref.finalize(self, _free, self._library.krbrelay_queue_free, self._struct)

    @in_turn
    def ready(self, session: int) -> None:
        """The session has something to do: it waits last, or where it waits already. ValueError,
        TypeError, MemoryError."""
        check(self._library.krbrelay_queue_ready(
            byref(self._struct), ranged("the session", session, 0, 2**32 - 1)))

    @in_turn
    def serve(self) -> Optional[int]:
        """The session that is served next, which waits no longer."""
        session = c_uint32()
        if self._library.krbrelay_queue_serve(byref(self._struct), byref(session)):
            return session.value
        return None

    @in_turn
    def __len__(self) -> int:
        """How many sessions wait."""
        found: int = self._library.krbrelay_queue_len(byref(self._struct))
        return found


def _free(free: Callable[..., Any], struct: HandleStruct) -> None:
    free(byref(struct))


# ---- a sender

def _command(told: CommandStruct) -> Command:
    if told.kind == 1:
        return Publish(told.number, told.count)
    if told.kind == 2:
        return Probe(told.number, bool(told.opening))
    return Wake(told.at) if told.kind == 3 else Idle()


def _stored(struct: SendingStruct) -> Stored:
    progress = struct.progress
    return Stored(progress.next, progress.carried, progress.at, struct.done, struct.list)


def _struct_of(stored: Stored) -> StoredStruct:
    if not stored.done <= stored.carried <= stored.next:
        raise ValueError(f"{stored}: done is at most carried, and that at most next")
    return StoredStruct(*(_number(name, getattr(stored, name)) for name in
                          ("next", "carried", "at", "done", "list")))


class Sending(Turns):
    """One session's end at a sender: how far its frames are carried, below which number they took
    effect, and what is to be done. The caller has the frames, in an outbox.

    It begins with what was stored: what wasn't carried counts as not published. ValueError where
    done is over carried, or that is over next.
    """

    def __init__(self, stored: Stored, now: int) -> None:
        super().__init__()
        self._library, self._struct = library(), SendingStruct()
        self._at = byref(self._struct)
        of = _struct_of(stored)
        check(called(self._library.krbrelay_sending_load, self._at, of.next, of.carried, of.at,
                     of.done, of.list, _number("now", now)))

    @in_turn
    def sealed(self, count: int) -> None:
        """So many frames more are sealed and stored."""
        if count > NEVER - self._struct.progress.next:
            raise ValueError(f"{count} frames more have no numbers")
        check(self._library.krbrelay_sending_sealed(self._at, _number("the count", count)))

    @in_turn
    def confirmed(self, number: int, offset: int, now: int) -> bool:
        """A copy of the frame of this number stands at this offset of the list: whether it counts.
        Nothing is deleted."""
        counts = c_uint32()
        check(self._library.krbrelay_sending_confirmed(
            self._at, _number("the number", number), _number("the offset", offset),
            _number("now", now), byref(counts)))
        return bool(counts.value)

    @in_turn
    def listed(self, list_now: int) -> bool:
        """The shard has this list: whether it had another one. Then all that isn't done leaves
        again."""
        other = c_uint32()
        check(self._library.krbrelay_sending_listed(
            self._at, _number("the list", list_now), byref(other)))
        return bool(other.value)

    @in_turn
    def reconnected(self) -> None:
        """The connection is a new one: what wasn't confirmed leaves again."""
        check(self._library.krbrelay_sending_reconnected(self._at))

    @in_turn
    def receipt(self, receipt: Receipt, own: Bytes, now: int) -> Heard:
        """A receiver says what took effect, and what it asks for. `own` is the digest of this
        sender's own frames below the receipt's number. If that is above `next`, or isn't above
        `done`, it isn't read."""
        struct = ReceiptStruct(_number("the number", receipt.number), _digest(receipt.history),
                               Asks(receipt.asks))
        heard = c_uint32()
        check(self._library.krbrelay_sending_receipt(
            self._at, byref(struct), _digest(own), _number("now", now), byref(heard)))
        return Heard(heard.value)

    @in_turn
    def serve(self, room: int, now: int) -> Command:
        """It is the session's turn, and the shard has room for so many frames more: what is to be
        done."""
        told = CommandStruct()
        check(self._library.krbrelay_sending_serve(
            self._at, _number("the room", room), _number("now", now), byref(told)))
        return _command(told)

    def _state(self) -> Tuple[int, int, bool, Optional[Stands]]:
        under_way, room, settled, stands = c_uint64(), c_uint64(), c_uint32(), c_uint32()
        check(self._library.krbrelay_sending_state(
            self._at, byref(under_way), byref(room), byref(settled), byref(stands)))
        return (under_way.value, room.value, bool(settled.value),
                Stands(stands.value) if stands.value else None)

    @property
    @in_turn
    def under_way(self) -> int:
        """How many of its frames are under way."""
        return self._state()[0]

    @property
    @in_turn
    def sealing_room(self) -> int:
        """How many frames more may be sealed."""
        return self._state()[1]

    @property
    @in_turn
    def is_settled(self) -> bool:
        """Whether all is done, or it is stopped."""
        return self._state()[2]

    @property
    @in_turn
    def stands(self) -> Optional[Stands]:
        """Why it stands, if it does."""
        return self._state()[3]

    @property
    @in_turn
    def done(self) -> int:
        """The frames below this number took effect, and may be deleted."""
        found: int = self._struct.done
        return found

    @property
    @in_turn
    def ended(self) -> Optional[Ended]:
        """Why it is stopped, if it is."""
        return Ended(self._struct.ended) if self._struct.ended else None

    @property
    @in_turn
    def stored(self) -> Stored:
        """What to store of it."""
        return _stored(self._struct)

    def __eq__(self, other: object) -> bool:
        return isinstance(other, Sending) and _is_same(self, other)


class Lane(Turns):
    """A shard at a sender with all its sessions: which is served, and what is to be done of it. A
    session is its place, which `add` tells; IndexError where the lane has none there."""

    def __init__(self) -> None:
        super().__init__()
        self._library, self._struct, self._count = library(), HandleStruct(), 0
        weakref.finalize(self, _free, self._library.krbrelay_lane_free, self._struct)

    def _at(self, place: int) -> Tuple[Any, int]:
        if not 0 <= ranged("the place", place, 0, 2**32 - 1) < self._count:
            raise IndexError(f"there is no session at {place}: the lane has {self._count}")
        return byref(self._struct), place

    @in_turn
    def add(self, stored: Stored, opens: bool = False) -> int:
        """One session more, of which the outbox has this. The first frame of one that opens is its
        opening, which leaves only after a release. Its pauses begin at the time of the last turn,
        at 0 if there was none. ValueError, TypeError, MemoryError."""
        place = c_uint32()
        check(called(self._library.krbrelay_lane_add, byref(self._struct),
                     byref(_struct_of(stored)), flag("opens", opens), byref(place)))
        self._count += 1
        return place.value

    @in_turn
    def reload(self, place: int, stored: Stored, opens: bool = False) -> None:
        """The outbox has this of the session now."""
        check(self._library.krbrelay_lane_reload(*self._at(place), byref(_struct_of(stored)),
                                                 flag("opens", opens)))

    @in_turn
    def stored(self, place: int) -> Stored:
        """What to store of the session."""
        struct = SendingStruct()
        check(self._library.krbrelay_lane_session(*self._at(place), byref(struct)))
        return _stored(struct)

    @in_turn
    def turn(self, now: int) -> Optional[Served]:
        """Which session is served next, if one is."""
        told, at = ServedStruct(), _number("now", now)
        if not self._library.krbrelay_lane_turn(byref(self._struct), at, byref(told)):
            return None
        command = Held() if told.command.kind == 4 else _command(told.command)
        return Served(told.place, command, bool(told.is_moved))

    @property
    @in_turn
    def next_time(self) -> int:
        """When a session has a turn again, if nothing happens before: NEVER, if none has."""
        found: int = self._library.krbrelay_lane_next_time(byref(self._struct))
        return found

    @in_turn
    def sealed(self, place: int, count: int) -> None:
        """So many frames more of the session are sealed and stored. ValueError if they have no
        numbers."""
        check(self._library.krbrelay_lane_sealed(*self._at(place), _number("the count", count)))

    @in_turn
    def confirmed(self, place: int, number: int, offset: int, now: int) -> bool:
        """A copy of the frame of this number stands at this offset of the list: whether it
        counts."""
        counts = c_uint32()
        check(self._library.krbrelay_lane_confirmed(
            *self._at(place), _number("the number", number), _number("the offset", offset),
            _number("now", now), byref(counts)))
        return bool(counts.value)

    @in_turn
    def receipt(self, place: int, receipt: Receipt, own: Optional[Bytes], now: int) -> Heard:
        """A receiver says what took effect of the session, and what it asks for. `own` is the
        digest of the own frames below the receipt's number, or None while it can't be read: then a
        receipt that has to be compared is to be heard again."""
        struct = ReceiptStruct(_number("the number", receipt.number), _digest(receipt.history),
                               Asks(receipt.asks))
        heard = c_uint32()
        check(self._library.krbrelay_lane_receipt(
            *self._at(place), byref(struct), _digest(receipt.history if own is None else own),
            3 if own is None else 1, _number("now", now), byref(heard)))
        return Heard(heard.value)

    @in_turn
    def stop(self, place: int) -> None:
        """Nothing of the session leaves any more, until it is loaded again."""
        check(self._library.krbrelay_lane_stop(*self._at(place)))

    @in_turn
    def release(self, place: int) -> None:
        """The session's opening may leave in its next turn, once."""
        check(self._library.krbrelay_lane_release(*self._at(place)))

    @in_turn
    def listed(self, list_now: Optional[int]) -> None:
        """The shard has this list now, or none can be had. If it is another one, all sessions have
        their turn. MemoryError."""
        check(called(self._library.krbrelay_lane_listed, byref(self._struct), list_now is not None,
                     _number("the list", number_or_0(list_now))))


class Flow(Turns):
    """A shard at a sender: the list that it has now, or None while it doesn't answer, and how many
    frames of its sessions are under way."""

    def __init__(self) -> None:
        super().__init__()
        self._struct = FlowStruct()

    @property
    @in_turn
    def list(self) -> Optional[int]:
        return self._struct.list if self._struct.has_list else None

    @list.setter
    @in_turn
    def list(self, list_now: Optional[int]) -> None:
        self._struct.list = _number("the list", number_or_0(list_now))
        self._struct.has_list = list_now is not None

    @property
    @in_turn
    def under_way(self) -> int:
        found: int = self._struct.under_way
        return found

    @property
    @in_turn
    def room(self) -> int:
        """How many frames more may be under way: none while the shard has no list."""
        found = c_uint64()
        check(library().krbrelay_flow_room(byref(self._struct), byref(found)))
        return found.value

    @in_turn
    def moved(self, before: int, after: int) -> None:
        """One of its sessions had so many frames under way, and has so many now."""
        under_way = self._struct.under_way
        if before > under_way:
            raise ValueError(f"{before} were under way: the shard has {under_way}")
        check(library().krbrelay_flow_moved(byref(self._struct), _number("before", before),
                                            _number("after", after)))


# ---- a receiver

class Receiving(Turns):
    """One session's end at a receiver: what is demanded, as stored and as the transaction under way
    would store it, and which receipt is owed. It begins with the store's row. ValueError,
    TypeError."""

    def __init__(self, row: Row, now: int) -> None:
        super().__init__()
        self._library, self._struct = library(), ReceivingStruct()
        self._at = byref(self._struct)
        called(self._library.krbrelay_receiving_load, self._at, byref(_row_struct(row)),
               _number("now", now))

    @in_turn
    def take(self, frame: Bytes, *, accepted: bool, is_close: bool = False,
             opened: Optional[int] = None) -> Outcome:
        """A frame under the session's name is taken: what for. If it is accepted, its texts take
        effect with the transaction. `accepted` says that it opens at the demanded number and passes
        each check; if it doesn't, `opened` is the number at which it opens with no demands, or
        None."""
        content = bytes_of("the frame", frame)
        if self._struct.drafted.number == NEVER:
            raise ValueError(f"the number {NEVER} has none after it")
        outcome = c_uint32()
        check(self._library.krbrelay_receiving_take(
            self._at, content, len(content), byref(_seen(accepted, is_close, opened)),
            byref(outcome)))
        return Outcome(outcome.value)

    @in_turn
    def stored(self) -> None:
        """The transaction took effect."""
        check(self._library.krbrelay_receiving_stored(self._at))

    @in_turn
    def dropped(self) -> None:
        """It had no effect, or nobody knows: what it took is read again."""
        check(self._library.krbrelay_receiving_dropped(self._at))

    @in_turn
    def receipt(self, now: int) -> Optional[Receipt]:
        """The receipt that leaves now. None leaves while a transaction is under way, or soon after
        another one."""
        struct = ReceiptStruct()
        check(self._library.krbrelay_receiving_receipt(
            self._at, _number("now", now), byref(struct)))
        return _receipt_of(struct) if struct.asks else None

    @property
    @in_turn
    def row(self) -> Row:
        """What is stored: a transaction compares it."""
        return _row_of(self._struct.stored)

    @property
    @in_turn
    def drafted(self) -> Row:
        """What the transaction under way stores."""
        return _row_of(self._struct.drafted)

    def __eq__(self, other: object) -> bool:
        return isinstance(other, Receiving) and _is_same(self, other)


def _row_of(struct: RowStruct) -> Row:
    return Row(struct.number, bytes(struct.history), bool(struct.closed))


def _row_struct(row: Row) -> RowStruct:
    return RowStruct(_number("the number", row.number), _digest(row.history),
                     flag("closed", row.closed))


def _seen(accepted: bool, is_close: bool, opened: Optional[int]) -> SeenStruct:
    return SeenStruct(_number("opened", number_or_0(opened)), opened is not None,
                      flag("accepted", accepted), flag("is_close", is_close))


def _receipt_of(struct: ReceiptStruct) -> Receipt:
    return Receipt(struct.number, bytes(struct.history), Asks(struct.asks))


class Reading(Turns):
    """A shard at a receiver: one transaction after another. It begins where the store says.
    ValueError, TypeError."""

    def __init__(self, stored: Spot) -> None:
        super().__init__()
        self._struct = ReadingStruct()
        called(library().krbrelay_reading_load, byref(self._struct),
               _number("the list", stored.list), _number("the offset", stored.offset))

    @in_turn
    def frames(self, list_now: int, last: int, count: int) -> Read:
        """So many frames came after `read`, from this list, which has so many items: what they are
        for."""
        if count > NEVER - self._struct.read.offset:
            raise ValueError(f"{count} frames more have no offsets")
        read = c_uint32()
        check(library().krbrelay_reading_frames(
            byref(self._struct), _number("the list", list_now), _number("the last offset", last),
            _number("the count", count), byref(read)))
        return Read(read.value)

    @in_turn
    def stored(self) -> None:
        """The transaction took effect. If it didn't, or nobody knows, begin with what is stored."""
        check(library().krbrelay_reading_stored(byref(self._struct)))

    @property
    @in_turn
    def spot(self) -> Spot:
        """What is stored: a transaction compares it."""
        return Spot(self._struct.stored.list, self._struct.stored.offset)

    @property
    @in_turn
    def read(self) -> Spot:
        """Up to where it is read: the transaction under way stores it."""
        return Spot(self._struct.read.list, self._struct.read.offset)


class Shard(Turns):
    """A shard at a receiver with all its sessions: one transaction after another, what is tried
    again and when, and which receipt leaves. A session is its place, which `add` tells; IndexError
    where the shard has none there. Nothing is loaded at first.

    `are_outside` says that no rollback of the store undoes what effects did, and `put_aside` that a
    text that is refused too often is put aside. MemoryError.
    """

    def __init__(self, *, are_outside: bool = False, put_aside: bool = False) -> None:
        super().__init__()
        self._library, self._struct, self._count = library(), HandleStruct(), 0
        self._at = byref(self._struct)
        weakref.finalize(self, _free, self._library.krbrelay_shard_free, self._struct)
        check(called(self._library.krbrelay_shard_new, self._at, flag("are_outside", are_outside),
                     flag("put_aside", put_aside)))

    def _place(self, place: int) -> int:
        if not 0 <= ranged("the place", place, 0, 2**32 - 1) < self._count:
            raise IndexError(f"there is no session at {place}: the shard has {self._count}")
        return place

    @in_turn
    def loaded(self, stored: Spot) -> None:
        """The store has this of the shard. It has no sessions then."""
        check(self._library.krbrelay_shard_loaded(
            self._at, _number("the list", stored.list), _number("the offset", stored.offset)))
        self._count = 0

    @in_turn
    def listed(self, list_now: int, last: int) -> bool:
        """The carrier has this list, with so many items: whether it isn't what was read. Of another
        list all is read, and of one that was cut off what comes after its end."""
        is_elsewhere = c_uint32()
        check(self._library.krbrelay_shard_listed(
            self._at, _number("the list", list_now), _number("the last offset", last),
            byref(is_elsewhere)))
        return bool(is_elsewhere.value)

    @in_turn
    def found(self, stored: Spot) -> Found:
        """The store has this of the shard now. Unless it is the same, the next turn loads."""
        found = c_uint32()
        check(self._library.krbrelay_shard_found(
            self._at, _number("the list", stored.list), _number("the offset", stored.offset),
            byref(found)))
        return Found(found.value)

    @in_turn
    def forget(self) -> None:
        """The next turn loads, as where the carrier has another list, or a file was replaced."""
        check(self._library.krbrelay_shard_forget(self._at))

    @in_turn
    def add(self, row: Row) -> int:
        """One session more, of which the store has this row: its place. ValueError, TypeError,
        MemoryError."""
        place = c_uint32()
        check(called(self._library.krbrelay_shard_add, self._at, byref(_row_struct(row)),
                     byref(place)))
        self._count += 1
        return place.value

    @in_turn
    def rows(self, place: int) -> Tuple[Row, Row]:
        """What is stored of the session, and what the transaction under way stores."""
        struct = ReceivingStruct()
        check(self._library.krbrelay_shard_session(self._at, self._place(place), byref(struct)))
        return _row_of(struct.stored), _row_of(struct.drafted)

    @in_turn
    def turn(self, now: int) -> Union[Load, Wait, Take]:
        """What is to be done next."""
        told, at = c_uint32(), c_uint64()
        check(self._library.krbrelay_shard_turn(
            self._at, _number("now", now), byref(told), byref(at)))
        return (Load(), Wait(at.value), Take())[told.value]

    @property
    @in_turn
    def next_time(self) -> int:
        """When there is a receipt or a turn, if nothing happens before and no frame comes."""
        found: int = self._library.krbrelay_shard_next_time(self._at)
        return found

    @property
    @in_turn
    def read(self) -> Spot:
        """Up to where the list was taken."""
        struct = ReadingStruct()
        check(self._library.krbrelay_shard_reading(self._at, byref(struct)))
        return Spot(struct.read.list, struct.read.offset)

    @in_turn
    def begin(self, first: int, now: int) -> bool:
        """A transaction begins, whose first frame has this offset: whether it has that frame alone.
        ValueError while one is under way."""
        is_alone = c_uint32()
        check(self._library.krbrelay_shard_begin(
            self._at, _number("the offset", first), _number("now", now), byref(is_alone)))
        return bool(is_alone.value)

    @in_turn
    def take(self, place: int, frame: Bytes, offset: int, *, accepted: bool, is_close: bool = False,
             opened: Optional[int] = None) -> Outcome:
        """The transaction has this frame of a session: what it is taken for, as of
        `Receiving.take`. ValueError where none is under way. MemoryError."""
        content, outcome = bytes_of("the frame", frame), c_uint32()
        check(self._library.krbrelay_shard_take(
            self._at, self._place(place), content, len(content),
            byref(_seen(accepted, is_close, opened)), _number("the offset", offset),
            byref(outcome)))
        return Outcome(outcome.value)

    @in_turn
    def pass_by(self, offset: int) -> None:
        """The transaction has the frame of this offset, which is no session's."""
        check(self._library.krbrelay_shard_pass(self._at, _number("the offset", offset)))

    @in_turn
    def is_full(self, now: int) -> bool:
        """Whether the transaction takes no frame more."""
        return bool(self._library.krbrelay_shard_is_full(self._at, _number("now", now)))

    @in_turn
    def stored(self) -> None:
        """The transaction is stored, up to the last frame that it has."""
        check(self._library.krbrelay_shard_stored(self._at))

    @in_turn
    def failed(self, failure: Failure, offset: int) -> Then:
        """The frame of this offset isn't taken, or the transaction that ends with it isn't stored:
        what happens to it."""
        then = c_uint32()
        check(self._library.krbrelay_shard_failed(
            self._at, Failure(failure), _number("the offset", offset), byref(then)))
        return Then(then.value)

    @in_turn
    def receipt(self, now: int) -> Optional[Due]:
        """The receipt that leaves now, if one does."""
        place, struct = c_uint32(), ReceiptStruct()
        check(self._library.krbrelay_shard_receipt(
            self._at, _number("now", now), byref(place), byref(struct)))
        return Due(place.value, _receipt_of(struct)) if struct.asks else None

    @in_turn
    def unpaid(self, due: Due) -> None:
        """This receipt didn't leave: it is owed again."""
        check(self._library.krbrelay_shard_unpaid(
            self._at, self._place(due.place), Asks(due.receipt.asks)))


def judge(head: Optional[Head], opening: Opening) -> Judged:
    """What an opening is taken for, by the last session of its stream, if the store has one.
    ValueError, TypeError."""
    last = HeadStruct()
    if head is not None:
        last = HeadStruct(ranged("the turn", head.turn, 1, NEVER),
                          _number("the number", head.number), _digest(head.history),
                          flag("closed", head.closed))
    says = OpeningStruct(_number("the turn", opening.turn), _number("the number", opening.number),
                         _digest(opening.history))
    judged = c_uint32()
    check(called(library().krbrelay_judge, byref(last), byref(says), byref(judged)))
    return Judged(judged.value)
