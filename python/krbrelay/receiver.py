"""Receiving: opening records, one sequence number after another."""
from __future__ import annotations

from ctypes import byref, c_size_t, c_uint8, c_uint32, c_uint64
from typing import List, NamedTuple, Optional, Sequence, Union

from krbrelay.errors import Code, Refusal, exception_of
from krbrelay.handle import Handle, Key, Owed
from krbrelay.library import MOST_FRAMES, FrameStruct, TakenStruct
from krbrelay.opener import expect_struct
from krbrelay.values import (
    LAST_NUMBER, Address, Bytes, Mode, Moment, Record, bytes_of, flag, moment_struct, ranged,
    record_of)


class State(NamedTuple):
    """What a receiver goes on from."""
    expected: int
    """The sequence number that is demanded next, 2**32 where none is left."""
    closed: bool
    """Whether a close was accepted: nothing is accepted after it."""


class KeptRecord:
    """Room for one record."""

    def __init__(self, room: int) -> None:
        self._buffer, self.size = bytearray(room + 1), c_size_t()
        self.kind, self.number, self.at = c_uint32(), c_uint64(), c_uint8.from_buffer(self._buffer)

    def made(self) -> Optional[Record]:
        """No record has the kind 0."""
        if not self.kind.value:
            return None
        return record_of(self.kind.value, bytes(memoryview(self._buffer)[:self.size.value]))


class KeptRecords:
    """Room for what is taken of several messages."""

    def __init__(self, room: int, count: int) -> None:
        self.buffer, self.taken = (c_uint8 * room)(), (TakenStruct * MOST_FRAMES)()
        self._count = count

    def made(self) -> Optional[List[Union[Record, Exception]]]:
        """What is taken has an answer that isn't 0, or a kind."""
        view, found, begin = memoryview(self.buffer).cast("B"), [], 0
        for it in self.taken[:self._count]:
            if not it.answer and not it.kind:
                return None
            end = begin if it.answer else begin + it.size
            found.append(_outcome(it, view[begin:end].tobytes()))
            begin = end
        return found


class Receiver(Handle):
    """Takes the records of one sender in order, each once.

    Its arguments are those of an Opener that demands both addresses, and `expected`, the sequence
    number that is demanded first, 0 unless it is given. With a stored State, a receiver goes on
    where another stopped: `expected` is at most 2**32, and with `closed` it begins as after a
    close.

    ValueError, TypeError, MemoryError, LibraryError.
    """

    _kind = "receiver"

    def __init__(self, etype: int, key: Key, *, mode: Mode, sender: Address, receiver: Address,
                 expected: int = 0, closed: bool = False, require_receiver: bool = False,
                 require_time: bool = True, skew: int = 300) -> None:
        if sender is None or receiver is None:
            raise TypeError("a receiver demands the addresses of sender and receiver")
        expect = expect_struct(mode, sender, receiver, require_receiver, require_time, skew)
        first = ranged("the expected number", expected, 0, LAST_NUMBER + 1)
        super().__init__(etype, key, expect, first, flag("closed", closed))

    def take(self, frame: Bytes, at: Optional[Moment] = None) -> Record:
        """The record of a message with the demanded number: a Text, a Batch or Closed. The next
        number is demanded then, and nothing is accepted after Closed. `at` is the moment of
        opening, now if it isn't given. After any exception the receiver is as it was, unless
        `fetch` has the record that this would have returned.

        A Refusal with Code.BADORDER has the `number` that the message carries, if it is authentic
        and meets all else: one below the demanded number is a repeat.

        Refusal, Freed, ValueError, TypeError, MemoryError.
        """
        content, moment = bytes_of("the message", frame), moment_struct(at)
        room = len(content)
        kept = KeptRecord(room)
        owed: Owed[Record] = kept
        try:
            return self._made(owed, "take_numbered", content, room, moment, kept.kind, kept.at,
                              room, byref(kept.size), kept.number)
        except Refusal as refusal:
            _numbered(refusal, kept.number.value)
            raise

    def take_many(self, frames: Sequence[Bytes], at: Optional[Moment] = None
                  ) -> List[Union[Record, Exception]]:
        """What so many calls of `take` give one after another, 64 at most, at one moment: of each
        message its record, or the exception that its call would raise, which is returned here. A
        message that is refused changes nothing, and those after it are taken. Quicker, since the
        library computes the codes of eight messages side by side.

        Freed, ValueError and TypeError of the whole call, and then no message was taken.
        """
        contents = [bytes_of("the message", it) for it in frames]
        if len(contents) > MOST_FRAMES:
            raise ValueError(f"{len(contents)} messages: a call takes {MOST_FRAMES} at most")
        given = (FrameStruct * MOST_FRAMES)()
        for place, content in zip(given, contents):
            place.bytes, place.bytes_len = content, len(content)
        room, moment = sum(map(len, contents)), moment_struct(at)
        kept = KeptRecords(room, len(contents))
        return self._made(kept, "take_many", given, len(contents), moment, kept.buffer, room,
                          kept.taken)

    @property
    def state(self) -> State:
        """The number that is demanded next, and whether a close was accepted. Freed."""
        expected, closed = c_uint64(), c_uint32()
        self._call("state", expected, closed)
        return State(expected.value, bool(closed.value))


def _numbered(exception: Exception, number: int) -> Exception:
    """The exception of a message. If only its number is why it is refused, it has that number."""
    if isinstance(exception, Refusal) and exception.code is Code.BADORDER and number <= LAST_NUMBER:
        exception.number = number
    return exception


def _outcome(taken: TakenStruct, content: bytes) -> Union[Record, Exception]:
    """The record of a message that was taken with others, or its exception."""
    if taken.answer:
        return _numbered(exception_of(taken.answer), taken.number)
    return record_of(taken.kind, content)
