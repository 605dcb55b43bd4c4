"""Sealing."""
from __future__ import annotations

import os
from ctypes import CDLL, addressof, c_size_t, c_uint8, c_uint64
from itertools import accumulate
from time import time_ns
from typing import Callable, List, Optional, Sequence, Tuple

from krbrelay.errors import exception_of
from krbrelay.handle import Handle, Key
from krbrelay.library import (
    CONFOUNDER_SIZE, MOST_MESSAGES, MomentStruct, SessionStruct, UnsealedStruct)
from krbrelay.values import (
    LAST_NUMBER, Address, Bytes, Mode, Moment, Record, address_struct, bytes_of, micros_of, one_of,
    optional_struct, ranged, record_bytes)

KEPT_SIZE = 1_024                   # user data of messages that are written into a kept buffer
MOST = 2**64 - 1                    # microseconds


def session_struct(mode: Mode, sender: Address, first: int, receiver: Optional[Address]
                   ) -> SessionStruct:
    return SessionStruct(
        one_of("the mode", Mode, mode),
        ranged("the first number", first, 0, LAST_NUMBER),
        address_struct("the sender", sender),
        receiver is not None,
        optional_struct("the receiver", receiver),
    )


class Kept:
    """What a call that seals is given beside the user data, which fit if they have at most a
    number of bytes: the moment, and room for the message and for its size."""

    def __init__(self, calls: CDLL, fits: int) -> None:
        room = calls.krbrelay_frame_size(fits)
        self.moment, self.size = MomentStruct(), c_size_t()
        self._buffer = (c_uint8 * room)()
        self.view, self.moment_at = memoryview(self._buffer).cast("B"), addressof(self.moment)
        self.places = (addressof(self._buffer), room, addressof(self.size))

    def made(self) -> Optional[bytes]:
        return self.view[:self.size.value].tobytes() if self.size.value else None


class KeptMany:
    """Room for the messages of one call."""

    def __init__(self, room: int, count: int) -> None:
        self.buffer, self.sizes = (c_uint8 * room)(), (c_size_t * MOST_MESSAGES)()
        self._count = count

    def made(self) -> Optional[List[bytes]]:
        """A message has no size 0."""
        sizes = self.sizes[:self._count]
        if not all(sizes):
            return None
        view, ends = memoryview(self.buffer).cast("B"), [0, *accumulate(sizes)]
        return [view[begin:end].tobytes() for begin, end in zip(ends, ends[1:])]


class SealingHandle(Handle):
    """A handle that seals, with room for messages that it keeps between its calls, and several in
    one call. Each is given a confounder that was drawn, whatever the mode: so a KRB-PRIV is never
    sealed under another one, also where a mode is set in between."""

    def _keep_room(self) -> None:
        self._kept = Kept(self._library, KEPT_SIZE)
        self._seal = self._function("seal")

    def _sealed(self, call: Callable[..., int], size: int, content: bytes, at: Optional[Moment],
                confounder: Optional[Bytes], *kind: int) -> bytes:
        """What a call seals of the content, which becomes user data of this size."""
        given = None if confounder is None else confounder_of(confounder)
        micros = time_ns() // 1000 if at is None else ranged("the moment", micros_of(at), 0, MOST)
        drawn = given or os.urandom(CONFOUNDER_SIZE)
        return self._turn(self._sealed_inside, call, size, content, micros, drawn, kind)

    def _sealed_inside(self, call: Callable[..., int], size: int, content: bytes, micros: int,
                       confounder: bytes, kind: Tuple[int, ...]) -> bytes:
        kept = self._kept if size <= KEPT_SIZE else Kept(self._library, size)
        kept.size.value, moment = 0, kept.moment
        moment.seconds, moment.microseconds = divmod(micros, 1_000_000)
        self._owed = kept
        answer = call(self._place, *kind, content, len(content), kept.moment_at, confounder,
                      *kept.places)
        if answer:
            self._owed = None
            raise exception_of(answer)
        return self._returned(kept)

    def seal_many(self, messages: Sequence[Bytes], at: Optional[Moment] = None) -> List[bytes]:
        """The messages of 64 user data at most, as so many calls of `seal` make them one after
        another, at one moment and each under a confounder of its own: quicker, since the library
        seals eight side by side. All are sealed or none: the exception is that of the first that
        can't be, and says which."""
        contents = [bytes_of("the user data", it) for it in messages]
        if len(contents) > MOST_MESSAGES:
            raise ValueError(f"{len(contents)} messages: a call seals {MOST_MESSAGES} at most")
        micros = time_ns() // 1000 if at is None else ranged("the moment", micros_of(at), 0, MOST)
        return self._turn(self._sealed_many, contents, MomentStruct(*divmod(micros, 1_000_000)))

    def _sealed_many(self, contents: List[bytes], moment: MomentStruct) -> List[bytes]:
        unsealed = (UnsealedStruct * MOST_MESSAGES)()
        for place, content in zip(unsealed, contents):
            place.user_data, place.user_data_len, place.at = content, len(content), moment
            place.confounder[:] = os.urandom(CONFOUNDER_SIZE)
        room = sum(self._library.krbrelay_frame_size(len(it)) for it in contents)
        kept, failed = KeptMany(room, len(contents)), c_size_t(MOST_MESSAGES)
        self._owed = kept
        answer = self._function("seal_many")(self._place, unsealed, len(contents), kept.buffer,
                                             room, kept.sizes, failed)
        if answer:
            self._owed = None
            is_one = failed.value < len(contents)
            raise exception_of(answer, f"message {failed.value}: " if is_one else "")
        return self._returned(kept)


class Sealer(SealingHandle):
    """Seals messages under a session key, with one sequence number after another.

    `etype` is 17 with a `key` of 16 bytes, or 18 with one of 32 (RFC 3962). The key is copied: the
    caller's stays, and is the caller's to overwrite. `first` is the first sequence number, 0 unless
    it is given. The
    messages carry the address of the `sender`, and that of the `receiver` if there is one. A
    session key seals each sequence number once in each direction.

    ValueError, TypeError, MemoryError, LibraryError.
    """

    _kind = "sealer"

    def __init__(self, etype: int, key: Key, *, mode: Mode, sender: Address, first: int = 0,
                 receiver: Optional[Address] = None) -> None:
        super().__init__(etype, key, session_struct(mode, sender, first, receiver))
        self._keep_room()
        self._seal_record = self._function("seal_record")

    def seal(self, user_data: Bytes, at: Optional[Moment] = None,
             confounder: Optional[Bytes] = None) -> bytes:
        """The message of the user data, 1,000,001 bytes at most, at the next sequence number: a
        KRB-SAFE or KRB-PRIV (RFC 4120 sections 3.4.1 and 3.5.1), in DER.

        `at` is the message's time, now if it isn't given. The confounder of a KRB-PRIV (RFC 3961
        section 5.3) is 16 bytes that nobody can foresee, from os.urandom if they aren't given; a
        KRB-SAFE has none. The number rises by one, unless there is an exception: Wiped, Exhausted,
        Freed, ValueError, TypeError, MemoryError.
        """
        content = bytes_of("the user data", user_data)
        return self._sealed(self._seal, len(content), content, at, confounder)

    def seal_record(self, record: Record, at: Optional[Moment] = None,
                    confounder: Optional[Bytes] = None) -> bytes:
        """The message of a record, which a Receiver takes, as `seal` seals user data. ValueError
        where the record is too long, or a batch hasn't 2 to 1,000 texts."""
        kind, content = record_bytes(record)
        return self._sealed(self._seal_record, len(content) + 1, content, at, confounder, kind)

    @property
    def next(self) -> int:
        """The next sequence number, 2**32 where none is left. Freed."""
        number = c_uint64()
        self._call("next", number)
        return number.value

    def set_mode(self, mode: Mode) -> None:
        """Seals in this mode from now on. Key, number and addresses stay. ValueError, Freed."""
        self._call("set_mode", one_of("the mode", Mode, mode))

    def wipe(self) -> None:
        """Overwrites the keys: sealing raises Wiped from then on."""
        self._call("wipe")


def confounder_of(given: Bytes) -> bytes:
    confounder = bytes_of("the confounder", given)
    if len(confounder) != CONFOUNDER_SIZE:
        raise ValueError(f"the confounder has {len(confounder)} bytes: it has to have 16")
    return confounder
