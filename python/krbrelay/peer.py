"""Peers: one end of a session of user data, in both directions."""
from __future__ import annotations

from ctypes import byref, c_size_t, c_uint8, c_uint64
from dataclasses import replace
from typing import NamedTuple, Optional

from krbrelay.errors import Code, Refusal
from krbrelay.handle import Key
from krbrelay.library import PEER_STATE_SIZE, CarriedStruct
from krbrelay.sealer import SealingHandle, session_struct
from krbrelay.values import (
    LAST_NUMBER, Address, Body, Bytes, Demand, How, Mode, Moment, body_of, bytes_of, demand_struct,
    moment_struct, number_or_0, one_of, ranged)

NOT_MADE = 2**64 - 1            # the size of nothing
STATE_HEAD = b"krs\1"           # what an export begins with, before two numbers of eight bytes


class KeptBody:
    """Room for what one message carries."""

    def __init__(self, room: int) -> None:
        self._buffer, self.size = bytearray(room + 1), c_size_t(NOT_MADE)
        self.carried, self.at = CarriedStruct(), c_uint8.from_buffer(self._buffer)

    def made(self) -> Optional[Body]:
        if self.size.value == NOT_MADE:
            return None
        return body_of(bytes(memoryview(self._buffer)[:self.size.value]), self.carried)


class Numbers(NamedTuple):
    """The sequence numbers of a peer, each 2**32 where none is left."""
    next: int
    """The one that is sealed next."""
    expected: int
    """The one that is expected next of the other end."""


class Peer(SealingHandle):
    """One end of a session: it seals under its own sequence numbers, and opens what the other end
    sealed in order, each message once.

    `etype` and `key` are those of a Sealer. The messages of this end carry the address of the
    `sender`, this end's, and that of the `receiver` if there is one, and begin at the number
    `first`. Those of the other end have to meet the `demand`, whose number is the first that is
    expected, 0 where it is None and at most 2**32, with How.REQUIRED or How.ABSENT_IS_0. One key
    serves both directions: so the ends need different addresses, and each demands the other's.
    Where the demand has no skew, a time is demanded that is off by at most `skew` seconds; with
    neither, no time is.

    With `state`, what `export` returned, a peer goes on where another stopped: the demand's number
    is None or 0, and `first` is 0.

    ValueError, TypeError, Exhausted, MemoryError, LibraryError.
    """

    _kind = "peer"

    def __init__(self, etype: int, key: Key, *, mode: Mode, sender: Address, demand: Demand,
                 first: int = 0, receiver: Optional[Address] = None,
                 state: Optional[Bytes] = None, skew: Optional[int] = 300) -> None:
        demanded = _demand_of(demand, skew, state is not None)
        if state is not None and first:
            raise ValueError(f"first is {first}: it has to be 0 with a state, which has the number")
        ends = session_struct(mode, sender, first, receiver), demand_struct(demanded)
        if state is None:
            super().__init__(etype, key, *ends)
        else:
            self._maker = "resume"
            super().__init__(etype, key, *ends, _state_of(state))
        self._keep_room()

    def seal(self, user_data: Bytes, at: Optional[Moment] = None,
             confounder: Optional[Bytes] = None) -> bytes:
        """The message of the user data at the next sequence number, as Sealer.seal.

        Exhausted, Freed, ValueError, TypeError, MemoryError.
        """
        content = bytes_of("the user data", user_data)
        return self._sealed(self._seal, len(content), content, at, confounder)

    def open(self, frame: Bytes, at: Optional[Moment] = None) -> Body:
        """What a message of the other end with the expected number carries. The number is one more
        then. `at` is the moment of opening, now if it isn't given. After any exception the peer is
        as it was, unless `fetch` has what this would have returned.

        A Refusal with Code.BADORDER is of an authentic message that meets all but the number: its
        `number` is the one that the message carries, below the expected one of a repeat.

        Refusal, Freed, ValueError, TypeError, MemoryError.
        """
        content, moment = bytes_of("the message", frame), moment_struct(at)
        room = len(content)
        kept = KeptBody(room)
        try:
            return self._made(kept, "open", content, room, moment, kept.at, room,
                              byref(kept.size), kept.carried)
        except Refusal as refusal:
            if refusal.code is Code.BADORDER and kept.carried.has_number:
                refusal.number = kept.carried.number
            raise

    @property
    def numbers(self) -> Numbers:
        """The next number and the expected one. Freed."""
        following, expected = c_uint64(), c_uint64()
        self._call("state", following, expected)
        return Numbers(following.value, expected.value)

    def export(self) -> bytes:
        """Both numbers, without a secret, in 20 bytes. Store them before the messages that were
        sealed are sent: a peer that goes on from them seals no number twice. Freed."""
        state = (c_uint8 * PEER_STATE_SIZE)()
        self._call("export", state)
        return bytes(state)


def _demand_of(demand: Demand, skew: Optional[int], has_state: bool) -> Demand:
    """What a peer demands, or ValueError with the field that can't be, and what it may be."""
    if not isinstance(demand, Demand):
        raise TypeError(f"the demand is {type(demand).__name__}: it has to be a Demand")
    number = number_or_0(demand.number)
    if one_of("how_number", How, demand.how_number) is How.IF_PRESENT:
        raise ValueError("the demand's how_number is How.IF_PRESENT: it has to be How.REQUIRED or"
                         " How.ABSENT_IS_0, since a peer opens each number once")
    if has_state and number:
        raise ValueError(f"the demand's number is {number}: it has to be None with a state, which "
                         "has it")
    return replace(demand, skew=skew if demand.skew is None else demand.skew,
                   number=ranged("the demand's number", number, 0, LAST_NUMBER + 1))


def _state_of(state: Bytes) -> object:
    content = bytes_of("the state", state)
    if len(content) != PEER_STATE_SIZE:
        raise ValueError(f"the state has {len(content)} bytes: it has to have {PEER_STATE_SIZE}")
    if not (content.startswith(STATE_HEAD) and all(
            int.from_bytes(content[it:it + 8], "big") <= LAST_NUMBER + 1 for it in (4, 12))):
        raise ValueError("the state is none that Peer.export returned")
    return (c_uint8 * PEER_STATE_SIZE).from_buffer_copy(content)
