"""Opening, one message at a time."""
from __future__ import annotations

from typing import Optional

from krbrelay.handle import Handle, Key
from krbrelay.library import CarriedStruct, ExpectStruct
from krbrelay.values import (
    Address, Body, Bytes, Demand, Mode, Moment, body_of, bytes_of, demand_struct, flag,
    moment_struct, one_of, optional_struct, ranged)


def expect_struct(mode: Mode, sender: Optional[Address], receiver: Optional[Address],
                  require_receiver: bool, require_time: bool, skew: int) -> ExpectStruct:
    return ExpectStruct(
        one_of("the mode", Mode, mode),
        optional_struct("the sender", sender),
        optional_struct("the receiver", receiver),
        flag("require_receiver", require_receiver),
        flag("require_time", require_time),
        ranged("the skew", skew, 0, 2**32 - 1),
    )


class Opener(Handle):
    """Opens messages under a session key. It keeps no sequence number: the caller demands each.

    `etype` is 17 with a `key` of 16 bytes, or 18 with one of 32 (RFC 3962). The key is copied: the
    caller's stays, and is the caller's to overwrite. `unseal` demands the addresses of `sender` and
    `receiver`, and a time that is off by at most `skew` seconds. A message may leave the receiver's
    address out unless `require_receiver`, and its time unless `require_time`. `open` reads the mode
    alone, and needs no addresses.

    ValueError, TypeError, MemoryError, LibraryError.
    """

    _kind = "opener"

    def __init__(self, etype: int, key: Key, *, mode: Mode, sender: Optional[Address] = None,
                 receiver: Optional[Address] = None, require_receiver: bool = False,
                 require_time: bool = True, skew: int = 300) -> None:
        self._unseals = sender is not None and receiver is not None
        expect = expect_struct(mode, sender, receiver, require_receiver, require_time, skew)
        super().__init__(etype, key, expect)

    def unseal(self, frame: Bytes, number: int, at: Optional[Moment] = None) -> bytes:
        """The user data of a message with this sequence number (RFC 4120 sections 3.4.2 and
        3.5.2). `at` is the moment of opening, now if it isn't given.

        Refusal, Wiped, Freed, ValueError (also where the opener has no addresses), TypeError,
        MemoryError.
        """
        if not self._unseals:
            raise ValueError("the opener has no sender and receiver to demand")
        content = bytes_of("the message", frame)
        return self._write("unseal", len(content), content, len(content),
                           ranged("the number", number, 0, 2**64 - 1), moment_struct(at))

    def open(self, frame: Bytes, demand: Demand = Demand(), at: Optional[Moment] = None) -> Body:
        """What an authentic message carries, if it meets the demands: by default nothing is
        demanded, and the caller has to compare the number, the time and the addresses itself.
        `at` is the moment of opening, now if it isn't given.

        Refusal (Code.BADADDR also of an address with over 40 bytes), Wiped, Freed, ValueError,
        TypeError, MemoryError.
        """
        content, carried = bytes_of("the message", frame), CarriedStruct()
        user_data = self._write("open", len(content), content, len(content),
                                demand_struct(demand), moment_struct(at), after=(carried,))
        return body_of(user_data, carried)

    def wipe(self) -> None:
        """Overwrites the keys: opening raises Wiped from then on."""
        self._call("wipe")
