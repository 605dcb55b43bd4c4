"""What the cases have in common: keys, addresses, a clock, an ordinary message."""
from __future__ import annotations

import collections.abc
import hashlib

from vectors.messages import Fields
from vectors.model import Address, Asked as Asked, Demand, Group, Moment, Suite

CLOCK = 1_700_000_000                   # 2023-11-14T22:13:20Z
NOW = Moment(CLOCK, 500_000)
FROM, TO = Address(2, bytes([192, 0, 2, 1])), Address(2, bytes([198, 51, 100, 2]))
NUMBER = 1000
KEYS = {17: hashlib.sha256(b"key 17").digest()[:16], 18: hashlib.sha256(b"key 18").digest()}
LAST_NUMBER = 2**32 - 1
LAST_SECOND = 253_402_300_799           # 9999-12-31T23:59:59Z
MICROS = 10**6

ORDINARY = Fields(time=CLOCK, usec=123_456, number=NUMBER, sender=FROM)
FULL = ORDINARY.but(receiver=TO)        # with each field

Kind = tuple[str, int]                  # a mode and an encryption type
BOTH: list[Kind] = [(mode, etype) for mode in ("safe", "priv") for etype in (17, 18)]
EITHER: list[Kind] = [("safe", 17), ("priv", 18)]       # where the encryption type can't matter
SAFE: list[Kind] = [("safe", 17), ("safe", 18)]
PRIV: list[Kind] = [("priv", 17), ("priv", 18)]


def demand(**asked: object) -> Demand:
    """The usual demand, but for what is named."""
    return Demand(**{"sender": FROM, "receiver": TO, "now": NOW, "number": NUMBER, **asked})


def each(suite: Suite, name: str, kinds: collections.abc.Iterable[Kind] = tuple(BOTH),
         of_records: bool = False, **asked: object) -> collections.abc.Iterator[tuple[str, bytes]]:
    """Begins a group for each kind, and gives its mode and key."""
    for mode, etype in kinds:
        suite.begin(Group(name, mode, KEYS[etype], demand(**asked), of_records))
        yield mode, KEYS[etype]


def drawn(what: str, size: int) -> bytes:
    """Bytes that are the same in each run."""
    return hashlib.shake_128(what.encode()).digest(size)


def text_of(size: int) -> bytes:
    """User data of so many bytes, which are a text where there is one."""
    return (b"D" + drawn(str(size), size))[:size]
