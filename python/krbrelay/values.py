"""What is passed to the calls and returned by them."""
from __future__ import annotations

import dataclasses
import datetime
import enum
import ipaddress
import math
import operator
import time
from typing import Iterable, Optional, Tuple, Type, TypeVar, Union

from krbrelay.library import (
    ADDRESS_LIMIT, AddressStruct, CarriedStruct, DemandStruct, HeaderStruct, MomentStruct)

Bytes = Union[bytes, bytearray, memoryview]
Moment = Union[datetime.datetime, int, float]
"""An aware datetime; an int, microseconds since 1970-01-01T00:00:00Z; or a float, seconds since
then, as time.time() has them. Of the years 1970 to 9999. An int is 0 or at least LEAST_MICROS, in
March 1973: a smaller one is of seconds or milliseconds."""

EPOCH = datetime.datetime(1970, 1, 1, tzinfo=datetime.timezone.utc)
MICROSECOND = datetime.timedelta(microseconds=1)
LAST_NUMBER = 2**32 - 1
LEAST_MICROS = 10**14


class Mode(enum.IntEnum):
    """The kinds of messages (RFC 4120 section 5.10)."""
    SAFE = 20
    """KRB-SAFE: user data in clear under a checksum (RFC 4120 section 5.6)."""
    PRIV = 21
    """KRB-PRIV: user data encrypted (RFC 4120 section 5.7)."""


class How(enum.IntEnum):
    """How a demand treats a message that leaves the field out."""
    IF_PRESENT = 1
    """It meets the demand."""
    REQUIRED = 2
    """It doesn't meet the demand."""
    ABSENT_IS_0 = 3
    """Of sequence numbers and times: an integer that is left out is 0 (RFC 4120 section 5.1.2). The
    message has the number 0, or its time is a whole second."""


# ---- arguments

def ranged(name: str, number: int, low: int, high: int) -> int:
    """The number, which is at least `low` and at most `high`, or ValueError."""
    try:
        found = operator.index(number)
    except TypeError:
        raise TypeError(f"{name} is {type(number).__name__}: it has to be an int, {low} to "
                        f"{high}") from None
    if not low <= found <= high:
        raise ValueError(f"{name} is {found}: it has to be {low} to {high}")
    return found


def flag(name: str, value: bool) -> int:
    """0 or 1 of a bool, or TypeError: what is empty isn't False."""
    if value not in (0, 1) or not hasattr(type(value), "__index__"):
        raise TypeError(f"{name} is {value!r}: it has to be True or False")
    return int(value)


Member = TypeVar("Member", bound=enum.IntEnum)


def one_of(name: str, kind: Type[Member], value: int) -> Member:
    """The member of an enumeration, or ValueError, or TypeError of what is no int."""
    if not hasattr(type(value), "__index__"):
        raise TypeError(f"{name} is {type(value).__name__}: it has to be a {kind.__name__}")
    return kind(value)


def bytes_of(name: str, content: Bytes) -> bytes:
    """The bytes of the argument, which stay while a call reads them, or TypeError."""
    if isinstance(content, bytes):
        return content
    if isinstance(content, (bytearray, memoryview)):
        return bytes(content)
    raise TypeError(f"{name} is {type(content).__name__}: it has to be bytes, bytearray or "
                    "memoryview")


def micros_of(at: Optional[Moment]) -> int:
    """The microseconds since 1970 of a moment, or of now."""
    if at is None:
        return time.time_ns() // 1000
    if isinstance(at, datetime.datetime):
        if at.utcoffset() is None:
            raise ValueError("the moment is a datetime with no time zone")
        return (at - EPOCH) // MICROSECOND
    if isinstance(at, float):
        if not math.isfinite(at):
            raise ValueError(f"the moment is {at}: it has to be finite")
        return round(at * 1_000_000)
    try:
        micros = operator.index(at)
    except TypeError:
        raise TypeError(f"the moment is {type(at).__name__}: it has to be an aware datetime, "
                        "microseconds as an int, or seconds as a float") from None
    if 0 < micros < LEAST_MICROS:
        raise ValueError(f"the moment is {micros}: an int is microseconds, 0 or at least "
                         f"{LEAST_MICROS}; seconds are a float, as time.time() has them")
    return micros


def moment_struct(at: Optional[Moment]) -> MomentStruct:
    micros = ranged("the moment", micros_of(at), 0, 2**64 - 1)
    return MomentStruct(*divmod(micros, 1_000_000))


# ---- addresses

@dataclasses.dataclass(frozen=True)
class Address:
    """An address of a host (RFC 4120 sections 5.2.5 and 7.5.3): its type, a signed number of 32
    bits, and its bytes, 40 at most, in network order. ValueError."""
    kind: int
    data: bytes

    IPV4 = 2
    DIRECTIONAL = 3
    """Four bytes, a number: 0 at the client's end, 1 at the server's (RFC 4120 section 7.1)."""
    IPV6 = 24

    def __post_init__(self) -> None:
        object.__setattr__(self, "kind", ranged("the address type", self.kind, -2**31, 2**31 - 1))
        object.__setattr__(self, "data", bytes_of("the address", self.data))
        if len(self.data) > ADDRESS_LIMIT:
            raise ValueError(f"the address has {len(self.data)} bytes: {ADDRESS_LIMIT} is the most")

    @classmethod
    def ip(cls, text: str) -> Address:
        """The address of type 2 or 24 that a text as "10.0.0.1" or "2001:db8::1" names.
        ValueError."""
        found = ipaddress.ip_address(text)
        return cls(cls.IPV4 if found.version == 4 else cls.IPV6, found.packed)

    def __str__(self) -> str:
        if (self.kind, len(self.data)) in ((self.IPV4, 4), (self.IPV6, 16)):
            return str(ipaddress.ip_address(self.data))
        return f"{self.kind}:{self.data.hex()}"


def address_struct(name: str, address: Address) -> AddressStruct:
    """The address as C has it, or TypeError."""
    if not isinstance(address, Address):
        raise TypeError(f"{name} is {type(address).__name__}: it has to be an Address,"
                        ' such as Address.ip("10.0.0.1")')
    struct = AddressStruct(address.kind, len(address.data))
    struct.bytes[:len(address.data)] = address.data
    return struct


def optional_struct(name: str, address: Optional[Address]) -> AddressStruct:
    """The address as C has it, or zeros for none."""
    return AddressStruct() if address is None else address_struct(name, address)


def address_of(struct: AddressStruct) -> Address:
    return Address(struct.kind, bytes(struct.bytes[:struct.len]))


# ---- what messages carry

@dataclasses.dataclass(frozen=True)
class Header:
    """What a message reports of itself in clear. None of it is authentic until the message is
    opened. What it leaves out is None."""
    kind: Mode
    etype: Optional[int]
    """The encryption type of KRB-PRIV (RFC 3962 section 7). KRB-SAFE has none."""
    checksum_type: Optional[int]
    """Of KRB-SAFE: 15 for encryption type 17, 16 for 18. KRB-PRIV has none."""
    number: Optional[int]
    """The sequence number of KRB-SAFE. That of KRB-PRIV is encrypted."""
    key_version: Optional[int]
    """The version of the key, kvno (RFC 4120 section 5.2.9). KRB-SAFE has none."""


def header_of(struct: HeaderStruct) -> Header:
    kind = Mode(struct.kind)
    return Header(
        kind,
        struct.etype if kind is Mode.PRIV else None,
        struct.checksum_type if kind is Mode.SAFE else None,
        struct.number if struct.has_number else None,
        struct.key_version if struct.has_key_version else None,
    )


@dataclasses.dataclass(frozen=True)
class Body:
    """What an authentic message carries (KRB-SAFE-BODY and EncKrbPrivPart, RFC 4120 sections 5.6.1
    and 5.7.1). What it leaves out is None."""
    user_data: bytes
    seconds: Optional[int]
    """Its time, in seconds since 1970-01-01T00:00:00Z."""
    microseconds: Optional[int]
    """The microseconds of its time, below a million."""
    number: Optional[int]
    """The sequence number."""
    sender: Address
    receiver: Optional[Address]

    @property
    def moment(self) -> Optional[datetime.datetime]:
        """Its time with its microseconds, in UTC, or None where it leaves the time out."""
        if self.seconds is None:
            return None
        return EPOCH + datetime.timedelta(seconds=self.seconds, microseconds=self.microseconds or 0)


def body_of(user_data: bytes, carried: CarriedStruct) -> Body:
    return Body(
        user_data,
        carried.seconds if carried.has_seconds else None,
        carried.microseconds if carried.has_microseconds else None,
        carried.number if carried.has_number else None,
        address_of(carried.sender),
        address_of(carried.receiver) if carried.has_receiver else None,
    )


@dataclasses.dataclass(frozen=True)
class Demand:
    """What `Opener.open` and a Peer demand of an authentic message: of each field that isn't None,
    that the message's fits. The checks come in the order of addresses, time, number, and whether
    one of both is told: Code.BADADDR, Code.SKEW, Code.BADORDER, Code.MODIFIED."""
    sender: Optional[Address] = None
    receiver: Optional[Address] = None
    skew: Optional[int] = None
    """How many seconds the message's time may be off from the moment of opening."""
    number: Optional[int] = None
    """The sequence number."""
    how_receiver: How = How.REQUIRED
    how_time: How = How.REQUIRED
    how_number: How = How.REQUIRED
    needs_time_or_number: bool = False
    """Whether a message that tells neither its time nor its number is refused, as RFC 4120 asks in
    sections 3.4.2 and 3.5.2. An absent number isn't told, also where it counts as 0, and seconds
    without microseconds tell a time only under How.ABSENT_IS_0."""


def demand_struct(demand: Demand) -> DemandStruct:
    if not isinstance(demand, Demand):
        raise TypeError(f"the demand is {type(demand).__name__}: it has to be a Demand")
    return DemandStruct(
        how_of("how_sender", How.REQUIRED, demand.sender),
        how_of("how_receiver", demand.how_receiver, demand.receiver),
        how_of("how_time", demand.how_time, demand.skew),
        how_of("how_number", demand.how_number, demand.number),
        ranged("the number", number_or_0(demand.number), 0, 2**64 - 1),
        ranged("the skew", number_or_0(demand.skew), 0, 2**32 - 1),
        optional_struct("the sender", demand.sender),
        optional_struct("the receiver", demand.receiver),
        flag("needs_time_or_number", demand.needs_time_or_number),
    )


def how_of(name: str, how: How, demanded: object) -> int:
    """How C is asked for a demand: 0 where nothing is demanded."""
    found = one_of(name, How, how)
    return 0 if demanded is None else found.value


def number_or_0(number: Optional[int]) -> int:
    """The number, and 0 for None alone: another value that is false isn't taken for it."""
    return 0 if number is None else number


# ---- records

@dataclasses.dataclass(frozen=True)
class Text:
    """A record of one text, of 1,000,000 bytes at most."""
    data: bytes


@dataclasses.dataclass(frozen=True)
class Batch:
    """A record of 2 to 1,000 texts. Their bytes, and four more for each text, are 1,000,000 at
    most."""
    texts: Tuple[bytes, ...]


@dataclasses.dataclass(frozen=True)
class Closed:
    """The record that ends a session: the receiver refuses all that follows."""


Record = Union[Text, Batch, Closed]

TEXT, BATCH, CLOSE = 1, 2, 3


def record_bytes(record: Record) -> Tuple[int, bytes]:
    """The kind of a record, and its bytes as C has them. TypeError."""
    if isinstance(record, Text):
        return TEXT, bytes_of("the text", record.data)
    if isinstance(record, Batch):
        return BATCH, batch_bytes(record.texts)
    if isinstance(record, Closed):
        return CLOSE, b""
    raise TypeError(f"the record is {type(record).__name__}: it has to be a Text, Batch or Closed")


def batch_bytes(texts: Iterable[Bytes]) -> bytes:
    """Each text after the four bytes of its length, the most significant byte first."""
    found = [bytes_of("a text", text) for text in texts]
    return b"".join(len(text).to_bytes(4, "big") + text for text in found)


def record_of(kind: int, content: bytes) -> Record:
    """The record of this kind that a receiver took."""
    if kind == TEXT:
        return Text(content)
    if kind == BATCH:
        return Batch(tuple(texts_of(content)))
    return Closed()


def texts_of(batch: bytes) -> Iterable[bytes]:
    at = 0
    while at < len(batch):
        start = at + 4
        at = start + int.from_bytes(batch[at:start], "big")
        yield batch[start:at]
