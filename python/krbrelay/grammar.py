"""Where bytes are no message: the byte and the field at which the grammar of KRB-SAFE and KRB-PRIV
(RFC 4120 sections 5.6.1 and 5.7.1) in DER (X.690) breaks off. The library's proved reader decides
whether bytes are a message; this only finds the place, and what a message says in clear."""
from __future__ import annotations

import calendar
import time
from typing import Any, Dict, NamedTuple, Optional, Tuple

SAFE_TAG, PRIV_TAG = 0x74, 0x75
NAMES = {SAFE_TAG: "KRB-SAFE", PRIV_TAG: "KRB-PRIV"}
LONGEST = 3                 # bytes of a length: the longest message takes no more


class Malformed(Exception):
    """Where bytes are no message: the byte, from 0, the field, and what is wrong there."""

    def __init__(self, at: int, field: str, why: str) -> None:
        super().__init__(at, field, why)
        self.at, self.field, self.why = at, field, why


class Part(NamedTuple):
    """A part of the bytes: where it begins and ends, and which field it is."""
    data: bytes
    at: int
    end: int
    field: str

    def fault(self, at: int, why: str) -> Malformed:
        return Malformed(at, self.field, why)

    @property
    def bytes(self) -> bytes:
        return self.data[self.at:self.end]


# ---- elements

def length_of(part: Part) -> Tuple[int, int]:
    """The length that stands at a part's begin, and where it ends. Malformed."""
    if part.at >= part.end:
        raise part.fault(part.at, "the length is missing")
    first, start = part.data[part.at], part.at + 1
    if first < 0x80:
        return first, start
    stop = start + (first & 0x7F)
    if not start < stop <= min(part.end, start + LONGEST):
        raise part.fault(part.at, "the length has no form that a message may have")
    size = int.from_bytes(part.data[start:stop], "big")
    if size < 0x80 or size.bit_length() <= 8 * (stop - start - 1):
        raise part.fault(part.at, f"the length {size} isn't in its shortest form")
    return size, stop


def element(part: Part, tag: int) -> Tuple[Part, int]:
    """The content of the element with this tag at a part's begin, and where it ends. Malformed."""
    if part.at >= part.end:
        raise part.fault(part.at, f"the tag {tag:02x} is missing: nothing is left")
    if part.data[part.at] != tag:
        raise part.fault(part.at, f"the tag is {part.data[part.at]:02x} in place of {tag:02x}")
    size, start = length_of(part._replace(at=part.at + 1))
    if start + size > part.end:
        left = part.end - start
        raise part.fault(part.at + 1, f"the length is {size}, and {left} bytes are left")
    return part._replace(at=start, end=start + size), start + size


def only(part: Part, tag: int) -> Part:
    """The content of the one element that a part is. Malformed."""
    content, stop = element(part, tag)
    if stop < part.end:
        raise part.fault(stop, f"{part.end - stop} bytes follow that are no part of it")
    return content


# ---- fields: what each gives

def integer(part: Part, low: int, high: int) -> int:
    content = only(part, 0x02)
    found = int.from_bytes(content.bytes, "big", signed=True)
    if len(content.bytes) != (found + (found < 0)).bit_length() // 8 + 1:
        raise part.fault(content.at, "the integer isn't in its shortest form")
    if not low <= found <= high:
        raise part.fault(content.at, f"it is {found}, and has to be {low} to {high}")
    return found


def int32(part: Part) -> int:
    return integer(part, -2**31, 2**31 - 1)


def uint32(part: Part) -> int:
    return integer(part, 0, 2**32 - 1)


def microseconds(part: Part) -> int:
    return integer(part, 0, 999_999)


def octets(part: Part) -> bytes:
    return only(part, 0x04).bytes


def kerberos_time(part: Part) -> int:
    """Seconds since 1970."""
    content = only(part, 0x18)
    text = content.bytes
    try:
        if len(text) != 15 or not text[:14].isdigit() or text[14:] != b"Z":
            raise ValueError
        read = time.strptime(text.decode("ascii"), "%Y%m%d%H%M%SZ")
    except ValueError:
        raise part.fault(content.at, f"{text!r} is no time YYYYMMDDHHMMSSZ") from None
    if read.tm_year < 1970 or text[12:14] > b"59":
        raise part.fault(content.at, f"{text!r} is no time from 1970 on")
    return calendar.timegm(read)


class Field(NamedTuple):
    """A field of a SEQUENCE: its number, its name, how it is read, and whether it may be absent."""
    number: int
    name: str
    read: Any
    is_optional: bool = False


def sequence(part: Part, grammar: Tuple[Field, ...]) -> Dict[str, Any]:
    """The fields of a SEQUENCE by their names, None for an absent one. Malformed."""
    rest = only(part, 0x30)
    found: Dict[str, Any] = {}
    for it in grammar:
        tag = 0xA0 + it.number
        here = rest._replace(field=f"{part.field} {it.name}".strip())
        if it.is_optional and (rest.at == rest.end or rest.data[rest.at] != tag):
            found[it.name] = None
            continue
        content, stop = element(here, tag)
        found[it.name] = (sequence(content, it.read) if isinstance(it.read, tuple)
                          else it.read(content))
        rest = rest._replace(at=stop)
    if rest.at < rest.end:
        raise rest.fault(rest.at, f"the tag {rest.data[rest.at]:02x} follows the last field")
    return found


TYPED = Field(0, "type", int32), Field(1, "bytes", octets)
BODY = (Field(0, "user-data", octets), Field(1, "timestamp", kerberos_time, True),
        Field(2, "usec", microseconds, True), Field(3, "seq-number", uint32, True),
        Field(4, "s-address", TYPED), Field(5, "r-address", TYPED, True))
ENCRYPTED = Field(0, "etype", int32), Field(1, "kvno", uint32, True), Field(2, "cipher", octets)
HEAD = Field(0, "pvno", int32), Field(1, "msg-type", int32)
GRAMMARS = {SAFE_TAG: (*HEAD, Field(2, "safe-body", BODY), Field(3, "cksum", TYPED)),
            PRIV_TAG: (*HEAD, Field(3, "enc-part", ENCRYPTED))}


def read(message: bytes) -> Dict[str, Any]:
    """The fields of a message by their names, those of a field in a field likewise. Malformed."""
    tag = message[0] if message and message[0] in GRAMMARS else None
    if tag is None:
        found = f"the first byte is {message[0]:02x}" if message else "there are no bytes"
        raise Malformed(0, "tag", f"{found}: KRB-SAFE begins with 74, KRB-PRIV with 75")
    whole = Part(message, 0, len(message), NAMES[tag])
    return sequence(only(whole, tag)._replace(field=""), GRAMMARS[tag])


# ---- where a message may stand among other bytes

HEAD_SIZE = 12      # no message is shorter


def size_at(data: bytes, at: int) -> Optional[int]:
    """How many bytes the message has that begins here: its tag and length, a SEQUENCE, and pvno, an
    integer of one byte. None where none does."""
    try:
        size, start = length_of(Part(data, at + 1, len(data), ""))
        _, inner = length_of(Part(data, start + 1, len(data), ""))
    except Malformed:
        return None
    begins = data[start:start + 1] == b"\x30" and data[inner:inner + 4] == b"\xa0\x03\x02\x01"
    return start + size - at if begins else None


def found_in(data: bytes) -> Dict[int, bytes]:
    """The messages that stand in bytes, by where each begins: the last may be cut."""
    found: Dict[int, bytes] = {}
    at = 0
    while at + HEAD_SIZE <= len(data):
        size = size_at(data, at) if data[at] in GRAMMARS else None
        if size is not None:
            found[at] = data[at:at + size]
        at += 1 if size is None else size
    return found
