"""What `show` prints, as the program `krbrelay show` does: the fields of messages, and under a key
what is inside."""
from __future__ import annotations

import binascii
from typing import Dict, Iterator, List, NamedTuple, Optional, Tuple

from krbrelay.errors import Refusal
from krbrelay.message import message_header
from krbrelay.opener import Opener
from krbrelay.values import Address, Body

# What may stand between the digits of a key's file, and with --any between those of messages.
SEPARATORS = b" \t\n\r:"

# How many bytes the keys of each encryption type have.
KEY_SIZES = {17: 16, 18: 32}


class Key(NamedTuple):
    """A key and its encryption type."""
    etype: int
    bytes: bytes


class Line(NamedTuple):
    """A line that is printed, and whether it is a message that no key refuses."""
    text: str
    is_accepted: bool


# ---- input

def digits_of(text: bytes) -> bytes:
    """What is left of a text without separators."""
    return text.translate(None, SEPARATORS)


def bytes_in(digits: bytes) -> Optional[bytes]:
    """The bytes that digits spell; None where they aren't digits, or are an odd number of them."""
    try:
        return binascii.unhexlify(digits)
    except binascii.Error:
        return None


def key_in(file: bytes) -> Optional[Key]:
    """The key of a file: what its digits spell, or else its bytes themselves."""
    for found in (bytes_in(digits_of(file)), file):
        for etype, size in KEY_SIZES.items():
            if found is not None and len(found) == size:
                return Key(etype, found)
    return None


# ---- the fields of a message (RFC 4120 sections 5.6.1 and 5.7.1), which the library has read

def element(data: bytes) -> Tuple[int, bytes, bytes]:
    """The tag and the content of the first element, and what follows it (X.690 section 8.1)."""
    size, start = data[1], 2
    if size >= 0x80:
        start += size & 0x7F
        size = int.from_bytes(data[2:start], "big")
    return data[0], data[start:start + size], data[start + size:]


def content(data: bytes) -> bytes:
    return element(data)[1]


def fields(data: bytes) -> Dict[int, bytes]:
    """The fields of a SEQUENCE, by the numbers of their tags."""
    found, rest = {}, content(data)
    while rest:
        tag, field, rest = element(rest)
        found[tag & 0x1F] = field
    return found


def number(data: bytes) -> int:
    return int.from_bytes(content(data), "big", signed=True)


def optional_number(data: Optional[bytes]) -> str:
    return "-" if data is None else str(number(data))


def typed(data: bytes) -> str:
    """An address or a checksum: its type and its bytes."""
    found = fields(data)
    return f"{number(found[0])}:{content(found[1]).hex()}"


def body_text(data: bytes) -> str:
    found = fields(data)
    time = content(found[1]).decode("ascii") if 1 in found else "-"
    to = typed(found[5]) if 5 in found else "-"
    return (f"data={content(found[0]).hex()} time={time} usec={optional_number(found.get(2))} "
            f"seq={optional_number(found.get(3))} from={typed(found[4])} to={to}")


def message_text(frame: bytes) -> str:
    """The fields of the message that the bytes spell."""
    tag, inside, _ = element(frame)
    found = fields(inside)
    front = f"{number(found[0])} {number(found[1])}"
    if tag == 0x74:
        return f"SAFE {front} {body_text(found[2])} cksum={typed(found[3])}"
    part = fields(found[3])
    return (f"PRIV {front} etype={number(part[0])} kvno={optional_number(part.get(1))} "
            f"cipher={content(part[2]).hex()}")


# ---- what is inside

def told(value: object) -> str:
    if isinstance(value, Address):
        return f"{value.kind}:{value.data.hex()}"
    return "-" if value is None else str(value)


def opened_text(body: Body) -> str:
    time = None if body.moment is None else body.moment.strftime("%Y%m%d%H%M%SZ")
    return (f" opened data={body.user_data.hex()} time={told(time)} "
            f"usec={told(body.microseconds)} seq={told(body.number)} from={told(body.sender)} "
            f"to={told(body.receiver)}")


def refused_text(refusal: Refusal) -> str:
    return f"refused {refusal.code.value} {refusal.name}"


def frame_line(frame: bytes, key: Optional[Key]) -> Line:
    """The line of the bytes of digits."""
    try:
        mode = message_header(frame).kind
    except Refusal as refusal:
        return Line(refused_text(refusal), False)
    text = message_text(frame)
    if key is None:
        return Line(text, True)
    try:
        with Opener(key.etype, key.bytes, mode=mode) as opener:
            return Line(text + opened_text(opener.open(frame)), True)
    except Refusal as refusal:
        return Line(f"{text} {refused_text(refusal)}", False)


def line_of(digits: bytes, key: Optional[Key]) -> Line:
    """The line of what has to be digits."""
    frame = bytes_in(digits)
    return Line("not hexadecimal", False) if frame is None else frame_line(frame, key)


def is_message(digits: bytes) -> bool:
    frame = bytes_in(digits)
    try:
        return frame is not None and message_header(frame) is not None
    except Refusal:
        return False


def texts_of(given: bytes) -> List[bytes]:
    """The lines of an input: it is cut at each line feed, and a last line without one counts
    where it isn't empty."""
    lines = given.split(b"\n")
    return lines if lines[-1] else lines[:-1]


def loose_texts_of(given: bytes) -> List[bytes]:
    """The same of loose input, without separators: only all lines together, if they are one
    message."""
    whole = digits_of(given)
    return [whole] if is_message(whole) else [digits_of(line) for line in texts_of(given)]


def lines_of(given: bytes, key: Optional[Key], is_loose: bool = False) -> Iterator[Line]:
    """The lines that are printed for an input."""
    texts = loose_texts_of(given) if is_loose else texts_of(given)
    return (line_of(digits, key) for digits in texts)
