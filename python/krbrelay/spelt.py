"""Bytes as people and tools write them: as they are, or as text in one of the usual forms."""
from __future__ import annotations

import base64
import binascii
import re
from typing import Callable, List, NamedTuple, Optional

# A byte that stands in no text: a message has the byte a0 at least.
NO_TEXT = re.compile(rb"[^\t\n\r\x20-\x7e]")
# A line of a dump: an offset; bytes; and in some the same as letters.
DUMPED = re.compile(r"[ \t]*(?:0x)?(?P<offset>[0-9a-fA-F]{4,16})(?=[: \t]|$):?[ \t]*"
                    r"(?P<digits>(?:[0-9a-fA-F]{2})+(?:[ \t]{1,2}(?:[0-9a-fA-F]{2})+)*)?"
                    r"(?P<rest>.*)")
WIDTHS = (8, 16, 32)            # the bytes that a line of a dump has
IN_C = re.compile(r"(?:0[xX]|\\x)([0-9a-fA-F]{2})(?![0-9a-fA-F])")
SEPARATORS = str.maketrans("", "", " \t\r\n:,-")
FORMS = ("raw bytes, hexadecimal digits, a dump by xxd, hexdump -C, od -tx1 or tshark -x, bytes "
         "of C, base64, pcap or pcapng")


class Row(NamedTuple):
    """A line of a dump."""
    offset: int
    data: bytes


def bytes_of_digits(text: str) -> Optional[bytes]:
    try:
        return binascii.unhexlify(text.translate(SEPARATORS))
    except binascii.Error:
        return None


def row_of(line: str) -> Optional[Row]:
    found = DUMPED.fullmatch(line)
    if found is None or (found["digits"] is None and found["rest"].strip()):
        return None
    return Row(int(found["offset"], 16), bytes.fromhex(found["digits"] or ""))


def of_dump(lines: List[str]) -> Optional[bytes]:
    """The bytes of a dump, which begins at 0, or whose lines are of equal width. What may be
    letters is cut off where the next line's offset says so."""
    rows = [row_of(line) for line in lines]
    known = [it for it in rows if it is not None]
    if len(known) < len(rows) or not known:
        return None
    steps = [after.offset - it.offset for it, after in zip(known, known[1:])]
    if known[0].offset and (len(steps) < 2 or steps[0] not in WIDTHS):
        return None
    widths = [*(step if 0 < step else len(it.data) for it, step in zip(known, steps)),
              (steps or [len(known[-1].data)])[0]]
    return b"".join(it.data[:width] for it, width in zip(known, widths))


def of_base64(text: str) -> Optional[bytes]:
    try:
        return base64.b64decode("".join(text.split()), validate=True) or None
    except binascii.Error:
        return None


def of_c(text: str) -> Optional[bytes]:
    """The bytes of an array or a string of C."""
    found = IN_C.findall(text)
    return bytes.fromhex("".join(found)) if found else None


def parts_of(given: bytes, is_whole: Callable[[bytes], bool]) -> Optional[List[bytes]]:
    """The bytes that an input spells: one part, or one for each line of digits where all lines
    together aren't what `is_whole` takes. None where it has no known form."""
    if NO_TEXT.search(given):
        return [given]
    text = given.decode("ascii")
    lines = [line for line in text.splitlines() if line.strip()]
    whole = bytes_of_digits(text)
    if whole is not None and is_whole(whole):
        return [whole]
    other = of_dump(lines) or of_c(text)
    if other is not None:
        return [other]
    each = [bytes_of_digits(line) for line in lines]
    if lines and None not in each:
        return [it for it in each if it is not None]
    other = whole or of_base64(text)
    return None if other is None else [other]
