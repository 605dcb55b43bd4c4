"""Elements of DER that a case may bend: their tags, their lengths, and what is in them."""
from __future__ import annotations

import collections.abc
import time

INTEGER, OCTET_STRING, NULL, SEQUENCE, TIME = 0x02, 0x04, 0x05, 0x30, 0x18
CONSTRUCTED = 0x20


def length(size: int) -> bytes:
    """The length of so many bytes, as DER spells it."""
    if size < 128:
        return bytes([size])
    digits = size.to_bytes((size.bit_length() + 7) // 8, "big")
    return bytes([0x80 + len(digits)]) + digits


class Element:
    """An element with its name, its tag, and the bytes or the elements in it. `spelt` gives the bytes
    of its length, `tail` follows its content, and `raw` takes the place of all of it."""

    def __init__(self, name: str, tag: int, value: bytes | list[Element]) -> None:
        self.name, self.tag, self.value = name, bytes([tag]), value
        self.spelt: collections.abc.Callable[[int], bytes] = length
        self.tail, self.raw = b"", None

    def content(self) -> bytes:
        if isinstance(self.value, bytes):
            return self.value
        return b"".join(it.encoded() for it in self.value)

    def encoded(self) -> bytes:
        if self.raw is not None:
            return self.raw
        content = self.content()
        return self.tag + self.spelt(len(content)) + content + self.tail

    def is_constructed(self) -> bool:
        return bool(self.tag[0] & CONSTRUCTED)

    def all(self, above: Element | None = None) -> collections.abc.Iterator[tuple[Element, Element]]:
        """Each element in it, itself first, with the one that it is in."""
        yield self, above
        for it in [] if isinstance(self.value, bytes) else list(self.value):
            yield from it.all(self)

    def has(self, name: str) -> bool:
        return any(it.name == name for it, _ in self.all())

    def get(self, name: str) -> Element:
        return next(it for it, _ in self.all() if it.name == name)

    def above(self, name: str) -> Element:
        """The element that the named one is in."""
        return next(up for it, up in self.all() if it.name == name)

    def drop(self, name: str) -> None:
        self.above(name).value.remove(self.get(name))


def digits_of(number: int) -> bytes:
    """The content of an INTEGER."""
    size = (number + (number < 0)).bit_length() // 8 + 1
    return number.to_bytes(size, "big", signed=True)


def integer(name: str, number: int) -> Element:
    return Element(name, INTEGER, digits_of(number))


def octets(name: str, content: bytes) -> Element:
    return Element(name, OCTET_STRING, content)


def explicit(number: int, inner: Element) -> Element:
    return Element(f"{inner.name}[{number}]", 0xA0 + number, [inner])


def sequence(name: str, *fields: Element) -> Element:
    return Element(name, SEQUENCE, list(fields))


def stamp(seconds: int) -> bytes:
    """The content of a KerberosTime."""
    return time.strftime("%Y%m%d%H%M%SZ", time.gmtime(seconds)).encode()
