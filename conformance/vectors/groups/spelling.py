"""How elements are spelt: lengths and tags. What BER allows, receivers MAY take (RFC 4120 5.1.1)."""
from __future__ import annotations

import collections.abc

from vectors.common import EITHER, FULL, each
from vectors.elements import Element, OCTET_STRING, length
from vectors.messages import bent, names_of, sample_of
from vectors.model import Suite, Verdict, acceptable, invalid

Change = collections.abc.Callable[[Element, Element], None]
OCTETS = ("user-data", "s-address.address", "r-address.address", "checksum", "cipher")
SEGMENTED = ("user-data", "s-address.address", "checksum", "cipher")


def widened(count: int) -> collections.abc.Callable[[int], bytes]:
    """A length in `count` bytes after its first one, zeros before it."""
    return lambda size: bytes([0x80 + count]) + size.to_bytes(count, "big")


WRONG_LENGTHS = {
    "length one more": lambda size: length(size + 1),
    "length one less": lambda size: length(size - 1) if size else length(1),
    "length 0": lambda size: b"\0",
    "length 2^31 - 1": lambda size: bytes.fromhex("847fffffff"),
    "length 2^32 - 1": lambda size: bytes.fromhex("84ffffffff"),
    "length 2^64 - 1": lambda size: b"\x88" + b"\xff" * 8,
    "length plus 2^32": lambda size: b"\x85\1" + size.to_bytes(4, "big"),
    "length plus 2^64": lambda size: b"\x89\1" + size.to_bytes(8, "big"),
    "first byte of the length ff": lambda size: b"\xff" + bytes([size & 127]),
}


class OfElement:
    """Cases about one element of a message."""

    def __init__(self, suite: Suite, mode: str, key: bytes, name: str, inside: bool) -> None:
        self.suite, self.mode, self.key, self.name, self.inside = suite, mode, key, name, inside
        self.sample, _ = sample_of(mode, FULL, name)

    def add(self, verdict: Verdict, comment: str, section: str, flag: str, change: Change) -> None:
        message = bent(self.mode, self.key, FULL, self.name, self.inside, change)
        self.suite.add(verdict, message, f"{self.name}: {comment}", section, flag)

    def size(self) -> int:
        """The size of its content in the message."""
        found: list[int] = []

        def note(_tree: Element, it: Element) -> None:
            found.append(len(it.content()))
        bent(self.mode, self.key, FULL, self.name, self.inside, note)
        return found[-1]


def elements_of(suite: Suite, mode: str, key: bytes) -> collections.abc.Iterator[OfElement]:
    return (OfElement(suite, mode, key, name, inside) for name, inside in names_of(mode, FULL))


# ---- lengths

def spelt(how: collections.abc.Callable[[int], bytes], tail: bytes = b"") -> Change:
    def change(_tree: Element, it: Element) -> None:
        it.spelt, it.tail = how, tail
    return change


def lengths(suite: Suite) -> None:
    for mode, key in each(suite, "lengths", EITHER):
        for of in elements_of(suite, mode, key):
            lengths_of(of)


def lengths_of(of: OfElement) -> None:
    shortest = len(length(of.size())) - 1
    for count in (count for count in (1, 2, 3, 4, 5, 8) if count > shortest):
        of.add(acceptable(), f"length in {count} bytes after the first", "RFC4120 5.1.1; X.690 10.1", "BerLength",
               spelt(widened(count)))
    for comment, how in WRONG_LENGTHS.items():
        of.add(invalid("der"), comment, "RFC4120 5.1.1; X.690 8.1.3", "WrongLength", spelt(how))
    indefinite = spelt(lambda size: b"\x80", b"\0\0")
    if of.sample.is_constructed():
        of.add(acceptable(), "indefinite length", "RFC4120 5.1.1; X.690 10.1", "BerIndefinite", indefinite)
        of.add(invalid("der"), "indefinite length without its end", "RFC4120 5.1.1; X.690 8.1.3", "WrongLength",
               spelt(lambda size: b"\x80"))
    else:
        of.add(invalid("der"), "indefinite length of a primitive", "RFC4120 5.1.1; X.690 8.1.3", "WrongLength", indefinite)


def indefinite_as_128(suite: Suite) -> None:
    """A length byte of 80 is no length of 128, also where 128 bytes follow it."""
    of = FULL.but(user=b"D" * 128)
    for mode, key in each(suite, "128 bytes after a length of 80", EITHER):
        for how, comment in ((b"\x80", "80"), (b"\x80\x80", "80 80")):
            message = bent(mode, key, of, "user-data", True, spelt(lambda size, how=how: how))
            suite.add(invalid("der"), message, f"user-data: {comment} before 128 bytes", "RFC4120 5.1.1; X.690 8.1.3",
                      "WrongLength")


# ---- tags

def tagged(how: collections.abc.Callable[[int], bytes]) -> Change:
    def change(_tree: Element, it: Element) -> None:
        it.tag = how(it.tag[0])
    return change


def unwrapped(_tree: Element, it: Element) -> None:
    it.raw = it.content()


def emptied(_tree: Element, it: Element) -> None:
    it.value = b""


def segmented(_tree: Element, it: Element) -> None:
    half = len(it.value) // 2
    it.tag = bytes([OCTET_STRING | 0x20])
    it.value = [Element("", OCTET_STRING, it.value[:half]), Element("", OCTET_STRING, it.value[half:])]


WRONG_TAGS = {
    "constructed and primitive exchanged": tagged(lambda tag: bytes([tag ^ 0x20])),
    "next tag": tagged(lambda tag: bytes([tag + 1])),
    "another class": tagged(lambda tag: bytes([tag ^ 0x80])),
    "tag 0": tagged(lambda tag: b"\0"),
    "removed with its tag and length, its contents left": unwrapped,
    "empty": emptied,
}


def is_of_tag(of: OfElement, comment: str) -> bool:
    """The last field's next tag is one that isn't known, and a string may be empty."""
    if comment == "next tag":
        return of.name != "r-address[5]"
    return comment != "empty" or of.name not in OCTETS


def tags(suite: Suite) -> None:
    for mode, key in each(suite, "tags", EITHER):
        for of in elements_of(suite, mode, key):
            tags_of(of)
        for of in elements_of(suite, mode, key):
            if of.name in SEGMENTED:
                of.add(acceptable(), "an OCTET STRING of two segments", "RFC4120 5.1.1; X.690 10.2",
                       "BerConstructedString", segmented)


def tags_of(of: OfElement) -> None:
    for comment, change in WRONG_TAGS.items():
        if is_of_tag(of, comment):
            of.add(invalid("der"), comment, "RFC4120 5, A", "WrongTag", change)
    of.add(acceptable(), "tag in the long form", "RFC4120 5.1.1, 5.1.5; X.690 8.1.2", "LongFormTag",
           tagged(lambda tag: bytes([tag | 0x1F, tag & 0x1F])))


def build(suite: Suite) -> None:
    lengths(suite)
    indefinite_as_128(suite)
    tags(suite)
