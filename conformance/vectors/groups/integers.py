"""INTEGERs: spelt with more bytes than needed, and out of their ranges (RFC 4120 5.2.4, 8.1)."""
from __future__ import annotations

from vectors.common import EITHER, FULL, NUMBER, ORDINARY, each
from vectors.elements import Element, digits_of
from vectors.groups.spelling import Change
from vectors.groups.structure import protected
from vectors.messages import SAMPLE_VERSION, bent, message, names_of
from vectors.model import Suite, Verdict, acceptable, invalid, valid

# Each INTEGER with the check that compares it, if there is one.
COMPARED = {"pvno": "pvno", "msg-type": "msg-type", "seq-number": "order", "s-address.addr-type": "address",
            "r-address.addr-type": "address", "cksumtype": "cksumtype", "etype": "etype", "usec": None, "kvno": None}
LARGEST = {"usec": 999_999, "kvno": 2**32 - 1}
SMALLEST_INT32, LARGEST_INT32, LARGEST_UINT32 = -2**31, 2**31 - 1, 2**32 - 1
FIXED = {2**31: "2^31", -2**31: "-2^31", -2**31 - 1: "-2^31 - 1", 2**32: "2^32", 2**63: "2^63", -2**63: "-2^63",
         2**64: "2^64", 2**800: "2^800"}


def right_of(mode: str, name: str) -> int:
    return {"pvno": 5, "msg-type": 20 if mode == "safe" else 21, "usec": FULL.usec, "seq-number": NUMBER,
            "s-address.addr-type": 2, "r-address.addr-type": 2, "cksumtype": 15, "etype": 18,
            "kvno": SAMPLE_VERSION}[name]


def spelt(content: bytes) -> Change:
    def change(_tree: Element, it: Element) -> None:
        it.value = content
    return change


def integers(suite: Suite) -> None:
    for mode, key in each(suite, "integers", EITHER):
        for name, inside in ((name, inside) for name, inside in names_of(mode, FULL) if name in COMPARED):
            spellings(suite, mode, key, name, protected(mode, name, inside))
            values(suite, mode, key, name, protected(mode, name, inside))


def spellings(suite: Suite, mode: str, key: bytes, name: str, under: bool) -> None:
    empty = bent(mode, key, FULL, name, under, spelt(b""))
    if COMPARED[name]:
        suite.add(invalid("der"), empty, f"{name}: no bytes", "RFC4120 5.1.1; X.690 8.3.1", "BadInteger")
    else:
        suite.add(acceptable(), empty, f"{name}: no bytes", "RFC4120 5.1.1; X.690 8.3.1", "EmptyInteger")
    for zeros in (1, 2, 4, 8, 100):
        content = bytes(zeros) + digits_of(right_of(mode, name))
        suite.add(acceptable(), bent(mode, key, FULL, name, under, spelt(content)), f"{name}: {zeros} zeros before it",
                  "RFC4120 5.1.1; X.690 8.3.2", "NonMinimalInteger")


def values(suite: Suite, mode: str, key: bytes, name: str, under: bool) -> None:
    right = right_of(mode, name)
    around = {right + 2**16: "plus 2^16", right + 2**32: "plus 2^32", right + 2**64: "plus 2^64",
              right - 2**32: "minus 2^32", -right: "negative"}
    for value, comment in {**around, **FIXED}.items():
        verdict, section, flag = verdict_of(name, value)
        suite.add(verdict, bent(mode, key, FULL, name, under, spelt(digits_of(value))), f"{name}: {comment}", section, flag)


def verdict_of(name: str, value: int) -> tuple[Verdict, str, str]:
    """Of a wrong value. Outside of its type it is malformed, and else the check that compares it fails."""
    if name in LARGEST:
        if 0 <= value <= LARGEST[name]:
            return valid(), "RFC4120 5.2.9", "KeyVersion" if name == "kvno" else "Normal"
        return acceptable(), "RFC4120 5.2.4, 5.2.9, 8.1", "OutOfRangeIgnored"
    low, high = (0, LARGEST_UINT32) if name == "seq-number" else (SMALLEST_INT32, LARGEST_INT32)
    if low <= value <= high:
        return invalid(COMPARED[name]), "RFC4120 3.4.2, 3.5.2", "WrongValue"
    return invalid("der"), "RFC4120 5.2.4, 8.1", "OutOfRange"


def microseconds(suite: Suite) -> None:
    for mode, key in each(suite, "microseconds"):
        for usec in (0, 1, 127, 128, 255, 256, 32_767, 32_768, 65_535, 65_536, 999_998, 999_999):
            suite.add(valid(), message(mode, key, ORDINARY.but(usec=usec)), f"usec {usec}", "RFC4120 5.2.4")
        for usec in (-1, -999_999, 1_000_000, 1_000_001, 2**24, 2**31 - 1):
            suite.add(acceptable(), message(mode, key, ORDINARY.but(usec=usec)), f"usec {usec}", "RFC4120 5.2.4, 8.1",
                      "OutOfRangeIgnored")


def build(suite: Suite) -> None:
    integers(suite)
    microseconds(suite)
