"""Fields left out, repeated, exchanged and added, and messages cut short."""
from __future__ import annotations

import collections.abc

from vectors.common import BOTH, EITHER, FULL, ORDINARY, PRIV, each
from vectors.elements import Element
from vectors.groups.spelling import Change
from vectors.messages import (UNDER_CHECKSUM, Confounders, bent, encrypt, message, names_of, of_cipher, part_tree, priv,
                              safe, sample_of)
from vectors.model import Suite, acceptable, invalid

REQUIRED = {"user-data[0]", "pvno[0]", "msg-type[1]", "safe-body[2]", "cksum[3]", "cksumtype[0]", "checksum[1]",
            "enc-part[3]", "etype[0]", "cipher[2]", "s-address.addr-type[0]", "s-address.address[1]",
            "r-address.addr-type[0]", "r-address.address[1]"}
SEQUENCES = ("KRB-SAFE.SEQUENCE", "KRB-PRIV.SEQUENCE", "safe-body", "enc-part", "part", "cksum", "s-address", "r-address")
UNCOVERED = ("cksum",)      # of a KRB-SAFE's SEQUENCEs the one that its checksum doesn't cover


def protected(mode: str, name: str, inside: bool) -> bool:
    """Whether a bend of this element goes under the protection."""
    return inside or mode == "safe" and name in UNDER_CHECKSUM


def dropped(tree: Element, it: Element) -> None:
    tree.drop(it.name)


def doubled(tree: Element, it: Element) -> None:
    fields = tree.above(it.name).value
    fields.insert(fields.index(it), it)


def exchanged(tree: Element, it: Element) -> None:
    """Exchanges it and the field after it; the last one comes first."""
    fields = tree.above(it.name).value
    place = fields.index(it)
    if place + 1 < len(fields):
        fields[place], fields[place + 1] = fields[place + 1], fields[place]
    else:
        fields.insert(0, fields.pop())


def fields(suite: Suite) -> None:
    for mode, key in each(suite, "fields left out, repeated, exchanged", EITHER):
        for name, inside in names_of(mode, FULL):
            under = protected(mode, name, inside)

            def add(comment: str, flag: str, change: Change, name: str = name, under: bool = under) -> None:
                suite.add(invalid("der"), bent(mode, key, FULL, name, under, change), comment, "RFC4120 5.6.1, 5.7.1, A",
                          flag)
            if name in REQUIRED:
                add(f"{name} left out", "MissingField", dropped)
            if "[" in name:
                add(f"{name} twice", "DuplicateField", doubled)
            if "[" in name and len(sample_of(mode, FULL, name)[1].value) > 1:
                add(f"{name} and the field after it exchanged", "FieldOrder", exchanged)


# ---- what is added

def appended(make: collections.abc.Callable[[], Element]) -> Change:
    def change(_tree: Element, it: Element) -> None:
        it.value.append(make())
    return change


UNKNOWN = appended(lambda: Element("unknown", 0xA9, [Element("number", 2, b"\1")]))
TRAILING = {"a NULL added": appended(lambda: Element("null", 5, b"")), "zeros added": appended(lambda: Element("zero", 0, b""))}


def added(suite: Suite) -> None:
    for mode, key in each(suite, "fields added", EITHER):
        for name, inside in names_of(mode, FULL):
            if name in SEQUENCES:
                added_to(suite, mode, key, name, inside)
        if mode == "safe":
            message_ = safe(key, FULL, outside=lambda tree: tree.get("KRB-SAFE.SEQUENCE").value.insert(
                0, Element("before", 0x85, b"")))
            suite.add(invalid("der"), message_, "a field before pvno", "RFC4120 5.6.1, A", "FieldOrder")


def added_to(suite: Suite, mode: str, key: bytes, name: str, inside: bool) -> None:
    covered = mode == "safe" and name not in UNCOVERED
    under = inside or covered
    suite.add(acceptable(), bent(mode, key, FULL, name, under, UNKNOWN), f"{name}: a field [9] added", "RFC4120 1.5.1",
              "UnknownField")
    for comment, change in TRAILING.items():
        suite.add(acceptable(), bent(mode, key, FULL, name, under, change), f"{name}: {comment}", "RFC4120 5.6.1, 5.7.1",
                  "TrailingElement")
    if covered:
        suite.add(invalid("checksum", "der"), bent(mode, key, FULL, name, False, UNKNOWN),
                  f"{name}: a field [9] added after the checksum", "RFC4120 3.4.2, 5.6.1", "UnauthenticatedField")


def after_the_message(suite: Suite) -> None:
    for mode, key in each(suite, "bytes after the message", EITHER):
        whole = message(mode, key, FULL)
        tails = {"a byte 0": b"\0", "two bytes 0": b"\0\0", "a byte ff": b"\xff", "itself": whole,
                 "100 bytes": bytes(range(100))}
        for comment, tail in tails.items():
            suite.add(acceptable(), whole + tail, f"after the message: {comment}", "RFC4120 5.1", "TrailingBytes")


def after_the_part(suite: Suite) -> None:
    for _, key in each(suite, "bytes after the enciphered part", [("priv", 18)]):
        for tail in [bytes(size) for size in (1, 2, 7, 8, 15, 16, 17)] + [bytes([5] * 5)]:
            suite.add(acceptable(), priv(key, FULL, after=tail), f"{len(tail)} bytes {tail[0]} after the enciphered part",
                      "RFC3961 5.3; RFC4120 5.7.1", "PaddedPart")


# ---- what is cut

def cut_short(suite: Suite) -> None:
    for mode, key in each(suite, "cut short", BOTH):
        whole = message(mode, key, ORDINARY.but(user=b"D"))
        for size in range(len(whole)):
            suite.add(invalid("der"), whole[:size], f"the first {size} of {len(whole)} bytes", "RFC4120 5.1.1", "Truncated")


def cut_inside(suite: Suite) -> None:
    for _, key in each(suite, "an enciphered part cut short", PRIV):
        whole = part_tree(ORDINARY.but(user=b"D")).encoded()
        for size in range(len(whole)):
            cipher = encrypt(key, Confounders.next() + whole[:size])
            suite.add(invalid("der"), of_cipher(key, cipher),
                      f"the first {size} of {len(whole)} bytes of the enciphered part, authentic", "RFC4120 5.7.1",
                      "Truncated")


def build(suite: Suite) -> None:
    for part in (fields, added, after_the_message, after_the_part, cut_short, cut_inside):
        part(suite)
