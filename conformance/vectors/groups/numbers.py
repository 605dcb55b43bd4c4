"""Sequence numbers (RFC 4120 5.5.1): other ones, negative ones, ones of more than 32 bits."""
from __future__ import annotations

import collections.abc

from vectors.common import ORDINARY, each
from vectors.elements import Element, digits_of
from vectors.messages import Fields, message
from vectors.model import Suite, Verdict, acceptable, invalid, valid

VALUES = [0, 1, 2, 127, 128, 129, 255, 256, 257, 32_767, 32_768, 65_535, 65_536, 2**23 - 1, 2**23, 2**24 - 1, 2**24, 2**30,
          2**31 - 1, 2**31, 2**31 + 1, 2**32 - 129, 2**32 - 128, 2**32 - 2, 2**32 - 1]
WITHOUT_ZERO = (128, 129, 200, 255, 2**15, 2**16 - 1, 2**23, 2**24 - 1, 2**31, 2**32 - 1)
SECTION = "RFC4120 3.4.2, 3.5.2, 5.5.1"
ORDER = invalid("order")

Row = tuple[Verdict, int | None, str, str]      # of the carried number, its comment and its flag


def others(demanded: int, user: bytes) -> collections.abc.Iterator[Row]:
    """Numbers near the demanded one."""
    yield valid(user), demanded, "the same", "Normal" if demanded else "NumberZero"
    if demanded < 2**32 - 1:
        yield ORDER, demanded + 1, "one more", "WrongNumber"
    if demanded:
        yield ORDER, demanded - 1, "one less", "WrongNumber"
        yield ORDER, None, "none", "MissingNumber"
        yield ORDER, demanded ^ (1 << 31), "the highest bit flipped", "WrongNumber"
    else:
        yield acceptable(user), None, "none", "OmittedNumber"


def outside(demanded: int, user: bytes) -> collections.abc.Iterator[Row]:
    """Numbers that are none of 32 bits without a sign, or look like such."""
    if demanded >= 2**31:
        yield acceptable(user), demanded - 2**32, f"the negative {demanded - 2**32}", "NegativeNumber"
    elif demanded and digits_of(-demanded) == shortest(demanded):
        yield acceptable(user), -demanded, "its negative, which is itself without a zero before", "OldHeimdalNumber"
    elif demanded:
        yield invalid("order", "der"), -demanded, "its negative", "WrongNumber"
    for bits in (bits for bits in (8, 16, 24) if demanded >> bits - 1 == 1):
        yield ORDER, demanded | 2**32 - 2**bits, "with its sign extended to 32 bits", "SignExtendedNumber"
    yield invalid("der"), demanded + 2**32, "plus 2^32", "OutOfRange"
    yield invalid("der"), demanded + 2**64, "plus 2^64", "OutOfRange"


def shortest(number: int) -> bytes:
    """A number in as few bytes as it has, with no zero before a high bit."""
    return number.to_bytes((number.bit_length() + 7) // 8, "big")


def demanded_numbers(suite: Suite) -> None:
    for mode, key in each(suite, "sequence numbers"):
        for demanded in VALUES:
            user = b"D%d" % demanded
            for verdict, carried, comment, flag in [*others(demanded, user), *outside(demanded, user)]:
                of: Fields = ORDINARY.but(user=user, number=carried)
                suite.add(verdict, message(mode, key, of), f"demanded {demanded}: {comment}", SECTION, flag, number=demanded)
        for demanded in WITHOUT_ZERO:
            def bend(tree: Element, demanded: int = demanded) -> None:
                tree.get("seq-number").value = shortest(demanded)
            suite.add(acceptable(), message(mode, key, ORDINARY.but(number=demanded), bend),
                      f"demanded {demanded}: without its zero before a high bit", SECTION,
                      "OldHeimdalNumber" if demanded < 2**31 else "NegativeNumber", number=demanded)


def not_demanded(suite: Suite) -> None:
    for mode, key in each(suite, "numbers that aren't demanded", number=None):
        for number in [*VALUES, None]:
            suite.add(valid(), message(mode, key, ORDINARY.but(number=number)), f"number {number}", "RFC4120 3.4.2, 3.5.2")


def build(suite: Suite) -> None:
    demanded_numbers(suite)
    not_demanded(suite)
