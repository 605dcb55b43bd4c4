"""Messages that each receiver takes: each size, each rest of the last block, random fields, keys."""
from __future__ import annotations

import random

from vectors.common import BOTH, CLOCK, EITHER, KEYS, ORDINARY, TO, Asked, demand, each, text_of
from vectors.messages import Fields, message
from vectors.model import Address, Group, Suite, etype_of, invalid, valid

MESSAGES = "RFC4120 5.6.1, 5.7.1"
SIZES = [*range(0, 100), *range(118, 134), 143, 144, 145, *range(198, 214), *range(240, 260), 511, 512, 1023, 1024,
         4095, 4096]


def sizes(suite: Suite) -> None:
    for mode, key in each(suite, "user data of each size"):
        for size in SIZES + [32_767, 32_768] * (etype_of(key) == 17):
            user = text_of(size)
            suite.add(valid(user), message(mode, key, ORDINARY.but(user=user)), f"{size} bytes of user data", MESSAGES)


def long_data(suite: Suite) -> None:
    for mode, key in each(suite, "long user data", EITHER):
        for size in (65_535, 65_536, 100_000):
            user = b"D" + bytes(size - 1)
            suite.add(valid(user), message(mode, key, ORDINARY.but(user=user)), f"{size} bytes of user data", MESSAGES,
                      "LongMessage")


def few_fields(suite: Suite) -> None:
    """Enciphered texts from the smallest part on, so that stealing meets each rest at two blocks."""
    kinds = [("priv", 17), ("priv", 18), ("safe", 17)]
    for mode, key in each(suite, "few fields", kinds, sender=None, receiver=None, time=Asked.IGNORED):
        for size, address in ((size, address) for size in range(24) for address in (0, 4)):
            of = Fields(user=b"D" * size, number=ORDINARY.number, sender=Address(2, bytes(address)))
            suite.add(valid(of.user), message(mode, key, of), f"{size} bytes of user data, an address of {address} bytes, "
                      "no time", "RFC3962 5")


EDGES = [0, 127, 128, 255, 256, 65_535, 65_536, 2**31 - 1, 2**31, 2**32 - 1]


def random_fields(dice: random.Random) -> Fields:
    user = b"D" + dice.randbytes(dice.randrange(300))
    number = dice.choice([*EDGES, dice.randrange(2**32)])
    sender = Address(2, dice.randbytes(4)) if dice.random() < .6 else Address(24, dice.randbytes(16))
    return Fields(user, CLOCK + dice.randrange(-299, 300), dice.randrange(1, 10**6), number, sender,
                  dice.choice([None, TO]))


def random_messages(suite: Suite) -> None:
    dice = random.Random(4120)
    for mode, etype in [kind for kind in BOTH for _ in range(60)]:
        key, of = dice.randbytes(len(KEYS[etype])), random_fields(dice)
        suite.begin(Group("random valid messages", mode, key, demand(sender=of.sender, number=of.number)))
        suite.add(valid(of.user), message(mode, key, of), "random fields", MESSAGES)


def keys(suite: Suite) -> None:
    for mode, etype in BOTH:
        size = len(KEYS[etype])
        named = {"zeros": bytes(size), "ones": b"\xff" * size, "one bit": bytes(size - 1) + b"\1",
                 "the other end": b"\x80" + bytes(size - 1), "bytes in order": bytes(range(size)),
                 "odd parity": b"\1" * size}
        for name, key in named.items():
            suite.begin(Group("keys", mode, key, demand()))
            suite.add(valid(), message(mode, key, ORDINARY), f"a key of {name}", "RFC3962 3")
            other = bytes([key[0] ^ 1]) + key[1:]
            suite.add(invalid("checksum" if mode == "safe" else "integrity"), message(mode, other, ORDINARY),
                      f"a key of {name}, one bit other", "RFC3962 3", "WrongKey")


def build(suite: Suite) -> None:
    for part in (sizes, long_data, few_fields, random_messages, keys):
        part(suite)
