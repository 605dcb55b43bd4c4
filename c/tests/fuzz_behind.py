#!/usr/bin/env python3
"""Messages whose integrity holds and whose contents were changed: fuzz_behind.py COUNT SEED prints
each in hexadecimal digits, for `fuzz given`. What is changed lies behind the checksum of a KRB-SAFE or
the encryption of a KRB-PRIV, and is sealed anew by the independent sealer of tests/oracle."""
import os
import random
import sys

TOP = os.path.join(os.path.dirname(os.path.abspath(__file__)), "../..")
sys.path[:0] = os.path.join(TOP, "tests"), os.path.join(TOP, "tools")
from oracle import frames  # noqa: E402

KEYS = (bytes(range(16)), b"\x11" * 32)
NUMBER, MICROS = 7, 1_700_000_000_000_005
SENDER, RECEIVER, OTHER = (2, b"\x0a\0\0\x01"), (2, b"\x0a\0\0\xff"), (2, b"\x0a\0\0\x02")
FIELDS = (0xA1, 0xA2, 0xA3, 0xA4)


def user_data(draw: random.Random) -> bytes:
    """A record, something like one, or other bytes."""
    texts = [draw.randbytes(draw.randrange(20)) for _ in range(draw.randrange(4))]
    return draw.choice((b"Dhi", b"C", b"CC", b"", frames.batch(texts), frames.batch(texts)[:-1],
                        draw.randbytes(draw.randrange(40))))


def body(draw: random.Random) -> bytes:
    """A body that is mostly the expected one; a field may be another, or be left out."""
    left_out = [tag for tag in FIELDS if draw.random() < 0.05]
    number = draw.choice((NUMBER,) * 8 + (0, 8, 127, 128, 2**31, 2**32 - 1))
    micros = draw.choice((MICROS,) * 8 + (MICROS + 301_000_000, MICROS - 299_000_000, 0))
    return frames.body(user_data(draw), micros, number, draw.choice((SENDER,) * 9 + (OTHER,)),
                       draw.choice((None, None, None, RECEIVER, OTHER)), left_out)


def changed(draw: random.Random, content: bytes) -> bytes:
    """The content with none to three changes: of a bit or a byte, cut, doubled or longer."""
    found = bytearray(content)
    for _ in range(draw.choice((0, 1, 1, 2, 3))):
        at = draw.randrange(len(found) + 1)
        what = draw.randrange(6)
        if what < 3 and at < len(found):
            found[at] = draw.choice((found[at] ^ 1 << draw.randrange(8), draw.randrange(256),
                                     found[draw.randrange(len(found))]))
        elif what == 3:
            del found[at:at + draw.randrange(3)]
        elif what == 4:
            found[at:at] = draw.randbytes(draw.randrange(3))
        else:
            found[at:at] = found[at:at + draw.randrange(12)]
    return bytes(found)


def message(draw: random.Random) -> bytes:
    key, inner = draw.choice(KEYS), body(draw)
    if draw.random() < 0.5:
        return frames.seal_safe(key, changed(draw, inner))
    part = changed(draw, frames.tlv(0x7C, inner))
    return frames.seal_part(key, draw.randbytes(16) + part)


def main() -> None:
    count, draw = int(sys.argv[1]), random.Random(int(sys.argv[2]))
    for _ in range(count):
        print(message(draw).hex())


main()
