#!/usr/bin/env python3
"""Authentic frames that are malformed within, or at the limits of frames and addresses, for the matrix.

    inside.py FILE      writes, for each size, mode, encryption type and way, a line
                        'MODE ETYPE SIZE WAY ANSWERS LENGTH' and the frame's bytes

The four answers are those of unsealing, of demands, of receivers and of peers. The frames are of an
independent sealer, tests/oracle/frames.py, whose cipher is here one call of Python's cryptography.
"""
import os
import sys

sys.path.insert(0, os.path.join(os.path.dirname(os.path.realpath(__file__)), "../../tests"))
from cryptography.hazmat.primitives.ciphers import Cipher, algorithms, modes  # noqa: E402
from oracle import frames  # noqa: E402

KEY = bytes(0xa0 + 5 * i & 255 for i in range(32))
CONFOUNDER = bytes(0xc1 + 3 * i & 255 for i in range(16))
MICROS, NUMBER = 1_700_000_000_000_005, 7
FROM, TO = (2, b"\x0a\0\0\x01"), (2, b"\x0a\0\0\xff")
SAFE, PRIV = 20, 21
KEYS = ((17, KEY[:16]), (18, KEY))
SIZES = (0, 1, 127, 128, 255, 256, 65_536)
FRAME_LIMIT, MOST_OF_ADDRESS = 1_005_000, 40
MALFORMED, FIELD_TOOLONG, BADADDR, BAD_RECORD = 901, 61, 38, 902


def cts(key: bytes, text: bytes) -> bytes:
    """frames.cts by one call of CBC."""
    engine = Cipher(algorithms.AES(key), modes.CBC(bytes(16))).encryptor()
    done = engine.update(text + bytes(-len(text) % 16)) + engine.finalize()
    return (done[:-32] + done[-16:] + done[-32:-16] if len(done) > 16 else done)[:len(text)]


def byte_of_data(i: int) -> int:
    """As secrets.c has it."""
    if i // 16 % 2 == 0:
        return 0x21 + i % 16
    return (i // 32 >> 8 * (i % 16) if i % 16 < 4 else 0x80 + i % 16) & 255


DATA = b"D" + bytes(map(byte_of_data, range(FRAME_LIMIT)))


def sealed(mode: int, key: bytes, user: bytes, sender=FROM, receiver=TO) -> bytes:
    body = frames.body(user, MICROS, NUMBER, sender, receiver)
    return of_body(mode, key, body)


def of_body(mode: int, key: bytes, body: bytes) -> bytes:
    return frames.seal_safe(key, body) if mode == SAFE else frames.seal_priv(key, body, CONFOUNDER)


def at_limits():
    """Frames of the longest length, one less and one more, and addresses of 41 and 4,000 bytes."""
    for mode, (etype, key) in zip((SAFE, PRIV), KEYS):
        around = len(sealed(mode, key, DATA[:1_001_600])) - 1_001_600
        for length in (FRAME_LIMIT - 1, FRAME_LIMIT, FRAME_LIMIT + 1):
            size = length - around
            answers = (FIELD_TOOLONG,) * 4 if length > FRAME_LIMIT else (0, 0, BAD_RECORD, 0)
            yield mode, etype, size, f"frame_of_{length}", answers, sealed(mode, key, DATA[:size])
    for mode in (SAFE, PRIV):
        for etype, key in KEYS:
            yield from with_long_addresses(mode, etype, key)


def with_long_addresses(mode: int, etype: int, key: bytes):
    for size in (20, 65_536):
        for more in (MOST_OF_ADDRESS + 1, 4000):
            for name, ends in (("sender", ((2, bytes(more)), TO)), ("receiver", (FROM, (2, bytes(more))))):
                frame = sealed(mode, key, DATA[:size], *ends)
                yield mode, etype, size, f"{name}_of_{more}_bytes", (BADADDR,) * 4, frame


def malformed(size: int, etype: int, key: bytes):
    """What is within is cut, has no sender, another tag, a month 13, or more after its end."""
    user = DATA[:size]
    body = frames.body(user, MICROS, NUMBER, FROM, TO)
    ways = {"cut": body[:-1], "no_sender": frames.body(user, MICROS, NUMBER, FROM, None, (0xA4,)),
            "tag": bytes([0x31]) + body[1:],
            "month_13": body.replace(b"20231114221320Z", b"20231314221320Z")}
    for way, inner in ways.items():
        yield SAFE, etype, size, way, (MALFORMED,) * 4, of_body(SAFE, key, inner)
        part = frames.seal_part(key, CONFOUNDER + frames.tlv(0x7C, body)[:-1]) if way == "cut" \
            else of_body(PRIV, key, inner)
        yield PRIV, etype, size, way, (MALFORMED,) * 4, part
    # A KRB-PRIV's part may be padded by zeros, so that no refusal is sure.
    yield SAFE, etype, size, "more", (MALFORMED,) * 4, of_body(SAFE, key, body + b"\1")


def written():
    yield from at_limits()
    for size in SIZES:
        for etype, key in KEYS:
            yield from malformed(size, etype, key)


def main(path: str) -> None:
    if frames.cts(bytes(16), b"x" * 77) != cts(bytes(16), b"x" * 77):
        sys.exit("inside.py: another cipher than tests/oracle/frames.py has")
    frames.cts = cts
    with open(path, "wb") as file:
        for mode, etype, size, way, answers, frame in written():
            told = " ".join(map(str, answers))
            file.write(f"{mode} {etype} {size} {way} {told} {len(frame)}\n".encode() + frame)


if __name__ == "__main__":
    main(sys.argv[1])
