"""The keys, addresses and frames that the tests expect: of krb_seal and krb_peers (in
krb_message_tests), krb_forgery, krb_core (in krb_thread_tests), krb_commands, krbrelay, krb_structs and krb_laws
(both in krb_call_tests), of the C programs, of the program example_seal and of the package in python/. The sealer
is frames.py."""
import hashlib

from lib.jobs import MICROS
from oracle.frames import (
    batch, body, checksum_of, groups, record, safe, seal_part, seal_priv, seal_safe, tlv)

SENDER = (2, bytes([10, 0, 0, 1]))
RECEIVER = (2, bytes([10, 0, 0, 255]))
KEY_128 = bytes(range(16))
KEY_256 = bytes([0x11] * 32)
# The first 48 bytes that ChaCha20 gives for a key of zeros (RFC 8439 appendix A.1): what
# krb_thread_tests draws for the first three records.
DRAWN = bytes.fromhex("76b8e0ada0f13d90405d6ae55386bd28bdd219b8a08ded1aa836efcc8b770dc7"
                      "da41597c5157488d7724e03fb8d84a37")
FIRST, LAST = 7, 4294967295     # the number of most frames, and the last one


def body_of(user, number=FIRST, receiver=None, left_out=()):
    """The body of user data from the sender, at the one timestamp."""
    return body(user, MICROS, number, SENDER, receiver, left_out)


INNER = body_of(b"Dhi")         # the text 68 69


def texts():
    """A text and the close, in each mode under each key."""
    told = body_of(b"Dhi", receiver=RECEIVER)
    second = body_of(b"C", FIRST + 1)
    yield "safe 17", seal_safe(KEY_128, INNER)
    yield "safe 17, the close behind it", seal_safe(KEY_128, second)
    yield "priv 17, first drawn confounder", seal_priv(KEY_128, INNER, DRAWN[:16])
    yield "priv 17, the close behind it", seal_priv(KEY_128, second, DRAWN[16:32])
    yield "safe 17, to the receiver", seal_safe(KEY_128, told)
    yield "safe 18", seal_safe(KEY_256, INNER)
    yield "safe 18, the close behind it", seal_safe(KEY_256, second)
    yield "priv 18, first drawn confounder", seal_priv(KEY_256, INNER, DRAWN[:16])
    yield "priv 18, the close behind it", seal_priv(KEY_256, second, DRAWN[16:32])


def edges():
    """The last numbers, and the longest text."""
    long = body_of(b"D" + bytes(1_000_000))
    yield "safe 17, last number", seal_safe(KEY_128, body_of(b"C", LAST))
    yield ("safe 17, the text 61 before the last number",
           seal_safe(KEY_128, body_of(b"Da", LAST - 1)))
    yield "safe 17, the front of a text of 1,000,000 bytes", seal_safe(KEY_128, long)[:41]


def batches():
    """The batch of 61 and 62, the text 63 and the close."""
    records = [record(group) for group in groups([b"a", b"b", b"c"], 2)] + [b"C"]
    first, second, close = (body_of(it, FIRST + place) for place, it in enumerate(records))
    before_last = body_of(batch([b"a", b"b"]), LAST - 1)
    yield "safe 17, the batch of 61 and 62", seal_safe(KEY_128, first)
    yield "safe 17, the text 63 behind it", seal_safe(KEY_128, second)
    yield "safe 17, the close behind both", seal_safe(KEY_128, close)
    yield "safe 17, the batch before the last number", seal_safe(KEY_128, before_last)
    yield "priv 17, the batch, first drawn confounder", seal_priv(KEY_128, first, DRAWN[:16])
    yield "priv 17, the text 63 behind it", seal_priv(KEY_128, second, DRAWN[16:32])
    yield "priv 17, the close behind both", seal_priv(KEY_128, close, DRAWN[32:])


def odd_bodies():
    """What a receiver refuses of a KRB-SAFE whose bytes are right."""
    yield "safe 17, no record", seal_safe(KEY_128, body_of(b"X"))
    yield "safe 17, an empty checksum", safe(INNER, 15, b"")
    yield "safe 17, what is under the checksum", safe(INNER, 0, b"")
    for name, tags in (("no usec", (0xA2,)), ("no time", (0xA1,)), ("neither", (0xA1, 0xA2)),
                       ("no number", (0xA3,)), ("neither time nor number", (0xA1, 0xA2, 0xA3)),
                       ("seconds and no number", (0xA2, 0xA3))):
        yield f"safe 17, {name}", seal_safe(KEY_128, body_of(b"Dhi", left_out=tags))
    yield "safe 17, a byte more", safe(INNER, 15, checksum_of(KEY_128, INNER) + b"\0")


def odd_parts():
    """Confounders that are given, and what isn't an encrypted part."""
    yield "priv 17, confounder 0", seal_priv(KEY_128, INNER, bytes(16))
    yield "priv 17, confounder 1", seal_priv(KEY_128, INNER, bytes([1] * 16))
    yield "priv 18, confounder 0", seal_priv(KEY_256, INNER, bytes(16))
    yield "priv 17, the text under the code of the first drawn confounder", DRAWN[:16] + tlv(0x7C, INNER)
    yield "priv 17, no part", seal_part(KEY_128, bytes(16))
    yield "priv 17, a part cut short", seal_part(KEY_128, bytes(16) + tlv(0x7C, INNER)[:-1])
    yield "priv 17, a wide length", seal_part(KEY_128, bytes(16) + b"\x7c\x81\x37" + INNER)
    yield ("priv 18, the data hi of example_seal",
           seal_priv(KEY_256, body_of(b"hi"), bytes([7] * 16)))


# What is sealed in one call: message k has 13 k bytes of user data, the byte 5 (k + j) + 1
# modulo 256 at each place j, the timestamp of the first and 1,000,001 k microseconds, the number
# FIRST + k, and a confounder of 16 bytes k.
MANY = 21


def many(key, mode):
    """The frames of those messages, one after another."""
    for k in range(MANY):
        data = bytes((5 * (k + j) + 1) % 256 for j in range(13 * k))
        inner = body(data, MICROS + 1_000_001 * k, FIRST + k, SENDER)
        yield seal_safe(key, inner) if mode == 20 else seal_priv(key, inner, bytes([k] * 16))


def digests():
    """The SHA-1 of the frames that are sealed in one call, which are too long to stand in a test."""
    for mode, kind in ((20, "safe"), (21, "priv")):
        for key, etype in ((KEY_128, 17), (KEY_256, 18)):
            frames = b"".join(many(key, mode))
            yield f"{kind} {etype}, SHA-1 of {MANY} frames", hashlib.sha1(frames).digest()


def all_frames():
    """All frames that the tests expect, and digests of frames, each with its name."""
    for part in (texts, edges, batches, odd_bodies, odd_parts, digests):
        yield from part()
