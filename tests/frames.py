#!/usr/bin/env python3
"""Prints the frames of an independent sealer that the tests of the crates expect, or of a session
key the strings for tests/freed_memory: the key, its digits as a job file has them, and the derived keys.

    tests/frames.py [--keys KEYHEX]
    tests/frames.py --many      the SHA-1 of 21 frames that are sealed in one call, by mode and key

The sealer is tests/oracle/frames.py, and what it seals here tests/oracle/fixtures.py.
Needed: Python's package cryptography.
"""
import hashlib
import os
import sys

sys.path.insert(0, os.path.join(os.path.dirname(os.path.realpath(__file__)), "../tools"))
from lib import options
from oracle import fixtures, frames


def digest_of_many(key, is_private):
    """The SHA-1 of the frames of 21 messages from number 7 on. Message k has 13 k bytes of a pattern, a
    timestamp of k seconds and microseconds more than the first, and a confounder of bytes k."""
    hashed, pattern = hashlib.sha1(), bytes((5 * at + 1) % 256 for at in range(300))
    for k in range(21):
        body = frames.body(pattern[k:14 * k], fixtures.MICROS + 1_000_001 * k, 7 + k, fixtures.SENDER)
        hashed.update(frames.seal_priv(key, body, bytes([k]) * 16) if is_private else frames.seal_safe(key, body))
    return hashed.hexdigest()


def main(words):
    parser = options.Parser(__doc__, "--many").takes("--keys", metavar="KEYHEX")
    asked = parser.parse_args(words)
    if asked.keys:
        if len(asked.keys) not in (32, 64):
            parser.error("KEYHEX is 16 bytes or 32")
        strings = frames.strings_of(bytes.fromhex(asked.keys))
        print(",".join(f"{name}={string.hex()}" for name, string in strings.items()))
    elif not asked.form:
        for name, frame in fixtures.all_frames():
            print(f"{name} ({len(frame)} bytes)\n  {frame.hex()}")
    else:
        for name, key in (("17", fixtures.KEY_128), ("18", fixtures.KEY_256)):
            for mode in ("safe", "priv"):
                print(f"{mode} {name}: {digest_of_many(key, mode == 'priv')}")


main(sys.argv[1:])
