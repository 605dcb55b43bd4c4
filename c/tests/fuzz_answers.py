#!/usr/bin/env python3
"""Compares what krbrelay_opener_unseal answered, which `fuzz lines` prints, with the independent
opener: fuzz lines COUNT SEED | fuzz_answers.py"""
import collections
import os
import sys

TOP = os.path.join(os.path.dirname(os.path.abspath(__file__)), "../..")
sys.path[:0] = os.path.join(TOP, "tests"), os.path.join(TOP, "tools")
from oracle import opener  # noqa: E402

KEYS = {17: bytes(range(16)), 18: b"\x11" * 32}
NUMBER, NOW = 7, 1_700_000_001_000_005


def session(mode: str, etype: int) -> opener.Session:
    here, there = (2, bytes([10, 0, 0, 1])), (2, bytes([10, 0, 0, 255]))
    return opener.Session(KEYS[etype], mode, NUMBER, here, there)


def expected(mode: str, etype: int, frame: bytes) -> tuple:
    """The answer and the user data."""
    try:
        return 0, bytes(opener.unseal(session(mode, etype), NUMBER, NOW, frame))
    except opener.Refused as refused:
        return refused.args[0], b""


def main() -> int:
    seen: collections.Counter = collections.Counter()
    for line in sys.stdin:
        mode, etype, answer, text, frame = line.split(" ")
        told = int(answer), bytes.fromhex(text.rstrip("-"))
        wanted = expected(mode, int(etype), bytes.fromhex(frame))
        if told != wanted:
            print(f"not so: {mode} {etype}: {told}, and {wanted} by opener.py: {frame}")
            return 1
        seen[told[0]] += 1
    counts = ", ".join(f"{answer}: {count}" for answer, count in sorted(seen.items()))
    print(f"fuzz: {sum(seen.values())} answers as opener.py gives them ({counts})")
    return 0 if seen else 1     # no line: the program before it in the pipe gave none


sys.exit(main())
