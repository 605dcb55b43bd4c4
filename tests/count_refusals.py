#!/usr/bin/env python3
"""Counts what an independent reader makes of cut and flipped messages.

    tests/count_refusals.py HEX..

For each message in hexadecimal digits it prints how many of its proper prefixes and how many of
its single bit flips spell a message of the grammar (RFC 4120 in DER, X.690), and how many don't.
tests/test_program.py compares `krbrelay show` and `open` with these counts. The reader,
tests/oracle/reader.py, shares nothing with them. Needed: Python.
"""

import sys

import os
sys.path.insert(0, os.path.join(os.path.dirname(os.path.realpath(__file__)), "../tools"))
from lib import options
from oracle.reader import Malformed, message, part


def is_spelt(reader, data):
    try:
        reader(data)
        return True
    except Malformed:
        return False


def count(reader, inputs):
    answers = [is_spelt(reader, data) for data in inputs]
    return answers.count(True), answers.count(False)


def main():
    for digits in options.Parser(__doc__).takes("digits", nargs="+", metavar="HEX").parse_args().digits:
        data = bytes.fromhex(digits)
        reader = part if data[:1] == b"\x7c" else message
        assert is_spelt(reader, data), digits
        cuts = [data[:n] for n in range(len(data))]
        flips = [
            data[:i] + bytes([data[i] ^ (1 << bit)]) + data[i + 1 :]
            for i in range(len(data))
            for bit in range(8)
        ]
        print(f"{len(data)} bytes", end="")
        for name, inputs in [("proper prefixes", cuts), ("bit flips", flips)]:
            good, bad = count(reader, inputs)
            print(f"; {name}: {good} spelt, {bad} malformed", end="")
        print()


if __name__ == "__main__":
    try:
        main()
    except ValueError as fault:
        sys.exit(f"count_refusals.py: {fault}")
