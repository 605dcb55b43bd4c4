#!/usr/bin/env python3
"""Writes made.json, which the suite has: some of the messages that other implementations made.

    conformance/makers/collect.py OUT.json BY=MADE.tsv..

A maker (mit.c, also with -DHEIMDAL; shishi.c, gokrb5.go, JdkMake.java) writes a line a message: the mode, the encryption
type and so on of a runner's line, in 13 fields, and the user data. What each message is, is found here by the RFC's text and
the reader and opener of tests/oracle. Needed: Python's package cryptography.
"""
from __future__ import annotations

import collections
import dataclasses
import json
import pathlib
import sys

TOP = pathlib.Path(__file__).resolve().parents[2]
sys.path[:0] = [str(TOP / "tests"), str(TOP / "tools")]
from oracle import frames, opener, reader  # noqa: E402

OF_KIND, OF_MODE = 2, 30        # messages of each kind, and of each mode of a maker


@dataclasses.dataclass(frozen=True)
class Made:
    """A maker's line."""
    mode: str
    etype: str
    key: bytes
    sender: str
    receiver: str
    required: str
    time: str
    number: str
    message: bytes
    user: str

    @property
    def is_big(self) -> bool:
        return self.number != "-" and int(self.number) >= 2**31


Kind = tuple[str, str, str | None]      # result, flag and check


def made_of(line: str) -> Made:
    f = line.rstrip("\n").split("\t")
    return Made(f[1], f[2], bytes.fromhex(f[3]), f[4], f[5], f[6], f[7], f[11], bytes.fromhex(f[12]), f[13])


# ---- what a message is

def safe_body(it: Made) -> tuple[list[object], Kind | None]:
    """The body, and what the message is if its checksum isn't RFC 4120's."""
    _, _, body, (_, checksum) = reader.message(it.message)
    rest = reader.only(reader.only(it.message, 0x74), 0x30)
    for tag in (0xA0, 0xA1):
        rest = reader.element(rest, tag)[1]
    inner = reader.element(rest, 0xA2)[0]
    code = frames.derive(it.key, 15, 0x99)
    if frames.mac(code, frames.safe(inner, 0, b"")) == checksum:
        return body, None
    legacy = frames.mac(code, inner) == checksum
    return body, ("acceptable", "Rfc1510Checksum", None) if legacy else ("invalid", "WrongInput", "checksum")


def priv_body(it: Made) -> list[object]:
    cipher = reader.message(it.message)[2][2]
    text = opener.cts_open(opener.derive(it.key, 13, 0xAA), cipher[:-12])
    assert frames.mac(opener.derive(it.key, 13, 0x55), text) == cipher[-12:]
    return reader.part(text[16:])


def kind_of(it: Made) -> Kind:
    try:
        body, other = safe_body(it) if it.mode == "safe" else (priv_body(it), None)
    except reader.Malformed:
        return kind_of_malformed(it)
    if other:
        return other
    time, usec, number = body[1:4]
    if time is None and number is None and it.number == "-":
        return "invalid", "NeitherTimeNorNumber", "fresh"
    if time is not None and usec is None:
        return "acceptable", "OmittedMicroseconds", None
    if number is None and it.number == "0":
        return "acceptable", "OmittedNumber", None
    return "valid", "Normal", None


def kind_of_malformed(it: Made) -> Kind:
    if it.sender == "-":
        return "acceptable", "MissingSender", None
    if it.mode == "priv" and it.is_big:
        return "acceptable", "NegativeNumber", None
    return "invalid", "WrongTag", "der"


# ---- some of them

def is_wanted(it: Made) -> bool:
    """Not one with two faults: no sender, and neither time nor number."""
    return bool(it.user) and not (it.sender == "-" and it.time == "0" and it.number == "-")


def some_of(path: str) -> list[tuple[Made, Kind]]:
    """A few of each kind of message."""
    taken: collections.Counter[tuple[object, ...]] = collections.Counter()
    found = []
    with open(path, encoding="ascii") as file:
        for it in filter(is_wanted, map(made_of, file)):
            kind = kind_of(it)
            number = "big" if it.is_big else str(it.number in ("-", "0"))
            key = (it.mode, it.etype, kind, it.sender, it.receiver, it.required, it.time, number)
            if taken[key] < OF_KIND and taken[it.mode,] < OF_MODE:
                taken[key] += 1
                taken[it.mode,] += 1
                found.append((it, kind))
    return found


def row_of(by: str, it: Made, kind: Kind) -> dict[str, object]:
    return {"by": by, "mode": it.mode, "etype": int(it.etype), "key": it.key.hex(), "sender": it.sender, "receiver": it.receiver,
            "required": int(it.required), "time": int(it.time), "seq": None if it.number == "-" else int(it.number),
            "msg": it.message.hex(), "userData": it.user, "result": kind[0], "flag": kind[1], "check": kind[2]}


def main(words: list[str]) -> int:
    out, *sources = words
    rows = [row_of(by, it, kind) for by, _, path in (word.partition("=") for word in sources) for it, kind in some_of(path)]
    pathlib.Path(out).write_text("[\n" + ",\n".join(map(json.dumps, rows)) + "\n]\n", encoding="utf-8")
    print(f"{len(rows)} messages")
    return 0


if __name__ == "__main__":
    sys.exit(main(sys.argv[1:]))
