#!/usr/bin/env python3
"""The runner of this project's opener in plain Python, tests/oracle/opener.py. OPENER names another
folder that has its package oracle."""
from __future__ import annotations

import os
import pathlib
import sys

TOP = pathlib.Path(__file__).resolve().parents[2]
sys.path[:0] = [os.environ.get("OPENER", str(TOP / "tests")), str(TOP / "tools")]
from lib.jobs import Session  # noqa: E402
from oracle import opener  # noqa: E402

from asked import IF_PRESENT, REQUIRED, Asked, run  # noqa: E402


def address(text: str) -> tuple[int, bytes]:
    kind, _, digits = text.partition(":")
    return int(kind), bytes.fromhex(digits)


def session_of(asked: Asked) -> Session | None:
    if "-" in (asked.sender, asked.receiver) or asked.number is None or asked.time not in (IF_PRESENT, REQUIRED):
        return None
    return Session(asked.key, asked.mode, asked.number, address(asked.sender), address(asked.receiver),
                   require_to=asked.receiver_required, expect_time=asked.time == REQUIRED, skew=asked.skew)


def user_data(texts: list[bytes] | None) -> bytes:
    """The user data of what a receiver took: a close, a text or a batch."""
    if texts is None:
        return b"C"
    if len(texts) == 1:
        return b"D" + texts[0]
    return b"B" + b"".join(len(it).to_bytes(4, "big") + it for it in texts)


class Reader:
    """Reads the messages of a case in turn."""

    def __init__(self, asked: Asked, session: Session) -> None:
        self.asked, self.session = asked, session
        self.receiver = opener.Receiver(session, [asked.now])

    def taken(self, message: bytes) -> bytes:
        if not self.asked.records:
            return opener.unseal(self.session, self.receiver.expected, self.asked.now, message)
        texts = self.receiver.accepted(message, self.asked.now)
        self.receiver.closed = texts is None
        return user_data(texts)

    def verdict(self, message: bytes) -> str:
        try:
            found = self.taken(message)
        except opener.Refused as refused:
            return f"no:{refused.args[0]}"
        self.receiver.expected += 1
        return f"ok:{found.hex()}"


def read(asked: Asked) -> list[str] | None:
    session = session_of(asked)
    if session is None:
        return None
    reader = Reader(asked, session)
    return [reader.verdict(message) for message in asked.messages]


if __name__ == "__main__":
    run(read)
