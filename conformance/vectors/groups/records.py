"""Records, krbrelay's own format of user data: a text ("D" and its bytes), a batch ("B" and 2 to 1,000
texts, each after its length in four bytes), a close ("C"). No RFC has them."""
from __future__ import annotations

from vectors.common import BOTH, ORDINARY, each
from vectors.messages import message
from vectors.model import Step, Suite, invalid, valid

SECTION = "docs/C.md, Records"
MOST_BYTES, MOST_TEXTS = 1_000_000, 1000
RECORD = invalid("record")


def batch(*texts: bytes) -> bytes:
    return b"B" + b"".join(len(text).to_bytes(4, "big") + text for text in texts)


GOOD = {
    "a text": b"Dtext", "a text of no bytes": b"D", "a close": b"C", "a text that begins as a close": b"DC",
    "a batch of two texts": batch(b"one", b"two"), "a batch of two empty texts": batch(b"", b""),
    "a batch of three texts": batch(b"a", b"", b"bc"), "a batch of as many texts as go": batch(*[b"t"] * MOST_TEXTS),
    "a batch whose texts look like records": batch(b"C", b"B", b"D")}
BAD = {
    "no bytes": b"", "another first byte": b"Etext", "a small d": b"dtext", "a close with a byte": b"C\0",
    "a close twice": b"CC", "a batch of no text": b"B", "a batch of one text": batch(b"one"),
    "a batch of one text too many": batch(*[b"t"] * (MOST_TEXTS + 1)),
    "a batch with a byte after it": batch(b"one", b"two") + b"\0",
    "a batch with three bytes of a length after it": batch(b"one", b"two") + bytes(3),
    "a batch whose last text lacks a byte": batch(b"one", b"two")[:-1],
    "a batch whose last length is 2^32 - 1": batch(b"one") + b"\xff" * 4,
    "a batch whose first length is 2^32 - 1": b"B" + b"\xff" * 4 + b"text",
    "a batch of lengths of two bytes": b"B\0\3one\0\3two"}


def records(suite: Suite) -> None:
    for mode, key in each(suite, "records", BOTH, of_records=True):
        for comment, user in GOOD.items():
            suite.add(valid(user), message(mode, key, ORDINARY.but(user=user)), comment, SECTION, "Record")
        for comment, user in BAD.items():
            suite.add(RECORD, message(mode, key, ORDINARY.but(user=user)), comment, SECTION, "BadRecord")


def limits(suite: Suite) -> None:
    half = MOST_BYTES // 2
    for mode, key in each(suite, "records at their limits", [("safe", 17)], of_records=True):
        longest, fullest = b"D" + bytes(MOST_BYTES), batch(bytes(half - 4), bytes(half - 4))
        for comment, user in (("a text of 1,000,000 bytes", longest), ("a batch of 1,000,000 bytes", fullest)):
            suite.add(valid(user), message(mode, key, ORDINARY.but(user=user)), comment, SECTION, "AtKrbrelayLimit")
        for comment, user in (("a text of 1,000,001 bytes", longest + b"\0"),
                              ("a batch of 1,000,001 bytes", batch(bytes(half - 4), bytes(half - 3)))):
            suite.add(RECORD, message(mode, key, ORDINARY.but(user=user)), comment, SECTION, "BadRecord")


# ---- sessions

class Sent:
    """The messages of a session of these records, from the usual number on."""

    def __init__(self, mode: str, key: bytes, *users: bytes) -> None:
        self.users = users
        self.frames = [message(mode, key, ORDINARY.but(user=user, number=ORDINARY.number + place, usec=place + 1))
                       for place, user in enumerate(users)]

    def taken(self, *places: int) -> list[Step]:
        return [Step(self.frames[place], valid(self.users[place])) for place in places]

    def refused(self, check: str, *places: int) -> list[Step]:
        return [Step(self.frames[place], invalid(check)) for place in places]


def sessions(suite: Suite) -> None:
    two = batch(b"one", b"two")
    for mode, key in each(suite, "sessions of records", BOTH, of_records=True):
        of = Sent(mode, key, b"Da", two, b"D", b"C", b"Dafter", b"C")
        suite.stream(of.taken(0, 1, 2, 3), "texts, a batch, a close", SECTION, "Record")
        suite.stream([*of.taken(0, 1, 2, 3), *of.refused("closed", 4, 5, 3, 0)], "after a close", SECTION, "AfterClose")
        suite.stream([*of.taken(0), *of.refused("order", 2, 3, 0), *of.taken(1, 2), *of.refused("order", 1), *of.taken(3)],
                     "gaps and repeats between", SECTION, "MixedStream")
        bad = Sent(mode, key, b"Da", b"Eb")
        right = Sent(mode, key, b"Da", b"Db")
        suite.stream([*bad.taken(0), *bad.refused("record", 1, 1), *right.taken(1)], "a bad record, then a right one of its number",
                     SECTION, "BadRecord")
        broken = Step(of.frames[1][:-1] + bytes([of.frames[1][-1] ^ 1]), invalid("checksum" if mode == "safe" else "integrity"))
        suite.stream([*of.taken(0), broken, *of.taken(1), *of.refused("order", 3), broken_last(broken, mode), *of.taken(2, 3)],
                     "forgeries between", SECTION, "MixedStream")


def broken_last(broken: Step, mode: str) -> Step:
    """The broken message once more, when its number isn't demanded any more."""
    return Step(broken.message, invalid("order", "checksum") if mode == "safe" else invalid("integrity"))


def build(suite: Suite) -> None:
    for part in (records, limits, sessions):
        part(suite)
