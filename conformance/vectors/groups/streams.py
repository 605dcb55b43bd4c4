"""Several messages to one receiver, whose number rises by one with each that it takes."""
from __future__ import annotations

import dataclasses
import random

from vectors.common import ORDINARY, Asked, each
from vectors.messages import message
from vectors.model import Step, Suite, acceptable, invalid, valid

FIRSTS = (0, 1, 1000, 127, 255, 2**31 - 2, 2**32 - 4)
SECTION = "RFC4120 3.4.2, 3.5.2, 5.5.1"
MESSAGES = 4


@dataclasses.dataclass
class Session:
    """The first messages of a session, each of which may be taken, refused, or broken."""
    mode: str
    key: bytes
    first: int
    count: int = MESSAGES

    def __post_init__(self) -> None:
        self.users = [b"D%d" % place for place in range(self.count)]
        self.sent = [message(self.mode, self.key, ORDINARY.but(
            user=user, number=(self.first + place) % 2**32, usec=place + 1)) for place, user in enumerate(self.users)]

    def taken(self, place: int) -> Step:
        return Step(self.sent[place], valid(self.users[place]))

    def refused(self, place: int) -> Step:
        """A right message whose number isn't the demanded one."""
        return Step(self.sent[place], invalid("order"))

    def again(self, place: int) -> Step:
        """A message in its turn that came too early before: a receiver with a cache refuses it."""
        return Step(self.sent[place], acceptable(self.users[place]))

    def broken(self, place: int, at: int = -1) -> Step:
        """A message with its last byte changed, which is one of its code."""
        changed = bytearray(self.sent[place])
        changed[at] ^= 1
        return Step(bytes(changed), invalid("checksum" if self.mode == "safe" else "integrity"))


def rows(suite: Suite) -> None:
    for asked in (Asked.IGNORED, Asked.REQUIRED):
        for mode, key in each(suite, f"messages in a row, time {asked.value}", time=asked):
            for first in FIRSTS:
                row(suite, Session(mode, key, first))
            for first, count in ((2**32 - 2, 4), (2**32 - 1, 3)):
                of = Session(mode, key, first, count)
                suite.stream(map(of.taken, range(count)), f"from {first} on past the last number", "RFC4120 5.5.1",
                             "WrapToZero", number=first)


def row(suite: Suite, of: Session) -> None:
    ok, no = of.taken, of.refused
    named = {
        "in order": ("Normal", [ok(0), ok(1), ok(2), ok(3)]),
        "each twice": ("Replayed", [ok(0), no(0), ok(1), no(1), ok(2)]),
        "the first again later": ("Replayed", [ok(0), ok(1), no(0), ok(2)]),
        "a gap": ("Replayed", [ok(0), no(2), no(3)]),
        "backwards": ("Replayed", [no(3), no(2), no(1)]),
        "a broken one before": ("StateAfterForgery", [of.broken(0), ok(0), ok(1)]),
        "a broken one between": ("StateAfterForgery", [ok(0), of.broken(1), ok(1)]),
        "the second before the first, then again": ("LateAgain", [no(1), ok(0), of.again(1)])}
    for comment, (flag, steps) in named.items():
        suite.stream(steps, f"from {of.first} on: {comment}", SECTION, flag, number=of.first)


# ---- longer ones

MIXED, LENGTH = 12, 40


def mixed(suite: Suite) -> None:
    """Sessions with forgeries, repeats and gaps between their messages, drawn from a seed. Nothing comes
    early that comes again in its turn: a receiver with a cache may refuse that."""
    dice = random.Random(1964)
    for mode, key in each(suite, "streams of forgeries, repeats and gaps", time=Asked.IGNORED):
        for place in range(MIXED):
            of = Session(mode, key, dice.choice(FIRSTS[:-1]), LENGTH // 2)
            suite.stream(mixed_steps(of, dice), f"stream {place} from {of.first} on", SECTION, "MixedStream", number=of.first)


def mixed_steps(of: Session, dice: random.Random) -> list[Step]:
    steps, next_ = [], 0
    while len(steps) < LENGTH and next_ < of.count:
        what = dice.choice(("in turn", "in turn", "again", "broken", "foreign"))
        if what == "in turn":
            steps.append(of.taken(next_))
            next_ += 1
        elif what == "again" and next_:
            steps.append(of.refused(dice.randrange(next_)))
        elif what == "broken":
            steps.append(of.broken(next_))
        elif what == "foreign":
            steps.append(foreign(of, next_))
    return steps


def foreign(of: Session, place: int) -> Step:
    """The message of this number under another key."""
    fields = ORDINARY.but(user=of.users[place], number=of.first + place, usec=place + 1)
    return Step(message(of.mode, bytes(len(of.key)), fields), invalid("checksum" if of.mode == "safe" else "integrity"))


def lasting_gap(suite: Suite) -> None:
    """A number is lost, and what comes after it is refused, however much that is."""
    for mode, key in each(suite, "a lost message", time=Asked.IGNORED):
        of = Session(mode, key, 1000, 12)
        after = [of.refused(place) for place in range(3, 12)]
        suite.stream([of.taken(0), of.taken(1), *after], "the third of twelve is lost", SECTION, "Replayed")
        suite.stream([of.taken(0), of.broken(1), of.refused(2), of.broken(1), of.taken(1)],
                     "a message comes broken, the next early, then the right one", SECTION, "StateAfterForgery")


def repeats_without_number(suite: Suite) -> None:
    for mode, key in each(suite, "a repeat without a number", time=Asked.REQUIRED, number=None):
        frame = message(mode, key, ORDINARY.but(number=None))
        suite.stream([Step(frame, valid()), Step(frame, acceptable())], "the same message twice", "RFC4120 3.4.2, 3.5.2",
                     "ReplayCache")
        later = message(mode, key, ORDINARY.but(number=None, usec=ORDINARY.usec + 1))
        suite.stream([Step(frame, valid()), Step(later, valid())], "a microsecond later", "RFC4120 3.4.2, 3.5.2")


def build(suite: Suite) -> None:
    for part in (rows, mixed, lasting_gap, repeats_without_number):
        part(suite)
