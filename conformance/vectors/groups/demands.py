"""Two demands that RFC 4120 leaves to the application: that absent microseconds count as 0 (5.1.2), and
that a message tells a time or a number (3.4.2, 3.5.2)."""
from __future__ import annotations

from vectors.common import CLOCK, MICROS, NUMBER, ORDINARY, Asked, each
from vectors.messages import Fields, message
from vectors.model import Suite, Verdict, acceptable, invalid, valid

OPTIONAL_INTEGERS = "RFC4120 5.1.2, 3.4.2, 3.5.2"
SKEW, NOW_MICROSECONDS = 300, 500_000


def absent_microseconds(suite: Suite) -> None:
    """The clock stands half a second after CLOCK, so CLOCK - 299 with 0 microseconds is within the skew."""
    for mode, key in each(suite, "absent microseconds count as 0", time=Asked.SECONDS_REQUIRED):
        for off in (0, -299, 299, 300, -300, 301, -301, 302, -302, 1000, -1000):
            away = abs(MICROS * off - NOW_MICROSECONDS)
            suite.add(within(away), message(mode, key, ORDINARY.but(time=CLOCK + off, usec=None)),
                      f"timestamp without usec, {off} seconds from now", OPTIONAL_INTEGERS, "AbsentMicrosecondsAreZero",
                      *(("SubsecondSkew",) if MICROS * SKEW < away < MICROS * (SKEW + 1) else ()))
        for usec in (0, 1, 999_999):
            suite.add(valid(), message(mode, key, ORDINARY.but(usec=usec)), f"usec {usec}, told", OPTIONAL_INTEGERS,
                      "AbsentMicrosecondsAreZero")
        for of, comment in ((ORDINARY.but(time=None, usec=None), "neither timestamp nor usec"),
                            (ORDINARY.but(time=None), "usec without timestamp"),
                            (ORDINARY.but(time=CLOCK - 1000), "1000 seconds before now, with usec")):
            suite.add(invalid("time"), message(mode, key, of), comment, OPTIONAL_INTEGERS, "AbsentMicrosecondsAreZero")


def within(away: int) -> Verdict:
    if away <= MICROS * SKEW:
        return valid()
    return acceptable() if away < MICROS * (SKEW + 1) else invalid("time")


NOTHING = ORDINARY.but(time=None, usec=None, number=None)
RECEIPT = "RFC4120 3.4.2, 3.5.2"


def neither(suite: Suite) -> None:
    """What the RFC says, of a receiver that isn't told so."""
    for asked in (Asked.IGNORED, Asked.IF_PRESENT):
        for mode, key in each(suite, "neither time nor number", time=asked, number=None):
            suite.add(invalid("fresh"), message(mode, key, NOTHING), "no timestamp, usec and number", RECEIPT,
                      "NeitherTimeNorNumber")
            alone = message(mode, key, NOTHING.but(usec=123_456))
            if asked is Asked.IF_PRESENT:
                suite.add(invalid("time", "fresh"), alone, "usec alone", RECEIPT, "NeitherButMicroseconds")
            else:
                suite.add(invalid("fresh"), alone, "usec alone", RECEIPT, "NeitherTimeNorNumber")


def needed(suite: Suite) -> None:
    """Of a receiver that is told to refuse such messages."""
    for asked in (Asked.IGNORED, Asked.IF_PRESENT):
        for mode, key in each(suite, "a time or a number is needed", time=asked, number=None, needs_time_or_number=True):
            for verdict, of, comment in told(asked):
                suite.add(verdict, message(mode, key, of), comment, RECEIPT, "TimeOrNumberNeeded")
    for mode, key in each(suite, "a time or a number is needed, and the number 0 demanded", time=Asked.IGNORED, number=0,
                          needs_time_or_number=True):
        suite.add(valid(), message(mode, key, NOTHING.but(number=0)), "the number 0", RECEIPT, "TimeOrNumberNeeded")
        suite.add(invalid("order"), message(mode, key, NOTHING.but(number=1)), "the number 1", RECEIPT, "TimeOrNumberNeeded")
        for it, comment in ((NOTHING, "no timestamp, usec and number"), (NOTHING.but(time=CLOCK), "seconds alone")):
            suite.add(invalid("order", "fresh"), message(mode, key, it), comment, RECEIPT, "NeitherAtNumber0")


def told(asked: Asked) -> list[tuple[Verdict, Fields, str]]:
    time = {"time": CLOCK, "usec": 123_456}
    return [(invalid("fresh"), NOTHING, "no timestamp, usec and number"),
            (invalid("time", "fresh") if asked is Asked.IF_PRESENT else invalid("fresh"), NOTHING.but(usec=123_456), "usec alone"),
            (valid(), NOTHING.but(**time), "time alone"),
            (valid(), NOTHING.but(number=NUMBER), "number alone"),
            (valid(), NOTHING.but(number=0), "the number 0 alone"),
            (valid(), NOTHING.but(**time, number=NUMBER), "time and number")]


def build(suite: Suite) -> None:
    for part in (absent_microseconds, neither, needed):
        part(suite)
