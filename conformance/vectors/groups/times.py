"""Times: how they are spelt, the skew, clocks at limits, and fields of the time left out."""
from __future__ import annotations

import collections.abc

from vectors.common import (CLOCK, EITHER, LAST_SECOND, MICROS, ORDINARY, Asked, each)
from vectors.elements import Element, stamp
from vectors.messages import message
from vectors.model import Moment, Suite, acceptable, invalid, valid

GOOD = stamp(CLOCK)
WRONG = {
    "a small z": GOOD[:-1] + b"z", "a point alone": GOOD[:-1] + b".Z", "Z twice": GOOD + b"Z",
    "a space first": b" " + GOOD[1:], "a space for the last digit": GOOD[:-2] + b" Z", "a byte 0 at the end": GOOD + b"\0",
    "a byte 0 first": b"\0" + GOOD[1:], "two digits of the year": GOOD[2:], "with separators": b"2023-11-14T22:13:20Z",
    "a sign first": b"+" + GOOD[1:], "no bytes": b"", "letters": b"Z" * 15,
    "a digit with the high bit": GOOD[:10] + b"\xb1" + GOOD[11:], "month 13": b"20231301221320Z",
    "month 0": b"20230001221320Z", "day 0": b"20231100221320Z", "31 November": b"20231131221320Z",
    "29 February of 2023": b"20230229221320Z", "29 February of 2100": b"21000229221320Z", "hour 24": b"20231114241320Z",
    "minute 60": b"20231114226020Z", "second 61": b"20231114221361Z", "second 99": b"20231114221399Z",
    "month 99": b"20239914221320Z"}
BER = {
    "no Z": GOOD[:-1], "+0000 for Z": GOOD[:-1] + b"+0000", "-0000 for Z": GOOD[:-1] + b"-0000",
    "one hour on, +0100": b"20231114231320+0100", "a fraction .0": GOOD[:-1] + b".0Z", "a fraction .5": GOOD[:-1] + b".5Z",
    "a fraction ,0": GOOD[:-1] + b",0Z", "no seconds": GOOD[:-3] + b"Z"}
DISTANT = {
    b"19700101000000Z": "Normal", b"19700101000001Z": "Normal", b"20000229000000Z": "Normal", b"20240229235959Z": "Normal",
    b"20231130000000Z": "Normal", b"20231231235959Z": "Normal", b"20230101000000Z": "Normal", b"20230430000000Z": "Normal",
    b"20380119031407Z": "Normal", b"20380119031408Z": "After2038", b"21060207062815Z": "After2038",
    b"21060207062816Z": "After2106", b"24000229000000Z": "After2106", b"39001231235959Z": "After2106",
    b"39010101000000Z": "After2106", b"99991231235959Z": "After2106"}
TOO_EARLY = (b"19691231235959Z", b"19010101000000Z", b"00010101000000Z", b"00000101000000Z")
KERBEROS_TIME = "RFC4120 5.2.3"
RECEIPT = "RFC4120 3.4.2, 3.5.2"


# ---- spellings

def timed(mode: str, key: bytes, text: bytes) -> bytes:
    def bend(tree: Element) -> None:
        tree.get("timestamp").value = text
    return message(mode, key, ORDINARY, bend)


def as_utc_time(tree: Element) -> None:
    tree.get("timestamp").tag, tree.get("timestamp").value = b"\x17", GOOD[2:]


def spellings(suite: Suite) -> None:
    for asked in (Asked.REQUIRED, Asked.IGNORED):
        for mode, key in each(suite, f"spellings of the time, {asked.value}", EITHER, time=asked):
            for comment, text in WRONG.items():
                suite.add(invalid("der"), timed(mode, key, text), comment, KERBEROS_TIME, "BadTime")
            for comment, text in BER.items():
                suite.add(acceptable(), timed(mode, key, text), comment, KERBEROS_TIME, "BerTime")
            suite.add(invalid("der"), message(mode, key, ORDINARY, as_utc_time), "a UTCTime", KERBEROS_TIME, "WrongTag")


def distant(suite: Suite) -> None:
    for mode, key in each(suite, "distant times, ignored", EITHER, time=Asked.IGNORED):
        for text, flag in DISTANT.items():
            suite.add(valid(), message(mode, key, ORDINARY.but(time=text)), text.decode(), KERBEROS_TIME, flag)
        for text in TOO_EARLY:
            suite.add(acceptable(), message(mode, key, ORDINARY.but(time=text)), text.decode(), KERBEROS_TIME, "Before1970")
        for text in (b"20231114221360Z", b"20161231235960Z"):
            suite.add(acceptable(), message(mode, key, ORDINARY.but(time=text)), f"second 60: {text.decode()}",
                      KERBEROS_TIME, "LeapSecond")


# ---- the skew

EDGES = [(0, 500_000), (0, 0), (0, 1), (0, 999_999), (1, 0), (-1, 0), (299, 0), (300, 499_999), (300, 500_000),
         (300, 500_001), (300, 999_999), (301, 0), (301, 499_999), (301, 500_000), (301, 500_001), (302, 500_000),
         (-299, 0), (-300, 500_000), (-300, 500_001), (-300, 499_999), (-300, 0), (-301, 999_999), (-301, 500_001),
         (-301, 500_000), (-301, 499_999), (-302, 500_000), (600, 0), (-600, 0), (3600, 0), (-3600, 0), (86_400, 0),
         (-86_400, 0)]
SKEW = 300 * MICROS


def skew(suite: Suite) -> None:
    for mode, key in each(suite, "skew of 300 seconds"):
        for seconds, usec in EDGES:
            one_of_skew(suite, message(mode, key, ORDINARY.but(time=CLOCK + seconds, usec=usec)),
                        MICROS * seconds + usec - 500_000)
        for text in (b"19700101000000Z", b"20380119031408Z", b"21060207062816Z", b"99991231235959Z"):
            suite.add(invalid("time"), message(mode, key, ORDINARY.but(time=text)), text.decode(), RECEIPT, "Skew")
        suite.add(invalid("time", "der"), message(mode, key, ORDINARY.but(time=b"19691231235959Z")), "19691231235959Z",
                  RECEIPT, "Before1970")
        for bits in (31, 32, 33):
            suite.add(invalid("time"), message(mode, key, ORDINARY.but(time=CLOCK + 2**bits)),
                      f"now plus 2^{bits} seconds", RECEIPT, "TimeOverflow")


def one_of_skew(suite: Suite, frame: bytes, off: int) -> None:
    comment = f"{abs(off)} microseconds {'after' if off > 0 else 'before'} now"
    if abs(off) <= SKEW:
        suite.add(valid(), frame, comment, RECEIPT)
    elif abs(off) < SKEW + MICROS:
        suite.add(acceptable(), frame, comment, RECEIPT, "SubsecondSkew")
    else:
        suite.add(invalid("time"), frame, comment, RECEIPT, "Skew")


def other_skews(suite: Suite) -> None:
    for seconds in (0, 1, 5, 86_400, 2**31 - 1):
        for mode, key in each(suite, "other skews", EITHER, skew=seconds):
            for off in sorted({0, seconds, -seconds, seconds + 1, -seconds - 1, 10 * seconds + 7}):
                if 0 <= CLOCK + off <= LAST_SECOND:
                    frame = message(mode, key, ORDINARY.but(time=CLOCK + off, usec=500_000))
                    within = abs(off) <= seconds
                    suite.add(valid() if within else invalid("time"), frame, f"{off} seconds off, skew {seconds}", RECEIPT,
                              *(("OtherSkew",) if within else ("OtherSkew", "Skew")))


# ---- clocks

CLOCKS = {Moment(0, 0): "ClockAtEpoch", Moment(2**31 - 1, 999_999): "Normal", Moment(2**31, 0): "After2038",
          Moment(2**32 - 1, 999_999): "After2038", Moment(2**32, 0): "After2106", Moment(LAST_SECOND, 999_999): "After2106"}


def clocks(suite: Suite) -> None:
    for now, flag in CLOCKS.items():
        for mode, key in each(suite, "clocks at limits", EITHER, now=now):
            for off in offsets(now.seconds):
                frame = message(mode, key, ORDINARY.but(time=now.seconds + off, usec=now.microseconds))
                comment = f"{off} seconds from {stamp(now.seconds).decode()}"
                if abs(off) <= 300:
                    suite.add(valid(), frame, comment, KERBEROS_TIME, flag)
                else:
                    suite.add(invalid("time"), frame, comment, RECEIPT, flag, "Skew")


def before_the_epoch(suite: Suite) -> None:
    """A year before 1970 that is within the skew."""
    for mode, key in each(suite, "a second before 1970", EITHER, now=Moment(0, 0)):
        suite.add(acceptable(), message(mode, key, ORDINARY.but(time=b"19691231235959Z", usec=999_999)),
                  "a microsecond before 1970-01-01", KERBEROS_TIME, "Before1970")


def offsets(clock: int) -> list[int]:
    """Of the times that are near the clock, those that a KerberosTime can tell."""
    return [off for off in (0, 1, -1, 300, -300, 301, -301, 302, -302) if 0 <= clock + off <= LAST_SECOND]


# ---- fields left out

def left_out(suite: Suite) -> None:
    for mode, key in each(suite, "fields of the time, required"):
        without_microseconds(suite, mode, key)
        for of, comment in ((ORDINARY.but(time=None, usec=None), "neither timestamp nor usec"),
                            (ORDINARY.but(time=None), "usec without timestamp")):
            suite.add(invalid("time"), message(mode, key, of), comment, RECEIPT, "MissingTime")
    for mode, key in each(suite, "fields of the time, where present", time=Asked.IF_PRESENT):
        without_microseconds(suite, mode, key)
        suite.add(valid(), message(mode, key, ORDINARY.but(time=None, usec=None)), "neither timestamp nor usec", RECEIPT)
        suite.add(acceptable(), message(mode, key, ORDINARY.but(time=None)), "usec without timestamp", RECEIPT,
                  "MicrosecondsAlone")
        suite.add(invalid("time"), message(mode, key, ORDINARY.but(time=CLOCK - 1000)), "1000 seconds before now", RECEIPT,
                  "Skew")


def without_microseconds(suite: Suite, mode: str, key: bytes) -> None:
    section = "RFC4120 3.4.2, 3.5.2, 5.1.2"
    for off in (0, -299, 299):
        suite.add(acceptable(), message(mode, key, ORDINARY.but(usec=None, time=CLOCK + off)),
                  f"timestamp without usec, {off} seconds from now", section, "OmittedMicroseconds")
    suite.add(invalid("time"), message(mode, key, ORDINARY.but(usec=None, time=CLOCK - 1000)),
              "timestamp without usec, 1000 seconds before now", section, "Skew")


def not_demanded(suite: Suite) -> None:
    for mode, key in each(suite, "time that isn't demanded", EITHER, time=Asked.IGNORED):
        for comment, of in (("neither", ORDINARY.but(time=None, usec=None)), ("no usec", ORDINARY.but(usec=None)),
                            ("far off", ORDINARY.but(time=CLOCK - 10**7))):
            suite.add(valid(), message(mode, key, of), f"time: {comment}", "RFC4120 5.6.1, 5.7.1")
        suite.add(acceptable(), message(mode, key, ORDINARY.but(time=None)), "usec without timestamp", "RFC4120 5.6.1, 5.7.1",
                  "MicrosecondsAloneIgnored")


PARTS: list[collections.abc.Callable[[Suite], None]] = [spellings, distant, skew, other_skews, clocks, before_the_epoch, left_out, not_demanded]


def build(suite: Suite) -> None:
    for part in PARTS:
        part(suite)
