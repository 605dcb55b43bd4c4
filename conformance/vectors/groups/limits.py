"""Both ends of the limits of krbrelay's header that no other group has. RFC 4120 has no such limits."""
from __future__ import annotations

from vectors.common import CLOCK, LAST_SECOND, ORDINARY, Asked, each
from vectors.messages import message
from vectors.model import Suite, invalid, valid

FRAME_LIMIT = 1_005_000
LIKE_LONGEST = 100_000      # bytes whose lengths are spelt in as many bytes
SECTION = "RFC4120 5.6.1, 5.7.1"


def of_size(mode: str, key: bytes, size: int) -> tuple[bytes, bytes]:
    """A message of so many bytes, with its user data."""
    sample = bytes(LIKE_LONGEST)
    around = len(message(mode, key, ORDINARY.but(user=sample))) - len(sample)
    user = b"D" + bytes(size - around - 1)
    frame = message(mode, key, ORDINARY.but(user=user))
    assert len(frame) == size
    return frame, user


def frames(suite: Suite) -> None:
    for mode, key in each(suite, "the longest message", [("safe", 17), ("priv", 18)]):
        frame, user = of_size(mode, key, FRAME_LIMIT)
        suite.add(valid(user), frame, f"{FRAME_LIMIT} bytes", SECTION, "AtKrbrelayLimit")
    for mode, key in each(suite, "a longer message", [("safe", 17)]):
        frame, user = of_size(mode, key, FRAME_LIMIT + 1)
        suite.add(valid(user), frame, f"{FRAME_LIMIT + 1} bytes", SECTION, "OverKrbrelayLimit")


def longest_skew(suite: Suite) -> None:
    """A skew of 2^32 - 1 seconds lets each time of 1970 to 2159 pass."""
    longest = 2**32 - 1
    for mode, key in each(suite, "the longest skew", skew=longest, time=Asked.REQUIRED):
        for time in (0, CLOCK, CLOCK + longest):
            suite.add(valid(), message(mode, key, ORDINARY.but(time=time, usec=500_000)), f"a time of {time} seconds",
                      "RFC4120 3.4.2, 3.5.2", "OtherSkew")
        for time in (CLOCK + longest + 1, LAST_SECOND):
            suite.add(invalid("time"), message(mode, key, ORDINARY.but(time=time, usec=500_000)), f"a time of {time} seconds",
                      "RFC4120 3.4.2, 3.5.2", "OtherSkew", "Skew")


def build(suite: Suite) -> None:
    frames(suite)
    longest_skew(suite)
