"""Windows: which sequence numbers were taken, for transports that bring messages in any order."""
from __future__ import annotations

from ctypes import byref
from typing import NamedTuple

from krbrelay.errors import check
from krbrelay.library import WindowStruct, library
from krbrelay.turns import Turns, called, in_turn
from krbrelay.values import ranged


class Taken(NamedTuple):
    """What a window goes on from."""
    highest: int
    """The highest number that was taken."""
    bits: int
    """Whether it was, and the 63 numbers below it: a bit each, 2**63 that of the highest."""


class Window(Turns):
    """Takes each sequence number once: any above the highest that it took, and those less than 64
    below it. It takes the numbers from `first` on. One window belongs to one direction of one key.

    Take the number of a message after Opener.open opened it without a demand of the number.

    ValueError, TypeError, LibraryError.
    """

    def __init__(self, first: int = 0) -> None:
        super().__init__()
        self._struct = WindowStruct()
        lowest = ranged("the number", first, 0, 2**64 - 1)
        called(library().krbrelay_window_new, byref(self._struct), lowest)

    @classmethod
    def of(cls, taken: Taken) -> Window:
        """The window that goes on from what was stored. ValueError, TypeError, LibraryError."""
        found = cls()
        found._struct.highest = ranged("the highest number", taken.highest, 0, 2**64 - 1)
        found._struct.taken = ranged("the bits", taken.bits, 0, 2**64 - 1)
        return found

    @in_turn
    def take(self, number: int) -> None:
        """Takes a number. Refusal with Code.REPEATED where it was taken before, or with
        Code.TOO_OLD where it is 64 or more below the highest. Then the window is as it was.

        Refusal, ValueError, TypeError.
        """
        check(library().krbrelay_window_take(
            byref(self._struct), ranged("the number", number, 0, 2**64 - 1)))

    @property
    @in_turn
    def taken(self) -> Taken:
        """What to store with the effects of the messages."""
        return Taken(self._struct.highest, self._struct.taken)
