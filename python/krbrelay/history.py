"""Histories: one digest of the frames of a session that took effect, by which both ends see whether
they speak of the same frames."""
from __future__ import annotations

from ctypes import c_uint8

from krbrelay.errors import check
from krbrelay.library import HISTORY_SIZE, library
from krbrelay.turns import Turns, in_turn
from krbrelay.values import Bytes, bytes_of


class History(Turns):
    """One digest of the frames of a session that took effect, in their order.

    Numbers don't tell two senders apart: one whose store was restored or copied seals other
    messages under numbers that were used. A receiver stores the digest beside the number that it
    demands, and sends both back; a sender adds the frames that it sealed, and compares.

    ValueError, TypeError, LibraryError.
    """

    def __init__(self, digest: bytes = bytes(HISTORY_SIZE)) -> None:
        """Goes on from a digest that was stored; zeros are no frames."""
        super().__init__()
        stored = bytes_of("the digest", digest)
        if len(stored) != HISTORY_SIZE:
            raise ValueError(f"the digest has {len(stored)} bytes: it has to have {HISTORY_SIZE}")
        self._bytes = (c_uint8 * HISTORY_SIZE).from_buffer_copy(stored)

    @in_turn
    def add(self, frame: Bytes) -> None:
        """Adds a frame that took effect, or one that was sealed.

        Error, TypeError, LibraryError.
        """
        content = bytes_of("the frame", frame)
        check(library().krbrelay_history_add(self._bytes, content, len(content)))

    @property
    @in_turn
    def digest(self) -> bytes:
        """What to store and to compare: 20 bytes, with no secret in them."""
        return bytes(self._bytes)
