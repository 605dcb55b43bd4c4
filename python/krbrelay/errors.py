"""What a call raises."""
from __future__ import annotations

import enum
from ctypes import c_size_t, c_uint8
from typing import Callable, Optional

from krbrelay.library import TEXT_SIZE, library
from krbrelay.turns import called


class Code(enum.IntEnum):
    """Why a message is refused: the first check that it fails. The numbers below 100 are those of
    RFC 4120 section 7.5.9."""

    # of tables/answers.toml: codes
    ETYPE_NOSUPP = 14
    """Another encryption type."""
    BAD_INTEGRITY = 31
    """The encrypted part is too short, or its integrity check fails."""
    SKEW = 37
    """The time is off by more than the skew, or is missing."""
    BADADDR = 38
    """An address isn't the expected one, or is missing."""
    BADVERSION = 39
    """The protocol version isn't 5."""
    MSG_TYPE = 40
    """The message isn't of the expected kind, KRB-SAFE or KRB-PRIV."""
    MODIFIED = 41
    """The checksum differs."""
    BADORDER = 42
    """Another sequence number."""
    INAPP_CKSUM = 50
    """Another type of checksum."""
    FIELD_TOOLONG = 61
    """Over FRAME_LIMIT bytes."""
    MALFORMED = 901
    """Not a DER-encoded KRB-SAFE or KRB-PRIV message."""
    BAD_RECORD = 902
    """Of receivers: the user data aren't a record."""
    AFTER_CLOSE = 903
    """Of receivers: a close was accepted before."""
    REPEATED = 917
    """Of windows: the number was taken before."""
    TOO_OLD = 918
    """Of windows: the number is too far below the highest that was taken."""
    # end of codes


class Error(Exception):
    """Why a call did nothing, unless it is a built-in exception: ValueError and TypeError where an
    argument is wrong, MemoryError where memory is exhausted."""


class Refusal(Error):
    """A message is refused. The handle is as it was."""

    def __init__(self, code: Code, text: str) -> None:
        super().__init__(code, text)
        self.code = code
        self.number: Optional[int] = None
        """The sequence number that the message carries, where a Receiver or a Peer refuses it by
        Code.BADORDER, and it is authentic, meets all other demands, and has one."""

    @property
    def name(self) -> str:
        """The name of the code, as "BADORDER"."""
        return self.code.name

    def __str__(self) -> str:
        return f"{self.code.value} {self.name}: {self.args[1]}"


class Wiped(Error):
    """The keys of the handle were overwritten by its `wipe`."""


class Exhausted(Error):
    """No sequence number is left: a session has 2**32 at most."""


class Freed(Error):
    """The handle was freed, by its `free` or at the end of its `with`."""


class _Class(enum.IntEnum):
    """enum krbrelay_class: what a caller does about an answer. Of the others an Error is raised."""

    REFUSAL, CALLER, STATE, MEMORY = 1, 2, 3, 4


_REFUSALS = frozenset(Code)
_OF_STATE = {1: Wiped, 3: Exhausted, 907: Freed}
_ROOM = 906     # Buffers are made by this package, so the user isn't mistaken.


def answer_name(answer: int) -> str:
    """The name that the library has for the number of an answer, as "BADORDER" for 42. ValueError
    where it has none."""
    return _text(library().krbrelay_answer_name, answer)


def answer_text(answer: int) -> str:
    """What the answer with this number says, as "the sequence number isn't the expected one".
    ValueError where no answer has the number."""
    return _text(library().krbrelay_answer_text, answer)


def _text(call: Callable[..., int], answer: int) -> str:
    buffer, size = (c_uint8 * TEXT_SIZE)(), c_size_t()
    if not 0 <= answer < 1 << 32 or called(call, answer, buffer, TEXT_SIZE, size) != 0:
        raise ValueError(f"no answer of the library has the number {answer}")
    return bytes(buffer[:size.value]).decode("ascii")


def exception_of(answer: int, before: str = "") -> Exception:
    """The exception for an answer other than 0, whose text begins with what is before it."""
    text = before + answer_text(answer)
    found = called(library().krbrelay_class_of, answer)
    if found == _Class.MEMORY:
        return MemoryError(text)
    if found == _Class.CALLER and answer != _ROOM:
        return ValueError(text)
    if found == _Class.STATE:
        return _OF_STATE.get(answer, Error)(text)
    if found == _Class.REFUSAL and answer in _REFUSALS:
        return Refusal(Code(answer), text)
    return Error(text)


def check(answer: int) -> None:
    """Raises the exception of an answer other than 0."""
    if answer:
        raise exception_of(answer)
