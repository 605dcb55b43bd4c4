"""One call at a time on one value, whichever thread makes it."""
from __future__ import annotations

import functools
import threading
from ctypes import ArgumentError
from typing import Any, Callable, NoReturn, TypeVar, cast

Returned = TypeVar("Returned")
Method = TypeVar("Method", bound=Callable[..., Any])

OF_ITS_THREAD = ("a call of this thread is in it already: a signal handler or a __del__ that came "
                 "within a call can't make another one")
REFUSED = "out of memory"


class Turns:
    """A value whose calls come one after another. Those of other threads wait. One that finds its
    own thread inside is a RuntimeError, and changes nothing."""

    def __init__(self) -> None:
        # An RLock, so that a thread that is inside gets in, and finds that it is.
        try:
            self._lock, self._inside = threading.RLock(), False
        except RuntimeError:        # as the interpreter says that it has no memory for a lock
            raise MemoryError(REFUSED) from None

    def _turn(self, work: Callable[..., Returned], *arguments: Any) -> Returned:
        """What the work returns, which has the value for itself."""
        with self._lock:
            if self._inside:
                raise RuntimeError(OF_ITS_THREAD)
            try:
                self._inside = True
                return work(*arguments)
            except ArgumentError:
                raise MemoryError(REFUSED) from None
            finally:
                self._inside = False

    def __reduce_ex__(self, _: object) -> NoReturn:
        raise TypeError(f"a {type(self).__name__} can't be copied or pickled{self._why_not_copied}")

    _why_not_copied = ": make one of what it says is stored"


def in_turn(method: Method) -> Method:
    """The method of a value of Turns, whose calls come one after another."""
    @functools.wraps(method)
    def within(self: Turns, *arguments: Any, **named: Any) -> Any:
        return self._turn(functools.partial(method, self, *arguments, **named))
    return cast(Method, within)


def called(work: Callable[..., Returned], *arguments: Any) -> Returned:
    """What the work returns. Its arguments are made by this package, so ctypes can't refuse one
    but for memory."""
    try:
        return work(*arguments)
    except ArgumentError:
        raise MemoryError(REFUSED) from None
