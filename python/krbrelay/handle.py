"""What sealers, openers, receivers and peers have in common: keys on the library's heap, and one
call at a time."""
from __future__ import annotations

import ctypes
import os
import weakref
from ctypes import byref, c_size_t, c_uint8
from typing import Any, Callable, Dict, Optional, Protocol, Tuple, TypeVar, Union

from krbrelay.errors import exception_of
from krbrelay.library import HandleStruct, library
from krbrelay.turns import OF_ITS_THREAD, Returned, Turns
from krbrelay.values import ranged

Self = TypeVar("Self", bound="Handle")
Made = TypeVar("Made", covariant=True)
Key = Union[bytes, bytearray, memoryview]

# A child doesn't wait for the lock: a thread of its parent may have held it.
OF_A_PARENT = "the handle was made before a fork, by the parent process"


class Owed(Protocol[Made]):
    """Where a call writes what it returns."""

    def made(self) -> Optional[Made]:
        """What the call returns, or None before the library did its work."""


class Handle(Turns):
    """Keys that the library holds, until `free`, the end of the `with`, or the handle's end.

    Threads may share a handle: a lock lets one call in at a time. A call that finds its own thread
    in a call of the handle, as in a signal handler or a `__del__`, is a RuntimeError and changes
    nothing. A handle can't be copied or pickled (TypeError), and a forked child can't use those of
    its parent (RuntimeError).
    """

    _kind: str
    _maker = "new"                  # the call that makes what the handle holds
    _functions: Dict[str, Callable[..., Any]]
    _owed: Optional[Owed[Any]] = None   # of a call that did its work and returned nothing yet
    _why_not_copied = ": it holds keys"

    def __init__(self, etype: int, key: Key, *arguments: object) -> None:
        super().__init__()
        self._owed, self._library = None, library()
        self._struct, self._process = HandleStruct(), os.getpid()
        self._place, self._functions = ctypes.addressof(self._struct), {}
        self._end = weakref.finalize(self, _end, self._function("free"), self._struct, self._lock,
                                     self._process)
        etype = ranged("the encryption type", etype, -2**31, 2**31 - 1)
        copy = _copy_of(key)
        try:
            self._call(self._maker, etype, copy, len(copy), *arguments)
        finally:
            ctypes.memset(copy, 0, len(copy))

    def _function(self, name: str) -> Callable[..., Any]:
        found: Callable[..., Any] = getattr(self._library, f"krbrelay_{self._kind}_{name}")
        self._functions[name] = found
        return found

    def _turn(self, work: Callable[..., Returned], *arguments: Any) -> Returned:
        """The same in the process that made the handle."""
        if os.getpid() != self._process:
            raise RuntimeError(OF_A_PARENT)
        return Turns._turn(self, work, *arguments)

    def _call(self, name: str, *arguments: object) -> None:
        """Makes a call that has the handle for itself, and raises the exception of its answer."""
        self._turn(self._call_inside, name, *arguments)

    def _call_inside(self, name: str, *arguments: object) -> None:
        call = self._functions.get(name) or self._function(name)
        answer = call(self._place, *arguments)
        if answer:
            raise exception_of(answer)

    def _made(self, owed: Owed[Returned], name: str, *arguments: object) -> Returned:
        """The same as `_moved`, which has the handle for itself."""
        def work() -> Returned:
            return self._moved(owed, name, *arguments)
        return self._turn(work)

    def _moved(self, owed: Owed[Returned], name: str, *arguments: object) -> Returned:
        """What a call makes that moves a number. The handle has its room until that is returned, so
        `fetch` finds it where an exception comes between."""
        call = self._functions.get(name) or self._function(name)
        self._owed = owed
        answer = call(self._place, *arguments)
        if answer:
            self._owed = None
            raise exception_of(answer)
        return self._returned(owed)

    def _returned(self, owed: Owed[Returned]) -> Returned:
        """What the library has made, which is owed until then."""
        made = owed.made()
        assert made is not None
        self._owed = None
        return made

    def fetch(self) -> Any:
        """What the last call that moved a number would have returned, where an exception came after
        the library did its work: MemoryError, or one that a signal handler raised. None where the
        handle is as it was before that call, which then can be made again. It is returned once,
        and none is kept after another call that moves a number. Not after `free`."""
        return self._turn(self._fetched)

    def _fetched(self) -> Any:
        made = None if self._owed is None else self._owed.made()
        self._owed = None
        return made

    def _write(self, name: str, room: int, *before: object, after: Tuple[object, ...] = ()
               ) -> bytes:
        """What a call writes into a buffer of `room` bytes. The buffer, its size and the place of
        the size of what is written come between the other parameters."""
        buffer, size = bytearray(room + 1), c_size_t()
        self._call(name, *before, c_uint8.from_buffer(buffer), room, byref(size), *after)
        return bytes(memoryview(buffer)[:size.value])

    def free(self) -> None:
        """Overwrites the keys and frees what the handle holds: its calls raise Freed from then on.
        Freeing twice is harmless. RuntimeError of a thread that is in a call of the handle."""
        if os.getpid() != self._process:
            return
        with self._lock:
            if self._inside:
                raise RuntimeError(OF_ITS_THREAD)
            self._owed = None
            self._end()

    def __enter__(self: Self) -> Self:
        return self

    def __exit__(self, *_: object) -> None:
        self.free()


def _copy_of(key: Key) -> ctypes.Array[c_uint8]:
    """A copy of the key that can be overwritten: no other is made."""
    if not isinstance(key, (bytes, bytearray, memoryview)):
        raise TypeError(f"the key is {type(key).__name__}: it has to be bytes, bytearray or "
                        "memoryview")
    with memoryview(key) as view:
        if not view.c_contiguous:
            raise TypeError("the key is a memoryview whose bytes don't lie one after the other")
        return (c_uint8 * view.nbytes).from_buffer_copy(view)


def _end(free: Callable[..., Any], struct: HandleStruct, lock: Any, process: int) -> None:
    """Frees what a handle holds, in the process that made it."""
    if os.getpid() == process:
        with lock:
            free(byref(struct))
