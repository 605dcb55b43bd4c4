"""Makes, uses and ends each handle of the Python package under a key of 16 and one of 32 bytes, for tests/freed_memory.
The caller's own key is cleared at the end: what else has it is the package's or the library's.

    handles.py FIRST [left]     the keys begin with this byte; with the word, a copy of each is left
"""
import contextlib
import gc
import sys

import support
from krbrelay import Error, Mode, Text

MAKERS = (support.sealer_of, support.opener_of, support.receiver_of, support.peer_of)


def key_of(first, size):
    """A key that stands nowhere else."""
    key = bytearray(size)
    for place in range(size):
        key[place] = first + place
    return key


def refused(key):
    """Keys of a wrong size, and one whose bytes don't lie one after the other."""
    for wrong in (key[:-1], memoryview(key)[::2]):
        for make in (support.krbrelay.Sealer, support.krbrelay.Opener):
            with contextlib.suppress(Error, TypeError, ValueError):
                make(support.etype_of(key), wrong, mode=Mode.PRIV, sender=support.SENDER, **(
                    {"first": 7} if make is support.krbrelay.Sealer else {"receiver": support.RECEIVER}))
        if isinstance(wrong, bytearray):
            wrong[:] = bytes(len(wrong))


def used(key, mode):
    """A session of one record, one frame that is changed, and the ends of all four handles."""
    sealer, opener, receiver, peer = (make(memoryview(key), mode) for make in MAKERS)
    frame = sealer.seal_record(Text(b"a text"), support.MICROS)
    changed = bytes([*frame[:-1], frame[-1] ^ 1])
    for call in (lambda: opener.unseal(frame, 7, support.MICROS), lambda: opener.unseal(changed, 7, support.MICROS),
                 lambda: receiver.take(frame, support.MICROS), lambda: receiver.take(changed, support.MICROS),
                 lambda: peer.open(frame, support.MICROS), lambda: peer.seal(b"a text", support.MICROS), sealer.wipe, opener.wipe,
                 lambda: sealer.seal(b"more", support.MICROS)):
        support.outcome(suppressing(call))
    receiver.free()
    del sealer, opener, receiver, peer
    gc.collect()


def suppressing(call):
    def made():
        with contextlib.suppress(Error):
            return call()
    return made


def main(first, leaves):
    for size in (16, 32):
        key = key_of(first, size)
        for mode in Mode:
            used(key, mode)
        refused(key)
        if leaves:
            del [bytes(key)][:]
        for place in range(size):
            key[place] = 0


main(int(sys.argv[1]), sys.argv[2:] == ["left"])
