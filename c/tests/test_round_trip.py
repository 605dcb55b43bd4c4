"""Seals and opens by the shared object, through ctypes. Structs and calls are those of python/krbrelay/library.py."""
import os
from ctypes import byref, c_size_t, c_uint8

import pytest

import over_library
from krbrelay import library as c

SAFE, PRIV = 20, 21
NOW, LATER = c.MomentStruct(1_700_000_000, 5), c.MomentStruct(1_700_000_001, 5)
TEXTS = [b"", b"hi", bytes(range(256)) * 200]


def bytes_of(data):
    return (c_uint8 * len(data))(*data)


def host(last):
    return c.AddressStruct(2, 4, (c_uint8 * 40)(10, 0, 0, last))


class Ends:
    """A sealer and an opener of one session."""

    def __init__(self, path, etype, mode):
        self.calls, self.sealer, self.opener = c.load(str(path)), c.HandleStruct(), c.HandleStruct()
        key = os.urandom({17: 16, 18: 32}[etype])
        session = c.SessionStruct(mode, 7, host(1), 0, c.AddressStruct())
        expect = c.ExpectStruct(mode, host(1), host(255), 0, 1, 300)
        assert self.ask("sealer_new", byref(self.sealer), etype, bytes_of(key), len(key), session) == 0
        assert self.ask("opener_new", byref(self.opener), etype, bytes_of(key), len(key), expect) == 0

    def ask(self, call, *words):
        return getattr(self.calls, f"krbrelay_{call}")(*words)

    def seal(self, data):
        room, size = (c_uint8 * self.ask("frame_size", len(data)))(), c_size_t()
        return self.ask("sealer_seal", byref(self.sealer), data, len(data), byref(NOW), os.urandom(16), room, len(room),
                        byref(size)), bytes(room)[:size.value]

    def unseal(self, frame, number):
        room, size = (c_uint8 * (len(frame) + 1))(), c_size_t()
        return self.ask("opener_unseal", byref(self.opener), frame, len(frame), number, LATER, room, len(frame),
                        size), bytes(room)[:size.value]

    def end(self, how):
        self.ask(f"sealer_{how}", byref(self.sealer))
        self.ask(f"opener_{how}", byref(self.opener))
        return {self.seal(b"hi")[0], self.unseal(b"", 7)[0]}


@pytest.mark.slow
@pytest.mark.parametrize("etype", [17, 18])
@pytest.mark.parametrize("mode", [SAFE, PRIV])
def test_texts_come_back_until_the_ends_are_wiped_and_freed(built, etype, mode):
    ends = Ends(built / over_library.SONAME, etype, mode)
    for number, text in enumerate(TEXTS, 7):
        answer, frame = ends.seal(text)
        assert (answer, ends.unseal(frame, number), ends.unseal(frame, number + 1)) == (0, (0, text), (42, b""))
        assert ends.unseal(frame[:-1] + bytes([frame[-1] ^ 1]), number)[0] == (41 if mode == SAFE else 31)
        header = c.HeaderStruct()
        assert ends.ask("message_header", frame, len(frame), header) == 0
        assert (header.kind, header.has_number, header.number) == ((SAFE, 1, number) if mode == SAFE else (PRIV, 0, 0))
    _, frame = ends.seal(bytes(1024))
    assert {ends.unseal(frame, 10) for _ in range(2000)} == {(0, bytes(1024))}
    assert (ends.end("wipe"), ends.end("free")) == ({1}, {907})
    room, size = (c_uint8 * 16)(), c_size_t()
    assert ends.ask("answer_name", 42, room, 16, size) == 0 and bytes(room)[:size.value] == b"BADORDER"
