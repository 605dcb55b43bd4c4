"""Histories, beside Python's hashlib."""
import hashlib
import unittest

from krbrelay import HISTORY_SIZE, History, Mode
from support import KEYS, frame_of


def expected(frames):
    digest = bytes(HISTORY_SIZE)
    for frame in frames:
        digest = hashlib.sha1(digest + frame[-12:]).digest()
    return digest


class Histories(unittest.TestCase):
    FRAMES = [frame_of(KEYS[0], Mode.SAFE, b"one", 7), frame_of(KEYS[1], Mode.PRIV, b"two", 8),
              b"short", b""]

    def test_digests(self):
        history = History()
        self.assertEqual(history.digest, bytes(20))
        for count, frame in enumerate(self.FRAMES, 1):
            history.add(frame)
            self.assertEqual(history.digest, expected(self.FRAMES[:count]))

    def test_goes_on_from_a_stored_digest(self):
        history = History(expected(self.FRAMES[:2]))
        history.add(bytearray(self.FRAMES[2]))
        self.assertEqual(history.digest, expected(self.FRAMES[:3]))

    def test_another_sender_is_seen(self):
        one, other = History(), History()
        one.add(frame_of(KEYS[0], Mode.SAFE, b"one", 7))
        other.add(frame_of(KEYS[0], Mode.SAFE, b"two", 7))
        self.assertNotEqual(one.digest, other.digest)

    def test_no_digests(self):
        for digest in (b"", bytes(19), bytes(21)):
            self.assertRaises(ValueError, History, digest)
        self.assertRaises(TypeError, History, "digest")
        self.assertRaises(TypeError, History().add, "frame")
