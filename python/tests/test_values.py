"""Addresses, and the names and texts of answers."""
import unittest

from support import (
    KEYS, KINDS, MICROS, OTHER, SENDER, etype_of, frame_of, opener, opener_of, receiver_of,
    sealer_of)

import krbrelay
from krbrelay import Address, Batch, Code, Demand, Mode, Opener, Receiver, Sealer


class Addresses(unittest.TestCase):
    def test_of_texts(self):
        self.assertEqual(Address.ip("10.0.0.1"), Address(2, bytes([10, 0, 0, 1])))
        self.assertEqual(Address.ip("2001:db8::1"),
                         Address(24, bytes.fromhex("20010db8000000000000000000000001")))
        for text in ("", "10.0.0", "10.0.0.256", "host"):
            self.assertRaises(ValueError, Address.ip, text)

    def test_as_texts(self):
        self.assertEqual(str(SENDER), "10.0.0.1")
        self.assertEqual(str(OTHER), "2001:db8::1")
        self.assertEqual(str(Address(2, b"\xab")), "2:ab")
        self.assertEqual(str(Address(-7, b"")), "-7:")

    def test_ranges(self):
        for kind in (-2**31, 2**31 - 1):
            self.assertEqual(Address(kind, bytearray(40)), Address(kind, bytes(40)))
        for kind, data in ((2**31, b""), (-2**31 - 1, b""), (2, bytes(41))):
            self.assertRaises(ValueError, Address, kind, data)
        for kind, data in ((2.0, b""), ("2", b""), (2, "10.0.0.1"), (2, 4), (2, None)):
            self.assertRaises(TypeError, Address, kind, data)

    def test_they_are_values(self):
        self.assertEqual({Address.ip("10.0.0.1"): 1}[SENDER], 1)
        with self.assertRaises(AttributeError):
            SENDER.kind = 3


class Answers(unittest.TestCase):
    def test_names_of_refusals(self):
        for code in Code:
            self.assertEqual(krbrelay.answer_name(code), code.name)
        of_windows = {917: "REPEATED", 918: "TOO_OLD"}
        self.assertEqual({int(code): code.name for code in Code}, {**opener.NAMES, **of_windows})

    def test_texts(self):
        self.assertEqual(krbrelay.answer_text(42), "the sequence number isn't the expected one")
        self.assertEqual(krbrelay.answer_name(0), "OK")
        self.assertEqual(krbrelay.answer_name(904), "MEMORY")
        for answer in [0, 1, 2, 3, *range(904, 919), *Code]:
            self.assertGreater(len(krbrelay.answer_text(answer)), 3)

    def test_no_answers(self):
        for answer in (-1, 4, 919, 2**32, 2**32 + 42):
            for call in (krbrelay.answer_name, krbrelay.answer_text):
                self.assertRaises(ValueError, call, answer)

    def test_exceptions(self):
        from krbrelay.errors import exception_of
        for answer, kind in ((1, krbrelay.Wiped), (2, ValueError), (3, krbrelay.Exhausted),
                             (904, MemoryError), (905, ValueError), (906, krbrelay.Error),
                             (907, krbrelay.Freed), (908, ValueError), (909, ValueError),
                             (910, ValueError), (911, ValueError), (912, ValueError),
                             (913, ValueError), (914, krbrelay.Error), (915, krbrelay.Error),
                             (916, krbrelay.Error),
                             *((code, krbrelay.Refusal) for code in Code)):
            self.assertIs(type(exception_of(answer)), kind)

    def test_version(self):
        self.assertEqual(krbrelay.library_version()[0], 1)


class WrongArguments(unittest.TestCase):
    """Each is an exception, and never a crash."""

    KINDS = ((Sealer, {"first": 7}), (Opener, {"receiver": OTHER}),
             (Receiver, {"receiver": OTHER, "expected": 7}))

    def makes(self, etype=17, key=KEYS[0], **changed):
        """Makes a handle of each kind."""
        for kind, more in self.KINDS:
            named = {"mode": Mode.SAFE, "sender": SENDER, **more}
            named.update({name: value for name, value in changed.items() if name in named})
            yield lambda kind=kind, named=named: kind(etype, key, **named).free()

    def assert_raises(self, exception, **changed):
        for make in self.makes(**changed):
            self.assertRaises(exception, make)

    def test_right_ones(self):
        for make in self.makes():
            make()

    def test_keys(self):
        for etype, size in ((17, 0), (17, 15), (17, 17), (17, 32), (18, 16), (18, 31), (18, 33),
                            (18, 10**6)):
            self.assert_raises(ValueError, etype=etype, key=bytes(size))
        for key in ("k" * 16, 16, None, [0] * 16, memoryview(KEYS[0] * 2)[::2]):
            self.assert_raises(TypeError, key=key)

    def test_kinds_of_keys(self):
        """The same frame under a key as bytes, bytearray and memoryview, also of larger items."""
        wanted = frame_of(KEYS[0], Mode.SAFE, b"hi")
        part, words = memoryview(b"x" + KEYS[0] + b"y")[1:-1], memoryview(KEYS[0]).cast("I")
        for key in (KEYS[0], bytearray(KEYS[0]), memoryview(KEYS[0]), part, words):
            with Sealer(17, key, mode=Mode.SAFE, sender=SENDER, first=7) as sealer:
                self.assertEqual(sealer.seal(b"hi", MICROS), wanted)

    def test_messages_name_the_argument(self):
        """What is wrong, and what it has to be."""
        def sealing(**changed):
            return Sealer(17, **{"key": KEYS[0], "mode": Mode.SAFE, "sender": SENDER, "first": 7,
                                 **changed})

        for call, words in (
                (lambda: sealing(first=None), "the first number is NoneType: it has to be an int"),
                (lambda: sealing(sender="10.0.0.1"), 'such as Address.ip("10.0.0.1")'),
                (lambda: sealing(key="key"), "the key is str: it has to be bytes,"),
                (lambda: sealing().seal(b"", "now"), "the moment is str: it has to be an aware"),
                (lambda: sealing().seal(b"", float("nan")), "the moment is nan: it has to be"),
                (lambda: receiver_of(KEYS[0], Mode.SAFE, 2**32 + 1),
                 "the expected number is 4294967297: it has to be 0 to 4294967296")):
            with self.assertRaises((TypeError, ValueError)) as raised:
                call()
            self.assertIn(words, str(raised.exception))

    def test_encryption_types(self):
        for etype in (0, 16, 19, 23, -17, 2**31, 2**32 + 17, -2**63):
            self.assert_raises(ValueError, etype=etype)
        for etype in ("17", 17.0, None):
            self.assert_raises(TypeError, etype=etype)

    def test_modes(self):
        for mode in (0, 19, 22, 2**32 + 20):
            self.assert_raises(ValueError, mode=mode)
        for mode in ("SAFE", None, 20.0):
            self.assert_raises(TypeError, mode=mode)

    def test_addresses(self):
        for address in ("10.0.0.1", b"\n\0\0\1", (2, b"\n\0\0\1"), 7):
            self.assert_raises(TypeError, sender=address)
            self.assertRaises(TypeError, Opener, 17, KEYS[0], mode=Mode.SAFE, sender=SENDER, receiver=address)

    def test_numbers(self):
        for first in (-1, 2**32, 2**64 + 7):
            self.assertRaises(ValueError, sealer_of, KEYS[0], Mode.SAFE, first)
        for first in ("7", 7.0, None):
            self.assertRaises(TypeError, sealer_of, KEYS[0], Mode.SAFE, first)
        for skew in (-1, 2**32):
            self.assertRaises(ValueError, opener_of, KEYS[0], Mode.SAFE, skew=skew)
        with opener_of(KEYS[0], Mode.SAFE) as opening:
            for number in (-1, 2**64):
                self.assertRaises(ValueError, opening.unseal, b"", number, MICROS)
            for number in ("7", 7.5, None):
                self.assertRaises(TypeError, opening.unseal, b"", number, MICROS)

    def test_contents(self):
        for content in ("text", 7, None, [1, 2], object()):
            with sealer_of(KEYS[0], Mode.SAFE) as sealer, \
                    opener_of(KEYS[0], Mode.SAFE) as opening:
                self.assertRaises(TypeError, sealer.seal, content)
                self.assertRaises(TypeError, sealer.seal_record, content)
                self.assertRaises(TypeError, sealer.seal_record, krbrelay.Text(content))
                self.assertRaises(TypeError, sealer.seal_record, Batch((b"a", content)))
                self.assertRaises(TypeError, opening.unseal, content, 7)
                self.assertRaises(TypeError, opening.open, content)
                self.assertRaises(TypeError, krbrelay.message_header, content)

    def test_the_senders_address_is_needed(self):
        for kind, more in self.KINDS:
            if kind is not Opener:
                self.assertRaises(TypeError, kind, 17, KEYS[0], mode=Mode.SAFE, sender=None, **more)


class Keys(unittest.TestCase):
    def test_a_callers_key_stays(self):
        for key, mode in KINDS:
            own = bytearray(key)
            with krbrelay.Sealer(etype_of(key), own, mode=mode, sender=SENDER, first=7) as sealer:
                self.assertEqual(own, key)
                own[:] = bytes(len(own))
                frame = sealer.seal(b"hi")
            with opener_of(key, mode) as opening:
                self.assertEqual(opening.open(frame, Demand(number=7)).user_data, b"hi")
                self.assertEqual(opening.unseal(frame, 7), b"hi")
