"""What a sealer seals, beside the independent sealer."""
import datetime
import threading
import time
import unittest
from unittest import mock

from support import (
    CONFOUNDER, KEYS, KINDS, MICROS, OTHER, RECEIVER, SENDER, fixtures, frame_of, frames, opener,
    opener_of, reader, sealer_of)

import krbrelay
from krbrelay import Batch, Closed, Mode, Text

SIZES = (0, 1, 2, 3, 15, 16, 17, 31, 32, 33, 63, 64, 127, 128, 200, 255, 256, 1000, 65_536)


class Sealing(unittest.TestCase):
    def test_frames_are_those_of_the_independent_sealer(self):
        for key, mode in KINDS:
            with sealer_of(key, mode) as sealer:
                for number, size in enumerate(SIZES, 7):
                    text = bytes(at % 251 for at in range(size))
                    self.assertEqual(sealer.next, number)
                    self.assertEqual(sealer.seal(text, MICROS, CONFOUNDER),
                                     frame_of(key, mode, text, number))

    def test_the_most_user_data(self):
        text = bytes(krbrelay.USER_DATA_LIMIT)
        with sealer_of(KEYS[0], Mode.PRIV) as sealer:
            self.assertEqual(sealer.seal(text, MICROS, CONFOUNDER),
                             frame_of(KEYS[0], Mode.PRIV, text))
            self.assertRaisesRegex(ValueError, "longer", sealer.seal, text + b"\0", MICROS)
            self.assertEqual(sealer.next, 8)

    def test_addresses(self):
        for sender, receiver in ((OTHER, None), (SENDER, RECEIVER), (RECEIVER, OTHER)):
            for key, mode in KINDS:
                with sealer_of(key, mode, sender=sender, receiver=receiver) as sealer:
                    self.assertEqual(sealer.seal(b"Dhi", MICROS, CONFOUNDER),
                                     frame_of(key, mode, b"Dhi", sender=sender, receiver=receiver))

    def test_a_negative_address_type(self):
        pair = (-2**31, b"\x80" * 40)
        with sealer_of(KEYS[0], Mode.SAFE, sender=krbrelay.Address(*pair)) as sealer:
            self.assertEqual(sealer.seal(b"Dhi", MICROS),
                             frames.seal_safe(KEYS[0], frames.body(b"Dhi", MICROS, 7, pair)))

    def test_records(self):
        long = (bytes(499_996), bytes(499_996))
        for record, data in (
                (Text(b""), b"D"), (Text(b"hi"), b"Dhi"), (Closed(), b"C"),
                (Batch((b"a", b"")), frames.batch([b"a", b""])),
                (Batch((b"",) * 1000), frames.batch([b""] * 1000)),
                (Batch(long), frames.batch(long)), (Text(bytes(10**6)), b"D" + bytes(10**6))):
            with sealer_of(KEYS[1], Mode.SAFE) as sealer:
                self.assertEqual(sealer.seal_record(record, MICROS),
                                 frame_of(KEYS[1], Mode.SAFE, data))

    def test_no_records(self):
        with sealer_of(KEYS[1], Mode.SAFE) as sealer:
            for record in (Text(bytes(10**6 + 1)), Batch(()), Batch((b"a",)), Batch((b"",) * 1001),
                           Batch((bytes(499_996), bytes(499_997)))):
                self.assertRaisesRegex(ValueError, "record", sealer.seal_record, record, MICROS)
            self.assertEqual(sealer.next, 7)

    def test_records_of_a_sender(self):
        """A session of texts, in groups of two, and its close, by the independent sender."""
        for key, mode in KINDS:
            session = opener.Session(key, mode.name.lower(), 7, fixtures.SENDER, fixtures.RECEIVER)
            texts = [bytes([at]) * at for at in range(5)]
            records = [Batch((texts[0], texts[1])), Batch((texts[2], texts[3])), Text(texts[4])]
            ats = [MICROS + at for at in range(4)]
            with mock.patch.object(opener, "stream", lambda _, size: CONFOUNDER * (size // 16)), \
                    sealer_of(key, mode) as sealer:
                self.assertEqual(
                    [sealer.seal_record(record, at, CONFOUNDER)
                     for record, at in zip([*records, Closed()], ats)],
                    opener.Sender(session, texts, ats, batch=2).frames())

    def test_set_mode(self):
        with sealer_of(KEYS[0], Mode.SAFE) as sealer:
            for number, mode in enumerate((Mode.SAFE, Mode.PRIV, 20, 21), 7):
                sealer.set_mode(mode)
                self.assertEqual(sealer.seal(b"Dhi", MICROS, CONFOUNDER),
                                 frame_of(KEYS[0], Mode(mode), b"Dhi", number))
            self.assertRaises(ValueError, sealer.set_mode, 22)

    def test_the_last_number(self):
        with sealer_of(KEYS[0], Mode.SAFE, first=2**32 - 1) as sealer:
            self.assertEqual(sealer.seal(b"C", MICROS),
                             frame_of(KEYS[0], Mode.SAFE, b"C", 2**32 - 1))
            self.assertEqual(sealer.next, 2**32)
            self.assertRaisesRegex(krbrelay.Exhausted, "no sequence number is left", sealer.seal, b"C", MICROS)

    def test_wiping(self):
        with sealer_of(KEYS[0], Mode.PRIV) as sealer:
            sealer.wipe()
            sealer.wipe()
            self.assertRaisesRegex(krbrelay.Wiped, "overwritten", sealer.seal, b"hi")
            self.assertRaises(krbrelay.Wiped, sealer.seal_record, Closed())
            self.assertEqual(sealer.next, 7)


class Several(unittest.TestCase):
    """Messages that are sealed in one call."""

    def test_they_are_the_messages_of_single_calls(self):
        for key, mode in KINDS:
            for count in (0, 1, 2, 3, 4, 5, 7, 8, 9, 12, 21, 64):
                texts = [bytes(at % 251 for at in range(29 * it)) for it in range(count)]
                with sealer_of(key, mode) as sealer, mock.patch("os.urandom", return_value=CONFOUNDER):
                    self.assertEqual(sealer.seal_many(texts, MICROS),
                                     [frame_of(key, mode, it, 7 + at) for at, it in enumerate(texts)])
                    self.assertEqual(sealer.next, 7 + count)

    def test_each_private_one_has_a_confounder_of_its_own(self):
        with sealer_of(KEYS[1], Mode.PRIV) as sealer:
            frames_made = sealer.seal_many([b"hi"] * 64)
        self.assertEqual(len({confounder_of(KEYS[1], it) for it in frames_made}), 64)

    def test_none_is_sealed_if_one_cannot_be(self):
        with sealer_of(KEYS[0], Mode.PRIV, first=2**32 - 2) as sealer:
            with self.assertRaisesRegex(krbrelay.Exhausted, "message 2: no sequence number is left"):
                sealer.seal_many([b"a", b"b", b"c"])
            with self.assertRaisesRegex(ValueError, "message 1: .* longer"):
                sealer.seal_many([b"a", bytes(krbrelay.USER_DATA_LIMIT + 1)])
            self.assertRaisesRegex(ValueError, "65 messages: a call seals 64 at most", sealer.seal_many, [b""] * 65)
            self.assertEqual(sealer.next, 2**32 - 2)
            self.assertEqual(len(sealer.seal_many([b"a", b"b"])), 2)
            sealer.wipe()
            self.assertRaisesRegex(krbrelay.Wiped, "message 0: ", sealer.seal_many, [b"a"])
        self.assertRaises(krbrelay.Freed, sealer.seal_many, [b"a"])


class Moments(unittest.TestCase):
    def sealed_at(self, at):
        with sealer_of(KEYS[0], Mode.SAFE) as sealer:
            return sealer.seal(b"Dhi", at)

    def test_datetimes(self):
        east = datetime.timezone(datetime.timedelta(hours=5, minutes=45))
        utc = datetime.timezone.utc
        for at, micros in (
                (datetime.datetime(2023, 11, 14, 22, 13, 20, 5, utc), MICROS),
                (datetime.datetime(2023, 11, 15, 3, 58, 20, 5, east), MICROS),
                (datetime.datetime(1970, 1, 1, tzinfo=utc), 0),
                (datetime.datetime(9999, 12, 31, 23, 59, 59, 999_999, utc), 253402300799999999)):
            frame = frame_of(KEYS[0], Mode.SAFE, b"Dhi", at=micros)
            self.assertEqual(self.sealed_at(at), frame)
            self.assertEqual(self.sealed_at(micros), frame)

    def test_seconds_as_a_float(self):
        for seconds, micros in ((0.0, 0), (1.5, 1_500_000), (1_700_000_000.000_005, MICROS),
                                (4_102_444_800.123_456, 4_102_444_800_123_456)):
            self.assertEqual(self.sealed_at(seconds), frame_of(KEYS[0], Mode.SAFE, b"Dhi", at=micros))
        for wrong in (-0.5, 1e300, float("inf"), float("nan"), float(MICROS)):
            self.assertRaises(ValueError, self.sealed_at, wrong)

    def test_no_moments(self):
        for at in (-1, 253402300800000000, 2**64, 10**30, datetime.datetime(2023, 11, 14),
                   datetime.datetime(1969, 12, 31, tzinfo=datetime.timezone.utc)):
            self.assertRaises(ValueError, self.sealed_at, at)
        for at in ("now", b"", (1, 2), 1j):
            self.assertRaises(TypeError, self.sealed_at, at)

    def test_an_int_of_other_units(self):
        """time.time_ns() is over the year 9999, and seconds and milliseconds are no microseconds."""
        for at in (1, int(time.time()), int(time.time() * 1000), time.time_ns(), 10**14 - 1):
            self.assertRaises(ValueError, self.sealed_at, at)
        with self.assertRaisesRegex(ValueError, "an int is microseconds, .*; seconds are a float"):
            self.sealed_at(int(time.time()))
        for at in (0, 10**14):
            self.assertEqual(self.sealed_at(at), frame_of(KEYS[0], Mode.SAFE, b"Dhi", at=at))

    def test_now(self):
        before = time.time_ns() // 1000
        frame = self.sealed_at(None)
        after = time.time_ns() // 1000
        with opener_of(KEYS[0], Mode.SAFE) as opening:
            body = opening.open(frame)
        self.assertTrue(before <= body.seconds * 10**6 + body.microseconds <= after)


def confounder_of(key, frame):
    """What the encrypted part of a KRB-PRIV begins with."""
    cipher = reader.message(frame)[2][2]
    return opener.cts_open(opener.derive(key, 13, 0xAA), cipher[:-12])[:16]


class Confounders(unittest.TestCase):
    def test_they_are_drawn_from_the_system(self):
        with sealer_of(KEYS[1], Mode.PRIV) as sealer, \
                mock.patch("os.urandom", return_value=CONFOUNDER) as drawn:
            self.assertEqual(sealer.seal(b"hi", MICROS), frame_of(KEYS[1], Mode.PRIV, b"hi"))
            self.assertEqual(sealer.seal_record(Text(b"hi"), MICROS),
                             frame_of(KEYS[1], Mode.PRIV, b"Dhi", 8))
        self.assertEqual(drawn.call_args_list, [mock.call(16)] * 2)

    def test_they_are_drawn_whatever_the_mode(self):
        with sealer_of(KEYS[1], Mode.SAFE) as sealer, \
                mock.patch("os.urandom", return_value=CONFOUNDER) as drawn:
            self.assertEqual(sealer.seal(b"hi", MICROS), frame_of(KEYS[1], Mode.SAFE, b"hi"))
            sealer.seal_many([b"hi"] * 3, MICROS)
        self.assertEqual(drawn.call_args_list, [mock.call(16)] * 4)

    def test_each_private_message_has_one_while_the_mode_changes(self):
        """Also if another thread sets the mode meanwhile."""
        frames_made, is_over = [], threading.Event()
        with sealer_of(KEYS[1], Mode.SAFE) as sealer:
            def change():
                while not is_over.is_set():
                    sealer.set_mode(Mode.PRIV)
                    sealer.set_mode(Mode.SAFE)
            changing = threading.Thread(target=change)
            changing.start()
            while sum(it[0] == 0x75 for it in frames_made) < 200:
                frames_made.append(sealer.seal(b"hi", MICROS))
            is_over.set()
            changing.join()
        private = [it for it in frames_made if it[0] == 0x75]
        drawn = {confounder_of(KEYS[1], it) for it in private}
        self.assertEqual(len(drawn), len(private))
        self.assertNotIn(bytes(16), drawn)

    def test_each_is_another(self):
        seals = set()
        for _ in range(100):
            with sealer_of(KEYS[1], Mode.PRIV) as sealer:
                seals.add(sealer.seal(b"hi", MICROS))
        self.assertEqual(len(seals), 100)

    def test_any_bytes_and_no_other_size(self):
        for confounder in (CONFOUNDER, bytearray(CONFOUNDER), memoryview(CONFOUNDER)):
            with sealer_of(KEYS[1], Mode.PRIV) as sealer:
                self.assertEqual(sealer.seal(b"hi", MICROS, confounder),
                                 frame_of(KEYS[1], Mode.PRIV, b"hi"))
        with sealer_of(KEYS[1], Mode.PRIV) as sealer:
            for size in (0, 1, 15, 17, 1000):
                self.assertRaisesRegex(ValueError, "confounder", sealer.seal, b"hi", MICROS, bytes(size))
            for confounder in (16, "x" * 16, [0] * 16):
                self.assertRaises(TypeError, sealer.seal, b"hi", MICROS, confounder)
