"""What an opener opens and refuses, beside the independent sealer."""
import datetime
import itertools
import unittest
from unittest import mock

from support import (
    CONFOUNDER, KEYS, KINDS, MICROS, OTHER, RECEIVER, SENDER, expected_outcome, fixtures, frame_of,
    frames, opener_of, outcome, reader, sealed, session_of)

import krbrelay
from krbrelay import Address, Body, Code, Demand, How, Mode, Opener, Refusal

SECONDS = MICROS // 10**6
WITHOUT = {"time": (0xA1, 0xA2), "seconds": (0xA1,), "microseconds": (0xA2,), "number": (0xA3,)}


class Unsealing(unittest.TestCase):
    def test_frames_of_the_independent_sealer(self):
        for key, mode in KINDS:
            with opener_of(key, mode) as opener:
                for number, size in enumerate((0, 1, 16, 127, 128, 255, 256, 1000, 65_536)):
                    text = bytes(at % 253 for at in range(size))
                    for receiver in (None, RECEIVER):
                        frame = frame_of(key, mode, text, number, receiver=receiver)
                        self.assertEqual(opener.unseal(frame, number, MICROS), text)

    def test_any_bytes(self):
        frame = frame_of(KEYS[0], Mode.PRIV, b"Dhi")
        with opener_of(KEYS[0], Mode.PRIV) as opener:
            for content in (frame, bytearray(frame), memoryview(frame),
                            memoryview(bytearray(frame))):
                self.assertEqual(opener.unseal(content, 7, MICROS), b"Dhi")
            self.assertEqual(opener.unseal(memoryview(frame * 2)[:len(frame)], 7, MICROS), b"Dhi")

    def test_changed_frames(self):
        """Each byte changed, and each prefix: the user data or the refusal is the same as that of
        the independent opener."""
        for key, mode in KINDS:
            session, frame = session_of(key, mode), frame_of(key, mode, b"Dhi", receiver=RECEIVER)
            changed = [frame[:at] + bytes([frame[at] ^ 1 << at % 8]) + frame[at + 1:]
                       for at in range(len(frame))]
            codes = set()
            with opener_of(key, mode) as opener:
                for it in changed + [frame[:at] for at in range(len(frame))] + [frame + b"\0"]:
                    found = outcome(opener.unseal, it, 7, MICROS)
                    self.assertEqual(found, expected_outcome(session, 7, MICROS, it))
                    codes.add(found)
            self.assertIn(901, codes)
            self.assertIn(Code.MODIFIED if mode is Mode.SAFE else Code.BAD_INTEGRITY, codes)

    def test_numbers_moments_and_demands(self):
        left_out = [(), *WITHOUT.values()]
        for (key, mode), receiver, without, require_receiver, require_time in itertools.product(
                KINDS, (None, RECEIVER, OTHER), left_out, (False, True), (False, True)):
            demands = dict(require_receiver=require_receiver, require_time=require_time, skew=2)
            session = session_of(key, mode, **demands)
            frame = frame_of(key, mode, b"Dhi", receiver=receiver, left_out=without)
            with opener_of(key, mode, **demands) as opener:
                for number, at in ((7, MICROS), (8, MICROS), (2**64 - 1, MICROS),
                                   (7, MICROS - 2 * 10**6), (7, MICROS + 2 * 10**6 + 1)):
                    self.assertEqual(outcome(opener.unseal, frame, number, at),
                                     expected_outcome(session, number, at, frame))

    def test_each_refusal(self):
        safe, private = (frame_of(KEYS[0], mode, b"Dhi") for mode in Mode)
        wide = frame_of(KEYS[1], Mode.PRIV, b"Dhi")
        body = frames.body(b"Dhi", MICROS, 7, fixtures.SENDER)
        old = safe.replace(bytes.fromhex("a003020105"), bytes.fromhex("a003020104"), 1)
        with opener_of(KEYS[0], Mode.SAFE) as of_safe, opener_of(KEYS[0], Mode.PRIV) as of_private:
            for code, opener, frame, number, at in (
                    (Code.ETYPE_NOSUPP, of_private, wide, 7, MICROS),
                    (Code.BAD_INTEGRITY, of_private, private[:-1] + b"\0", 7, MICROS),
                    (Code.SKEW, of_private, private, 7, MICROS + 300_000_001),
                    (Code.BADADDR, of_safe, frame_of(KEYS[0], Mode.SAFE, b"", sender=OTHER), 7,
                     MICROS),
                    (Code.BADVERSION, of_safe, old, 7, MICROS),
                    (Code.MSG_TYPE, of_safe, private, 7, MICROS),
                    (Code.MODIFIED, of_safe, frames.safe(body, 15, bytes(12)), 7, MICROS),
                    (Code.BADORDER, of_safe, safe, 6, MICROS),
                    (Code.INAPP_CKSUM, of_safe, frames.safe(body, 16, bytes(12)), 7, MICROS),
                    (Code.FIELD_TOOLONG, of_safe, bytes(krbrelay.FRAME_LIMIT + 1), 7, MICROS),
                    (Code.MALFORMED, of_safe, b"", 7, MICROS)):
                with self.assertRaises(Refusal) as raised:
                    opener.unseal(frame, number, at)
                refusal = raised.exception
                self.assertIs(refusal.code, code)
                self.assertEqual(refusal.name, code.name)
                self.assertEqual(str(refusal),
                                 f"{code.value} {code.name}: {krbrelay.answer_text(code)}")

    def test_now(self):
        frame = frame_of(KEYS[0], Mode.PRIV, b"Dhi")
        with opener_of(KEYS[0], Mode.PRIV) as opener:
            with mock.patch("time.time_ns", return_value=1000 * (MICROS + 300_000_000) + 999):
                self.assertEqual(opener.unseal(frame, 7), b"Dhi")
            with mock.patch("time.time_ns", return_value=1000 * (MICROS + 300_000_001)):
                self.assertEqual(outcome(opener.unseal, frame, 7), Code.SKEW)

    def test_wiping(self):
        frame = frame_of(KEYS[0], Mode.PRIV, b"Dhi")
        with opener_of(KEYS[0], Mode.PRIV) as opener:
            opener.wipe()
            self.assertRaises(krbrelay.Wiped, opener.unseal, frame, 7, MICROS)
            self.assertRaises(krbrelay.Wiped, opener.open, frame)

    def test_without_addresses(self):
        frame = frame_of(KEYS[0], Mode.PRIV, b"Dhi")
        for addresses in ({}, {"sender": SENDER}, {"receiver": RECEIVER}):
            with Opener(17, KEYS[0], mode=Mode.PRIV, **addresses) as opener:
                self.assertRaisesRegex(ValueError, "no sender and receiver", opener.unseal, frame, 7, MICROS)
                self.assertEqual(opener.open(frame).user_data, b"Dhi")


class Opening(unittest.TestCase):
    def test_what_a_message_carries(self):
        for (key, mode), receiver, without in itertools.product(
                KINDS, (None, RECEIVER, OTHER), ((), *WITHOUT.values())):
            frame = frame_of(key, mode, b"Dhi", 9, receiver=receiver, left_out=without)
            with Opener(17 if key is KEYS[0] else 18, key, mode=mode) as opener:
                self.assertEqual(opener.open(frame), Body(
                    b"Dhi",
                    None if 0xA1 in without else SECONDS,
                    None if 0xA2 in without else 5,
                    None if 0xA3 in without else 9,
                    SENDER, receiver))

    def test_its_moment(self):
        moment = datetime.datetime(2023, 11, 14, 22, 13, 20, 5, datetime.timezone.utc)
        for without, expected in (((), moment), (WITHOUT["time"], None), (WITHOUT["seconds"], None),
                                  (WITHOUT["microseconds"], moment.replace(microsecond=0))):
            with opener_of(KEYS[0], Mode.SAFE) as opener:
                frame = frame_of(KEYS[0], Mode.SAFE, b"", left_out=without)
                self.assertEqual(opener.open(frame).moment, expected)

    def test_the_most_bytes_of_an_address(self):
        for size in (0, 40, 41):
            pair = (-5, bytes([200] * size))
            with opener_of(KEYS[0], Mode.SAFE) as opener:
                frame = frames.seal_safe(KEYS[0], frames.body(b"x", MICROS, 7, pair, pair))
                found = outcome(opener.open, frame)
            if size == 41:
                self.assertEqual(found, Code.BADADDR)
            else:
                self.assertEqual((found.sender, found.receiver), (Address(*pair), Address(*pair)))

    def test_only_authentic_messages(self):
        for key, mode in KINDS:
            frame = frame_of(key, mode, b"Dhi", receiver=RECEIVER)
            with opener_of(key, mode) as opener:
                for at in range(len(frame)):
                    changed = frame[:at] + bytes([frame[at] ^ 1 << at % 8]) + frame[at + 1:]
                    self.assertIn(outcome(opener.open, changed), (901, 39, 40, 14, 31, 50, 41))

    def outcomes(self, demand, at=MICROS, number=7):
        """Of a whole message, and of one that leaves out receiver, time and number: b"Dhi" or the
        refusal."""
        found = []
        for receiver, without in ((RECEIVER, ()), (None, ()), (RECEIVER, WITHOUT["time"]),
                                  (RECEIVER, WITHOUT["number"])):
            frame = frame_of(KEYS[1], Mode.PRIV, b"Dhi", number, receiver=receiver,
                             left_out=without)
            with Opener(18, KEYS[1], mode=Mode.PRIV) as opener:
                opened = outcome(opener.open, frame, demand, at)
                found.append(opened if isinstance(opened, int) else opened.user_data)
        return found

    def test_demands(self):
        met = b"Dhi"
        ignored = [met] * 4
        for demand, expected in (
                (Demand(), ignored),
                (Demand(how_number=How.REQUIRED, how_time=How.REQUIRED), ignored),
                (Demand(sender=SENDER), ignored),
                (Demand(sender=OTHER), [38] * 4),
                (Demand(receiver=RECEIVER), [met, 38, met, met]),
                (Demand(receiver=RECEIVER, how_receiver=How.IF_PRESENT), ignored),
                (Demand(receiver=OTHER, how_receiver=How.IF_PRESENT), [38, met, 38, 38]),
                (Demand(skew=0), [met, met, 37, met]),
                (Demand(skew=0, how_time=How.IF_PRESENT), ignored),
                (Demand(skew=0, how_time=How.ABSENT_IS_0), [met, met, 37, met]),
                (Demand(needs_time_or_number=True), ignored),
                (Demand(number=7), [met, met, met, 42]),
                (Demand(number=7, how_number=How.IF_PRESENT), ignored),
                (Demand(number=8, how_number=How.IF_PRESENT), [42, 42, 42, met]),
                (Demand(number=7, how_number=How.ABSENT_IS_0), [met, met, met, 42]),
                (Demand(number=0, how_number=How.ABSENT_IS_0), [42, 42, 42, met]),
                (Demand(number=0), [42] * 4), (Demand(number=2**64 - 1), [42] * 4),
                (Demand(OTHER, OTHER, 0, 8), [38] * 4),
                (Demand(SENDER, RECEIVER, 0, 8), [42, 38, 37, 42])):
            self.assertEqual(self.outcomes(demand), expected, demand)
        self.assertEqual(self.outcomes(Demand(skew=1), MICROS + 10**6), ignored[:2] + [37, met])
        self.assertEqual(self.outcomes(Demand(skew=1, number=8), MICROS + 10**6 + 1), [37] * 4)
        self.assertEqual(self.outcomes(Demand(number=0), number=0), [met, met, met, 42])

    def test_absent_microseconds(self):
        second = MICROS - MICROS % 10**6
        frame = frame_of(KEYS[1], Mode.PRIV, b"Dhi", 7, left_out=(0xA2,))
        with Opener(18, KEYS[1], mode=Mode.PRIV) as opener:
            for how, skew, at, expected in (
                    (How.REQUIRED, 300, second, 37), (How.IF_PRESENT, 300, second, 37),
                    (How.ABSENT_IS_0, 0, second, b"Dhi"), (How.ABSENT_IS_0, 0, second + 1, 37),
                    (How.ABSENT_IS_0, 1, second + 10**6, b"Dhi"),
                    (How.ABSENT_IS_0, 1, second - 10**6, b"Dhi"), (How.ABSENT_IS_0, 1, second - 10**6 - 1, 37),
                    (How.ABSENT_IS_0, 1, second + 10**6 + 1, 37)):
                opened = outcome(opener.open, frame, Demand(skew=skew, how_time=how), at)
                self.assertEqual(opened if isinstance(opened, int) else opened.user_data, expected)

    def test_neither_time_nor_number(self):
        number, time = WITHOUT["number"], WITHOUT["time"]
        needs = dict(needs_time_or_number=True)
        for left_out, demand, expected in (
                (number + time, Demand(), None), (number + time, Demand(**needs), 41),
                (number, Demand(**needs), None), (time, Demand(**needs), None),
                (number + (0xA2,), Demand(**needs), 41),
                (number + (0xA2,), Demand(skew=1, how_time=How.ABSENT_IS_0, **needs), None),
                (number + time, Demand(number=0, how_number=How.ABSENT_IS_0, **needs), 41),
                (number, Demand(number=0, how_number=How.ABSENT_IS_0, **needs), None),
                (number + time, Demand(number=7, how_number=How.IF_PRESENT, **needs), 41),
                (number + time, Demand(skew=0, **needs), 37), (number + time, Demand(number=0, **needs), 42),
                (number + time, Demand(sender=OTHER, **needs), 38),
                (number + time, Demand(number=0, how_number=How.ABSENT_IS_0), None)):
            frame = frame_of(KEYS[0], Mode.SAFE, b"Dhi", 7, left_out=left_out)
            with Opener(17, KEYS[0], mode=Mode.SAFE) as opener:
                opened = outcome(opener.open, frame, demand, MICROS)
            self.assertEqual(opened if isinstance(opened, int) else None, expected, demand)

    def test_no_demands(self):
        frame = frame_of(KEYS[0], Mode.SAFE, b"")
        with opener_of(KEYS[0], Mode.SAFE) as opener:
            for demand in (Demand(number=-1), Demand(number=2**64), Demand(skew=2**32),
                           Demand(skew=-1), Demand(skew=0, how_time=4),
                           Demand(receiver=SENDER, how_receiver=How.ABSENT_IS_0),
                           Demand(number=7, how_number=4), Demand(number=7, how_number=0)):
                self.assertRaises(ValueError, opener.open, frame, demand)
            for demand in (None, 7, {}, Demand(sender="10.0.0.1"), Demand(number="7"),
                           Demand(skew=1.0), Demand(receiver=(2, b""))):
                self.assertRaises(TypeError, opener.open, frame, demand)


class Headers(unittest.TestCase):
    def test_of_both_kinds(self):
        for key, mode in KINDS:
            for without in ((), WITHOUT["number"]):
                frame = frame_of(key, mode, b"Dhi", left_out=without)
                header = krbrelay.message_header(frame)
                etype = 17 if key is KEYS[0] else 18
                self.assertEqual(header, krbrelay.Header(
                    mode,
                    etype if mode is Mode.PRIV else None,
                    etype - 2 if mode is Mode.SAFE else None,
                    7 if mode is Mode.SAFE and not without else None,
                    None))

    def test_of_a_key_version(self):
        data = frames.sequence(frames.tlv(0xA0, frames.integer(-3)),
                               frames.tlv(0xA1, frames.integer(2**32 - 1)),
                               frames.tlv(0xA2, frames.octets(b"")))
        frame = frames.tlv(0x75, frames.sequence(frames.tlv(0xA0, frames.integer(5)),
                                                 frames.tlv(0xA1, frames.integer(21)),
                                                 frames.tlv(0xA3, data)))
        self.assertEqual(krbrelay.message_header(bytearray(frame)),
                         krbrelay.Header(Mode.PRIV, -3, None, None, 2**32 - 1))

    def test_of_no_message(self):
        frame = frame_of(KEYS[0], Mode.SAFE, b"Dhi")
        for at in range(len(frame)):
            self.assertRaises(reader.Malformed, reader.message, frame[:at])
            self.assertEqual(outcome(krbrelay.message_header, frame[:at]), Code.MALFORMED)
        long = bytes(krbrelay.FRAME_LIMIT + 1)
        self.assertEqual(outcome(krbrelay.message_header, long), Code.FIELD_TOOLONG)


class Bodies(unittest.TestCase):
    def test_a_body_that_is_cut(self):
        """An encrypted part that decrypts, but to no body."""
        for part in (bytes(16), CONFOUNDER + b"\x7c\x00", CONFOUNDER):
            frame = frames.seal_part(KEYS[0], part)
            with opener_of(KEYS[0], Mode.PRIV) as opener:
                self.assertEqual(outcome(opener.open, frame), Code.MALFORMED)
        frame = sealed(KEYS[0], Mode.PRIV, b"\x30\x00")
        with opener_of(KEYS[0], Mode.PRIV) as opener:
            self.assertEqual(outcome(opener.unseal, frame, 7, MICROS), Code.MALFORMED)
