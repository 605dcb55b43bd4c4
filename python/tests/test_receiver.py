"""What a receiver takes and refuses, beside the independent sender."""
import random
import unittest

from support import (
    ALL, KEYS, KINDS, MICROS, OTHER, RECEIVER, frame_of, frames, opener, opener_of, outcome,
    receiver_of, sealer_of, session_of)

import krbrelay
from krbrelay import Batch, Closed, Code, Demand, Mode, Receiver, State, Text


def lines_of(found):
    """What the independent receiver logs of an outcome."""
    if isinstance(found, int):
        return [f"refused {found} {opener.NAMES[found]}"]
    if isinstance(found, Closed):
        return ["closed"]
    texts = [found.data] if isinstance(found, Text) else found.texts
    return [f"text {text.hex()}" for text in texts]


class Taking(unittest.TestCase):
    def test_records_of_the_independent_sender(self):
        for key, mode in KINDS:
            texts = [b"a", b"", b"c" * 1000, b"d"]
            sender = opener.Sender(session_of(key, mode), texts, [MICROS], batch=2)
            frames_sent = [sender.sealed(record, place, bytes(16)) for place, record in enumerate(
                [frames.record(group) for group in sender.groups()] + [b"C"])]
            with receiver_of(key, mode) as receiver:
                self.assertEqual(
                    [receiver.take(frame, MICROS) for frame in frames_sent],
                    [Batch((b"a", b"")), Batch((b"c" * 1000, b"d")), Closed()])
                self.assertEqual(receiver.state, State(10, True))

    def test_drawn_wires(self):
        """Frames repeated, dropped, changed and of other records: each outcome is that of the
        independent receiver."""
        for place in range(200 if ALL else 40):
            dice = random.Random(f"wire {place}")
            key, mode = dice.choice(KINDS)
            demands = dict(skew=3, require_receiver=dice.random() < 0.3,
                           require_time=dice.random() < 0.7)
            with receiver_of(key, mode, **demands) as receiver, sealer_of(key, mode) as sealer:
                other = opener.Receiver(session_of(key, mode, **demands), [MICROS])
                for frame in drawn_frames(dice, key, mode, sealer):
                    self.assertEqual(lines_of(outcome(receiver.take, frame, MICROS)),
                                     other.take(frame))
                    self.assertEqual(receiver.state, (other.expected, other.closed))

    def test_records_of_our_sealer(self):
        records = [Text(b""), Batch((b"a", b"b" * 300)), Text(bytes(10**6)), Closed()]
        for key, mode in KINDS:
            with sealer_of(key, mode) as sealer, receiver_of(key, mode) as receiver:
                for record in records:
                    self.assertEqual(receiver.take(sealer.seal_record(record)), record)

    def test_what_is_no_record(self):
        for data in (b"", b"X", b"Cx", b"B", frames.batch([b"a"]), frames.batch([b""] * 1001),
                     frames.batch([b"a", b"b"])[:-1]):
            with receiver_of(KEYS[0], Mode.PRIV) as receiver:
                frame = frame_of(KEYS[0], Mode.PRIV, data)
                self.assertEqual(outcome(receiver.take, frame, MICROS), Code.BAD_RECORD)
                self.assertEqual(receiver.state, State(7, False))

    def test_going_on(self):
        frame = frame_of(KEYS[0], Mode.PRIV, b"Dhi", 1_000_000)
        with receiver_of(KEYS[0], Mode.PRIV, 999_999) as receiver:
            self.assertEqual(outcome(receiver.take, frame, MICROS), Code.BADORDER)
        with receiver_of(KEYS[0], Mode.PRIV, 1_000_000) as receiver:
            self.assertEqual(receiver.take(frame, MICROS), Text(b"hi"))
            state = receiver.state
        with receiver_of(KEYS[0], Mode.PRIV, *state[:1], closed=state.closed) as receiver:
            self.assertEqual(receiver.state, State(1_000_001, False))
        with receiver_of(KEYS[0], Mode.PRIV, 1_000_000, closed=True) as receiver:
            self.assertEqual(outcome(receiver.take, frame, MICROS), Code.AFTER_CLOSE)
            self.assertEqual(receiver.state, State(1_000_000, True))

    def test_the_last_number(self):
        frame = frame_of(KEYS[0], Mode.SAFE, b"D", 2**32 - 1)
        with receiver_of(KEYS[0], Mode.SAFE, 2**32 - 1) as receiver:
            self.assertEqual(receiver.take(frame, MICROS), Text(b""))
            self.assertEqual(receiver.state, State(2**32, False))
            self.assertEqual(outcome(receiver.take, frame, MICROS), Code.BADORDER)
        with receiver_of(KEYS[0], Mode.SAFE, 2**32) as receiver:
            self.assertEqual(receiver.state, State(2**32, False))
        for expected in (2**32 + 1, 2**64 - 1, 2**64, -1):
            self.assertRaises(ValueError, receiver_of, KEYS[0], Mode.SAFE, expected)

    def test_a_message_that_comes_back_to_its_maker(self):
        """It is refused where the ends have two addresses, or each direction a key. Where neither
        is so, it is taken: so docs/C.md asks one of a caller."""
        for key, mode in KINDS:
            with sealer_of(key, mode, sender=RECEIVER) as sealer:
                frame = sealer.seal_record(Text(b"hi"), MICROS)
            with receiver_of(key, mode) as receiver:
                self.assertEqual(outcome(receiver.take, frame, MICROS), Code.BADADDR)
            with receiver_of(bytes(len(key)), mode, sender=RECEIVER) as receiver:
                self.assertEqual(outcome(receiver.take, frame, MICROS),
                                 Code.MODIFIED if mode is Mode.SAFE else Code.BAD_INTEGRITY)
            with receiver_of(key, mode, sender=RECEIVER) as receiver:
                self.assertEqual(receiver.take(frame, MICROS), Text(b"hi"))
            with opener_of(key, mode) as opened:
                self.assertEqual(opened.open(frame, Demand(number=7), MICROS).user_data, b"Dhi")

    def test_an_older_state_takes_the_same_again(self):
        for key, mode in KINDS:
            frame = frame_of(key, mode, b"Dhi")
            for _ in range(2):
                with receiver_of(key, mode) as receiver:
                    self.assertEqual(receiver.take(frame, MICROS), Text(b"hi"))
                    self.assertEqual(outcome(receiver.take, frame, MICROS), Code.BADORDER)

    def test_user_data_may_be_a_record(self):
        """A receiver can't tell which call sealed a message."""
        for key, mode in KINDS:
            for data, record in ((b"C", Closed()), (b"Dx", Text(b"x"))):
                with sealer_of(key, mode) as sealer, receiver_of(key, mode) as receiver:
                    self.assertEqual(receiver.take(sealer.seal(data, MICROS), MICROS), record)

    def test_after_what_is_no_record_nothing_is_taken(self):
        for key, mode in KINDS:
            with sealer_of(key, mode) as sealer, receiver_of(key, mode) as receiver:
                self.assertEqual(outcome(receiver.take, sealer.seal(b"x", MICROS), MICROS),
                                 Code.BAD_RECORD)
                self.assertEqual(
                    outcome(receiver.take, sealer.seal_record(Closed(), MICROS), MICROS),
                    Code.BADORDER)
                self.assertEqual(receiver.state, State(7, False))

    def test_addresses_are_demanded(self):
        for addresses in ((OTHER, None), (None, RECEIVER), (None, None)):
            with self.assertRaises(TypeError):
                Receiver(17, KEYS[0], mode=Mode.SAFE, sender=addresses[0], receiver=addresses[1],
                         expected=7)
        frame = frame_of(KEYS[0], Mode.SAFE, b"D", sender=OTHER)
        with receiver_of(KEYS[0], Mode.SAFE) as receiver:
            self.assertRaises(krbrelay.Refusal, receiver.take, frame, MICROS)


class Several(unittest.TestCase):
    """Frames that are taken in one call."""

    def test_records_of_the_independent_sender(self):
        """Each number of frames, also those at which the library computes eight codes side by side."""
        for key, mode in KINDS:
            texts = [bytes(at % 251 for at in range(29 * it)) for it in range(63)]
            sender = opener.Sender(session_of(key, mode), texts, [MICROS], batch=1)
            frames_sent = [sender.sealed(record, place, bytes(16)) for place, record in enumerate(
                [frames.record(group) for group in sender.groups()] + [b"C"])]
            for count in (0, 1, 7, 8, 9, 40, 64):
                with receiver_of(key, mode) as receiver:
                    self.assertEqual(receiver.take_many(frames_sent[:count], MICROS),
                                     ([Text(it) for it in texts] + [Closed()])[:count])
                    self.assertEqual(receiver.state, State(7 + count, count == 64))

    def test_drawn_wires(self):
        """Each outcome is that of the independent receiver, which takes one frame after another."""
        for place in range(100 if ALL else 20):
            dice = random.Random(f"wire of several {place}")
            key, mode = dice.choice(KINDS)
            demands = dict(skew=3, require_receiver=dice.random() < 0.3,
                           require_time=dice.random() < 0.7)
            with receiver_of(key, mode, **demands) as receiver, sealer_of(key, mode) as sealer:
                other = opener.Receiver(session_of(key, mode, **demands), [MICROS])
                wire = [it for _ in range(12) for it in drawn_frames(dice, key, mode, sealer)]
                for at in range(0, len(wire), 64):
                    taken = receiver.take_many(wire[at:at + 64], MICROS)
                    self.assertEqual([lines_of(int(it.code) if isinstance(it, krbrelay.Refusal) else it)
                                      for it in taken],
                                     [other.take(frame) for frame in wire[at:at + 64]])
                    self.assertEqual(receiver.state, (other.expected, other.closed))

    def test_each_has_the_number_of_its_call(self):
        for key, mode in KINDS:
            wire = [frame_of(key, mode, b"Dhi", number) for number in (9, 7, 7, 8, 2**32 - 1)] * 8
            with receiver_of(key, mode) as one, receiver_of(key, mode) as other:
                singly = []
                for frame in wire:
                    try:
                        singly.append(one.take(frame, MICROS))
                    except krbrelay.Refusal as refusal:
                        singly.append((refusal.code, refusal.number))
                self.assertEqual([it if isinstance(it, Text) else (it.code, it.number)
                                  for it in other.take_many(wire, MICROS)], singly)
                self.assertEqual(singly[:5], [(Code.BADORDER, 9), Text(b"hi"), (Code.BADORDER, 7),
                                              Text(b"hi"), (Code.BADORDER, 2**32 - 1)])

    def test_what_is_refused_of_the_whole_call(self):
        frame = frame_of(KEYS[0], Mode.PRIV, b"Dhi")
        receiver = receiver_of(KEYS[0], Mode.PRIV)
        with self.assertRaisesRegex(ValueError, "65 messages: a call takes 64 at most"):
            receiver.take_many([frame] * 65, MICROS)
        self.assertRaises(ValueError, receiver.take_many, [frame], -1)
        self.assertRaises(TypeError, receiver.take_many, [frame, "text"], MICROS)
        self.assertEqual(receiver.state, State(7, False))
        self.assertEqual(receiver.take_many([bytearray(frame), memoryview(frame)], MICROS)[0], Text(b"hi"))
        receiver.free()
        self.assertRaises(krbrelay.Freed, receiver.take_many, [frame], MICROS)


def drawn_frames(dice, key, mode, sealer):
    """Frames of a sealer at its numbers, with frames again, changed, early, and of no record."""
    records = [Text(b"t"), Text(b""), Batch((b"a", b"bb")), Batch((b"",) * 3), Closed()]
    sent = []
    for _ in range(dice.randrange(1, 8)):
        at = MICROS + dice.choice([0, 0, 0, 3_000_000, 3_000_001])
        if dice.random() < 0.2:
            sent.append(sealer.seal(dice.choice([b"X", b"", b"B", b"CC"]), at))
        else:
            sent.append(sealer.seal_record(dice.choice(records), at))
    wire = []
    for frame in sent:
        wire += [frame] * dice.choice([0, 1, 1, 1, 1, 2])
        if dice.random() < 0.3:
            at = dice.randrange(len(frame))
            wire.append(frame[:at] + bytes([frame[at] ^ 1 << dice.randrange(8)]) + frame[at + 1:])
        if dice.random() < 0.2:
            wire.append(frame_of(key, mode, b"D", sealer.next, left_out=(0xA3,)))
    return wire + [dice.choice(sent)]
