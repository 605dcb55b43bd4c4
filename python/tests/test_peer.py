"""A peer in both directions and several messages in one call, beside the independent sealer, and its exports."""
import unittest
from unittest import mock

from support import (
    CONFOUNDER, KEYS, KINDS, MICROS, OTHER, PAIRS, RECEIVER, SENDER, frame_of, frames, opener_of,
    outcome, peer_of, receiver_of, sealed)

import krbrelay
from krbrelay import Body, Code, Demand, How, Mode, Numbers, Peer
from krbrelay.engine import Flow, Receiving, Row


def number_of(call, *arguments):
    """The code of the refusal, and the number that it tells."""
    try:
        call(*arguments)
    except krbrelay.Refusal as refusal:
        return refusal.code, refusal.number
    return None


class Directions(unittest.TestCase):
    def test_what_is_sealed_is_of_the_independent_sealer(self):
        for key, mode in KINDS:
            with peer_of(key, mode, first=2**32 - 2, receiver=SENDER) as peer:
                for number, data in ((2**32 - 2, b"hi"), (2**32 - 1, bytes(5000))):
                    body = frames.body(data, MICROS, number, PAIRS[RECEIVER], PAIRS[SENDER])
                    self.assertEqual(peer.seal(data, MICROS, CONFOUNDER),
                                     sealed(key, mode, body))
                self.assertEqual(peer.numbers, Numbers(2**32, 7))
                self.assertRaises(krbrelay.Exhausted, peer.seal, b"")

    def test_what_is_opened_is_of_the_independent_sealer(self):
        for key, mode in KINDS:
            with peer_of(key, mode) as peer:
                for number in range(7, 12):
                    frame = frame_of(key, mode, b"hi" * number, number)
                    self.assertEqual(peer.open(frame, MICROS), Body(
                        b"hi" * number, MICROS // 10**6, MICROS % 10**6, number, SENDER, None))
                    self.assertEqual(peer.numbers, Numbers(7, number + 1))

    def test_two_peers(self):
        for key, mode in KINDS:
            with peer_of(key, mode, 7, 9) as near, \
                    peer_of(key, mode, 9, 7, here=SENDER, there=RECEIVER) as far:
                for turn in range(3):
                    self.assertEqual(far.open(near.seal(b"a")).number, 7 + turn)
                    self.assertEqual(near.open(far.seal(b"b")).user_data, b"b")

    def test_the_number_that_came(self):
        for key, mode in KINDS:
            with peer_of(key, mode, expected=8) as peer, receiver_of(key, mode, 8) as receiver:
                for number in (7, 9, 0, 2**32 - 1):
                    frame = frame_of(key, mode, b"Dhi", number)
                    for call in (peer.open, receiver.take):
                        self.assertEqual(number_of(call, frame, MICROS), (Code.BADORDER, number))
                frame = frame_of(key, mode, b"Dhi", left_out=(0xA3,))
                for call in (peer.open, receiver.take):
                    self.assertEqual(number_of(call, frame, MICROS), (Code.BADORDER, None))
                    self.assertEqual(number_of(call, b"", MICROS), (Code.MALFORMED, None))
                self.assertEqual(peer.numbers, Numbers(7, 8))

    def test_passing_a_gap_by(self):
        """As docs/C.md says: a new peer with the next number, and the number that came."""
        for key, mode in KINDS:
            frame = frame_of(key, mode, b"hi", 12)
            with peer_of(key, mode, 3, 8) as peer:
                peer.seal(b"")
                code, number = number_of(peer.open, frame, MICROS)
                self.assertEqual((code, number), (Code.BADORDER, 12))
                following = peer.numbers.next
            with peer_of(key, mode, following, number) as peer:
                self.assertEqual(peer.open(frame, MICROS).user_data, b"hi")
                self.assertEqual(peer.numbers, Numbers(4, 13))
                self.assertEqual(number_of(peer.open, frame_of(key, mode, b"hi", 9), MICROS),
                                 (Code.BADORDER, 9))

    def test_a_message_that_comes_back_to_its_maker(self):
        for key, mode in KINDS:
            with peer_of(key, mode) as peer:
                self.assertEqual(outcome(peer.open, peer.seal(b"hi", MICROS), MICROS), Code.BADADDR)


class Several(unittest.TestCase):
    """Messages that are sealed in one call."""

    def test_they_are_of_the_independent_sealer(self):
        """Each at its own number, and under a confounder that is drawn for it."""
        drawn = [bytes([at]) * 16 for at in range(64)]
        for key, mode in KINDS:
            for count in (0, 1, 3, 4, 8, 13, 64):
                texts = [bytes(at % 251 for at in range(29 * it)) for it in range(count)]
                bodies = [frames.body(it, MICROS, number, PAIRS[RECEIVER], PAIRS[SENDER])
                          for number, it in enumerate(texts, 7)]
                with peer_of(key, mode, 7, 9, receiver=SENDER) as peer, \
                        mock.patch("os.urandom", side_effect=drawn) as urandom:
                    self.assertEqual(peer.seal_many(texts, MICROS),
                                     [sealed(key, mode, *it) for it in zip(bodies, drawn)])
                    self.assertEqual(peer.numbers, Numbers(7 + count, 9))
                self.assertEqual(urandom.call_args_list, [mock.call(16)] * count)

    def test_the_other_end_opens_them(self):
        for key, mode in KINDS:
            with peer_of(key, mode, 7, 9) as near, \
                    peer_of(key, mode, 9, 7, here=SENDER, there=RECEIVER) as far:
                texts = [b"text %d" % it for it in range(13)]
                self.assertEqual([far.open(it).user_data for it in near.seal_many(texts)], texts)
                self.assertEqual(far.numbers, Numbers(9, 20))

    def test_none_is_sealed_if_one_cannot_be(self):
        with peer_of(KEYS[0], Mode.PRIV, 2**32 - 2) as peer:
            with self.assertRaisesRegex(krbrelay.Exhausted, "message 2: no sequence number"):
                peer.seal_many([b"a", b"b", b"c"])
            with self.assertRaisesRegex(ValueError, "message 1: .* longer"):
                peer.seal_many([b"a", bytes(krbrelay.USER_DATA_LIMIT + 1)])
            self.assertRaisesRegex(ValueError, "65 messages: a call seals 64 at most", peer.seal_many, [b""] * 65)
            self.assertEqual(peer.numbers, Numbers(2**32 - 2, 7))
            self.assertEqual(len(peer.seal_many([b"a", b"b"])), 2)
            self.assertEqual(peer.numbers, Numbers(2**32, 7))
        self.assertRaises(krbrelay.Freed, peer.seal_many, [b"a"])


class Exports(unittest.TestCase):
    def test_bytes(self):
        for first, expected, digits in (
                (0, 0, "6b727301 0000000000000000 0000000000000000"),
                (0x1020304, 0x5060708, "6b727301 0000000001020304 0000000005060708"),
                (2**32 - 1, 2**32, "6b727301 00000000ffffffff 0000000100000000")):
            with peer_of(KEYS[0], Mode.PRIV, first, expected) as peer:
                self.assertEqual(peer.export(), bytes.fromhex(digits))

    def test_going_on(self):
        for key, mode in KINDS:
            with peer_of(key, mode, 3, 7) as peer:
                peer.seal(b"")
                peer.open(frame_of(key, mode, b"hi"), MICROS)
                state = peer.export()
            with peer_of(key, mode, 0, 0, state=state) as peer:
                self.assertEqual(peer.numbers, Numbers(4, 8))
                frame = frame_of(key, mode, b"again", 8)
                self.assertEqual(peer.open(frame, MICROS).user_data, b"again")

    def test_what_is_no_export(self):
        good = bytes.fromhex("6b727301 0000000000000004 0000000000000008")
        for state in (b"", good[:-1], good + b"\0", b"x" + good[1:], good[:3] + b"\2" + good[4:],
                      good[:12] + b"\1" + good[13:]):
            self.assertRaises(ValueError, peer_of, KEYS[0], Mode.PRIV, 0, 0, state=state)
        for first, expected in ((4, 0), (0, 8)):
            self.assertRaises(ValueError, peer_of, KEYS[0], Mode.PRIV, first, expected, state=good)
        self.assertRaises(TypeError, peer_of, KEYS[0], Mode.PRIV, 0, 0, state="state")
        with self.assertRaises(krbrelay.Exhausted):
            peer_of(KEYS[0], Mode.PRIV, 0, 0,
                    state=good[:4] + (2**32).to_bytes(8, "big") + good[12:])


class Times(unittest.TestCase):
    def codes(self, demanded, **named):
        """Of a message that is 300 s old, one of a microsecond more, and one without its time."""
        for at, left_out in ((0, ()), (1, ()), (0, (0xA1, 0xA2))):
            frame = frame_of(KEYS[0], Mode.PRIV, b"hi", left_out=left_out)
            demand = Demand(sender=SENDER, number=7, skew=demanded)
            with Peer(17, KEYS[0], mode=Mode.PRIV, sender=RECEIVER, demand=demand, **named) as peer:
                got = outcome(peer.open, frame, MICROS + 300 * 10**6 + at)
                yield got if isinstance(got, int) else None

    def test_a_skew_by_default(self):
        """As an Opener demands it, unless the demand has a skew or there is to be none."""
        for demanded, named, wanted in (
                (None, {}, [None, Code.SKEW, Code.SKEW]),
                (None, {"skew": 301}, [None, None, Code.SKEW]),
                (None, {"skew": None}, [None, None, None]),
                (0, {}, [Code.SKEW, Code.SKEW, Code.SKEW]),
                (301, {"skew": None}, [None, None, Code.SKEW])):
            self.assertEqual(list(self.codes(demanded, **named)), wanted, (demanded, named))

    def test_seconds_as_a_float(self):
        for mode in Mode:
            with peer_of(KEYS[0], mode) as one, peer_of(KEYS[0], mode) as other:
                self.assertEqual(one.seal(b"hi", MICROS / 10**6, CONFOUNDER),
                                 other.seal(b"hi", MICROS, CONFOUNDER))


class Arguments(unittest.TestCase):
    def said(self, demand, **named):
        with self.assertRaises(ValueError) as raised:
            Peer(17, KEYS[0], mode=Mode.PRIV, sender=OTHER, demand=demand, **named)
        return str(raised.exception)

    def test_errors_name_the_field(self):
        with peer_of(KEYS[0], Mode.PRIV) as peer:
            state = peer.export()
        number, how = "the demand's number is", "the demand's how_number is How.IF_PRESENT"
        for demand, named, words in (
                (Demand(number=2**32 + 1), {}, f"{number} 4294967297: it has to be 0 to"),
                (Demand(number=7, how_number=How.IF_PRESENT), {}, f"{how}: it has to be"),
                (Demand(number=8), {"state": state}, f"{number} 8: it has to be None"),
                (Demand(), {"state": state, "first": 4}, "first is 4: it has to be 0"),
                (Demand(), {"state": b"x" + state[1:]}, "the state is none that Peer.export"),
                (Demand(), {"state": state[:-1]}, "the state has 19 bytes")):
            self.assertIn(words, self.said(demand, **named))

    def test_defaults(self):
        """Numbers begin at 0, as in C, Rust and Go."""
        with Peer(17, KEYS[0], mode=Mode.PRIV, sender=OTHER, demand=Demand(sender=SENDER)) as peer:
            self.assertEqual(peer.numbers, Numbers(0, 0))
        with krbrelay.Sealer(17, KEYS[0], mode=Mode.SAFE, sender=SENDER) as sealer, \
                krbrelay.Receiver(17, KEYS[0], mode=Mode.SAFE, sender=SENDER,
                                  receiver=RECEIVER) as receiver:
            self.assertEqual((sealer.next, receiver.state.expected), (0, 0))
            without = frame_of(KEYS[0], Mode.SAFE, b"Dhi", 0, left_out=(0xA1, 0xA2))
            self.assertEqual(outcome(receiver.take, without, MICROS), krbrelay.Code.SKEW)
            with opener_of(KEYS[0], Mode.SAFE) as opener:
                self.assertEqual(outcome(opener.unseal, without, 0, MICROS), krbrelay.Code.SKEW)

    def test_values_that_are_false_are_no_numbers(self):
        wrong = ("", b"", 0.0, [], {}, 0j)
        frame = frame_of(KEYS[0], Mode.PRIV, b"hi", 0)
        with opener_of(KEYS[0], Mode.PRIV) as opener:
            for value in wrong:
                for name in ("number", "skew", "how_number", "how_time", "how_receiver",
                             "needs_time_or_number"):
                    demand = Demand(**{name: value})
                    self.assertRaises(TypeError, opener.open, frame, demand, MICROS)
                for name in ("require_time", "require_receiver", "skew", "mode"):
                    with self.assertRaises(TypeError, msg=name):
                        krbrelay.Opener(17, KEYS[0], **{"mode": Mode.PRIV, name: value})
                for demand in (Demand(number=value), Demand(how_number=value)):
                    self.assertRaises(TypeError, Peer, 17, KEYS[0], mode=Mode.PRIV, sender=OTHER, demand=demand)
                self.assertRaises(TypeError, Receiving(Row(5), 0).take, frame, accepted=False, opened=value)
                self.assertRaises(TypeError, Receiving(Row(5), 0).take, frame, accepted=value)
                with self.assertRaises(TypeError):
                    Flow().list = value

    def test_no_number_with_a_state(self):
        with peer_of(KEYS[0], Mode.PRIV, 3, 9) as peer:
            state = peer.export()
        with Peer(17, KEYS[0], mode=Mode.PRIV, sender=OTHER, demand=Demand(sender=SENDER),
                  state=state) as peer:
            self.assertEqual(peer.numbers, Numbers(3, 9))

    def test_demands(self):
        for demand in (Demand(number=7, how_number=How.IF_PRESENT),
                       Demand(number=2**32 + 1)):
            self.assertRaises(ValueError, Peer, 17, KEYS[0], mode=Mode.PRIV, sender=OTHER, demand=demand)
        self.assertRaises(TypeError, Peer, 17, KEYS[0], mode=Mode.PRIV, sender=OTHER, demand=None)

    def test_an_absent_number_is_0(self):
        frame = frame_of(KEYS[0], Mode.SAFE, b"hi", left_out=(0xA3,))
        demand = Demand(number=0, how_number=How.ABSENT_IS_0)
        with Peer(17, KEYS[0], mode=Mode.SAFE, sender=OTHER, demand=demand) as peer:
            self.assertEqual(peer.open(frame, MICROS).user_data, b"hi")
            self.assertEqual(peer.numbers, Numbers(0, 1))

    def test_confounders(self):
        with peer_of(KEYS[0], Mode.PRIV) as peer:
            for wrong in (b"", bytes(15), bytes(17)):
                self.assertRaises(ValueError, peer.seal, b"hi", MICROS, wrong)
            self.assertEqual(peer.numbers, Numbers(7, 7))


if __name__ == "__main__":
    unittest.main()
