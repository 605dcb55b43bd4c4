"""The ends of a carrier: what docs/ENGINE.md says of each call, and what they refuse."""
import gc
import unittest

import support  # noqa: F401  (which finds the package)
from krbrelay import History
from krbrelay.engine import (
    NEVER, Asks, Due, Ended, Failure, Flow, Found, Head, Heard, Held, Idle, Judged, Lane, Load, Opening,
    Outcome, Pause, Probe, Publish, Queue, Read, Reading, Receipt, Receiving, Row, Sending, Served,
    Shard, Spot, Stands, Stored, Take, Then, Wait, Wake, judge)

OWN, OTHER, NONE = bytes([1]) * 20, bytes([2]) * 20, bytes(20)


class Senders(unittest.TestCase):
    def test_frames_leave_until_the_window_is_full(self):
        sending = Sending(Stored(list=5), 0)
        self.assertEqual((sending.serve(256, 0), sending.is_settled), (Idle(), True))
        self.assertEqual((sending.sealing_room, sending.stands), (256, None))
        sending.sealed(40)
        self.assertEqual(sending.serve(3, 0), Publish(0, 3))
        self.assertEqual(sending.serve(256, 0), Publish(3, 13))
        self.assertEqual((sending.under_way, sending.sealing_room), (16, 216))
        self.assertEqual(sending.serve(256, 0), Wake(2_000))
        self.assertEqual([sending.confirmed(0, offset, 100) for offset in (1, 2)], [True, False])
        self.assertEqual(sending.stored, Stored(40, 1, 1, 0, 5))
        self.assertEqual(sending.serve(256, 100), Publish(16, 2))
        self.assertEqual(sending.serve(256, 2_099), Wake(2_100))
        self.assertEqual(sending.serve(256, 2_100), Publish(1, 16))
        self.assertEqual(sending.stands, Stands.UNCONFIRMED)
        sending.reconnected()
        self.assertEqual(sending.serve(256, 2_200), Publish(1, 16))
        self.assertEqual([sending.listed(it) for it in (5, 6)], [False, True])
        self.assertEqual(sending.serve(256, 2_300), Publish(0, 16))

    def publish_all(self, sending, now):
        """How many are under way where nothing more may leave; all are confirmed."""
        while isinstance(command := sending.serve(4_096, now), Publish):
            self.assertLessEqual(command.count, 16)
        under_way = sending.under_way
        for _ in range(under_way):
            _, carried, at, *_ = sending.stored
            self.assertTrue(sending.confirmed(carried, at + 1, now))
        return under_way

    def test_the_window(self):
        """As many frames more as were confirmed, up to 256; in a recovery no more than receipts say."""
        sending = Sending(Stored(5_000, list=5), 0)
        self.assertEqual([self.publish_all(sending, 0) for _ in range(6)], [16, 32, 64, 128, 256, 256])
        while isinstance(sending.serve(4_096, 0), Publish):
            pass
        self.assertEqual(sending.under_way, 256)
        self.assertEqual([self.publish_all(sending, 2_000) for _ in range(2)], [16, 32])
        self.assertEqual(sending.receipt(Receipt(10, OWN), OWN, 2_100), Heard.DELIVERED)
        self.assertEqual(sending.receipt(Receipt(10, OWN, Asks.MISSING), OWN, 2_100), Heard.NOTHING)
        self.assertEqual([self.publish_all(sending, 2_100) for _ in range(2)], [1, 0])
        self.assertEqual(sending.receipt(Receipt(11, OWN), OWN, 2_200), Heard.DELIVERED)
        self.assertEqual(self.publish_all(sending, 2_200), 2)

    def test_receipts_alone_settle(self):
        sending = Sending(Stored(4, 4, 9, 0, 5), 0)
        self.assertEqual(sending.serve(256, 4_999), Wake(5_000))
        self.assertEqual(sending.serve(256, 5_000), Probe(3, True))
        self.assertEqual(sending.serve(256, 5_000), Wake(15_000))
        self.assertEqual(sending.receipt(Receipt(2, OWN), OWN, 6_000), Heard.DELIVERED)
        self.assertEqual((sending.done, sending.stands), (2, None))
        self.assertEqual(sending.receipt(Receipt(2, OWN), NONE, 6_000), Heard.NOTHING)
        sending.receipt(Receipt(2, OWN, Asks.REFUSED), OWN, 6_100)
        self.assertEqual((sending.serve(256, 6_100), sending.stands), (Wake(10_100), Stands.REFUSED))
        self.assertEqual(sending.serve(256, 10_100), Publish(2, 1))
        sending.confirmed(2, 10, 10_100)
        for asks, now, stands in (Asks.MISSING, 10_100, None), (Asks.REFUSED, 10_200, Stands.REFUSED):
            sending.receipt(Receipt(2, OWN, asks), OWN, now)
            self.assertEqual(sending.stands, stands)
        self.assertEqual([sending.serve(256, it) for it in (10_200, 18_100)], [Wake(18_100), Publish(2, 1)])
        self.assertEqual(sending.receipt(Receipt(4, OWN), OWN, 18_200), Heard.DELIVERED)
        self.assertEqual((sending.done, sending.serve(256, 18_200), sending.is_settled), (4, Idle(), True))

    def test_stopped(self):
        for number, history, ended in (5, OWN, Ended.OLDER), (3, OTHER, Ended.FORKED):
            sending = Sending(Stored(4, 4, 9, 0, 5), 0)
            self.assertEqual(sending.receipt(Receipt(number, history), OWN, 1), Heard.ENDED)
            self.assertEqual((sending.ended, sending.stands), (ended, Stands[ended.name]))
            self.assertEqual((sending.serve(256, 9_000), sending.is_settled), (Idle(), True))
            self.assertEqual(sending.receipt(Receipt(2, OWN), OWN, 9_000), Heard.NOTHING)
            self.assertEqual((sending.done, sending.sealing_room), (0, 0))

    def test_arguments(self):
        for stored in Stored(1, 2), Stored(2, 1, 0, 2), Stored(2**64), Stored(-1, -1, 0, -1):
            self.assertRaises(ValueError, Sending, stored, 0)
        sending = Sending(Stored(3), 0)
        self.assertRaises(ValueError, sending.sealed, NEVER - 2)
        self.assertRaises(ValueError, sending.receipt, Receipt(1, OWN[1:]), OWN, 0)
        self.assertRaises(ValueError, sending.receipt, Receipt(1, OWN, 4), OWN, 0)
        for call in sending.sealed, sending.listed:
            self.assertRaises(TypeError, call, "7")
        self.assertEqual(sending, Sending(Stored(3), 0))

    def test_a_shard_with_its_sessions(self):
        lane, receipt = Lane(), Receipt(3, OWN)
        self.assertEqual((lane.add(Stored(3, list=7)), lane.add(Stored(3, list=7), opens=True)), (0, 1))
        self.assertEqual((lane.turn(50), lane.next_time), (None, NEVER))
        lane.listed(8)
        self.assertEqual(lane.turn(60), Served(0, Publish(0, 3), True))
        self.assertEqual(lane.turn(60), Served(1, Held(), True))
        self.assertEqual((lane.turn(60), lane.turn(60), lane.next_time),
                         (Served(0, Wake(2_060), False), None, 160))
        lane.release(1)
        self.assertEqual(lane.turn(60), Served(1, Publish(0, 3), False))
        self.assertEqual([lane.confirmed(0, *it, 70) for it in ((0, 11), (2, 12))], [True, False])
        self.assertEqual(lane.stored(0), Stored(3, 1, 11, 0, 8))
        self.assertEqual([lane.receipt(0, receipt, own, 80) for own in (None, receipt.history)],
                         [Heard.AGAIN, Heard.DELIVERED])
        self.assertEqual(lane.receipt(1, receipt, OTHER, 80), Heard.ENDED)
        lane.sealed(0, 2)
        self.assertEqual([lane.turn(90) for _ in range(4)],
                         [Served(1, Idle(), False), Served(0, Publish(3, 2), False),
                          Served(0, Wake(2_090), False), None])
        lane.listed(None)
        self.assertEqual(lane.turn(100_000), None)
        lane.stop(0)
        lane.listed(8)
        self.assertEqual(lane.turn(100_000), Served(0, Idle(), False))
        lane.reload(0, Stored(5, 3, 12, 3, 8))
        self.assertEqual(lane.turn(100_000), Served(0, Publish(3, 2), False))
        for wrong in (lambda: lane.stop(2), lambda: lane.stored(2)):
            self.assertRaises(IndexError, wrong)
        for wrong in (lambda: lane.add(Stored(3, 4)), lambda: lane.sealed(0, NEVER), lambda: lane.stop(-1),
                      lambda: lane.add(Stored(9, 4, 0, 5)), lambda: lane.reload(0, Stored(3, 4)),
                      lambda: lane.receipt(0, Receipt(0, NONE, 0), OWN, 0)):
            self.assertRaises(ValueError, wrong)

    def test_an_opening_that_is_held(self):
        lane = Lane()
        lane.add(Stored(3, list=7), opens=True)
        lane.listed(7)
        self.assertEqual((lane.turn(10), lane.turn(10), lane.next_time), (Served(0, Held(), False), None, 110))
        self.assertEqual(lane.turn(110), Served(0, Held(), False))
        lane.release(0)
        self.assertEqual(lane.turn(120), Served(0, Publish(0, 3), False))
        lane.listed(None)
        self.assertIsNone(lane.turn(100_000))
        lane.stop(0)
        lane.listed(7)
        lane.reload(0, Stored(3, list=7))
        self.assertEqual(lane.turn(100_000), Served(0, Publish(0, 3), False))

    def test_a_shard(self):
        flow = Flow()
        self.assertEqual((flow.list, flow.room), (None, 0))
        flow.list = 0
        flow.moved(0, 200)
        self.assertEqual((flow.list, flow.under_way, flow.room), (0, 200, 1848))
        flow.moved(8, 2_020)
        self.assertEqual((flow.under_way, flow.room), (2_212, 0))
        flow.moved(2_012, 0)
        self.assertRaises(ValueError, flow.moved, 201, 0)
        flow.list = None
        self.assertEqual((flow.list, flow.under_way, flow.room), (None, 200, 0))


class Turns(unittest.TestCase):
    def test_each_waits_once_and_in_order(self):
        queue = Queue()
        self.assertEqual((queue.serve(), len(queue)), (None, 0))
        for session in 7, 2, 7:
            queue.ready(session)
        self.assertEqual(([queue.serve() for _ in range(3)], len(queue)), ([7, 2, None], 0))
        for session in -1, 2**32:
            self.assertRaises(ValueError, queue.ready, session)
        queue.ready(1)
        del queue
        gc.collect()

    def test_a_pause_doubles(self):
        pause = Pause(2_000, 10_000)
        self.assertEqual([pause.is_over(it) for it in (9_000, 11_999, 12_000)], [False, False, True])
        ends = []
        for now in 12_000, 16_000:
            pause.grow(5_000, now)
            ends.append(pause.end)
        self.assertEqual((ends, Pause(NEVER, 1).end), ([16_000, 21_000], NEVER))


class Receivers(unittest.TestCase):
    def test_what_a_frame_is_taken_for(self):
        end = Receiving(Row(7), 1_000)
        for opened, outcome in ((None, Outcome.UNKNOWN), (6, Outcome.REPEAT), (9, Outcome.EARLY),
                                (7, Outcome.UNSETTLED)):
            self.assertEqual(end.take(b"x", accepted=False, opened=opened), outcome)
        self.assertEqual(end.take(b"a frame", accepted=True), Outcome.ACCEPTED)
        history = History()
        history.add(b"a frame")
        self.assertEqual((end.row, end.drafted), (Row(7), Row(8, history.digest)))
        self.assertIsNone(end.receipt(9_000))
        end.stored()
        self.assertEqual(end.receipt(9_000), Receipt(8, history.digest))
        self.assertIsNone(end.receipt(9_000))
        self.assertEqual(end.take(b"y", accepted=False, opened=6), Outcome.REPEAT)
        end.stored()
        self.assertEqual([end.receipt(it) for it in (9_199, 9_200)], [None, Receipt(8, history.digest)])
        self.assertEqual(end.take(b"y", accepted=True, is_close=True), Outcome.ACCEPTED)
        self.assertEqual(end.take(b"z", accepted=True), Outcome.REPEAT)
        end.dropped()
        self.assertEqual((end.drafted, end.row), (Row(8, history.digest),) * 2)
        self.assertRaises(ValueError, Receiving(Row(NEVER), 0).take, b"", accepted=True)

    def test_what_a_receipt_asks_for(self):
        """What comes early doesn't take the place of a refusal."""
        asked = [((9,), Asks.MISSING), ((7,), Asks.REFUSED), ((7, 9), Asks.REFUSED), ((6, 9), Asks.MISSING)]
        for opened, asks in asked:
            end = Receiving(Row(7), 1_000)
            for number in opened:
                end.take(b"x", accepted=False, opened=number)
            self.assertIsNone(end.receipt(1_000))
            end.stored()
            self.assertEqual(end.receipt(1_000), Receipt(7, NONE, asks))

    def test_a_shard(self):
        reading = Reading(Spot(5, 10))
        self.assertEqual(reading.frames(5, 10, 0), Read.NOTHING)
        self.assertEqual(reading.frames(5, 14, 4), Read.TAKE)
        self.assertEqual((reading.spot, reading.read), (Spot(5, 10), Spot(5, 14)))
        self.assertEqual(reading.frames(5, 20, 6), Read.NOTHING)
        reading.stored()
        self.assertEqual((reading.frames(5, 3, 0), reading.read), (Read.ELSEWHERE, Spot(5, 3)))
        self.assertEqual((reading.frames(6, 9, 2), reading.read), (Read.ELSEWHERE, Spot(6, 0)))
        self.assertRaises(ValueError, Reading(Spot(5, 10)).frames, 5, 10, NEVER - 9)

    def shard(self, **options):
        """A shard with two sessions at offset 4 of list 7."""
        shard = Shard(**options)
        self.assertEqual(shard.turn(1_000), Load())
        shard.loaded(Spot(7, 4))
        self.assertEqual((shard.listed(7, 20), shard.read, shard.turn(1_000)), (False, Spot(7, 4), Take()))
        self.assertEqual((shard.add(Row(7)), shard.add(Row(9)), shard.next_time), (0, 1, NEVER))
        return shard

    def test_a_shard_with_its_sessions(self):
        shard, history = self.shard(), History()
        self.assertEqual((shard.begin(5, 1_000), shard.is_full(9_000)), (False, False))
        self.assertEqual(shard.take(0, b"a", 5, accepted=True), Outcome.ACCEPTED)
        self.assertEqual(shard.take(1, b"b", 6, accepted=False, opened=6), Outcome.REPEAT)
        shard.pass_by(8)
        history.add(b"a")
        self.assertEqual(shard.rows(0), (Row(7), Row(8, history.digest)))
        self.assertEqual([shard.is_full(it) for it in (1_999, 2_000)], [False, True])
        self.assertIsNone(shard.receipt(1_500))
        shard.stored()
        self.assertEqual((shard.read, shard.found(Spot(7, 8))), (Spot(7, 8), Found.SAME))
        due = {shard.receipt(1_500), shard.receipt(1_500)}
        self.assertEqual(due, {Due(0, Receipt(8, history.digest)), Due(1, Receipt(9, NONE))})
        self.assertIsNone(shard.receipt(1_500))
        shard.unpaid(Due(1, Receipt(9, NONE)))
        self.assertEqual((shard.next_time, shard.receipt(1_699)), (1_700, None))
        self.assertEqual(shard.receipt(1_700), Due(1, Receipt(9, NONE)))
        self.assertEqual(shard.found(Spot(7, 7)), Found.BEHIND)
        self.assertEqual(shard.turn(2_000), Load())

    def test_a_transaction_that_fails(self):
        shard = self.shard()
        self.assertFalse(shard.begin(5, 1_000))
        shard.take(0, b"a", 5, accepted=True)
        self.assertEqual((shard.failed(Failure.REFUSED, 6), shard.rows(0)), (Then.AGAIN, (Row(7), Row(7))))
        self.assertEqual((shard.turn(1_000), shard.read, shard.begin(6, 1_000)), (Take(), Spot(7, 4), True))
        shard.take(0, b"a", 6, accepted=True)
        self.assertEqual((shard.is_full(1_000), shard.failed(Failure.LATER, 6)), (True, Then.WAIT))
        self.assertEqual([shard.turn(it) for it in (1_199, 1_200)], [Wait(1_200), Take()])
        self.assertEqual((shard.begin(7, 1_200), shard.failed(Failure.FENCED, 7)), (False, Then.AGAIN))
        self.assertEqual((shard.turn(1_200), shard.failed(Failure.FAULT, 4)), (Load(), Then.WAIT))
        self.assertEqual([shard.turn(it) for it in (1_599, 1_600)], [Wait(1_600), Load()])
        shard = self.shard(are_outside=True, put_aside=True)
        self.assertEqual((shard.begin(5, 1_000), shard.failed(Failure.REFUSED, 5)), (False, Then.AGAIN))
        self.assertTrue(shard.begin(5, 1_000))
        self.assertEqual(shard.take(1, b"b", 5, accepted=False, opened=6), Outcome.REPEAT)
        self.assertEqual(shard.failed(Failure.LATER, 6), Then.STORE)
        shard.stored()
        self.assertEqual((shard.read, shard.listed(8, 3), shard.read), (Spot(7, 5), True, Spot(8, 0)))
        shard.forget()
        self.assertEqual(shard.turn(1_000), Load())

    def test_what_a_shard_refuses(self):
        shard = self.shard()
        for wrong in (lambda: shard.rows(2), lambda: shard.unpaid(Due(2, Receipt(1, NONE)))):
            self.assertRaises(IndexError, wrong)
        for wrong in (lambda: shard.pass_by(5), lambda: shard.take(0, b"", 5, accepted=True),
                      lambda: shard.failed(5, 5), lambda: shard.failed(0, 5),
                      lambda: shard.unpaid(Due(0, Receipt(1, NONE, 0))), lambda: shard.add(Row(-1))):
            self.assertRaises(ValueError, wrong)
        self.assertEqual((shard.begin(5, 1_000), shard.add(Row(NEVER))), (False, 2))
        for wrong in (lambda: shard.begin(5, 1_000), lambda: shard.take(2, b"a", 5, accepted=True)):
            self.assertRaises(ValueError, wrong)
        for place, found in ((Spot(7, 3), Found.BEHIND), (Spot(8, 9), Found.BEHIND), (Spot(7, 5), Found.AHEAD)):
            self.assertEqual(shard.found(place), found)
        self.assertEqual(shard.turn(1_000), Load())

    def test_openings(self):
        head = Head(3, 9, OWN, True)
        for last, opening, wanted in (
                (None, Opening(1, 0, NONE), Judged.BEGINS), (None, Opening(2, 0, NONE), Judged.LATER),
                (head, Opening(4, 9, OWN), Judged.BEGINS), (head, Opening(5, 9, OWN), Judged.LATER),
                (head, Opening(3, 9, OWN), Judged.FORKED), (head, Opening(4, 8, OWN), Judged.FORKED),
                (head, Opening(4, 9, OTHER), Judged.FORKED),
                (head._replace(closed=False), Opening(4, 9, OWN), Judged.LATER)):
            self.assertEqual(judge(last, opening), wanted)
        self.assertRaises(ValueError, judge, head._replace(turn=0), Opening(1, 0, NONE))


if __name__ == "__main__":
    unittest.main()
