"""Seals and opens leave nothing behind, however often they are done."""
import gc
import os
import unittest

from support import (
    ALL, KEYS, KINDS, MICROS, RECEIVER, SENDER, opener_of, outcome, peer_of, receiver_of, sealer_of)

import krbrelay
from krbrelay import Batch, Code, Demand, Mode, Text, engine
from krbrelay.turns import Turns

COUNT = 100_000 if ALL else 5_000
MOST = 256 << 10    # bytes that may be grown by


def resident():
    """The bytes of this process in memory."""
    with open("/proc/self/statm", encoding="ascii") as file:
        return int(file.read().split()[1]) * os.sysconf("SC_PAGE_SIZE")


def all_below(kind):
    """A class's own classes, however far below, but those that stand for others."""
    found = {it for below in kind.__subclasses__() for it in {below} | all_below(below)}
    return {it for it in found if not it.__subclasses__()}


def queue_of_many():
    queue = engine.Queue()
    queue.ready(500)


def lane_of_many():
    lane = engine.Lane()
    for _ in range(8):
        lane.add(STORED)


def shard_of_many():
    shard = engine.Shard()
    for _ in range(8):
        shard.add(engine.Row(1))
    shard.begin(1, 0)
    shard.take(0, b"a frame", 1, accepted=True)


STORED = engine.Stored(next=5, carried=0, at=0, done=0, list=1)
# Of each class whose values have a struct of the library's, one that is made and let go of, with as much as it keeps on
# the heap.
LET_GO = {
    engine.Pause: lambda: engine.Pause(5, 0),
    engine.Queue: queue_of_many,
    engine.Sending: lambda: engine.Sending(STORED, 0),
    engine.Lane: lane_of_many,
    engine.Flow: engine.Flow,
    engine.Receiving: lambda: engine.Receiving(engine.Row(1), 0),
    engine.Shard: shard_of_many,
    engine.Reading: lambda: engine.Reading(engine.Spot(1, 0)),
    krbrelay.Window: krbrelay.Window,
    krbrelay.History: krbrelay.History,
    krbrelay.Sealer: lambda: sealer_of(KEYS[0], Mode.SAFE),
    krbrelay.Opener: lambda: opener_of(KEYS[0], Mode.SAFE),
    krbrelay.Receiver: lambda: receiver_of(KEYS[0], Mode.SAFE),
    krbrelay.Peer: lambda: peer_of(KEYS[0], Mode.SAFE),
}


@unittest.skipUnless(os.path.exists("/proc/self/statm"), "the system doesn't say what is resident")
class Leaks(unittest.TestCase):
    def assert_still(self, work):
        """After a first round, which fills caches, the resident memory stands still."""
        work(COUNT // 10)
        gc.collect()
        before = resident()
        work(COUNT)
        gc.collect()
        self.assertLess(resident() - before, MOST)

    def test_seals_and_opens(self):
        key, text = KEYS[0], bytes(700)
        with sealer_of(key, Mode.PRIV) as sealer, opener_of(key, Mode.PRIV) as opener:
            def work(count):
                for size in range(count):
                    number = sealer.next
                    frame = sealer.seal(text[:size % 700], MICROS)
                    assert len(opener.unseal(frame, number, MICROS)) == size % 700
                    assert opener.open(frame, Demand(number=number)).number == number
            self.assert_still(work)

    def test_records(self):
        records = [Text(bytes(600)), Batch((bytes(300), bytes(290)))]
        with sealer_of(KEYS[0], Mode.SAFE) as sealer, receiver_of(KEYS[0], Mode.SAFE) as receiver:
            def work(count):
                for place in range(count // 2):
                    record = records[place % 2]
                    assert receiver.take(sealer.seal_record(record, MICROS), MICROS) == record
                for _ in range(count // 30):
                    frames = [sealer.seal_record(records[0], MICROS) for _ in range(9)]
                    assert receiver.take_many(frames, MICROS) == [records[0]] * 9
            self.assert_still(work)

    def test_peers(self):
        with peer_of(KEYS[1], Mode.PRIV) as near, \
                peer_of(KEYS[1], Mode.PRIV, here=SENDER, there=RECEIVER) as far:
            def work(count):
                for _ in range(count // 3):
                    frame = near.seal(bytes(600), MICROS)
                    assert far.open(frame, MICROS).number + 1 == far.numbers.expected
                    assert outcome(far.open, frame, MICROS) == Code.BADORDER
                    far.export()
                for _ in range(count // 30):
                    assert len(far.seal_many([bytes(600)] * 9, MICROS)) == 9
            self.assert_still(work)

    def test_refusals(self):
        with sealer_of(KEYS[1], Mode.PRIV) as sealer, opener_of(KEYS[1], Mode.PRIV) as opener:
            frame = sealer.seal(bytes(600), MICROS)

            def work(count):
                for _ in range(count // 2):
                    assert outcome(opener.unseal, frame, 8, MICROS) == Code.BADORDER
                    assert krbrelay.message_header(frame).etype == 18
            self.assert_still(work)

    def test_what_is_let_go_of(self):
        """No class is left out, and none keeps what its values had on the heap."""
        self.assertEqual(set(LET_GO), all_below(Turns))
        for kind, let_go in LET_GO.items():
            def work(count):
                for _ in range(count):
                    let_go()
            with self.subTest(kind.__name__):
                self.assert_still(work)

    def test_handles(self):
        def work(count):
            for place in range(count // 5):
                key, mode = KINDS[place % 4]
                with sealer_of(key, mode) as sealer:
                    sealer.wipe()
                opener_of(key, mode).unseal
                receiver_of(key, mode).free()
                peer_of(key, mode).free()
                try:
                    krbrelay.Sealer(17, bytes(15), mode=mode, sender=krbrelay.Address(2, b""),
                                    first=0)
                    raise AssertionError
                except ValueError:
                    continue
        self.assert_still(work)
