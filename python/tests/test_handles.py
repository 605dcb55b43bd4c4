"""How sealers, openers, receivers and peers live and end: none is copied, and none shows its key."""
import copy
import gc
import os
import pickle
import threading
import unittest
import weakref
from unittest import mock

from support import (
    KEYS, MICROS, SENDER, frame_of, opener_of, peer_of, receiver_of, sealer_of)

import krbrelay
from krbrelay import Closed, Freed, Mode, Sealer

MAKE = (sealer_of, opener_of, receiver_of, peer_of)
FRAME = frame_of(KEYS[0], Mode.PRIV, b"Dhi")


def calls_of(handle):
    """Each call that works on keys, by one that is made."""
    if isinstance(handle, Sealer):
        return [lambda: handle.seal(b""), lambda: handle.seal_record(Closed()),
                lambda: handle.seal_many([b""]), lambda: handle.next, lambda: handle.set_mode(Mode.SAFE)]
    if isinstance(handle, krbrelay.Opener):
        return [lambda: handle.unseal(FRAME, 7, MICROS), lambda: handle.open(FRAME)]
    if isinstance(handle, krbrelay.Peer):
        return [lambda: handle.open(FRAME, MICROS), lambda: handle.seal(b""),
                lambda: handle.seal_many([b""]), lambda: handle.numbers, handle.export]
    return [lambda: handle.take(FRAME, MICROS), lambda: handle.take_many([FRAME], MICROS),
            lambda: handle.state]


class Lives(unittest.TestCase):
    def test_a_freed_handle(self):
        for make in MAKE:
            handle = make(KEYS[0], Mode.PRIV)
            for call in calls_of(handle):
                call()
            handle.free()
            handle.free()
            for call in calls_of(handle):
                self.assertRaisesRegex(Freed, "holds nothing", call)
            if not isinstance(handle, (krbrelay.Receiver, krbrelay.Peer)):
                handle.wipe()

    def test_a_with_frees(self):
        for make in MAKE:
            with make(KEYS[0], Mode.PRIV) as handle:
                calls_of(handle)[0]()
            self.assertRaises(Freed, calls_of(handle)[0])
            with self.assertRaises(ZeroDivisionError):
                with make(KEYS[0], Mode.PRIV) as handle:
                    raise ZeroDivisionError
            self.assertRaises(Freed, calls_of(handle)[0])

    def test_a_lost_handle_is_freed(self):
        for make in MAKE:
            handle = make(KEYS[0], Mode.PRIV)
            struct, gone = handle._struct, weakref.ref(handle)
            self.assertTrue(struct.at)
            del handle
            gc.collect()
            self.assertIsNone(gone())
            self.assertIsNone(struct.at)

    def test_a_handle_that_was_not_made(self):
        for make in MAKE:
            kind = type(make(KEYS[0], Mode.PRIV))
            handle = kind.__new__(kind)
            for call in calls_of(handle):
                self.assertRaises(AttributeError, call)

    def test_no_copies(self):
        for make in MAKE:
            with make(KEYS[0], Mode.PRIV) as handle:
                for copies in (copy.copy, copy.deepcopy, pickle.dumps,
                               lambda it: pickle.dumps(it, 0)):
                    self.assertRaisesRegex(TypeError, "can't be copied or pickled", copies, handle)

    def test_refusals_can_be_pickled(self):
        with opener_of(KEYS[0], Mode.PRIV) as opener:
            with self.assertRaises(krbrelay.Refusal) as raised:
                opener.unseal(FRAME, 8, MICROS)
        again = pickle.loads(pickle.dumps(raised.exception))
        self.assertEqual((again.code, str(again)),
                         (krbrelay.Code.BADORDER, str(raised.exception)))

    def test_no_key_is_shown(self):
        for make in MAKE:
            with make(KEYS[1], Mode.PRIV) as handle:
                shown = repr(handle) + str(vars(handle))
                for key in (KEYS[1].hex(), repr(KEYS[1]), repr(list(KEYS[1]))):
                    self.assertNotIn(key, shown)

    def test_the_copy_of_a_key_is_overwritten(self):
        for fails in (False, True):
            copies = []
            real = krbrelay.handle._copy_of

            def kept(key):
                copies.append(real(key))
                return copies[-1]

            with mock.patch("krbrelay.handle._copy_of", kept):
                if fails:
                    self.assertRaises(ValueError, Sealer, 17, KEYS[1], mode=Mode.SAFE,
                                      sender=SENDER, first=7)
                else:
                    sealer_of(KEYS[1], Mode.SAFE).free()
            self.assertEqual([bytes(it) for it in copies], [bytes(32)])


class Threads(unittest.TestCase):
    COUNT, EACH = 8, 200

    def run_threads(self, work):
        faults = []

        def run(place):
            try:
                work(place)
            except BaseException as fault:
                faults.append(fault)

        threads = [threading.Thread(target=run, args=(place,)) for place in range(self.COUNT)]
        for it in threads:
            it.start()
        for it in threads:
            it.join()
        self.assertEqual(faults, [])

    def test_one_sealer_gives_each_number_once(self):
        found = [[] for _ in range(self.COUNT)]
        with sealer_of(KEYS[0], Mode.PRIV, 0) as sealer, opener_of(KEYS[0], Mode.PRIV) as opener:
            def work(place):
                for _ in range(self.EACH):
                    found[place].append(opener.open(sealer.seal(bytes([place]))))
            self.run_threads(work)
            self.assertEqual(sealer.next, self.COUNT * self.EACH)
        self.assertEqual(sorted(body.number for each in found for body in each),
                         list(range(self.COUNT * self.EACH)))
        for place, each in enumerate(found):
            numbers = [body.number for body in each]
            self.assertEqual(numbers, sorted(numbers))
            self.assertEqual({body.user_data for body in each}, {bytes([place])})

    def test_one_opener(self):
        with opener_of(KEYS[0], Mode.PRIV) as opener:
            def work(place):
                text = bytes([place]) * 1000
                frame = frame_of(KEYS[0], Mode.PRIV, text, place)
                for _ in range(self.EACH):
                    assert opener.unseal(frame, place, MICROS) == text
            self.run_threads(work)

    def test_freeing_while_others_seal(self):
        for _ in range(20):
            sealer = sealer_of(KEYS[0], Mode.PRIV)
            begun = threading.Barrier(self.COUNT)

            def work(place):
                begun.wait()
                if place == 0:
                    return sealer.free()
                try:
                    while True:
                        sealer.seal(bytes(5000))
                except Freed:
                    return None

            self.run_threads(work)

    def test_wiping_while_others_seal(self):
        with sealer_of(KEYS[0], Mode.PRIV) as sealer:
            def work(place):
                if place == 0:
                    return sealer.wipe()
                try:
                    while True:
                        sealer.seal(bytes(5000))
                except krbrelay.Wiped:
                    return None
            self.run_threads(work)

    def test_a_call_waits_for_the_lock(self):
        with sealer_of(KEYS[0], Mode.PRIV) as sealer:
            done = threading.Event()
            thread = threading.Thread(target=lambda: (sealer.seal(b""), done.set()))
            with sealer._lock:
                thread.start()
                self.assertFalse(done.wait(0.1))
            self.assertTrue(done.wait(10))
            thread.join()


@unittest.skipUnless(hasattr(os, "fork"), "there is no fork here")
class Forks(unittest.TestCase):
    def status_of_child(self, work):
        child = os.fork()
        if child == 0:
            status = 1
            try:
                status = work()
            finally:
                os._exit(status)
        return os.waitstatus_to_exitcode(os.waitpid(child, 0)[1])

    def test_a_child_can_not_use_its_parents_handles(self):
        for make in MAKE:
            with make(KEYS[0], Mode.PRIV) as handle:
                def work():
                    for call in calls_of(handle):
                        try:
                            call()
                            return 2
                        except RuntimeError:
                            continue
                    handle.free()
                    with sealer_of(KEYS[0], Mode.PRIV) as own:
                        own.seal(b"")
                    return 7
                self.assertEqual(self.status_of_child(work), 7)
                calls_of(handle)[0]()

    def test_a_lock_that_another_thread_held(self):
        with sealer_of(KEYS[0], Mode.PRIV) as sealer:
            held, done = threading.Event(), threading.Event()

            def hold():
                with sealer._lock:
                    held.set()
                    done.wait(10)

            thread = threading.Thread(target=hold)
            thread.start()
            held.wait()

            def work():
                try:
                    sealer.seal(b"")
                except RuntimeError:
                    sealer.free()
                    return 7
                return 2
            self.assertEqual(self.status_of_child(work), 7)
            done.set()
            thread.join()
            sealer.seal(b"")
