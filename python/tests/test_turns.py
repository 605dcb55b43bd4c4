"""Calls come one after another, whichever thread makes them: one that comes in between, as of a
signal handler or a __del__, is a RuntimeError or is made wholly before or after."""
import copy
import pickle
import signal
import sys
import threading
import unittest

from support import KEYS, MICROS, SENDER, frame_of, opener_of, peer_of, receiver_of, sealer_of

import krbrelay
from krbrelay import Freed, History, Mode, Refusal, Text, Window, engine

KEY, PACKAGE = KEYS[1], krbrelay.__path__[0]
FRAMES = [frame_of(KEY, Mode.PRIV, b"Dhi", number) for number in (7, 8)]
SEALS = (lambda it: it.seal(b"outer", MICROS), lambda it: it.seal(bytes(2_000), MICROS),
         lambda it: it.seal_many([b"outer", b"too"], MICROS))
TAKES = ((lambda: receiver_of(KEY, Mode.PRIV), lambda it: it.take(FRAMES[0], MICROS)),
         (lambda: peer_of(KEY, Mode.PRIV), lambda it: it.open(FRAMES[0], MICROS)))
OF_SEALER = (*SEALS, lambda it: it.seal_record(Text(b"outer"), MICROS))


def interrupted(call, at, inner):
    """What a call returns in which another one is made before its instruction `at` in the package,
    or None if it has fewer."""
    left, inside = [at], []

    def trace(frame, event, _):
        frame.f_trace_opcodes = frame.f_code.co_filename.startswith(PACKAGE)
        if event == "opcode" and frame.f_trace_opcodes:
            left[0] -= 1
            if left[0] == -1:
                sys.settrace(None)
                inside.append(outcome(inner))
        return trace

    sys.settrace(trace)
    try:
        found = outcome(call)
    finally:
        sys.settrace(None)
    return (found, inside[0]) if inside else None


def outcome(call):
    try:
        return call()
    except (RuntimeError, Refusal, Freed) as raised:
        return raised


def each_interruption(make, call, inner):
    at = 0
    while True:
        handle = make()
        found = interrupted(lambda: call(handle), at, lambda: inner(handle))
        if found is None:
            return
        yield handle, *found
        at += 1


class WithinACall(unittest.TestCase):
    """A call of the same thread comes before each instruction of another one."""

    def opened(self, frames):
        frames = [it for each in frames for it in (each if isinstance(each, list) else [each])
                  if not isinstance(it, RuntimeError)]
        with opener_of(KEY, Mode.PRIV) as opener:
            return [opener.open(it) for it in frames]

    def test_seals(self):
        for make, calls in ((lambda: sealer_of(KEY, Mode.PRIV), OF_SEALER),
                            (lambda: peer_of(KEY, Mode.PRIV, here=SENDER), SEALS)):
            for call in calls:
                refused = 0
                for handle, outer, inner in each_interruption(
                        make, call, lambda it: it.seal(b"inner", MICROS + 5)):
                    bodies, alone = self.opened([outer, inner]), self.opened([call(make())])
                    mine, others = bodies[:len(alone)], bodies[len(alone):]
                    self.assertEqual([(it.user_data, it.moment) for it in mine],
                                     [(it.user_data, it.moment) for it in alone])
                    self.assertEqual(len({it.number for it in bodies}), len(bodies))
                    self.assertTrue(all(it.user_data == b"inner" for it in others))
                    refused += isinstance(inner, RuntimeError)
                self.assertGreater(refused, 10)

    def test_a_mode_is_set(self):
        def make():
            return sealer_of(KEY, Mode.SAFE)
        for call in SEALS:
            for _, outer, _ in each_interruption(make, call, lambda it: it.set_mode(Mode.PRIV)):
                for frame in (outer if isinstance(outer, list) else [outer]):
                    with sealer_of(KEY, Mode.PRIV) as zeros:
                        self.assertNotEqual(frame, zeros.seal(b"outer", MICROS, bytes(16)))

    def test_opens(self):
        for make, call in TAKES:
            for handle, outer, inner in each_interruption(make, call, call):
                took = [it for it in (outer, inner) if not isinstance(it, Exception)]
                self.assertEqual((len(took), getattr(took[0], "data", b"Dhi")[-2:]), (1, b"hi"))
        for handle, outer, inner in each_interruption(
                lambda: receiver_of(KEY, Mode.PRIV), lambda it: it.take_many(FRAMES, MICROS),
                lambda it: it.take(FRAMES[0], MICROS)):
            took = [it for it in (*outer, inner) if isinstance(it, Text)]
            self.assertEqual((took, handle.state.expected), ([Text(b"hi")] * 2, 9))

    def test_a_handle_is_freed(self):
        for make, call in ((lambda: sealer_of(KEY, Mode.PRIV), SEALS[0]), *TAKES):
            for handle, outer, inner in each_interruption(make, call, lambda it: it.free()):
                self.assertEqual(isinstance(outer, Freed), inner is None and not done(outer))
                handle.free()
                self.assertRaises(Freed, call, handle)

    def test_a_signal_handler(self):
        with sealer_of(KEY, Mode.PRIV, 0) as sealer, opener_of(KEY, Mode.PRIV) as opener:
            beats, kept = [], signal.signal(
                signal.SIGALRM, lambda *_: beats.append(outcome(lambda: sealer.seal(b"beat"))))
            signal.setitimer(signal.ITIMER_REAL, 0.0005, 0.0005)
            try:
                texts = [b"text %d" % it for it in range(20_000)]
                frames = [(it, sealer.seal(it)) for it in texts]
            finally:
                signal.setitimer(signal.ITIMER_REAL, 0)
                signal.signal(signal.SIGALRM, kept)
            self.assertEqual([opener.open(it).user_data for _, it in frames], texts)
            self.assertTrue(any(isinstance(it, RuntimeError) for it in beats))


def done(outer):
    return not isinstance(outer, Exception)


def values():
    """One of each value that isn't a handle."""
    return (engine.Sending(engine.Stored(0, 0, 0, 0, 1), 0), engine.Receiving(engine.Row(5), 0),
            engine.Reading(engine.Spot(1, 0)), engine.Flow(), engine.Pause(1, 0), engine.Queue(),
            Window(0), History())


class Values(unittest.TestCase):
    def test_none_is_copied(self):
        for value in values():
            for copies in (copy.copy, copy.deepcopy, pickle.dumps):
                self.assertRaisesRegex(TypeError, "can't be copied or pickled", copies, value)

    def test_threads_lose_no_call(self):
        each, count = 10_000, 4
        sending, reading = values()[0], values()[2]
        taken, window = [0] * count, Window(0)
        numbers = [[] for _ in range(count)]

        def work(place):
            for number in range(each):
                sending.sealed(1)
                taken[place] += reading.frames(1, 2**40, 1) is engine.Read.TAKE
                reading.stored()
                if not isinstance(outcome(lambda: window.take(number)), Refusal):
                    numbers[place].append(number)

        self.run_threads(work, count)
        self.assertEqual(sending.stored.next, each * count)
        self.assertEqual(reading.read.offset, sum(taken))
        self.assertEqual(len({it for each in numbers for it in each}), sum(map(len, numbers)))

    def run_threads(self, work, count):
        kept = sys.getswitchinterval()
        sys.setswitchinterval(1e-6)
        threads = [threading.Thread(target=work, args=(place,)) for place in range(count)]
        for it in threads:
            it.start()
        for it in threads:
            it.join()
        sys.setswitchinterval(kept)

    def test_a_call_within_a_call(self):
        def make():
            return engine.Sending(engine.Stored(0, 0, 0, 0, 1), 0)
        for sending, outer, inner in each_interruption(
                make, lambda it: it.sealed(1), lambda it: it.sealed(1)):
            self.assertEqual(sending.stored.next, 2 - isinstance(inner, RuntimeError))
            self.assertIsNone(outer)


if __name__ == "__main__":
    unittest.main()
