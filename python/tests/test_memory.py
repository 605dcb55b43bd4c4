"""Memory that is refused to Python: each call raises MemoryError, and then the handle is as it was,
or `fetch` has what the call would have returned."""
import unittest

from support import (
    CONFOUNDER, KEYS, MICROS, SENDER, frame_of, opener_of, peer_of, receiver_of, sealer_of)

from krbrelay import Body, Mode, Text, message_header
from krbrelay.engine import Flow, Pause, Reading, Row, Receiving, Sending, Spot, Stored
from krbrelay.window import Window

try:
    import _testcapi
except ImportError:
    _testcapi = None

KEY = KEYS[0]
FRAMES = [frame_of(KEY, Mode.PRIV, b"D" + b"y" * 600, number) for number in range(7, 23)]
TEXTS = [b"z" * 600] * 16


def texts_of(made):
    """What was sealed or opened, whatever it was sealed under."""
    if isinstance(made, list):
        return [texts_of(it) for it in made]
    if isinstance(made, (Text, Body)):
        return made
    with opener_of(KEY, Mode.PRIV) as opener:
        return opener.open(made)


def new_sealer():
    return sealer_of(KEY, Mode.PRIV)


def new_peer():
    return peer_of(KEY, Mode.PRIV)


def new_receiver():
    return receiver_of(KEY, Mode.PRIV)


# of a handle: how it is made, the call, and what shows its state
CALLS = (
    (new_sealer, lambda it: it.seal(b"z" * 900, MICROS, CONFOUNDER), lambda it: it.next),
    (new_sealer, lambda it: it.seal(b"z" * 9_000, MICROS), lambda it: it.next),
    (new_sealer, lambda it: it.seal_record(Text(b"z"), MICROS), lambda it: it.next),
    (new_sealer, lambda it: it.seal_many(TEXTS, MICROS), lambda it: it.next),
    (new_receiver, lambda it: it.take(FRAMES[0], MICROS), lambda it: it.state),
    (new_receiver, lambda it: it.take_many(FRAMES, MICROS), lambda it: it.state),
    (lambda: peer_of(KEY, Mode.PRIV, here=SENDER), lambda it: it.seal(b"z", MICROS), lambda it: it.numbers),
    (lambda: peer_of(KEY, Mode.PRIV, here=SENDER), lambda it: it.seal_many(TEXTS, MICROS),
     lambda it: it.numbers),
    (new_peer, lambda it: it.open(FRAMES[0], MICROS), lambda it: it.numbers),
)
# calls that return no number's message, and of values without keys
OTHERS = (
    (lambda: opener_of(KEY, Mode.PRIV), lambda it: it.unseal(FRAMES[0], 7, MICROS)),
    (lambda: opener_of(KEY, Mode.PRIV), lambda it: it.open(FRAMES[0])),
    (lambda: FRAMES[0], message_header),
    (lambda: Window(0), lambda it: it.take(5)),
    (lambda: Sending(Stored(9, 0, 0, 0, 1), 0), lambda it: it.serve(256, 1_000)),
    (lambda: Receiving(Row(5), 0), lambda it: it.take(FRAMES[0], accepted=True)),
    (lambda: Reading(Spot(1, 0)), lambda it: it.frames(1, 2**40, 1)),
    (Flow, lambda it: it.moved(0, 1)),
    (lambda: 1_000, lambda it: Pause(it, it).end),
)


def refused(call, handle, at, is_one):
    """The type of the exception of a call whose allocation `at`, and unless it is that one alone each after it,
    is refused; or None."""
    raised = None
    _testcapi.set_nomemory(at, at + 1 if is_one else 0)
    try:
        call(handle)
    except BaseException as exception:
        raised = type(exception)    # alone: its frames would keep it, and few are made beforehand
    finally:
        _testcapi.remove_mem_hooks()
    return raised


@unittest.skipUnless(_testcapi, "this interpreter has no _testcapi")
class Refused(unittest.TestCase):
    def each_refusal(self, make, call):
        call(make())
        for is_one in (True, False):
            at = 0
            while True:
                handle = make()
                raised = refused(call, handle, at, is_one)
                if raised is None:
                    break
                self.assertIs(raised, MemoryError, (at, is_one))
                yield handle
                at += 1
            self.assertGreater(at, 2)

    def test_calls_that_move_a_number(self):
        fetched = 0
        for make, call, state in CALLS:
            expected, before, after = texts_of(call(make())), state(make()), None
            for handle in self.each_refusal(make, call):
                found = handle.fetch()
                fetched += found is not None
                if found is None:
                    self.assertEqual(state(handle), before)
                    found = call(handle)
                self.assertEqual(texts_of(found), expected)
                after = after or state(handle)
                self.assertEqual((state(handle), handle.fetch()), (after, None))
        self.assertGreater(fetched, 100)

    def test_other_calls(self):
        for make, call in OTHERS:
            for value in self.each_refusal(make, call):
                call(value)


class Fetching(unittest.TestCase):
    def test_nothing_is_kept_of_a_call_that_returned_or_was_refused(self):
        with new_sealer() as sealer, new_receiver() as receiver, new_peer() as peer:
            sealer.seal(b"a", MICROS)
            sealer.seal_many(TEXTS, MICROS)
            receiver.take_many([FRAMES[1], FRAMES[0]], MICROS)
            self.assertRaises(Exception, receiver.take, FRAMES[0], MICROS)
            self.assertRaises(Exception, peer.open, FRAMES[5], MICROS)
            self.assertEqual([it.fetch() for it in (sealer, receiver, peer)], [None] * 3)

    def test_an_exception_of_a_signal_handler(self):
        """As if it came right after the library's work."""
        with new_sealer() as sealer:
            real = sealer._seal

            def interrupted(*arguments):
                real(*arguments)
                raise KeyboardInterrupt
            sealer._seal = interrupted
            self.assertRaises(KeyboardInterrupt, sealer.seal, b"text", MICROS)
            self.assertEqual(texts_of(sealer.fetch()).user_data, b"text")
            self.assertEqual((sealer.next, sealer.fetch()), (8, None))


if __name__ == "__main__":
    unittest.main()
