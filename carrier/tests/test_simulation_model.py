"""The ends of the Python package, by the C library, and a model of krb_engine's definitions: over drawn calls, also
those that no carrier makes, they answer and become the same, and a model with a planted fault doesn't."""
import functools
import os
import sys

import pytest
from hypothesis import HealthCheck, given, settings, strategies

TOP = os.path.dirname(os.path.dirname(os.path.dirname(os.path.abspath(__file__))))
sys.path[:0] = [os.path.join(TOP, "carrier", "simulation"), os.path.join(TOP, "python")]
import model  # noqa: E402
from krbrelay import engine  # noqa: E402
from krbrelay.engine import Asks, Publish, Receipt, Row, Spot, Stored  # noqa: E402

EXAMPLES, CALLS = 80, 80
DIGESTS = bytes(20), bytes([1]) * 20
LATEST = 2**63          # a time, or a number, that few programs reach


# ---- all that a proved end is, by the model's names

def pause_of(struct):
    return model.Pause(struct.since, struct.length)


def sending(end):
    it = end._struct
    return {**{name: getattr(it.progress, name) for name in ("next", "carried", "at", "sent")},
            **{name: getattr(it, name) for name in ("done", "list", "recovers", "window")},
            **{name: getattr(end, name) for name in ("stored", "under_way", "sealing_room", "is_settled", "stands")},
            "ask": pause_of(it.ask) if it.is_asked else None, "again": pause_of(it.again), "probe": pause_of(it.probe),
            "is_held": bool(it.is_held), "is_answered": bool(it.is_answered), "ended": it.ended or None}


def receiving(end):
    it = end._struct
    return {"row": end.row, "drafted": end.drafted, "is_open": bool(it.is_open), "owed": it.owed or None,
            "paid": pause_of(it.paid)}


SEEN = {"Sending": sending, "Receiving": receiving, "Queue": lambda end: {"size": len(end)},
        "Reading": lambda end: {"spot": end.spot, "read": end.read, "is_open": bool(end._struct.is_open)},
        "Flow": lambda end: {"list": end.list, "room": end.room, "under_way": end.under_way}}


class Both:
    """A model and its proved end: both get each call."""

    def __init__(self, kind, *words):
        self._model, self._proved, self._seen = getattr(model, kind)(*words), getattr(engine, kind)(*words), SEEN[kind]
        self._compare("the beginning")

    def _compare(self, after):
        theirs = self._seen(self._proved)
        mine = {name: getattr(self._model, name) for name in theirs}
        assert mine == theirs, f"after {after}, of model and engine"

    def __getattr__(self, name):
        theirs = getattr(self._proved, name)
        return functools.partial(self._call, name) if callable(theirs) else theirs

    def _call(self, name, *words, **named):
        mine, theirs = (getattr(it, name)(*words, **named) for it in (self._model, self._proved))
        assert mine == theirs, f"what {name} answers, of model and engine"
        self._compare(name)
        return theirs

    def show(self, list_now):
        """Of a shard at a sender, whose list the caller sets."""
        self._model.list = self._proved.list = list_now
        self._compare("another list")


# ---- drawn calls: whatever happens, in any order

def begins(rng):
    """Where numbers or times begin: mostly low."""
    return rng.choice((0, 0, 0, rng.randrange(100), LATEST))


def call_sending(rng, end, now):
    it, what = end.stored, rng.randrange(9)
    if what == 0:
        end.sealed(rng.choice((rng.randrange(20), rng.randrange(400))))
    elif what == 1:
        end.confirmed(it.carried + rng.choice((0, 0, 0, 1)), it.at + rng.randrange(4), now)
    elif what == 2:
        end.listed(it.list + rng.choice((0, 0, 1)))
    elif what == 3 and rng.random() < 0.3:
        end.reconnected()
    elif what in (3, 4):
        number = rng.choice((it.done, it.carried, rng.randint(0, it.next), it.next + 1))
        own = DIGESTS[rng.random() < 0.03]
        end.receipt(Receipt(number, DIGESTS[0], rng.choice(list(Asks))), own, now)
    else:
        serve(rng, end, now)


def serve(rng, end, now):
    """A service, and mostly a confirmation of what leaves."""
    command = end.serve(rng.choice((0, 3, 256)), now)
    if isinstance(command, Publish) and rng.random() < 0.7:
        for number in range(command.number, command.number + command.count):
            end.confirmed(number, end.stored.at + 1, now)


def draw_sending(rng):
    now, first = begins(rng), begins(rng)
    done = first + rng.randrange(5)
    carried = done + rng.randrange(5)
    end = Both("Sending", Stored(carried + rng.randrange(20), carried, rng.randrange(9), done, 5), now)
    for _ in range(CALLS):
        now += rng.choice((0, 1, 500, 5_000, 70_000))
        call_sending(rng, end, now)


def draw_receiving(rng):
    now, number = begins(rng), begins(rng)
    end = Both("Receiving", Row(number, DIGESTS[0], rng.random() < 0.05), now)
    for _ in range(CALLS):
        now += rng.choice((0, 1, 150, 300))
        demanded, what = end.drafted.number, rng.randrange(8)
        if what < 4:
            opened = rng.choice((None, max(0, demanded - 1), demanded, demanded + 1))
            end.take(rng.randbytes(rng.randrange(40)), accepted=rng.random() < 0.4, is_close=rng.random() < 0.03,
                     opened=opened)
        elif what == 4:
            end.stored()
        elif what == 5:
            end.dropped()
        else:
            end.receipt(now)


def draw_reading(rng):
    end = Both("Reading", Spot(rng.randrange(3), begins(rng)))
    for _ in range(CALLS):
        name, offset = end.read
        if rng.random() < 0.4:
            end.stored()
        else:
            last = rng.choice((max(0, offset - 2), offset, offset + 5))
            end.frames(rng.choice((name, name, name, name + 1)), last, rng.randrange(4))


def draw_queue(rng):
    queue = Both("Queue")
    for _ in range(CALLS):
        if rng.random() < 0.6:
            queue.ready(rng.choice((rng.randrange(9), rng.randrange(3_000))))
        else:
            queue.serve()


def draw_flow(rng):
    flow, sessions = Both("Flow"), [0] * 5
    for _ in range(CALLS):
        place = rng.randrange(5)
        flow.moved(sessions[place], now := rng.choice((0, rng.randrange(16), rng.randrange(800))))
        sessions[place] = now
        if rng.random() < 0.2:
            flow.show(rng.choice((None, rng.randrange(9))))
        assert flow.room == (0 if flow.list is None else max(0, 2_048 - sum(sessions)))


DRAWS = draw_sending, draw_receiving, draw_reading, draw_queue, draw_flow


def over_examples(draw):
    """Draws the same calls each time; of those that fail, as few as still do are told."""
    @settings(derandomize=True, max_examples=EXAMPLES, deadline=None, database=None, suppress_health_check=list(HealthCheck))
    @given(strategies.randoms(use_true_random=False))
    def drawn(rng):
        draw(rng)
    drawn()


@pytest.mark.parametrize("draw", DRAWS)
def test_the_model_is_the_engine_over_drawn_calls(draw):
    over_examples(draw)


@pytest.mark.parametrize("plant", model.PLANTS)
def test_a_planted_model_is_not(plant, monkeypatch):
    """So the comparison sees each fault."""
    monkeypatch.setattr(model, "planted", plant)
    with pytest.raises(AssertionError, match="of model and engine"):
        for draw in DRAWS:
            over_examples(draw)
