"""The verdicts of evidence.py: each way in which a session may stand, and what is near it and is a fault."""
import collections

import pytest
from evidence import DOWN, FAULT, LOST, Sending, Shard, verdict

# Of a session of which frames 1 to 3 were confirmed at 5, 6 and 9, and 2 is gone.
SHOWN = {"sealed": 5, "carried": 4, "takes": True, "places": {1: [5], 3: [9]},
         "confirmed": {1: {(7, 5)}, 2: {(7, 6)}, 3: {(7, 9)}}}
VERDICTS = {
    "a frame that was confirmed is gone": (LOST, {}),
    "it stands elsewhere in its stream": (FAULT, {"places": {1: [5], 2: [8], 3: [9]}}),
    "it wasn't confirmed": (FAULT, {"confirmed": {1: {(7, 5)}, 3: {(7, 9)}}}),
    "it was confirmed before the one before": (FAULT, {"confirmed": {1: {(7, 5)}, 2: {(7, 4)}, 3: {(7, 9)}}}),
    "it was confirmed in a list made later": (LOST, {"confirmed": {1: {(7, 5)}, 2: {(8, 1)}, 3: {(8, 2)}}}),
    "a later one was dropped and not confirmed": (FAULT, {"confirmed": {1: {(7, 5)}, 2: {(7, 6)}}}),
    "it waits at its sender, and the shard takes frames": (FAULT, {"carried": 2}),
    "it waits at its sender, and the shard takes none": (DOWN, {"carried": 2, "takes": False}),
    "its stream can't be read, and takes none": (DOWN, {"places": None, "takes": False}),
    "its stream can't be read, and takes frames": (FAULT, {"places": None}),
    "it isn't confirmed, and the shard is down":
        (FAULT, {"places": None, "takes": False, "confirmed": {1: {(7, 5)}, 3: {(7, 9)}}}),
}


@pytest.mark.parametrize("wanted, changed", VERDICTS.values(), ids=VERDICTS)
def test_verdict(wanted, changed):
    given = SHOWN | changed
    places = given["places"]
    if places is not None:
        places = collections.defaultdict(lambda: collections.defaultdict(list), {
            "tom": collections.defaultdict(list, places)})
    sending = Sending(1, given["sealed"], given["carried"], given["carried"], given["sealed"] - given["carried"], 0, 0)
    told, why = verdict("tom", 2, sending, Shard(given["takes"], places, {6: "ann 4"}), given["confirmed"])
    assert told == wanted, why


@pytest.mark.parametrize("what, sending, wanted", [
    ("two texts and the close wait", Sending(1, 4, 3, 3, 1, 2, 1), True),
    ("all are sealed", Sending(1, 7, 7, 7, 0, 0, 0), True),
    ("two frames wait for a receipt", Sending(1, 7, 7, 5, 2, 0, 0), True),
    ("a text is away", Sending(1, 4, 3, 3, 1, 1, 1), False),
    ("the close is away", Sending(1, 6, 6, 6, 0, 0, 0), False),
    ("a frame is away", Sending(1, 4, 3, 3, 0, 2, 1), False),
    ("a frame that has no receipt is away", Sending(1, 7, 7, 5, 1, 0, 0), False)])
def test_of_five_texts(what, sending, wanted):
    assert sending.accounts_for(5) == wanted, what
