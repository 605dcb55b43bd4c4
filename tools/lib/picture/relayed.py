"""The outcome of each frame of a job, from what `krbrelay relay` printed.

The log is a list of lines in rounds: the first frame of each lane, then the second of each, and so
on. A frame that is accepted has a line for each text that it carries, any other frame has one line.
An accepted frame carries the record of its number, and texts are delivered in order (README.md), so
each line belongs to one frame. Lines that don't fit the job are a Fault.
"""
import dataclasses
import itertools

from lib import log_lines

# tables/limits.toml: limits, by tools/tables
# The last sequence number (RFC 4120 section 5.2.4, UInt32).
LAST = 4_294_967_295
# The most bytes of a batch after its first byte: of each text its length and four.
MOST_TEXTS_BYTES = 1_000_000
# end of limits


class Fault(Exception):
    """Lines that don't fit the job."""


@dataclasses.dataclass
class Frame:
    """A sealed frame; the close has no texts."""
    place: int
    number: int
    texts: tuple

    def is_close(self):
        return not self.texts


@dataclasses.dataclass
class Emission:
    """One item that the wire carries, and its outcome."""
    kind: str               # frame, flip or raw
    frame: Frame = None
    at: int = 0
    mask: str = ""
    raw: bytes = b""
    was_sent: bool = False      # the same frame was on this wire before, unchanged
    was_shown: bool = False     # or changed
    texts: tuple = ()           # delivered
    closed: bool = False
    refusal: tuple = None       # its number and its name


@dataclasses.dataclass
class Lane:
    place: int
    sender: dict            # its keys in the job
    frames: list
    emissions: list
    sealed: int = 0
    ending: str = ""
    state: str = ""

    def unsent(self):
        """The frames that the wire never carries."""
        sent = {it.frame.place for it in self.emissions if it.frame}
        return [it for it in self.frames if it.place not in sent]


# ---- what the job says

def groups(texts, most):
    """The texts of each frame: as many as go together, up to `most`, but one at least."""
    found = []
    for text in texts:
        size = sum(4 + len(it) for it in found[-1]) + 4 + len(text) if found else 0
        if found and len(found[-1]) < most and size <= MOST_TEXTS_BYTES:
            found[-1].append(text)
        else:
            found.append([text])
    return found


def frames_of(sender):
    """The frames that a sender seals, the close last. The last number is kept for the close."""
    first = sender["first"]
    texts = groups([bytes.fromhex(it) for it in sender["texts"]], sender.get("batch", 1))
    records = [tuple(it) for it in texts[:LAST - first]] + [()]
    return [Frame(place, first + place, it) for place, it in enumerate(records)]


def emission(words, frames):
    """One emission of a plan."""
    kind, _, rest = words.partition(" ")
    if kind == "raw":
        return Emission("raw", raw=bytes.fromhex(rest))
    if kind == "flip":
        place, at, mask = rest.split(" ")
        return Emission("flip", frames[int(place)], int(at), mask)
    return Emission("frame", frames[int(kind)])


def lane_of(place, sender):
    frames = frames_of(sender)
    plan = sender.get("plan", [str(it.place) for it in frames])
    emissions = [emission(it, frames) for it in plan]
    sent, shown = set(), set()
    for it in emissions:
        if it.frame:
            it.was_sent = it.kind == "frame" and it.frame.place in sent
            it.was_shown = it.frame.place in shown
            shown.add(it.frame.place)
            if it.kind == "frame":
                sent.add(it.frame.place)
    return Lane(place, sender, frames, emissions)


# ---- what the program says

def settle(lane, entries):
    """Gives each emission of a lane the entries that are its own."""
    following, demanded = iter(entries), 0
    for it in lane.emissions:
        entry = next(following, None)
        if entry is None:
            raise Fault(f"lane {lane.place} has fewer lines than frames")
        if entry["event"] == "refused":
            it.refusal = entry["code"], entry["name"]
            continue
        record = lane.frames[demanded].texts if demanded < len(lane.frames) else ()
        more = [next(following, {}) for _ in record[1:]]
        told = [entry, *more] if entry["event"] == "text" else []
        it.texts = tuple(bytes.fromhex(one.get("text", "")) for one in told if one)
        it.closed = entry["event"] == "closed"
        if it.texts != record:
            raise Fault(f"lane {lane.place} delivered another record than that of frame {demanded}")
        demanded += 1
    if next(following, None) is not None:
        raise Fault(f"lane {lane.place} has more lines than frames")


def in_rounds(lanes):
    """The entries of the log, as the emissions have them: round by round, lane by lane."""
    for row in itertools.zip_longest(*(it.emissions for it in lanes)):
        for lane, it in zip(lanes, row):
            if it is not None and it.refusal:
                yield dict(lane=lane.place, event="refused", code=it.refusal[0], name=it.refusal[1])
            elif it is not None and it.closed:
                yield dict(lane=lane.place, event="closed")
            elif it is not None:
                yield from (dict(lane=lane.place, event="text", text=text.hex())
                            for text in it.texts)


def events_of(output):
    try:
        return [log_lines.event(line) for line in output.splitlines()]
    except log_lines.Fault as fault:
        raise Fault(str(fault)) from None


def follow(job, output):
    """The lanes of a job, with the outcome of each of their emissions."""
    lanes = [lane_of(place, sender) for place, sender in enumerate(job["sender"])]
    events = events_of(output)
    entries, ends = events[:len(events) - len(lanes)], events[len(events) - len(lanes):]
    if any(it["event"] not in ("text", "closed", "refused") for it in entries):
        raise Fault("a line is none of the log")
    for lane in lanes:
        settle(lane, [it for it in entries if it["lane"] == lane.place])
    if list(in_rounds(lanes)) != entries:
        raise Fault("the lines don't come in rounds")
    for lane, it in zip(lanes, ends):
        if it["event"] != "sent" or it["lane"] != lane.place:
            raise Fault(f"lane {lane.place} has no last line")
        lane.sealed, lane.ending, lane.state = it["sealed"], it["ending"], it["state"]
    return lanes
