"""A model of krb_engine, which is compared with the proved ends: it isn't proved, and nothing ships it.

Each function is what the definition of its name in crates/krb_engine/specs says, and the classes have the
names and calls of krbrelay.engine, with which carrier/tests/test_simulation_model.py compares them. PLANTS are faults,
of which the comparison has to find each: `planted` is one of them, or "".
"""
import dataclasses
import hashlib
from typing import Optional

from krbrelay.engine import (
    NEVER, Asks, Command, Ended, Heard, Idle, Outcome, Probe, Publish, Read, Receipt, Row, Spot, Stands, Stored, Wake)

PLANTS = ("confirmations delete", "digests aren't compared", "receipts before the commit",
          "what was dropped stays", "no probes", "asks aren't heeded",
          "a list that was cut off is waited for", "last in, first out")
WINDOW, WINDOW_MOST, SERVICE, UNDER_WAY = 16, 256, 16, 2_048
AGAIN, AGAIN_MOST = 2_000, 64_000
PROBE, PROBE_MOST = 5_000, 960_000
ASK, ASK_MOST = 4_000, 64_000
ROOM = 2_000
RECEIPT = 200
TAG = 12                # bytes of a frame that a digest is of
planted = ""


@dataclasses.dataclass
class Pause:
    since: int
    length: int

    def is_over(self, now: int) -> bool:
        return self.since + self.length <= now

    def end(self) -> int:
        return min(self.since + self.length, NEVER)

    def grow(self, cap: int, now: int) -> None:
        self.since, self.length = now, min(2 * self.length, cap)


class Queue:
    """Sessions that wait, each once, first in and first out."""

    def __init__(self) -> None:
        self.order: list[int] = []

    def ready(self, session: int) -> None:
        if session not in self.order:
            self.order.append(session)

    def serve(self) -> Optional[int]:
        place = -1 if planted == "last in, first out" else 0
        return self.order.pop(place) if self.order else None

    @property
    def size(self) -> int:
        return len(self.order)


class Flow:
    """A shard at a sender."""

    def __init__(self) -> None:
        self.list: Optional[int] = None
        self.under_way = 0

    @property
    def room(self) -> int:
        return 0 if self.list is None else max(0, UNDER_WAY - self.under_way)

    def moved(self, before: int, after: int) -> None:
        self.under_way += after - before


class Sending:
    """One session's end at a sender."""

    def __init__(self, stored: Stored, now: int) -> None:
        self.next, self.carried, self.at, self.done, self.list = stored
        self.sent = self.carried
        self.recovers, self.window = self.done, WINDOW
        self.ask: Optional[Pause] = None
        self.ended: Optional[Ended] = None
        self.is_held = self.is_answered = False
        self.again, self.probe = Pause(now, AGAIN), Pause(now, PROBE)

    def begin_again(self) -> None:
        self.carried = self.sent = self.done
        self.at = 0

    def sealed(self, count: int) -> None:
        self.next += count

    def confirmed(self, number: int, offset: int, now: int) -> bool:
        if number != self.carried or self.carried >= self.next or offset <= self.at:
            return False
        if self.carried == self.done:
            self.probe = Pause(now, PROBE)
        if self.done >= self.recovers:
            self.window = min(self.window + 1, WINDOW_MOST)
        self.carried, self.at = self.carried + 1, offset
        self.sent = max(self.sent, self.carried)
        self.again = Pause(now, AGAIN)
        if planted == "confirmations delete":
            self.done = self.carried
        return True

    def listed(self, list_now: int) -> bool:
        if list_now == self.list:
            return False
        self.begin_again()
        self.list = list_now
        return True

    def reconnected(self) -> None:
        self.sent = self.carried

    def receipt(self, receipt: Receipt, own: bytes, now: int) -> Heard:
        if self.ended:
            return Heard.NOTHING
        heard = self.find(receipt, own, now)
        if self.is_asked(receipt, now):
            self.heed(receipt.asks, now)
        elif receipt.asks == Asks.REFUSED and receipt.number == self.done < self.next and not self.ended:
            self.is_held = True
        return heard

    def find(self, receipt: Receipt, own: bytes, now: int) -> Heard:
        if receipt.number <= self.done:
            return Heard.NOTHING
        if receipt.number > self.next:
            self.ended = Ended.OLDER
        elif own != receipt.history and planted != "digests aren't compared":
            self.ended = Ended.FORKED
        if self.ended:
            self.sent = self.carried
            return Heard.ENDED
        self.settle(receipt.number, now)
        return Heard.DELIVERED

    def settle(self, number: int, now: int) -> None:
        if number > self.carried:
            self.carried = self.sent = number
            self.at = 0
        self.done, self.window = number, min(2 * self.window, WINDOW_MOST)
        self.ask, self.is_held, self.is_answered = None, False, True
        self.probe = Pause(now, PROBE)

    def is_asked(self, receipt: Receipt, now: int) -> bool:
        return receipt.asks != Asks.NOTHING and receipt.number == self.done and self.done < self.carried \
            and not self.ended and (self.ask is None or self.ask.is_over(now)) \
            and planted != "asks aren't heeded"

    def heed(self, asks: Asks, now: int) -> None:
        self.recovers, self.window = max(self.recovers, self.carried), 1
        if self.ask is None:
            self.ask = Pause(now, ASK)
        else:
            self.ask.grow(ASK_MOST, now)
        self.is_held = asks == Asks.REFUSED
        self.begin_again()

    def serve(self, room: int, now: int) -> Command:
        if self.carried < self.sent and self.again.is_over(now):
            self.sent, self.window = self.carried, min(self.window, WINDOW)
            self.again.grow(AGAIN_MOST, now)
        if self.is_settled:
            return Idle()
        count = self.batch(room)
        if count > 0 and (not self.is_held or self.ask is None or self.ask.is_over(now)):
            return self.publish(count, now)
        if self.done < self.carried and self.probe.is_over(now) and planted != "no probes":
            opening = not self.is_answered or self.probe.length >= 4 * PROBE
            self.probe.grow(PROBE_MOST, now)
            return Probe(self.carried - 1, opening)
        return Wake(self.wake_time(count, room, now))

    def batch(self, room: int) -> int:
        recovery = self.done + self.window - self.sent if self.done < self.recovers else SERVICE
        window = self.carried + min(self.window, WINDOW_MOST) - self.sent
        return max(0, min(SERVICE, room, self.next - self.sent, window, recovery))

    def publish(self, count: int, now: int) -> Publish:
        if self.sent == self.carried:
            self.again.since = now
        self.sent += count
        return Publish(self.sent - count, count)

    def wake_time(self, count: int, room: int, now: int) -> int:
        pauses = ((room == 0, Pause(now, ROOM)), (count > 0, self.ask), (self.carried < self.sent, self.again),
                  (self.done < self.carried and planted != "no probes", self.probe))
        return min([NEVER, *(pause.end() for is_under_way, pause in pauses if is_under_way and pause)])

    @property
    def is_settled(self) -> bool:
        return self.ended is not None or self.done == self.next

    @property
    def under_way(self) -> int:
        return self.sent - self.carried

    @property
    def sealing_room(self) -> int:
        return 0 if self.ended else max(0, WINDOW_MOST - (self.next - self.carried))

    @property
    def stands(self) -> Optional[Stands]:
        if self.ended:
            return Stands[self.ended.name]
        if self.is_held:
            return Stands.REFUSED
        if self.done < self.carried and self.probe.length >= 4 * PROBE:
            return Stands.UNANSWERED
        return Stands.UNCONFIRMED if self.carried < self.sent and self.again.length > AGAIN else None

    @property
    def stored(self) -> Stored:
        return Stored(self.next, self.carried, self.at, self.done, self.list)


class Receiving:
    """One session's end at a receiver."""

    def __init__(self, row: Row, now: int) -> None:
        self.row = self.drafted = row
        self.is_open, self.paid = False, Pause(now, 0)
        self.owed: Optional[Asks] = None

    def take(self, frame: bytes, *, accepted: bool, is_close: bool = False,
             opened: Optional[int] = None) -> Outcome:
        outcome = self.outcome(accepted, opened)
        self.is_open = True
        self.owed = self.owes(outcome)
        if outcome == Outcome.ACCEPTED:
            history = hashlib.sha1(self.drafted.history + frame[-TAG:]).digest()
            self.drafted = Row(self.drafted.number + 1, history, is_close)
        return outcome

    def outcome(self, accepted: bool, opened: Optional[int]) -> Outcome:
        number, _, closed = self.drafted
        if closed:
            return Outcome.REPEAT
        if accepted:
            return Outcome.ACCEPTED
        if opened is None:
            return Outcome.UNKNOWN
        if opened < number:
            return Outcome.REPEAT
        return Outcome.EARLY if opened > number else Outcome.UNSETTLED

    def owes(self, outcome: Outcome) -> Optional[Asks]:
        early = Asks.REFUSED if self.owed == Asks.REFUSED else Asks.MISSING
        return {Outcome.ACCEPTED: Asks.NOTHING, Outcome.REPEAT: self.owed or Asks.NOTHING, Outcome.EARLY: early,
                Outcome.UNSETTLED: Asks.REFUSED}.get(outcome, self.owed)

    def stored(self) -> None:
        self.row, self.is_open = self.drafted, False

    def dropped(self) -> None:
        if planted != "what was dropped stays":
            self.drafted, self.owed = self.row, None
        self.is_open = False

    def receipt(self, now: int) -> Optional[Receipt]:
        early = planted == "receipts before the commit"
        if self.owed is None or self.is_open and not early or not self.paid.is_over(now):
            return None
        asks, self.owed, self.paid = self.owed, None, Pause(now, RECEIPT)
        row = self.drafted if early else self.row
        return Receipt(row.number, row.history, asks)


class Reading:
    """A shard at a receiver."""

    def __init__(self, stored: Spot) -> None:
        self.spot = self.read = stored
        self.is_open = False

    def frames(self, list_now: int, last: int, count: int) -> Read:
        if self.is_open:
            return Read.NOTHING
        if list_now != self.read.list:
            self.read = Spot(list_now, 0)
            return Read.ELSEWHERE
        if last < self.read.offset:
            if planted != "a list that was cut off is waited for":
                self.read = Spot(list_now, last)
            return Read.ELSEWHERE
        if count == 0:
            return Read.NOTHING
        self.read, self.is_open = Spot(list_now, self.read.offset + count), True
        return Read.TAKE

    def stored(self) -> None:
        self.spot, self.is_open = self.read, False
