"""Tries the enums of the header on the shared object: which numbers each argument takes, and which
are given, of 0 to 1,023 and three beyond. KRBRELAY_DIRECTIONAL stands in no call: its number isn't
tried."""
import ctypes
import functools
import socket
from typing import Callable, Dict, Iterable, List, Tuple

from lib import report

NUMBERS = [*range(1024), 65536, 2**31, 2**32 - 1]
KEY, MOMENT = bytes(16), (ctypes.c_uint64 * 2)(1700000000)
ROOM = 2000
NONE = -1       # stands for the number of a name that the header doesn't have
# What a record may be of these bytes: a text has any, eight zeros are a batch of two texts, and a
# close has none.
RECORDS = {b"a": ("TEXT",), bytes(8): ("TEXT", "BATCH"), b"": ("TEXT", "CLOSE")}
HOWS = "IGNORE", "IF_PRESENT", "REQUIRED", "ABSENT_IS_0"
DEMANDS = {"sender": HOWS[:3], "receiver": HOWS[:3], "time": HOWS, "number": HOWS}
# An answer of each class.
CLASSES = {"OK": "OK", "REFUSAL": "BADORDER", "CALLER": "ROOM", "STATE": "EMPTY",
           "MEMORY": "MEMORY", "SYSTEM": "CLOCK"}
# What is known of a frame where 5 is demanded (opened, has_opened, accepted), and what it is taken for.
OUTCOMES = [((0, 0, 1), "ACCEPTED"), ((4, 1, 0), "REPEAT"), ((7, 1, 0), "EARLY"), ((0, 0, 0), "UNKNOWN"),
            ((5, 1, 0), "UNSETTLED")]
# Of a session's end at a sender, of a receipt and of a shard at a receiver, the words of 32 bits that
# aren't 0, by their places; and what is answered.
NEXT, CARRIED, SENT, WINDOW, AGAIN, PROBE, HELD, ENDED = 0, 2, 6, 14, 22, 26, 29, 31
COMMANDS = {"IDLE": {}, "PUBLISH": {NEXT: 1}, "PROBE": {NEXT: 1, CARRIED: 1, SENT: 1},
            "WAKE": {NEXT: 1, SENT: 1, AGAIN: 99}}
HEARD = {"NOTHING": {}, "DELIVERED": {0: 1}, "ENDED": {0: 1, 2: 1}}
STANDS = {"NOT": {}, "OLDER": {ENDED: 1}, "FORKED": {ENDED: 2}, "REFUSED": {HELD: 1},
          "UNANSWERED": {NEXT: 1, CARRIED: 1, SENT: 1, PROBE: 20000},
          "UNCONFIRMED": {NEXT: 1, SENT: 1, AGAIN: 2001}}
READS = {"NOTHING": (0, 0), "ELSEWHERE": (1, 0), "TAKE": (0, 1)}      # the list, and how many
JUDGED = {"BEGINS": (0, 1), "LATER": (0, 2), "FORKED": (1, 1)}       # the last turn, and the opening's
# Whether what the store has is known, and how a transaction failed; the list and the offset that a store has where 7 and 4
# are known; and the failure of a transaction with a frame, and whether effects are outside of the store.
TURNS = {"LOAD": (False, 0), "WAIT": (True, 2), "READ": (True, 0)}
FOUND = {"SAME": (7, 4), "AHEAD": (7, 5), "BEHIND": (7, 3)}
THEN = {"STORE": (1, 1), "AGAIN": (3, 0), "WAIT": (4, 0)}
KINDS = {"IPV4": (socket.AF_INET, 16), "IPV6": (socket.AF_INET6, 28)}


def with_words(words: Dict[int, int]) -> ctypes.Array:
    """A struct of these numbers of 32 bits, by their places: the rest is zeros."""
    return numbers_of(*[words.get(it, 0) for it in range(64)])


def numbers_of(*numbers: int) -> ctypes.Array:
    """A struct that begins with these numbers of 32 bits: the rest is zeros."""
    return (ctypes.c_uint32 * 64)(*numbers)


# ---- what the shared object says, whatever the header says

class Library:
    """A shared object, and what its calls answer to each of the numbers."""

    def __init__(self, path: str):
        self.calls = ctypes.CDLL(path)
        self.room, self.size = ctypes.create_string_buffer(ROOM), ctypes.c_size_t()
        self.sealer, self.opener = (ctypes.c_size_t * 2)(), (ctypes.c_size_t * 2)()
        self.names = {it: self.room.value.decode() for it in NUMBERS
                      if self.calls.krbrelay_answer_name(it, *self.out()) == 0}
        self.calls.krbrelay_field_name.restype = ctypes.c_char_p
        self.fields = {it: self.calls.krbrelay_field_name(it).decode() for it in NUMBERS}
        self.modes = {"a sealer": self.answers(self.new_sealer),
                      "an opener": self.answers(self.new_opener)}
        self.new_sealer(20)
        self.new_opener(20)
        self.records = {it: self.answers(functools.partial(self.seal, it)) for it in RECORDS}
        self.demands = {what: self.answers(functools.partial(self.open, at))
                        for at, what in enumerate(DEMANDS)}
        self.classes = dict(zip(NUMBERS, self.answers(self.calls.krbrelay_class_of)))
        self.outcomes = [self.take(*frame) for frame, _ in OUTCOMES]
        self.kinds = {name: self.kind(*it) for name, it in KINDS.items()}
        self.asks = self.answers(lambda asks: self.hear({7: asks})[0])
        self.ended = self.answers(lambda ended: self.serve({ENDED: ended})[0])
        self.owns = self.answers(lambda own: self.own(own)[0])
        self.results = {
            "command_kind": {**{name: self.serve(it)[1] for name, it in COMMANDS.items()}, "HELD": self.held()},
            "heard": {**{name: self.hear({7: 1, **it})[1] for name, it in HEARD.items()}, "AGAIN": self.own(3)[1]},
            "stands": {name: self.stands(it) for name, it in STANDS.items()},
            "read": {name: self.read(*it) for name, it in READS.items()},
            "judged": {name: self.judge(*it) for name, it in JUDGED.items()},
            "turn": {name: self.turn(*it) for name, it in TURNS.items()},
            "found": {name: self.found(*it) for name, it in FOUND.items()},
            "then": {name: self.then(*it) for name, it in THEN.items()}}
        self.failures = self.answers(self.fails)
        self.calls.krbrelay_sealer_free(self.sealer)
        self.calls.krbrelay_opener_free(self.opener)

    def answers(self, call: Callable[[int], int]) -> List[int]:
        return [call(it) for it in NUMBERS]

    def out(self) -> tuple:
        """A buffer, its room, and where the size is written."""
        return self.room, ctypes.c_size_t(ROOM), ctypes.byref(self.size)

    def new_sealer(self, mode: int) -> int:
        session = numbers_of(mode, 7)
        return self.calls.krbrelay_sealer_new(self.sealer, 17, KEY, ctypes.c_size_t(16), session)

    def new_opener(self, mode: int) -> int:
        expect = numbers_of(mode)
        return self.calls.krbrelay_opener_new(self.opener, 17, KEY, ctypes.c_size_t(16), expect)

    def seal(self, body: bytes, kind: int) -> int:
        return self.calls.krbrelay_sealer_seal_record(
            self.sealer, kind, body, ctypes.c_size_t(len(body)), MOMENT, KEY, *self.out())

    def open(self, at: int, how: int) -> int:
        """Opens no message, with one demand."""
        demand = numbers_of(*[0] * at, how)
        return self.calls.krbrelay_opener_open(self.opener, b"x", ctypes.c_size_t(1), demand,
                                               MOMENT, *self.out(), numbers_of())

    def take(self, opened: int, has_opened: int, accepted: int) -> int:
        """What a frame is taken for."""
        told, receiving = numbers_of(), numbers_of()
        self.calls.krbrelay_receiving_load(receiving, numbers_of(5), ctypes.c_uint64(0))
        self.calls.krbrelay_receiving_take(receiving, b"x", ctypes.c_size_t(1),
                                           numbers_of(opened, 0, has_opened, accepted), told)
        return told[0]

    def serve(self, words: Dict[int, int]) -> Tuple[int, int]:
        """The answer of a service, and the kind of its command."""
        command, sending = numbers_of(), with_words({WINDOW: 1, **words})
        room, now = ctypes.c_uint64(8), ctypes.c_uint64(9)
        return self.calls.krbrelay_sending_serve(sending, room, now, command), command[6]

    def hear(self, words: Dict[int, int]) -> Tuple[int, int]:
        """The answer to a receipt, and what is heard."""
        heard, sending = numbers_of(), with_words({WINDOW: 1, NEXT: 1})
        return self.calls.krbrelay_sending_receipt(
            sending, with_words(words), numbers_of(), ctypes.c_uint64(9), heard), heard[0]

    def lane(self, opens: int) -> ctypes.Array:
        """A shard at a sender, with a list, and one session that has a frame."""
        lane = numbers_of()
        self.calls.krbrelay_lane_add(lane, numbers_of(1), opens, numbers_of())
        self.calls.krbrelay_lane_listed(lane, 1, ctypes.c_uint64(0))
        return lane

    def held(self) -> int:
        """The kind of what is to be done of a session whose opening wasn't released."""
        lane, served = self.lane(1), numbers_of()
        self.calls.krbrelay_lane_turn(lane, ctypes.c_uint64(9), served)
        self.calls.krbrelay_lane_free(lane)
        return served[6]

    def own(self, own: int) -> Tuple[int, int]:
        """The answer to a receipt of which the own digest is such a one, and what is heard."""
        lane, heard = self.lane(0), numbers_of()
        answer = self.calls.krbrelay_lane_receipt(lane, 0, with_words({0: 1, 7: 1}), numbers_of(), own, ctypes.c_uint64(9),
                                                  heard)
        self.calls.krbrelay_lane_free(lane)
        return answer, heard[0]

    def shard(self, are_outside: int = 0, is_loaded: bool = True) -> ctypes.Array:
        """A shard at a receiver, with one session."""
        shard = numbers_of()
        self.calls.krbrelay_shard_new(shard, are_outside, 0)
        if is_loaded:
            self.calls.krbrelay_shard_loaded(shard, ctypes.c_uint64(7), ctypes.c_uint64(4))
        self.calls.krbrelay_shard_add(shard, numbers_of(1), numbers_of())
        return shard

    def turn(self, is_loaded: bool, failure: int) -> int:
        """What is to be done of a shard, perhaps after a failure."""
        shard, told = self.shard(is_loaded=is_loaded), numbers_of()
        self.calls.krbrelay_shard_failed(shard, failure, ctypes.c_uint64(5), numbers_of())
        self.calls.krbrelay_shard_turn(shard, ctypes.c_uint64(9), told, numbers_of())
        self.calls.krbrelay_shard_free(shard)
        return told[0]

    def found(self, of_list: int, offset: int) -> int:
        shard, told = self.shard(), numbers_of()
        self.calls.krbrelay_shard_found(shard, ctypes.c_uint64(of_list), ctypes.c_uint64(offset), told)
        self.calls.krbrelay_shard_free(shard)
        return told[0]

    def then(self, failure: int, are_outside: int) -> int:
        """What happens to a transaction with a frame that fails."""
        shard, told, frame = self.shard(are_outside), numbers_of(), numbers_of(0, 0, 0, 1)
        self.calls.krbrelay_shard_begin(shard, ctypes.c_uint64(5), ctypes.c_uint64(9), numbers_of())
        self.calls.krbrelay_shard_take(shard, 0, b"x", ctypes.c_size_t(1), frame, ctypes.c_uint64(5), numbers_of())
        self.calls.krbrelay_shard_failed(shard, failure, ctypes.c_uint64(6), told)
        self.calls.krbrelay_shard_free(shard)
        return told[0]

    def fails(self, failure: int) -> int:
        """The answer to a failure of this number."""
        shard = self.shard()
        answer = self.calls.krbrelay_shard_failed(shard, failure, ctypes.c_uint64(5), numbers_of())
        self.calls.krbrelay_shard_free(shard)
        return answer

    def stands(self, words: Dict[int, int]) -> int:
        told, other = numbers_of(), numbers_of()
        sending = with_words({WINDOW: 1, **words})
        self.calls.krbrelay_sending_state(sending, other, other, other, told)
        return told[0]

    def read(self, name: int, count: int) -> int:
        told = numbers_of()
        self.calls.krbrelay_reading_frames(numbers_of(), ctypes.c_uint64(name), ctypes.c_uint64(9),
                                           ctypes.c_uint64(count), told)
        return told[0]

    def judge(self, last: int, turn: int) -> int:
        told = numbers_of()
        self.calls.krbrelay_judge(numbers_of(last), numbers_of(turn), told)
        return told[0]

    def kind(self, family: int, size: int) -> int:
        """The kind of address that a socket has."""
        told, given = numbers_of(), int(family).to_bytes(2, "little") + bytes(size - 2)
        self.calls.krbrelay_address_from(told, given, ctypes.c_size_t(size))
        return told[0]


# It says the same each time.
tried = functools.lru_cache(maxsize=None)(Library)


# ---- beside the header

class Compared:
    """The enums of the header beside what the shared object says."""

    def __init__(self, count: report.Count, library: Library, enums: Dict[str, Dict[str, int]]):
        self.count, self.library, self.enums = count, library, enums
        self.answer = self.numbers("answer")
        self.seen: List[str] = []

    def numbers(self, enum: str, begin: str = "") -> Dict[str, int]:
        """An enum's numbers by their names, without what all of these begin with."""
        return {name.removeprefix("KRBRELAY_" + begin): number
                for name, number in self.enums.get(f"krbrelay_{enum}", {}).items()}

    def same(self, enum: str, mine: object, theirs: object, of: str = "") -> None:
        self.seen.append(f"krbrelay_{enum}")
        what = f"enum krbrelay_{enum} of {of}" if of else f"enum krbrelay_{enum}"
        self.count.right(mine == theirs, f"FAILED {what}: {theirs}, and in the header {mine}")

    def taken(self, enum: str, mine: Iterable[int], answers: List[int], wrong: str,
              of: str = "") -> None:
        """The numbers of the enum are those that a call doesn't answer with `wrong`."""
        refused = self.answer.get(wrong)
        theirs = [it for it, answer in zip(NUMBERS, answers) if answer != refused]
        self.same(enum, sorted(mine), theirs, of)

    def arguments(self) -> None:
        records, hows = self.numbers("record"), self.numbers("how")
        for of, answers in self.library.modes.items():
            self.taken("mode", self.numbers("mode").values(), answers, "MODE", of)
        for body, answers in self.library.records.items():
            mine = [records.get(it, NONE) for it in RECORDS[body]]
            self.taken("record", mine, answers, "RECORD", f"{len(body)} bytes")
        for what, answers in self.library.demands.items():
            mine = [hows.get(it, NONE) for it in DEMANDS[what]]
            self.taken("how", mine, answers, "ARGUMENT", what)
        self.same("record", set(records), set(sum(RECORDS.values(), ())), "all")
        self.same("how", set(hows), set(HOWS), "all")

    def results(self) -> None:
        names = {number: name for name, number in self.answer.items()}
        self.same("answer", names, self.library.names)
        fields = {number: name.lower() for name, number in self.numbers("field", "FIELD_").items()}
        self.same("field", {it: fields.get(it, "none") for it in NUMBERS}, self.library.fields)
        classes, given = self.numbers("class", "CLASS_"), self.library.classes
        found = {name: given.get(self.answer.get(it)) for name, it in CLASSES.items()}
        self.same("class", classes, {**found, "UNKNOWN": given[NUMBERS[-1]]})
        self.same("class", set(classes.values()), set(given.values()), "any number")
        for name, kind in self.library.kinds.items():
            self.same("address_kind", self.numbers("address_kind").get(name), kind, name)

    def ends(self) -> None:
        """What an end of a carrier takes and answers."""
        self.taken("asks", self.numbers("asks").values(), self.library.asks, "ARGUMENT")
        self.taken("ended", self.numbers("ended").values(), self.library.ended, "ARGUMENT")
        names = {it: self.numbers(it, it.upper() + "_") for it in ("ended", "stands", "asks")}
        self.same("asks", names["asks"], {"NOTHING": 1, "MISSING": 2, "REFUSED": 3}, "all")
        self.taken("own", self.numbers("own").values(), self.library.owns, "ARGUMENT")
        self.same("own", self.numbers("own", "OWN_"), {"KNOWN": 1, "UNKNOWN": 2, "FAULT": 3}, "all")
        self.taken("failure", self.numbers("failure").values(), self.library.failures, "ARGUMENT")
        self.same("failure", self.numbers("failure", "FAILURE_"),
                  {"REFUSED": 1, "LATER": 2, "FENCED": 3, "FAULT": 4}, "all")
        self.same("ended", {names["ended"].get(it) for it in ("OLDER", "FORKED")},
                  {names["stands"].get(it) for it in ("OLDER", "FORKED")}, "an end that stands")
        for enum, theirs in self.library.results.items():
            begin = enum.removesuffix("_kind").upper() + "_"
            self.same(enum, self.numbers(enum, begin), theirs)

    def outcomes(self) -> None:
        mine = self.numbers("outcome", "OUTCOME_")
        for (_, name), outcome in zip(OUTCOMES, self.library.outcomes):
            self.same("outcome", mine.get(name), outcome, name)
        self.same("outcome", sorted(mine), sorted(name for _, name in OUTCOMES), "all")


def compare(count: report.Count, path: str, enums: Dict[str, Dict[str, int]]) -> None:
    """Which numbers of each enum the shared object takes or gives."""
    compared = Compared(count, tried(path), enums)
    compared.arguments()
    compared.results()
    compared.outcomes()
    compared.ends()
    count.right(set(compared.seen) == set(enums),
                f"FAILED enums that aren't tried: {sorted(set(enums) ^ set(compared.seen))}")
