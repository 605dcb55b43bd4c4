"""What a suite consists of: groups, cases, the demand of a receiver, and verdicts."""
from __future__ import annotations

import collections.abc
import dataclasses
import enum

from vectors.flags import FLAGS

# The checks of RFC 4120, 3.4.2 and 3.5.2, with the error that each gives. `order` is of the number,
# `fresh` of a message that tells neither a time nor a number.
ERRORS = {
    "der": "KRB_ERR_GENERIC", "pvno": "KRB_AP_ERR_BADVERSION", "msg-type": "KRB_AP_ERR_MSG_TYPE",
    "etype": "KDC_ERR_ETYPE_NOSUPP", "integrity": "KRB_AP_ERR_BAD_INTEGRITY",
    "cksumtype": "KRB_AP_ERR_INAPP_CKSUM", "address": "KRB_AP_ERR_BADADDR", "time": "KRB_AP_ERR_SKEW",
    "replay": "KRB_AP_ERR_REPEAT", "order": "KRB_AP_ERR_BADORDER", "fresh": "KRB_AP_ERR_MODIFIED",
    "checksum": "KRB_AP_ERR_MODIFIED", "record": "KRB_ERR_GENERIC", "closed": "KRB_ERR_GENERIC",
}

Json = dict[str, object]


class Result(enum.Enum):
    VALID = "valid"
    INVALID = "invalid"
    ACCEPTABLE = "acceptable"


class Asked(enum.Enum):
    """What is asked of a message's time."""
    IGNORED = "ignored"
    IF_PRESENT = "ifPresent"
    REQUIRED = "required"
    SECONDS_REQUIRED = "absentMicrosecondsAreZero"      # absent microseconds count as 0


@dataclasses.dataclass(frozen=True)
class Address:
    """A HostAddress."""
    kind: int
    octets: bytes

    def json(self) -> Json:
        return {"type": self.kind, "address": self.octets.hex()}


@dataclasses.dataclass(frozen=True)
class Moment:
    seconds: int
    microseconds: int

    def json(self) -> Json:
        return dataclasses.asdict(self)


@dataclasses.dataclass(frozen=True)
class Demand:
    """What a receiver knows and asks of a message."""
    sender: Address | None
    receiver: Address | None
    now: Moment
    receiver_required: bool = False
    time: Asked = Asked.REQUIRED
    skew: int = 300
    number: int | None = None
    needs_time_or_number: bool = False

    def json(self) -> Json:
        return {"sender": self.sender and self.sender.json(),
                "receiver": self.receiver and self.receiver.json(),
                "receiverRequired": self.receiver_required, "time": self.time.value,
                "now": self.now.json(), "skew": self.skew, "seq": self.number,
                "timeOrNumberRequired": self.needs_time_or_number}


@dataclasses.dataclass(frozen=True)
class Verdict:
    """What RFC 4120 says of a message. `checks` are those that fail, in the RFC's order. Where one of
    them is an element of DER, others may come before it in an implementation."""
    result: Result
    user_data: bytes | None = None
    checks: tuple[str, ...] = ()

    def json(self) -> Json:
        found: Json = {"result": self.result.value}
        if self.checks:
            found |= {"check": self.checks[0], "error": ERRORS[self.checks[0]]}
        if self.checks[1:]:
            found["alsoFails"] = list(self.checks[1:])
        if self.user_data is not None:
            found["userData"] = self.user_data.hex()
        return found


TEXT = b"Dtext"     # the user data of most messages: a text of `krbrelay open`


def valid(user_data: bytes = TEXT) -> Verdict:
    return Verdict(Result.VALID, user_data)


def acceptable(user_data: bytes = TEXT) -> Verdict:
    return Verdict(Result.ACCEPTABLE, user_data)


def invalid(*checks: str) -> Verdict:
    assert checks and set(checks) <= set(ERRORS), checks
    return Verdict(Result.INVALID, None, checks)


@dataclasses.dataclass(frozen=True)
class Step:
    """One message of a case."""
    message: bytes
    verdict: Verdict

    def json(self) -> Json:
        return {"msg": self.message.hex(), **self.verdict.json()}


@dataclasses.dataclass(frozen=True)
class Case:
    """One message, or several to one receiver, whose number rises by one with each that it takes."""
    number: int
    comment: str
    section: str
    flags: tuple[str, ...]
    steps: tuple[Step, ...]
    demand: Demand
    is_stream: bool

    def result(self) -> Result:
        """Of a stream: `acceptable` where a step is, else `invalid` where one is."""
        found = {it.verdict.result for it in self.steps}
        return next(it for it in (Result.ACCEPTABLE, Result.INVALID, Result.VALID) if it in found)

    def json(self, of_group: Demand) -> Json:
        found: Json = {"tcId": self.number, "comment": self.comment, "rfc": self.section,
                       "flags": list(self.flags)}
        if self.is_stream:
            found |= {"steps": [it.json() for it in self.steps], "result": self.result().value}
        else:
            found |= self.steps[0].json()
        if self.demand != of_group:
            found["demand"] = self.demand.json()
        return found


@dataclasses.dataclass
class Group:
    """Cases under one name, mode, encryption type, key and demand. `of_records`: the user data are
    records of krbrelay, and the receiver is one of records."""
    name: str
    mode: str
    key: bytes
    demand: Demand
    of_records: bool = False
    cases: list[Case] = dataclasses.field(default_factory=list)

    @property
    def etype(self) -> int:
        return etype_of(self.key)

    def json(self) -> Json:
        return {"name": self.name, "type": "KrbRelayRecords" if self.of_records else "KrbOpen",
                "mode": self.mode, "etype": self.etype, "key": self.key.hex(),
                "demand": self.demand.json(), "tests": [it.json(self.demand) for it in self.cases]}


def etype_of(key: bytes) -> int:
    return 17 if len(key) == 16 else 18


class Suite:
    """The groups, in the order in which they were begun. Cases go into the last one."""

    def __init__(self) -> None:
        self.groups: list[Group] = []
        self.count = 0

    def begin(self, group: Group) -> Group:
        self.groups.append(group)
        return group

    def add(self, verdict: Verdict, message: bytes, comment: str, section: str, *flags: str,
            **asked: object) -> None:
        """A case of one message. `asked` changes the group's demand."""
        assert verdict.result is not Result.ACCEPTABLE or flags, comment
        self.append([Step(message, verdict)], comment, section, flags or ("Normal",), asked, False)

    def stream(self, steps: collections.abc.Iterable[Step], comment: str, section: str, *flags: str,
               **asked: object) -> None:
        self.append(list(steps), comment, section, flags or ("Normal",), asked, True)

    def append(self, steps: list[Step], comment: str, section: str, flags: tuple[str, ...],
               asked: dict[str, object], is_stream: bool) -> None:
        assert set(flags) <= set(FLAGS), flags
        self.count += 1
        group = self.groups[-1]
        demand = dataclasses.replace(group.demand, **asked)
        group.cases.append(Case(self.count, comment, section, flags, tuple(steps), demand, is_stream))

    def whole(self) -> list[Group]:
        """The groups that have a case."""
        return [group for group in self.groups if group.cases]
