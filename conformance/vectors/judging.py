"""What a reader's verdicts are, beside those of the suite and those that are known (known.toml)."""
from __future__ import annotations

import dataclasses
import enum
import functools
import tomllib

from lib.build import building
from vectors.build import cases, table
from vectors.model import ERRORS, Asked, Case, Group, Result, Step
from vectors.readers import Implementation

# The numbers of krbrelay's refusals (RFC 4120 section 7.5.9, and its own).
CODES = {"krbrelay": {check: row["number"] for row in tomllib.loads(building.text_of("tables/answers.toml")).values()
                      for check in row.get("suite", ())}}
# Of who compares what a message says once it is authentic: the checksum comes before addresses, time and number.
AUTHENTIC_FIRST = [it for it in ERRORS if it != "checksum"]
AUTHENTIC_FIRST.insert(AUTHENTIC_FIRST.index("address"), "checksum")
LONGEST_ADDRESS = 40    # of krbrelay's structs
DAY = 86_400            # seconds, the longest skew of a job


class Class(enum.Enum):
    PASS = "pass"
    CRASH = "crash"
    OTHER_DATA = "other data"
    REFUSED = "refused"         # a valid message
    ACCEPTED = "accepted"       # an invalid message
    NOT_ASKED = "not asked"
    OTHER_NAME = "other name"   # refused by a check that doesn't fail first
    TAKES = "takes"             # an acceptable message
    REFUSES = "refuses"         # an acceptable message


# Of a stream the first of these that one of its messages has.
WORST = list(Class)[1:] + [Class.PASS]


def needs_of(group: Group, case: Case) -> set[str]:
    """What an implementation has to be able to be asked."""
    asked, found = case.demand, {"records" if group.of_records else "data"}
    conditions = {
        "streams": case.is_stream, "streams with a number": case.is_stream and asked.number is not None,
        "no sender": asked.sender is None, "no receiver": asked.receiver is None, "no number": asked.number is None,
        "receiver required": asked.receiver_required, "time ignored": asked.time is Asked.IGNORED,
        "time if present": asked.time is Asked.IF_PRESENT, "absent microseconds": asked.time is Asked.SECONDS_REQUIRED,
        "time or number": asked.needs_time_or_number,
        "skews over a day": asked.skew > DAY,
        "long addresses": any(it and len(it.octets) > LONGEST_ADDRESS for it in (asked.sender, asked.receiver))}
    return found | {need for need, holds in conditions.items() if holds}


def is_asked(of: Implementation, group: Group, case: Case) -> bool:
    return needs_of(group, case) <= of.can


def makes_check(of: Implementation, group: Group, step: Step) -> bool:
    """Whether it makes one of the checks that a refused message fails. What is malformed beside a check that
    comes first is so for some implementations only."""
    failing = {it for place, it in enumerate(step.verdict.checks) if it != "der" or place == 0}
    if group.mode == "safe":
        failing -= of.omits
    return bool(failing if of.checks is None else failing & of.checks)


def expected_codes(of: Implementation, group: Group, step: Step) -> set[str]:
    """How it may name the first check that fails. Receivers of records have the RFC's order.
    Where an element is malformed too, what is malformed may be seen before the check or after it."""
    checks = step.verdict.checks
    first = min(checks, key=AUTHENTIC_FIRST.index) if of.says_authentic_first and not group.of_records else checks[0]
    return {f"no:{CODES[of.codes][it]}" for it in (checks if "der" in checks else (first,))}


def class_of_step(of: Implementation, group: Group, step: Step, verdict: str) -> Class:
    wanted = step.verdict
    if verdict.startswith("crash"):
        return Class.CRASH
    if verdict == "na" or wanted.result is Result.INVALID and not makes_check(of, group, step):
        return Class.NOT_ASKED
    taken = verdict.startswith("ok:")
    if taken and wanted.result is not Result.INVALID and verdict not in ("ok:*", f"ok:{wanted.user_data.hex()}"):
        return Class.OTHER_DATA
    if wanted.result is Result.ACCEPTABLE:
        return Class.TAKES if taken else Class.REFUSES
    if wanted.result is Result.VALID:
        return Class.PASS if taken else Class.REFUSED
    if not taken and of.codes and verdict not in expected_codes(of, group, step):
        return Class.OTHER_NAME
    return Class.ACCEPTED if taken else Class.PASS


def class_of(of: Implementation, group: Group, case: Case, verdicts: list[str]) -> Class:
    if len(verdicts) != len(case.steps):
        return Class.CRASH
    found = {class_of_step(of, group, step, verdict) for step, verdict in zip(case.steps, verdicts)}
    return next(it for it in WORST if it in found)


# ---- what is known

OTHERWISE = (Class.REFUSED, Class.ACCEPTED, Class.OTHER_NAME)
NOT_HELD = Class.OTHER_NAME     # whose cases may be of this class, and need not

@dataclasses.dataclass(frozen=True)
class Known:
    """What is known of a reader by flag: the acceptable cases that it takes, and what it does otherwise than
    the suite says, each with its reason."""
    takes: dict[str, str]
    otherwise: dict[str, dict[str, str]]
    codes: dict[str, int]       # of valid messages that it refuses, by flag

    def is_otherwise(self, case: Case, name: Class) -> bool:
        return bool(set(case.flags) & set(self.otherwise[name.value]))

    def expected(self, case: Case) -> Class:
        """The class that a case has to have, unless its name isn't held."""
        for name in (it for it in OTHERWISE if it is not NOT_HELD):
            if self.is_otherwise(case, name):
                return name
        if case.result() is Result.ACCEPTABLE:
            return Class.TAKES if set(case.flags) & set(self.takes) else Class.REFUSES
        return Class.PASS

    def allows(self, case: Case, found: Class, verdicts: list[str]) -> bool:
        if found is Class.REFUSED and not self.has_code(case, verdicts):
            return False
        return found is self.expected(case) or found is NOT_HELD and self.is_otherwise(case, NOT_HELD)

    def has_code(self, case: Case, verdicts: list[str]) -> bool:
        """Whether the valid messages that are refused are so by the number of the case's flag."""
        wanted = {f"no:{self.codes[flag]}" for flag in case.flags if flag in self.codes}
        told = {verdict for step, verdict in zip(case.steps, verdicts)
                if step.verdict.result is Result.VALID and verdict.startswith("no:")}
        return not wanted or told <= wanted


@functools.cache
def known_of(of: Implementation) -> Known:
    """Of readers that have a table together, with what one of them has more."""
    tables = table("known")
    common, own = tables[of.known], tables.get(of.name, {})
    otherwise = {name.value: {**common.get(name.value, {}), **own.get(name.value, {})} for name in OTHERWISE}
    return Known({**common.get("takes", {}), **own.get("takes", {})}, otherwise, common.get("codes", {}))


def counted_of(of: Implementation) -> dict[tuple[str, str], int] | None:
    """Of another implementation how many cases of each class and flag are known, or None."""
    found = table("known").get(of.name)
    if found is None:
        return None
    return {(name, flag): count for name, flags in found["counts"].items() for flag, count in flags.items()}


def is_allowed(of: Implementation, group: Group, case: Case, verdicts: list[str]) -> bool:
    """Whether a reader may answer so, by known.toml."""
    return known_of(of).allows(case, class_of(of, group, case, verdicts), verdicts)


def asked_of(of: Implementation, groups: list[Group]) -> list[tuple[Group, Case]]:
    """The cases that it can be asked."""
    return [it for it in cases(groups) if is_asked(of, *it)]
