"""Builds the suite, and writes it as JSON: the same bytes each time."""
from __future__ import annotations

import collections
import collections.abc
import functools
import gzip
import hashlib
import io
import json
import pathlib
import tomllib

from vectors.flags import FLAGS
from vectors.groups import (addresses, checksums, ciphers, demands, faults, integers, limits, made, numbers, records,
                            spelling, streams, structure, times, valid, versions)
from vectors.messages import Confounders
from vectors.model import Case, Group, Suite

ROOM = pathlib.Path(__file__).parents[1]
SCHEMA = "vectors.schema.json"
VERSION = "1.0"
ALGORITHM = "KRB-SAFE, KRB-PRIV (RFC 4120) under encryption types 17, 18 (RFC 3962)"
HEADER = [
    "One receiver's demand and one message a case: what RFC 4120 says of it. README.md describes a runner.",
    "A sender of null isn't demanded; a receiver is compared where the message tells one, and must be told where",
    "receiverRequired. time: required, ifPresent, ignored, or absentMicrosecondsAreZero: required, and microseconds",
    "that aren't told count as 0; now and skew (seconds) belong to it. seq null isn't demanded. timeOrNumberRequired: a",
    "message that tells neither is to be refused. check is the first failing check in the order of RFC 4120 3.4.2 and",
    "3.5.2, and alsoFails the others: that a message is refused matters, not which of its checks names it. acceptable:",
    "either verdict is right, but if it is accepted the user data have to be these. steps: messages to one receiver in",
    "turn; seq is the number demanded first. Groups of the type KrbRelayRecords are for receivers of krbrelay's records."]
MODULES = (valid, spelling, structure, integers, times, numbers, addresses, versions, checksums, ciphers, faults, demands,
           streams, records, limits, made)


def table(name: str) -> dict[str, dict[str, object]]:
    with open(ROOM / f"{name}.toml", "rb") as file:
        return tomllib.load(file)


@functools.cache
def built() -> list[Group]:
    """All groups, in their order, which are built once."""
    Confounders.begin()
    suite = Suite()
    for module in MODULES:
        module.build(suite)
    return suite.whole()


def cases(groups: list[Group]) -> collections.abc.Iterator[tuple[Group, Case]]:
    return ((group, case) for group in groups for case in group.cases)


def counted(groups: list[Group]) -> dict[str, int]:
    """How many cases, groups by name, flags and messages there are, and cases of each result."""
    all_cases = [case for _, case in cases(groups)]
    results = collections.Counter(case.result().value for case in all_cases)
    return {"cases": len(all_cases), "groups": len({group.name for group in groups}),
            "flags": len({flag for case in all_cases for flag in case.flags}),
            "messages": sum(len(case.steps) for case in all_cases), **dict(sorted(results.items()))}


def described(groups: list[Group]) -> dict[str, object]:
    """What generated.toml has of the suite."""
    text = text_of(groups)
    return {"sha256": digest(text), "bytes": len(text), **counted(groups)}


# ---- the file

def line(value: object) -> str:
    return json.dumps(value, separators=(", ", ": "))


def text_of(groups: list[Group]) -> str:
    """The JSON with a line for each case, so that a change is seen."""
    count = sum(len(group.cases) for group in groups)
    head = {"algorithm": ALGORITHM, "schema": SCHEMA, "generatorVersion": VERSION, "numberOfTests": count, "header": HEADER}
    lines = [f" {line(key)}: {line(value)},\n" for key, value in head.items()]
    notes = ",\n".join(f"  {line(name)}: {line(flag.json())}" for name, flag in FLAGS.items())
    texts = ",\n".join(map(text_of_group, groups))
    return "{\n" + "".join(lines) + ' "notes": {\n' + notes + "\n },\n" + ' "testGroups": [\n' + texts + "\n ]\n}\n"


def text_of_group(group: Group) -> str:
    whole = group.json()
    tests = whole.pop("tests")
    return f"  {line(whole)[:-1]}, " + '"tests": [\n' + ",\n".join(f"   {line(it)}" for it in tests) + "\n  ]}"


def digest(text: str) -> str:
    return hashlib.sha256(text.encode()).hexdigest()


def zipped(data: bytes) -> bytes:
    """The same bytes each time."""
    packed = io.BytesIO()
    with gzip.GzipFile("", "wb", 9, packed, mtime=0) as file:
        file.write(data)
    return packed.getvalue()


def released(version: str) -> dict[str, bytes]:
    """The files of a release, by their names."""
    name = f"krbrelay-{version}-vectors"
    return {f"{name}.json.gz": zipped(text_of(built.__wrapped__()).encode()),
            f"{name}.schema.json": (ROOM / SCHEMA).read_bytes(),
            f"{name}.README.md": (ROOM / "README.md").read_bytes()}
