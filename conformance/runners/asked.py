"""What the runners in Python share: the lines that they read and write (README.md)."""
from __future__ import annotations

import collections.abc
import dataclasses
import sys

IGNORED, IF_PRESENT, REQUIRED, ABSENT_MICROSECONDS_ARE_0 = range(4)
MICROS = 1_000_000


@dataclasses.dataclass(frozen=True)
class Asked:
    """A line: a receiver's demand, and the messages that it is given in turn. Addresses are as they
    stand there, and `number` is None where none is demanded."""
    case: str
    mode: str
    etype: int
    key: bytes
    sender: str
    receiver: str
    receiver_required: bool
    time: int
    now: int                    # in microseconds
    skew: int
    number: int | None
    time_or_number: bool
    records: bool
    messages: tuple[bytes, ...]


def asked_of(line: str) -> Asked:
    field = line.rstrip("\n").split("\t")
    return Asked(field[0], field[1], int(field[2]), bytes.fromhex(field[3]), field[4], field[5], field[6] == "1",
                 int(field[7]), int(field[8]) * MICROS + int(field[9]), int(field[10]),
                 None if field[11] == "-" else int(field[11]), field[12] == "1", field[13] == "1",
                 tuple(bytes.fromhex(it.strip(".")) for it in field[14].split(",")))


Reader = collections.abc.Callable[[Asked], "list[str] | None"]


def run(read: Reader) -> None:
    """Writes what `read` says of each line: a verdict for each message, or None where the demand can't
    be given."""
    for line in sys.stdin:
        asked = asked_of(line)
        verdicts = read(asked) or ["na"] * len(asked.messages)
        print(asked.case, ",".join(verdicts), sep="\t", flush=True)
