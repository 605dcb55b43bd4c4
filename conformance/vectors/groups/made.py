"""Messages of other implementations, as these made them (makers/): made.json, in groups by their maker,
each with a key of its own. What each one is was found by collect_made.py and the RFC's text."""
from __future__ import annotations

import json
import pathlib

from vectors.common import Asked, demand
from vectors.model import Address, Group, Result, Suite, Verdict, acceptable, invalid, valid

MADE = pathlib.Path(__file__).parents[2] / "made.json"
TIMES = (Asked.IGNORED, Asked.IF_PRESENT, Asked.REQUIRED)


def address(text: str) -> Address | None:
    if text == "-":
        return None
    kind, _, digits = text.partition(":")
    return Address(int(kind), bytes.fromhex(digits))


def verdict(it: dict[str, str]) -> Verdict:
    result = Result(it["result"])
    if result is Result.INVALID:
        return invalid(it["check"])
    return (valid if result is Result.VALID else acceptable)(bytes.fromhex(it["userData"]))


def build(suite: Suite) -> None:
    for it in json.loads(MADE.read_text(encoding="utf-8")):
        name = f"made by {it['by']}"
        suite.begin(Group(name, it["mode"], bytes.fromhex(it["key"]), demand(
            sender=address(it["sender"]), receiver=address(it["receiver"]), time=TIMES[it["time"]], number=it["seq"])))
        suite.add(verdict(it), bytes.fromhex(it["msg"]), name, "RFC4120 3.4.1, 3.5.1", it["flag"])
