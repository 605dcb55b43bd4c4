#!/usr/bin/env python3
"""The runner of the program: `krbrelay open` of a job of one case. KRBRELAY names the program. User
data that are no record are told as ok:* where records aren't asked for."""
from __future__ import annotations

import collections.abc
import os
import re
import subprocess

from asked import Asked, IGNORED, REQUIRED, run

LONGEST_ADDRESS = 64        # digits of an address in a job
ENDS = (0, 3)               # statuses of a session that was closed, or wasn't
BAD_RECORD = "902"
# After each message comes one that is refused, and shows where the texts of a batch end.
MARK = "00"
LINE = re.compile(r"lane 0 (?:text (?P<text>.*)|(?P<closed>closed)|refused (?P<code>\d+) .*)")


def job_of(asked: Asked) -> str | None:
    """The job of a case, or None where there is none."""
    addresses = (asked.sender, asked.receiver)
    if "-" in addresses or asked.number is None or asked.time not in (1, REQUIRED) or asked.time == IGNORED:
        return None
    if any(len(it.partition(":")[2]) > LONGEST_ADDRESS for it in addresses):
        return None
    frames = ", ".join(f'"{it.hex()}", "{MARK}"' for it in asked.messages)
    return (f'[[sender]]\netype = {asked.etype}\nkey = "{asked.key.hex()}"\nmode = "{asked.mode}"\n'
            f'first = {asked.number}\nfrom = "{asked.sender}"\nto = "{asked.receiver}"\n'
            f'require_to = {str(asked.receiver_required).lower()}\nexpect_time = {str(asked.time == REQUIRED).lower()}\n'
            f'skew = {asked.skew}\nnow = [{asked.now}]\nframes = [{frames}]\n')


def verdict_of(texts: list[str], line: re.Match[str], records: bool) -> str:
    """Of a message: of the lines of its texts, or of its one line that is none."""
    if len(texts) == 1:
        return "ok:44" + texts[0]
    if texts:
        return "ok:42" + "".join(f"{len(it) // 2:08x}{it}" for it in texts)
    if line["closed"]:
        return "ok:43"
    return "ok:*" if line["code"] == BAD_RECORD and not records else f"no:{line['code']}"


def verdicts_of(lines: collections.abc.Iterable[str], records: bool) -> list[str]:
    """The verdicts of what a run prints, without its last line."""
    found, texts, own = [], [], None
    for line in map(LINE.fullmatch, lines):
        if line["text"] is not None:
            texts.append(line["text"])
        elif own is None and not texts:
            own = line
        else:
            found.append(verdict_of(texts, own, records))
            texts, own = [], None
    return found


def read(asked: Asked) -> list[str] | None:
    job = job_of(asked)
    if job is None:
        return None
    done = subprocess.run([os.environ["KRBRELAY"], "open"], input=job, capture_output=True, text=True, check=False)
    found = verdicts_of(done.stdout.splitlines()[:-1], asked.records) if done.returncode in ENDS else []
    if len(found) != len(asked.messages):
        told = done.stderr.strip().replace(",", " ").replace("\n", " ")
        return [f"crash:{done.returncode} {told}"] * len(asked.messages)
    return found


if __name__ == "__main__":
    run(read)
