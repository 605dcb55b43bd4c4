"""What a run of `rt ci` proved and built, noted for the tools: libraries and programs, with what they were
built from (building.py), and of each crate what the prover said of it.

`rt ci` proves no crate again that it proved before on this machine, and then doesn't repeat what was said.
So a verdict is kept in out/verdicts, with the digest of the sources that it is of.
"""
import dataclasses
import json
import os
import re
import subprocess

from lib.build import building, over_gate

PROVED = re.compile(r"rt: (\w+) (proved$|is kept: )")
BUILT = re.compile(r"rt: (\w+(?:: its tests are)?) (?:proved$|is kept: )")
VERDICT = re.compile(r"^logic=proved functions=(\d+) (?:may-wait=(\d+) )?")
VERDICTS = os.path.join(building.TOP, "out", "verdicts")


@dataclasses.dataclass(frozen=True)
class Verdict:
    """What the prover said of a crate: how many functions are proved, and how many of them may wait for
    another thread."""
    functions: int
    may_wait: int


def read_verdicts(lines):
    """The verdict of each crate of which `rt ci` printed one."""
    found, last = {}, None
    for line in lines:
        verdict, proved = VERDICT.match(line), PROVED.match(line)
        if verdict:
            last = Verdict(int(verdict[1]), int(verdict[2] or 0))
        elif proved:
            if proved[2] == "proved" and last is not None:
                found[proved[1]] = last
            last = None
    return found


def path_of(crate):
    return os.path.join(VERDICTS, f"{crate}.json")


def note_verdict(crate, built_from, verdict):
    os.makedirs(VERDICTS, exist_ok=True)
    with open(path_of(crate), "w", encoding="utf-8") as file:
        json.dump({"sources": built_from, **dataclasses.asdict(verdict)}, file)


def verdict_of(crate):
    """The verdict on the present sources of a crate, or None."""
    if not os.path.exists(path_of(crate)):
        return None
    with open(path_of(crate), encoding="utf-8") as file:
        noted = json.load(file)
    if noted.pop("sources") != building.digest_of(crate):
        return None
    return Verdict(**noted)


def digests():
    """The digest of each crate's sources, to be taken before a run."""
    return {crate: building.digest_of(crate) for crate in building.below()}


def note_library(crate, built_from):
    """Notes the library of a crate that was proved from sources of this digest, if they are the present ones."""
    library = building.library_of(crate)
    if os.path.exists(library) and building.digest_of(crate) == built_from:
        building.note(library, built_from)


def note_run(lines, passed, built_from):
    """Notes what a run has proved and built from sources of these digests: what it reported, and all if it
    passed, since it says nothing of tests that an earlier run proved."""
    lines = list(lines)
    told = {found[1] for found in map(BUILT.match, lines) if found}
    for crate, verdict in read_verdicts(lines).items():
        note_verdict(crate, built_from[crate], verdict)
    for crate, of_sources in built_from.items():
        if building.digest_of(crate) != of_sources:
            continue
        for what, built in ((crate, building.program_of(crate)),
                            (crate, building.library_of(crate)),
                            (f"{crate}: its tests are", building.tests_of(crate))):
            if (passed or what in told) and os.path.exists(built):
                building.note(built, of_sources)


def prove_alone(crate):
    """Proves a crate over the libraries that are built, and notes the verdict, which is returned; None if it isn't
    proved. So a verdict is had of a crate whose proof `rt ci` keeps from a run elsewhere."""
    built_from = building.digest_of(crate)
    done = subprocess.run(over_gate.words_to_check(crate, over_gate.MOST_JOBS), cwd=building.folder_of(crate),
                          check=False, stdin=subprocess.DEVNULL, stdout=subprocess.PIPE, stderr=subprocess.STDOUT,
                          text=True, errors="replace")
    said = [found for found in map(VERDICT.match, done.stdout.splitlines()) if found]
    if done.returncode or len(said) != 1:
        return None
    verdict = Verdict(int(said[0][1]), int(said[0][2] or 0))
    note_verdict(crate, built_from, verdict)
    return verdict


def run(log, *words):
    """Runs `rt ci` with its output in a file, and notes what it did. Returns whether it passed."""
    built_from = digests()
    os.makedirs(os.path.dirname(log), exist_ok=True)
    with open(log, "w", encoding="utf-8") as file:
        done = subprocess.run(["rt", "ci", *words], cwd=building.TOP, check=False, stdin=subprocess.DEVNULL,
                              stdout=file, stderr=subprocess.STDOUT)
    with open(log, encoding="utf-8", errors="replace") as file:
        note_run(file.read().splitlines(), done.returncode == 0, built_from)
    return done.returncode == 0
