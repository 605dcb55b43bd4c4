"""The readers of implementations.toml: how each is built, and what it makes of lines."""
from __future__ import annotations

import dataclasses
import os
import pathlib
import shlex
import subprocess
import sys

from lib.build import building, c_tools
from vectors.build import ROOM, table
from vectors.model import Asked, Address, Case, Group

RUNNERS = ROOM / "runners"
TIMES = {Asked.IGNORED: 0, Asked.IF_PRESENT: 1, Asked.REQUIRED: 2, Asked.SECONDS_REQUIRED: 3}
C_FLAGS = ["-std=gnu11", "-O1", "-g", "-Wall", "-Wextra", "-Werror"]
SANITIZERS = ["-fsanitize=address,undefined", "-fno-sanitize-recover=all"]


class NotThere(Exception):
    """A reader that can't be built on this machine."""


@dataclasses.dataclass(frozen=True)
class Implementation:
    """A table of implementations.toml, which says what each field is."""
    name: str
    of: str
    can: frozenset[str]
    source: str = ""
    known: str = ""
    where: str = "room"
    words: tuple[str, ...] = ()
    packages: tuple[str, ...] = ()
    headers: tuple[str, ...] = ()
    libraries: tuple[str, ...] = ()
    flags: tuple[str, ...] = ()
    build: str = ""
    command: str = ""
    library: bool = False
    program: bool = False
    checks: frozenset[str] | None = None
    omits: frozenset[str] = frozenset()
    codes: str = ""
    says_authentic_first: bool = False


def value_of(name: str, value: object) -> object:
    if isinstance(value, list):
        return frozenset(value) if name in ("can", "checks", "omits") else tuple(value)
    return value


def implementations() -> dict[str, Implementation]:
    return {name: Implementation(name, **{key: value_of(key, value) for key, value in row.items()})
            for name, row in table("implementations").items()}


# ---- building

@dataclasses.dataclass(frozen=True)
class Library:
    """Where libkrbrelay and its header are, and the program."""
    include: pathlib.Path
    folder: pathlib.Path
    program: str

    def shared(self) -> pathlib.Path:
        return self.folder / "libkrbrelay.so.1"


def library_at(prefix: str | None, program: str) -> Library:
    """The library at a prefix, or the one that make in c/ has built."""
    if prefix:
        return Library(pathlib.Path(prefix, "include"), pathlib.Path(prefix, "lib"), program)
    return Library(pathlib.Path(building.TOP, "c"), pathlib.Path(building.C_LIBRARY), program)


@dataclasses.dataclass(frozen=True)
class Runner:
    """What is started, and what it is started with."""
    words: tuple[str, ...]
    environment: dict[str, str]


def run_or_fail(words: list[str] | str, what: str, **how: object) -> None:
    done = subprocess.run(words, check=False, stdout=subprocess.PIPE, stderr=subprocess.STDOUT, text=True, **how)
    if done.returncode:
        raise NotThere(f"{what}: {done.stdout.strip()[-800:]}")


def built(of: Implementation, library: Library, folder: pathlib.Path, sanitized: bool = False) -> Runner:
    """The runner of an implementation, built in a folder. NotThere."""
    source = RUNNERS / of.source
    if source.suffix == ".py":
        environment = {"KRBRELAY": library.program, "KRBRELAY_LIBRARY": str(library.shared()),
                       "PYTHONPATH": os.path.join(building.TOP, "python"), "PYTHONDONTWRITEBYTECODE": "1"}
        return Runner((sys.executable, str(source)), environment)
    if of.build:
        out, environment = folder / of.name, found_by_pkg_config(library, folder) if of.library else {}
        run_or_fail(of.build.format(out=out, source=source, folder=folder), of.name, shell=True,
                    env={**os.environ, **environment})
        command = of.command.format(folder=folder) if of.command else str(out)
        return Runner(tuple(shlex.split(command)), environment)
    return Runner((str(compiled(of, source, library, folder, sanitized)), *of.words), {})


def found_by_pkg_config(library: Library, folder: pathlib.Path) -> dict[str, str]:
    """The variables by which pkg-config and the system's loader find the library."""
    lines = ("Name: krbrelay", "Description: libkrbrelay", "Version: 0", f"Cflags: -I{library.include}",
             f"Libs: -L{library.folder} -lkrbrelay")
    (folder / "krbrelay.pc").write_text("".join(f"{line}\n" for line in lines), encoding="utf-8")
    return {"PKG_CONFIG_PATH": str(folder), "LD_LIBRARY_PATH": str(library.folder)}


def compiled(of: Implementation, source: pathlib.Path, library: Library, folder: pathlib.Path,
             sanitized: bool) -> pathlib.Path:
    out = folder / source.stem if of.library else folder / of.name
    if out.exists():
        return out
    needed: list[str] = []
    for packages in (of.packages, of.headers):
        flags = c_tools.flags_of(*packages) if packages else []
        if flags is None:
            raise NotThere(f"{of.name}: pkg-config knows no {packages[0]}")
        needed += flags if packages is of.packages else [it for it in flags if it.startswith("-I")]
    if of.library:
        needed += [f"-I{library.include}", str(library.folder / "libkrbrelay.a")]
    run_or_fail([*c_tools.c_compiler(), *C_FLAGS, *(SANITIZERS if sanitized else []), *of.flags, f"-I{RUNNERS}", str(source),
                 "-o", str(out), *needed, *of.libraries], of.name)
    return out


# ---- running

def host(address: Address | None) -> str:
    return "-" if address is None else f"{address.kind}:{address.octets.hex()}"


def line_of(group: Group, case: Case) -> str:
    """A case as a runner reads it."""
    asked = case.demand
    fields = [case.number, group.mode, group.etype, group.key.hex(), host(asked.sender), host(asked.receiver),
              int(asked.receiver_required), TIMES[asked.time], asked.now.seconds, asked.now.microseconds, asked.skew,
              "-" if asked.number is None else asked.number, int(asked.needs_time_or_number), int(group.of_records),
              ",".join(step.message.hex() or "." for step in case.steps)]
    return "\t".join(map(str, fields)) + "\n"


Verdicts = dict[int, list[str]]


def verdicts_of(runner: Runner, chosen: list[tuple[Group, Case]]) -> Verdicts:
    """What a runner says of cases. Where it ends before its last one, that case is a crash, and it is
    started again after it."""
    found: Verdicts = {}
    waiting = list(chosen)
    while waiting:
        told, status = some_verdicts(runner, waiting)
        found |= told
        waiting = waiting[len(told):]
        if waiting and not told and len(found) < 3:
            raise NotThere(f"{runner.words[0]} doesn't run: status {status}")
        if waiting:
            crashed = waiting.pop(0)[1]
            found[crashed.number] = [f"crash:{status}"] * len(crashed.steps)
    return found


def some_verdicts(runner: Runner, chosen: list[tuple[Group, Case]]) -> tuple[Verdicts, int]:
    """The verdicts of the cases up to which it runs, and its status."""
    text = "".join(line_of(group, case) for group, case in chosen)
    done = subprocess.run(runner.words, input=text, stdout=subprocess.PIPE, stderr=subprocess.PIPE, check=False,
                          text=True, errors="replace", env={**os.environ, **runner.environment})
    whole = [line.partition("\t") for line in done.stdout.split("\n")[:-1]]
    return {int(number): verdicts.split(",") for number, _, verdicts in whole}, done.returncode
