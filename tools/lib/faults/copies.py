"""A copy of the repository in which a fault may be planted, and what is built of it without proofs."""
import contextlib
import functools
import os
import shutil
import signal
import subprocess
import tempfile
import threading

from lib.build import building, c_tools, family, without_proofs
from lib.faults import planted, wrapped

LIBRARY = without_proofs.LIBRARY
FLAGS = ["-std=gnu11", "-O2", "-w"]
SECONDS = 900
AUTHOR = ["-c", "user.name=plants", "-c", "user.email=plants@localhost"]
NOTE = "from lib.build import building; building.note({made!r}, building.digest_of({crate!r}))"


def committed() -> list[str]:
    """The files of the repository, as they stand here."""
    found = subprocess.run(["git", "-C", building.TOP, "ls-files", "-z"], check=True,
                           stdout=subprocess.PIPE, text=True).stdout
    return [it for it in found.split("\0")[:-1] if os.path.exists(os.path.join(building.TOP, it))]


ROOM = tempfile.TemporaryDirectory()     # for what all copies stand on
ONE = threading.Lock()


def is_proved() -> bool:
    """Whether the library is proved and built of these sources."""
    return building.is_built(LIBRARY, building.top_of(LIBRARY))


def code_of_library() -> str:
    """The library's own code, as it stands here: proved, if that is built, else compiled once without proofs."""
    if is_proved():
        return os.path.join(building.C_LIBRARY, "krbrelay.s")
    made = os.path.join(ROOM.name, "code.o")
    with ONE:
        if not os.path.exists(made):
            without_proofs.library_code(building.TOP, made)
    return made


def program_of_sources(crate: str, *words: str) -> str:
    """A program of a crate as it stands here, compiled once without proofs: for all copies that change no crate."""
    made = os.path.join(ROOM.name, "-".join([crate, *words]))
    with ONE:
        if not os.path.exists(made):
            without_proofs.program(building.TOP, made, crate, *words)
    return made


def copied(top: str) -> None:
    """Copies the repository's files."""
    for name in committed():
        place = os.path.join(top, name)
        os.makedirs(os.path.dirname(place), exist_ok=True)
        shutil.copy(os.path.join(building.TOP, name), place)


def unchanged() -> str:
    """One copy for all plants that change no file, in which checks change none."""
    top = os.path.join(ROOM.name, "copy")
    with ONE:
        if not os.path.exists(top):
            copied(top)
    return top


class Copy:
    """A copy with a plant, or with none. Plants that change no file share one."""

    def __init__(self, folder: str, plant: planted.Plant | None = None):
        self.folder = folder
        self.wraps = plant.wraps if plant else ()
        self.changes_crates = any(it.startswith("crates/") for it in plant.files()) if plant else False
        self.is_shared = plant is not None and not plant.edits
        if self.is_shared:
            self.top = unchanged()
            return
        self.top = self.place("copy")
        copied(self.top)
        for edit in plant.edits if plant else ():
            planted.make(edit, self.top)

    def commit(self) -> None:
        """Makes a repository of it: some tests ask for the commit, or what is in it."""
        for words in ("init -q", "add -A", "commit -qm copy"):
            subprocess.run(["git", "-C", self.top, *AUTHOR, *words.split()], check=True)

    def place(self, name: str) -> str:
        return os.path.join(self.folder, name)

    def run(self, words: list, most: int = 3000, seconds: int = SECONDS, **how) -> tuple[bool, str]:
        """Whether a command ends with 0 in so many seconds, and the end of what it said."""
        how.setdefault("cwd", self.folder)
        with subprocess.Popen(words, stdin=subprocess.DEVNULL, stdout=subprocess.PIPE,
                              stderr=subprocess.STDOUT, **how) as ran:
            try:
                said, _ = ran.communicate(timeout=seconds)
            except subprocess.TimeoutExpired:
                for number in (*family.below(ran.pid), ran.pid):
                    with contextlib.suppress(ProcessLookupError):
                        os.kill(number, signal.SIGKILL)
                return False, f"not at its end after {seconds} seconds"
        ended = f"\nended by signal {-ran.returncode}" if ran.returncode < 0 else ""
        return ran.returncode == 0, said.decode(errors="replace")[-most:] + ended

    def is_of_proved_code(self) -> bool:
        """Whether the library has the proved code, if with a function around a call of it."""
        return not self.changes_crates and is_proved()

    @functools.cached_property
    def library(self) -> str:
        """The folder with libkrbrelay: of the proved code, if no crate is changed and that is built."""
        folder = self.place("library")
        if self.changes_crates:
            without_proofs.library(self.top, folder)
            return folder
        code = code_of_library()
        if self.wraps:
            os.makedirs(folder)
            wrapped.wrap(code, self.top, self.wraps, self.place("wrapped.o"))
            code = self.place("wrapped.o")
        without_proofs.make_library(self.top, folder, code)
        return folder

    @functools.cached_property
    def program(self) -> str:
        """The program krbrelay, in the place of the copy's proved one, so that all tests take it."""
        return self.built("krbrelay", "krbrelay")

    def tests(self, crate: str) -> str:
        """The test program of a crate, likewise."""
        return self.built(crate, f"{crate}_tests", "--test")

    def built(self, crate: str, name: str, *words: str) -> str:
        """A program of a crate, which is noted as built from the copy's sources."""
        made = os.path.join(self.top, "crates", crate, "out", name)
        os.makedirs(os.path.dirname(made), exist_ok=True)
        if self.changes_crates:
            without_proofs.program(self.top, made, crate, *words)
        else:
            shutil.copy(program_of_sources(crate, *words), made)
        noted, said = self.run(["python3", "-c", NOTE.format(made=made, crate=crate)],
                               cwd=os.path.join(self.top, "tools"))
        if not noted:
            raise without_proofs.NotCompiled(said)
        return made

    @functools.cached_property
    def installed(self) -> str:
        """The folder at which libkrbrelay is installed."""
        prefix = self.place("installed")
        done, said = self.run(["make", "-s", "-f", f"{self.top}/c/Makefile", f"SOURCES={self.top}/c",
                               f"PROVED={self.library}/proved.o", f"PREFIX={prefix}", "install"],
                              cwd=self.library)
        if not done:
            raise without_proofs.NotCompiled(said)
        return prefix

    def compiled(self, name: str, sources: list[str], *words: str) -> str:
        """A C program over the library."""
        made = self.place(name)
        if self.is_shared:
            sources = [self.compiled_once(it, *words) for it in sources]
        done, said = self.run([*c_tools.c_compiler(), *FLAGS, f"-I{self.top}/c", f"-I{self.top}/c/tests",
                               *sources, f"{self.library}/libkrbrelay.a", *words, "-o", made])
        if not done:
            raise without_proofs.NotCompiled(said)
        return made

    def compiled_once(self, source: str, *words: str) -> str:
        """The object of a source that no plant changes."""
        defined = [it for it in words if it.startswith("-D")]
        made = f"{source}{''.join(defined)}.o"
        with ONE:
            if not os.path.exists(made):
                without_proofs.run([*c_tools.c_compiler(), *FLAGS, f"-I{self.top}/c", f"-I{self.top}/c/tests",
                                    *defined, "-c", source, "-o", made])
        return made
