"""C programs over libkrbrelay as it is built, and what of this machine they need."""
import dataclasses
import functools
import os
import pathlib
import re
import shutil
import subprocess

import pytest

from lib.build import building, c_tools

ROOM = pathlib.Path(building.TOP, "c")
TESTS, EXAMPLES = ROOM / "tests", ROOM / "examples"
SONAME = "libkrbrelay.so.1"
FLAGS = ("-std=gnu11", "-O2", "-Wall", "-Wextra", "-Wconversion", "-Werror", f"-I{ROOM}")
SANITIZERS = ("-O1", "-g", "-fsanitize=address,undefined", "-fno-sanitize-recover=all")
SECRETS = (str(TESTS / "key_strings"), str(TESTS / "round_keys"))
MAKEFILE = building.text_of("c/Makefile")
NAMES = re.search(r"^TESTS = (.*)$", MAKEFILE, re.M)[1].split()
MOST = 1200     # seconds of one command, for one that hangs
# What Linux calls the features of x86-64-v3. Its abm has lzcnt.
FEATURES = ("avx", "avx2", "bmi1", "bmi2", "f16c", "fma", "abm", "movbe", "xsave")


# ---- commands

def ran(*words, **how):
    """A command that ended, whatever its status is."""
    how = {"capture_output": True, "text": True, "timeout": MOST, "stdin": subprocess.DEVNULL} | how
    return subprocess.run([str(it) for it in words], check=False, **how)


def run(*words, **how):
    """Runs a command, which has to end well. Returns what it printed."""
    done = ran(*words, **how)
    assert done.returncode == 0, f"{' '.join(map(str, words))}: status {done.returncode}\n{done.stdout}{done.stderr}"
    return done.stdout


def piped(*commands):
    """Runs commands, each of which reads what the one before it prints. All have to end well."""
    said = ""
    for words in commands:
        said = run(*words, input=said, stdin=None)
    return said


def of_makefile(what, name):
    """The words that the Makefile has of a test: LINKED those of the linker, and WORDS what it is started with."""
    found = re.search(rf"^{what}_{name} = (.*)$", MAKEFILE, re.M)
    return found[1].replace("$(SOURCES)", str(ROOM)).split() if found else []


# ---- what this machine has

def there(command):
    """A command, without which a test is skipped."""
    if not shutil.which(command):
        pytest.skip(f"{command} isn't installed")
    return command


def with_sanitizers(compiler, folder):
    """A compiler that has sanitizers."""
    (folder / "none.c").write_text("int main(void) { return 0; }\n", encoding="ascii")
    if ran(there(compiler), *SANITIZERS, folder / "none.c", "-o", folder / "none").returncode:
        pytest.skip(f"{compiler} has no sanitizers")
    return compiler


def mit_flags():
    """The words for MIT's library. Debian has it beside Heimdal's as mit-krb5."""
    there("pkg-config")
    return c_tools.flags_of("mit-krb5", "krb5") or pytest.skip("MIT's library (krb5-multidev) isn't installed")


def has_level(processor):
    """Whether the processor has all that x86-64-v3 asks for, by the text of /proc/cpuinfo."""
    flags = re.search(r"^flags\s*:(.*)$", processor, re.M)
    return bool(flags) and set(FEATURES) <= set(flags[1].split())


def is_tested(ran_over_v3, processor):
    """Whether enough of the tests ran: where a processor has the level its object is tested, whatever the loader says."""
    return ran_over_v3 or not has_level(processor)


# ---- the library

@dataclasses.dataclass(frozen=True)
class Library:
    """One of both objects in the folder where it is built, and the folder for programs over it."""
    room: pathlib.Path
    flags: tuple
    programs: pathlib.Path

    @functools.cache
    def compiled(self, source, compiler="cc", *words, over=()):
        """A program of a file of c/, or of some, over the archive or other objects."""
        made = self.programs / f"{pathlib.Path(source).stem}-{len(os.listdir(self.programs))}"
        sources = sorted(ROOM.glob(source))
        assert sources, source
        run(compiler, *self.flags, *sources, *(over or [self.room / "libkrbrelay.a"]), *words, "-o", made)
        return made

    def beside_proved(self):
        """The library as the C beside the proved code, which is compiled anew, and the proved code."""
        return (*sorted(ROOM.glob("unproved/*.c")), self.room / "proved.o", self.room / "heap.o")

    def test(self, name, compiler="cc", is_sanitized=False):
        """The program of a test."""
        words, over = ((*SANITIZERS,), self.beside_proved()) if is_sanitized else ((), ())
        return self.compiled(f"tests/{name}.c", compiler, *words, *of_makefile("LINKED", name), over=over)

    def matrix(self, compiler="cc"):
        return self.compiled("tests/matrix/*.c", compiler, f"-I{TESTS}", *of_makefile("LINKED", "matrix"))
