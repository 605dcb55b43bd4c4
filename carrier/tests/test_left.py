"""No block that a sender or a receiver frees, and none that realloc leaves, has a key of a session, or one that is
derived from it: in whole runs with receipts, where the file of keys is refused, and where an allocation fails.
What SQLite frees has texts, so these are looked for in the units alone (left.h)."""
import subprocess

import pytest
from cases import Place, opened

from lib import scripts
from lib.build import c_tools

KEYS = [bytes(range(0xA1, 0xC1)), bytes(range(0x41, 0x61))]      # of the session, and of the way back
LINE = f"tom 0 18 priv {KEYS[0].hex()} 1 10.0.0.2 10.0.0.255 {KEYS[1].hex()}\n"
TEXTS = 40
STEP = 17               # one allocation in so many fails, in a run of its own
MOST = 20_000           # allocations of a run
LAST = 60               # of which so many come after all is opened: each of these fails once


class Watched:
    """Both programs over SQLite in a folder, each block of which is looked at when it is freed."""

    def __init__(self, programs, folder):
        freed_memory = scripts.load("tests/freed_memory")
        self.programs, self.folder = programs, str(folder)
        self.watch, self.strings = freed_memory.Watch(self.folder), freed_memory.strings_of(KEYS)

    def file(self, text=LINE):
        Place.write(f"{self.folder}/sessions", [text])

    def run(self, name, *words, refuse=0):
        """Its status, how many blocks it freed, and what was found in them."""
        own = {"sender": ["--outbox", f"{self.folder}/outbox.db"],
               "receiver": ["--store", f"sqlite:{self.folder}/store.db", "--shards", "0"]}[name]
        given = [f"{self.programs}/{name}", "--sessions", f"{self.folder}/sessions",
                 "--carrier", f"sqlite:{self.folder}/carrier.db", *own, *words]
        with open(f"{self.folder}/log", "ab") as log:
            return self.watch.run(self.strings, given, refuse, stdin=subprocess.DEVNULL, stderr=log)

    def put(self, count):
        rows = ", ".join(["('tom', 'a text')"] * count + ["('tom', NULL)"])
        with opened(f"{self.folder}/outbox.db") as file:
            file.execute(f"INSERT INTO text (session, body) VALUES {rows}")


@pytest.fixture
def watched(shipped, tmp_path):
    made = Watched(shipped, tmp_path)
    made.file()
    return made


def test_a_key_that_is_left_is_found(watched, tmp_path):
    left = tmp_path / "left.c"
    left.write_text('#include <stdlib.h>\n#include <string.h>\nint main(void) { char *volatile it = malloc(200);'
                    f' memcpy(it + 9, "{KEYS[1].hex()}", 64); free(it); return 0; }}\n', encoding="ascii")
    subprocess.run([*c_tools.c_compiler(), str(left), "-o", str(tmp_path / "left")], check=True)
    _, _, found = watched.watch.run(watched.strings, [str(tmp_path / "left")])
    assert "sender 1 digits" in found and "sender 0 digits" not in found


def test_whole_runs(watched):
    assert watched.run("sender", "--drain")[0] == 0
    watched.put(TEXTS)
    for name, word in (("sender", "--drain"), ("receiver", "--until-closed"), ("sender", "--drain")):
        status, blocks, found = watched.run(name, word)
        assert (status, dict(found)) == (0, {}) and blocks > 100


@pytest.mark.parametrize("name, word", [("sender", "--drain"), ("receiver", "--until-closed")])
@pytest.mark.parametrize("text", [
    LINE + LINE, LINE + "ann 0 18 priv 00\n", LINE.replace(" priv ", " open "), LINE.replace(KEYS[1].hex(), KEYS[0].hex()),
    LINE[:-3], LINE + "x" * 20_000 + "\n", LINE.replace("10.0.0.2", "10.0.0"), LINE.strip() + " more\n"],
    ids=["twice", "a short key", "no mode", "one key for both ways", "a key cut short", "a long line", "no address", "a word more"])
def test_a_file_that_is_refused(watched, name, word, text):
    watched.file(text)
    status, blocks, found = watched.run(name, word)
    assert status not in (0, None) and dict(found) == {} and blocks > 0


def is_refused(watched, name, word, number):
    """Whether a run has so many allocations. It ends by itself where this one fails, and leaves no key."""
    watched.status, _, found = watched.run(name, word, refuse=number)
    assert watched.status >= 0 and dict(found) == {}, number
    return watched.watch.has_refused()


@pytest.mark.parametrize("name, word", [("sender", "--drain"), ("receiver", "--until-closed")])
def test_an_allocation_fails(watched, name, word):
    """The session is closed, so that a program which goes on ends by itself."""
    watched.run("sender", "--drain")
    watched.put(0)
    watched.run("sender", "--drain")
    watched.run("receiver", "--until-closed")
    failed, number = 0, 1
    while is_refused(watched, name, word, number) and number < MOST:
        failed += watched.status != 0
        number += STEP
    assert failed > 30 and number < MOST
    assert all(is_refused(watched, name, word, it) for it in range(number - STEP - LAST, number - STEP))
