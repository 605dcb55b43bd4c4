"""`krbrelay show` and `python3 -m krbrelay show` print the same and end alike, in both forms, over messages that
are right, changed, cut, over several lines and refused by a key, over lines of any bytes, and over files of a key."""
import os
import re
import subprocess
import sys

import pytest

from lib import typed
from lib.build import building
from oracle import fixtures, frames, fuzz_messages

KEYS = (fixtures.KEY_128, fixtures.KEY_256)
PACKAGE = {**os.environ, "PYTHONPATH": os.path.join(building.TOP, "python"), "PYTHONDONTWRITEBYTECODE": "1"}
PRIVATE = "75193017a003020105a103020115a30b3009a003020111a2020400"


def ran(words, text):
    done = subprocess.run(words, input=text.encode(), env=PACKAGE, capture_output=True, check=False, timeout=60)
    return done.returncode, done.stdout.decode(), done.stderr.decode()


def compared(program, text, *words):
    """What both print, which is the same."""
    of_program = ran([program, "show", *words], text)
    of_package = ran([sys.executable, "-m", "krbrelay", "show", *words], text)
    assert of_program == of_package, (words, text[:80])
    return of_program


def lines_of(key):
    """Messages under a key, of each of the first two all with a byte changed, and one that is cut."""
    right = list(fuzz_messages.sealed(key))
    changed = [it[:at] + bytes([it[at] ^ 1]) + it[at + 1:] for it in right[:2] for at in range(len(it))]
    return [it.hex() for it in [*right, *changed, right[0][:-1]]]


@pytest.mark.parametrize("key", KEYS, ids=len)
@pytest.mark.parametrize("spelt", [bytes, lambda key: key.hex().encode(),
                                   lambda key: key.hex(":").upper().encode() + b"\r\n"],
                         ids=["bytes", "digits", "colons"])
def test_messages(krbrelay, tmp_path, key, spelt):
    lines, file = lines_of(key), tmp_path / "key"
    file.write_bytes(spelt(key))
    status, printed, told = compared(krbrelay, "".join(f"{it}\n" for it in lines), "--key", str(file))
    assert (status, len(printed.splitlines()), told) == (2, len(lines), "")
    assert {"opened", "refused"} <= set(printed.split())
    for etype in ("17", "18"):
        status, printed, told = compared(krbrelay, lines[0], "--key", str(file), "--etype", etype)
        is_its_own = int(etype) == frames.etype_of(key)
        assert (status, bool(printed), told == "") == (0 if is_its_own else 2, is_its_own, is_its_own)


@pytest.mark.parametrize("text, status, status_of_any", [
    ("", 0, 0), ("\n", 2, 2), ("7g\n\n7519", 2, 2), (PRIVATE, 0, 0), (f"{PRIVATE}\n{PRIVATE.upper()}", 0, 0),
    (f"{PRIVATE}\n\n\n", 2, 0), (f"{PRIVATE}\r\n", 2, 0), (f"{PRIVATE}\n751\n{PRIVATE}\n", 2, 2),
    ("\n".join(re.findall(".{1,9}", PRIVATE)), 2, 0), (" : ".join(PRIVATE) + "\r\n\r\n", 2, 0),
    (f"{PRIVATE[:9]}\n{PRIVATE[9:]}\n{PRIVATE}", 2, 2), ("75-19", 2, 2), ("\u0661", 2, 2), (PRIVATE + "\0", 2, 2)])
def test_lines(krbrelay, tmp_path, text, status, status_of_any):
    assert compared(krbrelay, text)[0] == status
    assert compared(krbrelay, text, "--any")[0] == status_of_any
    file = tmp_path / "key"
    file.write_bytes(fixtures.KEY_128)
    lines = text.replace(PRIVATE, next(iter(fuzz_messages.sealed(fixtures.KEY_128))).hex())
    for form in ((), ("--any",)):
        compared(krbrelay, lines, *form, "--key", str(file))


@pytest.mark.parametrize("form", [(), ("--any",)], ids=str)
@pytest.mark.parametrize("byte", "\n\r\t :\0g", ids=repr)
def test_a_byte_at_each_place(krbrelay, form, byte):
    """Both print what an independent reader says (tests/oracle), of all such lines together and of some alone."""
    texts = [PRIVATE[:at] + byte + PRIVATE[at:] for at in range(len(PRIVATE) + 1)]
    for text in ("\n".join(texts), texts[0], texts[5], texts[-1]):
        wanted = fuzz_messages.shown(text.encode(), bool(form))
        assert compared(krbrelay, text, *form)[1].splitlines() == wanted


def test_no_key(krbrelay, tmp_path):
    file = tmp_path / "key"
    for held in (b"", bytes(15), bytes(17), b"0" * 31, b"0" * 33, b"0" * 63, b"0" * 65):
        file.write_bytes(held)
        assert compared(krbrelay, PRIVATE, "--key", str(file))[0] == 2
    for words in (["--etype", "17"], ["--key", str(tmp_path)], ["--key", str(tmp_path / "none")]):
        assert compared(krbrelay, PRIVATE, *words)[:2] == (2, "")


@pytest.mark.parametrize("size", [40, 41])
def test_a_long_address(krbrelay, tmp_path, size):
    """The one difference: the library opens no message with an address of more than 40 bytes."""
    key, file = fixtures.KEY_128, tmp_path / "key"
    file.write_bytes(key)
    body = frames.body(b"Dhi", fixtures.MICROS, 7, (2, bytes(size)))
    text, words = frames.seal_priv(key, body, bytes(16)).hex(), ["show", "--key", str(file)]
    of_program = ran([krbrelay, *words], text)
    of_package = ran([sys.executable, "-m", "krbrelay", *words], text)
    assert of_program[0] == 0 and " opened " in of_program[1]
    assert of_package == (of_program if size == 40 else (
        2, of_program[1].partition(" opened ")[0] + " refused 38 BADADDR\n", ""))


@pytest.mark.parametrize("page", ["README.md", "docs/USE.md"])
def test_the_first_command_of_a_page(krbrelay, page):
    """As it is pasted, but over the program that is built here."""
    first = typed.lines_of(page)[0]
    assert first.command.startswith("tools/krbrelay show ")
    done = subprocess.run(first.command.replace("tools/krbrelay", krbrelay, 1), shell=True, cwd=building.TOP,
                          capture_output=True, text=True, check=False, timeout=60)
    assert typed.are_printed(first.printed, done.stdout.splitlines()), done.stdout


def test_a_text_on_the_command_line():
    """The package takes a message as a word too."""
    words = [sys.executable, "-m", "krbrelay", "show", PRIVATE]
    assert ran(words, "") == (0, "PRIV 5 21 etype=17 kvno=- cipher=\n", "")
