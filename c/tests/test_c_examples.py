"""The programs of c/examples: each does what docs/C.md and the manual say of it.

With --all they are compiled by gcc and clang too, and those of several ends run under sanitizers.
"""
import functools
import os
import random
import re
import socket
import subprocess

import pytest

import over_library as over
from lib.build import building
from over_library import EXAMPLES, run

PAGE = [it[4:] for it in building.text_of("docs/C.md").splitlines() if it.startswith("    ")]
RACES = ("-O1", "-g", "-fsanitize=thread")
TO_SEND = 60        # seconds


@pytest.fixture
def example(plain, compiler):
    return lambda name, *words: plain.compiled(f"examples/{name}.c", compiler, *words)


def see_two_ends(program, **how):
    """The text is on one stream, and the refusal on the other."""
    done = over.ran(program, **how)
    assert (done.returncode, done.stdout, done.stderr) == (
        0, "message 7: hello\n", "open: 42: the sequence number isn't the expected one\n")


def test_two_ends(example):
    see_two_ends(example("two_ends"))


def test_the_manual_quotes_the_program():
    """tools/check_documents compares docs/C.md."""
    page = building.text_of("c/man/krbrelay.3")
    quoted = re.search(r"two_ends.c, from the next line.*\n\.nf\n([^\0]*?)^\.fi$", page, re.M)
    assert quoted[1].replace("\\e", "\\") == (EXAMPLES / "two_ends.c").read_text(encoding="utf-8")


def test_three_of_four_messages_are_taken_in_any_order(example):
    assert run(example("any_order")) == "taken: third\ntaken: first\nrefused: the number was taken before\ntaken: later\n"


def test_the_examples_of_the_manual_s_pages(example):
    assert run(example("pieces")) == "one\ntwo\n"


# ---- threads

def see_threads(program):
    assert set(run(program, 500).splitlines()) <= set(PAGE)


def test_threads(example):
    see_threads(example("threads", "-pthread"))


@pytest.mark.slow
def test_threads_under_the_sanitizer(plain, sanitizing):
    see_threads(plain.compiled("examples/threads.c", sanitizing, *RACES, "-pthread"))


# ---- a server of sessions

def send_junk(port, data):
    """What a client without the keys sends."""
    with socket.create_connection(("127.0.0.1", port), TO_SEND) as connection:
        connection.sendall(data)


def see_echo(program):
    """Two clients at once, and then one that sends no message, one that comes a second time, and one whose number isn't
    below 128."""
    begin = functools.partial(subprocess.Popen, stdin=subprocess.DEVNULL, stdout=subprocess.PIPE, stderr=subprocess.PIPE,
                              text=True)
    with begin(["timeout", str(over.MOST), program, "server", "5"]) as server:
        port = server.stdout.readline().removeprefix("port ").strip()
        clients = [begin([program, "client", port, str(it), "200"]) for it in (1, 2)]
        texts = "".join(it.communicate(timeout=over.MOST)[0] for it in clients).splitlines()
        for junk in (b"\3\0\0\0\4junk", b"\1\0\0\0\4junk", b"\x80"):
            send_junk(int(port), junk)
        lines, faults = server.communicate()
    assert [it.returncode for it in (*clients, server)] == [0, 0, 0], faults
    assert faults == "client 3: refused: not a DER-encoded KRB-SAFE or KRB-PRIV message\n"
    assert sorted(lines.splitlines()) == sorted([*texts, *(f"client {it}: 0 texts" for it in (1, 3, 128))])
    assert texts and set(texts) <= set(PAGE)


def test_echo(example):
    see_echo(example("echo"))


@pytest.mark.slow
def test_echo_under_the_sanitizers(plain, sanitizing):
    see_echo(plain.compiled("examples/echo.c", sanitizing, *over.SANITIZERS))


# ---- texts in files, where SQLite stands for whatever stores rows

def said(*words):
    """What a program prints that says nothing of a fault."""
    done = over.ran(*words)
    assert (done.returncode, done.stderr) == (0, "")
    return done.stdout.splitlines()


def is_killed_soon(*words):
    """Kills a program after some hundredths of a second, unless it ended before."""
    done = over.ran("timeout", "-s", "KILL", f"0.0{random.randint(1, 5)}", *words)
    assert done.stderr == ""
    return done.returncode != 0


def see_store(program, folder):
    """Both ends are killed, over and over, and started again."""
    said(program, "send", folder / "few.db", 3)
    said(program, "receive", folder / "few.db", folder / "few_received.db")
    few = said(program, "show", folder / "few_received.db")
    assert few and set(few) <= set(PAGE)
    sends = [program, "send", folder / "sent.db", 2000]
    receives = [program, "receive", folder / "sent.db", folder / "received.db"]
    assert sum(is_killed_soon(*words) for _ in range(20) for words in (sends, receives)) > 5
    for words in (sends, receives, receives):       # at last frames come again
        said(*words)
    assert said(program, "show", folder / "received.db") == [*(f"text {it}" for it in range(2000)), "closed"]


@pytest.fixture
def sqlite():
    if not os.path.exists("/usr/include/sqlite3.h"):
        pytest.skip("libsqlite3-dev isn't installed")
    return "-lsqlite3"


def test_store(example, sqlite, tmp_path):
    see_store(example("store", sqlite), tmp_path)


@pytest.mark.slow
def test_store_under_the_sanitizers(plain, sanitizing, sqlite, tmp_path):
    see_store(plain.compiled("examples/store.c", sanitizing, *over.SANITIZERS, sqlite), tmp_path)
