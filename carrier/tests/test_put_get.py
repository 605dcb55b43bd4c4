"""krbrelay-put, krbrelay-get, krbrelay-status and krbrelay.carrier, over both programs and SQLite; and the first lines of
the carrier's page, as they are pasted."""
import contextlib
import json
import os
import pathlib
import re
import signal
import sqlite3
import subprocess
import sys

import pytest
from builds import SOURCES
from test_effects import TO_WAIT, Ends, await_so, end

from lib.build import building

sys.path.insert(0, os.path.join(building.TOP, "python"))
from krbrelay import carrier  # noqa: E402

MODULE = os.path.join(building.TOP, "python", "krbrelay", "carrier.py")
STATUS = os.path.join(SOURCES, "status")


@pytest.fixture
def ends(shipped, tmp_path, prefix):
    return Ends(shipped, tmp_path, prefix)


def ran(name, *words, given=b""):
    done = subprocess.run([sys.executable, MODULE, name, *words], input=given, capture_output=True, check=False,
                          timeout=TO_WAIT)
    return done.returncode, done.stdout.decode(), done.stderr.decode()


def put(ends, *words, given=b""):
    return ran("put", "--outbox", f"{ends.folder}/outbox.db", *words, given=given)


def got(ends, *words):
    status, printed, told = ran("get", "--store", ends.store, *words)
    assert (status, told) == (0, ""), told
    return [json.loads(line) for line in printed.splitlines()]


def deliver(ends, meanwhile=lambda: None, at_last=lambda: None):
    """All that was put, and is put meanwhile, with its receipts. Then something may be looked at."""
    started = [ends.sender(), ends.receiver()]
    meanwhile()
    with contextlib.closing(sqlite3.connect(f"{ends.folder}/outbox.db", timeout=30)) as file:
        waiting = "SELECT (SELECT count(*) FROM text) + (SELECT count(*) FROM sealed)"
        await_so(lambda: not file.execute(waiting).fetchone()[0], lambda: ends.log()[-2000:])
        at_last()
    end(*started)


def test_what_was_put_is_got(ends):
    """A text, lines, bytes that are no text, and the close; then nothing more is taken."""
    assert put(ends, "tom", given=b"hello\n") == (0, "", "")
    assert put(ends, "--lines", "tom", given="one\nzw\u00f6i\n".encode()) == (0, "", "")
    assert put(ends, "tom", given=b"\xff\0") == (0, "", "")
    assert put(ends, "ann", MODULE) == (0, "", "")
    assert put(ends, "--close", "tom") == (0, "", "")
    assert put(ends, "tom", given=b"late") == (1, "", "krbrelay-put: this session was closed: it takes no text\n")
    deliver(ends)
    wanted = [("hello\n", 1), ("one", 2), ("zw\u00f6i", 3), (None, 4)]
    found = got(ends, "tom")
    assert [(it.get("text"), it["number"]) for it in found] == wanted and found[3]["data"] == "ff00"
    assert [it["id"] for it in got(ends, "--count", "2", "--after", str(found[0]["id"]))] \
        == [it["id"] for it in got(ends)[1:3]]
    with open(MODULE, "rb") as file:
        assert ran("get", "ann", "--raw", "--store", ends.store)[1].encode() == file.read()


def test_the_logs_of_databases_are_written_back(ends):
    """Each has 16 MB and some transactions at most, of 54 MB that pass through it."""
    sizes = {}

    def put_all():
        for _ in range(30):
            assert put(ends, "--lines", "tom", given=(b"x" * 900_000 + b"\n") * 2) == (0, "", "")

    def look():
        sizes.update({name: os.path.getsize(f"{ends.folder}/{name}") for name in os.listdir(ends.folder) if name.endswith("-wal")})

    deliver(ends, put_all, look)
    assert len(sizes) == 3 and max(sizes.values()) < 36 << 20, sizes


def test_waiting_for_a_receipt(ends):
    """--wait ends once the receiver's receipt came, and not before."""
    status, _, told = put(ends, "--wait", "0.5", "tom", given=b"a")
    assert status == 3 and "no receipt" in told
    started = [ends.sender(), ends.receiver()]
    assert put(ends, "--wait", "60", "tom", given=b"b") == (0, "", "")
    assert [it["text"] for it in got(ends)] == ["a", "b"]
    end(*started)


def frames_of(ends):
    return ends.run("outbox", "SELECT count(*) FROM frame")[0][0]


def test_frames_with_a_receipt_are_deleted_after_a_transaction_that_failed(ends):
    """Both sessions' receipts came before the sender: the first frame's deletion is taken back with that of the second
    one, which fails. Later both are deleted, though no text comes, nor another receipt."""
    for name in ("tom", "ann"):
        assert put(ends, name, given=b"a") == (0, "", "")
    assert ends.sender("--drain").wait(TO_WAIT) == 0
    receiver = ends.receiver()
    ends.await_frames(2)
    end(receiver)
    assert frames_of(ends) == 2
    ends.run("outbox", "CREATE TRIGGER no BEFORE DELETE ON frame WHEN (SELECT count(*) FROM frame) = 1"
             " BEGIN SELECT RAISE(ABORT, 'not now'); END")
    sender = ends.sender()
    await_so(lambda: b"not now" in pathlib.Path(f"{ends.folder}/sender.log").read_bytes())
    ends.run("outbox", "DROP TRIGGER no")
    await_so(lambda: not frames_of(ends), lambda: "a frame stays")
    end(sender)


def test_a_session_whose_shard_changes_before_it_is_read(ends):
    """What was carried in the shard before is published to the new one, though both have one file."""
    assert put(ends, "--lines", "tom", given=b"a\nb\n") == (0, "", "")
    assert ends.sender("--drain").wait(TO_WAIT) == 0
    with open(f"{ends.folder}/sessions", encoding="ascii") as file:
        text = file.read()
    with open(f"{ends.folder}/sessions", "w", encoding="ascii") as file:
        file.write(text.replace("tom 0 ", "tom 1 "))
    assert put(ends, "--lines", "tom", given=b"c\n") == (0, "", "")
    assert ends.sender("--drain").wait(TO_WAIT) == 0
    receiver = ends.start("receiver", "--store", ends.store, "--shards", "0,1")
    ends.await_frames(4)
    assert [it["text"] for it in got(ends)] == ["a", "b", "c"]
    end(receiver)


def test_following(ends):
    """What comes later is printed too, also where there is no store yet."""
    words = [sys.executable, MODULE, "get", "--store", ends.store, "--follow", "--count", "3"]
    with subprocess.Popen(words, stdout=subprocess.PIPE, text=True) as following:
        for text in (b"a", b"b", b"c"):
            put(ends, "tom", given=text)
            deliver(ends)
        assert [json.loads(line)["text"] for line in following.stdout] == ["a", "b", "c"]
        assert following.wait(TO_WAIT) == 0


def test_faults(ends, tmp_path):
    for words, status in ((("get", "--store", "mysql:x"), 2), (("get", "--store", f"sqlite:{tmp_path}/none"), 1),
                          (("put", "--outbox", f"{tmp_path}/none", "tom"), 1), (("put", "tom"), 2), (("none",), 2),
                          (("get", "--store", "postgresql://h/d", "--follow"), 2),
                          (("put", "--outbox", f"{ends.folder}/outbox.db", "tom", f"{tmp_path}/none"), 1)):
        assert ran(*words)[0] == status, words
    assert not os.path.exists(tmp_path / "none")


def test_in_the_application_s_own_transaction(ends):
    """What is put and what is stored beside it is there together, or not at all; so is what is taken."""
    with contextlib.closing(carrier.open_outbox(f"{ends.folder}/outbox.db")) as outbox:
        outbox.execute("CREATE TABLE mine (order_id INTEGER)")
        for order, is_kept in ((1, True), (2, False), (3, True)):
            outbox.execute("INSERT INTO mine VALUES (?)", (order,))
            ids = carrier.put(outbox, "tom", b"order %d" % order)
            outbox.commit() if is_kept else outbox.rollback()
        assert [it for it, in outbox.execute("SELECT order_id FROM mine")] == [1, 3]
        assert carrier.count_waiting(outbox, ids) == 1
        deliver(ends)
        assert carrier.count_waiting(outbox, ids) == 0
    with contextlib.closing(sqlite3.connect(f"{ends.folder}/store.db", timeout=30)) as store:
        assert [it.data for it in carrier.texts(store)] == [b"order 1", b"order 3"]
        assert [it.data for it in carrier.take(store, 1)] == [b"order 1"]
        store.rollback()
        assert [it.data for it in carrier.take(store, 1)] == [b"order 1"]
        store.commit()
        assert [(it.data, it.session, it.number, it.part) for it in carrier.take(store)] == [(b"order 3", "tom", 2, 0)]


def test_status_in_json(ends):
    put(ends, "tom", given=b"a")
    deliver(ends)
    put(ends, "nobody", given=b"a")
    ends.sender("--drain").wait(TO_WAIT)
    words = [STATUS, "--json", "--outbox", f"{ends.folder}/outbox.db", "--store", ends.store]
    told = json.loads(subprocess.run(words, check=True, stdout=subprocess.PIPE, timeout=TO_WAIT).stdout)
    tom = told["sessions"]["tom"]
    assert (tom["shard"], tom["sealed"], tom["done"], tom["texts"], tom["demanded"], tom["closed"], tom["waits"]) \
        == (0, 2, 2, 0, 2, False, [])
    assert told["sessions"]["nobody"]["texts"] == 1 and told["sessions"]["nobody"]["waits"][0].startswith("stopped since")
    assert told["shards"]["0"]["end"] is None
    ends.run("outbox", "DELETE FROM text WHERE session = 'nobody'")
    done = subprocess.run([STATUS, "--standing", *words[2:4]], check=False, capture_output=True, text=True, timeout=TO_WAIT)
    assert (done.returncode, "nobody" in done.stdout) == (1, True), "a name that stands without texts, too"
    def heeds_interrupts():
        signal.signal(signal.SIGINT, signal.SIG_DFL)    # which a job in the background ignores
    with subprocess.Popen([*words, "--watch", "0.1"], stdout=subprocess.PIPE, text=True,
                          preexec_fn=heeds_interrupts) as watching:
        assert [json.loads(watching.stdout.readline())["sessions"]["tom"] for _ in range(3)] == [tom] * 3
        watching.send_signal(signal.SIGINT)
        assert watching.wait(TO_WAIT) == 130


def test_the_first_lines_of_the_page(programs, prefix, tmp_path):
    """As they are pasted, with what `make install` installs."""
    words = ["make", "-s", "-C", SOURCES, "install", f"OUT={programs}", f"PREFIX={prefix}", f"DESTDIR={tmp_path}/at",
             "WITH_NATS=no", "WITH_POSTGRESQL=no"]
    subprocess.run(words, check=True, stdout=subprocess.DEVNULL)
    folder = f"{tmp_path}/at{prefix}/bin"
    page = building.text_of("carrier/README.md")
    block = re.search(r"^## Try it\n\n(?:[^ ].*\n)+\n((?:    .*\n)+)", page, re.M)[1]
    lines = [line[4:] for line in block.splitlines()]
    typed = [line[2:] for line in lines if line.startswith("$ ")]
    printed = [line for line in lines if not line.startswith("$ ")]
    work = tmp_path / "work"
    work.mkdir()
    done = subprocess.run(["bash", "-c", "\n".join([*typed, "kill %1 %2; wait"])], cwd=work, check=False, capture_output=True,
                          text=True, timeout=TO_WAIT, env={**os.environ, "PATH": f"{folder}:{os.environ['PATH']}"})
    assert done.stdout.splitlines() == printed and len(printed) == 2, done.stderr[-2000:]
