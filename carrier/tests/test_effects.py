"""The effects of --effect and of --put-aside, over SQLite: how often each text's effect happens while both ends are
killed over and over, what is put aside, and what isn't."""
import contextlib
import json
import os
import random
import re
import signal
import sqlite3
import subprocess
import sys
import time

import pytest
from builds import SOURCES
from cases import Place, opened

from lib.build import c_tools

KEY = "0 18 priv " + "22" * 32 + " 1 10.0.0.2 10.0.0.255"
TEXTS = 1500
TO_WAIT = 60            # seconds
STATEMENT = ("sql:INSERT INTO mine (session, number, part, text, again) -- :none, of a comment\n"
             "VALUES (:session, :number, :part, :text, ':text' || :session);")
# A shared object that does one thing by the store, and another one elsewhere: it writes the text down.
OBJECT = """
#include "effect.h"
#include <stdio.h>
#include <string.h>
static int write_down(const struct arrived *it)
{
    FILE *file = fopen(WRITTEN, "a");
    if (file == NULL)
        return -1;
    fprintf(file, "%s %llu %u ", it->session, (unsigned long long)it->number, it->part);
    for (size_t i = 0; i < it->len; i++)
        fprintf(file, "%02x", it->text[i]);
    fprintf(file, "\\n");
    return fclose(file) == 0 ? 0 : -1;
}
enum answer take_effect(struct store *store, const struct arrived *it)
{
    const struct value values[] = { { VALUE_TEXT, 0, it->session, strlen(it->session) },
                                    { VALUE_NUMBER, it->number, NULL, 0 }, { VALUE_NUMBER, it->part, NULL, 0 },
                                    { VALUE_BYTES, 0, it->text, it->len } };
    return write_down(it) != 0 ? ANSWER_FAULT
        : store_run(store, "INSERT INTO mine (session, number, part, text) VALUES ($1, $2, $3, $4)", values, 4);
}
"""
# A command that writes down each text before it answers; WORDS has what it answers to some of them.
COMMAND = """
import json, os, sys
answers = json.loads(sys.argv[2])
for line in sys.stdin:
    it = json.loads(line)
    with open(sys.argv[1], "a", encoding="ascii") as file:
        file.write(f"{it['session']} {it['number']} {it['part']} {it['text']}\\n")
    said = answers.get(bytes.fromhex(it["text"]).decode(), "ok")
    if isinstance(said, list):
        once = sys.argv[1] + "." + it["text"]
        said = "ok" if os.path.exists(once) else said[0]
        open(once, "w").close()
    if said == "end":
        sys.exit(1)
    print(said, flush=True)
"""


def await_so(is_so, told=lambda: None):
    """Waits until it is so; what is told then is known of a test that fails."""
    until = time.monotonic() + TO_WAIT
    while not is_so():
        assert time.monotonic() < until, told()
        time.sleep(0.02)


def end(*processes, seconds=30):
    """SIGTERM ends each, and well."""
    for it in processes:
        it.terminate()
        assert it.wait(seconds) == 0


class Ends:
    """Both ends of one session, in a folder."""

    def __init__(self, programs, folder, prefix):
        self.programs, self.folder, self.prefix = programs, str(folder), prefix
        self.both = ["--sessions", f"{folder}/sessions", "--carrier", f"sqlite:{folder}/carrier.db"]
        Place.write(f"{folder}/sessions", [f"tom {KEY}\nann {KEY.replace('22' * 32, '23' * 32)}\n"])
        self.batch, self.store = "1", f"sqlite:{folder}/store.db"
        self.sender("--drain").wait()

    def start(self, program, *words):
        with open(f"{self.folder}/{program}.log", "ab") as log:
            return subprocess.Popen([f"{self.programs}/{program}", *self.both, *words], stderr=log)

    def sender(self, *words):
        return self.start("sender", "--outbox", f"{self.folder}/outbox.db", "--batch", self.batch, *words)

    def receiver(self, *words):
        return self.start("receiver", "--store", self.store, "--shards", "0", *words)

    def run(self, name, script, *values):
        with opened(f"{self.folder}/{name}.db") as file:
            return file.execute(script, *values).fetchall()

    def put(self, texts, session="tom"):
        with opened(f"{self.folder}/outbox.db") as file:
            file.executemany("INSERT INTO text (session, body) VALUES (?, ?)", [(session, it) for it in [*texts, None]])
        if session == "tom":
            self.run("outbox", "INSERT INTO text (session, body) SELECT 'ann', NULL"
                     " WHERE NOT EXISTS (SELECT 1 FROM closed WHERE session = 'ann')")

    def mine(self, more=""):
        """The application's table, which is there before the receiver."""
        os.close(os.open(f"{self.folder}/store.db", os.O_CREAT, 0o600))
        self.run("store", "CREATE TABLE mine (id INTEGER PRIMARY KEY AUTOINCREMENT, session TEXT, number INTEGER,"
                 f" part INTEGER, text BLOB {more}, again TEXT)")

    def log(self):
        with open(f"{self.folder}/receiver.log", encoding="ascii") as file:
            return file.read()

    def to_the_end(self, *words, seconds=100):
        assert self.sender("--drain").wait(seconds) == 0
        assert self.receiver("--until-closed", *words).wait(seconds) == 0, self.log()[-2000:]

    def killed_over_and_over(self, *words):
        """Kills both, each time once some frames more have taken effect, until the session is closed."""
        drawn, rounds = random.Random(7), 0
        while not self.next()[1]:
            started = [self.sender(), self.receiver("--batch", "4", *words)]
            self.await_frames(self.next()[0] + drawn.randrange(1, 40 if self.batch == "1" else 8))
            for it in started:
                it.send_signal(signal.SIGKILL)
                it.wait()
            rounds += 1
        return rounds

    def await_frames(self, number):
        await_so(lambda: self.next()[0] >= number or self.next()[1], lambda: self.log()[-2000:])

    def await_log(self, words):
        await_so(lambda: words in self.log(), lambda: self.log()[-2000:])

    def next(self):
        """The number that the store demands, and whether the session is closed."""
        with contextlib.suppress(sqlite3.OperationalError):
            return next(iter(self.run("store", "SELECT next, closed FROM session WHERE name = 'tom'")), (1, 0))
        return 1, 0

    def command(self, answers=None):
        script, path = f"{self.folder}/command.py", f"{self.folder}/written"
        with open(script, "w", encoding="ascii") as file:
            file.write(COMMAND)
        return f"command:exec {sys.executable} {script} {path} '{json.dumps(answers or {})}'"

    def written(self):
        with open(f"{self.folder}/written", encoding="ascii") as file:
            return [line.split() for line in file]


@pytest.fixture
def ends(shipped, tmp_path, prefix):
    return Ends(shipped, tmp_path, prefix)


def compiled(ends):
    with open(f"{ends.folder}/mine.c", "w", encoding="ascii") as file:
        file.write(OBJECT)
    made = f"{ends.folder}/mine.so"
    folders = (*(f"{SOURCES}/{it}" for it in ("base", "effects", "stores", "sessions")), f"{ends.prefix}/include")
    subprocess.run([*c_tools.c_compiler(), "-shared", "-fPIC", *(f"-I{it}" for it in folders),
                    f'-DWRITTEN="{ends.folder}/written"', f"{ends.folder}/mine.c", "-o", made], check=True)
    return f"object:{made}"


# ---- how often

def texts(count=TEXTS):
    return [b"text %d" % it for it in range(count)]


@pytest.mark.parametrize("of_object", [False, True], ids=["statement", "object"])
@pytest.mark.parametrize("batch", ["1", "7"])
def test_within_the_transaction_each_happens_once(ends, of_object, batch):
    ends.mine()
    ends.batch = batch
    given = texts(TEXTS * (1 + (batch != "1")))
    ends.put(given)
    rounds = ends.killed_over_and_over("--effect", compiled(ends) if of_object else STATEMENT)
    rows = ends.run("store", "SELECT session, text, again FROM mine ORDER BY id")
    assert [row[1] for row in rows] == given and {row[0] for row in rows} == {"tom"}
    assert rounds >= (8 if batch == "1" else 4)
    assert {row[2] for row in rows} == {None if of_object else ":texttom"}
    places = ends.run("store", "SELECT number, part FROM mine ORDER BY id")
    assert places == sorted(set(places)) and max(it[1] for it in places) == int(batch) - 1
    if of_object:
        assert_at_least_once_and_in_order(ends, given)


def assert_at_least_once_and_in_order(ends, given):
    """What was written down of each text."""
    written = [it for it in ends.written() if len(it) == 4]
    assert [bytes.fromhex(it) for it in dict.fromkeys(it[3] for it in written)] == given
    # What comes again is what wasn't committed: it begins again at an earlier place, and goes on from there.
    places = [int(it[1]) for it in written]
    assert all(after <= before + 1 for before, after in zip(places, places[1:]))


def test_a_command_is_given_each_at_least_once_and_in_order(ends):
    ends.put(texts(1500))
    rounds = ends.killed_over_and_over("--effect", ends.command())
    assert_at_least_once_and_in_order(ends, texts(1500))
    assert rounds >= 8


# ---- what is refused

REFUSES = "CHECK (text != CAST('bad' AS BLOB))"


def aside(ends):
    return ends.run("store", "SELECT session, text, reason FROM aside ORDER BY id")


@pytest.mark.parametrize("batch", ["1", "4"])
@pytest.mark.parametrize("tries", ["1", "2"])
def test_what_a_constraint_refuses_is_put_aside(ends, tries, batch):
    ends.mine(REFUSES)
    ends.batch = batch
    ends.put([b"one", b"bad", b"two", b"bad", b"bad", b"three"])
    ends.to_the_end("--effect", STATEMENT, "--put-aside", tries)
    assert ends.run("store", "SELECT text FROM mine ORDER BY id") == [(b"one",), (b"two",), (b"three",)]
    assert [row[:2] for row in aside(ends)] == [("tom", b"bad")] * 3
    assert all("CHECK constraint failed" in row[2] for row in aside(ends))
    assert most_times(ends) == int(tries)
    assert counted_aside(ends) == 3, ends.log()[-1000:]


@pytest.mark.parametrize("batch", ["1", "4"])
def test_what_a_trigger_of_the_rows_refuses_is_put_aside(ends, batch):
    """Rows of `effect` are inserted together, but one that may be refused by itself."""
    waits(ends, seconds=1)
    ends.run("store", "CREATE TRIGGER no_bad BEFORE INSERT ON effect WHEN NEW.text = CAST('bad' AS BLOB)"
                      " BEGIN SELECT RAISE(ABORT, 'it is bad'); END")
    ends.batch = batch
    ends.put([b"one", b"bad", b"two", b"bad", b"three"])
    waits(ends)
    assert ends.run("store", "SELECT count(*) FROM effect") == [(int(batch == "1"),)] and "it is bad" in ends.log()
    ends.to_the_end("--put-aside", "2")
    assert ends.run("store", "SELECT text FROM effect ORDER BY id") == [(b"one",), (b"two",), (b"three",)]
    assert aside(ends) == [("tom", b"bad", "it is bad")] * 2


def counted_aside(ends):
    """How many texts the receivers counted as put aside until they ended: what is given up isn't counted."""
    return sum(int(it) for it in re.findall(r"event=shard_ended .*?\baside=(\d+)", ends.log()))


def most_times(ends):
    """How often a text was refused at most, as the log says."""
    return max(int(it) for it in re.findall(r"event=text_refused .*?\btimes=(\d+)", ends.log()))


def waits(ends, *words, seconds=3):
    """Runs a receiver for some seconds, in which it gets no further."""
    assert ends.sender("--drain").wait(60) == 0
    process = ends.receiver(*words)
    time.sleep(seconds)
    end(process)


def test_without_put_aside_it_is_tried_again(ends):
    ends.mine(REFUSES)
    ends.put([b"one", b"bad"])
    waits(ends, "--effect", STATEMENT)
    assert ends.run("store", "SELECT text FROM mine") == [(b"one",)] and aside(ends) == []
    assert re.search(r"event=text_refused session=tom number=2 part=0", ends.log())
    ends.to_the_end("--effect", STATEMENT, "--put-aside", "1")
    assert [row[1] for row in aside(ends)] == [b"bad"]


def test_a_table_that_is_not_there_puts_nothing_aside(ends):
    ends.put([b"one"])
    waits(ends, "--effect", STATEMENT, "--put-aside", "1")
    assert aside(ends) == [] and "no such table" in ends.log()
    ends.run("store", "CREATE TABLE mine (session, number, part, text, again)")
    ends.to_the_end("--effect", STATEMENT, "--put-aside", "1")
    assert ends.run("store", "SELECT text FROM mine") == [(b"one",)] and aside(ends) == []


def test_what_a_command_refuses_is_put_aside(ends):
    ends.put([b"one", b"bad", b"two"])
    ends.to_the_end("--effect", ends.command({"bad": "refuse it has no \"name\""}), "--put-aside", "2")
    assert aside(ends) == [("tom", b"bad", 'it has no "name"')]
    assert [it[3] for it in ends.written()].count(b"bad".hex()) == 2


@pytest.mark.parametrize("said", ["again", "end", "what", ""])
def test_a_command_that_fails_once_is_asked_again(ends, said):
    """None of these is a refusal: the text takes effect once the command takes it, and one that ended is noticed at
    once."""
    ends.put([b"one", b"odd", b"two"])
    ends.to_the_end("--effect", ends.command({"odd": [said]}), "--put-aside", "1", seconds=30)
    assert aside(ends) == []
    found = dict.fromkeys(bytes.fromhex(it[3]) for it in ends.written())
    assert list(found) == [b"one", b"odd", b"two"]


@pytest.mark.parametrize("said, kept", [("refuse " + "r" * 600, "r" * 255), ("refuse caf\udce9", "caf?")])
def test_a_reason_of_any_bytes_is_kept_as_far_as_it_has_room(ends, said, kept):
    ends.put([b"one", b"bad", b"two"])
    ends.to_the_end("--effect", ends.command({"bad": said}), "--put-aside", "1")
    assert aside(ends) == [("tom", b"bad", kept)]


def test_what_a_function_of_the_statement_refuses_is_put_aside(ends):
    ends.mine()
    ends.put([b'{"a": 1}', b"no json", b'{"a": 2}'])
    ends.to_the_end("--effect", "sql:INSERT INTO mine (text) VALUES (json_extract(CAST(:text AS TEXT), '$.a'))",
                    "--put-aside", "2")
    assert ends.run("store", "SELECT text FROM mine ORDER BY id") == [(1,), (2,)]
    assert [row[:2] for row in aside(ends)] == [("tom", b"no json")]


# ---- what a command did isn't done again

def given(ends, session="tom"):
    return [bytes.fromhex(it[3]) for it in ends.written() if it[0] == session]


def test_a_refused_text_has_nothing_of_others_done_again(ends):
    ends.put([b"ann %d" % it for it in range(10)], "ann")
    ends.put([b"one", b"bad", b"two"])
    waits(ends, "--effect", ends.command({"bad": "refuse it"}))
    assert given(ends, "ann") == [b"ann %d" % it for it in range(10)]
    assert given(ends)[0] == b"one" and set(given(ends)[1:]) == {b"bad"}
    ends.to_the_end("--effect", ends.command({"bad": "refuse it"}), "--put-aside", "1")
    assert given(ends).count(b"one") == 1 and given(ends)[-1] == b"two"


def test_what_a_slow_command_has_answered_is_stored_when_its_receiver_ends(ends):
    ends.put(texts(60))
    assert ends.sender("--drain").wait(60) == 0
    for _ in range(3):
        before = ends.next()[0]
        process = ends.receiver("--effect", f"command:while read line; do sleep 0.05; echo \"$line\" >> {ends.folder}/slow;"
                                            " echo ok; done")
        ends.await_frames(before + 10)
        end(process)
        with open(f"{ends.folder}/slow", encoding="ascii") as file:
            assert len(file.readlines()) <= ends.next()[0] - 1 + 3       # one text for each end
    assert ends.next()[0] > 30


def test_a_command_that_ignores_its_end_is_over_with_its_receiver(ends):
    ends.put(texts(3))
    assert ends.sender("--drain").wait(60) == 0
    process = ends.receiver("--effect", f"command:trap '' TERM; touch {ends.folder}/begun;"
                                        f" sh -c 'trap \"\" TERM; sleep 1000; : {ends.folder}'")
    while not os.path.exists(f"{ends.folder}/begun"):
        assert process.poll() is None
        time.sleep(0.01)
    end(process, seconds=10)
    left = subprocess.run(["pgrep", "-f", f"sleep 1000; : {ends.folder}"], check=False, capture_output=True, text=True)
    assert left.stdout == ""


def test_a_store_that_is_another_file_is_noticed(ends):
    ends.put(texts(5)[:-1])
    waits(ends, seconds=1)
    os.rename(f"{ends.folder}/store.db", f"{ends.folder}/older.db")
    with opened(f"{ends.folder}/older.db") as before:
        before.execute("PRAGMA wal_checkpoint(TRUNCATE)")
    receiver = ends.receiver()
    ends.await_frames(3)
    for name in ("store.db", "store.db-wal", "store.db-shm"):
        with contextlib.suppress(FileNotFoundError):
            os.unlink(f"{ends.folder}/{name}")
    os.rename(f"{ends.folder}/older.db", f"{ends.folder}/store.db")
    ends.await_log("event=store_replaced")
    end(receiver)
    assert ends.receiver("--until-closed").wait(60) == 0
    assert ends.run("store", "SELECT text FROM effect ORDER BY id") == [(it,) for it in texts(5)[:-1]]


# ---- what isn't taken

@pytest.mark.parametrize("word, status, told", [
    ("sql:INSERT INTO mine VALUES (:name)", 1, "the names are :session"),
    ("sql:DELETE FROM mine; SELECT 1", 1, "it is one statement"),
    ("sql:INSERT INTO mine VALUES ($1)", 1, "values have names"),
    ("sql: \n", 1, "there is no statement"),
    ("command:", 1, "there is no command"),
    ("object:/nowhere/it.so", 1, "cannot open shared object"),
    ("rows", 2, "this is no effect")])
def test_a_word_that_is_no_effect(ends, word, status, told):
    process = ends.receiver("--effect", word)
    assert process.wait(30) == status and told in ends.log()


def test_an_object_without_take_effect(ends):
    path = compiled(ends).removeprefix("object:")
    subprocess.run(["objcopy", "--redefine-sym=take_effect=another", path], check=False)
    subprocess.run([*c_tools.c_compiler(), "-shared", "-o", path, "-x", "c", "/dev/null"], check=True)
    assert ends.receiver("--effect", f"object:{path}").wait(30) == 1 and "take_effect" in ends.log()
