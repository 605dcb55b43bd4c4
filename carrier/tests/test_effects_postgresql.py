"""The effects of --effect and of --put-aside over PostgreSQL, whose answers come later than the statements."""
import contextlib
import json
import subprocess

import builds
import psycopg2
import pytest
from test_put_get import carrier, ran
from test_effects import Ends, await_so, compiled, end, most_times, texts

# A cast isn't a name, and nor is what is in quotes.
STATEMENT = "sql:INSERT INTO mine (session, number, part, text, again) VALUES (:session, :number, :part::int, :text, ':no')"
MINE = "CREATE TABLE mine (id bigserial, session text, number bigint, part int, text bytea {}, again text)"
WHILE_KILLED = 6_000    # texts: psql, which says when to kill, is as slow as some hundreds of them
REFUSES = "CHECK (text != 'bad')"


@pytest.fixture(scope="module")
def with_postgresql(shared, prefix):
    return shared.once("with_postgresql", lambda folder: builds.shipped(
        folder, prefix, "WITH_NATS=no", "WITH_POSTGRESQL=yes"))


class OverPostgresql(Ends):
    """Both ends over a server, whose tables are new."""

    def __init__(self, programs, folder, prefix, server):
        self.server = server
        server.ask("DROP SCHEMA public CASCADE; CREATE SCHEMA public")
        super().__init__(programs, folder, prefix)
        self.store = server.where

    def next(self):
        try:
            rows = self.server.ask("SELECT next, closed FROM session WHERE name = 'tom'")
        except subprocess.CalledProcessError:
            rows = []
        return (int(rows[0][0]), int(rows[0][1])) if rows else (1, 0)

    def texts_of(self, table):
        rows = self.server.ask(f"SELECT encode(text, 'escape') FROM {table} ORDER BY id")
        return [row[0].encode() for row in rows]


@pytest.fixture
def ends(with_postgresql, tmp_path, prefix, postgres):
    return OverPostgresql(with_postgresql, tmp_path, prefix, postgres)


@pytest.mark.parametrize("tries", ["0", "1"])
@pytest.mark.parametrize("of_object", [False, True], ids=["statement", "object"])
def test_within_the_transaction_each_happens_once(ends, of_object, tries):
    ends.server.ask(MINE.format(""))
    ends.put(texts(WHILE_KILLED))
    rounds = ends.killed_over_and_over("--effect", compiled(ends) if of_object else STATEMENT, "--put-aside", tries)
    assert ends.texts_of("mine") == texts(WHILE_KILLED) and rounds > 2
    assert ends.server.ask("SELECT DISTINCT again FROM mine") == [["" if of_object else ":no"]]
    assert ends.texts_of("aside") == []


@pytest.mark.parametrize("batch", ["1", "4"])
@pytest.mark.parametrize("tries", ["1", "2"])
def test_what_a_constraint_refuses_is_put_aside(ends, tries, batch):
    ends.server.ask(MINE.format(REFUSES))
    ends.batch = batch
    ends.put([b"one", b"bad", b"two", b"bad", b"bad", b"three"])
    ends.to_the_end("--effect", STATEMENT, "--put-aside", tries)
    assert ends.texts_of("mine") == [b"one", b"two", b"three"] and ends.texts_of("aside") == [b"bad"] * 3
    reasons = ends.server.ask("SELECT reason FROM aside")
    assert all("violates check constraint" in it for it, in reasons)
    assert most_times(ends) == int(tries)


def test_a_value_that_a_column_cannot_have_is_put_aside_and_not_logged(ends):
    ends.server.ask("CREATE TABLE mine (it int)")
    ends.put([b"7", b"secret", b"8"])
    ends.to_the_end("--effect", "sql:INSERT INTO mine VALUES (convert_from(:text, 'UTF8')::int)", "--put-aside", "1")
    assert ends.server.ask("SELECT it FROM mine ORDER BY it") == [["7"], ["8"]] and ends.texts_of("aside") == [b"secret"]
    assert "secret" not in ends.log()


def test_a_table_that_is_not_there_puts_nothing_aside(ends):
    ends.put([b"one"])
    assert ends.sender("--drain").wait(60) == 0
    process = ends.receiver("--effect", STATEMENT, "--put-aside", "1")
    ends.await_log("does not exist")
    end(process)
    assert ends.texts_of("aside") == []
    ends.server.ask(MINE.format(""))
    ends.to_the_end("--effect", STATEMENT, "--put-aside", "1")
    assert ends.texts_of("mine") == [b"one"] and ends.texts_of("aside") == []


def test_texts_are_read_and_taken(ends):
    """By a connection of psycopg2, in its transaction; and by krbrelay-get, which asks psql."""
    ends.put([b"one", b"\xff'", b"three"])
    ends.to_the_end()
    with contextlib.closing(psycopg2.connect(ends.server.where)) as store:
        assert [it.data for it in carrier.texts(store, session="tom")] == [b"one", b"\xff'", b"three"]
        assert [it.data for it in carrier.take(store, 2)] == [b"one", b"\xff'"]
        store.rollback()
        status, printed, told = ran("get", "--store", ends.server.where, "--count", "2", "tom")
        assert (status, told, [json.loads(it).get("data") for it in printed.splitlines()]) == (0, "", [None, "ff27"])
        assert [it.data for it in carrier.take(store, 2)] == [b"one", b"\xff'"]
        store.commit()
        assert [(it.data, it.session) for it in carrier.take(store)] == [(b"three", "tom")]


def test_a_server_that_is_away_puts_nothing_aside(ends):
    ends.server.ask(MINE.format(""))
    ends.put(texts(600))
    started = [ends.sender(), ends.receiver("--batch", "4", "--effect", STATEMENT, "--put-aside", "1")]
    for number in (50, 200, 400):
        ends.await_frames(number)
        ends.server.restart(0.3)
    ends.await_frames(10_000)
    end(*started)
    assert ends.texts_of("mine") == texts(600) and ends.texts_of("aside") == []


def test_a_receiver_whose_statement_goes_on_ends_in_time(ends):
    """Nothing of it is stored."""
    ends.server.ask(MINE.format(""))
    ends.put([b"one"])
    assert ends.sender("--drain").wait(60) == 0
    process = ends.receiver("--effect", "sql:INSERT INTO mine (text, again) SELECT :text, pg_sleep(25)::text")
    asked = "SELECT 1 FROM pg_stat_activity WHERE state = 'active' AND query LIKE 'INSERT%pg_sleep(25)%'"
    await_so(lambda: ends.server.ask(asked), lambda: ends.log()[-2000:])
    process.terminate()
    assert process.wait(8) == 0 and ends.texts_of("mine") == []
