"""What needs a server: the units of carriers and stores over it, carrier/cluster and carrier/all, and errors of receivers
whose store's server is used by others, away or silent."""
import contextlib
import os
import signal
import sqlite3
import subprocess
import time

import cases
import engines
import loglines
import pytest
from builds import SOURCES
from test_errors import TEXTS, all_at_once, put_all, send_all
from test_units import assert_unit

pytestmark = pytest.mark.slow
TO_RUN = 600            # seconds
ALL = "SELECT count(DISTINCT text) FROM effect GROUP BY session"


@contextlib.contextmanager
def running(*words, **how):
    """A program, until it is told to end."""
    with subprocess.Popen(words, stdout=subprocess.PIPE, text=True, **how) as process:
        try:
            yield process
        finally:
            process.terminate()
            process.wait(TO_RUN)


def test_units_over_a_node(programs, nats):
    assert_unit(programs, "carrier_test", nats.where, "1")


def test_cluster(programs, folder):
    """The three nodes that carrier/cluster starts end with it."""
    port = engines.free_ports(1)[0]
    with running(f"{SOURCES}/cluster", folder, str(port)) as process:
        where = process.stdout.readline().split("--carrier ")[1].split()[0]
        for node in range(3):
            engines.await_port(port + node)
        time.sleep(engines.ELECTION)
        assert_unit(programs, "carrier_test", where, "3")
    assert not any(map(engines.is_open, range(port, port + 3)))


def put_text(path, session, text):
    """Puts a text into an outbox that is there."""
    with contextlib.closing(sqlite3.connect(f"file:{path}?mode=rw", uri=True)) as file, file:
        file.execute("INSERT INTO text (session, body) VALUES (?, ?)", (session, text))
    return True


def await_true(is_so, what):
    """Waits until it is so; a fault of a server or a file is not yet."""
    def found():
        with contextlib.suppress(subprocess.SubprocessError, sqlite3.Error):
            return is_so()
    assert cases.Place.wait(found, TO_RUN), what


def test_all_on_one(programs, folder):
    """carrier/all: a text that is put in takes effect, and nothing is left when it is ended."""
    port = engines.free_base((*range(3), 10, 20, 21, 22, *range(100, 103)))
    env = dict(os.environ, PROGRAMS=programs)
    with running(f"{SOURCES}/all", folder, str(port), stderr=subprocess.STDOUT, env=env) as process:
        lines = [process.stdout.readline() for _ in range(4)]
        store = lines[1].split()[3]
        await_true(lambda: put_text(f"{folder}/outbox.db", "ann", b"hello"), lines)
        wanted = "SELECT 1 FROM effect WHERE session = 'ann' AND text = 'hello'"
        await_true(lambda: engines.ask(store, wanted) == [["1"]], lines)
    assert not engines.processes_with(folder)


# ---- a store of PostgreSQL

@pytest.fixture
def place(place, postgres):
    """The place of two sessions, whose store is new."""
    postgres.ask("DROP SCHEMA public CASCADE; CREATE SCHEMA public")
    place.store = postgres.where
    return place


def make_tables(place):
    place.require_run("receiver", seconds=1, status=None)


def assert_all(postgres):
    """PostgreSQL has all texts of both sessions."""
    assert postgres.ask(ALL) == [[str(len(TEXTS))]] * 2


def test_units_of_a_store(programs, postgres):
    assert_unit(programs, "store_test", postgres.where)


def test_at_once(place):
    all_at_once(place)


def test_away(place, postgres):
    """It is started again below a receiver, which goes on."""
    receiver = place.start("receiver", "--until-closed")
    time.sleep(1)
    postgres.restart(1)
    send_all(place)
    assert receiver.wait(cases.LIMIT) == 0 and place.has_logged(receiver, "store_away"), place.log(receiver)[-500:]
    assert_all(postgres)


def test_used(place, postgres):
    """Another receiver's transaction has changed rows of each table: one that starts doesn't wait for it."""
    make_tables(place)
    send_all(place)
    with running("psql", "-q", postgres.where, "-c", "BEGIN; LOCK TABLE shard, session, opened, effect IN ROW EXCLUSIVE"
                 " MODE; SELECT pg_sleep(20); ROLLBACK") as other:
        time.sleep(1)
        told = place.require_run("receiver", "--until-closed")
        assert other.poll() is None and not loglines.has(told, "store_away"), told[-500:]
    assert_all(postgres)


def test_privileges(place, postgres):
    """A role that may not make tables, as by default in PostgreSQL 15, uses those that are there."""
    make_tables(place)
    send_all(place)
    postgres.ask("CREATE ROLE plain LOGIN; GRANT USAGE ON SCHEMA public TO plain;"
                 " GRANT USAGE ON SEQUENCE effect_id_seq TO plain;"
                 " GRANT SELECT, INSERT, UPDATE, DELETE ON shard, session, opened, effect TO plain")
    place.require_run("receiver", "--until-closed", store=postgres.where.replace("postgres@", "plain@"))
    assert_all(postgres)


def test_silent(place, postgres):
    """It doesn't answer any more, and a receiver is told to end."""
    put_all(place)
    receiver = place.start("receiver")
    time.sleep(1)
    with postgres.stopped():
        place.run("sender", "--drain")
        time.sleep(1)
        receiver.send_signal(signal.SIGTERM)
        began = time.monotonic()
        assert receiver.wait(cases.LIMIT) == 0 and time.monotonic() - began < cases.TO_END
