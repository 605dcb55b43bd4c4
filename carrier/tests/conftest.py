"""What the tests of the carrier stand on, as fixtures: its programs, its servers, and places with files. What isn't
installed is a failure with its name. Servers listen on the loopback alone, and end with the tests that use them."""
import concurrent.futures
import contextlib
import os
import signal

import builds
import cases
import chaos
import engines
import pytest
import realms


def pytest_sessionstart():
    """SIGTERM ends what runs as an interrupt does: with its servers."""
    signal.signal(signal.SIGTERM, signal.default_int_handler)


@pytest.fixture(autouse=True, scope="module")
def _files_of_their_owner_alone():
    """Programs refuse a database that others may use, whoever makes it."""
    before = os.umask(0o077)
    yield
    os.umask(before)


@pytest.fixture(scope="session")
def with_servers(pytestconfig):
    """Whether the programs are built with NATS and PostgreSQL."""
    return pytestconfig.getoption("--all")


@pytest.fixture(scope="session")
def sanitized(pytestconfig):
    return pytestconfig.getoption("--sanitized", None)


@pytest.fixture(scope="session")
def programs(shared, prefix, with_servers, sanitized):
    """A folder with the programs and those that test them."""
    return shared.once(f"programs_{sanitized}_{with_servers}",
                       lambda folder: builds.build(folder, prefix, with_servers, sanitized=sanitized))


@pytest.fixture(scope="session")
def shipped(shared, prefix):
    """A folder with the programs as they are shipped, over SQLite alone."""
    return shared.once("shipped", lambda folder: builds.shipped(folder, prefix, *builds.ALONE))


@pytest.fixture(scope="session")
def compared(request):
    """The program whose `open` reads what the shards have: the proved one, or that which KRBRELAY names."""
    return os.environ.get("KRBRELAY") or request.getfixturevalue("krbrelay")


@pytest.fixture
def folder():
    with engines.new_folder() as made:
        yield made


@pytest.fixture
def place(request, programs, folder):
    """The place of a case, or of two sessions."""
    case = getattr(request, "param", None) or cases.Case(None, "", lines=cases.SESSIONS)
    with cases.Place(programs, f"{folder}/case", case) as made:
        yield made


# ---- servers

def serving(make):
    """The fixture of a server that a module uses."""
    @pytest.fixture(scope="module")
    def server():
        with engines.new_folder() as folder, contextlib.closing(make(folder)) as made:
            yield made
    return server


nats = serving(lambda folder: engines.Nats(folder, 1))
postgres = serving(engines.Postgres)
realm, other_realm = (serving(realms.Realm) for _ in range(2))


# ---- tests beside each other

@pytest.fixture(scope="module")
def ahead(request):
    """Has a function that answers tests of a module, by their parameter `name`, work for four of them at once: for those
    that were chosen and that a table has. Under pytest-xdist it works for one at a time."""
    asked = [it.callspec.params.get("name") for it in request.session.items
             if it.module is request.module and hasattr(it, "callspec")]
    with concurrent.futures.ThreadPoolExecutor(4) as pool:
        def begun(work, names):
            if "PYTEST_XDIST_WORKER" in os.environ:
                return work
            outcomes = {name: pool.submit(work, name) for name in asked if name in names}
            return lambda name: outcomes[name].result()
        yield begun
        chaos.ENDING.set()      # where a test ended all
        pool.shutdown(cancel_futures=True)
    chaos.ENDING.clear()
