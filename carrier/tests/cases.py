"""Cases of senders and receivers: what is done, what has to be delivered, within how many seconds. A case is a function
below a decorator, which puts it into the table of its module; `tested` makes tests of a table (test_repro.py,
test_receipts.py, test_safety.py, test_shown.py, test_tickets.py; of machines test_machines.py and test_two_faults.py).

What more has to hold, such as a line of the log, is asserted in the function. Its `place` has the files of one case and
its processes."""
import collections
import contextlib
import dataclasses
import glob
import os
import shutil
import signal
import sqlite3
import struct
import subprocess
import threading
import time
import typing
import urllib.error
import urllib.request

import engines
import jetstream
import loglines

STATUS = os.path.join(os.path.dirname(os.path.abspath(__file__)), "..", "status")
LIMIT = 30              # seconds for one program
TO_END = 5              # seconds for an end by SIGTERM
LAST = 2**32 - 1        # the last number of a session
TOLD = 300              # characters of a log that a fault has
SESSIONS = (f"ann 0 17 safe {'11' * 16} 1 10.0.0.1 10.0.0.255\n", f"tom 0 18 priv {'22' * 32} 1 10.0.0.2 10.0.0.255\n")
ANN, TOM = (line.replace("safe", "priv") for line in SESSIONS)
ABE = ANN.replace("ann", "abe").replace("11" * 16, "44" * 16)
TOM_1 = TOM.replace("tom 0", "tom 1")
WITH_RECEIPTS = ANN.rstrip("\n") + f" {'33' * 16}\n"    # ann's line with a key of the way back
WORDS = {"sender": "word-of-the-sender", "receiver": "word-of-the-receiver"}       # no log may have them


def texts(name, low, high, size=0):
    """Rows of an outbox."""
    return [(name, f"{name} {it}".ljust(size).encode()) for it in range(low, high)]


def close(*names):
    return [(name, None) for name in names]


# ---- tables

@dataclasses.dataclass
class Named:
    """A function, and what it does."""
    run: typing.Callable
    done: str
    given: tuple = dataclasses.field(default=(), kw_only=True)      # what it is given beside the place
    called: str = dataclasses.field(default="", kw_only=True)       # where it is more than one case
    is_quick: bool = dataclasses.field(default=False, kw_only=True)     # the gate has it, and not --all alone

    def name(self):
        return self.called or self.run.__name__

    def do(self, place):
        self.run(place, *self.given)


@dataclasses.dataclass
class Case(Named):
    """How many texts of each session have to be delivered, in order and each once; within how many seconds."""
    wanted: dict = dataclasses.field(default_factory=dict)
    seconds: float = LIMIT
    lines: tuple = (ANN, TOM)
    shards: str = "0"
    nats: str = None        # further lines of the node's configuration


def table(kind=Case, **usual):
    """A table of cases, and the decorator that puts a function into it. A function has one for each case that it is."""
    found, names = [], [it.name for it in dataclasses.fields(kind) if not it.kw_only]

    def case(*given, **named):
        it = kind(**{"run": None} | usual | dict(zip(names[1:], given)) | named)
        found.append(it)

        def add(run):
            it.run = run
            return run
        return add
    return found, case


def tested(found):
    """The tests of a table: each does one case, at the place that the fixture makes for it."""
    import pytest       # here, since carrier/bench does without it

    @pytest.mark.parametrize("place", [
        pytest.param(it, id=it.name(), marks=() if it.is_quick else pytest.mark.slow) for it in found], indirect=True)
    def test_case(place):
        place.case.do(place)
    return test_case


# ---- how often programs wait

def wakes(process):
    """How often its threads have waited."""
    count = 0
    for path in glob.glob(f"/proc/{process.pid}/task/*/status"):
        with open(path, encoding="ascii") as file:
            count += sum(int(line.split()[1]) for line in file if line.startswith("voluntary_ctxt_switches"))
    return count


def wakes_in(seconds, *processes):
    before = [wakes(it) for it in processes]
    time.sleep(seconds)
    return [wakes(it) - count for it, count in zip(processes, before)]


# ---- a case's files and processes

@contextlib.contextmanager
def opened(path):
    """A database, whose transaction is committed if nothing goes wrong."""
    with contextlib.closing(sqlite3.connect(path, timeout=LIMIT)) as file, file:
        yield file


def hold(path, seconds):
    """Keeps a file locked for so long."""
    file = sqlite3.connect(path, timeout=LIMIT, check_same_thread=False)
    file.execute("BEGIN IMMEDIATE")

    def let_go():
        time.sleep(seconds)
        file.rollback()
        file.close()
    thread = threading.Thread(target=let_go)
    thread.start()
    return thread


class Place:
    """The files of one case, and its processes, which end with it. Then their logs are looked at."""

    def __init__(self, programs, folder, case):
        self.programs, self.folder, self.case, self.shards = programs, folder, case, case.shards
        os.makedirs(folder)
        self.sessions, self.outbox = f"{folder}/sessions", f"{folder}/outbox.db"
        self.carrier, self.store = f"sqlite:{folder}/carrier.db", f"sqlite:{folder}/store.db"
        self.running, self.nats, self.began, self.env = [], None, time.monotonic(), dict(os.environ)
        self.write(self.sessions, case.lines)

    def __enter__(self):
        if self.case.nats is not None:
            self.start_nats(self.case.nats)
            self.began = time.monotonic()
        return self

    def __exit__(self, kind, *_):
        self.stop()
        if kind is None:
            self.check_logs()

    @staticmethod
    def write(path, lines):
        """Writes a file of sessions, which only its owner may read."""
        with open(os.open(path, os.O_WRONLY | os.O_CREAT | os.O_TRUNC, 0o600), "w", encoding="ascii") as file:
            file.writelines(lines)

    # ---- programs

    def start_nats(self, config="", nodes=1):
        os.mkdir(f"{self.folder}/nats")
        self.nats = engines.Nats(f"{self.folder}/nats", nodes, config)
        self.carrier = self.nats.where

    def request(self, subject, **body):
        """What JetStream answers."""
        return jetstream.request(self.nats.ports[0], subject, **body)

    def command(self, name, *more, **other):
        """A program with its options, some of which may be others."""
        own = {"outbox": self.outbox} if name == "sender" else {"store": self.store, "shards": self.shards}
        given = {"sessions": self.sessions, "carrier": self.carrier} | own | other
        return [f"{self.programs}/{name}", *more, *(word for key, value in given.items() for word in (f"--{key}", value))]

    def run(self, name, *more, seconds=LIMIT, clock=0, **other):
        """Runs a program, at most so many seconds: its status, None where it hasn't ended, and what
        it prints."""
        process = self.start(name, *more, clock=clock, **other)
        try:
            process.wait(seconds)
        except subprocess.TimeoutExpired:
            self.end(process)
            return None, self.log(process)
        return process.returncode, self.log(process)

    def require_run(self, name, *more, status=0, event=None, words="", what="", **other):
        """The same, which has to end with this status, and with such a line of the log. What it prints."""
        ended, told = self.run(name, *more, **other)
        assert ended == status and (event is None or loglines.has(told, event, words)), \
            f"{what or ' '.join([name, *more])}: status {ended}: {told[-TOLD:]}"
        return told

    def drain(self, **other):
        """A sender that sends all, which has to go right."""
        return self.require_run("sender", "--drain", **other)

    def send(self, rows, **other):
        """Puts texts into the outbox, and sends what can be sent."""
        self.put(rows)
        self.run("sender", "--drain", **other)

    def start(self, name, *more, clock=0, pause=0, told=None, **other):
        path = f"{self.folder}/{name}.{len(self.running)}.log"
        given = dict(self.env, CLOCK_OFFSET=str(clock), STORE_PAUSE=str(pause))
        if told:
            given["NOTIFY_SOCKET"] = told
        with open(path, "wb") as log:
            process = subprocess.Popen(self.command(name, *more, **other), stdout=log, stderr=log, env=given)
        process.path = path
        self.running.append(process)
        return process

    def start_both(self, **other):
        """A sender and a receiver."""
        return self.start("sender", **other), self.start("receiver", **other)

    @staticmethod
    def log(process):
        with open(process.path, encoding="utf-8", errors="replace") as file:
            return file.read()

    def has_logged(self, process, event, words="", **fields):
        return loglines.has(self.log(process), event, words, **fields)

    def end(self, *processes):
        for process in processes:
            if process.poll() is None:
                process.send_signal(signal.SIGTERM)
                process.wait(LIMIT)

    @staticmethod
    def kill(*processes):
        for process in processes:
            process.kill()
            process.wait()

    def stop(self):
        self.kill(*self.running)
        if self.nats:
            self.nats.stop()

    def check_logs(self):
        """Each line of each program has its form, none comes too often, and none has a key or a
        password. What is wrong with the options is said in words, with status 2."""
        secrets, faults = [*WORDS.values(), *(line.split()[4] for line in self.case.lines)], []
        for process in self.running:
            faults += [f"a log has {word}" for word in secrets if word in self.log(process)]
            if process.returncode != 2 and not {"--help", "--version"} & set(process.args):
                faults += loglines.faults(self.log(process))
        assert faults == []

    def step_clocks(self, seconds):
        """From now on the wall clock of what is started after the first call is ahead by so many seconds."""
        path = f"{self.folder}/conditions"
        with open(os.open(path, os.O_WRONLY | os.O_CREAT), "wb") as file:
            file.write(struct.pack("qq", seconds, 0))
        self.env = {**self.env, "LD_PRELOAD": f"{self.programs}/conditions.so", "CONDITIONS": path}

    # ---- outbox, carrier and store

    def path(self, name):
        return f"{self.folder}/{name}.db"

    def other(self, lines):
        """Another file of sessions."""
        self.write(f"{self.folder}/other", lines)
        return f"{self.folder}/other"

    def replace(self, path, lines):
        """Puts another file in the place of a file of sessions."""
        self.write(path + ".new", lines)
        os.rename(path + ".new", path)

    def put(self, rows, outbox=None, given=None):
        """Puts texts into an outbox, which is made first."""
        path = outbox or self.outbox
        if not os.path.exists(path):
            self.run("sender", "--drain", outbox=path, **given or {})
        with opened(path) as file:
            file.executemany("INSERT INTO text (session, body) VALUES (?, ?)", rows)

    def ask(self, name, sql):
        """The rows of a question to one of the case's files; none where it has no such table."""
        if not os.path.exists(self.path(name)):
            return []
        try:
            with opened(self.path(name)) as file:
                return file.execute(sql).fetchall()
        except sqlite3.OperationalError as fault:
            if "no such" not in str(fault):
                raise
            return []

    def change(self, name, sql, rows=((),)):
        """Changes one of the case's files, once for each row of values."""
        with opened(self.path(name)) as file:
            file.executemany(sql, rows)

    def carry(self, rows):
        """Puts rows into the carrier: a shard, a session and a frame."""
        self.change("carrier", "INSERT INTO carried (shard, session, frame) VALUES (?, ?, ?)", rows)

    def backup(self, name="backup", of="outbox"):
        """A copy of the outbox as it is now, or of another file."""
        with opened(self.path(of)) as source, opened(self.path(name)) as copy:
            source.backup(copy)

    def unlink(self, name):
        for path in glob.glob(f"{self.path(name)}*"):
            os.unlink(path)

    def restore(self, name="backup", of="outbox"):
        self.unlink(of)
        shutil.copy(self.path(name), self.path(of))

    def count(self, name, table):
        return (self.ask(name, f"SELECT count(*) FROM {table}") or [(0,)])[0][0]

    def frames(self):
        """So many frames the outbox keeps."""
        return self.count("outbox", "frame")

    def kept(self, name="outbox"):
        """So many texts an outbox keeps, sealed or not."""
        return self.count(name, "text") + self.count(name, "sealed")

    def delivered(self):
        found = collections.defaultdict(list)
        for name, text in self.ask("store", "SELECT session, text FROM effect ORDER BY id"):
            found[name].append(bytes(text).decode().strip())
        return found

    def status(self, *words):
        """The status of carrier/status, and the lines that it prints, by their first words."""
        done = subprocess.run([STATUS, *words], check=False, timeout=LIMIT, stdout=subprocess.PIPE,
                              stderr=subprocess.STDOUT, text=True)
        return done.returncode, {line.split()[0]: line.split() for line in done.stdout.splitlines()}

    # ---- what has to hold

    def is_delivered(self, wanted):
        found = self.delivered()
        return all(found[name] == [f"{name} {it}" for it in range(count)] for name, count in wanted.items())

    @staticmethod
    def wait(is_so, seconds):
        until = time.monotonic() + seconds
        while not is_so():
            if time.monotonic() > until:
                return False
            time.sleep(0.05)
        return True

    def expect(self, is_so, what, seconds=5):
        """It has to be so within so many seconds. `what` says what isn't, or gives it once the time has passed."""
        assert self.wait(is_so, seconds), what if isinstance(what, str) else what()

    def expect_delivered(self, wanted, what="nothing is delivered", seconds=8):
        self.expect(lambda: self.is_delivered(wanted), what, seconds)

    def expect_logged(self, process, event, what, *, words="", seconds=5, **fields):
        self.expect(lambda: self.has_logged(process, event, words, **fields), what, seconds)

    def await_delivered(self, wanted=None):
        """Waits until all is delivered that has to be, until the case's time has passed."""
        wanted = wanted or self.case.wanted
        left = self.case.seconds - (time.monotonic() - self.began)
        self.expect(lambda: self.is_delivered(wanted), lambda: "delivered "
                    f"{ {name: len(had) for name, had in self.delivered().items()} } of {wanted}", left)

    def receive(self, *more, **other):
        """A receiver that runs until all is delivered, and goes on."""
        receiver = self.start("receiver", *more, **other)
        self.await_delivered()
        return receiver

    def pass_on(self, rows, wanted=None):
        """Puts texts into the outbox, until the programs that run have delivered all."""
        self.put(rows)
        self.await_delivered(wanted)

    def relay(self):
        """A sender and a receiver that run until all is delivered, and go on."""
        running = self.start_both()
        self.await_delivered()
        return running

    def deliver(self, rows, wanted):
        """Sends texts, and has a receiver that ends then deliver them."""
        self.send(rows)
        receiver = self.start("receiver")
        self.expect_delivered(wanted)
        self.end(receiver)

    def await_no_frames(self, seconds=5):
        self.expect(lambda: self.frames() == 0, lambda: f"the outbox keeps {self.frames()} frames", seconds)

    def require_stopped(self, name, word, of="outbox"):
        """The outbox says that this session is stopped, and why."""
        reasons = self.ask(of, "SELECT session, reason FROM stopped")
        assert any(it == name and word in reason for it, reason in reasons), f"stopped: {reasons}"

    def require_running(self, *processes):
        assert all(it.poll() is None for it in processes), "a program has ended"


def get(port, path):
    """The status and the text of an answer over HTTP."""
    try:
        with urllib.request.urlopen(f"http://127.0.0.1:{port}{path}", timeout=5) as answer:
            return answer.status, answer.read().decode()
    except urllib.error.HTTPError as fault:
        return fault.code, fault.read().decode()
    except OSError as fault:
        return None, str(fault)


def numbers(port):
    """The metrics that a program shows: each with its labels and its number."""
    lines = get(port, "/metrics")[1].splitlines()
    return dict(line.rsplit(" ", 1) for line in lines if " " in line and line[0] != "#")
