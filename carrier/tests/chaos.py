"""Kills senders, receivers and nodes of the carrier at drawn moments, publishes frames again, and
looks whether each text of each session took effect once and in order.

An application puts texts into the outboxes. Each shard is served by two receivers at once, which
both believe that it is theirs; or receivers share the shards. Meanwhile a receiver or a sender is
killed (SIGKILL) and started again, or stopped for a while so that it wakes beside its successor; a
second sender takes an outbox over; of three nodes of JetStream one is killed and started again;
frames of the shards are published again, whole or altered, and bytes that are no frame. At last all
runs undisturbed until each session's close took effect. Then

- the effects of each session have to be its texts in order, each once, and its close;
- a receiver that begins with nothing has to read the same from the carrier (`replay`);
- no number of a session may have left with two frames (`audit`);
- what each shard holds of a session, passed to `krbrelay open`, has to give its texts and close.
"""
import collections
import dataclasses
import glob
import os
import random
import signal
import sqlite3
import subprocess
import threading
import time

import engines
import cases
import evidence
import jetstream
import loglines
from lib import jobs, printed

FAULTS = 5          # of 1,000 frames: what the carrier without a server loses and repeats
ENDING = threading.Event()          # set where the tool ends before its tests
KINDS = (["receiver"] * 4 + ["sender"] * 3 + ["stop receiver", "stop sender", "second sender"]
         + ["node"] * 2)
TAKEN = "200"       # frames of one transaction: few, so that many are under way when one is killed
DUMPED = 120        # seconds for one look at all shards
SILENT = {"stdout": subprocess.DEVNULL, "stderr": subprocess.DEVNULL}
RATE, NOISY = 300, 16       # frames a second that are published again, and so many at once
FRAMES, BYTES = 2000, 7_000_000     # the most frames of a job, and of their bytes


@dataclasses.dataclass
class Setting:
    folder: str
    programs: str
    krbrelay: str = None    # the program, whose `open` is compared if it is named
    seed: int = 1
    carrier: str = "sqlite"     # or "nats1" or "nats3", of so many nodes and replicas
    store: str = "sqlite"       # or "shards", a file for each shard, or "postgresql"
    sessions: int = 24
    texts: int = 400
    senders: int = 3
    receivers: int = 3
    shards: int = 4
    batch: int = 7
    has_receipts: bool = False  # of every second session: its line has a key of the way back
    is_shared: bool = False     # receivers share the shards; else each is served by two at once
    seconds: float = 20
    patience: float = 90        # seconds until all has to be carried after the last disturbance
    settle: float = 60          # and until all has to be closed after that


class Session:
    """A session with its texts, all drawn."""

    def __init__(self, dice, place, given):
        self.name = f"s{place:04}"
        self.shard, self.sender = place % given.shards, place % given.senders
        self.etype, self.mode = dice.choice((17, 18)), dice.choice(("safe", "priv"))
        self.key = dice.randbytes(16 if self.etype == 17 else 32)
        self.first = dice.choice((0, 1, 127, 255, 2**31 - 3, 2**32 - given.texts - 1,
                                  dice.randrange(2**31)))
        self.origin = bytes([10, 0, place // 250, 1 + place % 250])
        self.to = bytes([10, 1, 0, 1])
        self.texts = [self.text(dice, it) for it in range(given.texts)]
        self.back = dice.randbytes(len(self.key)).hex() if given.has_receipts and place % 2 else ""

    def text(self, dice, place):
        size = dice.choice((0, 10, 100, 1000, dice.randrange(4000)))
        return f"{self.name} {place} ".encode() + dice.randbytes(size)

    def line(self):
        origin, to = (".".join(map(str, it)) for it in (self.origin, self.to))
        return (f"{self.name} {self.shard} {self.etype} {self.mode} {self.key.hex()} {self.first}"
                f" {origin} {to} {self.back}\n")

    def job(self, first, frames):
        """The job that opens these frames now, of which this number is demanded first."""
        now = int(time.time()) * 1_000_000
        ends = jobs.Session(self.key, self.mode, first, (2, self.origin), (2, self.to), skew=86400)
        return jobs.job([jobs.sender(ends, now, frames=frames)])

    def jobs(self, held):
        """The jobs for what a shard holds, pairs of a number and a frame: as many as their limits
        ask for. Each begins at the number that the one before it leaves."""
        first = demanded = self.first
        frames, size = [], 0
        for number, frame in held:
            if len(frames) == FRAMES or size + len(frame) > BYTES:
                yield self.job(first, frames)
                first, frames, size = demanded, [], 0
            frames.append(frame)
            size += len(frame)
            demanded += number == str(demanded)
        yield self.job(first, frames)

    def lines(self):
        """What `krbrelay open` has to print beside refusals."""
        return [f"lane 0 text {text.hex()}" for text in self.texts] + ["lane 0 closed"]


# ---- the programs

class Processes:
    """Senders and receivers by name, such as `sender-0`; a second sender is `sender-0-1`."""

    def __init__(self, given, where, replicas, store, folder):
        self.given, self.store, self.folder = given, store, folder
        self.running, self.lock, self.logs = {}, threading.Lock(), 0
        self.common = ["--carrier", where, "--replicas", str(replicas)]
        self.environment = dict(os.environ, CARRIER_FAULTS=str(FAULTS))

    def words(self, kind, place):
        if kind == "sender":
            return ["--sessions", f"{self.folder}/sessions{place}", "--outbox",
                    f"{self.folder}/outbox{place}.db", "--batch",
                    str(self.given.batch if place % 2 else 1)]
        count = self.given.receivers
        mine = [str(it) for it in range(self.given.shards)
                if place in (it % count, (it + 1) % count)]
        shards = "auto" if self.given.is_shared else ",".join(mine)
        return ["--sessions", f"{self.folder}/sessions", "--store", self.store, "--until-closed",
                "--batch", TAKEN, "--shards", shards]

    def start(self, name):
        kind, place = name.split("-")[:2]
        command = [f"{self.given.programs}/{kind}", *self.common, *self.words(kind, int(place))]
        with self.lock:
            self.logs += 1
            with open(f"{self.folder}/{name}.{self.logs:04}.log", "wb") as log:
                self.running[name] = subprocess.Popen(command, stdout=log, stderr=log,
                                                      env=self.environment)

    def signal(self, name, number):
        process = self.running[name]
        if process.poll() is None:
            process.send_signal(number)
            return True
        return False

    def kill(self, name):
        if self.signal(name, signal.SIGKILL):
            self.running[name].wait()
            return True
        return False

    def has_ended(self, name):
        return self.running[name].poll() is not None

    def of_kind(self, kind):
        return [name for name in list(self.running) if name.startswith(kind)]

    def have_closed(self):
        """Whether all receivers have done their work."""
        return all(map(self.has_ended, self.of_kind("receiver")))

    def tend(self, counts):
        """Starts again what has ended by itself with a fault."""
        if ENDING.is_set():
            raise RuntimeError("the tool ends")
        for name, process in list(self.running.items()):
            if process.poll() not in (None, 0, 3, -signal.SIGKILL) and name.count("-") == 1:
                counts[f"{name.split('-')[0]} ended by a fault"] += 1
                self.start(name)

    def stop(self):
        for number in (signal.SIGCONT, signal.SIGTERM):
            for name in list(self.running):
                self.signal(name, number)
        until = time.monotonic() + 10
        for process in self.running.values():
            try:
                process.wait(max(0, until - time.monotonic()))
            except subprocess.TimeoutExpired:
                process.kill()
                process.wait()


# ---- the application

class Feeder:
    """Puts all texts into the outboxes, some at a time, within the seconds given."""

    def __init__(self, given, sessions, folder):
        self.given, self.sessions = given, sessions
        self.paths = [f"{folder}/outbox{it}.db" for it in range(given.senders)]

    def rows(self, step, steps):
        """What comes at a step: for each outbox its rows, and at the last step the closes."""
        low, high = (self.given.texts * it // steps for it in (step, step + 1))
        rows = [[] for _ in self.paths]
        for it in self.sessions:
            rows[it.sender] += [(it.name, text) for text in it.texts[low:high]]
            if step == steps - 1:
                rows[it.sender].append((it.name, None))
        return rows

    def run(self):
        files = [sqlite3.connect(path, timeout=30) for path in self.paths]
        steps, began = max(1, int(self.given.seconds * 10)), time.monotonic()
        for step in range(steps):
            for file, mine in zip(files, self.rows(step, steps)):
                file.executemany("INSERT INTO text (session, body) VALUES (?, ?)", mine)
                file.commit()
            time.sleep(max(0, began + (step + 1) / 10 - time.monotonic()))
        for file in files:
            file.close()

    def is_carried(self):
        """Whether all texts of all outboxes are carried."""
        return self.has_none("text", "frame WHERE number >= (SELECT carried FROM session"
                                     " WHERE name = frame.session)",
                             "session WHERE carried != next")

    def is_empty(self):
        """Whether no frame is kept any more: with receipts, all took effect."""
        return self.has_none("text", "frame")

    def has_none(self, *kinds):
        left = 0
        for path in self.paths:
            with cases.opened(path) as file:
                left += sum(file.execute(f"SELECT count(*) FROM {rows}").fetchone()[0] for rows in kinds)
        return left == 0


# ---- the disturbances

class Disturber:
    def __init__(self, given, processes, nats):
        self.given, self.processes, self.nats = given, processes, nats
        self.dice = random.Random(given.seed + 1)
        self.counts = collections.Counter()
        self.asleep = {}                            # when each process wakes
        self.down, self.node_moment, self.spares = None, 0, 0

    def run(self, until):
        while time.monotonic() < until and not ENDING.is_set():
            time.sleep(self.dice.uniform(0.1, 0.8))
            now = time.monotonic()
            self.wake(now)
            kind = self.dice.choice(KINDS)
            if kind == "node":
                self.kill_node(now)
            elif kind == "second sender":
                self.start_second()
            else:
                self.disturb(kind, now)
        self.wake(float("inf"))

    def wake(self, now):
        """Has what slept long enough wake, and a node that was down long enough start."""
        for name in [it for it, moment in self.asleep.items() if moment < now]:
            del self.asleep[name]
            self.processes.signal(name, signal.SIGCONT)
        if self.down is not None and now > self.node_moment:
            self.nats.start(self.down)
            self.down, self.node_moment = None, now + 6

    def kill_node(self, now):
        """One node at a time, and none before the one before has caught up."""
        if self.nats and self.nats.nodes > 1 and self.down is None and now > self.node_moment:
            self.down = self.dice.randrange(self.nats.nodes)
            self.node_moment = now + self.dice.uniform(0.5, 4)
            self.nats.kill(self.down)
            self.counts["node killed"] += 1

    def start_second(self):
        """A sender beside the one that is there, on the same outbox."""
        self.spares += 1
        self.processes.start(f"sender-{self.dice.randrange(self.given.senders)}-{self.spares}")
        self.counts["second sender"] += 1

    def disturb(self, kind, now):
        names = [it for it in self.processes.of_kind(kind.split()[-1]) if it not in self.asleep]
        if not names:
            return
        name = self.dice.choice(names)
        if not kind.startswith("stop"):
            self.kill(kind, name)
        elif self.processes.signal(name, signal.SIGSTOP):
            self.asleep[name] = now + self.dice.uniform(1, 4)
            self.counts[kind] += 1

    def kill(self, kind, name):
        if self.processes.kill(name):
            self.counts[f"{kind} killed"] += 1
        time.sleep(self.dice.choice((0, 0, 0.3)))
        if name.count("-") == 2:    # a second sender: the first takes over again
            name = name.rpartition("-")[0]
        if name not in self.asleep and self.processes.has_ended(name):
            self.processes.start(name)


class Noise:
    """Takes frames that a shard has, and publishes them again, whole, or changed, cut, or under another session's name;
    or bytes that are no frame. Nothing of it may have an effect."""

    def __init__(self, given, sessions, path, nats):
        self.given, self.sessions, self.path, self.nats = given, sessions, path, nats
        self.dice, self.connection, self.is_over = random.Random(given.seed + 2), None, False
        self.counts = collections.Counter()

    def run(self, until):
        while time.monotonic() < until and not ENDING.is_set():
            shard, had = self.dice.randrange(self.given.shards), 0
            try:
                had = self.disturb_stream(shard) if self.nats else self.disturb_file(shard)
            except (OSError, sqlite3.Error):        # a node is away, or there is no frame yet
                self.connection = None
            time.sleep(had / RATE or 0.01)
        self.is_over = True

    def disturb_file(self, shard):
        """Some frames from a drawn place of a shard on: so many."""
        with cases.opened(self.path) as file:
            end = file.execute("SELECT max(offset) FROM carried").fetchone()[0]
            rows = file.execute("SELECT session, frame FROM carried WHERE shard = ? AND offset >= ? LIMIT ?",
                                (shard, self.dice.randrange(end or 1), NOISY)).fetchall()
            file.executemany("INSERT INTO carried (shard, session, frame) VALUES (?, ?, ?)",
                             [(shard, *self.altered(*it)) for it in rows])
        return len(rows)

    def disturb_stream(self, shard):
        if not self.connection:
            self.connection = jetstream.Connection(self.dice.choice(self.nats.ports), patience=1)
            self.connection.subscribe(jetstream.INBOX)
        offsets = self.connection.offsets(shard)
        begin = self.dice.randrange(len(offsets) or 1)
        frames = [self.connection.frame_at(shard, it) for it in offsets[begin:begin + NOISY]]
        for frame in filter(None, frames):
            name, altered = self.altered(*frame)
            self.connection.publish(f"krb.{shard}.{name}", altered)
        return len(frames)

    def altered(self, name, frame):
        """What is published of a frame, most often itself."""
        kind, place = self.dice.randrange(8), self.dice.randrange(len(frame) or 1)
        self.counts["altered by noise" if kind < 4 else "repeated by noise"] += 1
        if kind == 0:
            changed = bytes(it ^ self.dice.randrange(1, 256) for it in frame[place:place + 1])
            frame = frame[:place] + changed + frame[place + 1:]
        elif kind == 1:
            name = self.dice.choice(self.sessions).name
        elif kind == 2:
            frame = frame[:place]
        elif kind == 3:
            frame = self.dice.randbytes(len(frame))
        return name, frame


# ---- the trial

def wait(is_so, processes, counts, seconds):
    """Waits until it is so, at most so many seconds. Returns whether it is."""
    until = time.monotonic() + seconds
    while not is_so():
        processes.tend(counts)
        if time.monotonic() > until:
            return False
        time.sleep(0.2)
    return True


class Trial:
    """One run. `counts` has what it counted, `faults` what went wrong."""

    def __init__(self, given):
        self.given, self.folder = given, given.folder
        dice = random.Random(given.seed)
        self.sessions = [Session(dice, it, given) for it in range(given.sessions)]
        self.counts, self.faults = collections.Counter(), []
        self.nats = self.postgres = None
        self.where, self.replicas = f"sqlite:{self.folder}/carrier.db", 1
        self.store = {"sqlite": f"sqlite:{self.folder}/receiver.db",
                      "shards": f"sqlite:{self.folder}/receiver%.db"}.get(given.store)
        self.write_sessions("", lambda it: True)
        for sender in range(given.senders):
            self.write_sessions(sender, lambda it, wanted=sender: it.sender == wanted)

    def write_sessions(self, name, is_wanted):
        cases.Place.write(f"{self.folder}/sessions{name}", [it.line() for it in self.sessions if is_wanted(it)])

    def start_engines(self):
        if self.given.carrier != "sqlite":
            self.replicas = int(self.given.carrier[-1])
            self.nats = engines.Nats(self.folder, self.replicas)
            self.where = self.nats.where
        if self.given.store == "postgresql":
            self.postgres = engines.Postgres(self.folder)
            self.store = self.postgres.where
        self.processes = Processes(self.given, self.where, self.replicas, self.store, self.folder)

    def receiver(self, store):
        """A receiver of all shards, with this store."""
        return [f"{self.given.programs}/receiver", "--sessions", f"{self.folder}/sessions", "--store", store,
                *self.processes.common, "--shards", ",".join(map(str, range(self.given.shards)))]

    def run(self):
        try:
            self.start_engines()
            self.disturb_all()
            self.check_all()
        finally:
            self.processes.stop()
            for engine in (self.nats, self.postgres):
                if engine:
                    engine.stop()

    def start_processes(self):
        """Each outbox is made before the first text: a sender with nothing to do ends."""
        for it in range(self.given.senders):
            subprocess.run([f"{self.given.programs}/sender", *self.processes.common,
                            *self.processes.words("sender", it), "--drain"], check=True, timeout=60, **SILENT)
        for kind, count in (("sender", self.given.senders), ("receiver", self.given.receivers)):
            for it in range(count):
                self.processes.start(f"{kind}-{it}")

    def disturb_all(self):
        given = self.given
        self.start_processes()
        feeder = Feeder(given, self.sessions, self.folder)
        disturber = Disturber(given, self.processes, self.nats)
        until = time.monotonic() + given.seconds + 1
        threads = [threading.Thread(target=feeder.run),
                   threading.Thread(target=disturber.run, args=(until,))]
        noise = Noise(given, self.sessions, self.where.removeprefix("sqlite:"), self.nats)
        threads.append(threading.Thread(target=noise.run, args=(until - 1,)))
        for thread in threads:
            thread.start()
        while any(thread.is_alive() for thread in threads):
            self.processes.tend(self.counts)
            time.sleep(0.2)
        self.counts += disturber.counts + noise.counts
        if not noise.is_over:
            self.faults.append("a run whose noise has ended before has tested less than it says")
        self.await_whole(feeder)

    def await_whole(self, feeder):
        for name in self.processes.of_kind("sender"):
            if name.count("-") == 1 and self.processes.has_ended(name):
                self.processes.start(name)
        if not wait(feeder.is_carried, self.processes, self.counts, self.given.patience):
            self.faults.append("not all is carried")
        elif not wait(self.processes.have_closed, self.processes, self.counts, self.given.settle):
            self.faults.append("not all is closed, though all counts as carried")
        elif not self.has_receipts(feeder):
            self.faults.append("frames are kept, though all took effect")
        self.processes.stop()

    def has_receipts(self, feeder):
        """Whether the senders learn of all effects. A receipt may be lost: so a receiver stays that
        seals it again, as those that have ended since all is closed don't."""
        receiver = subprocess.Popen(self.receiver(self.store), **SILENT)
        try:
            return wait(feeder.is_empty, self.processes, self.counts, self.given.patience)
        finally:
            receiver.terminate()
            receiver.wait(60)

    # ---- what became of the texts

    def check_all(self):
        self.check_effects(self.store, "effects")
        self.tally()
        replay = f"sqlite:{self.folder}/replay%.db"
        if not self.faults:
            self.replay(replay)
            self.check_effects(replay, "replay")
            self.check_shards()

    def rows(self, store):
        """Of each session its effects, number and text, and what it demands with its close."""
        if store.startswith("postgresql"):
            rows = [(name, int(number), bytes.fromhex(text)) for name, number, text in
                    self.postgres.ask("SELECT session, number, encode(text, 'hex') FROM effect"
                                      " ORDER BY id")]
            ends = self.postgres.ask("SELECT name, next, closed FROM session")
            return rows, {name: (int(number), int(closed)) for name, number, closed in ends}
        rows, ends = [], {}
        for path in glob.glob(store[len("sqlite:"):].replace("%", "*")):
            with cases.opened(path) as file:
                rows += file.execute("SELECT session, number, text FROM effect ORDER BY id")
                ends |= {name: (number, closed) for name, number, closed in
                         file.execute("SELECT name, next, closed FROM session")}
        return rows, ends

    def check_effects(self, store, what):
        rows, ends = self.rows(store)
        effects = collections.defaultdict(list)
        for name, number, text in rows:
            effects[name].append((number, bytes(text)))
        for it in self.sessions:
            had, numbers = [text for _, text in effects[it.name]], [n for n, _ in effects[it.name]]
            end, closed = ends.get(it.name, (it.first, 0))
            if had != it.texts or not closed or numbers != sorted(numbers) \
                    or sorted(set(numbers)) != list(range(it.first, end - 1)):
                self.faults.append(f"{what}: {it.name}: {told(had, it.texts)}, closed {closed}")
        self.counts["texts"] = sum(map(len, effects.values()))

    def replay(self, store):
        command = [*self.receiver(store), "--until-closed"]
        until = time.monotonic() + DUMPED
        status = None
        while status != 0 and time.monotonic() < until:     # after a fault it is started again
            try:
                status = subprocess.run(command, check=False, timeout=DUMPED, **SILENT).returncode
            except subprocess.TimeoutExpired:
                self.faults.append("replay hasn't ended")

    def carried(self):
        """All frames that the shards have, each with its session."""
        if self.nats:
            return [(name, frame) for shard in range(self.given.shards)
                    for _, name, frame in jetstream.frames(self.nats.ports[0], shard, patience=DUMPED)]
        with cases.opened(self.where.removeprefix("sqlite:")) as file:
            return file.execute("SELECT session, frame FROM carried ORDER BY shard, offset").fetchall()

    def check_shards(self):
        """Looks at all frames that the shards have."""
        carried, frames, seen = self.carried(), collections.defaultdict(list), {}
        numbers = evidence.numbers_of([(name, frame.hex()) for name, frame in carried],
                                      f"{self.given.programs}/numbers", f"{self.folder}/sessions")
        for (name, frame), number in zip(carried, numbers):
            frames[name].append((number, frame))
            if number != "-" and seen.setdefault((name, number), frame) != frame:
                self.faults.append(f"audit: {name}: two frames left as number {number}")
        self.counts["frames"] = len(seen)
        self.counts["frames in the shards"] = sum(map(len, frames.values()))
        if self.given.krbrelay:
            for it in self.sessions:
                self.check_open(it, frames[it.name])

    def check_open(self, session, held):
        """The texts are those of all jobs, up to the close; what follows it are repeats."""
        lines = []
        for job in session.jobs(held):
            opened = printed.lines("open", job, self.given.krbrelay, DUMPED)[:-1]
            lines += [line for line in opened if " refused " not in line]
            if lines[-1:] == ["lane 0 closed"]:
                break
        if lines != session.lines():
            self.faults.append(f"krbrelay open: {session.name}: {len(lines)} lines of"
                               f" {len(session.lines())}")
        self.counts["sessions opened by krbrelay"] += 1

    def tally(self):
        """The sums of what all processes reported last."""
        for path in glob.glob(f"{self.folder}/*er-*.log"):
            with open(path, encoding="utf-8", errors="replace") as file:
                text = file.read()
            self.faults += loglines.faults(text)
            lines = loglines.read(text)
            last = {line["shard"]: line for line in lines
                    if line.get("event") in ("shard_progress", "shard_ended")}
            for line in last.values():
                for word in ("repeats", "early", "refused", "fenced", "commits"):
                    self.counts[word] += int(line[word])
            self.counts["published again, by senders that ended"] += sum(
                int(line["again"]) for line in lines if line.get("event") == "sender_ended")

    def told(self):
        return ", ".join(f"{word} {count}" for word, count in sorted(self.counts.items()))


def told(had, wanted):
    same = next((k for k, (one, other) in enumerate(zip(had, wanted)) if one != other),
                min(len(had), len(wanted)))
    doubled = "doubled, " if len(had) > len(set(had)) else ""
    return f"{doubled}{len(had)} texts of {len(wanted)}, the first {same} right"
