"""Senders and receivers that are started as systemd's units say (systemd_units.py), over three nodes of
JetStream and PostgreSQL, while processes and servers are killed and stopped: for an hour, or as long as
is asked for. Receivers share the shards. The metrics of each program are read each second: the lag of
all shards has to return to zero, and each text has to take effect once and in order.
"""
import collections
import dataclasses
import os
import random
import signal
import time
import threading

import cases
import chaos
import engines
import evidence
import jetstream
import loglines
import pytest
import systemd_units

UNITS = os.path.join(os.path.dirname(os.path.abspath(__file__)), "../systemd")
SENDERS, RECEIVERS, SESSIONS, SHARDS = 3, 3, 24, 8
RATE = 48               # texts a second, of all sessions
SIZE = 600              # bytes at most
FIRST = 1               # the first number of each session
CAUGHT_UP = 120         # seconds until all has taken effect after the end
QUIET = (6, 20)         # seconds between two disturbances
NODE_PAUSE = 8          # seconds for a node to catch up
KINDS = ["receiver"] * 4 + ["sender"] * 4 + ["stop receiver", "stop sender", "node", "node",
                                             "stop node", "database", "sessions"]
LAG = "krbrelay_receiver_lag_frames"
WAITING = "krbrelay_sender_waiting"


@dataclasses.dataclass
class Sample:
    """What the metrics had at a moment: how many programs answered, and sums of theirs."""
    moment: float
    answered: int
    lag: float
    waiting: float      # texts and frames at senders
    shards: int         # so many were served


class Endurance:
    def __init__(self, folder, programs, seconds, seed=1):
        self.folder, self.programs, self.seconds = folder, programs, seconds
        self.dice = random.Random(seed)
        self.counts, self.faults, self.samples = collections.Counter(), [], []
        self.sent = collections.defaultdict(list)
        self.names = [f"s{it:03}" for it in range(SESSIONS)]
        self.ending = threading.Event()
        self.down = None        # a node, and when it is started again
        self.asleep = []        # what was stopped, and when it wakes

    @staticmethod
    def sender_of(name):
        return int(name[1:]) % SENDERS

    @staticmethod
    def shard_of(name):
        return int(name[1:]) % SHARDS

    def write_sessions(self):
        lines = {name: f"{name} {self.shard_of(name)} 18 priv {int(name[1:]) + 1:064x} {FIRST}"
                       " 10.0.0.1 10.0.0.2\n" for name in self.names}
        for path, mine in self.files():
            cases.Place.write(path, [lines[it] for it in mine])

    def files(self):
        """Each file of sessions, and their names."""
        return [(f"{self.folder}/sessions", self.names), *(
            (f"{self.folder}/sessions{it}", [name for name in self.names if self.sender_of(name) == it])
            for it in range(SENDERS))]

    def start(self):
        self.write_sessions()
        self.nats = engines.Nats(self.folder, 3)
        self.database = engines.Postgres(self.folder)
        ports = engines.free_ports(SENDERS + RECEIVERS)
        self.units, self.ports = {}, {}
        for place in range(SENDERS + RECEIVERS):
            kind, number = ("sender", place) if place < SENDERS else ("receiver", place - SENDERS)
            name = f"{kind}{number}"
            given = {"SESSIONS": f"{self.folder}/sessions" + (str(number) if kind == "sender" else ""),
                     "OUTBOX": f"{self.folder}/outbox{number}.db", "STORE": self.database.where,
                     "CARRIER": self.nats.where, "SHARDS": "auto",
                     "OPTIONS": f"--replicas 3 --metrics 127.0.0.1:{ports[place]}"}
            self.units[name] = systemd_units.Unit(f"{UNITS}/krbrelay-{kind}@.service",
                                          f"{self.programs}/{kind}", given, self.folder, name)
            self.ports[name] = ports[place]
            self.units[name].start()
        assert cases.Place.wait(lambda: all(it.is_ready for it in self.units.values()), CAUGHT_UP), "a unit isn't ready"

    # ---- the application

    def put(self, rows):
        """Puts texts into the outboxes of their sessions."""
        for sender in range(SENDERS):
            mine = [(name, text) for name, text in rows if self.sender_of(name) == sender]
            with cases.opened(f"{self.folder}/outbox{sender}.db") as file:
                file.executemany("INSERT INTO text (session, body) VALUES (?, ?)", mine)
            for name, text in mine:
                if text is not None:
                    self.sent[name].append(text)

    def feed(self, until):
        began, had = time.monotonic(), 0
        while time.monotonic() < until:
            wanted = int((time.monotonic() - began) * RATE)
            counts = collections.Counter(self.names[it % SESSIONS] for it in range(had, wanted))
            self.put([(name, f"{name} {len(self.sent[name]) + it} ".encode()
                       + self.dice.randbytes(self.dice.randrange(SIZE)))
                      for name, count in counts.items() for it in range(count)])
            had = wanted
            time.sleep(0.25)

    # ---- disturbances

    def disturb(self, until):
        while time.monotonic() < until:
            getattr(self, "do_" + (kind := self.dice.choice(KINDS)).replace(" ", "_"))()
            self.counts[kind] += 1
            wake = time.monotonic() + self.dice.uniform(*QUIET)
            while time.monotonic() < min(wake, until):
                self.mend()
                time.sleep(0.1)
        self.mend(float("inf"))

    def mend(self, now=None):
        """What was stopped wakes, and a node that was killed is started, if it is time."""
        now = now or time.monotonic()
        for wake, moment in [it for it in self.asleep if it[1] <= now]:
            wake()
            self.asleep.remove((wake, moment))
        if self.down and self.down[1] <= now:
            self.nats.start(self.down[0])
            self.down = None

    def later(self, wake):
        self.asleep.append((wake, time.monotonic() + self.dice.uniform(1, 4)))

    def one_of(self, kind):
        return self.dice.choice([it for name, it in self.units.items() if name.startswith(kind)])

    def do_receiver(self):
        self.one_of("receiver").signal(signal.SIGKILL)

    def do_sender(self):
        self.one_of("sender").signal(signal.SIGKILL)

    def stop_one(self, kind):
        unit = self.one_of(kind)
        process = unit.process
        if unit.signal(signal.SIGSTOP):
            self.later(lambda: process.poll() is None and process.send_signal(signal.SIGCONT))

    def do_stop_receiver(self):
        self.stop_one("receiver")

    def do_stop_sender(self):
        self.stop_one("sender")

    def do_node(self):
        """One at a time."""
        if self.down is None:
            node = self.dice.randrange(3)
            self.nats.kill(node)
            self.down = (node, time.monotonic() + self.dice.uniform(0.5, 6))
            time.sleep(NODE_PAUSE)
            self.mend()

    def do_stop_node(self):
        if self.down is None:
            process = self.nats.running[self.dice.randrange(3)]
            process.send_signal(signal.SIGSTOP)
            self.later(lambda: process.send_signal(signal.SIGCONT))

    def do_database(self):
        self.database.restart(self.dice.uniform(0.2, 2))

    def do_sessions(self):
        """The files of sessions are replaced by others with the same sessions."""
        for path, _ in self.files():
            with open(path, encoding="ascii") as file:
                lines = file.readlines()
            self.dice.shuffle(lines)
            cases.Place.write(path + ".new", lines)
            os.rename(path + ".new", path)

    # ---- metrics

    def watch(self):
        began = time.monotonic()
        with open(f"{self.folder}/samples.csv", "w", encoding="ascii") as file:
            while not self.ending.is_set():
                self.samples.append(self.sample(time.monotonic() - began))
                print(*dataclasses.astuple(self.samples[-1]), sep=",", file=file, flush=True)
                self.ending.wait(1)

    def sample(self, moment):
        answered, lags, waiting = 0, {}, 0.0
        for port in self.ports.values():
            status, text = cases.get(port, "/metrics")
            answered += status == 200
            for line in text.splitlines() if status == 200 else ():
                if line.startswith(LAG):
                    labels, number = line.rsplit(" ", 1)
                    lags[labels] = max(float(number), lags.get(labels, 0))
                elif line.startswith(WAITING):
                    waiting += float(line.rsplit(" ", 1)[1])
        return Sample(round(moment, 1), answered, sum(lags.values()), waiting, len(lags))

    def is_idle(self):
        last = self.samples[-1]
        return last.answered == len(self.ports) and not last.lag and not last.waiting \
            and last.shards == SHARDS

    # ---- the end

    def effects(self):
        found = collections.defaultdict(list)
        for name, text in self.database.ask(
                "SELECT session, encode(text, 'hex') FROM effect ORDER BY id"):
            found[name].append(bytes.fromhex(text))
        return found

    def ask(self, sql):
        return self.database.ask(sql)

    def sending(self, name):
        return evidence.read_outbox(f"{self.folder}/outbox{self.sender_of(name)}.db", name, FIRST)

    def read_shard(self, shard):
        def ask(node, what):
            return jetstream.run("127.0.0.1", self.nats.ports[node], what, shard)
        return evidence.read_shard(ask, len(self.nats.ports), f"{self.programs}/numbers",
                                   f"{self.folder}/sessions")

    def records(self):
        return [self.units[f"sender{it}"].record() for it in range(SENDERS)]

    def is_whole(self):
        return len(evidence.closed(self)) == SESSIONS and self.is_idle()

    def await_whole(self):
        """Until all is closed and the metrics say that nothing waits."""
        began = time.monotonic()
        while not self.is_whole():
            if time.monotonic() - began > CAUGHT_UP:
                self.faults.append(f"not whole after {CAUGHT_UP} s: {self.samples[-1]}")
                self.faults += map(": ".join, evidence.standing(self, FIRST))
                return
            time.sleep(0.5)
        self.counts["seconds until all was whole"] = round(time.monotonic() - began)

    def judge(self):
        found = self.effects()
        for name in self.names:
            if found[name] != self.sent[name]:
                self.faults.append(f"{name}: {chaos.told(found[name], self.sent[name])}")
        self.counts["texts"] = sum(map(len, found.values()))
        for name, unit in self.units.items():
            status = unit.stop()
            self.faults += [f"{name} ended with {status}"] * (status != 0 or unit.was_killed)
            self.counts[f"starts of {name.rstrip('0123456789')}s"] += unit.starts
            for log in range(1, unit.starts + 1):
                with open(f"{self.folder}/{name}.{log:04}.log", encoding="utf-8",
                          errors="replace") as file:
                    self.faults += loglines.faults(file.read())
        self.measure()

    def measure(self):
        """The lag and what waited, over the whole time."""
        idle, longest, since = 0, 0.0, None
        for it in self.samples:
            if it.lag or it.waiting or it.answered < len(self.ports) or it.shards < SHARDS:
                since = it.moment if since is None else since
                longest = max(longest, it.moment - since)
            else:
                idle, since = idle + 1, None
        self.counts["samples"] = len(self.samples)
        self.counts["samples with nothing waiting"] = idle
        self.counts["longest time until all was idle again, s"] = round(longest)
        self.counts["largest lag"] = int(max(it.lag for it in self.samples))

    def run(self):
        try:
            self.start()
            until = time.monotonic() + self.seconds
            threads = [threading.Thread(target=self.feed, args=(until,)),
                       threading.Thread(target=self.disturb, args=(until,))]
            watcher = threading.Thread(target=self.watch)
            for thread in (*threads, watcher):
                thread.start()
            for thread in threads:
                thread.join()
            self.put([(name, None) for name in self.names])
            self.await_whole()
            self.ending.set()
            watcher.join()
            self.judge()
        finally:
            self.ending.set()
            for unit in self.units.values():
                if not unit.is_stopping:
                    unit.stop()
            self.database.stop()
            self.nats.stop()

    def told(self):
        return ", ".join(f"{word} {count}" for word, count in sorted(self.counts.items()))


@pytest.mark.slow
def test_endurance(programs, folder, pytestconfig):
    """For an hour with --seconds 3600."""
    trial = Endurance(folder, programs, pytestconfig.getoption("--seconds", 30))
    trial.run()
    print(trial.told())
    assert trial.faults[:20] == []
