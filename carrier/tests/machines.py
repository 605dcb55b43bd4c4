"""Eight machines on one: three nodes of JetStream, two senders, two receivers and PostgreSQL. Each is
a network namespace with a wire to one switch in user space (switch.py), which loses, delays and
reorders as it is told. A disk may be a file system on an image: a copy of the image at a moment is
what a loss of power leaves. test_machines.py and test_two_faults.py have what is done to them.

An application puts texts into the outboxes all the while. At the end each session is closed.
"""
import collections
import contextlib
import dataclasses
import glob
import itertools
import json
import os
import random
import shutil
import signal
import sqlite3
import struct
import subprocess
import sys
import threading
import time

import engines
import cases
import evidence
import jetstream

NODES = ("n0", "n1", "n2")
SENDERS = ("s0", "s1")
RECEIVERS = ("r0", "r1")
DATABASE = "pg"
MACHINES = (*NODES, *SENDERS, *RECEIVERS, DATABASE)
ADDRESS = {name: f"10.77.0.{place + 1}" for place, name in enumerate(MACHINES)}
HARDWARE = {name: f"02:00:00:00:00:{place + 1:02x}" for place, name in enumerate(MACHINES)}
CLIENT, CLUSTER = 4222, 6222        # ports of nodes
ELECTION = 4                        # seconds until the nodes have a leader
PATIENCE = 30                       # seconds for a server to answer
FIRST = 1                           # the first number of each session
STEP = 0.1                          # seconds between insertions
LOOK = 0.3                          # seconds between looks at the effects
IMAGE = 400                         # megabytes

SWITCH = os.path.join(os.path.dirname(os.path.abspath(__file__)), "switch.py")
METRICS = 9464                      # the port at which a program shows its numbers
# Prints what the program at a port of the loopback answers: the status and the text.
ASK = """
import http.client, sys
connection = http.client.HTTPConnection("127.0.0.1", int(sys.argv[1]), timeout=5)
connection.request("GET", sys.argv[2])
answer = connection.getresponse()
print(answer.status, answer.read().decode())
"""
POSTGRES = "/usr/lib/postgresql/*/bin"
AS_POSTGRES = ("setpriv", "--reuid", "postgres", "--regid", "postgres", "--clear-groups")
TURNS = itertools.count()


def missing():
    """What this needs beside servers, and isn't here."""
    needs = {"root": os.geteuid() == 0, "/dev/net/tun": os.path.exists("/dev/net/tun"),
             "a loop device": os.path.exists("/dev/loop-control")}
    commands = {"ip": "iproute2", "setpriv": "util-linux", "mkfs.ext4": "e2fsprogs",
                "mount": "mount", "nats-server": "nats-server",
                "psql": "postgresql-client"}
    needs |= {package: bool(shutil.which(command)) for command, package in commands.items()}
    needs["postgresql"] = bool(glob.glob("/usr/lib/postgresql/*/bin/postgres"))
    return [name for name, is_there in needs.items() if not is_there]


def await_so(is_so, what):
    """What it gives once that is true; it is a fault that it isn't in time."""
    until = time.monotonic() + PATIENCE
    while not (found := is_so()):
        if time.monotonic() > until:
            raise RuntimeError(what)
        time.sleep(0.1)
    return found


def run(*words, **how):
    """What a command prints, which has to go right."""
    return subprocess.run(words, check=True, stdout=subprocess.PIPE, stderr=subprocess.STDOUT,
                          text=True, **how).stdout


# ---- the network

class Network:
    """A namespace for each machine, and the switch between them."""

    def __init__(self):
        tag = f"k{os.getpid()}n{next(TURNS)}"
        self.spaces = {name: f"{tag}-{name}" for name in MACHINES}
        wires = [f"{tag}t{place}" for place in range(len(MACHINES))]
        self.lock = threading.Lock()
        self.switch = subprocess.Popen([sys.executable, SWITCH, *wires], stdin=subprocess.PIPE,
                                       stdout=subprocess.PIPE, text=True)
        if self.switch.stdout.readline() != "ready\n":
            raise RuntimeError("the switch doesn't start")
        for name, wire in zip(MACHINES, wires):
            self.connect(name, wire)

    def connect(self, name, wire):
        space = self.spaces[name]
        run("ip", "netns", "add", space)
        run("ip", "link", "set", wire, "netns", space)
        inside = ("ip", "-n", space)
        run(*inside, "link", "set", wire, "name", "eth0")
        run(*inside, "link", "set", "eth0", "address", HARDWARE[name])
        run(*inside, "addr", "add", f"{ADDRESS[name]}/24", "dev", "eth0")
        for device in ("eth0", "lo"):
            run(*inside, "link", "set", device, "up")
        for other in MACHINES:
            if other != name:
                run(*inside, "neigh", "add", ADDRESS[other], "lladdr", HARDWARE[other], "dev", "eth0",
                    "nud", "permanent")

    def command(self, name, *words):
        """The words that run a command on a machine."""
        return ["ip", "netns", "exec", self.spaces[name], *words]

    def tell(self, line):
        with self.lock:
            self.switch.stdin.write(line + "\n")
            self.switch.stdin.flush()
            if self.switch.stdout.readline() != "done\n":
                raise ValueError(f"the switch doesn't know {line}")

    @staticmethod
    def places(names):
        return ["*"] if names == "*" else [MACHINES.index(name) for name in names]

    def set_way(self, sources, targets, loss=0, delay=0, jitter=0):
        """What these send to those: which part is lost, and how many milliseconds it takes."""
        for source in self.places(sources):
            for target in self.places(targets):
                self.tell(f"L {source} {target} {loss} {delay} {jitter}")

    def set_both_ways(self, some, others, *how):
        self.set_way(some, others, *how)
        self.set_way(others, some, *how)

    def cut(self, some, others):
        """Nothing passes between these and those."""
        self.set_both_ways(some, others, 1)

    def isolate(self, name):
        self.cut([name], "*")

    def set_line(self, name, kbit):
        """All that a machine sends goes through a line of so many kbit a second."""
        self.tell(f"R {MACHINES.index(name)} {kbit}")

    def heal(self):
        self.tell("C")

    def stop(self):
        self.switch.stdin.close()
        self.switch.wait(PATIENCE)
        for space in self.spaces.values():
            subprocess.run(["ip", "netns", "del", space], check=False, stderr=subprocess.DEVNULL)


# ---- disks

class Disk:
    """A machine's files. Its kind is "", a folder; "image" or "image,sync", a file system on an
    image, whose writes are all synced or not; or "24m", one in memory of this size."""

    def __init__(self, folder, name, kind):
        self.path, self.image, self.kind = f"{folder}/{name}", f"{folder}/{name}.img", kind
        os.makedirs(self.path)
        if kind.startswith("image"):
            run("truncate", "-s", f"{IMAGE}M", self.image)
            run("mkfs.ext4", "-q", self.image)
        self.mount()

    def mount(self):
        if self.kind.startswith("image"):
            options = "loop,sync,dirsync" if self.kind.endswith("sync") else "loop"
            run("mount", "-o", options, self.image, self.path)
        elif self.kind:
            run("mount", "-t", "tmpfs", "-o", f"size={self.kind}", "none", self.path)

    def sync(self):
        run("sync", "-f", self.path)

    def fill(self):
        """Until it is full."""
        with contextlib.suppress(OSError), open(f"{self.path}/fill", "wb") as file:
            while True:
                file.write(bytes(4096))
                file.flush()

    def make_room(self):
        run("mount", "-o", "remount,size=200m", self.path)
        os.unlink(f"{self.path}/fill")

    def note(self):
        """Keeps what a loss of power would leave now."""
        run("cp", "--sparse=always", self.image, self.image + ".left")

    def lose(self):
        """Makes the disk what was kept. Nothing uses it any more."""
        run("umount", "-l", self.path)
        os.replace(self.image + ".left", self.image)
        self.mount()

    def stop(self):
        if self.kind:
            subprocess.run(["umount", "-l", self.path], check=False, stderr=subprocess.DEVNULL)


# ---- processes and what they serve

@dataclasses.dataclass
class Options:
    """How the machines are made, and what the application does."""
    seconds: float = 14         # for which texts are put in,
    rate: int = 300             # so many a second,
    size: int = 200             # of so many bytes
    sessions: int = 12
    shards: int = 4
    replicas: int = 3
    is_shared: bool = False     # receivers share shards; else each serves all, or those of `shards_of`
    has_receipts: bool = False  # each session has a key of the way back
    receipt_replicas: int = 3   # of the stream of receipts, which receivers make
    skew: int = 86400           # seconds by which a frame's time may be off
    shards_of: dict = dataclasses.field(default_factory=dict)   # of a receiver
    disks: dict = dataclasses.field(default_factory=dict)   # the kind of a machine's disk
    clocks: dict = dataclasses.field(default_factory=dict)  # seconds by which it is ahead at first


@dataclasses.dataclass
class Process:
    running: subprocess.Popen
    words: list
    is_tended: bool     # it is started again where it ends


def make_template(path):
    """A cluster of PostgreSQL, of which each case gets a copy."""
    os.makedirs(path, 0o700)
    shutil.chown(path, "postgres", "postgres")
    run(*AS_POSTGRES, f"{max(glob.glob(POSTGRES))}/initdb", "-D", path, "-U", "postgres", "-A", "trust", "--no-sync",
        cwd="/")
    with open(f"{path}/pg_hba.conf", "a", encoding="ascii") as file:
        file.write("host all all 10.77.0.0/24 trust\n")


class World:
    """The machines of a case, their processes and what was sent."""

    def __init__(self, folder, programs, network, case):
        self.folder, self.programs, self.network, self.case = folder, programs, network, case
        self.options = options = Options(**case.made)
        self.processes, self.disks, self.clocks = {}, {}, dict(options.clocks)
        self.shards_of = dict(options.shards_of)
        self.counts, self.lock, self.ending = collections.Counter(), threading.RLock(), False
        self.feeding = threading.Lock()
        self.sent, self.samples = collections.defaultdict(list), []
        self.put_before_restore = {}        # so many texts of each session, where an outbox is restored
        self.where = ",".join(f"nats://{ADDRESS[node]}:{CLIENT}" for node in NODES)
        self.store = f"postgresql://postgres@{ADDRESS[DATABASE]}/postgres"
        self.names = [f"s{place:03}" for place in range(options.sessions)]
        self.feeder = threading.Thread(target=self.feed)
        self.threads = [self.feeder, *(threading.Thread(target=it)
                                       for it in (self.tend, self.watch))]

    def shard_of(self, name):
        return int(name[1:]) % self.options.shards

    def sender_of(self, name):
        return SENDERS[int(name[1:]) % len(SENDERS)]

    # ---- processes

    def set_conditions(self, name, ahead=0, slow=0):
        """By so many seconds the clock of a sender or receiver is ahead, and by so many milliseconds
        each sync of its files takes longer."""
        with open(os.open(f"{self.folder}/{name}.conditions", os.O_WRONLY | os.O_CREAT), "wb") as file:
            file.write(struct.pack("qq", ahead, slow))

    def conditioned(self, name):
        """The words before a program whose clock and disk a case may change."""
        path = f"{self.folder}/{name}.conditions"
        if not os.path.exists(path):
            self.set_conditions(name)
        return ("env", f"LD_PRELOAD={self.programs}/conditions.so", f"CONDITIONS={path}")

    def spawn(self, name, *words, is_tended=False):
        """Starts the process of a machine."""
        with self.lock:
            self.counts["processes"] += 1
            path = f"{self.folder}/{name}.{self.counts['processes']:03}.log"
            given = dict(os.environ, CLOCK_OFFSET=str(self.clocks.get(name, 0)),
                         CARRIER_RECORD=self.record(name))
            with open(path, "wb") as log:
                running = subprocess.Popen(self.network.command(name, *words), stdout=log, stderr=log,
                                           env=given, cwd="/")
            self.processes[name] = Process(running, list(words), is_tended)

    def tend(self):
        """Starts senders and receivers again that have ended, as systemd's units do."""
        while not self.ending:
            with self.lock:
                for name, it in list(self.processes.items()):
                    if it.is_tended and it.running.poll() is not None:
                        self.counts[f"{name[0]} ended, {it.running.returncode}"] += 1
                        self.spawn(name, *it.words, is_tended=True)
            time.sleep(0.5)

    def signal(self, names, number):
        for name in names:
            if self.processes[name].running.poll() is None:
                self.processes[name].running.send_signal(number)

    def stop(self, *names):
        """The machines' processes end at once and aren't started again."""
        for name in names:
            with self.lock:
                self.processes[name].is_tended = False
                self.signal([name], signal.SIGKILL)
                self.processes[name].running.wait()

    def ended(self, *names):
        """SIGTERM ends these in time, and in order; they are started again. What is wrong with that."""
        running = [self.processes[name].running for name in names]
        for it in running:
            it.send_signal(signal.SIGTERM)
        until = time.monotonic() + cases.TO_END
        for it in running:
            with contextlib.suppress(subprocess.TimeoutExpired):
                it.wait(max(0, until - time.monotonic()))
        return [f"{name} was told to end: {it.poll()} after {cases.TO_END} s" for name, it in zip(names, running)
                if it.poll() != 0]

    def restart(self, *names):
        """The processes are killed, and started again as they were."""
        for name in names:
            with self.lock:
                self.stop(name)
                self.spawn(name, *self.processes[name].words, is_tended=name in SENDERS + RECEIVERS)

    # ---- servers

    def start_node(self, name):
        routes = ", ".join(f'"nats://{ADDRESS[node]}:{CLUSTER}"' for node in NODES)
        path = f"{self.folder}/{name}.conf"
        with open(path, "w", encoding="utf-8") as file:
            file.write(f'server_name: {name}\nlisten: "{ADDRESS[name]}:{CLIENT}"\n'
                       f'jetstream {{ store_dir: "{self.disks[name].path}/store", max_file: 4GB,'
                       f' max_mem: 256MB }}\ncluster {{ name: krbrelay,'
                       f' listen: "{ADDRESS[name]}:{CLUSTER}", routes: [{routes}] }}\n')
        self.spawn(name, "nats-server", "-c", path, "-l", f"{self.folder}/{name}.nats.log")

    def make_database(self, template):
        """A copy of a cluster that initdb made."""
        run("cp", "-a", template, f"{self.folder}/data")
        os.makedirs(f"{self.folder}/socket")
        os.chmod(f"{self.folder}/socket", 0o777)
        self.database = [*AS_POSTGRES, f"{max(glob.glob(POSTGRES))}/postgres", "-D", f"{self.folder}/data",
                         "-c", f"listen_addresses={ADDRESS[DATABASE]}",
                         "-c", f"unix_socket_directories={self.folder}/socket",
                         "-c", "shared_buffers=64MB", "-c", "max_wal_size=1GB"]

    def start_database(self):
        self.spawn(DATABASE, *self.database)
        await_so(lambda: self.count() is not None, "PostgreSQL doesn't start")

    def end_database(self):
        """At once, as by a crash."""
        self.signal([DATABASE], signal.SIGQUIT)
        self.processes[DATABASE].running.wait()

    def kill_database(self, seconds):
        """It is away for so many seconds."""
        self.end_database()
        time.sleep(seconds)
        self.start_database()

    def signal_database(self, number):
        """To the server and each of its processes."""
        for process in engines.with_children(self.processes[DATABASE].running.pid):
            os.kill(process, number)

    def ask(self, sql):
        """The rows of an answer, by way of a socket that no network cuts."""
        return engines.ask(f"postgresql://postgres@/postgres?host={self.folder}/socket", sql, PATIENCE)

    def ask_node(self, node, what, *more):
        """What a node says of a shard's stream (jetstream.py); None if the answer isn't whole."""
        return jetstream.run(ADDRESS[node], CLIENT, what, *more, command=self.network.command(node))

    def leader_now(self, shard):
        """The node that leads a shard's stream, or None."""
        answers = map(json.loads, filter(None, (self.ask_node(it, "info", shard) for it in NODES)))
        return next((it["cluster"].get("leader") for it in answers if "cluster" in it), None)

    def leader(self, shard=0):
        """The same, which is waited for."""
        return await_so(lambda: self.leader_now(shard), f"shard {shard} has no leader")

    # ---- senders and receivers

    def record(self, sender):
        """What a sender heard from NATS (records.c); it outlives the sender's disk."""
        return f"{self.folder}/{sender}.record"

    def outbox(self, sender):
        return f"{self.disks[sender].path}/outbox.db"

    def start_sender(self, name, outbox=None, sessions_of=None):
        """With its own outbox and sessions, or those of another machine."""
        self.spawn(name, *self.conditioned(name), f"{self.programs}/sender", "--sessions",
                   self.sessions_of(sessions_of or name), "--outbox", outbox or self.outbox(name),
                   "--carrier", self.where, "--replicas", str(self.options.replicas), "--metrics",
                   f"127.0.0.1:{METRICS}", is_tended=True)

    def start_receivers(self):
        for receiver in RECEIVERS:
            self.start_receiver(receiver)

    def start_receiver(self, name):
        every = "auto" if self.options.is_shared else f"0-{self.options.shards - 1}"
        self.spawn(name, *self.conditioned(name), f"{self.programs}/receiver", "--sessions",
                   f"{self.folder}/sessions", "--store", self.store, "--carrier", self.where,
                   "--shards", self.shards_of.get(name, every), "--replicas",
                   str(min(self.options.replicas, self.options.receipt_replicas)), "--skew",
                   str(self.options.skew), "--metrics", f"127.0.0.1:{METRICS}", is_tended=True)

    def sessions_of(self, sender):
        return f"{self.folder}/sessions-{sender}"

    def lines(self):
        """Each session's line."""
        dice, back = random.Random(7), random.Random(8)
        return {name: f"{name} {self.shard_of(name)} 18 priv {dice.randbytes(32).hex()} {FIRST}"
                      f" 10.0.0.1 10.0.0.2"
                      + (f" {back.randbytes(32).hex()}" if self.options.has_receipts else "") + "\n"
                for name in self.names}

    def write_lines(self, path, names):
        """Puts a file with the lines of these sessions in the place of one that may be there."""
        lines = self.lines()
        cases.Place.write(path + ".new", [lines[name] for name in names])
        os.rename(path + ".new", path)

    def write_sessions(self):
        self.write_lines(f"{self.folder}/sessions", self.names)
        for sender in SENDERS:
            self.write_lines(self.sessions_of(sender), self.names_of(sender))

    def names_of(self, sender):
        return [name for name in self.names if self.sender_of(name) == sender]

    def start(self, template):
        self.disks = {name: Disk(self.folder, name, self.options.disks.get(name, ""))
                      for name in NODES + SENDERS}
        self.make_database(template)
        for node in NODES:
            self.start_node(node)
        self.start_database()
        self.write_sessions()
        time.sleep(ELECTION)
        for sender in SENDERS:
            self.start_sender(sender)
        self.start_receivers()
        await_so(lambda: all(map(self.has_outbox, SENDERS)), "a sender doesn't start")
        for thread in self.threads:
            thread.start()

    def has_outbox(self, sender):
        if not os.path.exists(self.outbox(sender)):
            return False
        with contextlib.suppress(sqlite3.Error), cases.opened(self.outbox(sender)) as file:
            return file.execute("SELECT turn FROM owner").fetchone()[0] > 0
        return False

    # ---- copies, and what is restored

    def copy_outbox(self, sender, path):
        """What the outbox has at one moment."""
        with cases.opened(self.outbox(sender)) as source, cases.opened(path) as target:
            source.backup(target)

    def restore_outbox(self, sender, path):
        with self.feeding:
            self.stop(sender)
            for it in glob.glob(self.outbox(sender) + "*"):
                os.unlink(it)
            shutil.copy(path, self.outbox(sender))
            self.put_before_restore = {name: len(texts) for name, texts in self.sent.items()}
            self.start_sender(sender)

    def copy_store(self):
        self.end_database()
        run("cp", "-a", f"{self.folder}/data", f"{self.folder}/data.backup")
        self.start_database()

    def restore_store(self):
        self.end_database()
        run("rm", "-rf", f"{self.folder}/data")
        run("cp", "-a", f"{self.folder}/data.backup", f"{self.folder}/data")
        self.start_database()

    # ---- the application

    def put(self, sender, rows):
        """Puts rows into an outbox. Whether they are there for good."""
        try:
            with cases.opened(self.outbox(sender)) as file:
                file.executemany("INSERT INTO text (session, body) VALUES (?, ?)", rows)
            return True
        except sqlite3.Error:
            self.counts["insertions that failed"] += 1
            return False

    def put_texts(self, counts):
        """Puts so many texts of each session into the outboxes."""
        with self.feeding:
            for sender in SENDERS:
                texts = {name: [f"{name} {len(self.sent[name]) + it}".ljust(self.options.size).encode()
                                for it in range(count)]
                         for name, count in counts.items() if self.sender_of(name) == sender}
                rows = [(name, text) for name, mine in texts.items() for text in mine]
                if self.put(sender, rows):
                    for name, mine in texts.items():
                        self.sent[name] += mine

    def feed(self):
        steps, began, had = int(self.options.seconds / STEP), time.monotonic(), 0
        for step in range(steps):
            wanted = int((step + 1) * STEP * self.options.rate)
            counts = collections.Counter(self.names[it % len(self.names)]
                                         for it in range(had, wanted))
            had = wanted
            self.put_texts(counts)
            time.sleep(max(0, began + (step + 1) * STEP - time.monotonic()))

    def await_fed(self):
        self.feeder.join()

    def close_all(self):
        for sender in SENDERS:
            mine = [(name, None) for name in self.names if self.sender_of(name) == sender]
            until = time.monotonic() + PATIENCE
            while not self.put(sender, mine) and time.monotonic() < until:
                time.sleep(0.5)

    # ---- what was delivered

    def count(self):
        """How many effects there are; None where nobody answers."""
        try:
            if self.ask("SELECT to_regclass('effect') IS NULL")[0][0] == "t":
                return 0
            return int(self.ask("SELECT count(*) FROM effect")[0][0])
        except subprocess.SubprocessError:
            return None

    def watch(self):
        while not self.ending:
            count = self.count()
            if count is not None:
                self.samples.append((time.monotonic(), count))
            time.sleep(LOOK)

    def effects(self):
        found = collections.defaultdict(list)
        for name, text in self.ask("SELECT session, encode(text, 'hex') FROM effect ORDER BY id"):
            found[name].append(bytes.fromhex(text))
        return found

    def of_shards(self, texts):
        """How many of these texts each shard has."""
        return [sum(len(it) for name, it in list(texts.items()) if self.shard_of(name) == shard)
                for shard in range(self.options.shards)]

    def is_whole(self):
        wanted = sum(map(len, self.sent.values()))
        if (self.count() or 0) < wanted:
            return False
        return len(self.closed()) == len(self.names)

    def await_whole(self, seconds):
        """Waits until all has taken effect: how long that took, None where it didn't."""
        began = time.monotonic()
        while time.monotonic() - began < seconds:
            if self.is_whole():
                return time.monotonic() - began
            time.sleep(LOOK)
        return None

    def await_quiet(self, seconds, quiet):
        """Waits until nothing took effect for so long, or all did."""
        began, last, since = time.monotonic(), None, time.monotonic()
        while time.monotonic() - began < seconds and time.monotonic() - since < quiet:
            now = self.count()
            if now != last:
                last, since = now, time.monotonic()
            if self.is_whole():
                return
            time.sleep(LOOK)

    def status(self):
        """Each session that stands or is stopped, with what carrier/status says of it."""
        outboxes = (word for it in SENDERS for word in ("--outbox", self.outbox(it)))
        done = subprocess.run(self.network.command(DATABASE, cases.STATUS, *outboxes, "--store", self.store,
                                                   "--standing"), check=False, stdout=subprocess.PIPE,
                              text=True, timeout=PATIENCE)
        return {line.split()[0]: line for line in done.stdout.splitlines()
                if line.split()[0] in self.names}

    def shown(self, name, path="/metrics"):
        """What a program answers at its machine: the status and the text, or None where it doesn't."""
        done = subprocess.run(self.network.command(name, sys.executable, "-c", ASK, str(METRICS), path),
                              check=False, stdout=subprocess.PIPE, text=True, timeout=PATIENCE)
        status, _, text = done.stdout.partition(" ")
        return (int(status), text) if done.returncode == 0 else None

    def sending(self, name):
        return evidence.read_outbox(self.outbox(self.sender_of(name)), name, FIRST)

    def read_shard(self, shard):
        return evidence.read_shard(lambda node, what: self.ask_node(NODES[node], what, shard),
                                   len(NODES), f"{self.programs}/numbers", f"{self.folder}/sessions")

    def records(self):
        return [self.record(it) for it in SENDERS]

    def closed(self):
        return evidence.closed(self)

    def longest_gap(self, since):
        """The longest time without an effect, while effects came."""
        rose = [moment for (_, before), (moment, now) in zip(self.samples, self.samples[1:])
                if now > before]
        return max((late - early for early, late in zip(rose, rose[1:]) if late > since), default=0)

    def end(self):
        self.ending = True
        for thread in self.threads:
            if thread.ident is not None:
                thread.join()
        for it in self.processes.values():
            it.running.kill()
            it.running.wait()
        for disk in self.disks.values():
            disk.stop()

