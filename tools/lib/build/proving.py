"""Proves and builds a program or a static library, with the crates that it stands on. Crates that
don't stand on each other are proved side by side, on all cores, as memory allows.

A line on standard error for each crate, and one each minute between them, has the minutes gone, and
an estimate of those left. The prover's output is in out/proving/, a file a crate.
"""
import dataclasses
import os
import re
import shutil
import subprocess
import sys
import time

from lib.build import building, over_gate

LOGS = os.path.join(building.TOP, "out", "proving")
TREES = os.path.join(LOGS, "trees")
# The memory that the proof of a crate is given: with one job, and for each further one. At most 2.4
# GB were seen with one or two jobs, and 2.9 with four.
MEMORY, MORE_MEMORY = 3 << 30, 1 << 30
MOST_JOBS = 4       # of one proof
USED = 0.9          # the part of the free memory that proofs may take
# About the processor seconds of a proof, estimated from runs of 2026-11-25 beside other work: only
# their ratios count. A crate that isn't here is taken for a middling one.
SECONDS = {
    "krb_base": 20, "krb_time": 40, "krb_record": 70, "krb_aes": 100,
    "krb_keys": 40,
    "krb_tlv": 70, "krb_der": 200, "krb_lane": 250, "krb_etype": 60, "krb_seal": 180, "krb_peers": 200,
    "krb_core": 300, "krb_relay": 280, "krb_job": 280, "krb_commands": 190, "krb_program": 250,
    "krbrelay": 110,
}
MIDDLING = 200
# What a second job spares: two take three fifths of the time of one.
GAIN = 0.67
# A proof that took less than this part of its time in the table was kept by an earlier run: it says
# nothing of those that are left.
KEPT = 0.15
SILENT = 60         # seconds after which a line says what is being proved


# ---- the machine

def cores():
    """The cores that this process may use, at most as many as its control group's quota."""
    found = len(os.sched_getaffinity(0))
    quota = numbers("/sys/fs/cgroup/cpu.max")
    return max(1, min(found, quota[0] // quota[1])) if len(quota) == 2 else found


def free_memory():
    """The bytes of memory that are available, also under the control group's limit, which counts
    what programs hold and not what the system keeps of files."""
    with open("/proc/meminfo", encoding="ascii") as file:
        free = 1024 * int(re.search(r"MemAvailable:\s+(\d+)", file.read())[1])
    limit, held = numbers("/sys/fs/cgroup/memory.max"), numbers("/sys/fs/cgroup/memory.stat")
    return min(free, max(0, limit[0] - held[0])) if limit and held else free


def numbers(path):
    """The numbers of the first line of a file, none if there is no such file or a limit is `max`.
    The first line of memory.stat is `anon` and its bytes."""
    try:
        with open(path, encoding="ascii") as file:
            return [int(word) for word in file.readline().split() if word != "anon"]
    except (OSError, ValueError):
        return []


# ---- the order

@dataclasses.dataclass
class Schedule:
    """Which crates are being proved, and which is next: nothing but data."""
    deps: dict          # each crate with those that it stands on
    cores: int
    memory: int
    waiting: list = None
    running: dict = dataclasses.field(default_factory=dict)     # the jobs of each
    proved: list = dataclasses.field(default_factory=list)

    def __post_init__(self):
        if self.waiting is None:
            self.waiting = sorted(self.deps, key=lambda it: -self.chain(it))

    def chain(self, crate):
        """The seconds of the longest chain of proofs that begins with this crate."""
        above = [self.chain(it) for it in self.deps if crate in self.deps[it]]
        return seconds_of(crate) + max(above, default=0)

    def ready(self):
        return [it for it in self.waiting if all(dep in self.proved for dep in self.deps[it])]

    def begin(self):
        """The crate that begins now, with its jobs, or None while there is none, no core or no
        memory. One is always proved, whatever the memory."""
        ready, idle = self.ready(), self.cores - sum(self.running.values())
        free = self.memory - sum(map(memory_of, self.running.values()))
        if not ready or idle < 1 or self.running and free < MEMORY:
            return None
        # Other crates come before further jobs of one.
        share = free // min(idle, len(ready))
        fitting = 1 + max(0, share - MEMORY) // MORE_MEMORY
        jobs = max(1, min(MOST_JOBS, idle // len(ready), fitting))
        self.waiting.remove(ready[0])
        self.running[ready[0]] = jobs
        return ready[0], jobs

    def end(self, crate):
        del self.running[crate]
        self.proved.append(crate)


def memory_of(jobs):
    return MEMORY + (jobs - 1) * MORE_MEMORY


def seconds_of(crate, jobs=1):
    """What a proof takes, by the table."""
    return SECONDS.get(crate, MIDDLING) / (1 + GAIN * (jobs - 1))


def left(schedule, gone):
    """The seconds of the table until all is proved, where each crate that is being proved has had
    so many of them: what the schedule would do, on a clock of its own."""
    copy = dataclasses.replace(schedule, waiting=list(schedule.waiting),
                               running=dict(schedule.running), proved=list(schedule.proved))
    ends = {crate: max(0, seconds_of(crate, jobs) - gone.get(crate, 0))
            for crate, jobs in copy.running.items()}
    now = 0
    while copy.waiting or copy.running:
        while True:
            begun = copy.begin()
            if begun is None:
                break
            ends[begun[0]] = now + seconds_of(*begun)
        crate = min(copy.running, key=ends.get)
        now = max(now, ends[crate])
        copy.end(crate)
    return now


# ---- proving

class NotProved(Exception):
    """A crate that isn't proved."""


class Run:
    """The proofs of the crates of a schedule, each a process: `start` gives it, and `harvest` is
    called with each crate that is proved."""

    def __init__(self, schedule, start, harvest, say):
        self.schedule, self.start, self.harvest, self.say = schedule, start, harvest, say
        self.count = len(schedule.waiting)
        self.begun = self.said = time.monotonic()
        self.since, self.processes = {}, {}
        self.taken = self.wanted = 0    # seconds of all that are proved: taken, and of the table

    def all(self):
        """Proves all. It raises NotProved for the first crate that isn't; no process stays."""
        try:
            while self.schedule.waiting or self.schedule.running:
                self.begin()
                time.sleep(0.2)
                for crate, process in list(self.processes.items()):
                    if process.poll() is not None:
                        self.ended(crate, process.returncode)
                if time.monotonic() - self.said >= SILENT:
                    self.tell(f"proving {', '.join(sorted(self.schedule.running))}")
        finally:
            for process in self.processes.values():
                process.terminate()
            for process in self.processes.values():
                process.wait()

    def begin(self):
        while True:
            begun = self.schedule.begin()
            if begun is None:
                return
            crate, jobs = begun
            self.since[crate] = time.monotonic()
            self.processes[crate] = self.start(crate, jobs)

    def ended(self, crate, status):
        if status:
            raise NotProved(crate)
        del self.processes[crate]
        self.harvest(crate)
        now, jobs = time.monotonic(), self.schedule.running[crate]
        took, usual = now - self.since[crate], seconds_of(crate, jobs)
        if took >= KEPT * usual:
            self.taken += took
            self.wanted += usual
        self.schedule.end(crate)
        self.tell(f"{crate} proved ({len(self.schedule.proved)} of {self.count})")

    def tell(self, what):
        """A line with the minutes gone and left."""
        self.said = time.monotonic()
        told = f"{what}: {minutes(self.said - self.begun)} gone"
        if len(self.schedule.proved) < self.count:
            left_now = self.left(self.said)
            told += f", about {minutes(left_now)} left" if left_now else ", longer than estimated"
        self.say(told)

    def left(self, now):
        """The seconds until all is proved, at the pace so far."""
        pace = self.taken / self.wanted if self.wanted else 1
        gone = {crate: (now - self.since[crate]) / pace for crate in self.schedule.running}
        return pace * left(self.schedule, gone)


def minutes(seconds):
    return f"{seconds / 60:.0f} min" if seconds >= 570 else f"{seconds / 60:.1f} min"


def say(text):
    print(text, file=sys.stderr, flush=True)


def log_of(crate):
    return os.path.join(LOGS, crate + ".log")


# ---- a tree for each proof

# `rt` locks the folder of each library that it works over, so two proofs over one library would
# wait for each other. So each proof has a tree of its own, whose folders are new and whose files
# are those of the repository, by hard links.

def link(path, place):
    try:
        os.link(path, place)
    except OSError:     # The file system has no hard links.
        shutil.copy2(path, place)


def plant(crate, deps):
    """Makes the tree of a crate, and answers the crate's folder in it."""
    crates, tree = building.in_order(crate, deps), os.path.join(TREES, crate)
    shutil.rmtree(tree, ignore_errors=True)
    for it in crates:
        kept = () if it == crate else ("incremental",)      # A library that is proved needs none.
        shutil.copytree(building.folder_of(it), os.path.join(tree, "crates", it),
                        copy_function=link, ignore=shutil.ignore_patterns(*kept))
    link(os.path.join(building.TOP, "HANDLES"), os.path.join(tree, "HANDLES"))
    building.write_crates(crates, tree)
    return os.path.join(tree, "crates", crate)


def harvest(crate):
    """Puts what a proof has made into the crate's folder, and removes the tree."""
    made, place = (os.path.join(folder, "out") for folder in
                   (os.path.join(TREES, crate, "crates", crate), building.folder_of(crate)))
    shutil.rmtree(place, ignore_errors=True)
    os.rename(made, place)
    shutil.rmtree(os.path.join(TREES, crate))


def start(top):
    """How the proof of a crate is started: `top` is the one on top."""
    deps, runs = building.below(), building.has_program(top)

    def begin(crate, jobs):
        words = ["rt", "run" if runs and crate == top else "lib", "--jobs", str(jobs)]
        # The program is run once as it is built: by these words it does nothing to speak of.
        words += ["--", "--version"] if crate == "krbrelay" else []
        with open(log_of(crate), "w", encoding="utf-8") as log:
            return subprocess.Popen(words, cwd=plant(crate, deps), stdin=subprocess.DEVNULL,
                                    stdout=log, stderr=subprocess.STDOUT)
    return begin


def prove(top):
    """Proves and builds a program or a static library, and notes it. It raises NotProved where a
    crate isn't."""
    crates, built_from = building.in_order(top), building.digest_of(top)
    deps = building.below()
    schedule = Schedule({crate: deps[crate] for crate in crates}, cores(),
                        int(USED * free_memory()))
    say(f"{top} is being proved, on {schedule.cores} cores: {len(crates)} crates,"
        f" the prover's output is in {os.path.relpath(LOGS)}")
    Run(schedule, start(top), harvest, say).all()
    if not building.has_program(top):
        os.makedirs(os.path.dirname(building.top_of(top)), exist_ok=True)
        shutil.copy(os.path.join(building.folder_of(top), "out", f"lib{top}.a"), building.top_of(top))
    building.note(building.top_of(top), built_from)


def prove_over_gate(top):
    """Proves and builds a static library over the libraries that `rt ci` has built."""
    say(f"{top} is being proved, over the libraries that rt ci has built: the prover's output is"
        f" {os.path.relpath(log_of(top))}")
    if not over_gate.build(top, cores(), log_of(top)):
        raise NotProved(top)


def fail(crate):
    """Reports a crate that isn't proved."""
    with open(log_of(crate), encoding="utf-8", errors="replace") as log:
        say("".join(log.readlines()[-20:]).rstrip())
    say(f"{crate} isn't proved: the whole output is in {os.path.relpath(log_of(crate))}")
    return 1


def ensure(top):
    """Proves and builds a program or a static library unless it is built. Returns the exit
    status."""
    if building.is_built(top, building.top_of(top)):
        return 0
    if shutil.which("rt") is None:
        say(f"{top} can't be proved: there is no command rt, which is the kit's")
        return 1
    os.makedirs(LOGS, exist_ok=True)
    is_over_gate = not building.has_program(top) and over_gate.can_build(top)
    try:
        (prove_over_gate if is_over_gate else prove)(top)
        return 0
    except NotProved as fault:
        return fail(str(fault))
