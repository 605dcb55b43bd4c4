"""Runs the units of carrier/systemd without systemd: what their lines say is done here."""
import os
import re
import shlex
import signal
import socket
import subprocess
import threading
import time

KILLED = 30         # seconds for a process to end after SIGKILL


def read(path):
    """The lines of the section [Service], by their keys."""
    with open(path, encoding="utf-8") as file:
        lines = [line.strip() for line in file if line.strip() and not line.startswith("#")]
    begin = lines.index("[Service]")
    end = next((place for place, line in enumerate(lines) if place > begin and line[0] == "["), None)
    return dict(line.split("=", 1) for line in lines[begin + 1:end])


class Unit:
    """One instance of a unit: its process, which is started again as the unit says."""

    def __init__(self, path, program, given, folder, name):
        """`given` is what the file of its environment has."""
        self.says, self.name, self.folder = read(path), name, folder
        for key, wanted in (("Type", "notify"), ("Restart", "always")):
            if self.says[key] != wanted:
                raise ValueError(f"{path}: {key} isn't {wanted}")
        self.words = [program, *self.expand(shlex.split(self.says["ExecStart"])[1:], given)]
        self.kept_away = set(map(int, self.says["RestartPreventExitStatus"].split()))
        self.starts, self.statuses, self.is_ready, self.is_stopping = 0, [], False, False
        self.was_killed, self.process, self.heard = False, None, time.monotonic()
        self.socket = socket.socket(socket.AF_UNIX, socket.SOCK_DGRAM)
        self.socket.bind(f"{folder}/{name}.notify")
        self.socket.settimeout(0.2)
        self.threads = [threading.Thread(target=it) for it in (self.keep, self.listen)]

    @staticmethod
    def expand(words, given):
        """${NAME} is one word; $NAME, alone, is as many as it has."""
        found = []
        for word in words:
            if re.fullmatch(r"\$[A-Z]+", word):
                found += shlex.split(given[word[1:]])
            else:
                found.append(re.sub(r"\$\{([A-Z]+)\}", lambda it: given[it[1]], word))
        return found

    def record(self):
        """What a sender hears from NATS (records.c)."""
        return f"{self.folder}/{self.name}.record"

    def seconds(self, key):
        return float(self.says[key])

    def start(self):
        for thread in self.threads:
            thread.start()

    def keep(self):
        """Starts it, and again when it has ended."""
        told = dict(os.environ, NOTIFY_SOCKET=f"{self.folder}/{self.name}.notify",
                    CARRIER_RECORD=self.record())
        while not self.is_stopping:
            self.starts += 1
            path = f"{self.folder}/{self.name}.{self.starts:04}.log"
            with open(path, "wb") as log:
                self.heard = time.monotonic()
                self.process = subprocess.Popen(
                    self.words, stdout=log, stderr=log, env=told,
                    umask=int(self.says["UMask"], 8), cwd="/")
            self.statuses.append(self.process.wait())
            if self.statuses[-1] in self.kept_away:
                return
            time.sleep(self.seconds("RestartSec"))

    def listen(self):
        """What it tells; one that is silent for too long is ended, as by systemd's watchdog."""
        while not self.is_stopping:
            try:
                told = self.socket.recv(256)
                self.heard = time.monotonic()
                self.is_ready |= b"READY=1" in told
            except TimeoutError:
                pass
            if time.monotonic() - self.heard > self.seconds("WatchdogSec"):
                self.signal(signal.SIGABRT)
                self.heard = time.monotonic()

    def signal(self, number):
        """Whether it runs, and was sent the signal."""
        process = self.process
        if process is None or process.poll() is not None:
            return False
        process.send_signal(number)
        return True

    def stop(self):
        """SIGTERM, and SIGKILL after a while: the status with which it ended."""
        self.is_stopping = True
        self.signal(signal.SIGTERM)
        self.threads[0].join(self.seconds("TimeoutStopSec"))
        if self.threads[0].is_alive():
            self.was_killed = self.signal(signal.SIGKILL)
            self.threads[0].join(KILLED)
        for thread in self.threads:
            thread.join()
        self.socket.close()
        return self.statuses[-1]
