"""Debian's Prometheus reads the rules, scrapes a sender and a receiver that run, and answers each question of the
dashboard. systemd says how little the units may do."""
import contextlib
import json
import os
import re
import shutil
import subprocess
import tempfile
import time
import urllib.parse
import urllib.request

import builds
import engines
import pytest
from builds import SOURCES
from cases import Place, opened

MONITORING = os.path.join(SOURCES, "monitoring")
TO_WAIT = 60            # seconds
TEXTS = 50
EXPOSED = 1.5           # of `systemd-analyze security`: it says OK below 2
KEY = "0 18 priv " + "11" * 32 + " 1 10.0.0.2 10.0.0.255"


def run(*words, **how):
    return subprocess.run(words, check=False, capture_output=True, text=True, timeout=300, **how)


@pytest.mark.parametrize("words", [("check", "rules", "alerts.yml"), ("test", "rules", "alerts_test.yml"),
                                   ("check", "config", "prometheus.yml")])
def test_promtool(words):
    done = run("promtool", *words, cwd=MONITORING)
    assert done.returncode == 0 and "SUCCESS" in done.stdout, done.stdout + done.stderr


def test_a_rule_that_never_fires_is_told(tmp_path):
    """A change of a rule's bound is seen by the tests of the rules."""
    for name in ("alerts.yml", "alerts_test.yml"):
        with open(os.path.join(MONITORING, name), encoding="utf-8") as file:
            text = file.read()
        (tmp_path / name).write_text(text.replace("stopped_sessions > 0", "stopped_sessions > 5"), encoding="utf-8")
    assert run("promtool", "test", "rules", "alerts_test.yml", cwd=tmp_path).returncode == 1


@pytest.mark.parametrize("unit", ["sender", "receiver"])
def test_units_are_exposed_little(unit):
    done = run("systemd-analyze", "security", "--offline=true", "--no-pager",
               os.path.join(SOURCES, "systemd", f"krbrelay-{unit}@.service"))
    found = re.search(r"exposure level for \S+: ([\d.]+) ", done.stdout)
    assert found and float(found[1]) <= EXPOSED, done.stdout[-300:] + done.stderr


def calls_of(group):
    """The calls of the system in a group of systemd's."""
    told = [line.strip() for line in run("systemd-analyze", "syscall-filter", group).stdout.splitlines()]
    listed = [it for it in told if it and it != group and not it.startswith("#")]
    return {call for it in listed for call in (calls_of(it) if it.startswith("@") else [it])}


def traced(folder, program, *words):
    """The calls that a program makes, as a user who isn't root: SQLite makes others as root."""
    trace = os.path.join(folder, f"{os.path.basename(program)}.trace")
    done = run("strace", "-f", "-qq", "-o", trace, program, *words, "--sessions", f"{folder}/sessions", "--carrier",
               f"sqlite:{folder}/carrier.db", user="nobody", group="nogroup", extra_groups=[], cwd=folder)
    assert done.returncode == 0, done.stderr
    with open(trace, encoding="utf-8", errors="replace") as file:
        lines = file.readlines()
    assert [it for it in lines if "PROT_WRITE" in it and "PROT_EXEC" in it] == []
    return {found[1] for found in (re.match(r"\d+ +(\w+)\(", it) for it in lines) if found}


@pytest.fixture
def of_nobody():
    """A folder of a user who isn't root, who can reach it."""
    with tempfile.TemporaryDirectory() as folder:
        os.chmod(folder, 0o755)
        place = os.path.join(folder, "place")
        os.mkdir(place, 0o755)
        yield place


def test_units_allow_what_the_programs_call(prefix, of_nobody):
    """The filter of both units has each call of a session over SQLite with metrics and a command as its effect."""
    allowed = calls_of("@system-service") - calls_of("@privileged") - calls_of("@resources")
    build(f"{of_nobody}/programs", prefix)
    Place.write(f"{of_nobody}/sessions", [f"tom {KEY}\n"])
    for path in (of_nobody, f"{of_nobody}/sessions"):
        shutil.chown(path, "nobody", "nogroup")
    of_sender, of_receiver = (f"127.0.0.1:{port}" for port in engines.free_ports(2))
    sends = f"{of_nobody}/programs/sender", "--outbox", f"{of_nobody}/outbox.db", "--drain", "--metrics", of_sender
    called = traced(of_nobody, *sends)
    put_texts(f"{of_nobody}/outbox.db", with_close=True)
    called |= traced(of_nobody, *sends)
    called |= traced(of_nobody, f"{of_nobody}/programs/receiver", "--store", f"sqlite:{of_nobody}/store.db", "--shards", "auto",
                     "--metrics", of_receiver, "--until-closed", "--effect", "command:while read -r it; do echo ok; done")
    assert len(called) > 40 and len(allowed) > 200 and called - allowed == set()


# ---- a Prometheus that runs

def build(out, prefix):
    builds.shipped(out, prefix, *builds.ALONE, "WITH_METRICS=yes")


def put_texts(path, with_close=False):
    texts = [b"text %d" % it for it in range(TEXTS)] + [None] * with_close
    with opened(path) as file:
        file.executemany("INSERT INTO text (session, body) VALUES ('tom', ?)", [(it,) for it in texts])


@contextlib.contextmanager
def all_ended(*started):
    """Ends these processes at last."""
    try:
        yield
    finally:
        for process in started:
            process.terminate()
        for process in started:
            process.wait(30)


def start(log, *words, **how):
    with open(log, "wb") as file:
        return subprocess.Popen(words, stdout=file, stderr=file, **how)


class Server:
    """What it answers."""

    def __init__(self, port):
        self.at = f"http://127.0.0.1:{port}/api/v1/query?query="

    def ask(self, question):
        with urllib.request.urlopen(self.at + urllib.parse.quote(question), timeout=10) as answer:
            told = json.load(answer)
        assert told["status"] == "success", told
        return [float(row["value"][1]) for row in told["data"]["result"]]

    def awaits(self, question, is_wanted):
        """Whether the answer is one that is wanted within a minute."""
        until = time.monotonic() + TO_WAIT
        while time.monotonic() < until:
            with contextlib.suppress(OSError):
                if is_wanted(self.ask(question)):
                    return True
            time.sleep(0.3)
        return False


@pytest.fixture(scope="module")
def scraped(prefix, tmp_path_factory):
    """A Prometheus that scrapes a sender and a receiver, and the sender."""
    folder = str(tmp_path_factory.mktemp("prometheus"))
    build(f"{folder}/programs", prefix)
    of_sender, of_receiver, own = engines.free_ports(3)
    Place.write(f"{folder}/sessions", [f"tom {KEY}\n"])
    with open(os.path.join(MONITORING, "prometheus.yml"), encoding="utf-8") as file:
        config = file.read().replace("9750", str(of_sender)).replace("9751", str(of_receiver)).replace("15s", "1s")
    with open(f"{folder}/prometheus.yml", "w", encoding="utf-8") as file:
        file.write(config.replace("alerts.yml", os.path.join(MONITORING, "alerts.yml")))
    # The first, since it may be missing, and then nothing else is left running.
    prometheus = start(f"{folder}/prometheus.log", "prometheus", f"--config.file={folder}/prometheus.yml",
                       f"--storage.tsdb.path={folder}/data", f"--web.listen-address=127.0.0.1:{own}", cwd=folder)
    both = "--sessions", f"{folder}/sessions", "--carrier", f"sqlite:{folder}/carrier.db", "--metrics"
    sender = start(f"{folder}/sender.log", f"{folder}/programs/sender", *both, f"127.0.0.1:{of_sender}",
                   "--outbox", f"{folder}/outbox.db", "--max-waiting", "1000")
    receiver = start(f"{folder}/receiver.log", f"{folder}/programs/receiver", *both, f"127.0.0.1:{of_receiver}",
                     "--store", f"sqlite:{folder}/store.db", "--shards", "0")
    with all_ended(prometheus, receiver, sender):
        engines.await_port(own)
        engines.await_port(of_sender)
        put_texts(f"{folder}/outbox.db")
        yield Server(own), sender


def test_it_scrapes_both(scraped):
    server, _ = scraped
    assert server.awaits("count(up == 1)", [2.0].__eq__)
    assert server.awaits("sum(krbrelay_receiver_texts_total)", [float(TEXTS)].__eq__)
    assert server.awaits("krbrelay_sender_waiting_texts_limit", [1000.0].__eq__)


def test_each_question_of_the_dashboard_is_answered(scraped):
    server, _ = scraped
    with open(os.path.join(MONITORING, "dashboard.json"), encoding="utf-8") as file:
        asked = [it["expr"] for panel in json.load(file)["panels"] for it in panel["targets"]]
    assert len(asked) > 15 and [it for it in asked if not server.awaits(it, bool)] == []


def test_a_sender_that_is_away_is_an_alert(scraped):
    server, sender = scraped
    sender.terminate()
    assert server.awaits('count(ALERTS{alertname="KrbrelayAway"})', [1.0].__eq__)
