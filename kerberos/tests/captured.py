"""KRB-PRIV messages of MIT's kpasswd: captured with their keys by capture.c, as `krbrelay show --key` prints them, and
captured as packets by dumpcap, as `python3 -m krbrelay why` explains them."""
import json
import os
import re
import subprocess
import sys
import time

from lib.build import building, c_tools

HERE = os.path.dirname(os.path.realpath(__file__))
LINE = re.compile(r"PRIV 5 21 etype=(\d+) kvno=- cipher=\w+ opened data=(\w+) time=- usec=- seq=- from=2:7f000001 to=-")


def compiled(folder):
    """The library that captures, to be preloaded."""
    library = os.path.join(folder, "capture.so")
    subprocess.run([*c_tools.c_compiler(), "-std=c99", "-O2", "-Wall", "-Wextra", "-Werror", "-fPIC", "-shared",
                    "-o", library, os.path.join(HERE, "capture.c"), *c_tools.needed_flags("mit-krb5"), "-ldl"],
                   check=True)
    return library


def shown(words, text):
    done = subprocess.run([building.krbrelay(), "show", *words], input=text, check=False, stdout=subprocess.PIPE,
                          stderr=subprocess.STDOUT, timeout=60)
    return done.returncode, done.stdout.decode()


def read(folder, name):
    with open(os.path.join(folder, name), "rb") as file:
        return file.read()


def is_shown(etype, folder, new):
    """The one message is opened under its key and has the new password; on one line, with --any over several,
    and under the key in bytes. Under a key that differs in one bit it isn't."""
    key, message = os.path.join(folder, "made.key"), read(folder, "made")
    status, line = shown(["--key", key], message)
    found = LINE.fullmatch(line.rstrip("\n"))
    if status != 0 or not found or int(found[1]) != etype or new.encode() not in bytes.fromhex(found[2]):
        return False, line
    several = b"\n".join(re.findall(rb".{1,60}", message))
    if shown(["--any", "--key", key, "--etype", str(etype)], several) != (0, line):
        return False, "over several lines it is another"
    held = bytearray.fromhex(read(folder, "made.key").decode())
    for bit, wanted in ((0, (0, line)), (1, (2, line.partition(" opened")[0] + " refused 31 BAD_INTEGRITY\n"))):
        held[3] ^= bit
        with open(os.path.join(folder, "other"), "wb") as file:
            file.write(held)
        answer = shown(["--key", os.path.join(folder, "other")], message)
        if answer != wanted:
            return False, answer[1]
    return True, line


# ---- by packets, and by what the program demanded

def dumping(realm, path):
    """dumpcap, which writes the packets of kpasswd's port on the loopback."""
    words = ["dumpcap", "-q", "-i", "lo", "-f", f"port {realm.ports['kpasswd']}", "-w", path]
    begun = subprocess.Popen(words, stdout=subprocess.DEVNULL, stderr=subprocess.PIPE, text=True)
    while begun.poll() is None and not begun.stderr.readline().startswith("File:"):
        time.sleep(0.01)
    return begun


def why(prefix, *words):
    """The status of `python3 -m krbrelay why`, and its objects."""
    given = {**os.environ, "PYTHONPATH": os.path.join(building.TOP, "python"),
             "KRBRELAY_LIBRARY": os.path.join(prefix, "lib", "libkrbrelay.so.1")}
    done = subprocess.run([sys.executable, "-m", "krbrelay", "why", "--json", *words], env=given, check=False,
                          stdout=subprocess.PIPE, text=True, timeout=60)
    return done.returncode, [json.loads(line) for line in done.stdout.splitlines()]


def is_explained(prefix, room, new):
    """One command opens both messages in the packets; and what MIT's code demanded of each is met, and with another
    number isn't."""
    key = ["--key", os.path.join(room, "made.key")]
    status, found = why(prefix, *key, os.path.join(room, "packets"))
    if status != 0 or [it["protocol"] for it in found] != ["TCP", "TCP"] or found[0]["text"] != new:
        return False, str(found)
    calls = dict(zip(("made", "read"), read(room, "calls").decode().splitlines()))
    for name, line in calls.items():
        call, _, demanded = line.partition(": ")
        answer = why(prefix, *key, os.path.join(room, name), *demanded.split())
        other = why(prefix, *key, os.path.join(room, name), *demanded.split(), "--number", "4000000000")
        if not call.endswith(" 0") or answer[0] != 0 or other[1][0]["name"] != "BADORDER":
            return False, f"{line}: {answer}, {other}"
    return True, found[0]["text"]


def run_all(realm, folder, prefix, count, etypes):
    """kpasswd changes a password under each type, and what it sent is shown."""
    library = compiled(folder)
    for etype in etypes:
        room = os.path.join(folder, f"captured-{etype}")
        os.mkdir(room, 0o700)
        kadmind = realm.start_kadmind("kadmind")
        dumped = dumping(realm, os.path.join(room, "packets"))
        done, new = realm.kpasswd(f"krb5-{etype}", library=library, captured=room)
        realm.stop(kadmind)
        time.sleep(1)           # packets are written some time after they came
        dumped.terminate()
        dumped.wait()
        is_changed = done.returncode == 0 and realm.takes(new)
        good, told = is_shown(etype, room, new) if is_changed else (False, done.stdout)
        if is_changed:
            realm.password = new
        count.told(good, f"kpasswd's KRB-PRIV under its key, type {etype}", [told[-200:]])
        good, told = is_explained(prefix, room, new)
        count.told(good, f"kpasswd's packets, and what it demanded, type {etype}", [told[-400:]])
