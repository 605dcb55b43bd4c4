"""The program as the kit builds it without its proofs (`rt try`), for a first answer in a minute.

It is out/unproved/krbrelay, in a folder of its own, with a file that says from which sources and by
which kit it was built: in that file the first word is `unproved`, and it has another name than that
of a proved program, so nothing that asks for a proved program finds it (building.py).

`rt try` builds the program in a temporary folder, runs it there with the checks of a compiler, and
removes the folder. While it works, this module gives the program a second name outside of it. If
that can't be, each answer is one of `rt try`. `rt` ends with all that it started, whatever signal
ends this process (family.py).
"""
import os
import shutil
import subprocess
import sys
import tempfile
import time

from lib.build import building, family

FOLDER = os.path.join(building.TOP, "out", "unproved")
PROGRAM = os.path.join(FOLDER, "krbrelay")
STAMP = PROGRAM + ".unproved_from"
LOG = os.path.join(FOLDER, "krbrelay.log")
TRY = ["rt", "try"]
NOT_KEPT = "the kit's program wasn't kept"
# What the program shows while it is linked: it takes some two seconds, so that a busy machine doesn't
# miss the moment in which it is there.
SHOWN = 5000 * "75193017a003020105a103020115a30b3009a003020111a2020400\n"
SLOWER = 500            # times the time of the proved program, as a job of 5 MB was measured


def say(text):
    print(text, file=sys.stderr, flush=True)


def kit():
    return subprocess.run(["rt", "version"], check=True, stdin=subprocess.DEVNULL,
                          stdout=subprocess.PIPE, text=True).stdout.strip()


# ---- the file that says what it was built from

def stamp():
    """What the file says of a program that is kept, or of the fact that none could be."""
    kept = building.digest([PROGRAM]) if os.path.exists(PROGRAM) else NOT_KEPT
    return f"unproved {building.digest_of('krbrelay')} {kit()}\n{kept}\n"


def is_known():
    """Whether these sources were tried by this kit, and what is kept is what was built."""
    try:
        with open(STAMP, encoding="utf-8") as file:
            return file.read() == stamp()
    except FileNotFoundError:
        return False


def is_of_sources():
    """Whether the program is there and was built from these sources, by whatever kit."""
    if not (os.path.exists(PROGRAM) and os.path.exists(STAMP)):
        return False
    with open(STAMP, encoding="utf-8") as file:
        first, kept = file.read().splitlines()[:2]
    return (first.split()[1] == building.digest_of("krbrelay")
            and kept == building.digest([PROGRAM]))


def is_kept():
    """Whether the program is there, built from these sources by this kit."""
    return os.path.exists(PROGRAM) and is_known()


def note():
    with open(STAMP, "w", encoding="utf-8") as file:
        file.write(stamp())


# ---- building

def link_programs(room, links):
    """Gives each program that lies in the room now a second name, once."""
    for folder, _, names in os.walk(room):
        for name in names:
            if name.startswith("program") and folder != room:
                link(os.path.join(folder, name), room, links)


def link(path, room, links):
    try:
        number = os.stat(path).st_ino
        if number not in links:
            os.link(path, os.path.join(room, f"kept{number}"))
            links[number] = os.path.join(room, f"kept{number}")
    except OSError:     # It went, or the file system has no second names.
        pass


def is_whole(program):
    """Whether a file is the program, to its end."""
    try:
        ran = subprocess.run([program, "--version"], stdin=subprocess.DEVNULL, check=False,
                             capture_output=True, timeout=60)
    except (OSError, subprocess.TimeoutExpired):
        return False
    return ran.returncode == 0 and ran.stdout.startswith(b"krbrelay ")


def shown():
    """A file of what the program shows while it is linked."""
    file = tempfile.TemporaryFile("w+", encoding="ascii")
    file.write(SHOWN)
    file.seek(0)
    return file


def build():
    """Builds the program, keeps it if that can be, and notes it. Returns the exit status."""
    os.makedirs(FOLDER, exist_ok=True)
    say("no krbrelay is proved from these sources yet: one is being built without its proofs,"
        " which takes a minute or two")
    with tempfile.TemporaryDirectory(dir=FOLDER) as room, open(LOG, "wb") as log, shown() as file:
        links = {}
        with family.started([*TRY, "--", "show"], stdin=file, stdout=log,
                            stderr=subprocess.STDOUT, cwd=building.folder_of("krbrelay"),
                            env={**os.environ, "TMPDIR": room}) as ran:
            while ran.poll() is None:
                link_programs(room, links)
                time.sleep(0.01)
        if ran.returncode:
            return ran.returncode
        keep(next(filter(is_whole, links.values()), None))
    note()
    return 0


def keep(path):
    """Has this file in the place of what was kept before, or no file."""
    if path is not None:
        os.chmod(path, 0o755)
        os.replace(path, PROGRAM)
    elif os.path.exists(PROGRAM):
        os.remove(PROGRAM)


def fail():
    with open(LOG, encoding="utf-8", errors="replace") as log:
        say("".join(log.readlines()[-20:]).rstrip())
    say(f"krbrelay can't be built: the whole output is in {os.path.relpath(LOG)}")
    return 1


# ---- running

def ensure():
    """Builds the program unless it is built. Returns the exit status."""
    if shutil.which("rt") is None and is_of_sources():
        return 0
    if shutil.which("rt") is None:
        say("krbrelay can't be built: there is no command rt, which is the kit's")
        return 1
    return fail() if not is_known() and build() else 0


def run(words):
    """Runs the program with these words. Returns its exit status, after a last line on standard
    error which says that it isn't proved, that it is slow, and what makes the fast one."""
    if ensure():
        return 1
    if os.path.exists(PROGRAM):
        status = subprocess.run([PROGRAM, *words], check=False).returncode
    else:
        with family.started([*TRY, "--", *words], cwd=building.folder_of("krbrelay")) as ran:
            status = ran.wait()
    say("This answer is one of a program that was built without its proofs, and is some"
        f" {SLOWER} times slower than the proved one: tools/krbrelay --prove makes that one.")
    return status if status >= 0 else 128 - status


# ---- for the tools

def chosen(is_quick):
    """The program that a tool takes: if it is to be quick the one that is built without its proofs,
    which is said in a line, else the proved one. It is built first if needed."""
    if not is_quick:
        return building.krbrelay()
    if ensure() or not os.path.exists(PROGRAM):
        sys.exit("there is no program krbrelay that was built without its proofs")
    print("over a program that was built without its proofs", flush=True)
    return PROGRAM
