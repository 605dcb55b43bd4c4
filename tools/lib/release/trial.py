"""Tries a release's folder in a new Debian that has no kit: each artefact is installed by the command that the
release's page has for it, as it is typed, runs its first example, and is removed. What a new system has besides is a
compiler, make, pkg-config, Python, cargo, Go and systemd. It needs root and Debian's archive."""
import contextlib
import dataclasses
import os
import re
import shutil
import subprocess
import tempfile

from lib import report, scripts

RELEASE = "bookworm"
BESIDES = ("gcc", "libc6-dev", "make", "pkg-config", "python3", "python3-venv", "cargo", "golang-go", "man-db",
           "systemd")
HERE = "/srv"               # of a new system: nothing is there
AT, WORK, HOME = f"{HERE}/release", f"{HERE}/work", f"{HERE}/home"     # the release's folder, one to work in, the user's
USER = f"{AT}/user"         # a user's crate or module, beside the folders of the release
ROW = re.compile(r"^\| (?P<what>[^|]+) \| (?P<how>[^|]+) \| (?P<read>[^|]+) \|", re.M)
# Here apt asks nothing, and installs no more than it has to.
APT = 'APT::Get::Assume-Yes "true"; APT::Install-Recommends "false"; quiet "2";'
# Where an install leaves what isn't its own: caches and notes of the package tools.
NOT_KEPT = ("/proc", "/sys", "/dev", "/run", "/tmp", HERE, "/var/cache", "/var/log",
            "/var/lib/apt", "/var/lib/dpkg", "/var/lib/systemd", "/etc/ld.so.cache", "/etc/passwd",
            "/etc/group", "/etc/shadow", "/etc/gshadow", "/etc/.pwd.lock")
SEALS = """\
import sqlite3, sys
with sqlite3.connect("outbox.db") as file:
    file.executemany("INSERT INTO text (session, body) VALUES (?, ?)",
                     [("tom-7", it) for it in (b"one", b"two", None)] + [("ann-1", None)])
"""
SHOWS = """\
import sqlite3
print(*(text.decode() for text, in sqlite3.connect("store.db").execute("SELECT text FROM effect ORDER BY id")))
"""
CARRIES = """\
install -m 600 %s/example.sessions sessions
umask 077
sender="krbrelay-sender --sessions sessions --outbox outbox.db --carrier sqlite:carrier.db --drain"
$sender 2> log
python3 -c '""" + SEALS + """'
$sender 2>> log
timeout 60 krbrelay-receiver --sessions sessions --store sqlite:store.db --carrier sqlite:carrier.db --shards 0 --until-closed 2>> log
$sender 2>> log     # takes the receipt
krbrelay-status --outbox outbox.db --store sqlite:store.db | grep ^tom
python3 -c '""" + SHOWS + """'
"""
CARRIED = [r"tom-7 +0 +4 +4 +4 +0 +0 +4 +closed.*", "one two"]
EXAMPLES = "/usr/share/doc/krbrelay-carrier/examples"
DEMO = f"{EXAMPLES}/demo 2> /dev/null | tail -n 2"
DELIVERED = [f"{name}: 20000 texts, closed, in order, each once" for name in ("ann", "tom")]
COMPLETED = """. /usr/share/bash-completion/completions/krbrelay-sender
COMP_WORDS=(krbrelay-sender --out); COMP_CWORD=1; _krbrelay_carrier krbrelay-sender; echo "${COMPREPLY[@]}"
"""
# What a program does that MIT's library signs a message for, by Python's ctypes.
SIGNS = """\
import ctypes
from ctypes import byref, c_int, c_uint, c_void_p
class Data(ctypes.Structure):
    _fields_ = [("magic", c_int), ("length", c_uint), ("data", c_void_p)]
class Typed(ctypes.Structure):
    _fields_ = [("magic", c_int), ("kind", c_int), ("length", c_uint), ("contents", c_void_p)]
def typed(kind, text):
    return byref(Typed(0, kind, len(text), ctypes.cast(ctypes.create_string_buffer(text, len(text)), c_void_p)))
mit, context, ends, message = ctypes.CDLL(None), c_void_p(), c_void_p(), Data()
text = ctypes.create_string_buffer(b"hello", 5)
calls = [lambda: mit.krb5_init_context(byref(context)), lambda: mit.krb5_auth_con_init(context, byref(ends)),
         lambda: mit.krb5_auth_con_setflags(context, ends, 4),
         lambda: mit.krb5_auth_con_setaddrs(context, ends, typed(2, bytes([127, 0, 0, 1])), None),
         lambda: mit.krb5_auth_con_setuseruserkey(context, ends, typed(17, b"chicken teriyaki")),
         lambda: mit.krb5_mk_safe(context, ends, byref(Data(0, 5, ctypes.cast(text, c_void_p))), byref(message), None)]
print([it() for it in calls], message.length > 5)
"""
PRELOADED = "KRBRELAY_LOG=$PWD/calls LD_PRELOAD='/usr/$LIB/krbrelay/kerberos.so' python3 signs.py && cat calls"
SIGNED = [r"\[0, 0, 0, 0, 0, 0\] True", r"python3\S* krb5_mk_safe made OK 5 \d+"]
C_EXAMPLE = "cc {}/examples/two_ends.c $(pkg-config --cflags --libs krbrelay) -o two_ends && ./two_ends"
OPENED = ["message 7: hello", "open: 42: the sequence number isn't the expected one"]
OPENED_BY_NAME = ["message 7: hello", "open: 42 BADORDER"]
RELAYED = "krbrelay relay < {} | tail -n 1"
CLOSED = [r"lane 0 sent 3 of 3 DONE CLOSED"]
GO_PROGRAM = """\
package main

import ("fmt"; "time"; "krbrelay")

func main() {
	key := []byte("chicken teriyaki")
	sealer, err := krbrelay.NewSealer(17, key, krbrelay.Session{Mode: krbrelay.Priv, Sender: krbrelay.Client})
	if err != nil { panic(err) }
	defer sealer.Close()
	opener, err := krbrelay.NewOpener(17, key, krbrelay.NewExpect(krbrelay.Priv, krbrelay.Client, krbrelay.Server))
	if err != nil { panic(err) }
	defer opener.Close()
	frame, err := sealer.Seal([]byte("hello"))
	if err != nil { panic(err) }
	text, err := opener.Unseal(frame, 0, time.Now())
	fmt.Println(string(text), err)
}
"""


@dataclasses.dataclass(frozen=True)
class Row:
    """A row of the release's page: what is tried after it, what that has to print, and how it is removed."""
    what: str           # how its first column begins
    example: str
    prints: list
    remove: str
    before: str = ""    # what has to be there first


def purge(*names):
    return f"apt-get purge {' '.join(names)} && apt-get autoremove --purge"


def rows(version):
    tree = f"{AT}/krbrelay-{version}"
    unpack = f"tar xf {tree}.tar.gz -C {AT}"
    library = f"{unpack} && make -s -C {tree} install PREFIX=/usr/local > /dev/null && ldconfig"
    return [
        Row("the library, on Debian", C_EXAMPLE.format("/usr/share/doc/libkrbrelay-dev"), OPENED,
            purge("libkrbrelay1", "libkrbrelay-dev")),
        Row("the library, elsewhere", C_EXAMPLE.format(tree), OPENED, f"make -s -C {tree} uninstall PREFIX=/usr/local && rm -r {tree}"),
        Row("the program `krbrelay`", RELAYED.format("/usr/share/doc/krbrelay/examples/batches.toml"), CLOSED, purge("krbrelay")),
        Row("the program, elsewhere", RELAYED.format(f"{tree}/program/jobs/batches.toml"), CLOSED,
            f"make -s -C {tree}/program uninstall PREFIX=/usr/local && rm -r {tree}"),
        Row("Python, on Debian", "python3 /usr/share/doc/python3-krbrelay/examples/two_ends.py", OPENED_BY_NAME,
            purge("python3-krbrelay", "libkrbrelay1")),
        Row("Python, elsewhere", f"{unpack} && {AT}/env/bin/python3 {tree}/python/examples/two_ends.py", OPENED_BY_NAME,
            f"{AT}/env/bin/pip uninstall -qy krbrelay && rm -r {AT}/env {tree}"),
        Row("Rust", f"cp {AT}/rust/krbrelay-{version}/examples/two_ends.rs src/main.rs && cargo run -q --offline", OPENED,
            f"rm -r {AT}/rust/krbrelay-{version} {USER}", f"cargo new -q --vcs none {USER}"),
        Row("Go", f"cat > main.go <<'END'\n{GO_PROGRAM}END\ngo run .", ["hello <nil>"],
            f"rm -r {AT}/krbrelay-go-{version} {USER}", f"mkdir {USER} && cd {USER} && go mod init user"),
        Row("senders and receivers over a queue, on", CARRIES % EXAMPLES + f"bash -c '{COMPLETED}'\n{DEMO}\n",
            [*CARRIED, "--outbox", *DELIVERED], purge("krbrelay-carrier", "libkrbrelay1")),
        Row("programs over MIT's libkrb5", f"cat > signs.py <<'END'\n{SIGNS}END\n{PRELOADED}", SIGNED,
            purge("krbrelay-preload", "libkrbrelay1")),
        Row("the same, elsewhere", CARRIES % f"{tree}/carrier/systemd", CARRIED,
            f"make -s -C {tree}/carrier uninstall PREFIX=/usr/local && make -s -C {tree} uninstall PREFIX=/usr/local && rm -r {tree}"
            f" && {purge('libsqlite3-dev')}", f"apt-get install libsqlite3-dev && {library}"),
    ]


# ---- the commands of the page

def commands(folder, version):
    """The commands of each row of the page as they are typed in the release's folder, or, where it says `in your
    crate`, in a user's; and those of what it names to be read."""
    with open(os.path.join(folder, "README.md"), encoding="utf-8") as file:
        text = file.read()
    found = {}
    for row in ROW.finditer(text):
        first, *more = re.findall(r"`([^`]+)`", row["how"]) or [""]
        pages = [f"man -w {section} {name}" for name, section in re.findall(r"([\w-]+)\((\d)\)", row["read"])]
        found[row["what"].strip()] = [(AT, first), *((USER, it) for it in more),
                                      *((AT, it) for it in re.findall(r"`([^`]+)`", row["read"]) + pages)]
    return found


# ---- the system

class System:
    """A new Debian below a folder."""

    def __init__(self, root):
        self.root = root

    def run(self, command, folder=WORK):
        """Runs a command in a shell. Returns whether it ended well, and its lines."""
        given = {"PATH": "/usr/local/sbin:/usr/local/bin:/usr/sbin:/usr/bin:/sbin:/bin", "HOME": HOME, "LC_ALL": "C.UTF-8",
                 "DEBIAN_FRONTEND": "noninteractive", "GOFLAGS": "-mod=mod", "GOPROXY": "off"}
        words = ["chroot", self.root, "sh", "-ec", f"mkdir -p {HOME} {folder} && cd {folder}\n{command}"]
        done = subprocess.run(words, env=given, check=False, text=True, errors="replace", stdin=subprocess.DEVNULL,
                              stdout=subprocess.PIPE, stderr=subprocess.STDOUT)
        return done.returncode == 0, done.stdout.splitlines()

    def files(self):
        """What is there, but for what an install leaves to others."""
        left_out = " -o ".join(f"-path {it} -o -path '{it}-'" for it in NOT_KEPT)
        return set(self.run(f"find / \\( {left_out} \\) -prune -o -not -name '*.pyc' -not -name __pycache__ -print", "/tmp")[1])


@contextlib.contextmanager
def new_system(count):
    with tempfile.TemporaryDirectory() as root:
        made = subprocess.run(["debootstrap", "--variant=minbase", RELEASE, root], check=False, stdin=subprocess.DEVNULL,
                              stdout=subprocess.PIPE, stderr=subprocess.STDOUT, text=True)
        count.told(made.returncode == 0, f"debootstrap: a new {RELEASE}", made.stdout.splitlines()[-5:])
        subprocess.run(["mount", "-t", "proc", "proc", os.path.join(root, "proc")], check=True)
        try:
            system = System(root)
            system.run(f"rm -f /etc/dpkg/dpkg.cfg.d/*; echo '{APT}' > /etc/apt/apt.conf.d/90trial; apt-get update", "/tmp")
            good, said = system.run(f"apt-get install {' '.join(BESIDES)}", "/tmp")
            count.told(good, f"what a user has besides: {' '.join(BESIDES)}", said[-5:])
            yield system
        finally:
            subprocess.run(["umount", os.path.join(root, "proc")], check=False)


def try_row(count, system, row, words):
    """Installs, runs and removes an artefact."""
    system.run(f"rm -rf {WORK}", "/tmp")
    before = system.files()
    good, said = system.run(row.before) if row.before else (True, [])
    for place, command in words if good else ():
        good, said = system.run(command, place)
        count.told(good, f"{row.what}: {command}", said[-12:])
    good, said = system.run(row.example, USER if row.what in ("Rust", "Go") else WORK)
    last = sorted(said[-len(row.prints):])      # what goes to standard output may come after what goes to the other
    right = len(last) == len(row.prints) and all(re.fullmatch(wanted, line) for wanted, line in zip(sorted(row.prints), last))
    count.told(right, f"{row.what}: its first example prints {last}", said[-12:])
    good, said = system.run(row.remove)
    left = sorted(system.files() - before)
    count.told(good and not left, f"{row.what}: removed, and nothing is left", said[-8:] + left[:12])


def check(folder):
    dist, count = scripts.load("c/dist"), report.Count()
    with new_system(count) as system:
        shutil.copytree(folder, system.root + AT)
        good, said = system.run("sha256sum --check --quiet SHA256SUMS", AT)
        count.told(good, "sha256sum: all files are whole", said[-5:])
        count.told(not system.run("command -v rt", "/tmp")[0], "there is no command of the kit")
        of_page = commands(folder, dist.version())
        for row in rows(dist.version()):
            named = [what for what in of_page if what.startswith(row.what)]
            count.told(len(named) == 1, f"the page has a row for {row.what}", list(of_page))
            try_row(count, system, row, of_page[named[0]] if named else [])
    return count.end(needs_one=True)
