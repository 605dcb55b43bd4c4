"""The parts of tools/test, what each of them needs, and the table of all tools."""
import dataclasses
import functools
import os
import shutil
import subprocess
import typing

from lib import scripts
from lib.build import building, c_tools, unproved

TO_ANSWER = 60         # seconds for a tool to say whether it is there
SHARES = 4             # runs in which --quick has the cases of the program: one of all would end long after the others

PROGRAM = "a program that is built from these sources"
UNPROVED = "one that is built from them without its proofs"
COMPILER = "a C compiler"
CRYPTOGRAPHY = "Python's package cryptography"
PYTEST = "Debian's python3-pytest"
HYPOTHESIS = "Debian's python3-hypothesis"
MIT = "Debian's libkrb5-dev"
HEIMDAL = "Debian's heimdal-multidev"
MAKE = "make"
SQLITE = "Debian's libsqlite3-dev"
SERVERS = ("Debian's nats-server, libnats-dev, postgresql, libpq-dev, libmicrohttpd-dev and"
           " libsystemd-dev")
JAVA = "Debian's libjna-java and default-jdk-headless"
PROMETHEUS = "Debian's prometheus, systemd and strace"
PSYCOPG = "Debian's python3-psycopg2"
DUMPCAP = "Debian's wireshark-common and python3-gssapi"
REALM = "Debian's krb5-kdc, krb5-admin-server, krb5-kpropd and krb5-user"
CROSS = "Debian's gdb, gcc-aarch64-linux-gnu, libc6-dev-arm64-cross and qemu-user-static"
PACKAGING = ("Debian's debhelper, dh-python, dpkg-dev, lintian, isa-support and debootstrap, and"
             " root")
PKG_CONFIG = "pkg-config"
CARGO = "Debian's cargo, or later"
GO = "Debian's golang-go, or later"


def has(command):
    return shutil.which(command) is not None


@functools.cache
def runs(*words):
    how = dict(stdin=subprocess.DEVNULL, stdout=subprocess.DEVNULL, stderr=subprocess.DEVNULL)
    try:
        done = subprocess.run(words, cwd=os.path.join(building.TOP, "tests"), check=False,
                              timeout=TO_ANSWER, **how)
        return done.returncode == 0
    except (OSError, subprocess.TimeoutExpired):
        return False


IS_THERE = {
    PROGRAM: lambda: building.is_built("krbrelay", building.KRBRELAY),
    UNPROVED: lambda: has("rt") and unproved.is_kept(),
    COMPILER: lambda: has(c_tools.c_compiler()[0]),
    CRYPTOGRAPHY: lambda: runs("python3", "-c", "import sys; sys.path.append('../tools');"
                               " from oracle import opener"),
    PYTEST: lambda: has("pytest"),
    HYPOTHESIS: lambda: runs("python3", "-c", "import hypothesis"),
    MIT: lambda: runs("pkg-config", "--exists", "mit-krb5"),
    HEIMDAL: lambda: runs("pkg-config", "--exists", "heimdal-krb5"),
    PSYCOPG: lambda: runs("python3", "-c", "import psycopg2"),
    DUMPCAP: lambda: has("dumpcap") and runs("/usr/bin/python3", "-c", "import gssapi"),
    REALM: lambda: all(shutil.which(it, path="/usr/sbin:/usr/bin:/sbin:/bin") for it in
                       ("krb5kdc", "kadmind", "kpropd", "kprop", "kpasswd", "kadmin.local")),
    CROSS: lambda: has("gdb") and has("aarch64-linux-gnu-gcc") and has("qemu-aarch64-static")
    and os.path.exists("/usr/aarch64-linux-gnu/lib/libc.so.6"),
    PACKAGING: lambda: all(map(has, ("dh", "dh_python3", "dpkg-buildpackage", "lintian",
                                     "debootstrap"))) and os.geteuid() == 0,
    PKG_CONFIG: lambda: has("pkg-config"),
    JAVA: lambda: has("javac") and os.path.exists("/usr/share/java/jna.jar"),
    PROMETHEUS: lambda: has("prometheus") and has("promtool") and has("systemd-analyze") and has("strace"),
    CARGO: lambda: has("cargo") and has("rustc"),
    GO: lambda: has("go"),
    MAKE: lambda: has("make"),
    SQLITE: lambda: os.path.exists("/usr/include/sqlite3.h"),
    SERVERS: lambda: has("nats-server") and os.path.exists("/usr/lib/postgresql")
    and runs("pkg-config", "--exists", "libnats", "libpq", "libmicrohttpd", "libsystemd"),
    "rt": lambda: has("rt"),
    "clang": lambda: has("clang"),
    "valgrind": lambda: has("valgrind"),
}


# ---- the parts

@dataclasses.dataclass
class Part:
    command: str
    minutes: int    # its limit
    needs: tuple = ()
    after: str = ""     # the part that has to have ended before it begins
    # The crates on which what it runs is built: once `rt ci` has proved these, it may begin beside it.
    # None: it begins after it.
    over: typing.Optional[tuple] = None
    waits: bool = False     # it mostly waits: of those that --all adds two such run beside each other, last

    def name(self):
        return self.command.replace(" ", "_").replace("/", "_")

    def tool(self):
        """The script that it runs, or the whole command."""
        return self.command.split()[0].removeprefix("tools/")

    def missing(self):
        """What it needs and this machine doesn't have."""
        return [need for need in self.needs if not IS_THERE[need]()]


FIRST = Part("tools/mutants", 10, ("rt",))
GATE = Part("rt ci", 174, ("rt",))
BUILD = Part("tools/krbrelay --prove", 60, ("rt",))
# The first builds the C library, which those after it take then. It stands on what krb_c stands on:
# `rt ci` proves krb_c as one of the last crates, and compiles none of it.
LIBRARY = Part("make -s -C c", 80, ("rt", COMPILER, MAKE),
               over=tuple(building.below()["krb_c"]))
PARTS = [
    LIBRARY,
    Part("pytest c/tests", 70, ("rt", COMPILER, CRYPTOGRAPHY, MAKE, PYTEST, SQLITE),
         LIBRARY.command, over=()),
    Part("c/costs", 10, (COMPILER, MAKE, "valgrind"), LIBRARY.command, over=()),
    Part("pytest python/tests", 20, (COMPILER, CRYPTOGRAPHY, PYTEST), LIBRARY.command, over=()),
    Part("tools/check_documents", 10, over=()),
    Part("tools/reference --check", 10, over=()),
    Part("pytest tests/test_reference.py", 10, (PYTEST,), over=()),
    Part("pytest tests/test_tables.py", 10, (PYTEST,), over=()),
    Part("pytest tests/test_tools.py", 10, (PYTEST, COMPILER, CRYPTOGRAPHY), over=()),
    Part("pytest tests/test_release.py", 10, (PYTEST,), over=()),
    Part("tools/tables --check", 10, over=()),
    Part("tools/house --check", 10, over=()),
    Part("pytest carrier/tests/test_statements.py", 10, (PYTEST,), over=()),
    Part("pytest carrier/tests/test_packages.py", 10, (PYTEST,), over=()),
    Part("pytest carrier/tests/test_effects.py", 10, (PYTEST, "rt", COMPILER, MAKE, SQLITE), LIBRARY.command, over=()),
    Part("pytest carrier/tests/test_put_get.py carrier/tests/test_waiting.py", 10, (PYTEST, "rt", COMPILER, MAKE, SQLITE), LIBRARY.command, over=()),
    Part("pytest carrier/tests/test_upgrades.py", 5, (PYTEST, "rt", COMPILER, MAKE, SQLITE), LIBRARY.command, over=()),
    Part("pytest carrier/tests/test_left.py", 5, (PYTEST, "rt", COMPILER, CRYPTOGRAPHY, MAKE, SQLITE), LIBRARY.command, over=()),
    Part("pytest carrier/tests/test_simulation.py", 20, (PYTEST, "rt", COMPILER, MAKE, SQLITE), LIBRARY.command, over=()),
    Part("pytest carrier/tests/test_simulation_model.py", 10, (PYTEST, HYPOTHESIS, "rt", COMPILER, MAKE), LIBRARY.command, over=()),
    Part("pytest tests/test_job_check.py", 10, (PYTEST, CRYPTOGRAPHY), over=()),
    Part("tests/vector_tables.py --check", 10, over=()),
    Part("pytest tests/test_building.py", 10, (PYTEST, COMPILER, CRYPTOGRAPHY), over=()),
    Part("pytest tests/test_parts.py", 10, (PYTEST, COMPILER, CRYPTOGRAPHY, MAKE, SQLITE), over=()),
    Part("pytest tests/test_picture.py", 10, (PYTEST,), over=()),
    Part("tools/figure --check", 10, over=()),
    Part("pytest tests/test_program.py", 10, (PROGRAM, COMPILER, PYTEST)),
    Part("pytest tests/test_show.py", 10, (PROGRAM, COMPILER, CRYPTOGRAPHY, PYTEST), LIBRARY.command),
    Part("pytest tests/test_install.py", 10, (PROGRAM, PYTEST)),
    Part("tests/failing_calls", 10, (PROGRAM, COMPILER, CRYPTOGRAPHY)),
    Part("tests/job_costs --check", 5, (PROGRAM,)),
    Part("tests/freed_memory --program", 5, (PROGRAM, COMPILER, CRYPTOGRAPHY)),
    Part("tests/freed_memory --relays", 10, ("rt", COMPILER, CRYPTOGRAPHY)),
    Part("tests/freed_memory --python", 10, (COMPILER, CRYPTOGRAPHY), LIBRARY.command, over=()),
    Part("tests/repeated_frames", 5, (PROGRAM, CRYPTOGRAPHY)),
    Part("pytest carrier/tests/test_mutants.py", 30, (PYTEST, "rt", COMPILER, MAKE, SQLITE), LIBRARY.command, over=()),
    Part("pytest carrier/tests/test_units.py carrier/tests/test_errors.py carrier/tests/test_answers.py carrier/tests/test_evidence.py"
         " carrier/tests/test_shown.py carrier/tests/test_demo.py", 20, (PYTEST, "rt", COMPILER, MAKE, SQLITE), LIBRARY.command, over=()),
    Part("pytest carrier/tests/test_chaos.py", 10, (PROGRAM, PYTEST, "rt", COMPILER, MAKE, SQLITE), LIBRARY.command),
    Part("pytest tests/test_fuzz.py", 5, (PROGRAM, CRYPTOGRAPHY, PYTEST)),
    Part("pytest conformance", 5, (PROGRAM, COMPILER, CRYPTOGRAPHY, PYTEST), LIBRARY.command),
    Part("pytest tests/test_bench.py", 30, ("rt", PYTEST)),
    Part("tests/secret_places", 60, ("rt", COMPILER, "valgrind"), over=("krb_seal",)),
    Part("tests/secret_places --library", 20, ("rt", COMPILER, MAKE, "valgrind"), LIBRARY.command,
         over=()),
]


def of_carrier(words, minutes, *needs):
    """Tests of the carrier over servers, which mostly wait for them."""
    return Part(f"pytest --all {words}", minutes,
                (*needs, PYTEST, "rt", COMPILER, MAKE, SQLITE, SERVERS, MIT, REALM), waits=True)


MORE = [
    Part("tools/check_documents --typed", 10, (PROGRAM, "rt", COMPILER, MAKE, PKG_CONFIG, SQLITE)),
    Part("tools/mutants --try", 170, ("rt",)),
    Part("pytest --all tests/test_fuzz.py", 60, (PROGRAM, CRYPTOGRAPHY, PYTEST)),
    Part("kerberos/interop", 20, (PROGRAM, COMPILER, MIT, HEIMDAL)),
    Part("pytest --all conformance", 20, (PROGRAM, COMPILER, CRYPTOGRAPHY, MIT, HEIMDAL, PYTEST)),
    Part("pytest --all c/tests", 60, ("rt", COMPILER, MIT, "clang", "valgrind", MAKE, PYTEST)),
    Part("tests/program_costs", 30, (PROGRAM, COMPILER, "valgrind")),
    Part("c/dist --check", 60, ("rt", COMPILER, "clang", MAKE, CROSS)),
    Part("rust/test", 40, ("rt", COMPILER, CRYPTOGRAPHY, MAKE, PKG_CONFIG, CARGO), "c/dist --check"),
    Part("go/test", 20, ("rt", COMPILER, CRYPTOGRAPHY, MAKE, PKG_CONFIG, GO), "c/dist --check"),
    Part("pytest tests/test_java.py", 10, (PYTEST, "rt", COMPILER, MAKE, JAVA)),
    Part("tools/debian --check", 60, ("rt", COMPILER, MAKE, PACKAGING, SERVERS, MIT)),
    Part("tools/release --check", 90, ("rt", COMPILER, CRYPTOGRAPHY, MAKE, PKG_CONFIG, PACKAGING, SERVERS, MIT, CROSS,
                                       CARGO, GO), "tools/debian --check"),
    Part("pytest --all python/tests", 20, (COMPILER, CRYPTOGRAPHY, PYTEST)),
    Part("kerberos/test", 75, ("rt", COMPILER, MIT, HEIMDAL, REALM, DUMPCAP)),
    Part("pytest carrier/tests/test_effects_postgresql.py", 20, (PYTEST, "rt", COMPILER, MAKE, SQLITE, SERVERS, PSYCOPG)),
    Part("pytest carrier/tests/test_prometheus.py", 10, (PYTEST, "rt", COMPILER, MAKE, SQLITE, SERVERS, PROMETHEUS)),
    *(of_carrier(f"--sanitized {it} carrier/tests/test_units.py carrier/tests/test_errors.py"
                 " carrier/tests/test_tickets.py carrier/tests/test_chaos.py", 60, PROGRAM, "clang") for it in ("gcc", "clang")),
    of_carrier("carrier/tests/test_units.py carrier/tests/test_errors.py carrier/tests/test_servers.py carrier/tests/test_demo.py"
               " carrier/tests/test_mutants.py carrier/tests/test_chaos.py carrier/tests/test_endurance.py", 60, PROGRAM),
    *(of_carrier(f"--share {it}/2 -k test_case carrier/tests", 90, PSYCOPG) for it in (1, 2)),
]
# Those of --quick: the first builds the program that some of the others run, without its proofs.
BUILD_UNPROVED = Part("tools/krbrelay --unproved", 10, ("rt",))


def over_unproved(command, minutes, *needs):
    return Part(command, minutes, (UNPROVED, *needs), BUILD_UNPROVED.command)


QUICK = [
    BUILD_UNPROVED,
    Part("tools/check_documents", 1),
    Part("pytest tests/test_tables.py", 1, (PYTEST,)),
    Part("tools/tables --check", 1),
    Part("pytest carrier/tests/test_statements.py", 1, (PYTEST,)),
    Part("pytest tests/test_job_check.py", 1, (PYTEST, CRYPTOGRAPHY)),
    Part("pytest --quick conformance", 3, (CRYPTOGRAPHY, PYTEST)),
    # The longest first.
    over_unproved("pytest --quick tests/test_fuzz.py", 5, CRYPTOGRAPHY, PYTEST),
    over_unproved("tests/repeated_frames --quick", 4, CRYPTOGRAPHY),
    *(over_unproved(f"pytest --quick --share {it}/{SHARES} tests/test_program.py", 6, COMPILER, PYTEST)
      for it in range(1, SHARES + 1)),
    over_unproved("pytest --quick tests/test_install.py", 1, PYTEST),
]


# ---- the table

# What tools are for, in the order of the table. Those that aren't named check something.
VERBS = {
    "run": ("krbrelay", "relay", "show", "picture", "check_job"),
    "make": ("install", "c/dist", "debian", "release", "reference", "figure"),
    "prove": ("test", "proving.py", "mutants"),
    "bench": ("bench", "bench_aes", "bench_lane", "carrier/bench", "tests/job_costs"),
}
OTHERS = "check"


def verb_of(name):
    return next((verb for verb, names in VERBS.items() if name in names), OTHERS)


def of_tool(name, parts):
    return [part for part in parts if part.tool() == name]


def belongs(name):
    """Which form of tools/test runs a tool."""
    forms = ("test", [FIRST, *PARTS]), ("--all", MORE), ("--without-proofs", [BUILD])
    for form, parts in forms:
        if of_tool(name, parts):
            return form
    return "-"


def needs_of(name):
    """What a tool needs: as its first part here, or as it says itself."""
    found = of_tool(name, [FIRST, *PARTS, *MORE])
    return ", ".join(found[0].needs) or "Python" if found else scripts.needs(name)


def table():
    """Of each tool its name, which form of tools/test runs it, what it does, and what it needs."""
    return [(it, belongs(it), scripts.purpose(it), needs_of(it)) for it in scripts.names()]


def lines_of_table():
    """The table, below a heading for each verb."""
    rows = table()
    for verb in (*VERBS, OTHERS):
        yield f"# {verb}"
        for name, form, purpose, needs in rows:
            if verb_of(name) == verb:
                yield f"{name:18} {form:16} {purpose}. Needs: {needs}."
