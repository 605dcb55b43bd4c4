"""The programs of carrier/, built over an installed library: as they are shipped, and with what only tests need."""
import os
import shutil
import subprocess

from lib.build import c_tools

HERE = os.path.dirname(os.path.abspath(__file__))
SOURCES = os.path.dirname(HERE)
LIBRARIES = ("libnats", "libmicrohttpd", "libsystemd", "libpq")
SANITIZERS = "-fsanitize=address,undefined -fno-sanitize-recover=all -fno-omit-frame-pointer"
ALONE = ("WITH_NATS=no", "WITH_POSTGRESQL=no")


def has_library(name):
    return subprocess.run(["pkg-config", "--exists", name], check=False).returncode == 0


def missing(with_servers):
    """What the programs need, and their servers, and isn't installed."""
    found = [it for it in ("make", c_tools.c_compiler()[0]) if not shutil.which(it)]
    found += ["libsqlite3-dev"] * (not os.path.exists("/usr/include/sqlite3.h"))
    if with_servers:
        found += [it for it in ("nats-server", "openssl") if not shutil.which(it)]
        found += ["postgresql"] * (not os.path.exists("/usr/lib/postgresql"))
        found += [f"{it}-dev" for it in LIBRARIES if not has_library(it)]
    return found


def shipped(out, prefix, *words, folder=SOURCES, compiler=None):
    """Builds the programs, which any user may run, and answers where they are."""
    done = subprocess.run(["make", "-j2", "-C", folder, f"OUT={out}", f"PREFIX={prefix}",
                           f"CC={compiler or ' '.join(c_tools.c_compiler())}", *words], check=False, umask=0o022,
                          stdout=subprocess.PIPE, stderr=subprocess.STDOUT, text=True)
    assert done.returncode == 0, done.stdout[-5000:]
    return str(out)


def build(out, prefix, with_servers, *, sources=SOURCES, target="tests", sanitized=None):
    """The same with what tests need, of these sources, with NATS and PostgreSQL or without."""
    absent = missing(with_servers)
    assert not absent, f"missing: apt-get install {' '.join(absent)}"
    more = [f"SANITIZERS={SANITIZERS}"] * bool(sanitized) + [*ALONE] * (not with_servers)
    return shipped(out, prefix, f"SOURCES={sources}", target, *more, folder=HERE, compiler=sanitized)
