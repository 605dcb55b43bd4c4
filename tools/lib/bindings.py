"""What the packages of other languages (rust/, go/) take of the library's tarball, and how they are
tested: in a new folder, by commands that find nothing of the repository and of the kit."""
import gzip
import os
import shutil
import subprocess
import sys
import tarfile

from lib import pages_inside, scripts
from lib.build import building

MINUTES = 20
SYSTEM = "/usr/sbin:/usr/bin:/sbin:/bin"
# What builds the library, what says of it and whose it is, and the program that the tests talk to.
TAKEN = ("Makefile", "heap.c", "krbrelay.h", "krbrelay.map", "unproved/", "krbrelay-x86_64.s",
         "krbrelay-aarch64.s", "LICENSE", "LICENSE-APACHE", "LICENSE-MIT", "LICENSE-KIT", "licences/", "VERSION", "README.md", "CHANGELOG.md",
         "SECURITY.md", "examples/echo.c", "examples/two_ends.c")


def unpacked(tarball, folder):
    """The tarball's own folder, unpacked in this one."""
    with tarfile.open(tarball) as tar:
        tar.extractall(folder)
        return os.path.join(folder, tar.getnames()[0].split("/")[0])


def tarball(path, folder):
    """The library's tarball: the one that is named, or one that is made."""
    return os.path.abspath(path) if path else scripts.load("c/dist").write(folder)


def take(sources, folder):
    """Copies what a package takes of an unpacked tarball, which has to have all of it."""
    lacking = [it for it in TAKEN if not os.path.exists(os.path.join(sources, it))]
    if lacking:
        sys.exit(f"the tarball has no {', '.join(lacking)}")
    there = (os.path.relpath(os.path.join(at, name), sources) for at, _, names in os.walk(sources) for name in names)
    copy({it: it for it in there if any(it == taken or taken[-1] == "/" and it.startswith(taken) for taken in TAKEN)},
         sources, folder)


def copy(moved, top, folder):
    """Copies files from below a folder to their places below another, pages as they are inside of an artefact."""
    for path, place in moved.items():
        to = os.path.join(folder, place)
        os.makedirs(os.path.dirname(to), exist_ok=True)
        shutil.copy(os.path.join(top, path), to)
    for place, data in pages_inside.pages(moved, lambda it: building.text_of(os.path.join(top, it))).items():
        with open(os.path.join(folder, place), "wb") as file:
            file.write(data)


def copy_committed(room, folder):
    """Copies a room's files that are committed or new, and not those that git ignores."""
    listed = subprocess.run(["git", "-C", building.TOP, "ls-files", "-z", "--cached", "--others", "--exclude-standard", "--",
                             room], check=True, stdout=subprocess.PIPE, text=True).stdout
    copy({path: os.path.relpath(path, room) for path in listed.split("\0")[:-1]}, building.TOP, folder)


def pack(place, path):
    """Writes a folder as a tarball, whose bytes are those of the same files: each has the time of the last
    commit and no owner."""
    time = scripts.load("c/dist").committed_at()

    def plain(member):
        member.mtime, member.uid, member.gid, member.uname, member.gname = time, 0, 0, "", ""
        member.mode = 0o755 if member.isdir() else 0o644
        return member

    with open(path, "wb") as file, gzip.GzipFile("", "wb", 9, file, mtime=0) as zipped:
        with tarfile.open(fileobj=zipped, mode="w", format=tarfile.GNU_FORMAT) as tar:
            tar.add(place, os.path.basename(place), filter=plain)


def packed_twice(count, packed, words, folder):
    """What `packed` makes of the tarball, the second time of the same bytes. Returns it, and the library's
    sources."""
    path, made = tarball(words, folder), []
    for name in ("once", "again"):
        made.append(packed(path, os.path.join(folder, name)))
    with open(made[0], "rb") as one, open(made[1], "rb") as other:
        count.told(one.read() == other.read(), f"{os.path.basename(made[0])}: {os.path.getsize(made[0])} bytes, the "
                   "same twice")
    sources = os.path.join(folder, "once", "tarball")
    return made[0], os.path.join(sources, os.listdir(sources)[0])


def environment(folder, commands, **more):
    """Variables under which only the system's commands and those in one folder are found."""
    return {"PATH": f"{commands}:{SYSTEM}", "HOME": folder, "LC_ALL": "C.UTF-8", **more}


def run(words, folder, env):
    """Runs a command. Returns whether it ended well, and what it printed."""
    done = subprocess.run(words, cwd=folder, env=env, stdin=subprocess.DEVNULL, check=False,
                          stdout=subprocess.PIPE, stderr=subprocess.STDOUT, text=True,
                          errors="replace", timeout=60 * MINUTES)
    return done.returncode == 0, done.stdout


def installed(count, sources, folder):
    """The prefix below which the library is installed from its unpacked tarball."""
    prefix, built = os.path.join(folder, "prefix"), os.path.join(folder, "built")
    shutil.copytree(sources, built)
    good, said = run(["make", f"PREFIX={prefix}", "install"], built, environment(folder, SYSTEM))
    count.told(good, "the library is built from its tarball and installed", said.splitlines()[-10:])
    return prefix


def by_prefix(prefix):
    """The variables by which pkg-config and the loader find what is installed there."""
    return {"PKG_CONFIG_PATH": os.path.join(prefix, "lib", "pkgconfig"),
            "LD_LIBRARY_PATH": os.path.join(prefix, "lib")}


def frames():
    """What tests/frames.py prints: the frames of the independent sealer."""
    return subprocess.run([os.path.join(building.TOP, "tests", "frames.py")], check=True,
                          stdout=subprocess.PIPE, text=True).stdout


def conformance(count, reader, prefix):
    """Adds the cases of the conformance suite, over a reader of implementations.toml."""
    sys.path[:0] = [os.path.join(building.TOP, it) for it in ("conformance", "tests")]
    from vectors import held, readers
    passed, wrong = held.compared(reader, readers.library_at(prefix, building.KRBRELAY))
    count.told(not wrong and passed > 9_000, f"conformance: {passed} cases of {passed + len(wrong)}", wrong[:held.SHOWN])
    count.add(passed, len(wrong))


def no_keys_left(count, program, key, env):
    """No block that a program frees has a session key or a key derived from it."""
    tests = os.path.join(building.TOP, "tests")
    strings = subprocess.run([os.path.join(tests, "frames.py"), "--keys", key.hex()], check=True,
                             stdout=subprocess.PIPE, text=True).stdout.strip()
    done = subprocess.run([os.path.join(tests, "freed_memory"), strings, program], check=False, text=True,
                          env={**os.environ, **env}, stdout=subprocess.PIPE, stderr=subprocess.STDOUT)
    count.told(done.returncode == 0, "no block that the example frees has its key",
               done.stdout.splitlines())
