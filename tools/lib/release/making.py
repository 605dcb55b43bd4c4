"""Makes what a user takes of the tarball, each artefact in its place in the release's folder. The same commit
gives the same bytes, by the same compilers."""
import os
import re
import shutil
import subprocess
import tempfile

from lib import bindings, scripts
from lib.build import building

README = os.path.join(building.TOP, "packaging", "release.md")
# The library of a wheel is installed here, below a folder of its own.
LIBDIR = "/usr/lib"
LEAST_GLIBC = (2, 17)       # the oldest that a tag of PEP 600 names (manylinux2014)


class NotMade(OSError):
    """A tool that makes an artefact failed."""


def run(words, folder, **more):
    """Runs a command with the time of the commit as that of all that it makes."""
    dist = scripts.load("c/dist")
    given = {**os.environ, "SOURCE_DATE_EPOCH": str(dist.committed_at()), "LC_ALL": "C.UTF-8", "TZ": "UTC", **more}
    done = subprocess.run(words, cwd=folder, env=given, check=False, stdin=subprocess.DEVNULL,
                          stdout=subprocess.PIPE, stderr=subprocess.STDOUT, text=True, errors="replace")
    if done.returncode:
        raise NotMade(f"{' '.join(words)} failed: {done.stdout[-3000:]}")
    return done.stdout


# ---- Python

def glibc_of(library):
    """The newest version of glibc whose symbols a shared object asks for."""
    told = run(["objdump", "-T", library], None)
    found = {tuple(map(int, it.split("."))) for it in re.findall(r"GLIBC_([\d.]+)", told)}
    return max({it[:2] for it in found} | {LEAST_GLIBC})


def wheel(tree, machine, words, folder):
    """A wheel with the library inside, which is built of the tarball's tree for a machine by these words."""
    root = os.path.join(tree, "installed")
    shutil.rmtree(root, ignore_errors=True)
    run(["make", "-s", "clean"], tree)
    run(["make", "-s", *words, f"DESTDIR={root}", "PREFIX=/usr", f"LIBDIR={LIBDIR}", "install"], tree)
    place = root + LIBDIR
    major, minor = glibc_of(os.path.join(place, "libkrbrelay.so.1"))
    settings = {"library": place, "platform": f"manylinux_{major}_{minor}_{machine}"}
    by_backend(tree, f"build_wheel({folder!r}, {settings!r})")


def by_backend(tree, call):
    code = f"import sys; sys.path.insert(0, 'backend'); import wheel_backend; wheel_backend.{call}"
    run(["python3", "-B", "-c", code], os.path.join(tree, "python"))


def make_python(tarball, folder):
    dist = scripts.load("c/dist")
    with tempfile.TemporaryDirectory() as room:
        tree = bindings.unpacked(tarball, room)
        by_backend(tree, f"build_sdist({folder!r})")
        wheel(tree, "x86_64", [], folder)
        cross = [it for it in dist.CROSS if not it.startswith("RUN=")]
        wheel(tree, "aarch64", cross, folder)


# ---- the others

def make_packages(tarball, folder):
    """Debian's packages, and the source package that they are built of."""
    debian = scripts.load("debian")
    with tempfile.TemporaryDirectory() as room:
        good, said = debian.make(room, tarball)
        if not good:
            raise NotMade("tools/debian: " + "\n".join(said))
        for name in sorted(os.listdir(room)):
            if name.endswith((".deb", ".dsc", ".debian.tar.xz", ".orig.tar.gz", ".buildinfo")) and "-dbgsym_" not in name:
                shutil.copyfile(os.path.join(room, name), os.path.join(folder, name))


def make(folder):
    """Makes all artefacts in a new folder."""
    dist = scripts.load("c/dist")
    os.makedirs(folder)
    tarball = dist.write(folder)
    dist.write_vectors(folder)
    for place, maker in (("python", make_python), ("debian", make_packages)):
        os.makedirs(os.path.join(folder, place))
        maker(tarball, os.path.join(folder, place))
    for room in ("rust", "go"):
        packs = os.path.join(building.TOP, room, "test")
        run([packs, "--pack", os.path.join(folder, room), "--tarball", tarball], building.TOP)
    with open(README, encoding="utf-8") as file:
        text = file.read().replace("VERSION", dist.version())
    with open(os.path.join(folder, "README.md"), "w", encoding="utf-8") as file:
        file.write(text)
