"""The C compiler, libraries that it is given, and what tools/ has it build."""
import os
import shlex
import shutil
import subprocess
import sys

from lib.build import building


class NotBuilt(OSError):
    """A library of tools/ that can't be built."""


def c_compiler():
    """The words that start the C compiler: those of the variable CC, else cc or gcc."""
    return shlex.split(os.environ.get("CC", "")) or ["cc" if shutil.which("cc") else "gcc"]


def flags_of(*packages):
    """The words that a compiler needs for the first package that is installed, or None."""
    for package in packages:
        asked = subprocess.run(["pkg-config", "--cflags", "--libs", package], check=False,
                               stdout=subprocess.PIPE, stderr=subprocess.DEVNULL, text=True)
        if asked.returncode == 0:
            return asked.stdout.split()
    return None


def needed_flags(package):
    """The words for a package without which the tool ends."""
    flags = flags_of(package)
    if flags is None:
        sys.exit(f"pkg-config knows no {package}")
    return flags


def preloaded(folder, *source):
    """A library to be preloaded, of a source of the repository."""
    built = os.path.join(folder, source[-1] + ".so")
    words = [*c_compiler(), "-O2", "-fno-builtin", "-shared", "-fPIC",
             os.path.join(building.TOP, *source), "-o", built, "-ldl"]
    if subprocess.run(words, check=False).returncode != 0:
        raise NotBuilt("the C compiler failed")
    return built


def program(folder, *source):
    """A program of a source of the repository, built with no optimization: each store in it is made."""
    built = os.path.join(folder, source[-1].removesuffix(".c"))
    words = [*c_compiler(), "-O0", "-fno-builtin", os.path.join(building.TOP, *source), "-o", built]
    if subprocess.run(words, check=False).returncode != 0:
        raise NotBuilt("the C compiler failed")
    return built


def c_library(prefix, folder):
    """Where libkrbrelay is installed: at the prefix, or if that is None in a new folder, for which it
    is built. The tool ends if it can't be built."""
    if prefix:
        return os.path.abspath(prefix)
    prefix = os.path.join(folder, "prefix")
    done = subprocess.run(["make", "-s", "-C", os.path.join(building.TOP, "c"), "install", f"PREFIX={prefix}"],
                          check=False, stdout=subprocess.PIPE, stderr=subprocess.STDOUT, text=True)
    if done.returncode:
        sys.exit(f"{done.stdout}\nlibkrbrelay isn't built")
    return prefix
