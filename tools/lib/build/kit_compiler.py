"""The kit's C compiler, and what its prover gives it.

The prover gives its compiler a module of LLVM's, and has it write an object. It takes a folder of
tools: in one of links to the kit's, a compiler stands that keeps the module and the words that it
was given, and then does what the kit's does. The kit stays as it is.
"""
import contextlib
import os
import shutil

from lib.build import building

KEEPS = """\
#!/bin/sh
# The last call is the one that writes an object.
for word in "$@"; do
    case $word in *.bc|*.ll) cp "$word" {folder}/module && chmod 600 {folder}/module ;; esac
done
printf '%s\\n' "$@" > {folder}/words
exec {clang} "$@"
"""
MODULE, WORDS = "module", "words"


def toolchain():
    """The kit's folder of tools."""
    return os.path.join(os.path.dirname(os.path.dirname(building.prover())), "toolchain")


def clang():
    return os.path.join(toolchain(), "bin", "clang")


def keeping(folder):
    """A folder of tools as the kit's, whose compiler keeps module and words in `folder`."""
    place = os.path.join(folder, "toolchain")
    os.makedirs(os.path.join(place, "bin"))
    os.symlink(os.path.join(toolchain(), "lib"), os.path.join(place, "lib"))
    for name in os.listdir(os.path.join(toolchain(), "bin")):
        if name != "clang":
            os.symlink(os.path.join(toolchain(), "bin", name), os.path.join(place, "bin", name))
    keeper = os.path.join(place, "bin", "clang")
    with open(keeper, "w", encoding="utf-8") as file:
        file.write(KEEPS.format(folder=folder, clang=clang()))
    os.chmod(keeper, 0o755)
    return place


# ---- what was kept of a crate

def place_of(crate, other=""):
    """Where it is kept, of the kit's own processor or of another one: not below the crate, whose folder `out`
    `rt ci` makes anew."""
    return os.path.join(building.TOP, "out", "kept", crate, other)


def stamp_of(crate, other=""):
    return os.path.join(place_of(crate, other), "built_from")


def keep(crate, folder, built_from, other=""):
    """Copies what was kept in a folder to its place, with the digest of what it was built from. If
    the prover called no compiler, nothing is kept: whoever wants a module asks the prover again."""
    forget(crate, other)
    if not os.path.exists(os.path.join(folder, MODULE)):
        return
    os.makedirs(place_of(crate, other), exist_ok=True)
    for name in (MODULE, WORDS):
        shutil.copy(os.path.join(folder, name), place_of(crate, other))
    with open(stamp_of(crate, other), "w", encoding="utf-8") as file:
        file.write(built_from + building.kit())


def forget(crate, other=""):
    """Removes what was kept, so that the prover is asked again."""
    for name in (MODULE, WORDS, "built_from"):
        with contextlib.suppress(FileNotFoundError):
            os.remove(os.path.join(place_of(crate, other), name))


def is_kept(crate, other=""):
    """Whether what is kept was given for the present sources, by this kit."""
    return building.is_noted(stamp_of(crate, other), building.digest_of(crate))
