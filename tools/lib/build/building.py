"""Which programs and libraries are built in crates/NAME/out, and from which sources.

Beside each of them that a tool has had proved and built is a file with the digest of the sources
and of what was built, and the kit's name: while these are the same, it isn't built again. A program
that was built without its proofs has no such file (unproved.py): nothing here takes it for a proved
one.
"""
import filecmp
import hashlib
import os
import shutil
import subprocess
import sys

TOOLS = os.path.dirname(os.path.dirname(os.path.dirname(os.path.realpath(__file__))))
TOP = os.path.dirname(TOOLS)


def folder_of(crate):
    return os.path.join(TOP, "crates", crate)


def prover():
    """The kit's program that checks, formats and compiles: it is beside the command rt."""
    command = shutil.which("rt")
    if command is None:
        sys.exit("there is no command rt, which is the kit's")
    return os.path.join(os.path.dirname(os.path.realpath(command)), "rattle")


def text_of(path):
    """The text of a file of the repository."""
    with open(os.path.join(TOP, path), encoding="utf-8") as file:
        return file.read()


def program_of(crate):
    return os.path.join(folder_of(crate), "out", crate)


def tests_of(crate):
    """The test program of a crate."""
    return program_of(crate) + "_tests"


def has_program(crate):
    return os.path.exists(os.path.join(folder_of(crate), "src", "main.rt"))


def top_of(crate):
    """What is built of a crate that no other stands on: its program or, where it has none, its
    static library, which lies where `rt ci` removes nothing: it makes the folder `out` of each crate anew."""
    return program_of(crate) if has_program(crate) else os.path.join(TOP, "out", "static", f"lib{crate}.a")


# What make in c/ has built of krb_c: it lies there too.
C_LIBRARY = os.path.join(TOP, "out", "c_library")


def library_of(crate):
    """The library of a crate as `rt ci` builds it, for the crates above: a folder."""
    return os.path.join(folder_of(crate), "out", "rlib", f"{crate}.rlib")


KRBRELAY = program_of("krbrelay")


def krbrelay(program=None):
    """The program, which is proved and built first if needed; or the one that is named."""
    return proved("krbrelay", program)


def bench():
    """The program of the benchmarks, which is proved and built first if needed."""
    return proved("krb_bench")


def proved(crate, program=None):
    """A program of the crate that is proved. Without a name it is proved and built first if needed;
    a named one has to be the same, byte for byte, or the tool ends."""
    if program is None:
        prover = [sys.executable, os.path.join(TOOLS, "proving.py"), crate]
        if subprocess.run(prover, check=False, stdin=subprocess.DEVNULL).returncode:
            sys.exit(f"there is no proved program {crate}")
        return program_of(crate)
    if not is_proved(crate, program):
        sys.exit(f"{program} isn't the program {crate} that was proved from these sources")
    return program


def is_proved(crate, program):
    """Whether a file is the program of the crate that was proved and built from these sources."""
    ours = program_of(crate)
    return (is_built(crate, ours) and os.path.exists(program)
            and filecmp.cmp(ours, program, shallow=False))


# ---- what a crate stands on

def table():
    """The words of each crate's line in crates.txt: its name, its options, and what it stands on."""
    return table_of(text_of("crates.txt"))


def table_of(text):
    """The same of the text of a crates.txt."""
    lines = [line.split("#")[0].partition(":") for line in text.splitlines()]
    return {head.split()[0]: (head.split(), words.split()) for head, _, words in lines if head.strip()}


def below():
    """Each crate of the repository with the crates of the repository that it stands on."""
    found = table()
    return {crate: [it for it in deps if it in found] for crate, (_, deps) in found.items()}


def write_crates(crates, folder):
    """Writes the file crates.txt of a tree that has these crates alone."""
    with open(os.path.join(TOP, "crates.txt"), encoding="utf-8") as file:
        lines = [line for line in file if line.split(":")[0].split(" ")[0] in crates]
    with open(os.path.join(folder, "crates.txt"), "w", encoding="utf-8") as file:
        file.writelines(lines)


def in_order(crate, deps=None, found=None):
    """The crates that it stands on, lowest first, and it."""
    deps = below() if deps is None else deps
    found = [] if found is None else found
    for dep in deps[crate]:
        in_order(dep, deps, found)
    if crate not in found:
        found.append(crate)
    return found


# ---- what is built from what

def files(crates, *parts):
    """The files of these crates in these folders of them."""
    for crate in crates:
        for part in parts:
            for folder, folders, names in os.walk(os.path.join(folder_of(crate), part)):
                folders.sort()
                yield from (os.path.join(folder, name) for name in sorted(names))


def sources(crates):
    """The files that these crates are proved and built from."""
    yield os.path.join(TOP, "crates.txt")
    yield from files(crates, "src", "specs", "proofs")


def digest(paths):
    total = hashlib.sha256()
    for path in paths:
        with open(path, "rb") as file:
            total.update(hashlib.sha256(file.read()).digest())
        total.update(os.path.relpath(path, TOP).encode() + b"\0")
    return total.hexdigest()


def digest_of(crate):
    """A digest of all sources that the crate is proved and built from: the files of it and of the crates
    below it, and their lines of crates.txt, without comments and without those of other crates."""
    crates, lines = in_order(crate), table()
    told = repr([lines[it] for it in crates]) + digest(files(crates, "src", "specs", "proofs"))
    return hashlib.sha256(told.encode()).hexdigest()


def stamp_of(built):
    return built + ".built_from"


def digest_of_built(built):
    """A digest of a program or a library. The file `format` of a library that is a folder has a sum
    of each other file in it, to which the prover holds them."""
    return digest([os.path.join(built, "format") if os.path.isdir(built) else built])


def kit():
    """What the kit calls itself; nothing where there is none, or where it has no name."""
    command = shutil.which("rt")
    told = command and os.path.join(os.path.dirname(os.path.dirname(os.path.realpath(command))), "KIT-ID")
    if not told or not os.path.exists(told):
        return ""
    with open(told, encoding="utf-8") as file:
        return file.read().strip()


def is_noted(stamp, digests):
    """Whether a file notes these digests and this kit; where there is none, whatever kit it was."""
    if not os.path.exists(stamp):
        return False
    with open(stamp, encoding="utf-8") as file:
        noted = file.read()
    return noted == digests + kit() if kit() else noted.startswith(digests)


def is_built(crate, built):
    """Whether a program or library of the crate is the one that was built last, from these very
    sources and by this kit."""
    return os.path.exists(built) and is_noted(stamp_of(built), digest_of(crate) + digest_of_built(built))


def note(built, built_from):
    """Notes that a program or a library was proved and built from sources of this digest."""
    with open(stamp_of(built), "w", encoding="utf-8") as file:
        file.write(built_from + digest_of_built(built) + kit())
