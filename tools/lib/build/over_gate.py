"""Proves and builds the static library, or a program of a tool, over the libraries that `rt ci` has
built.

`rt ci` proves a static library and compiles none, and knows no program of a tool. The libraries
that these stand on stay in crates/NAME/out/rlib, and `tools/test` notes from which sources they
were built (building.py). Here the kit's prover reads these, proves what stands on them from
nothing, and only then compiles it. `rt lib` and `rt run` take no library of `rt ci`: they prove all
of them again.
"""
import os
import shutil
import subprocess
import tempfile

from lib.build import building, kit_compiler

MOST_JOBS = 4
TARGET = "x86_64-unknown-linux-gnu"
# What the prover checked of a static library, in its crate's folder.
CHECKED = os.path.join("out", "incremental")
# What the kit links a program with, beside what is compiled.
KITS_C = ("libos_c.a", "liblibc_c.a")


def below(crates):
    """These crates and all that they stand on, lowest first."""
    found = []
    for crate in crates:
        building.in_order(crate, found=found)
    return found


def are_built(crates):
    """Whether these libraries and all that they stand on were built by `rt ci`, from the present
    sources."""
    return all(building.is_built(it, building.library_of(it)) for it in below(crates))


def can_build(crate):
    """Whether what a crate stands on was built so."""
    return are_built(building.below()[crate])


def kit():
    """The kit's folder."""
    return os.path.dirname(os.path.dirname(building.prover()))


def words_over(name, source, crates, jobs):
    """The words for the prover, as `rt ci` has them: a crate with its first file, and the libraries
    that it stands on. It names std and its own libraries, and no C to be linked."""
    place = kit()
    words = [building.prover(), "build", "--crate-name", name, source, "--links", f"{name}=",
             "--jobs", str(jobs), "--antt-project", f"{place}/rattle/logic/antt-project.json",
             "--logic-built", f"{place}/logic_built",
             "--extern", f"std={place}/rlibs/std.rlib", "-L", f"dependency={place}/rlibs"]
    for it in crates:
        words += ["--extern", f"{it}={building.library_of(it)}"]
    for it in below(crates):
        words += ["-L", f"dependency={os.path.dirname(building.library_of(it))}"]
    return words


def words_of_kit(crate):
    """The words for the libraries of the kit that a crate names."""
    for it in building.table()[crate][1]:
        if it not in building.table():
            yield from ("--extern", f"{it}={kit()}/rlibs/{it}.rlib")


def words_to_check(crate, jobs):
    """The words that prove a crate alone, over the libraries that are built, with those of the kit that it names."""
    source = "src/main.rt" if building.has_program(crate) else "src/lib.rt"
    words = [*words_over(crate, source, building.below()[crate], jobs), *words_of_kit(crate)]
    return [words[0], "check", *words[2:]]


def words_for(crate, jobs, toolchain, output):
    """The words for a static library, with those of a compiler: the folder of its tools, and what
    it is to write."""
    words = words_over(crate, "src/lib.rt", building.below()[crate], jobs)
    return [*words, "--crate-type", "staticlib", "--toolchain", toolchain, "-o", output]


def words_for_program(crate, jobs, toolchain, output):
    """The words for the object of which a program is linked, likewise."""
    words = words_over(crate, "src/main.rt", building.below()[crate], jobs)
    return [*words, "--backend", "llvm", "--toolchain", toolchain, "-o", output]


def words_to_link(program, toolchain):
    """The words that link a program of its object, which lies beside it."""
    return [building.prover() + "-link", "--target", TARGET, "--toolchain", toolchain,
            "-o", program, f"{program}.o", *(os.path.join(kit(), "c", it) for it in KITS_C)]


def words_to_build(crate, jobs, toolchain, output):
    """The words for what is built of a crate that no other stands on."""
    is_program = building.has_program(crate)
    return (words_for_program if is_program else words_for)(crate, jobs, toolchain, output)


def taking_checked():
    """The words that have the prover take what it checked before of the same sources, and keep what it
    checks, run in the crate's folder."""
    return ["--incremental", CHECKED]


def build(crate, cores, log):
    """Proves and builds the static library from nothing, with what is said in a file. Returns whether
    it is proved; then it is noted, and what the compiler was given is kept. What was checked stays, so
    that the same is soon proved for another processor (assembly.py)."""
    built_from, output = building.digest_of(crate), building.top_of(crate)
    os.makedirs(os.path.dirname(output), exist_ok=True)
    shutil.rmtree(os.path.join(building.folder_of(crate), CHECKED), ignore_errors=True)
    with tempfile.TemporaryDirectory() as folder, open(log, "w", encoding="utf-8") as file:
        words = [*words_for(crate, min(cores, MOST_JOBS), kit_compiler.keeping(folder), output),
                 *taking_checked()]
        done = subprocess.run(words, check=False, stdout=file, cwd=building.folder_of(crate),
                              stdin=subprocess.DEVNULL, stderr=subprocess.STDOUT)
        if done.returncode == 0:
            kit_compiler.keep(crate, folder, built_from)
    if done.returncode == 0:
        building.note(output, built_from)
    return done.returncode == 0


def build_program(folder, name, crates, jobs):
    """Proves and builds the program of a tool, whose sources are in src/ of a folder. Returns the
    program, or None, and what was said of one that isn't proved or isn't linked."""
    program, tools = os.path.join(folder, name), kit_compiler.toolchain()
    proves = [*words_over(name, "src/main.rt", crates, jobs), "--backend", "llvm", "--toolchain", tools,
              "-o", f"{program}.o"]
    for words in (proves, words_to_link(program, tools)):
        done = subprocess.run(words, check=False, cwd=folder, stdin=subprocess.DEVNULL,
                              stdout=subprocess.PIPE, stderr=subprocess.STDOUT, text=True)
        if done.returncode:
            return None, done.stdout
    return program, ""
