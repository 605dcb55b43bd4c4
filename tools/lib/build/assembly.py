"""The proved code of the C library and of the program as assembly, as the kit's own compiler prints it.

From the module that the kit's prover gives that compiler (kit_compiler.py) it writes assembly in
place of an object, with the very words that it was given. On x86-64 unwind tables are asked for,
which leave the code as it is; on aarch64 they would change it, and most functions keep a chain of
frames anyway.

Of x86-64 the library has two: of the kit's own level, x86-64-v2, and of x86-64-v3. For another level or
machine the prover proves it again, and gives the compiler another module: a vector's place in
memory and what a vector of 32 bytes is lowered to depend on the level. What it checked when it was built first
(over_gate.py) it takes as checked then.
"""
import dataclasses
import os
import re
import shutil
import subprocess
import tempfile

from lib.build import building, kit_compiler, over_gate

LIBRARY, PROGRAM = "krb_c", "krbrelay"


@dataclasses.dataclass(frozen=True)
class Architecture:
    """What code is compiled for: the name that it has in files, the machine, and the level of the
    machine, where that isn't the kit's own."""
    name: str
    machine: str
    level: str = ""

    @property
    def target(self):
        return f"{self.machine}-unknown-linux-gnu"


OWN = Architecture("x86_64", "x86_64")                     # what the kit builds for
V3 = Architecture("x86_64-v3", "x86_64", "x86-64-v3")
AARCH64 = Architecture("aarch64", "aarch64")
# Of which architectures there is assembly, by crate; and what that is in the words of its head.
ARCHITECTURES = {LIBRARY: (OWN, V3, AARCH64), PROGRAM: (OWN, AARCH64)}
NAMES = {LIBRARY: "libkrbrelay", PROGRAM: "the program krbrelay"}


class NotWritten(OSError):
    """The kit's prover or its compiler failed."""


def run(words, **how):
    done = subprocess.run(words, check=False, stdin=subprocess.DEVNULL, stdout=subprocess.PIPE,
                          stderr=subprocess.STDOUT, text=True, **how)
    if done.returncode:
        raise NotWritten(f"{words[0]} failed: {done.stdout[-2000:]}")
    return done.stdout


def prove_and_keep(crate, architecture, folder):
    """Has the prover build a crate for an architecture, over the libraries that are built. What it gave
    the compiler is in `folder` then."""
    words = over_gate.words_to_build(crate, over_gate.MOST_JOBS, kit_compiler.keeping(folder),
                                     os.path.join(folder, "built"))
    level = ["--cpu", architecture.level] if architecture.level else []
    said = run([*words, "--target", architecture.target, *level, *over_gate.taking_checked()],
               cwd=building.folder_of(crate))
    if architecture.level and not is_proved_for(architecture.level, said):
        raise NotWritten(f"{crate} isn't proved for {architecture.level}: {said[-2000:]}")


def is_proved_for(level, said):
    """Whether the verdict, which is one line of what the prover said, is of this level."""
    return any(line.startswith("logic=proved ") and f"cpu={level}" in line.split()
               for line in said.splitlines())


def fetch(crate, architecture, folder):
    """Has module and words in `folder`: those that were kept when the crate was proved, or what the
    prover gives once more."""
    other = "" if architecture == OWN else architecture.name
    if kit_compiler.is_kept(crate, other):
        for name in (kit_compiler.MODULE, kit_compiler.WORDS):
            shutil.copy(os.path.join(kit_compiler.place_of(crate, other), name), folder)
        return
    built_from = building.digest_of(crate)
    prove_and_keep(crate, architecture, folder)
    kit_compiler.keep(crate, folder, built_from, other)


def forget(crate):
    """Has the prover asked again for each architecture."""
    for it in ARCHITECTURES[crate]:
        kit_compiler.forget(crate, "" if it == OWN else it.name)


def compiler_words(folder):
    """The words that the compiler was given, but for its input, its output, and `-c`."""
    with open(os.path.join(folder, kit_compiler.WORDS), encoding="utf-8") as file:
        words = file.read().splitlines()
    at = words.index("-o")
    return [it for it in words[:at] + words[at + 2:]
            if it != "-c" and not it.endswith((".bc", ".ll"))]


def module_text(folder, architecture):
    """The module as text."""
    module, text = os.path.join(folder, kit_compiler.MODULE), os.path.join(folder, "module.ll")
    run([kit_compiler.clang(), f"--target={architecture.target}",
         "-S", "-emit-llvm", "-Xclang", "-disable-llvm-passes", "-x", "ir", module, "-o", text])
    return text


def ask_for_tables(path):
    """Has each function of a module get an unwind table."""
    with open(path, encoding="utf-8") as file:
        text = file.read()
    text = re.sub(r"(?m)^(attributes #\d+ = .*)\bnounwind\b(.*\"target-cpu\")",
                  r"\1nounwind uwtable\2", text)
    with open(path, "w", encoding="utf-8") as file:
        file.write(text)


def plain_name(found):
    """A name of letters, digits, _ and . alone, which older assemblers read too."""
    if "::" not in found[1]:
        return found[0]
    return re.sub(r"[^\w.$]+", "_", found[1].replace("::", ".")).rstrip("_")


def plain_lines(text, mark):
    """The lines of assembly, without those that assemblers don't know, and with plain names.
    Comments keep the functions' paths."""
    for line in text.splitlines():
        if re.match(r"\s*\.addrsig", line):
            continue
        if not re.match(r"\s*\.(ascii|asciz|string|ident|file)\b", line):
            code, comment = re.match(rf'((?:"[^"]*"|(?!{mark})[^"])*)(.*)', line).groups()
            line = re.sub(r'"([^"]*)"', plain_name, code) + comment
        yield line


def written(crate, architecture):
    """The assembly of the proved code of a crate for an architecture."""
    is_x86 = architecture.machine == OWN.machine
    with tempfile.TemporaryDirectory() as folder:
        fetch(crate, architecture, folder)
        module = module_text(folder, architecture)
        if is_x86:
            ask_for_tables(module)
        path = os.path.join(folder, "proved.s")
        run([kit_compiler.clang(), *compiler_words(folder), "-S", module, "-o",
             path])
        with open(path, encoding="utf-8") as file:
            text = file.read()
    mark = "#" if is_x86 else "//"
    head = [f"{mark} The proved code of {NAMES[crate]} for {architecture.name} Linux, as the Rattle kit's",
            f"{mark} compiler prints what it compiles of the crate {crate} and those below it.", ""]
    return "\n".join([*head, *plain_lines(text, mark), ""])
