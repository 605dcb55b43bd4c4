"""The C library and the program compiled without their proofs, as fast as the proved ones nearly: for
tests of changed copies of the repository, of which nothing is proved.

`rt try` gives the kit's compiler a module of a program, with checks in it. Here it runs in a folder
of links to the kit, whose compiler keeps the module (kit_compiler.py has the same of the prover)
and ends. The module is then compiled without a sanitizer and without the checks of overflows,
addresses and alignment; those of bounds stay. So it is about as fast as the proved code, and takes
about as much stack. Of a static library `rt try` makes none, so krb_c is given a `main` that names
each export, and the exports get the names and the linkage that they have for C. What is built so is
for tests alone: nothing notes it as built.
"""
import os
import re
import shutil
import subprocess
import tempfile

from lib.build import building, kit_compiler

LIBRARY, PROGRAM = "krb_c", "krbrelay"
KEEPS = """\
#!/bin/sh
# The first module, which is short, asks whether a sanitizer starts; the second is the program.
for word in "$@"; do
    case $word in *.bc|*.ll)
        if [ "$(wc -c < "$word")" -gt 20000 ]; then cp "$word" {folder}/module; exit 1; fi ;;
    esac
done
exec {clang} "$@"
"""
EXPORT = re.compile(r'#\[unsafe\(no_mangle\)\]\npub extern "C" fn (\w+)\((.*?)\)(?: -> \w+)?\n', re.S)
ANY = "fn any<T>() -> T {\n    loop {}\n}\n"
SECONDS = 600       # on a busy machine
WORDS = ["-march=x86-64-v2", "--no-default-config", "-c", "-O3", "-ffunction-sections", "-fdata-sections"]
CHECKS = re.compile(r'(?m)^  call void @"rattle-llvm-checks::\w+"\(.*\n')
# Of each variable: `rt try` fills it, so that what isn't written is seen.
FILLED = re.compile(r"(?m)^  call void @llvm\.memset\.p0\.i64\(ptr %\w+, i8 -86, .*\n")
WATCHED = re.compile(r' sanitize_address|"frame-pointer"="all"|"probe-stack"="inline-asm"|"stack-probe-size"="\d+"')


class NotCompiled(OSError):
    """The kit refuses the sources, or its compiler the module."""


def kit():
    return os.path.dirname(os.path.dirname(building.prover()))


# ---- the module of a program

def links_to_kit(folder):
    """A folder of the kit's files, whose compiler keeps what it is given."""
    place = os.path.join(folder, "kit")
    os.makedirs(os.path.join(place, "bin"))
    for name in os.listdir(kit()):
        if name not in ("bin", "toolchain"):
            os.symlink(os.path.join(kit(), name), os.path.join(place, name))
    for name in os.listdir(os.path.join(kit(), "bin")):
        made, of_kit = os.path.join(place, "bin", name), os.path.join(kit(), "bin", name)
        if name in ("rt", "rtlib.py"):      # they take the folder in which they lie as the kit
            shutil.copy(of_kit, made)
        else:
            os.symlink(of_kit, made)
    tools = kit_compiler.keeping(folder)
    keeper = os.path.join(tools, "bin", "clang")
    with open(keeper, "w", encoding="utf-8") as file:
        file.write(KEEPS.format(folder=folder, clang=kit_compiler.clang()))
    os.rename(tools, os.path.join(place, "toolchain"))
    return place


def module_of(top, crate, folder, *words):
    """The text of the module of a crate with a `main`, or with tests, in a copy of the repository at `top`."""
    place = links_to_kit(folder)
    try:
        tried = subprocess.run([os.path.join(place, "bin", "rt"), "try", *words, "--steps", "1", "--seconds", "1"],
                               cwd=os.path.join(top, "crates", crate), stdin=subprocess.DEVNULL,
                               capture_output=True, text=True, check=False, timeout=SECONDS,
                               env={**os.environ, "TMPDIR": folder})
    except subprocess.TimeoutExpired as fault:
        raise NotCompiled(f"rt try {crate}: not at its end after {SECONDS} seconds") from fault
    module, text = os.path.join(folder, "module"), os.path.join(folder, "module.ll")
    if not os.path.exists(module):
        raise NotCompiled(f"rt try {crate}: {(tried.stdout + tried.stderr)[-2000:]}")
    run([kit_compiler.clang(), "-S", "-emit-llvm", "-Xclang", "-disable-llvm-passes", "-x", "ir",
         module, "-o", text])
    with open(text, encoding="utf-8") as file:
        return without_checks(file.read())


def without_checks(text):
    text = FILLED.sub("", CHECKS.sub("", WATCHED.sub("", text)))
    return re.sub(r"(?m)^(attributes #\d+ = )\{ *\}", r"\1{ nounwind }", text)


def run(words, **how):
    done = subprocess.run(words, check=False, stdin=subprocess.DEVNULL, capture_output=True,
                          text=True, **how)
    if done.returncode:
        raise NotCompiled(f"{words[0]}: {(done.stdout + done.stderr)[-2000:]}")


def compile_module(text, folder, made, *words):
    place = os.path.join(folder, "made.ll")
    with open(place, "w", encoding="utf-8") as file:
        file.write(text)
    run([kit_compiler.clang(), *WORDS, *words, place, "-o", made])


# ---- the C library

def copy_of_sources(top, folder):
    """What the kit reads of the repository, in a folder."""
    place = os.path.join(folder, "sources")
    for crate in os.listdir(os.path.join(top, "crates")):
        if os.path.isdir(os.path.join(top, "crates", crate, "src")):
            for part in ("src", "specs", "proofs"):
                if os.path.isdir(os.path.join(top, "crates", crate, part)):
                    shutil.copytree(os.path.join(top, "crates", crate, part),
                                    os.path.join(place, "crates", crate, part))
    for name in ("crates.txt", "HANDLES"):
        shutil.copy(os.path.join(top, name), place)
    return place


def arguments(parameters):
    """An argument for each parameter of an export, by its type."""
    types = [it.split(":", 1)[1].strip() for it in re.split(r",\s*(?![^\[]*\])", parameters.strip()) if it]
    return ", ".join("rt.alloc()" if it == "Global" else "any()" for it in types)


def exports_of(source):
    """The module, the name and the arguments of each export of a crate's files."""
    for name in sorted(os.listdir(source)):
        with open(os.path.join(source, name), encoding="utf-8") as file:
            for found in EXPORT.finditer(file.read()):
                yield name.removesuffix(".rt"), found[1], arguments(found[2])


def as_program(top):
    """Makes krb_c a program that names each of its exports."""
    source, crates = os.path.join(top, "crates", LIBRARY, "src"), os.path.join(top, "crates.txt")
    calls = "".join(f"    {module}::{name}({given});\n" for module, name, given in exports_of(source))
    with open(os.path.join(source, "lib.rt"), encoding="utf-8") as file:
        text = f"{file.read()}\n{ANY}\nfn main(rt: HostRuntime) {{\n{calls}}}\n"
    os.remove(os.path.join(source, "lib.rt"))
    with open(os.path.join(source, "main.rt"), "w", encoding="utf-8") as file:
        file.write(text)
    with open(crates, encoding="utf-8") as file:
        text = file.read().replace(f"\n{LIBRARY} staticlib:", f"\n{LIBRARY}:")
    with open(crates, "w", encoding="utf-8") as file:
        file.write(text)


def exported(text):
    """The module's text with the exports under their own names, for the linker."""
    for path, name in sorted(set(re.findall(rf'@"({LIBRARY}::\w+::(krbrelay_\w+))"', text))):
        text = re.sub(rf'(?m)^define internal (.*)@"{path}"', rf"define \1@{name}", text)
        text = text.replace(f'@"{path}"', f"@{name}")
    return text.replace("@main(", "@unproved_main(")


def library_code(top, made):
    """Compiles the code of libkrbrelay of the repository at `top` to an object."""
    with tempfile.TemporaryDirectory() as room:
        sources = copy_of_sources(top, room)
        as_program(sources)
        compile_module(exported(module_of(sources, LIBRARY, room)), room, made, "-fPIC")


def library(top, folder):
    """Builds libkrbrelay of the repository at `top` in a folder, by the tarball's Makefile."""
    with tempfile.TemporaryDirectory() as room:
        library_code(top, os.path.join(room, "code.o"))
        make_library(top, folder, os.path.join(room, "code.o"))


def make_library(top, folder, code):
    """Builds libkrbrelay of this code, an object or assembly, and the C beside it."""
    os.makedirs(folder, exist_ok=True)
    run(["make", "-s", "-f", os.path.join(top, "c", "Makefile"), f"SOURCES={top}/c", f"PROVED={code}",
         "all"], cwd=folder)


# ---- the program

def program(top, made, crate=PROGRAM, *words):
    """Builds the program of the repository at `top`, or of a crate there; with the word --test, its tests."""
    with tempfile.TemporaryDirectory() as room:
        sources = copy_of_sources(top, room)
        code = os.path.join(room, "code.o")
        compile_module(module_of(sources, crate, room, *words), room, code, "-fPIE")
        run(["cc", "-pie", code, *(os.path.join(kit(), "c", it) for it in ("libos_c.a", "liblibc_c.a")),
             "-pthread", "-o", made])
