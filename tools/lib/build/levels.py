"""Programs for the level of x86-64 that this machine has.

`rt` builds a program for x86-64-v2. Where the machine has x86-64-v3, the program is proved once more for
that level, over the same libraries, and lies beside the plain one. The prover takes what it checked before of
the same sources. So a machine that has no such level, or another one that the folder is copied to, runs the
plain program: tests and figures of costs are of that one.
"""
import os
import subprocess

from lib.build import assembly, building, kit_compiler, over_gate, proving

V3 = "x86-64-v3"
# The loader says for which levels it searches libraries.
LOADER = "/lib64/ld-linux-x86-64.so.2"


def own():
    """The level of this machine for which programs are built beside the plain ones; empty where it has none."""
    if not os.path.exists(LOADER):
        return ""
    told = subprocess.run([LOADER, "--help"], check=False, stdin=subprocess.DEVNULL, capture_output=True, text=True)
    return V3 if f"{V3} (supported" in told.stdout else ""


def program_of(crate):
    return f"{building.program_of(crate)}-{V3}"


def best_of(crate):
    """The program of a crate that is the fastest here: that of this machine's level if it was built from the
    present sources, else the plain one."""
    program = program_of(crate)
    return program if building.is_built(crate, program) and own() else building.program_of(crate)


def build(crate, level):
    """Proves and links the program of a crate for a level. It raises NotProved where it isn't."""
    program, tools = program_of(crate), kit_compiler.toolchain()
    built_from = building.digest_of(crate)
    proves = [*over_gate.words_for_program(crate, min(proving.cores(), over_gate.MOST_JOBS), tools, f"{program}.o"),
              *over_gate.words_of_kit(crate), "--cpu", level, *over_gate.taking_checked()]
    said = []
    for words in (proves, over_gate.words_to_link(program, tools)):
        done = subprocess.run(words, check=False, cwd=building.folder_of(crate), stdin=subprocess.DEVNULL,
                              stdout=subprocess.PIPE, stderr=subprocess.STDOUT, text=True, errors="replace")
        said.append(done.stdout)
        if done.returncode:
            break
    with open(proving.log_of(f"{crate}-{level}"), "w", encoding="utf-8") as log:
        log.writelines(said)
    if done.returncode or not assembly.is_proved_for(level, said[0]):
        raise proving.NotProved(f"{crate}-{level}")
    os.remove(f"{program}.o")
    building.note(program, built_from)


def ensure(crate):
    """Proves and builds a program, and the one of this machine's level beside it, unless they are built. Returns
    the exit status."""
    status, level = proving.ensure(crate), own()
    if status or not level or building.is_built(crate, program_of(crate)):
        return status
    os.makedirs(proving.LOGS, exist_ok=True)
    proving.say(f"{crate} is being proved for {level}, over the same libraries")
    try:
        build(crate, level)
        return 0
    except proving.NotProved as fault:
        return proving.fail(str(fault))
