"""The checks that see planted faults: each runs parts of tools/test, or cases, over a copy of the repository. A check
answers whether the tests passed, and what they said. Crates are built without their proofs, but for the
check `prover`."""
import os
import re
from collections.abc import Callable

from lib import bindings
from lib.build.without_proofs import NotCompiled
from lib.faults.copies import Copy

Told = tuple[bool, str]
WRAPS = ["-Wl,--wrap=malloc", "-Wl,--wrap=realloc", "-Wl,--wrap=free"]
LINKED = {"calls": ["-Wl,--wrap=clock_gettime", "-Wl,--wrap=getrandom"], "freed_memory": WRAPS[2:],
          "taking": WRAPS[:2]}
OF_A_TEST = 60      # seconds, as `rt ci` gives each test of a crate
OF_32_BITS = ["-m32", "-ffreestanding", "-nostdlib", "-static", "-fno-pic", "-no-pie", "-fno-stack-protector"]


# ---- the C library

def c_program(copy: Copy, name: str, *words: str) -> Told:
    source = f"{copy.top}/c/tests/{name}.c"
    return copy.run([copy.compiled(name, [source], *LINKED.get(name, ())), *words])


def secrets_of(copy: Copy) -> list[str]:
    return [f"{copy.top}/c/tests/{it}" for it in ("key_strings", "round_keys")]


def matrix(copy: Copy, most_told: int = 1) -> Told:
    """It ends after so many wrong cases."""
    folder = f"{copy.top}/c/tests/matrix"
    program = copy.compiled("matrix", sorted(f"{folder}/{it}" for it in os.listdir(folder)
                                             if it.endswith(".c")), *WRAPS, f"-DMOST_TOLD={most_told}")
    made, said = copy.run(["python3", f"{copy.top}/c/tests/inside.py", "inside.bin"])
    if not made:
        return made, said
    return copy.run([program, f"{copy.top}/c/krbrelay.h", "inside.bin", *secrets_of(copy), "-"], most=1_000_000)


def whole_matrix(copy: Copy) -> Told:
    """A fault that leaves a block also asks for one, which other cases tell before."""
    return matrix(copy, 1_000_000)


def inline(copy: Copy) -> Told:
    """The header's inline functions, on 64 bits and on 32."""
    source, header = f"{copy.top}/c/tests/inline.c", f"-I{copy.top}/c"
    for made, words in (("inline64", ["-DHOSTED"]), ("inline32", OF_32_BITS)):
        for command in (["cc", "-std=c99", "-O2", *words, header, source, "-o", made], [f"./{made}"]):
            passed, said = copy.run(command)
            if not passed:
                return passed, said or f"{made} failed"
    return True, ""


def supported_v3(copy: Copy) -> Told:
    """Which features the object for x86-64-v3 asks for, without the proved code, which isn't called."""
    sources = [f"{copy.top}/c/{it}.c" for it in ("tests/supported", "unproved/processor")]
    made, said = copy.run(["cc", "-std=gnu11", "-O2", "-DKRBRELAY_X86_64_V3", f"-I{copy.top}/c",
                           "-ffunction-sections", "-Wl,--gc-sections", *sources, "-o", "supported_v3"])
    return copy.run(["./supported_v3"]) if made else (made, said)


def counted(told: Told, count: str = r"\d+ passed, \d+ failed") -> Told:
    """What a tool that counts found. One that ended before its count, as on a busy machine, says nothing of a fault."""
    passed, said = told
    if not passed and not re.search(f"(?m)^{count}", said):
        raise NotCompiled(f"it ended before its count: {said[-1000:]}")
    return told


def costs(copy: Copy, *calls: str) -> Told:
    """Of these calls, and of a library with a function around a call only this call."""
    of = "--of" if copy.is_of_proved_code() else "--unproved"
    return counted(copy.run(["c/costs", of, f"{copy.library}/libkrbrelay.so.1", *(calls or copy.wraps[:1])], cwd=copy.top))


# The part of c/tests/test_signatures.py that asks for no proved module.
VERSIONS = """import sys
sys.path[:0] = ["c/tests", "tools"]
from lib import report
from signatures import compared, given, header
count, of = report.Count(), given.Given({given.MODULE: 'target triple = "x86_64-unknown-linux-gnu"'}, "")
compared.compare_versions(count, of, header.read(of))
sys.exit(count.end(needs_one=True))
"""


def signatures(copy: Copy) -> Told:
    return copy.run(["python3", "-c", VERSIONS], cwd=copy.top)


def sequences(copy: Copy) -> Told:
    return copy.run(["python3", f"{copy.top}/c/tests/sequences.py", f"{copy.library}/libkrbrelay.so.1"])


def c_test(copy: Copy, name: str, *more: str) -> Told:
    if name in OF_C:
        return OF_C[name](copy, *more)
    words = {"dead_stack": secrets_of(copy), "fuzz": ["20000"], "processor": ["unsupported", "told"]}
    return c_program(copy, name, *words.get(name, ()))


OF_C = {"matrix": matrix, "whole_matrix": whole_matrix, "inline": inline, "supported_v3": supported_v3, "costs": costs,
        "signatures": signatures, "sequences": sequences}


# ---- the program

OF_PROGRAM = {"tests": ["pytest", "-q", "-x", "tests/test_program.py"],
              "failing_calls": ["tests/failing_calls", "program"], "freed_memory": ["tests/freed_memory", "--program"],
              "job_costs": ["tests/job_costs", "--check"], "costs": ["tests/program_costs", "--growth"]}


def of_program(copy: Copy, what: str, *more: str) -> Told:
    """With more words, of `costs` the names of families: all of them take a busy machine too long."""
    if not copy.program:
        return False, "there is no program"
    told = copy.run([*OF_PROGRAM[what], *more], cwd=copy.top)
    return counted(told) if what in ("costs", "job_costs") else told


# ---- the carrier

def carrier(copy: Copy, what: str) -> Told:
    """One of the units."""
    made, folder = f"{copy.place('programs')}/{what}", copy.place("stores")
    built, said = copy.run(["make", "-s", "-C", f"{copy.top}/carrier/tests", f"SOURCES={copy.top}/carrier",
                            f"OUT={os.path.dirname(made)}", f"PREFIX={copy.installed}",
                            *(f"WITH_{it}=no" for it in ("NATS", "POSTGRESQL")), made])
    if not built:
        return built, said
    os.makedirs(folder, exist_ok=True)
    return copy.run([made, f"sqlite:{folder}/{what}.db" if what in ("store_test", "carrier_test") else folder])


def carrier_case(copy: Copy, table: str, *cases: str) -> Told:
    """Cases of a table of carrier/tests, over the installed library. Where its programs aren't built, pytest counts an
    error alone."""
    words = ["pytest", "-q", "-x", "--tb=short", "--all", f"--prefix={copy.installed}"]
    told = copy.run([*words, *(f"carrier/tests/test_{table}.py::test_case[{it}]" for it in cases)], cwd=copy.top)
    return counted(told, r"\d+ (?:passed|failed)\b.* in [\d.]+s")


def carrier_pytest(copy: Copy, module: str, *words: str) -> Told:
    """Tests of the carrier's programs, over the installed library; with words, those that have them in their names."""
    chosen = ["-k", " or ".join(words)] if words else []
    return copy.run(["pytest", "-q", "-x", f"--prefix={copy.installed}", *chosen, f"carrier/tests/{module}.py"],
                    cwd=copy.top)


# ---- the packages of other languages, over the installed library

OF_PACKAGE = {"rust": ("tests/frames.txt", ["cargo", "test", "--offline", "--features", "system"]),
              "go": ("testdata/frames.txt", ["go", "test", "-race", "-count=1", "-tags=krbrelay_system", "."])}


def package(copy: Copy, room: str) -> Told:
    frames, words = OF_PACKAGE[room]
    copy.commit()
    place = f"{copy.top}/{room}/{frames}"
    os.makedirs(os.path.dirname(place), exist_ok=True)
    with open(place, "w", encoding="utf-8") as file:
        file.write(bindings.frames())
    return copy.run(words, cwd=f"{copy.top}/{room}",
                    env={**os.environ, **bindings.by_prefix(copy.installed), "KRBRELAY_TARBALL": f"{copy.top}/c"})


def python(copy: Copy, name: str) -> Told:
    """Tests of the Python package, over the library."""
    return copy.run(["python3", "-m", "unittest", "-q", name], cwd=f"{copy.top}/python/tests",
                    env={**os.environ, "KRBRELAY_LIBRARY": f"{copy.installed}/lib/libkrbrelay.so.1"})


# ---- tools, and the prover

# Whether plants apply says nothing in a copy that has one.
OF_PLANTS = "tests/test_tools.py::test_a_plant_applies_and_names_checks"


def tool(copy: Copy, what: str) -> Told:
    copy.commit()
    return copy.run({"self": ["pytest", "-q", "-x", "--deselect", OF_PLANTS, "tests/test_tools.py"],
                     "tables": ["pytest", "-q", "-x", "tests/test_tables.py"],
                     "written": ["tools/tables", "--check"],
                     "packages": ["pytest", "-q", "-x", "carrier/tests/test_packages.py"],
                     "verdicts": ["pytest", "-q", "-x", "-k", "verdict", "tests/test_release.py"],
                     "release": ["pytest", "-q", "-x", "tests/test_release.py"],
                     "claims": ["tools/reference", "--check"],
                     "install": ["pytest", "-q", "-x", "--quick", "-k", "object or everybody or counted or processor or loader", "tests/test_install.py"],
                     "test_building": ["pytest", "-q", "-x", "tests/test_building.py"],
                     "test_parts": ["pytest", "-q", "-x", "tests/test_parts.py"],
                     "conformance": ["pytest", "-q", "-x", "--quick", "conformance"]}[what], cwd=copy.top)


def crate(copy: Copy, name: str) -> Told:
    """The tests of a crate, without proofs. Each has the time that it has in the gate."""
    program = copy.tests(name)
    listed, said = copy.run([program, "--list"], most=1_000_000)
    names = [line.removesuffix(": test") for line in said.splitlines() if line.endswith(": test")]
    for test in names:
        passed, said = copy.run([program, test], seconds=OF_A_TEST)
        if not passed:
            return False, f"FAILED {test}: {said}"
    return listed and bool(names), said


def failing_calls(copy: Copy, name: str) -> Told:
    """The tests of a crate in which each allocation fails in turn."""
    return copy.run(["tests/failing_calls", name], cwd=copy.top) if copy.tests(name) else (False, "no tests")


def goals_of(said: str, crate: str, function: str) -> str:
    """The goals of a function for which the prover found no proof, or takes the answer no more that is
    written for it, as it names them: in the function's line, in those of its answers, or in notes above its line."""
    own = rf"^fn {crate}::(?:\w+::)*?{function}: (?:no proof: .* did not prove (.*)|not proved.*)$"
    found = re.search(own, said, re.M)
    if not found or found[1]:
        return found[1].strip() if found else ""
    place = function.replace("::", "/")
    wrong = re.findall(rf"^\./proofs/(?:\w+/)*{place}/\w+\.antt:[\d:]+ error: (`[\w+-]+`)", said, re.M)
    above = re.split(r"^(?:fn|struct|enum|impl|const|trait) .*$", said[:found.start()], flags=re.M)[-1]
    return ", ".join(dict.fromkeys(wrong + re.findall(r"^note: src/.*? is not proved .*?\((`[\w+-]+`)\)", above, re.M)))


def prover(copy: Copy, name: str, function: str) -> Told:
    """Whether the prover takes a crate, of which this function is changed. What it has kept of the crates
    below is not proved again. The crate is laid out before, since `rt ci` refuses another layout too: it
    is a goal of the function at which it has to refuse."""
    copy.commit()
    copy.run(["rt", "fmt"], cwd=f"{copy.top}/crates/{name}")
    proved, said = copy.run(["rt", "ci", name], cwd=copy.top, most=1_000_000)
    goals = goals_of(said, name, function)
    if not proved and not goals:
        raise NotCompiled(f"rt ci {name} doesn't refuse {function} at a goal: {said[-2000:]}")
    return proved, f"error: {function}: {goals}"


CHECKS: dict[str, Callable[..., Told]] = {"c": c_test, "program": of_program, "carrier": carrier,
                                          "case": carrier_case, "pytest": carrier_pytest,
                                          "package": package, "python": python, "tools": tool, "crate": crate,
                                          "failing_calls": failing_calls, "prover": prover}


def run(copy: Copy, check: str) -> Told:
    kind, *words = check.split()
    return CHECKS[kind](copy, *words)


def last_words(said: str, says: str = "") -> str:
    """The first line that tells a fault, and what it has to, or the last line."""
    lines = [it.strip() for it in said.splitlines() if it.strip() and not it.startswith("time=")]
    told = [it for it in lines if re.search(says or r"not so|FAILED|wrong|error|differs", it)]
    return (told or lines or [""])[0][:150]
