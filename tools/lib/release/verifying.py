"""Checks a release's folder: by the hashes that it states, and with the kit by making it again."""
import filecmp
import json
import os
import re
import shutil
import subprocess
import tempfile

from lib import scripts
from lib.build import assembly, building, ci
from lib.release import attested, making, places, statement
from lib.release.places import SUMS, Odd, files_of, name_of
from lib.release.statement import PROVED, bytes_of, sha256

SUM = re.compile(r"([0-9a-f]{64})  (\S+)")
LOG = os.path.join(building.TOP, "out", "release", "rt_ci.log")
# Where a package of another language has the proved code, and which of the tarball's it is.
CODE_OF = {"rust": re.compile(r"vendor/(krbrelay-\w+\.s)"), "go": re.compile(r"library_(amd64|arm64)\.s")}
MACHINES = {"amd64": "krbrelay-x86_64.s", "arm64": "krbrelay-aarch64.s"}
BEFORE_CODE = re.compile(rb"(//go:build [\w !&|]+\n\n)?")     # what Go's has before it
NO_BYTES = (".buildinfo",)     # it tells the time of the build


# ---- what a statement is

def is_text(pattern=r".+"):
    return lambda it: isinstance(it, str) and bool(re.fullmatch(pattern, it, re.S))


def is_list(of):
    return lambda it: isinstance(it, list) and all(map(of, it))


def is_map(of, least=1):
    return lambda it: isinstance(it, dict) and len(it) >= least and all(map(of, it.values()))


def is_row(**fields):
    return lambda it: isinstance(it, dict) and it.keys() == fields.keys() and all(of(it[name]) for name, of in fields.items())


def is_count(it):
    return type(it) is int and it >= 0


DIGEST, CLAIM = is_text(r"[0-9a-f]{64}"), is_text(r"[0-9a-f]{32}( [0-9a-f]{32})+")
SHAPE = {
    "form": lambda it: it == statement.FORM, "version": is_text(places.VERSION.pattern), "commit": is_text(r"[0-9a-f]{40}"),
    "committed_at": is_count, "kit": is_text(), "kit_files": is_map(DIGEST), "made_by": is_map(is_text()),
    "artefacts": is_map(is_row(sha256=DIGEST, bytes=is_count)), "contents": is_map(is_map(DIGEST)),
    "proved_code": is_map(DIGEST), "sources": is_map(DIGEST),
    "crates": is_map(is_row(functions=is_count, may_wait=is_count, stands_on=is_list(is_text()), clauses=is_map(CLAIM, 0))),
    **{name: (lambda it: isinstance(it, list) and len(it) > 0 and all(map(is_text(), it))) for name in statement.LISTS}}


def once(pairs):
    """An object of JSON whose keys come once each."""
    found = dict(pairs)
    if len(found) != len(pairs):
        raise ValueError("a key comes twice")
    return found


def the_statement(folder):
    """The statement of a folder and its name, or a fault."""
    names = [it for it in files_of(folder) if it.endswith(".proof.json")]
    if len(names) != 1:
        return None, None, [f"there are {len(names)} statements, and one is needed"]
    try:
        told = json.loads(bytes_of(folder, names[0]), object_pairs_hook=once)
    except (ValueError, RecursionError) as fault:
        return None, None, [f"{names[0]}: {fault}"]
    if not isinstance(told, dict) or told.get("form") != statement.FORM or SHAPE.keys() != told.keys():
        return None, None, [f"{names[0]} isn't a statement of form {statement.FORM}"]
    wrong = [f"{names[0]}: {key} isn't what it has to be" for key, fits in SHAPE.items() if not fits(told[key])]
    if not wrong and names[0] != name_of(told["version"]):
        wrong = [f"{names[0]} is of version {told['version']}"]
    return told, names[0], wrong


# ---- by hashes

def differing(wanted, found):
    """What is lacking, is there beside, or has other bytes than is stated."""
    for path in sorted({*wanted, *found}):
        if path not in found:
            yield f"{path} is missing"
        elif path not in wanted:
            yield f"{path} is stated nowhere"
        elif wanted[path] != found[path]:
            yield f"{path} has other bytes than is stated"


def hashes(folder, left_out=()):
    return {path: sha256(bytes_of(folder, path)) for path in files_of(folder) if path not in left_out}


def sums_of(folder):
    """The hashes that SHA256SUMS states, or a fault."""
    lines = bytes_of(folder, SUMS).decode(errors="replace").split("\n")
    rows = [SUM.fullmatch(line) for line in lines[:-1]]
    if not rows or None in rows or lines[-1]:
        return None, [f"{SUMS}: a line isn't a hash and a path"]
    found = {row[2]: row[1] for row in rows}
    return found, [] if len(found) == len(rows) else [f"{SUMS}: a path comes twice"]


def of_artefacts(folder, told, name):
    """The artefacts by hash and size, the forms of the statement, and what is inside."""
    of_statement = attested.forms(told)
    beside = (SUMS, name, *of_statement, places.signature_of(told["version"]))
    stated = {path: (it["sha256"], it["bytes"]) for path, it in told["artefacts"].items()}
    found = {path: (sha256(bytes_of(folder, path)), os.path.getsize(os.path.join(folder, path)))
             for path in files_of(folder) if path not in beside}
    yield from (f"{name}: {it}" for it in differing(stated, found))
    for path, data in of_statement.items():
        if not os.path.exists(os.path.join(folder, path)) or bytes_of(folder, path) != data:
            yield f"{path} isn't made of the statement"
    try:
        inside = places.contents(folder)
    except Odd as fault:
        yield str(fault)
        return
    for path in sorted({*told["contents"], *inside}):
        yield from (f"{path}: {it}" for it in differing(told["contents"].get(path, {}), inside.get(path, {})))


def inside_tarball(inside, told):
    """Whether the tarball has the stated sources and proved code, and the stated crates and clauses are theirs."""
    hashed = {place: sha256(data) for place, data in inside.items()}
    of_sources = {place.removeprefix(PROVED): it for place, it in hashed.items() if place.startswith(PROVED)}
    code = {place: it for place, it in hashed.items() if place.endswith(".s")}
    path = f"krbrelay-{told['version']}.tar.gz"
    for wanted, found in ((told["sources"], of_sources), (told["proved_code"], code)):
        yield from (f"{path}: {it}" for it in differing(wanted, found))
    crates = building.table_of(inside.get(PROVED + "crates.txt", b"").decode(errors="replace"))
    if {name: it["stands_on"] for name, it in told["crates"].items()} != {name: deps for name, (_, deps) in crates.items()}:
        yield f"{path}: crates.txt in it has other crates than are stated, or they stand on others"
    for crate, row in told["crates"].items():
        text = b"".join(data for place, data in inside.items() if place.startswith(f"{PROVED}{crate}/src/"))
        words = set(re.findall(r"\w+", text.decode(errors="replace")))
        yield from (f"{path}: {crate} has no clause {it}" for it in row["clauses"] if it.split(".")[-1] not in words)


def unlike_tarball(folder, inside):
    """Packages of other languages whose proved code isn't the tarball's, and a source package that isn't it."""
    for path in files_of(folder):
        pattern = CODE_OF.get(path.split("/")[0])
        code = {} if pattern is None else {
            place: (data, pattern.fullmatch(place)[1]) for place, data in places.of_tar(bytes_of(folder, path)).items()
            if pattern.fullmatch(place)}
        if pattern and len(code) < len(MACHINES):
            yield f"{path} has no proved code"
        for place, (data, name) in code.items():
            wanted = inside.get(MACHINES.get(name, name), b"\0")
            if not data.endswith(wanted) or not BEFORE_CODE.fullmatch(data.removesuffix(wanted)):
                yield f"{path}: {place} isn't the proved code of the tarball"


def other_packages(folder, told):
    """Debian's packages that aren't what their names say, and wheels without the library."""
    tarball = f"krbrelay-{told['version']}.tar.gz"
    for path in files_of(folder):
        if path.endswith(".deb") and not places.is_named_so(path, bytes_of(folder, path)):
            yield f"{path} is another package than its name says"
        if path.endswith(".orig.tar.gz") and bytes_of(folder, path) != bytes_of(folder, tarball):
            yield f"{path} isn't {tarball}"
        if path.endswith(".whl"):
            yield from (f"{path} has no {it}" for it in lacking(places.of_zip(bytes_of(folder, path))))


def lacking(wheel):
    """What a wheel hasn't that it has to have."""
    if "krbrelay/libkrbrelay.so.1" not in wheel:
        yield "library that is whole"
    if not any(".dist-info/licences/" in it for it in wheel):
        yield "notices of what is inside of its library"


def of_commit(told):
    """Where this is a checkout with git: whether it has the commit, with the sources that are stated."""
    def git(*words):
        return subprocess.run(["git", "-C", building.TOP, *words], check=False, stdin=subprocess.DEVNULL,
                              stdout=subprocess.PIPE, stderr=subprocess.DEVNULL)
    if shutil.which("git") is None or git("rev-parse", "HEAD").returncode:
        return []
    found = git("show", f"{told['commit']}:crates.txt")
    if found.returncode:
        return [f"the commit {told['commit']} isn't in this checkout"]
    return [] if sha256(found.stdout) == told["sources"].get("crates.txt") else [
        f"the commit {told['commit']} has another crates.txt than is stated"]


def by_hashes(folder, signers=None):
    """The faults of a folder, each a line."""
    try:
        return faults_of(folder, signers)
    except Odd as fault:
        return [str(fault)]


def faults_of(folder, signers):
    if SUMS not in files_of(folder):
        return [f"there is no {SUMS} in {folder}"]
    sums, faults = sums_of(folder)
    if faults:
        return faults
    told, name, wrong = the_statement(folder)
    signature = () if wrong else (places.signature_of(told["version"]),)
    faults = list(differing(sums, hashes(folder, (SUMS, *signature)))) + wrong
    if wrong:
        return faults
    faults += [*places.misnamed(folder, told["version"]), *of_artefacts(folder, told, name), *of_commit(told)]
    tarball = f"krbrelay-{told['version']}.tar.gz"
    if not faults:
        inside = places.of_tar(bytes_of(folder, tarball), tarball.removesuffix(".tar.gz"))
        faults += [*inside_tarball(inside, told), *unlike_tarball(folder, inside), *other_packages(folder, told)]
    unsigned = attested.unsigned(folder, told["version"], signers) if signers else None
    return list(dict.fromkeys(faults + ([unsigned] if unsigned else [])))


# ---- with the kit

def of_checkout(told):
    """What this checkout has otherwise than the statement says."""
    wanted, found = told["sources"], {}
    for path in wanted:
        place = os.path.join(building.TOP, path if path == "crates.txt" else os.path.join("crates", path))
        if os.path.exists(place):
            found[path] = sha256(bytes_of(place))
    yield from (f"the checkout: {it}" for it in differing(wanted, found))
    if statement.kit() != told["kit"]:
        yield f"the kit is {statement.kit()}, and the statement names {told['kit']}"
    if statement.commit() != told["commit"]:
        yield f"the checkout is of {statement.commit()}, and the statement names {told['commit']}"


def proved_here():
    """The verdict of each crate, and a fault for each that isn't proved."""
    found = {crate: ci.verdict_of(crate) or ci.prove_alone(crate) for crate in building.table()}
    return found, [f"{crate} isn't proved" for crate, it in found.items() if it is None]


def unlike(told, again, at=""):
    """Where two statements differ."""
    if isinstance(told, dict) and isinstance(again, dict):
        for key in sorted({*told, *again}):
            yield from unlike(told.get(key), again.get(key), f"{at}.{key}" if at else key)
    elif told != again and not any(it in at for it in NO_BYTES):
        yield f"the statement's {at} is {str(told)[:80]}, and comes out as {str(again)[:80]}"


def made_again(folder, told, verdicts):
    """What comes out otherwise when all is made again, with assembly that the kit writes anew: a file, or an entry of
    the statement."""
    shutil.rmtree(scripts.load("c/dist").OUT, ignore_errors=True)
    for crate in assembly.ARCHITECTURES:
        assembly.forget(crate)
    with tempfile.TemporaryDirectory() as room:
        place = os.path.join(room, "again")
        making.make(place)
        again = statement.of(place, verdicts)
        beside = {SUMS, name_of(told["version"]), *attested.forms(told), places.signature_of(told["version"])}
        there = {*files_of(folder)} - beside
        yield from (f"{path} isn't made" for path in sorted(there - {*files_of(place)}))
        for path in files_of(place):
            if path not in there:
                yield f"{path} is made, and is missing"
            elif not path.endswith(NO_BYTES) and not filecmp.cmp(os.path.join(folder, path), os.path.join(place, path), False):
                yield f"{path} comes out with other bytes"
    yield from unlike(told, json.loads(attested.written(again)))


def with_kit(folder, anew):
    """The faults that are found by proving and making all again; `anew` takes no proof that the kit kept."""
    told, _, faults = the_statement(folder)
    faults = faults or list(of_checkout(told))
    if faults:
        return faults
    if not ci.run(LOG, *(["--anew"] if anew else [])):
        return [f"the checkout isn't proved: the prover's output is {LOG}"]
    verdicts, faults = proved_here()
    return faults or list(made_again(folder, told, verdicts))
