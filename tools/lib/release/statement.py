"""The statement of what was proved, which a release's folder has: krbrelay-VERSION.proof.json.

It names the commit, the kit and the compilers, each artefact by its hash and each file inside of one, each file
that the proofs are of, each crate with what the prover said of it, and each clause of its public items by the hash
of its text and that of the definitions which it reaches.
"""
import hashlib
import os
import re
import shutil
import subprocess

from lib import scripts
from lib.build import building, ci, kit_compiler
from lib.reference import claims, pages, sources
from lib.release import attested, places
from lib.release.places import SUMS, files_of, name_of

FORM = 3
LISTS = {"assumed": ("docs/PROVED.md", "## What is assumed\n"),     # the premises of the headline
         "only_tested": ("docs/PROVED.md", "## What is only tested\n"),
         "trusted": ("docs/PROVED.md", "## What is trusted\n")}
PROVED = "proved/"          # where the tarball has the sources, definitions and proofs
COMPILERS = {"gcc": "gcc", "gcc of aarch64": "aarch64-linux-gnu-gcc", "binutils": "ld", "rustc": "rustc", "go": "go"}
PACKAGERS = ("debhelper", "dpkg-dev")


def sha256(data):
    return hashlib.sha256(data).hexdigest()


def bytes_of(*path):
    with open(os.path.join(*path), "rb") as file:
        return file.read()


def commit():
    """The commit of the checkout, and a word if a file of it has changed since."""
    def git(*words):
        return subprocess.run(["git", "-C", building.TOP, *words], check=True, stdout=subprocess.PIPE,
                              text=True).stdout.strip()
    return git("rev-parse", "HEAD") + (" and changes" if git("status", "--porcelain") else "")


def kit():
    return subprocess.run(["rt", "version"], check=True, stdin=subprocess.DEVNULL, stdout=subprocess.PIPE,
                          text=True).stdout.strip()


def kit_files():
    """The digests of the kit's prover and its compilers."""
    found = {"rattle": building.prover(), "rt": shutil.which("rt"), "clang": kit_compiler.clang()}
    return {name: sha256(bytes_of(os.path.realpath(path))) for name, path in found.items()}


def first_line(*words):
    """What a command says of itself, or that there is none."""
    if shutil.which(words[0]) is None:
        return "none"
    done = subprocess.run(words, check=False, stdin=subprocess.DEVNULL, stdout=subprocess.PIPE, text=True)
    return done.stdout.partition("\n")[0].strip() or "none"


def made_by():
    """The versions of what makes the artefacts: with others their bytes may differ."""
    found = {name: first_line(command, "version" if name == "go" else "--version") for name, command in COMPILERS.items()}
    return found | {name: first_line("dpkg-query", "-W", "-f", "${Version}\n", name) for name in PACKAGERS}


# ---- what is proved

def of_tarball(path):
    """The bytes of each file of a tarball, by its path below the tarball's folder."""
    return places.of_tar(bytes_of(path))


def clauses():
    """The clauses and signatures of each crate's public items, with the digest of the text of each and that of all
    definitions which it reaches, as docs/reference/claims.txt has them."""
    project, found = sources.read_project(), {}
    for row, digests in claims.rows(project, pages.pages_of(project)[2:]).items():
        if row[0] == "claim":
            found.setdefault(row[1], {})[claims.key_of(row)] = " ".join(digests)
    return found


def crates(verdicts):
    """Each crate, with what the prover said of it and the clauses of its public items."""
    named = clauses()
    return {crate: {"functions": verdicts[crate].functions, "may_wait": verdicts[crate].may_wait,
                    "stands_on": words, "clauses": named.get(crate, {})}
            for crate, (_, words) in building.table().items()}


def entries(page, heading):
    """The list under a heading of a page, an entry a line of it."""
    text = building.text_of(page).partition(heading)[2].partition("\n## ")[0]
    plain = re.sub(r"\[([^\]]*)\]\([^)]*\)", r"\1", text).replace("`", "")
    return [" ".join(it.partition("\n\n")[0].split()) for it in re.split(r"(?m)^- ", plain)[1:]]


def verdicts():
    """The verdict of each crate. Returns them, and the crates of which none is noted."""
    found = {crate: ci.verdict_of(crate) for crate in building.table()}
    return found, sorted(crate for crate, it in found.items() if it is None)


def of(folder, known):
    """The statement on the artefacts of a folder."""
    dist = scripts.load("c/dist")
    inside = of_tarball(os.path.join(folder, f"{dist.name()}.tar.gz"))
    return {
        "form": FORM,
        "version": dist.version(),
        "commit": commit(),
        "committed_at": dist.committed_at(),
        "kit": kit(),
        "kit_files": kit_files(),
        "made_by": made_by(),
        "artefacts": {path: {"sha256": sha256(bytes_of(folder, path)),
                             "bytes": os.path.getsize(os.path.join(folder, path))} for path in files_of(folder)},
        "contents": places.contents(folder),
        "proved_code": {place: sha256(data) for place, data in inside.items() if place.endswith(".s")},
        "sources": {place.removeprefix(PROVED): sha256(data) for place, data in inside.items()
                    if place.startswith(PROVED)},
        "crates": crates(known),
        **{name: entries(*where) for name, where in LISTS.items()},
    }


def write(folder, known):
    """Writes the statement, its other forms and the checksums of all files into the folder."""
    told = of(folder, known)
    for name, data in {name_of(told["version"]): attested.written(told), **attested.forms(told)}.items():
        with open(os.path.join(folder, name), "wb") as file:
            file.write(data)
    sums = "".join(f"{sha256(bytes_of(folder, it))}  {it}\n" for it in files_of(folder))
    with open(os.path.join(folder, SUMS), "w", encoding="utf-8") as file:
        file.write(sums)
