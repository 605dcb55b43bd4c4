"""tools/release --verify reports each change to a release's folder: over a small folder of this form, of which
nothing was built. What the prover says is read from what `rt ci` prints."""
import hashlib
import io
import json
import lzma
import os
import shutil
import subprocess
import tarfile
import zipfile

import pytest

from lib import bindings, pages_inside, scripts
from lib.build import building, ci, over_gate
from lib.reference import claims
from lib.release import attested, places, statement, verifying

dist = scripts.load("c/dist")
CODE = {"x86_64": b"# code of x86-64\n" * 9, "aarch64": b"// code of aarch64\n" * 9}
CRATE = "krb_base"
SOURCES = {f"proved/{CRATE}/src/lib.rt": os.path.join(building.folder_of(CRATE), "src", "lib.rt"),
           "proved/crates.txt": os.path.join(building.TOP, "crates.txt")}
TARBALL = f"{dist.name()}.tar.gz"
STATEMENT = statement.name_of(dist.version())
NAME, VERSION = dist.name(), dist.version()
PACKED = (TARBALL, f"rust/{NAME}.crate", f"go/krbrelay-go-{VERSION}.tar.gz")
WHEELS = [f"python/{NAME}-py3-none-manylinux_2_25_{machine}.whl" for machine in places.MACHINES]
WHEEL, ORIG = WHEELS[0], f"debian/krbrelay_{VERSION}.orig.tar.gz"
DEBS = [f"debian/{name}_{VERSION}-1_{machine}.deb" for name, machine in (
    ("krbrelay", "amd64"), ("krbrelay-carrier", "amd64"), ("libkrbrelay1", "amd64"), ("libkrbrelay-dev", "amd64"),
    ("krbrelay-preload", "amd64"), ("python3-krbrelay", "all"))]
PLAIN = ("README.md", f"{NAME}-vectors.json.gz", f"{NAME}-vectors.schema.json", f"{NAME}-vectors.README.md",
         *(f"debian/krbrelay_{VERSION}-1{end}" for end in (".dsc", ".debian.tar.xz", "_amd64.buildinfo")))
OTHERS = (f"python/{NAME}.tar.gz",)
FORMS = (f"{NAME}.intoto.json", f"{NAME}.spdx.json")
NOTICES = {f"{NAME}.dist-info/licences/sha1": b"its licence"}
MOST = 10       # lines of faults that a test shows


# ---- a folder

def pack(path, files, links=()):
    """Writes a tarball of files, and of links at its end: a name, the kind, and what it leads to."""
    os.makedirs(os.path.dirname(path), exist_ok=True)
    with tarfile.open(path, "w:gz") as tar:
        for place, data in files.items():
            info = tarfile.TarInfo(f"{NAME}/{place}")
            info.size = len(data)
            tar.addfile(info, io.BytesIO(data))
        for place, kind, leads_to in links:
            info = tarfile.TarInfo(f"{NAME}/{place}")
            info.type, info.linkname = kind, leads_to
            tar.addfile(info)


def deb(path):
    """A package of Debian that is what its file's name says, and has nothing inside."""
    package, version, machine = os.path.basename(path).removesuffix(".deb").split("_")
    text, packed = f"Package: {package}\nVersion: {version}\nArchitecture: {machine}\n".encode(), io.BytesIO()
    with tarfile.open(fileobj=packed, mode="w") as tar:
        info = tarfile.TarInfo("./control")
        info.size = len(text)
        tar.addfile(info, io.BytesIO(text))
    made = b"!<arch>\n"
    for name, data in (("debian-binary", b"2.0\n"), ("control.tar.xz", lzma.compress(packed.getvalue())), ("data.tar.xz", b"")):
        made += f"{name:16}{0:<12}{0:<6}{0:<6}{100644:<8}{len(data):<10}`\n".encode() + data + b"\n" * (len(data) % 2)
    return made


def pack_wheel(path, files):
    with zipfile.ZipFile(path, "w") as wheel:
        for place, data in files.items():
            wheel.writestr(place, data)


def put(folder, path, data):
    os.makedirs(os.path.dirname(os.path.join(folder, path)), exist_ok=True)
    with open(os.path.join(folder, path), "wb") as file:
        file.write(data)


CLAIM = f"{0x2b:032x} {0x2c:032x}"
CLAUSES = {"krb_peers": ["frames_laws.headline"], CRATE: ["lane.none", "lane.all"]}
VERDICTS = {crate: ci.Verdict(7, 1) for crate in building.table()}
HEAD = subprocess.run(["git", "-C", building.TOP, "rev-parse", "HEAD"], check=True, stdout=subprocess.PIPE,
                      text=True).stdout.strip()


def of_tarball():
    found = {f"krbrelay-{name}.s": code for name, code in CODE.items()} | {"heap.c": b"/* heap */", "Makefile": b"all:"}
    found |= {f"proved/{crate}/src/all.rt": b" ".join(sorted(it.encode() for it in words)) for crate, words in CLAUSES.items()}
    return found | {place: statement.bytes_of(path) for place, path in SOURCES.items()}


def of_rust():
    return {f"vendor/krbrelay-{name}.s": code for name, code in CODE.items()} | {"build.rs": b"fn main() {}"}


def of_go():
    return {"library_amd64.s": b"//go:build it\n\n" + CODE["x86_64"], "library_arm64.s": b"//go:build it\n\n" + CODE["aarch64"]}


@pytest.fixture(scope="module")
def made(tmp_path_factory):
    folder = str(tmp_path_factory.mktemp("release"))
    pack(os.path.join(folder, TARBALL), of_tarball())
    pack(os.path.join(folder, PACKED[1]), of_rust())
    pack(os.path.join(folder, PACKED[2]), of_go())
    for path in PLAIN:
        put(folder, path, path.encode() * 50)
    for path in OTHERS:
        pack(os.path.join(folder, path), {"README.md": path.encode()})
    for path in DEBS:
        put(folder, path, deb(path))
    shutil.copyfile(os.path.join(folder, TARBALL), os.path.join(folder, ORIG))
    for path in WHEELS:
        pack_wheel(os.path.join(folder, path), {"krbrelay/libkrbrelay.so.1": b"library" * 30} | NOTICES)
    with pytest.MonkeyPatch.context() as patch:
        of_this_machine(patch)
        statement.write(folder, VERDICTS)
    return folder


def of_this_machine(patch):
    """What a machine with the kit and all compilers says."""
    patch.setattr(statement, "kit", lambda: "kit-of-the-test")
    patch.setattr(statement, "kit_files", lambda: {"rattle": "ab" * 32})
    patch.setattr(statement, "commit", lambda: HEAD)
    patch.setattr(statement, "clauses", lambda: {crate: {it: CLAIM for it in words}
                                                 for crate, words in CLAUSES.items()})


@pytest.fixture
def folder(made, tmp_path):
    """A copy of it, to be changed."""
    return shutil.copytree(made, tmp_path / "release")


def summed(folder):
    """Writes SHA256SUMS as the folder is now."""
    paths = [it for it in statement.files_of(folder) if it not in (statement.SUMS, places.signature_of(VERSION))]
    put(folder, statement.SUMS, "".join(f"{statement.sha256(statement.bytes_of(folder, it))}  {it}\n" for it in paths).encode())


def stated(folder, with_contents=True):
    """Has the statement name the artefacts and their contents as they are now, its forms follow, and SHA256SUMS name
    all files: as whoever passes on a changed folder would."""
    told = json.loads(statement.bytes_of(folder, STATEMENT))
    beside = (STATEMENT, *FORMS, statement.SUMS, places.signature_of(VERSION))
    told["artefacts"] = {path: {"sha256": statement.sha256(statement.bytes_of(folder, path)),
                                "bytes": os.path.getsize(os.path.join(folder, path))}
                         for path in statement.files_of(folder) if path not in beside}
    if with_contents:
        told["contents"] = places.contents(folder)
    restated(folder, told)


def restated(folder, told):
    """Writes another statement, its forms and SHA256SUMS."""
    put(folder, STATEMENT, json.dumps(told).encode())
    for path, data in attested.forms(told).items():
        put(folder, path, data)
    summed(folder)


def flip(folder, path, place):
    data = bytearray(statement.bytes_of(folder, path))
    data[place % len(data)] ^= 1
    put(folder, path, bytes(data))


# ---- by hashes

def test_a_folder_as_it_was_made(made):
    assert verifying.by_hashes(made) == []
    assert len(statement.files_of(made)) == len(places.patterns(VERSION))


@pytest.mark.parametrize("path", [*PACKED, *PLAIN, WHEEL, DEBS[0], ORIG, *FORMS, STATEMENT])
@pytest.mark.parametrize("place", [0, 10, 101, -1])
def test_one_flipped_bit_of_a_file(folder, path, place):
    flip(folder, path, place)
    assert any(path in it for it in verifying.by_hashes(folder))


def test_one_flipped_bit_of_the_sums(folder):
    for place in range(0, os.path.getsize(os.path.join(folder, statement.SUMS)), 7):
        flip(folder, statement.SUMS, place)
        assert verifying.by_hashes(folder), place
        flip(folder, statement.SUMS, place)
    assert verifying.by_hashes(folder) == []


@pytest.mark.parametrize("path", [*PACKED, *PLAIN, WHEEL])
def test_sums_that_follow_a_change(folder, path):
    """The statement names the artefact's hash as well, and what is inside has to be whole."""
    flip(folder, path, 20)
    summed(folder)
    faults = verifying.by_hashes(folder)
    assert f"{STATEMENT}: {path} has other bytes than is stated" in faults or faults[0].startswith(f"{path}: ")


@pytest.mark.parametrize("place", [*SOURCES, "krbrelay-x86_64.s", "krbrelay-aarch64.s"])
def test_a_source_in_the_tarball(folder, place):
    """One bit of a source or of the proved code differs, and all hashes of files follow."""
    files = of_tarball()
    files[place] = bytes([files[place][0] ^ 1]) + files[place][1:]
    pack(os.path.join(folder, TARBALL), files)
    stated(folder)
    assert any(place.removeprefix("proved/") in it and "other bytes" in it for it in verifying.by_hashes(folder))


@pytest.mark.parametrize("files, lacks", [({}, True), ({"proved/krb_more/src/lib.rt": b"more"}, False)])
def test_a_source_less_or_more(folder, files, lacks):
    of_all = of_tarball()
    if lacks:
        del of_all[f"proved/{CRATE}/src/lib.rt"]
    pack(os.path.join(folder, TARBALL), of_all | files)
    stated(folder)
    assert any("missing" in it if lacks else "stated nowhere" in it for it in verifying.by_hashes(folder))


@pytest.mark.parametrize("path, files, place", [
    (PACKED[1], of_rust, "vendor/krbrelay-x86_64.s"), (PACKED[1], of_rust, "vendor/krbrelay-aarch64.s"),
    (PACKED[2], of_go, "library_amd64.s"), (PACKED[2], of_go, "library_arm64.s")])
def test_other_code_in_a_package(folder, path, files, place):
    changed = files()
    changed[place] = changed[place][:-1] + b"!"
    pack(os.path.join(folder, path), changed)
    stated(folder)
    assert f"{path}: {place} isn't the proved code of the tarball" in verifying.by_hashes(folder)


def test_a_package_without_code(folder):
    pack(os.path.join(folder, PACKED[1]), {"README.md": b"none"})
    stated(folder)
    assert verifying.by_hashes(folder) == [f"{PACKED[1]} has no proved code"]


def test_a_wheel_without_the_library_or_its_notices(folder):
    for files, lacks in ((NOTICES, "library that is whole"),
                         ({"krbrelay/libkrbrelay.so.1": b""}, "notices of what is inside of its library")):
        pack_wheel(os.path.join(folder, WHEEL), files)
        stated(folder)
        assert verifying.by_hashes(folder) == [f"{WHEEL} has no {lacks}"]


def test_a_file_less_and_a_file_more(folder):
    os.remove(os.path.join(folder, "README.md"))
    put(folder, "debian/another.deb", b"another")
    faults = verifying.by_hashes(folder)
    assert "README.md is missing" in faults and "debian/another.deb is stated nowhere" in faults


@pytest.mark.parametrize("lost", sorted(verifying.SHAPE))
def test_a_statement_that_lacks_a_part(folder, lost):
    told = json.loads(statement.bytes_of(folder, STATEMENT))
    del told[lost]
    put(folder, STATEMENT, json.dumps(told).encode())
    summed(folder)
    assert verifying.by_hashes(folder) == [f"{STATEMENT} isn't a statement of form {statement.FORM}"]
    for wrong in (None, [], {}, "", -1, {"a": None}, [None]):
        put(folder, STATEMENT, json.dumps(told | {lost: wrong}).encode())
        summed(folder)
        assert any(STATEMENT in it for it in verifying.by_hashes(folder)), wrong


def test_a_folder_without_sums_or_statement(folder):
    os.remove(os.path.join(folder, STATEMENT))
    summed(folder)
    assert verifying.by_hashes(folder) == ["there are 0 statements, and one is needed"]
    os.remove(os.path.join(folder, statement.SUMS))
    assert verifying.by_hashes(folder) == [f"there is no {statement.SUMS} in {folder}"]


def test_the_command_counts_it(folder, capsys):
    tool = scripts.load("release")
    assert tool.main(["--verify", str(folder)]) == 0
    flip(folder, "README.md", 3)
    assert tool.main(["--verify", str(folder)]) == 1
    assert capsys.readouterr().out.splitlines()[-1] == "0 passed, 1 failed"


def swap(folder, one, other):
    first, second = statement.bytes_of(folder, one), statement.bytes_of(folder, other)
    put(folder, one, second)
    put(folder, other, first)


def linked(folder, path, tmp_path):
    """A file or a folder stands elsewhere, and a symbolic link leads to it."""
    shutil.move(os.path.join(folder, path), tmp_path / "elsewhere")
    os.symlink(tmp_path / "elsewhere", os.path.join(folder, path))


def lost(folder, *paths):
    for path in paths:
        os.remove(os.path.join(folder, path))
    stated(folder)


def repacked(folder, path, files, links=(), with_contents=False):
    pack(os.path.join(folder, path), files, links)
    if path == TARBALL:
        shutil.copyfile(os.path.join(folder, TARBALL), os.path.join(folder, ORIG))
    stated(folder, with_contents)


def told_of(folder, change):
    told = json.loads(statement.bytes_of(folder, STATEMENT))
    change(told)
    restated(folder, told)


def sums_with(folder, change):
    put(folder, statement.SUMS, change(statement.bytes_of(folder, statement.SUMS).decode()).encode())


def other_wheel(folder, tmp_path):
    put(folder, f"python/{NAME}.post1-py3-none-manylinux_2_25_x86_64.whl", statement.bytes_of(folder, WHEEL))
    stated(folder)


def other_version(folder, tmp_path):
    """The tarball is read outside of the folder."""
    shutil.copy(os.path.join(folder, TARBALL), tmp_path / "krbrelay-elsewhere.tar.gz")
    told_of(folder, lambda told: told.update(version="x/../../krbrelay-elsewhere"))


def key_twice(folder, tmp_path):
    put(folder, STATEMENT, statement.bytes_of(folder, STATEMENT).replace(b"{", b'{"commit": "' + b"f" * 40 + b'",', 1))
    summed(folder)


def renamed(folder, tmp_path):
    os.rename(os.path.join(folder, STATEMENT), os.path.join(folder, "krbrelay-7.0.0.proof.json"))
    summed(folder)


def no_crates(told):
    told["crates"].clear()
    told["trusted"].clear()


def more_functions(told):
    for it in told["crates"].values():
        it["functions"] *= 10
        it["clauses"]["made_up.is_constant_time"] = CLAIM


X86 = "krbrelay-x86_64.s"
# What is done to a folder, and a word of what is said of it. Who changes an artefact has all digests follow.
MANIPULATIONS = {
    "a byte of an artefact": (lambda f, _: flip(f, DEBS[0], -5), DEBS[0]),
    "an artefact, and the sums follow": (lambda f, _: (flip(f, DEBS[0], -5), summed(f)), DEBS[0]),
    "two debs swapped": (lambda f, _: swap(f, DEBS[2], DEBS[3]), DEBS[2]),
    "two debs swapped, and all digests follow": (lambda f, _: (swap(f, DEBS[2], DEBS[3]), stated(f)), "another package"),
    "a file that is stated nowhere": (lambda f, _: put(f, "python/more.whl", b"x"), "stated nowhere"),
    "a file that the sums alone state": (lambda f, _: (put(f, "python/more.json", b"x"), summed(f)), "stated nowhere"),
    "a wheel of a higher version": (other_wheel, "post1"),
    "a deb less": (lambda f, _: lost(f, DEBS[0]), "0 files are"),
    "no crate for Rust": (lambda f, _: lost(f, PACKED[1]), "0 files are"),
    "no wheels": (lambda f, _: lost(f, *WHEELS), "0 files are"),
    "a crate less": (lambda f, _: told_of(f, lambda told: told["crates"].pop(CRATE)), "other crates"),
    "no crates, and nothing trusted": (lambda f, _: told_of(f, no_crates), "crates isn't"),
    "ten times the functions, and a clause": (lambda f, _: told_of(f, more_functions), "no clause made_up"),
    "another commit": (lambda f, _: told_of(f, lambda told: told.update(commit="0" * 40)), "the commit 0000"),
    "no commit and no kit": (lambda f, _: told_of(f, lambda told: told.update(commit="", kit="")), "commit isn't"),
    "changes since the commit": (lambda f, _: told_of(f, lambda told: told.update(commit=HEAD + " and changes")), "commit isn't"),
    "version 9.9.9": (lambda f, _: told_of(f, lambda told: told.update(version="9.9.9")), "9.9.9"),
    "a version with a path": (other_version, "version isn't"),
    "a symbolic link for a file": (lambda f, at: linked(f, DEBS[0], at), "no regular file"),
    "a symbolic link to more": (lambda f, at: os.symlink(at, os.path.join(f, "debian", "more")), "no regular file"),
    "a symbolic link for a folder": (lambda f, at: linked(f, "debian", at), "no regular file"),
    "a pipe": (lambda f, _: os.mkfifo(os.path.join(f, "debian", "pipe")), "no regular file"),
    "an empty folder": (lambda f, _: os.mkdir(os.path.join(f, "more")), "the folders are"),
    "digests in capitals": (lambda f, _: sums_with(f, lambda text: text[:64].upper() + text[64:]), "a line isn't"),
    "a path twice": (lambda f, _: sums_with(f, lambda text: "0" * 64 + text.partition("\n")[0][64:] + "\n" + text), "twice"),
    "a path outside": (lambda f, _: sums_with(f, lambda text: text + "0" * 64 + "  ../beside\n"), "../beside"),
    "a path by a point": (lambda f, _: sums_with(f, lambda text: text[:66] + "./" + text[66:]), "missing"),
    "a key twice": (key_twice, "a key comes twice"),
    "two statements": (lambda f, _: (put(f, "krbrelay-1.0.0.proof.json", b"{}"), summed(f)), "2 statements"),
    "the statement's name": (renamed, "7.0.0"),
    "a proved source": (lambda f, _: repacked(f, TARBALL, of_tarball() | {"proved/crates.txt": b"krb: \n"}), "crates.txt"),
    "C beside the proved code": (lambda f, _: repacked(f, TARBALL, of_tarball() | {"heap.c": b"evil"}), "heap.c has other"),
    "a GNUmakefile": (lambda f, _: repacked(f, TARBALL, of_tarball() | {"GNUmakefile": b"all:"}), "GNUmakefile is stated nowhere"),
    "a hard link for code": (
        lambda f, _: repacked(f, TARBALL, of_tarball(), [(X86, tarfile.LNKTYPE, f"{NAME}/heap.c")]), "no regular file"),
    "a symbolic link for code": (
        lambda f, _: repacked(f, TARBALL, of_tarball(), [(X86, tarfile.SYMTYPE, "heap.c")]), "no regular file"),
    "another library in a wheel": (
        lambda f, _: (pack_wheel(os.path.join(f, WHEEL), {"krbrelay/libkrbrelay.so.1": b"evil"}), stated(f, False)), WHEEL),
    "another build.rs": (lambda f, _: repacked(f, PACKED[1], of_rust() | {"build.rs": b"evil"}), "build.rs has other"),
    "code before Go's": (lambda f, _: repacked(f, PACKED[2], {k: b"call evil\n" + v for k, v in of_go().items()}, (), True),
                         "isn't the proved code"),
    "wrong sizes": (lambda f, _: told_of(f, lambda told: [it.update(bytes=1) for it in told["artefacts"].values()]), "other bytes"),
    "no artefacts": (lambda f, _: (put(f, STATEMENT, statement.bytes_of(f, STATEMENT).replace(b'"artefacts": {', b'"artefacts": null, "x": {')),
                                   summed(f)), "isn't a statement"),
}


@pytest.mark.parametrize("what", MANIPULATIONS)
def test_a_manipulation_is_refused_by_name(folder, tmp_path, what):
    change, word = MANIPULATIONS[what]
    outside = tmp_path / "outside"
    outside.mkdir()
    if word == "no regular file" and "tarball" not in what:
        with_odd(folder, outside, change)
    else:
        change(folder, outside)
    faults = verifying.by_hashes(folder)
    assert any(word in it for it in faults), faults[:MOST]


def with_odd(folder, outside, change):
    """What states the folder anew reads it, and stops at what is no regular file."""
    try:
        change(folder, outside)
    except places.Odd:
        pass


# ---- the statement

def test_what_is_stated(made):
    told = json.loads(statement.bytes_of(made, STATEMENT))
    assert told["sources"]["crates.txt"] == hashlib.sha256(building.text_of("crates.txt").encode()).hexdigest()
    assert told["crates"].keys() == building.table().keys()
    assert told["crates"]["krb_peers"]["functions"] == 7
    assert "frames_laws.headline" in told["crates"]["krb_peers"]["clauses"]
    assert told["kit"] == "kit-of-the-test" and len(told["trusted"]) > 3
    assert len(told["assumed"]) == 2 and len(told["only_tested"]) > 5 and told["made_by"].keys() > {"gcc", "binutils", "debhelper"}
    in_toto = json.loads(statement.bytes_of(made, FORMS[0]))
    assert {it["name"]: it["digest"]["sha256"] for it in in_toto["subject"]} == {
        path: it["sha256"] for path, it in told["artefacts"].items()}
    assert in_toto["predicate"]["crates"] == told["crates"] and in_toto["_type"] == "https://in-toto.io/Statement/v1"
    spdx = json.loads(statement.bytes_of(made, FORMS[1]))
    assert spdx["spdxVersion"] == "SPDX-2.3" and {it["name"] for it in spdx["packages"]} > {"sha1", "std", *told["artefacts"]}


def test_the_tarball_has_the_source_of_each_clause():
    inside = {place: statement.bytes_of(building.TOP, path) for place, path in dist.sources().items()
              if place.startswith("proved/")}
    named, table = statement.clauses(), building.table()
    told = {"version": VERSION, "proved_code": {},
            "sources": {it.removeprefix("proved/"): statement.sha256(data) for it, data in inside.items()},
            "crates": {it: {"stands_on": deps, "clauses": named.get(it, {})} for it, (_, deps) in table.items()}}
    assert len(named) > 25 and list(verifying.inside_tarball(inside, told)) == []


def test_clauses_have_the_digest_of_their_text():
    """Those of each crate, as the reference lists them."""
    listed, named = {}, statement.clauses()
    for row, digests in claims.read(building.text_of("docs/reference/claims.txt")).items():
        if row[0] == "claim":
            listed.setdefault(row[1], {})[claims.key_of(row)] = " ".join(digests)
    assert named == listed and len(named["krb_peers"]) > 50
    assert all(verifying.CLAIM(it) for crate in named.values() for it in crate.values())


def test_the_checkout_is_compared(made, monkeypatch):
    told = json.loads(statement.bytes_of(made, STATEMENT))
    of_this_machine(monkeypatch)
    told["sources"] = {path: it for path, it in told["sources"].items() if not path.endswith("/all.rt")}
    assert list(verifying.of_checkout(told)) == []
    told["sources"][f"{CRATE}/src/lib.rt"] = "0" * 64
    told["commit"] = "another"
    monkeypatch.setattr(statement, "kit", lambda: "another kit")
    faults = list(verifying.of_checkout(told))
    assert len(faults) == 3 and faults[0] == f"the checkout: {CRATE}/src/lib.rt has other bytes than is stated"


@pytest.mark.parametrize("stated, here", [
    (HEAD + " and changes", HEAD), (HEAD, HEAD + " and changes"), (HEAD[:-1], HEAD), (HEAD, HEAD[:-1]), ("", HEAD)])
def test_a_commit_is_another_one_in_any_letter(made, monkeypatch, stated, here):
    told = json.loads(statement.bytes_of(made, STATEMENT))
    of_this_machine(monkeypatch)
    monkeypatch.setattr(statement, "commit", lambda: here)
    told["commit"] = stated
    assert f"the checkout is of {here}, and the statement names {stated}" in verifying.of_checkout(told)


@pytest.fixture
def again(made, monkeypatch, tmp_path):
    """An honest machine makes it again: of new assembly, since what was kept of it is removed first."""
    kept, forgotten = tmp_path / "dist", []
    monkeypatch.setattr(verifying.assembly, "forget", forgotten.append)
    kept.mkdir()
    tool = scripts.load("c/dist")
    tool.OUT = str(kept)
    monkeypatch.setattr(verifying.scripts, "load", lambda name: tool)
    left_out = shutil.ignore_patterns(STATEMENT, *FORMS, statement.SUMS)
    monkeypatch.setattr(verifying.making, "make", lambda place: shutil.copytree(made, place, ignore=left_out))
    monkeypatch.setattr(verifying.ci, "run", lambda *_: True)
    monkeypatch.setattr(verifying.ci, "verdict_of", VERDICTS.get)
    monkeypatch.setattr(verifying, "of_checkout", lambda told: [] if told["commit"] == HEAD else ["another commit"])
    of_this_machine(monkeypatch)
    yield kept
    assert not kept.exists() and set(forgotten) == {"krb_c", "krbrelay"}


def of_crate(**rows):
    return lambda told: told["crates"][CRATE].update(**rows)


STATEMENTS = {
    "functions of a crate are more": of_crate(functions=99),
    "a crate less": lambda told: told["crates"].pop(CRATE),
    "no crate at all": lambda told: told["crates"].clear(),
    "clauses made up": lambda told: told["crates"][CRATE]["clauses"].update(none=CLAIM),
    "another clause's text": lambda told: told["crates"][CRATE]["clauses"].update({"lane.none": CLAIM.replace("b", "f")}),
    "clauses taken away": lambda told: [it.update(clauses={}) for it in told["crates"].values()],
    "a crate stands on nothing": lambda told: told["crates"]["krb_peers"].update(stands_on=[]),
    "nothing is trusted": lambda told: told["trusted"].clear(),
    "another trusted list": lambda told: told.update(trusted=["Nothing: all of it is proved, also against timing."]),
    "other compilers": lambda told: told["made_by"].update(gcc="gcc 1.0"),
    "sizes are wrong": lambda told: [it.update(bytes=1) for it in told["artefacts"].values()]}


@pytest.mark.parametrize("change", STATEMENTS)
def test_the_whole_statement_is_made_again(folder, again, change):
    """Each of these statements, with all digests that follow, is refused by the kit, also where the hashes are content."""
    told = json.loads(statement.bytes_of(folder, STATEMENT))
    assert verifying.with_kit(folder, False) == []
    STATEMENTS[change](told)
    restated(folder, told)
    assert verifying.with_kit(folder, False)


@pytest.mark.parametrize("path, data", [(f"python/{NAME}.post1-py3-none-manylinux_2_25_x86_64.whl", None),
                                        (f"debian/krbrelay-tools_{VERSION}-1_amd64.deb", b"more")])
def test_an_artefact_that_is_not_made(folder, again, path, data):
    put(folder, path, data or statement.bytes_of(folder, WHEEL))
    stated(folder)
    assert f"{path} isn't made" in verifying.with_kit(folder, False)
    assert any(path in it and "has this name" in it for it in verifying.by_hashes(folder))


def test_another_commit_is_no_remake(folder, monkeypatch):
    told = json.loads(statement.bytes_of(folder, STATEMENT))
    of_this_machine(monkeypatch)
    restated(folder, told | {"commit": "0" * 40})
    assert any("names " + "0" * 40 in it for it in verifying.with_kit(folder, False))


def test_what_comes_out_otherwise_is_told(folder, again):
    flip(folder, WHEEL, 30)
    assert f"{WHEEL} comes out with other bytes" in verifying.with_kit(folder, False)


# ---- signed

def test_a_signature(folder, tmp_path):
    """Whoever changes a folder and all that is stated can't sign it."""
    for name in ("ours", "theirs"):
        subprocess.run(["ssh-keygen", "-q", "-t", "ed25519", "-N", "", "-f", tmp_path / name], check=True)
    signers = tmp_path / "signers"
    signers.write_text("krbrelay@example.org " + (tmp_path / "ours.pub").read_text())
    assert any("there is no" in it for it in verifying.by_hashes(folder, signers))
    attested.sign(folder, VERSION, tmp_path / "ours")
    assert verifying.by_hashes(folder, signers) == verifying.by_hashes(folder) == []
    put(folder, "README.md", b"another")
    stated(folder)
    assert verifying.by_hashes(folder) == []
    assert any("is of none of the signers" in it for it in verifying.by_hashes(folder, signers))
    attested.sign(folder, VERSION, tmp_path / "theirs")
    assert any("is of none of the signers" in it for it in verifying.by_hashes(folder, signers))


def test_what_a_release_needs_is_looked_for_first(monkeypatch):
    tool = scripts.load("release")
    monkeypatch.setattr(tool, "NEEDED", ("sh", "no-such-compiler", "/no/such/header.h"))
    monkeypatch.setenv("PATH", "/usr/bin:/bin")
    with pytest.raises(SystemExit, match="not here: no-such-compiler, /no/such/header.h"):
        tool.make("nowhere")


def test_a_release_is_of_a_commit(monkeypatch):
    tool = scripts.load("release")
    monkeypatch.setattr(tool, "lacking", list)
    monkeypatch.setattr(statement, "commit", lambda: HEAD + " and changes")
    with pytest.raises(SystemExit, match="a release is of a commit"):
        tool.make("nowhere")


# ---- pages

def test_links_lead_to_what_is_inside():
    """Of the tarball, and of what the Rust crate takes of it."""
    files = {place: statement.bytes_of(building.TOP, path) for place, path in dist.sources().items()}
    assert len(list(pages_inside.dead(files))) > 50
    files = dist.of_repository()
    assert b"\n## Unreleased\n" not in files["CHANGELOG.md"] and f"\n## {VERSION}\n".encode() in files["CHANGELOG.md"]
    assert list(pages_inside.dead(files)) == [] and b"](../README.md#build-and-link)" in files["kerberos/KERBEROS.md"]
    assert not any(b"    make -C c install" in it for place, it in files.items() if place.endswith(".md"))
    taken = {it: it for it in files if it in bindings.TAKEN}
    inside = pages_inside.pages(taken, lambda it: files[it].decode())
    assert len(inside) > 2 and list(pages_inside.dead({it: files[it] for it in taken} | inside)) == []


def test_what_only_the_repository_has_is_left_out():
    text = "a [b](../c.md#d) [e](f.md) [g](https://h)\n\n## In the repository\n\ni\n\n## After\n"
    assert pages_inside.page(text, "k/l.md", {"k/l.md": "l.md", "k/f.md": "m/f.md"}) == (
        "a b [e](m/f.md) [g](https://h)\n\n## After\n")


# ---- what the prover says

SAID = """== krb_base
fn krb_base::one: proved
logic=proved functions=23 sum=1 native=nat
rt: krb_base proved
rt: krb_time is kept: an earlier run on this machine proved the same files over the same libraries
== krb_lane
logic=proved functions=40 may-wait=5 sum=1 native=nat
rt: krb_lane proved
rt: krb_record proved
logic=rejected functions=3 sum=1
rt: krb_tlv NOT PROVED
""".splitlines()


def test_verdicts_are_read():
    assert ci.read_verdicts(SAID) == {"krb_base": ci.Verdict(23, 0), "krb_lane": ci.Verdict(40, 5)}


def test_a_verdict_is_of_its_sources(tmp_path, monkeypatch):
    monkeypatch.setattr(ci, "VERDICTS", str(tmp_path))
    assert ci.verdict_of(CRATE) is None
    ci.note_run(SAID, False, ci.digests())
    assert ci.verdict_of(CRATE) == ci.Verdict(23, 0) and ci.verdict_of("krb_lane") == ci.Verdict(40, 5)
    assert ci.verdict_of("krb_time") is None
    monkeypatch.setattr(building, "digest_of", lambda crate: "of changed sources")
    assert ci.verdict_of(CRATE) is None


@pytest.mark.parametrize("lines, status, verdict", [
    ("logic=proved functions=7 may-wait=1 sum=1", 0, ci.Verdict(7, 1)),
    ("logic=proved functions=7 may-wait=1 sum=1", 1, None), ("logic=rejected functions=7 sum=1", 0, None),
    ("logic=proved functions=7 sum=1\\nlogic=proved functions=7 sum=1", 0, None), ("", 0, None)])
def test_a_crate_is_proved_alone(monkeypatch, lines, status, verdict):
    """By its one line and by its status: what isn't proved isn't noted."""
    noted = []
    monkeypatch.setattr(ci.over_gate, "words_to_check", lambda *_: ["sh", "-c", f"printf '{lines}\\n'; exit {status}"])
    monkeypatch.setattr(ci, "note_verdict", lambda crate, _, of: noted.append((crate, of)))
    assert ci.prove_alone(CRATE) == verdict and noted == [(CRATE, verdict)] * (verdict is not None)


def test_each_crate_is_proved_here(monkeypatch):
    monkeypatch.setattr(ci, "verdict_of", VERDICTS.get)
    assert verifying.proved_here() == (VERDICTS, [])
    monkeypatch.setattr(ci, "verdict_of", lambda crate: ci.Verdict(6, 1) if crate == CRATE else None)
    monkeypatch.setattr(ci, "prove_alone", lambda crate: None if crate == "krb_tlv" else ci.Verdict(7, 1))
    found, faults = verifying.proved_here()
    assert faults == ["krb_tlv isn't proved"] and found[CRATE] == ci.Verdict(6, 1)


def test_a_crate_is_proved_over_the_kits_and_our_libraries(monkeypatch):
    monkeypatch.setattr(over_gate, "kit", lambda: "/kit")
    monkeypatch.setattr(building, "prover", lambda: "/kit/bin/rattle")
    words = over_gate.words_to_check("krb_keys", 2)
    assert words[:4] == ["/kit/bin/rattle", "check", "--crate-name", "krb_keys"]
    assert f"krb_aes={building.library_of('krb_aes')}" in words and "sha1=/kit/rlibs/sha1.rlib" in words
