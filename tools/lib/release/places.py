"""What a release's folder has: its files by their names, which the version fixes, and what an archive of it has
inside. Only regular files and real folders are taken, and each path once."""
import hashlib
import io
import lzma
import os
import re
import stat
import tarfile
import zipfile
import zlib

SUMS = "SHA256SUMS"
VERSION = re.compile(r"\d+\.\d+\.\d+")
FOLDERS = ("debian", "go", "python", "rust")
MACHINES = ("x86_64", "aarch64")
BROKEN = (tarfile.TarError, zipfile.BadZipFile, lzma.LZMAError, zlib.error)
MOST_BYTES = 1 << 30        # of an archive's file: none of ours is nearly as long


class Odd(ValueError):
    """A folder or an archive that isn't as one of a release is."""


# ---- the folder

def name_of(version):
    return f"krbrelay-{version}.proof.json"


def patterns(version):
    """The names of all files, each of which is there once: what a name ends with, such as a version of glibc, may vary."""
    v = re.escape(version)
    base, deb = f"krbrelay-{v}", rf"{v}-1"
    top = [r"README\.md", SUMS, *(base + it for it in (
        r"\.tar\.gz", r"\.proof\.json", r"\.intoto\.json", r"\.spdx\.json", r"-vectors\.json\.gz",
        r"-vectors\.schema\.json", r"-vectors\.README\.md"))]
    names = "krbrelay", "krbrelay-carrier", "krbrelay-preload", "libkrbrelay1", "libkrbrelay-dev"
    debian = [*(rf"{it}_{deb}_amd64\.deb" for it in names), rf"python3-krbrelay_{deb}_all\.deb", rf"krbrelay_{deb}\.dsc",
              rf"krbrelay_{deb}\.debian\.tar\.xz", rf"krbrelay_{v}\.orig\.tar\.gz", rf"krbrelay_{deb}_amd64\.buildinfo"]
    wheels = [rf"{base}-py3-none-manylinux_\d+_\d+_{machine}\.whl" for machine in MACHINES]
    return [*top, *(f"debian/{it}" for it in debian), *(f"python/{it}" for it in (rf"{base}\.tar\.gz", *wheels)),
            rf"rust/{base}\.crate", rf"go/krbrelay-go-{v}\.tar\.gz"]


def signature_of(version):
    return f"krbrelay-{version}.intoto.json.sig"


def files_of(folder):
    """The files of a folder, by their paths below it. Odd of what is no regular file and no real folder."""
    found, kept = [], [folder]
    while kept:
        at = kept.pop()
        for name in os.listdir(at):
            path = os.path.join(at, name)
            mode = os.lstat(path).st_mode
            if stat.S_ISDIR(mode):
                kept.append(path)
            elif stat.S_ISREG(mode):
                found.append(os.path.relpath(path, folder))
            else:
                raise Odd(f"{os.path.relpath(path, folder)} is no regular file")
    return sorted(found)


def folders_of(folder):
    """The folders at its top, after files_of has taken it."""
    return sorted(it for it in os.listdir(folder) if os.path.isdir(os.path.join(folder, it)))


def misnamed(folder, version):
    """Files that a release of this version doesn't have, and names of which it has none or several."""
    files = [it for it in files_of(folder) if it != signature_of(version)]
    wanted = patterns(version)
    yield from (f"{it}: no file of a release of {version} has this name" for it in files
                if not any(re.fullmatch(pattern, it) for pattern in wanted))
    for pattern in wanted:
        count = sum(1 for it in files if re.fullmatch(pattern, it))
        if count != 1:
            yield f"{count} files are {pattern.replace(chr(92), '')}, and one is needed"
    if folders_of(folder) != list(FOLDERS):
        yield f"the folders are {', '.join(folders_of(folder))}, and {', '.join(FOLDERS)} are needed"


# ---- archives

def of_tar(data, top=None):
    """The bytes of each file of a tar archive, by its path below the one folder at the top, which is `top` if that
    is named. Odd of a member that is neither a file nor a folder, of a path that comes twice, and of one elsewhere."""
    found = {}
    with tarfile.open(fileobj=io.BytesIO(data)) as tar:
        for member in tar:
            first, _, rest = member.name.removeprefix("./").partition("/")
            if member.isdir():
                continue
            if not member.isreg() or member.size > MOST_BYTES:
                raise Odd(f"{member.name} is no regular file")
            if first != (top or first) or ".." in rest.split("/") or not rest or rest in found:
                raise Odd(f"{member.name} comes twice, or isn't below {top or 'one folder'}")
            top, found[rest] = first, tar.extractfile(member).read()
    return found


def of_zip(data):
    """The same of a wheel, whose paths have no folder before them."""
    with zipfile.ZipFile(io.BytesIO(data)) as archive:
        names = archive.namelist()
        if len(set(names)) != len(names) or archive.testzip():
            raise Odd("a path comes twice, or a file isn't whole")
        return {it: archive.read(it) for it in names}


def of_archive(path, data):
    if path.endswith(".whl"):
        return of_zip(data)
    if path.endswith((".tar.gz", ".crate")):
        return of_tar(data)
    return None


def contents(folder):
    """The digests of what is inside of each archive, by its path and theirs. Odd, with the archive."""
    found = {}
    for path in files_of(folder):
        try:
            with open(os.path.join(folder, path), "rb") as file:
                inside = of_archive(path, file.read())
        except (ValueError, RuntimeError, OSError, EOFError, *BROKEN) as fault:
            raise Odd(f"{path}: {fault}") from None
        if inside is not None:
            found[path] = {place: hashlib.sha256(it).hexdigest() for place, it in sorted(inside.items())}
    return found


def control_of(data):
    """The fields of a Debian package that say what it is."""
    at, members = 8, {}
    while data[:8] == b"!<arch>\n" and at + 60 <= len(data):
        name, size = data[at:at + 16].decode("ascii", "replace").strip().rstrip("/"), int(data[at + 48:at + 58])
        members[name] = data[at + 60:at + 60 + size]
        at += 60 + size + size % 2
    packed = next((it for name, it in members.items() if name.startswith("control.tar")), b"")
    with tarfile.open(fileobj=io.BytesIO(packed)) as tar:
        text = next(tar.extractfile(it).read().decode() for it in tar if it.name.removeprefix("./") == "control")
    return dict(re.findall(r"^(Package|Version|Architecture): (.*)$", text, re.M))


def is_named_so(path, data):
    """Whether the package is the one that its file's name says."""
    try:
        said = control_of(data)
    except (ValueError, OSError, EOFError, StopIteration, *BROKEN):
        return False
    return f"{said.get('Package')}_{said.get('Version')}_{said.get('Architecture')}.deb" == os.path.basename(path)
