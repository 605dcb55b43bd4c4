"""What `pip install` calls (PEP 517, PEP 660) to make the wheel (PEP 427). It needs the interpreter
alone, so an install needs no network.

A wheel has the library inside if its setting `library` names the folder where libkrbrelay.so.1 is
installed, with that of x86-64-v3 in glibc-hwcaps below it; the setting `platform` is its tag then
(PEP 600). The same files give the same bytes; SOURCE_DATE_EPOCH is the time of the sdist's files.
"""
import base64
import gzip
import hashlib
import io
import os
import re
import tarfile
import zipfile

TOP = os.path.dirname(os.path.dirname(os.path.realpath(__file__)))
PACKAGE = "krbrelay"
LICENCES = "LICENSE", "LICENSE-APACHE", "LICENSE-MIT", "LICENSE-KIT"
LIBRARY = "libkrbrelay.so.1"
OBJECTS = (LIBRARY, f"glibc-hwcaps/x86-64-v3/{LIBRARY}")    # in a folder of libraries
WHEEL = """\
Wheel-Version: 1.0
Generator: wheel_backend
Root-Is-Purelib: {}
Tag: py3-none-{}
"""


def text_of(name):
    with open(os.path.join(TOP, name), encoding="utf-8") as file:
        return file.read()


def table():
    return text_of("pyproject.toml").partition("[project]\n")[2]


def project():
    """What the project's table of pyproject.toml has as a text on a line."""
    return dict(re.findall(r'^([a-z-]+) = "(.*)"$', table(), re.M))


def listed(key):
    """The texts of a list of the table."""
    found = re.search(rf"^{key} = \[(.*?)\]", table(), re.M | re.S)
    return re.findall(r'"(.*?)"', found[1]) if found else []


def licence_folder():
    """Where the licence's files are: beside the project in its sdist, and above it in its
    repository."""
    for folder in (TOP, os.path.dirname(TOP)):
        if all(os.path.exists(os.path.join(folder, it)) for it in LICENCES):
            return folder
    raise FileNotFoundError(f"there is no LICENSE in {TOP} nor above it, or not all of it")


def licences():
    folder = licence_folder()
    return {it: text_of(os.path.join(folder, it)).encode() for it in LICENCES}


def metadata():
    it = project()
    fields = [("Metadata-Version", "2.1"), ("Name", it["name"]), ("Version", it["version"]),
              ("Summary", it["description"]), ("Author", ", ".join(listed("authors"))),
              ("License", it["license"]), ("Keywords", ",".join(listed("keywords"))),
              *(("Classifier", name) for name in listed("classifiers")),
              ("Requires-Python", it["requires-python"]),
              ("Description-Content-Type", "text/markdown")]
    lines = "".join(f"{name}: {value}\n" for name, value in fields)
    return f"{lines}\n{text_of(it['readme'])}"


def sources():
    """The package's files, by their names in the wheel."""
    folder = os.path.join(TOP, PACKAGE)
    for name in sorted(os.listdir(folder)):
        if name.endswith((".py", ".typed")):
            with open(os.path.join(folder, name), "rb") as file:
                yield f"{PACKAGE}/{name}", file.read()


def shared_objects(folder):
    """The library of this folder, by its names in the wheel: there the package looks first."""
    for name in OBJECTS:
        path = os.path.join(folder, name)
        if name == LIBRARY or os.path.exists(path):
            with open(path, "rb") as file:
                yield f"{PACKAGE}/{name}", file.read()


def notices():
    """The licences of what is compiled into the library, by their names in the wheel."""
    folder = os.path.join(licence_folder(), "licences")
    for name in sorted(os.listdir(folder)) if os.path.isdir(folder) else ():
        with open(os.path.join(folder, name), "rb") as file:
            yield f"{PACKAGE}-{project()['version']}.dist-info/licences/{name}", file.read()


def recorded(name, content):
    """A line of RECORD."""
    digest = base64.urlsafe_b64encode(hashlib.sha256(content).digest()).rstrip(b"=").decode()
    return f"{name},sha256={digest},{len(content)}\n"


def write_wheel(wheel_directory, files, platform="any"):
    """Writes the wheel with these files and what describes them, and gives its name."""
    stem = f"{PACKAGE}-{project()['version']}"
    files.update((f"{stem}.dist-info/{name}", text) for name, text in licences().items())
    files[f"{stem}.dist-info/METADATA"] = metadata().encode()
    is_pure = str(platform == "any").lower()
    files[f"{stem}.dist-info/WHEEL"] = WHEEL.format(is_pure, platform).encode()
    record = f"{stem}.dist-info/RECORD"
    lines = "".join(recorded(name, content) for name, content in files.items())
    files[record] = f"{lines}{record},,\n".encode()
    wheel = f"{stem}-py3-none-{platform}.whl"
    with zipfile.ZipFile(os.path.join(wheel_directory, wheel), "w", zipfile.ZIP_DEFLATED) as zipped:
        for name, content in files.items():
            zipped.writestr(zipfile.ZipInfo(name), content, zipfile.ZIP_DEFLATED)
    return wheel


def build_wheel(wheel_directory, config_settings=None, metadata_directory=None):
    given = config_settings or {}
    if "library" not in given:
        return write_wheel(wheel_directory, dict(sources()))
    files = dict([*sources(), *shared_objects(given["library"]), *notices()])
    return write_wheel(wheel_directory, files, given["platform"])


def build_editable(wheel_directory, config_settings=None, metadata_directory=None):
    """A wheel that has the interpreter read the package in its folder."""
    return write_wheel(wheel_directory, {f"{PACKAGE}.pth": f"{TOP}\n".encode()})


def build_sdist(sdist_directory, config_settings=None):
    stem = f"{PACKAGE}-{project()['version']}"
    names = "pyproject.toml", "README.md", "backend/wheel_backend.py"
    files = {part: text_of(part).encode() for part in names}
    files.update(sources())
    files.update(licences())
    files["PKG-INFO"] = metadata().encode()
    time = int(os.environ.get("SOURCE_DATE_EPOCH", 0))
    with open(os.path.join(sdist_directory, f"{stem}.tar.gz"), "wb") as file, \
            gzip.GzipFile("", "wb", 9, file, mtime=0) as zipped, \
            tarfile.open(fileobj=zipped, mode="w", format=tarfile.PAX_FORMAT) as archive:
        for name, content in sorted(files.items()):
            info = tarfile.TarInfo(f"{stem}/{name}")
            info.size, info.mtime = len(content), time
            archive.addfile(info, io.BytesIO(content))
    return f"{stem}.tar.gz"
