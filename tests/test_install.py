"""Tests what tools/install installs: the page of the manual and the completions say what the program's --help
says, and what is installed is what is removed; and what c/Makefile builds and installs, over code of no use. The
completions of bash and fish are asked as the shells ask them,
and that of zsh is read; a shell that isn't installed is skipped."""
import os
import re
import shutil
import stat
import subprocess
import tempfile

import pytest

import over_library
from lib import manual, scripts
from lib.build import building, levels

# The words that are completed, and whether options are asked for.
LINES = [([], False), ([], True), (["relay"], True), (["show"], True), (["relay", "-h"], False)]
ASK_BASH = """
. "$1"; shift
COMP_WORDS=(krbrelay "$@"); COMP_CWORD=$#
_krbrelay; printf '%s\\n' "${COMPREPLY[@]}"
"""


# ---- what the help says

def wanted(program, before, with_options):
    """The words that may follow these: options begin with -, and nothing follows one."""
    if any(it.startswith("-") for it in before):
        return set()
    text = manual.said(program, *before, "--help")
    return set(manual.options(text)) if with_options else set() if before else set(
        manual.commands(text))


def completion(name):
    return os.path.join(building.TOP, "packaging", "completions", name)


def by_bash(before, with_options):
    word = "-" if with_options else ""
    done = subprocess.run(["bash", "-c", ASK_BASH, "bash", completion("krbrelay.bash"), *before, word], check=True,
                          stdout=subprocess.PIPE, text=True)
    return {it for it in done.stdout.split() if with_options or not it.startswith("-")}


def by_fish(before, with_options):
    path = completion("krbrelay.fish")
    line = " ".join(["krbrelay", *before, "-" if with_options else ""])
    with tempfile.TemporaryDirectory() as home:
        done = subprocess.run(["fish", "--no-config", "-c", f'source {path}; complete -C "{line}"'],
                              check=True, stdout=subprocess.PIPE, text=True,
                              env={**os.environ, "HOME": home}, cwd=home)
    return {it.split("\t")[0] for it in done.stdout.splitlines()}


def told_by_fish(name):
    """What fish says of a command."""
    text = building.text_of(completion("krbrelay.fish"))
    found = re.search(rf"-a {name} -d (['\"])(.*)\1$", text, re.M)
    return found and found[2]


def needs(shell):
    return pytest.mark.skipif(shutil.which(shell) is None, reason=f"{shell} isn't installed")


@needs("bash")
@pytest.mark.parametrize("before, with_options", LINES)
def test_completion_of_bash(krbrelay, before, with_options):
    assert by_bash(before, with_options) == wanted(krbrelay, before, with_options)


@needs("fish")
@pytest.mark.parametrize("before, with_options", LINES)
def test_completion_of_fish(krbrelay, before, with_options):
    expected = wanted(krbrelay, before, with_options)
    assert not expected or by_fish(before, with_options) == expected      # it has files where nothing follows


@pytest.fixture(scope="module")
def whole(krbrelay):
    return manual.said(krbrelay, "--help")


def test_completion_of_zsh(whole):
    text = building.text_of(completion("_krbrelay"))
    assert dict(re.findall(r"""^    ['"](\w+):(.*)['"]$""", text, re.M)) == manual.commands(whole)
    options = {name: about for group, about in re.findall(r"\{([^}]*)\}'\[(.*?)\]'", text) for name in group.split(",")}
    assert options == manual.options(whole)


@needs("zsh")
def test_zsh_reads_it():
    assert subprocess.run(["zsh", "-n", completion("_krbrelay")], check=False).returncode == 0


def test_fish_says_what_each_command_does(whole):
    commands = manual.commands(whole)
    assert commands and {name: told_by_fish(name) for name in commands} == commands


def test_page(krbrelay):
    """The page is the one that the help gives, of whatever date."""
    kept = building.text_of(manual.PAGE)
    date = re.match(r"\.TH KRBRELAY 1 (\S+) ", kept)
    assert kept == manual.page(krbrelay, date[1])


@needs("mandoc")
def test_mandoc_reads_the_page():
    path = os.path.join(building.TOP, manual.PAGE)
    assert subprocess.run(["mandoc", "-T", "lint", "-W", "error", path], check=False).returncode == 0


# ---- what is installed

def tree(folder):
    """Each file, link and folder below a folder."""
    return sorted(os.path.relpath(os.path.join(above, name), folder)
                  for above, folders, names in os.walk(folder) for name in folders + names)


def library_in(folder):
    """A library to install, as its Makefile leaves it."""
    (folder / "lib").mkdir(parents=True)
    (folder / "lib" / "libkrbrelay.so.1").write_text("a library", encoding="utf-8")
    (folder / "lib" / "krbrelay.pc").write_text("a description", encoding="utf-8")
    (folder / "lib" / "libkrbrelay.so").symlink_to("libkrbrelay.so.1")
    return str(folder)


def closed(folder):
    """Files and folders below a folder that not everybody may read, and programs that not everybody may run."""
    for name in tree(folder):
        mode = os.lstat(os.path.join(folder, name)).st_mode
        needed = 0o777 if stat.S_ISLNK(mode) else 0o755 if stat.S_ISDIR(mode) or mode & 0o100 else 0o644
        if stat.S_IMODE(mode) != needed:
            yield f"{name} has the mode {stat.S_IMODE(mode):o}"


@pytest.fixture
def for_its_owner():
    """Whose own files nobody else may read."""
    before = os.umask(0o077)
    yield
    os.umask(before)


@pytest.mark.usefixtures("for_its_owner")
def test_what_is_installed_is_what_is_removed(krbrelay, tmp_path):
    """A whole install into a folder that has something, twice, and its end."""
    tool, folder = scripts.load("install"), str(tmp_path / "prefix with a space")
    os.makedirs(os.path.join(folder, "share", "man"))
    with open(os.path.join(folder, "share", "man", "own"), "w", encoding="utf-8") as file:
        file.write("of the user\n")
    for made in ("", "share", "share/man", "share/man/own"):
        os.chmod(os.path.join(folder, made), 0o644 if made.endswith("own") else 0o755)
    before = tree(folder)
    files = tool.install(folder, krbrelay, library_in(tmp_path / "library"))
    assert len(files) == len(tool.FILES) + 6 and all(os.path.exists(os.path.join(folder, it)) for it in files)
    assert os.readlink(os.path.join(folder, "lib", "libkrbrelay.so")) == "libkrbrelay.so.1"
    whole = tree(folder)
    assert not list(closed(folder))
    tool.install(folder, krbrelay)
    assert tree(folder) == whole, "once more is the same"
    ran = subprocess.run([os.path.join(folder, "bin", "krbrelay"), "--version"], check=True,
                         stdout=subprocess.PIPE, text=True)
    assert ran.stdout == f"krbrelay {manual.version()}\n"
    checked = subprocess.run([os.path.join(folder, "bin", "krbrelay-check-job"), "-"], input="capacity = 0\n", check=False,
                             cwd=tmp_path, stdout=subprocess.PIPE, text=True, env={"PATH": os.environ["PATH"], "PYTHONDONTWRITEBYTECODE": "1"})
    assert (checked.returncode, checked.stdout.splitlines()[0]) == (1, "standard input:1:12: bad input: capacity")
    os.remove(os.path.join(folder, "share/man/man1/krbrelay.1"))
    tool.uninstall(folder)
    assert tree(folder) == before, "the end leaves what was there"
    with pytest.raises(tool.Fault):
        tool.uninstall(folder)


# ---- the C library, of code that does nothing

FUNCTIONS = sorted(set(re.findall(r"\bkrbrelay_\w+", building.text_of("c/krbrelay.map"))))
OBJECTS = {"krbrelay.s": "libkrbrelay.so.1", "krbrelay-v3.s": "v3/libkrbrelay.so.1"}


def write_code(path, instruction="ret"):
    """Each function, weak: those of the C beside it come first."""
    named = "".join(f".weak {it}\n.type {it},@function\n{it}: {instruction}\n" for it in FUNCTIONS)
    path.write_text(f'{named}.section .note.GNU-stack,"",@progbits\n', encoding="ascii")


@pytest.fixture
def library(tmp_path):
    """The folder in which both objects are built."""
    for name in OBJECTS:
        write_code(tmp_path / name)
    make(tmp_path)
    return tmp_path


def make(folder, *words):
    subprocess.run(["make", "-s", "-f", f"{building.TOP}/c/Makefile", f"SOURCES={building.TOP}/c", "PROVED=krbrelay.s",
                    "PROVED_V3=krbrelay-v3.s", *words], cwd=folder, check=True, capture_output=True)


def test_both_objects_have_each_function(library):
    for built in OBJECTS.values():
        told = subprocess.run(["nm", "-D", "--defined-only", library / built], check=True, stdout=subprocess.PIPE, text=True)
        assert sorted(re.findall(r" [TW] (krbrelay_\w+)@@", told.stdout)) == FUNCTIONS


@pytest.mark.parametrize("name", OBJECTS)
def test_changed_code_changes_its_object_alone(library, name):
    before = {built: (library / built).read_bytes() for built in OBJECTS.values()}
    write_code(library / name, "ud2")
    make(library)
    assert [built for built, was in before.items() if (library / built).read_bytes() != was] == [OBJECTS[name]]


@pytest.mark.usefixtures("for_its_owner")
def test_everybody_may_read_the_installed_library(library):
    make(library, "PREFIX=prefix", "install")
    assert len(tree(library / "prefix")) > 100 and not list(closed(library / "prefix"))


# ---- which parts of its tests have run

FEATURES = "fpu sse avx f16c xsave fma movbe abm bmi1 avx2 bmi2"


@pytest.mark.parametrize("left_out", ["", *FEATURES.split()[2:]])
def test_a_processor_of_the_level_needs_a_test_over_its_object(left_out):
    """Where the loader has it not, too."""
    processor = f"flags\t\t: {FEATURES.replace(left_out, '', 1)}\n"
    assert over_library.is_tested(False, processor) == bool(left_out) and over_library.is_tested(True, processor)


def test_what_is_not_there_is_skipped_and_counted(monkeypatch):
    for asks in (lambda: over_library.there("no-such-command"), over_library.mit_flags):
        monkeypatch.setenv("PATH", "/none")
        with pytest.raises(pytest.skip.Exception):
            asks()


def test_the_loader_s_own_words_are_read():
    told = subprocess.run([levels.LOADER, "--help"], check=False, capture_output=True, text=True)
    assert bool(levels.own()) == bool(re.search(r"x86-64-v3 \(supported", told.stdout))
