"""What libkrbrelay has and what of it is installed: names, versions, pages of the manual, the header in each language,
the object that the loader takes, and the files for pkg-config and CMake."""
import itertools
import os
import re
import shutil
import sys

import pytest

import over_library as over
from lib.build import building, levels
from over_library import EXAMPLES, ROOM, SONAME, TESTS, run
from test_c_examples import see_two_ends

HEADER = building.text_of("c/krbrelay.h")
WITHOUT_COMMENTS = re.sub(r"/\*.*?\*/", "", HEADER, flags=re.S)
PAGES = ROOM / "man"
LINKS = [it.split() for it in (PAGES / "links").read_text(encoding="utf-8").splitlines()]
LOADED_BY = levels.LOADER
FOLDERS = ("/usr/include/mit-krb5", "/usr/include/heimdal")


# ---- names

def functions(text=HEADER):
    """Those that a text names on lines that are no comment's."""
    return sorted(it for line in text.splitlines() if not line.startswith((" *", "/*"))
                  for it in re.findall(r"(krbrelay_[a-z_]*)\(", line))


def exported():
    """Those that the header declares and the library has: all but the inline ones."""
    inline = functions("\n".join(it for it in HEADER.splitlines() if "static inline" in it))
    return [it for it in functions() if it not in inline]


def with_versions():
    """Each function with its symbol version, by the map."""
    found, version = [], ""
    for line in building.text_of("c/krbrelay.map").splitlines():
        version = line.split()[0] if line.startswith("KRBRELAY_") else version
        found += [f"{it}@@{version}" for it in re.findall(r"krbrelay_\w+", line)]
    return sorted(found)


def defined(*words):
    lines = [it.split() for it in run("nm", "--defined-only", *words).splitlines()]
    return sorted(name for *_, kind, name in lines if kind == "T" or "-D" not in words)


def test_the_archive_has_the_functions_of_the_header(built):
    assert defined("-g", built / "krbrelay.o") == exported()


@pytest.mark.parametrize("level", ["", "v3"])
def test_the_shared_object_has_the_functions_of_the_header_by_their_versions(built, level):
    found = defined("-D", built / level / SONAME)
    assert found == with_versions()
    assert sorted(it.partition("@@")[0] for it in found) == exported()


def test_the_stack_cannot_be_executed(built):
    assert re.search(r"GNU_STACK .* RW  *0x", run("readelf", "-lW", built / SONAME))


def test_the_assembly_is_the_object_of_the_prover_s_compiler(built, tmp_path):
    run("ar", "x", os.path.join(building.TOP, "out", "static", "libkrb_c.a"), "krb_c.o", cwd=tmp_path)
    run("cc", "-c", "-o", tmp_path / "assembled.o", built / "krbrelay.s")
    run(sys.executable, TESTS / "same_code.py", tmp_path / "krb_c.o", tmp_path / "assembled.o")


# ---- the manual

def structs():
    """Those whose fields a caller reads or writes: all but handles."""
    return [*re.findall(r"^struct (krbrelay_[a-z]*) \{$", HEADER, re.M), "krbrelay_moment", "krbrelay_address"]


def fields(struct):
    """Each field of a struct by its declaration."""
    body = re.search(rf"^struct {struct} \{{(.*?)\}}", WITHOUT_COMMENTS, re.M | re.S)[1]
    return [it for part in body.split(";") for it in map(str.strip, part.splitlines()) if it]


def page_names():
    """The names that have a page of their own, or stand in the list of another one's."""
    return sorted([*(it.name.removesuffix(".3") for it in PAGES.glob("krbrelay_*.3")), *(name for _, name in LINKS)])


def test_each_function_and_struct_has_a_page():
    assert page_names() == sorted(functions() + structs())
    assert [it for it, _ in LINKS if not (PAGES / f"{it}.3").stat().st_size] == []


@pytest.mark.parametrize("struct", structs())
def test_the_page_of_a_struct_has_its_fields(struct):
    page = (PAGES / f"{struct}.3").read_text(encoding="utf-8")
    assert fields(struct) and [it for it in fields(struct) if f'"{it}"' not in page] == []


def test_mandoc_finds_no_fault(tmp_path):
    """Where a page stands for another, it looks for it in man3."""
    over.there("mandoc")
    shutil.copytree(PAGES, tmp_path / "man3", ignore=shutil.ignore_patterns("links"))
    for page, name in LINKS:
        (tmp_path / "man3" / f"{name}.3").write_text(f".so man3/{page}.3\n", encoding="utf-8")
    pages = sorted(f"man3/{it}" for it in os.listdir(tmp_path / "man3"))
    run("mandoc", "-T", "lint", "-W", "error", *pages, cwd=tmp_path)


# ---- installing

def test_a_page_is_installed_for_each_name(installed):
    pages = sorted(it.name.removesuffix(".3") for it in (installed / "share/man/man3").glob("krbrelay_*.3"))
    assert pages == page_names()


def test_all_that_is_installed_is_removed_and_nothing_else(make, tmp_path):
    prefix = tmp_path / "prefix"
    make("install", f"PREFIX={prefix}")
    other = prefix / "lib/pkgconfig/other.pc"
    other.touch()
    make("uninstall", f"PREFIX={prefix}")
    assert set(prefix.rglob("*")) == {other, *list(other.parents)[:2]}
    other.unlink()
    make("uninstall", f"PREFIX={prefix}")
    assert not prefix.exists()


@pytest.fixture
def loaded(plain, installed, compiler):
    """Which shared object a program gets, with these words of the loader."""
    program = plain.compiled("tests/loaded.c", compiler, over=(f"-L{installed}/lib", "-lkrbrelay"))
    return lambda *words: run(*words, program, env={**os.environ, "LD_LIBRARY_PATH": f"{installed}/lib"}).strip()


def test_where_the_level_is_masked_the_plain_object_is_loaded(loaded, installed):
    assert loaded(LOADED_BY, "--glibc-hwcaps-mask", "x86-64-v2") == f"{installed}/lib/{SONAME}"


def test_the_object_of_this_machine_s_level_is_loaded(loaded, installed):
    level = f"glibc-hwcaps/{levels.V3}/" if levels.own() else ""
    assert loaded() == f"{installed}/lib/{level}{SONAME}"
    if not level:
        pytest.skip("the object for x86-64-v3 as it is loaded")


@pytest.fixture
def moved(installed, tmp_path):
    """What is installed, after it was moved."""
    return shutil.copytree(installed, tmp_path / "moved", symlinks=True)


@pytest.mark.slow
def test_the_example_builds_by_pkg_config(moved, tmp_path):
    words = run(over.there("pkg-config"), "--cflags", "--libs", "krbrelay",
                env={**os.environ, "PKG_CONFIG_PATH": f"{moved}/lib/pkgconfig"}).split()
    run(over.there("gcc"), EXAMPLES / "two_ends.c", *words, "-o", tmp_path / "two_ends")
    see_two_ends(tmp_path / "two_ends", env={**os.environ, "LD_LIBRARY_PATH": f"{moved}/lib"})


@pytest.mark.slow
def test_the_example_builds_by_cmake(moved, tmp_path):
    """Over both libraries. A later version isn't taken."""
    (tmp_path / "CMakeLists.txt").write_text(f"""
cmake_minimum_required(VERSION 3.13)
project(two_ends C)
find_package(krbrelay ${{WANTED}} REQUIRED)
add_executable(shared {EXAMPLES}/two_ends.c)
target_link_libraries(shared krbrelay::krbrelay)
add_executable(static {EXAMPLES}/two_ends.c)
target_link_libraries(static krbrelay::static)
""", encoding="utf-8")
    words = over.there("cmake"), "-S", tmp_path, f"-DCMAKE_PREFIX_PATH={moved}"
    run(*words, "-B", tmp_path / "out", "-DWANTED=1.0")
    run("cmake", "--build", tmp_path / "out")
    for name in ("shared", "static"):
        see_two_ends(tmp_path / "out" / name)
    assert over.ran(*words, "-B", tmp_path / "later", "-DWANTED=2.0").returncode


# ---- the header

OURS, OTHERS = "#include <krbrelay.h>\n", "#include <krb5.h>\n"
BESIDE = {"alone": [OURS], "before": [OURS, OTHERS], "after": [OTHERS, OURS]}
# A struct as docs/C.md fills one in each language.
FILLED = {"c": "struct krbrelay_session session = { .mode = KRBRELAY_OK };",
          "c++": "struct krbrelay_session session = {}; session.mode = KRBRELAY_OK;"}
RETURNS = "return (int)(krbrelay_version() & 0) + (int)session.mode; }\n"
LANGUAGES = [*((compiler, "c", standard) for compiler in ("gcc", "clang") for standard in ("c99", "c11", "c17")),
             *((compiler, "c++", "c++17") for compiler in ("g++", "clang++"))]


@pytest.mark.slow
@pytest.mark.parametrize("compiler, language, standard", LANGUAGES, ids=map(" ".join, LANGUAGES))
@pytest.mark.parametrize("place, folder", [("alone", None), *itertools.product(("before", "after"), FOLDERS)])
def test_the_header_compiles_without_a_warning(compiler, language, standard, place, folder):
    """Alone, and beside those of MIT's and Heimdal's libraries."""
    if folder and not os.path.exists(f"{folder}/krb5.h"):
        pytest.skip(f"{folder} isn't installed")
    text = "".join(BESIDE[place]) + f"int main(void) {{\n{FILLED[language]}\n{RETURNS}"
    beside = ["-isystem", folder] if folder else []
    run(over.there(compiler), f"-std={standard}", "-pedantic", "-Wall", "-Wextra", "-Wconversion", "-Werror",
        "-fsyntax-only", f"-I{ROOM}", *beside, "-x", language, "-", input=text, stdin=None)
