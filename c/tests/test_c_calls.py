"""The calls of libkrbrelay, by programs in C over both objects of it.

The gate compiles them by cc. With --all they are compiled by gcc and clang too, and run under their sanitizers and
valgrind, beside MIT's library, and on processors of an emulator (Debian's qemu-user). What this machine doesn't have
is skipped, but for cc, and for the object for x86-64-v3 where the processor has that level. `--fuzz COUNT` has the
tests that draw messages and calls under sanitizers draw so many: pytest --all -k drawn --fuzz=1000000 c/tests.
"""
import os
import pathlib
import platform
import sys

import pytest

import over_library as over
from lib.build import building
from over_library import SECRETS, TESTS, run

IS_X86 = platform.machine() == "x86_64"
OF_32_BITS = ("-std=c99", "-m32", "-O2", "-Wall", "-Wextra", "-Wpedantic", "-Werror", "-Wno-unused-command-line-argument",
              "-ffreestanding", "-nostdlib", "-static", "-fno-pic", "-no-pie", "-fno-stack-protector", f"-I{over.ROOM}")
FREED = f"{building.TOP}/tests/freed_memory"
CALLS = [it for it in over.NAMES if it != "inline"]
SANITIZED = [it for it in CALLS if it != "supported"]
UNDER_VALGRIND = [it for it in CALLS if it not in ("dead_stack", "fuzz")]
LEAKS = ("--quiet", "--leak-check=full", "--error-exitcode=9")
OF_MIT = ("mit", "flags", "any_order")


def words_of(name):
    return over.of_makefile("WORDS", name)


# ---- over the built library

@pytest.mark.parametrize("name", CALLS)
def test_calls(name, library, compiler):
    run(library.test(name, compiler), *words_of(name))


@pytest.mark.skipif(not IS_X86, reason="only on x86-64 a processor may lack what the library needs")
def test_a_processor_without_support_is_told(library, compiler):
    run(library.test("processor", compiler), "unsupported", "told")


def test_each_call_by_size_with_each_allocation_refused(library, compiler, tmp_path):
    run(sys.executable, TESTS / "inside.py", tmp_path / "inside.bin")
    run(library.matrix(compiler), over.ROOM / "krbrelay.h", tmp_path / "inside.bin", *SECRETS, tmp_path / "matrix.tsv")


def test_no_freed_block_has_a_key(library, compiler):
    """And one that has a key is reported."""
    program = library.compiled("tests/freed_memory.c", compiler, "-Wl,--wrap=free")
    strings = ",".join(pathlib.Path(SECRETS[0]).read_text(encoding="ascii").splitlines())
    run(FREED, strings, program)
    left = over.ran(FREED, strings, program, "left")
    assert left.returncode == 1 and "long key in freed blocks: 1" in left.stdout + left.stderr
    assert "user data in freed blocks: 1" in left.stdout + left.stderr


def test_inline_functions(plain, compiler):
    run(plain.test("inline", compiler))


@pytest.mark.skipif(not IS_X86, reason="only x86-64 has programs of 32 bits")
def test_inline_functions_on_32_bits(compiler, tmp_path):
    """By a program without a C library. Its status is the line of a check that fails, modulo 256."""
    run(compiler, *OF_32_BITS, TESTS / "inline.c", "-o", tmp_path / "inline32")
    try:
        status = over.ran(tmp_path / "inline32").returncode
    except OSError:
        pytest.skip("this system doesn't run programs of 32 bits")
    assert status == 0


# ---- random calls beside a model

def sequences(shared_object, count, **more):
    pytest.importorskip("cryptography")
    run(sys.executable, TESTS / "sequences.py", shared_object, count, env={**os.environ, **more})


def test_random_calls_beside_a_model(library, plain, pytestconfig):
    sequences(library.room / over.SONAME, 200_000 if library == plain or pytestconfig.option.all else 50_000)


@pytest.mark.slow
def test_drawn_calls_under_the_sanitizers(library, tmp_path, pytestconfig):
    """The C beside the proved code is under the sanitizers, and Python isn't: the matrix reports what leaks."""
    made = tmp_path / "sanitized.so"
    run(over.with_sanitizers("cc", tmp_path), *library.flags, *over.SANITIZERS, "-shared", "-fPIC",
        *library.beside_proved(), "-o", made)
    sequences(made, pytestconfig.option.fuzz or 50_000, LD_PRELOAD=run("cc", "-print-file-name=libasan.so").strip(),
              ASAN_OPTIONS="detect_leaks=0", PYTHONMALLOC="malloc")


# ---- messages that are changed: what unsealing answers is what tests/oracle/opener.py says

def compare_answers(*commands):
    pytest.importorskip("cryptography")
    over.piped(*commands, [sys.executable, TESTS / "fuzz_answers.py"])


@pytest.mark.slow
def test_answers_to_changed_messages(plain):
    compare_answers([plain.test("fuzz"), "lines", 2000, 1])


@pytest.mark.slow
def test_drawn_messages_under_the_sanitizers(library, tmp_path, pytestconfig):
    """Each is tried in some 30 calls."""
    program = library.compiled("tests/fuzz.c", over.with_sanitizers("cc", tmp_path), *over.SANITIZERS)
    run(program, pytestconfig.option.fuzz or 20_000)


@pytest.mark.slow
def test_drawn_changes_behind_the_checksum(library, tmp_path, pytestconfig):
    """Or behind the encryption: an independent sealer seals them anew."""
    program = library.compiled("tests/fuzz.c", over.with_sanitizers("cc", tmp_path), *over.SANITIZERS)
    count = (pytestconfig.option.fuzz or 8000) // 4
    compare_answers([sys.executable, TESTS / "fuzz_behind.py", count, 1], [program, "given"])


# ---- with more tools

@pytest.mark.slow
@pytest.mark.parametrize("name", SANITIZED)
def test_calls_under_the_sanitizers(name, library, sanitizing):
    """With the C beside the proved code, which is compiled so too."""
    run(library.test(name, sanitizing, is_sanitized=True), *words_of(name))


@pytest.mark.slow
@pytest.mark.parametrize("name", OF_MIT)
@pytest.mark.parametrize("by", ["gcc", "clang"])
def test_beside_mit_s_library(name, by, plain):
    run(plain.compiled(f"tests/{name}.c", over.there(by), *over.mit_flags()))


@pytest.mark.slow
@pytest.mark.parametrize("name", UNDER_VALGRIND)
def test_calls_under_valgrind(name, plain):
    run(over.there("valgrind"), *LEAKS, plain.test(name), *words_of(name))


@pytest.mark.slow
def test_more_programs_under_valgrind(plain):
    run(over.there("valgrind"), *LEAKS, plain.compiled("examples/two_ends.c"))
    run("valgrind", *LEAKS, plain.matrix(), over.ROOM / "krbrelay.h", "-", *SECRETS, "-", 0, 1)


@pytest.mark.slow
@pytest.mark.parametrize("name", ["mit", "flags"])
def test_sessions_of_mit_under_valgrind(name, plain):
    run(over.there("valgrind"), *LEAKS, plain.compiled(f"tests/{name}.c", "cc", *over.mit_flags()))


@pytest.mark.slow
@pytest.mark.parametrize("model", ["qemu64", "core2duo", "Conroe", "Penryn", "Nehalem"])
def test_old_processors(model, plain):
    """Those without x86-64-v2, and one with it and no more: none stops a program."""
    run(over.there("qemu-x86_64"), "-cpu", model, plain.test("processor"),
        "supported" if model == "Nehalem" else "unsupported")


@pytest.mark.slow
@pytest.mark.parametrize("model", ["qemu64", "Nehalem", "SandyBridge", "IvyBridge", "Haswell",
                                   *(f"Haswell,-{it}" for it in over.FEATURES)])
def test_processors_and_the_object_for_v3(model, for_v3):
    """One with the level, and that one without each of its features, of which xsave is the system's part."""
    run(over.there("qemu-x86_64"), "-cpu", model, for_v3.test("processor"),
        "supported" if model == "Haswell" else "refused")


# ---- after all others

def test_the_object_for_v3_was_tested(ran_over_v3):
    assert over.is_tested(ran_over_v3, pathlib.Path("/proc/cpuinfo").read_text(encoding="utf-8"))
