"""Compares krbrelay.h with the proved code: types, structs, enums, and the versions of names; and plants a fault in
each thing that is compared, which has to be reported by the line that names it.

The C library's functions are proved for Rust's types, and no compiler compares these with the header. Here the kit's
clang reads the header, for x86-64 and for aarch64. Compared are, for both: of each function what LLVM takes and
returns, with widths and extensions, in the header and in the proved module; of each struct the fields' order, offsets
and sizes; unproved/proved.h; the types by which Python calls the library; and each name's symbol version in
krbrelay.map with the one in released_names. And of each enum which numbers the library takes and gives that is built
for x86-64. LLVM's pointers tell no type: what they point to, their order, the names of parameters and the fields of
structs are read in the text of the crates' sources, and C's rules give the offsets there. KRBRELAY_DIRECTIONAL stands
in no call, so its number isn't tried.
"""
import pathlib

import pytest

import over_library
from lib.build import assembly
from signatures import plants
from signatures.given import MODULE, Given


@pytest.fixture(scope="module", params=[assembly.OWN, assembly.AARCH64], ids=lambda it: it.name)
def given(request, built, tmp_path_factory):
    """The repository, the proved module, and the library that was built of it, if it runs here."""
    folder = str(tmp_path_factory.mktemp("module"))
    assembly.fetch(assembly.LIBRARY, request.param, folder)
    text = pathlib.Path(assembly.module_text(folder, request.param)).read_text(encoding="utf-8")
    return Given({MODULE: text}, str(built / over_library.SONAME) if request.param == assembly.OWN else "")


@pytest.fixture(scope="module")
def before(given):
    """What isn't alike with nothing planted."""
    return plants.faults_of(given)


def test_the_header_is_that_of_the_proved_code(before):
    assert before == []


@pytest.mark.parametrize("plant", plants.PLANTS, ids=lambda it: it.name)
def test_a_planted_difference_is_reported(given, before, plant):
    if plant.expected.startswith("enum") and not given.library:
        pytest.skip("numbers of enums are those of the library's calls, on its own machine")
    assert plants.missing(given, plant, before) == ""
