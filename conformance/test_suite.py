"""Tests the conformance suite, and readers over it.

The suite has the SHA-256 and the counts of generated.toml, and is right by its schema. Each valid case is taken, each
invalid one refused, by the name of its first check where names are held, and each acceptable one as known.toml says,
which has a reason for each difference. Verdicts are stated in vectors/groups: the two openers in Python, which share no
code, have to agree with them. With --quick there are only these; with --all MIT's and Heimdal's libraries are read, too,
and the runners in C run under sanitizers. --prefix says where libkrbrelay is installed; else it is what make in c/ built.
"""
import json

import pytest

from lib.build import building
from vectors import build, held, readers
from vectors.flags import FLAGS
from vectors.schema import Schema

OURS = [it for it in readers.implementations() if it.startswith("krbrelay_")]
READERS = ["oracle", "stranger", *(pytest.param(it, marks=pytest.mark.large) for it in OURS),
           *(pytest.param(it, marks=pytest.mark.slow) for it in ("mit", "heimdal"))]
FAULT_KINDS = ("refused", "accepted", "other data", "crash")


# ---- what is generated

def test_it_is_generated_as_it_was():
    assert build.described(build.built()) == build.table("generated")


def test_it_is_right_by_its_schema():
    schema = Schema(json.loads((build.ROOM / build.SCHEMA).read_text(encoding="utf-8")))
    assert list(schema.faults(json.loads(build.text_of(build.built()))))[:held.SHOWN] == []


def test_each_flag_has_a_case():
    assert {flag for _, case in build.cases(build.built()) for flag in case.flags} == set(FLAGS)


def flags_of_known(table):
    for name, part in table.items():
        parts = part.values() if name in ("counts", "why") else [part] if isinstance(part, dict) else []
        for flags in parts:
            yield from flags


@pytest.mark.parametrize("name, table", build.table("known").items())
def test_what_is_known_of_a_reader_has_flags_of_the_suite_and_reasons(name, table):
    """Each difference that was measured has its reason."""
    assert set(flags_of_known(table)) <= set(FLAGS)
    assert [f"{name}: {kind} {flag}" for kind in FAULT_KINDS for flag in table.get("counts", {}).get(kind, {})
            if not table.get("why", {}).get(kind, {}).get(flag)] == []


@pytest.mark.slow
def test_the_files_of_a_release_are_the_same_bytes_twice():
    assert build.released("0") == build.released("0") != {}


# ---- readers

@pytest.fixture(scope="module")
def library(pytestconfig):
    program = building.KRBRELAY if pytestconfig.option.quick else building.krbrelay()
    return readers.library_at(pytestconfig.option.prefix, program)


@pytest.mark.parametrize("name", READERS)
def test_a_reader_answers_as_is_known(name, library, pytestconfig):
    try:
        passed, wrong = held.compared(name, library, sanitized=pytestconfig.option.all)
    except readers.NotThere as fault:
        if name in ("mit", "heimdal"):
            pytest.skip(str(fault))
        raise
    assert passed > 0 and wrong[:held.SHOWN] == []
