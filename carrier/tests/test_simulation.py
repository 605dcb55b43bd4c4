"""Drawn runs of the shipped sender and receivers (carrier/simulation): no profile of the gate breaks a rule, each
kind of fault happens in them, and each mutant and planted fault is found, where the tree as it is breaks no such
rule, or another rule makes up for it."""
import os
import re

import pytest

from lib import scripts
from lib.build import building

simulate = scripts.load("carrier/simulation/simulate")
profiles, plants = simulate.profiles, simulate.plants
JOBS = min(2, os.cpu_count() or 1)
KINDS = dict(re.findall(r'X\(\w+, "(\w+)", "(.*?)"\)', building.text_of("carrier/simulation/kinds.h")))
SANITIZED = [profiles.Row(it, 1) for it in (
    "lost+killed+memory", "restored+deleted", "refused_a_while", "calm+tickets", "moved+stopped+copied", "uncommitted")]


def kinds_of(rows):
    return {kind for row in rows for kind in re.split(r"[+,]", f"{row.profile},{getattr(row, 'besides', '')}") if kind}


@pytest.fixture(scope="module", name="program")
def built():
    return simulate.build(simulate.library())


@pytest.fixture(scope="module", name="result")
def of_all(program):
    return simulate.run(program, profiles.PASSES, JOBS)


def test_no_seed_breaks_a_rule(result):
    assert result.failures == [] and (result.passed, result.failed) == (sum(it.seeds for it in profiles.PASSES), 0)


def test_each_kind_of_fault_happens(result):
    assert [text for text in KINDS.values() if result.counts[text] == 0] == []


def test_each_kind_is_in_a_table():
    assert kinds_of(profiles.PASSES) == set(KINDS)


def test_a_run_is_repeated_by_its_seed(program):
    once, again, other = (simulate.run(program, [profiles.Row("lost+killed+memory", 2, "", first)])
                          for first in (7, 7, 8))
    assert (once.counts, once.steps) == (again.counts, again.steps) != (other.counts, other.steps)


def test_a_seed_that_fails_is_made_smaller(program):
    plant = "a probe never has the opening"
    smaller = simulate.smaller(program, "lost+tickets+keys", 1, plant)
    assert set(smaller.split("+")) >= {"tickets", "keys"} and "lost" not in smaller and "=" in smaller
    assert "STANDS" in simulate.breaks(program, smaller, 1, plant=plant)
    assert simulate.smaller(program, "lost+tickets+keys", 1) == "lost+tickets+keys"


def test_sanitizers_find_nothing(program):
    sanitized = simulate.build(simulate.library(), sanitizes=True)
    result, plain = (simulate.run(it, SANITIZED, JOBS) for it in (sanitized, program))
    assert result.failures == [] and (result.counts, result.steps) == (plain.counts, plain.steps)


def test_each_mutant_is_in_the_table():
    """But for those of real openings and of NATS."""
    edits = simulate.mutants.EDITS | simulate.mutants.TICKET_EDITS
    elsewhere = {"nats_publisher.c", "opening.c"}
    assert set(profiles.MUTANTS) == {it for it, edit in edits.items() if edit[0] not in elsewhere}


def test_each_planted_fault_is_in_a_table():
    engine = re.findall(r'X\(\w+, "(.*?)"\)', building.text_of("carrier/simulation/engine.c"))
    assert len(engine) >= 20 and set(engine) == {it for it in plants.FOUND | plants.MADE_UP if not simulate.edits_of(it)}
    assert not set(plants.FOUND) & set(plants.MADE_UP)


@pytest.mark.parametrize("name", profiles.MUTANTS | plants.FOUND)
def test_a_mutant_is_found(program, name):
    profile, seed, rule, *_ = (profiles.MUTANTS | plants.FOUND)[name]
    assert simulate.finds_mutant(simulate.library(), name)
    assert rule not in simulate.breaks(program, profile, seed)


@pytest.mark.parametrize("name", plants.MADE_UP)
def test_another_rule_makes_up(name):
    assert simulate.breaks_made_up(simulate.library(), name) == set()


@pytest.mark.parametrize("name", [it for it in plants.MADE_UP if not simulate.edits_of(it)])
def test_what_another_rule_makes_up_for_happens(program, name):
    """In each of its profiles: that no rule is broken says nothing where the fault has no effect."""
    for row in [profiles.Row(it, simulate.FEW) for it in plants.MADE_UP[name][1]]:
        with_it, without = (simulate.run(program, [row], JOBS, plant=plant) for plant in (name, ""))
        assert (with_it.steps, with_it.counts) != (without.steps, without.counts), row.profile
