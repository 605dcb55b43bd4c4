"""Each mutant of mutants.py is found by what has to find it, which says what it has to say."""
import builds
import cases
import chaos
import engines
import mutants
import pytest
import test_receipts
import test_repro
import test_safety
import test_tickets
from test_tickets import templates  # noqa: F401

SMALL = {"sessions": 12, "texts": 150, "shards": 3, "seconds": 3}
OVER_FILES = ["no compare-and-set", *mutants.CASES]
OF_FILES = {it.name(): it for it in test_repro.CASES + test_receipts.CASES + test_safety.CASES}
OF_TICKETS = {it.name(): it for it in test_tickets.CASES} | {it.done: it for it in test_tickets.NOT_RIGHT}


@pytest.fixture(scope="module")
def over_mutant(prefix, with_servers):
    """What a function says of the programs that are built of a mutant."""
    def of(name, work, target="ends"):
        with engines.new_folder() as folder:
            mutants.write(name, builds.SOURCES, f"{folder}/carrier")
            return work(builds.build(f"{folder}/programs", prefix, with_servers, sources=f"{folder}/carrier",
                                     target=target))
    return of


def said_by_case(make, programs, case, *more):
    """What a case says at a place that is made for it."""
    try:
        with engines.new_folder() as folder, make(programs, f"{folder}/case", case, *more) as place:
            case.do(place)
    except AssertionError as fault:
        return [str(fault)]
    return []


def said_by_chaos(name, programs, **given):
    """What chaos says, with three seeds at most."""
    for seed in (1, 2, 3):
        with engines.new_folder() as folder:
            trial = chaos.Trial(chaos.Setting(folder, programs, seed=seed, patience=30, settle=5, **given))
            trial.run()
        if mutants.found(name, trial.faults):
            break
    return trial.faults[:10]


@pytest.fixture(scope="module")
def faults(ahead, over_mutant):
    """What a case, or chaos over SQLite, says of a mutant."""
    def work(name):
        if name in mutants.CHAOS:
            return over_mutant(name, lambda programs: said_by_chaos(name, programs, **SMALL))
        case = OF_FILES[mutants.CASES[name][0]]
        return over_mutant(name, lambda programs: said_by_case(cases.Place, programs, case))
    return ahead(work, OVER_FILES)


@pytest.fixture(scope="module")
def faults_of_tickets(ahead, over_mutant, realm, other_realm, templates):  # noqa: F811
    """What a case, or an opening that isn't right, says of a mutant."""
    def work(name):
        case = OF_TICKETS[mutants.TICKETS[name][0]]
        return over_mutant(name, lambda programs: said_by_case(
            test_tickets.Place, programs, case, realm, other_realm, templates), "tickets")
    return ahead(work, mutants.TICKETS)


@pytest.mark.parametrize("name", OVER_FILES)
def test_mutant(faults, name):
    assert mutants.found(name, faults(name)), faults(name)


@pytest.mark.slow
@pytest.mark.parametrize("name", mutants.TICKETS)
def test_mutant_of_tickets(faults_of_tickets, name):
    assert mutants.found(name, faults_of_tickets(name)), faults_of_tickets(name)


@pytest.mark.slow
@pytest.mark.parametrize("name", mutants.CHAOS)
def test_mutant_over_nodes(over_mutant, name):
    said = over_mutant(name, lambda programs: said_by_chaos(name, programs, carrier="nats3"))
    assert mutants.found(name, said), said
