"""Runs of chaos (chaos.py), after which each text has to have taken effect once and in order: over SQLite, over JetStream
of one and three nodes, and over each kind of store. With --runs so many over three nodes, from a --seed on."""
import chaos
import engines
import pytest

STORES = "postgresql", "sqlite", "shards", "postgresql"
FILES = {"files": {"seconds": 8}, "files, shared": {"seconds": 8, "seed": 2, "is_shared": True},
         "files, receipts": {"seconds": 8, "seed": 3, "has_receipts": True}}
NODES = {**{f"nodes, {store}, {seed}": {"carrier": "nats3", "store": store, "seed": seed, "has_receipts": seed % 2 == 0}
            for seed, store in enumerate(STORES, 11)},
         "one node": {"carrier": "nats1", "store": "shards", "seed": 21, "seconds": 10},
         "nodes, shared": {"carrier": "nats3", "store": "postgresql", "seed": 22, "is_shared": True}}
SANITIZED = {"sanitized, nodes": {"carrier": "nats3", "store": "postgresql", "seed": 31},
             "sanitized, files": {"seed": 32, "seconds": 10}}


def drawn(runs, seed):
    return {f"drawn {it}": {"carrier": "nats3", "store": STORES[it % len(STORES)], "seed": seed + it,
                            "has_receipts": it % 2 == 1} for it in range(runs)}


def settings(config):
    """The settings of the runs, by their names, that the options choose."""
    runs = config.getoption("--runs", None)
    if runs:
        return drawn(runs, config.getoption("--seed") or 1)
    return SANITIZED if config.getoption("--sanitized", None) else FILES | NODES


def pytest_generate_tests(metafunc):
    metafunc.parametrize("name", [pytest.param(it, marks=() if it in FILES else pytest.mark.slow)
                                  for it in settings(metafunc.config)])


@pytest.fixture(scope="module")
def faults(pytestconfig, ahead, programs, compared):
    """What goes wrong in a run: those over files are at work beside each other."""
    known = settings(pytestconfig)

    def run(name):
        with engines.new_folder() as folder:
            trial = chaos.Trial(chaos.Setting(folder, programs, compared, **known[name]))
            trial.run()
        print(name, trial.told())
        return trial.faults[:10]
    beside = ahead(run, FILES)
    return lambda name: (beside if name in FILES else run)(name)


def test_chaos(faults, name):
    assert faults(name) == []
