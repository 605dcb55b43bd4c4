"""Where libkrbrelay is built and installed, each of both objects, and each compiler, as fixtures."""
import pathlib

import pytest

import over_library as over
from lib.build import building, levels

SLOW = pytest.mark.slow
RAN_OVER_V3 = pytest.StashKey()


@pytest.fixture(scope="session")
def make(pytestconfig):
    """Runs make in c/, which may have much to prove first."""
    given = pytestconfig.getoption("--built")
    words = [f"OUT={pathlib.Path(given).absolute()}", "ASSEMBLE=true"] if given else []
    return lambda *goals: over.run("make", "-s", "-C", over.ROOM, *words, *goals, timeout=None)


@pytest.fixture(scope="session")
def built(pytestconfig, make):
    """The folder in which the library is built."""
    make("all")
    return pathlib.Path(pytestconfig.getoption("--built") or building.C_LIBRARY).absolute()


@pytest.fixture(scope="session")
def objects(built, tmp_path_factory):
    """Both objects, by the folder below that of the library."""
    flags = {"": over.FLAGS, "v3": (*over.FLAGS, "-DKRBRELAY_X86_64_V3")}
    return {name: over.Library(built / name, words, tmp_path_factory.mktemp(f"programs{name}"))
            for name, words in flags.items()}


@pytest.fixture
def plain(objects):
    return objects[""]


@pytest.fixture
def for_v3(request, objects):
    """The object for x86-64-v3. It is noted that a test ran over it."""
    if not levels.own():
        pytest.skip("this processor or its loader doesn't have x86-64-v3")
    request.config.stash[RAN_OVER_V3] = True
    return objects["v3"]


@pytest.fixture(params=["plain", "for_v3"])
def library(request):
    return request.getfixturevalue(request.param)


@pytest.fixture
def ran_over_v3(pytestconfig):
    """Whether a test ran over the object for x86-64-v3. A run of some tests says nothing of it."""
    if pytestconfig.option.keyword or pytestconfig.option.share or any("::" in it for it in pytestconfig.args):
        pytest.skip("only some tests were asked for")
    return pytestconfig.stash.get(RAN_OVER_V3, False)


@pytest.fixture(params=["cc", pytest.param("gcc", marks=SLOW), pytest.param("clang", marks=SLOW)])
def compiler(request):
    """Each compiler. The first builds the library, too, and has to be there."""
    return request.param if request.param == "cc" else over.there(request.param)


@pytest.fixture(params=["gcc", "clang"])
def sanitizing(request, tmp_path):
    """Each compiler that has sanitizers. A test that takes it is slow."""
    return over.with_sanitizers(request.param, tmp_path)


@pytest.fixture(scope="session")
def installed(make, tmp_path_factory):
    """A prefix at which the library is installed."""
    prefix = tmp_path_factory.mktemp("installed")
    make("install", f"PREFIX={prefix}")
    return prefix
