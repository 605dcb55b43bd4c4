"""Compares what krbrelay prints of drawn inputs with an independent reader, sender and receiver
(reader.py and opener.py of tests/oracle).

    pytest tests/test_fuzz.py                       2,000 inputs; with --all 20,000 others; with --quick 300
    pytest --fuzz=COUNT --seed=N tests/test_fuzz.py so many, of a seed

Half of them are changed messages for `show` (fuzz_messages.py), of which a fifth is shown under a key, a quarter frames
in jobs for `open`, of which half are opened plain, and a quarter emissions in jobs for `seal` and `relay`
(fuzz_jobs.py); the last job of each may bring some more. Then as many jobs as a quarter of COUNT are spoilt. Then `show`
and `show --any` read texts with and without a key: a message with each separator put in at each place, and as many as a
twentieth of COUNT that have any bytes. Each job is one that tools/check_job passes if and only if it is no bad input,
and else they name the same fault. What is drawn depends on the seed and on its place alone. Where a line differs from
the right one, both are printed, and of a job the whole job.
"""
import itertools
import os
import random
import subprocess

import pytest

from lib import job_check, printed
from lib.build import building
from oracle import fixtures, fuzz_jobs, fuzz_messages

BATCH_DIGITS = 4_000_000  # of at most 16,777,216 bytes that the program reads
TIME_LIMIT = 60           # seconds for one run
BAD_INPUT = "krbrelay: bad input: "
PLAIN = "open --plain"


@pytest.fixture(scope="module")
def drawn(pytestconfig, krbrelay):
    """How many inputs are drawn, and their seed."""
    printed.use(krbrelay)
    usual, seed = (300, 1) if pytestconfig.option.quick else (20_000, 2) if pytestconfig.option.all else (2000, 1)
    return pytestconfig.option.fuzz or usual, pytestconfig.option.seed or seed


@pytest.fixture(params=[fixtures.KEY_128, fixtures.KEY_256], ids=["128 bits", "256 bits"])
def key(request):
    return request.param


@pytest.fixture
def key_file(key, tmp_path):
    (tmp_path / "key").write_bytes(key)
    return str(tmp_path / "key")


def run(command, text, *words):
    """The program's lines, the first line on standard error after them where there is one, and its
    status; nothing and None where it hangs."""
    try:
        done = printed.run(command, text, limit=TIME_LIMIT, words=words, stderr=subprocess.PIPE)
    except subprocess.TimeoutExpired:
        return [], None
    return done.stdout.splitlines() + done.stderr.splitlines(), done.returncode


# ---- messages

def batches(inputs):
    batch, digits = [], 0
    for data in inputs:
        batch.append(data)
        digits += 2 * len(data) + 1
        if digits > BATCH_DIGITS:
            yield batch
            batch, digits = [], 0
    yield batch


def compare_batch(batch, first, wanted, *words):
    """How many of the program's lines for a batch of messages differ from those that are wanted."""
    got, status = run("show", "".join(data.hex() + "\n" for data in batch), *words)
    right_status = 2 if any("refused" in line for line in wanted) else 0
    if (len(got), status) != (len(batch), right_status):
        print(f"FAILED {len(batch)} inputs from {first}: {len(got)} lines, status {status}")
        return len(batch)
    wrong = [it for it in range(len(batch)) if got[it] != wanted[it]]
    for it in wrong:
        print(f"FAILED input {first + it}: {batch[it].hex()}")
        print(f"  the reader:  {wanted[it]}\n  the program: {got[it]}")
    return len(wrong)


def wrong_messages(inputs, *words, **under):
    """How many of these messages `show` reads otherwise."""
    first = wrong = 0
    for batch in batches(inputs):
        wrong += compare_batch(batch, first, [fuzz_messages.line_of(data, **under) for data in batch], *words)
        first += len(batch)
    return wrong


def test_changed_messages(drawn):
    count, seed = drawn
    with open(os.path.join(building.TOP, "examples", "messages.hex"), encoding="ascii") as file:
        messages = [bytes.fromhex(line) for line in file]
    right = [it for it in messages if not fuzz_messages.line_of(it).startswith("refused")]
    worked = [fuzz_messages.tree(it)[0] for it in right]
    assert wrong_messages(fuzz_messages.drawn(seed, it, worked) for it in range(count * 2 // 5)) == 0


def test_changed_messages_under_a_key(drawn, key, key_file):
    """The unchanged ones are sealed under the key, and so are some of the changed bodies."""
    count, seed = drawn
    worked = [fuzz_messages.tree(frame)[0] for frame in fuzz_messages.sealed(key)]
    inputs = (fuzz_messages.drawn_under(key, seed, it, worked) for it in range(count // 20))
    assert wrong_messages(inputs, "--key", key_file, key=key) == 0


# ---- texts

@pytest.mark.parametrize("key", [fixtures.KEY_128], ids=["128 bits"], indirect=True)
@pytest.mark.parametrize("form", [[], ["--any"]], ids=["", "any"])
def test_texts(drawn, form, key, key_file):
    """Texts of messages with other bytes in them, which are no digits or stand between digits; every fourth under a key."""
    count, seed = drawn
    messages = list(fuzz_messages.sealed(key))
    shortest = min(messages, key=len).hex().encode()
    texts = itertools.chain(fuzz_messages.with_each_byte(shortest),
                            (fuzz_messages.drawn_text(seed, it, messages) for it in range(count // 20)))
    for place, text in enumerate(texts):
        of, words = (key, ["--key", key_file]) if place % 4 == 0 else (None, [])
        assert is_shown(text, fuzz_messages.shown(text, bool(form), of), [*form, *words])


def is_shown(text, wanted, words):
    """Whether `show` prints these lines of the bytes of a text and no other, and ends as it is to."""
    got = printed.run_over_bytes("show", text, limit=TIME_LIMIT, words=words)
    lines = got.stdout.decode("ascii").splitlines()
    if (lines, got.returncode, got.stderr) == (wanted, fuzz_messages.status_of(wanted), b""):
        return True
    print(f"FAILED show {' '.join(words)}, status {got.returncode}: {text!r}")
    print(f"  the reader:  {wanted}\n  the program: {lines}, {got.stderr!r}")
    return False


# ---- jobs

def status_of(command, lines):
    """The exit status of a run that prints these lines."""
    if any(line.startswith("krbrelay:") for line in lines):
        return 2
    if command == PLAIN:
        return 2 if any(" refused " in line for line in lines) else 0
    cut = command != "seal" and any(line.endswith(" TRUNCATED") for line in lines)
    return 3 if cut else 0


def agrees(command, place, text, got):
    """Whether tools/check_job says of a job what the program says."""
    said = next((line for line in got if line.startswith(BAD_INPUT)), None)
    found = job_check.check(text.encode(), command)
    wanted = BAD_INPUT + found.words if found else None
    if said != wanted:
        print(f"FAILED {command}, job {place}:\n{text}")
        print(f"  tools/check_job: {found}\n  the program:     {said}")
    return said == wanted


def is_right(command, place, text, wanted):
    """Whether the program prints these lines of a job and no other, and tools/check_job agrees."""
    word, *option = command.split()
    got, status = run(word, text, *option)
    if got == wanted and status == status_of(command, wanted):
        return agrees(word, place, text, got)
    print(f"FAILED {command}, job {place}, status {status}:\n{text}")
    for right, line in itertools.zip_longest(wanted, got, fillvalue="nothing"):
        if right != line:
            print(f"  the receiver: {right}\n  the program:  {line}")
    return False


DRAWN = {"open": fuzz_jobs.open_job, "seal": fuzz_jobs.seal_job, "relay": fuzz_jobs.relay_job,
         PLAIN: fuzz_jobs.plain_job}
SIXTEENTHS = {"open": 2, PLAIN: 2, "seal": 1, "relay": 3}      # of all inputs


@pytest.mark.parametrize("command", DRAWN)
def test_jobs(drawn, command):
    """Jobs of a command up to so many inputs."""
    count, seed = drawn
    done = 0
    for place in itertools.count():
        if done * 16 >= count * SIXTEENTHS[command]:
            break
        text, wanted, inputs = DRAWN[command](random.Random(f"{seed} {command} {place}"))
        assert is_right(command, place, text, wanted)
        done += inputs


@pytest.mark.parametrize("command", [it for it in DRAWN if it != PLAIN])
def test_spoilt_jobs(drawn, command):
    count, seed = drawn
    for place in range(count // 12):
        dice = random.Random(f"{seed} spoilt {command} {place}")
        text = fuzz_jobs.spoilt(dice, DRAWN[command](dice)[0])
        got, status = run(command, text)
        assert status is not None and agrees(command, f"spoilt {place}", text, got)
