"""Runs the built program as a user would: its exit statuses, what it writes on standard error, and
what it does where a stream is closed, full, a directory or too long.

Jobs and the lines that they print are the rows of tests/jobs/runs.toml, and jobs of which a line is
another those of keys.toml. The frames that are expected are those of tests/frames.py and of the
examples. A C compiler makes the libraries that interrupt reads and count naps.
"""
import collections
import os
import re
import resource
import subprocess
import tempfile
import time

import job_lines
import pytest
import runs

from lib import jobs
from lib.build import building, c_tools


LIMIT = 16_777_216


def example(name):
    with open(os.path.join(building.TOP, 'examples', name), 'rb') as file:
        return file.read()


class Program:
    def __init__(self, program):
        self.program = program

    def run(self, words, data=b'', memory=None, **streams):
        given = dict(stdout=subprocess.PIPE, stderr=subprocess.PIPE)
        if memory:      # a function for the child makes its start slow
            given['preexec_fn'] = lambda: resource.setrlimit(resource.RLIMIT_AS, (memory, memory))
        given.update(streams)
        if 'stdin' not in given:
            given['input'] = data
        done = subprocess.run([self.program] + words, timeout=60, **given)
        return done.returncode, done.stdout, done.stderr


@pytest.fixture(scope='module')
def t(krbrelay):
    return Program(krbrelay)


def check(answer, status, out=None, err=None):
    """An `out` or `err` of None isn't looked at; a function is asked."""
    for got, want in zip(answer, (status, out, err)):
        assert want is None or (want(got) if callable(want) else got == want)


def fault(answer, status, words, out=b''):
    check(answer, status, out, f'krbrelay: {words}\n'.encode())


def lines_of_relay():
    return (b'lane 0 text 6869\nlane 1 text 736563726574\nlane 2 text 6c617374\n'
            b'lane 0 refused 42 BADORDER\nlane 1 closed\nlane 0 refused 41 MODIFIED\n'
            b'lane 0 text 616761696e\nlane 0 closed\n'
            b'lane 0 sent 2 of 2 DONE CLOSED\nlane 1 sent 1 of 2 LAST_NUMBER CLOSED\n'
            b'lane 2 sent 1 of 1 DONE TRUNCATED\n')


def test_statuses(t):
    seal, opened = example('seal.toml'), example('open.toml')
    check(t.run(['seal'], seal), 0, lambda o: o.count(b'\n') == 3
            and o.startswith(b'745e305c') and o.endswith(b'sent 1 of 1 DONE\n'), b'')
    check(t.run(['open'], opened), 0,
            b'lane 0 text 6869\nlane 0 closed\nlane 0 refused 903 AFTER_CLOSE\nlane 0 CLOSED\n',
            b'')
    check(t.run(['relay'], example('relay.toml')), 3, lines_of_relay(), b'')
    check(t.run(['show'], example('messages.hex')), 2,
            lambda o: o.startswith(b'SAFE 5 20 data=446869')
            and o.endswith(b'refused 901 MALFORMED\n'), b'')
    check(t.run(['show'], b''), 0, b'', b'')
    check(t.run(['vectors']), 0, lambda o: o.count(b'\n') == 9, b'')
    # What one end seals the other opens: the frames of `seal` as the frames of `open`.
    frames = t.run(['seal'], seal)[1].split(b'\n')[:2]
    job = opened[:opened.index(b'frames = [')]
    job += b'frames = [' + b', '.join(b'"' + f + b'"' for f in frames) + b']\n'
    check(t.run(['open'], job), 0,
            b'lane 0 text 6869\nlane 0 closed\nlane 0 CLOSED\n', b'')
    check(t.run(['open'], job.replace(b', "' + frames[1] + b'"', b'')), 3,
            b'lane 0 text 6869\nlane 0 TRUNCATED\n', b'')


def of_mit():
    """A job that opens the two KRB-PRIV of a change of a password that MIT's kpasswd and kadmind sent each other
    (RFC 3244): the answer, whose data are the result 0, and the request, which has no number."""
    captured, header = example('kpasswd.pcapng'), rb'\x75.\x30.\xa0\x03\x02\x01\x05\xa1\x03\x02\x01\x15'
    places = [it.start() for it in re.finditer(header, captured, re.DOTALL)]
    request, answer = (captured[at:at + 2 + captured[at + 1]] for at in places)
    key, loopback = bytes.fromhex(example('kpasswd.key').decode()), (2, bytes([127, 0, 0, 1]))
    session = jobs.Session(key, 'priv', 133398475, loopback, loopback, expect_time=False)
    return jobs.job([jobs.sender(session, frames=[answer, request])]).encode()


def test_data_that_are_no_record(t):
    check(t.run(['open'], of_mit()), 3,
            b'lane 0 refused 902 BAD_RECORD\nlane 0 refused 42 BADORDER\nlane 0 TRUNCATED\n', b'')
    check(t.run(['open', '--plain'], of_mit()), 2, b'lane 0 data 0000\nlane 0 refused 42 BADORDER\n', b'')


def test_batches(t):
    job = example('batches.toml')
    first, last = b'lane 0 text 61\nlane 0 text 62\n', b'lane 0 text 63\nlane 0 closed\n'
    done = b'lane 0 sent 3 of 3 DONE CLOSED\n'
    check(t.run(['relay'], job), 0, first + last + done, b'')
    check(t.run(['relay'], job + b'plan = ["0", "0", "1", "2"]\n'), 0,
            first + b'lane 0 refused 42 BADORDER\n' + last + done, b'')
    check(t.run(['relay'], job.replace(b'first = 7', b'first = 4294967294')), 0,
            first + b'lane 0 closed\nlane 0 sent 2 of 3 LAST_NUMBER CLOSED\n', b'')
    sealed = t.run(['seal'], job)
    frames = sealed[1].split(b'\n')[:3]
    head = b'74663064a003020105a103020114a23f303da00d040b4200000001610000000162'
    check(sealed, 0, lambda o: o.startswith(head) and len(frames[0]) == 2 * 104
            and frames[0].endswith(b'040c34bfe85cb025148f49575c3e')
            and o.endswith(b'\nsent 3 of 3 DONE\n'), b'')
    opened = example('open.toml')
    opened = opened[:opened.index(b'frames = [')]
    opened += b'frames = [' + b', '.join(b'"' + f + b'"' for f in frames) + b']\n'
    check(t.run(['open'], opened), 0, first + last + b'lane 0 CLOSED\n', b'')
    for batch in (b'0', b'1001', b'"2"'):
        fault(t.run(['relay'], job.replace(b'batch = 2', b'batch = ' + batch)), 2,
                'bad input: sender 0: batch')
    fault(t.run(['open'], opened + b'batch = 1\n'), 2,
            'bad input: sender 0: batch')


@pytest.mark.large
def test_large_batches(t):
    """The most texts of a batch, and the most bytes."""
    job = example('batches.toml')
    texts, own = b'texts = ["61", "62", "63"]', b'batch = 2'
    most = job.replace(texts, b'texts = [' + b', '.join([b'"6869"'] * 1000) + b']')
    for batch, frames in ((b'batch = 999', 3), (b'batch = 1000', 2)):
        check(t.run(['seal'], most.replace(own, batch)), 0,
                lambda o, count=frames + 1: o.count(b'\n') == count
                and o.endswith(b'sent 1000 of 1000 DONE\n'), b'')
    check(t.run(['relay'], most.replace(own, b'batch = 1000')), 0,
            b'lane 0 text 6869\n' * 1000
            + b'lane 0 closed\nlane 0 sent 1000 of 1000 DONE CLOSED\n', b'')
    # Alone the last of them is larger than a batch may be.
    for size, other, frames in ((499_996, 499_996, 2), (499_997, 499_996, 3), (999_992, 0, 2),
                                (999_993, 0, 3), (1_000_000, 0, 3)):
        pair = b'texts = ["' + b'00' * size + b'", "' + b'00' * other + b'"]'
        check(t.run(['seal'], job.replace(texts, pair)), 0,
                lambda o, count=frames + 1: o.count(b'\n') == count
                and o.endswith(b'sent 2 of 2 DONE\n'), b'')


def test_bad_input(t):
    seal = example('seal.toml')
    for name, data, words in [
            ('no document', b'a = = b', 'toml'), ('no text', b'\xff\xfe', 'toml'),
            ('no sender', b'', 'sender'), ('no capacity', b'capacity = 0\n' + seal, 'capacity'),
            ('an unknown key', b'other = 1\n' + seal, 'unknown key'),
            ('no encryption type', seal.replace(b'etype = 17', b'etype = 16'), 'sender 0: etype')]:
        fault(t.run(['seal'], data), 2, f'bad input: {words}')
    for command in ('open', 'relay'):
        fault(t.run([command], b''), 2, 'bad input: sender')


@pytest.mark.large
def test_longest_input(t):
    seal = example('seal.toml')
    whole = seal + b'\n' * (LIMIT - len(seal))
    check(t.run(['seal'], whole), 0,
            lambda o: o.endswith(b'DONE\n'), b'')
    for command in ('seal', 'open', 'relay', 'show'):
        fault(t.run([command], whole + b'\n'), 2,
                'bad input: input')


def test_command_line(t):
    check(t.run([]), 2, b'', lambda e: b'Usage: krbrelay' in e)
    check(t.run(['help']), 2, b'', lambda e: e.startswith(b'error: '))
    check(t.run(['show', 'file']), 2, b'', lambda e: e.startswith(b'error: '))
    check(t.run(['relay', 'job.toml']), 2, b'',
            lambda e: b'Usage: krbrelay relay < JOB.toml\n' in e)
    for words in (['seal', '--plain'], ['open', '--any'], ['open', '--plain=true']):
        check(t.run(words), 2, b'', lambda e: e.startswith(b'error: '))
    check(t.run([b'\xff']), 2, b'',
            b'error: invalid UTF-8 was detected in one or more arguments\n')
    for word in ('--help', '-h'):
        check(t.run([word]), 0, lambda o: b'Usage: krbrelay' in o, b'')
    for word in ('--version', '-V'):
        check(t.run([word]), 0, lambda o: o.startswith(b'krbrelay '), b'')
    for command in ('show', 'vectors', 'seal', 'open', 'relay'):
        check(t.run([command, '--help']), 0,
                lambda o: f'Usage: krbrelay {command}'.encode() in o, b'')


def test_streams(t):
    jobs = dict(show=example('messages.hex'), vectors=b'', seal=example('seal.toml'),
                open=example('open.toml'), relay=example('relay.toml'))
    for command, data in jobs.items():
        with open('/dev/full', 'wb') as full:
            fault(t.run([command], data, stdout=full), 4,
                    'write fault', None)
        read, write = os.pipe()
        os.close(read)
        # Nobody reads: the write fails, or a signal ends the process.
        answer = t.run([command], data, stdout=write)
        os.close(write)
        check(answer, lambda s: s in (4, -13))
    for command in ('show', 'seal', 'open', 'relay'):
        with tempfile.TemporaryDirectory() as folder:
            directory = os.open(folder, os.O_RDONLY)
            fault(t.run([command], stdin=directory), 4, 'read fault')
            os.close(directory)


@pytest.mark.large
def test_no_memory(t):
    for command in ('seal', 'open', 'relay'):
        job = example(f'{command}.toml')
        data = job + b'\n' * (LIMIT - len(job))
        fault(t.run([command], data, memory=16 << 20), 4,
                'out of memory', None)


def test_interrupted_reads(t):
    """A signal interrupts each read that waits, and no call is restarted."""
    job = example('seal.toml')
    wanted = t.run(['seal'], job)
    with tempfile.TemporaryDirectory() as folder:
        report_of = os.path.join(folder, 'report')
        library = c_tools.preloaded(folder, 'tests', 'preloaded', 'interrupt.c')
        given = dict(os.environ, LD_PRELOAD=library, INTERRUPT_REPORT=report_of)
        with subprocess.Popen([t.program, 'seal'], env=given, stdin=subprocess.PIPE,
                              stdout=subprocess.PIPE, stderr=subprocess.PIPE) as running:
            for part in (job[:40], job[40:]):
                time.sleep(0.2)
                running.stdin.write(part)
                running.stdin.flush()
            out, err = running.communicate(timeout=60)
        check((running.returncode, out, err), *wanted)
        assert os.path.exists(report_of)


LONGEST_NAP = 5_120     # microseconds


def naps(t, job, pause=0):
    """How often the threads of `relay` that seal wait for a time, the longest that they ask for, and how often they
    give way to others. The thread that takes frames pauses for so many microseconds after each wait."""
    with tempfile.TemporaryDirectory() as folder:
        told = os.path.join(folder, 'told')
        given = dict(os.environ, LD_PRELOAD=c_tools.preloaded(folder, 'tests', 'preloaded', 'naps.c'),
                     NAPS_TO=told, NAPS_PAUSE=str(pause))
        assert t.run(['relay'], job, env=given)[0] == 0
        with open(told, encoding='ascii') as file:
            return tuple(map(int, file.read().split()))


def lane_of(texts, capacity):
    session = jobs.session(17, 'safe', b'\1' * 16)
    return (f'capacity = {capacity}\n' + jobs.sender(session, texts=texts)).encode()


def test_no_rest_where_there_is_room(t):
    """61 texts, their close and the end of the lane fit it: a sender neither naps nor gives way."""
    assert naps(t, lane_of([b'hi'] * 61, 64)) == (0, 0, 0)


def test_naps_are_short(t):
    """A sender whose lane is full looks again soon, however long it stays so."""
    times, longest, yields = naps(t, lane_of([b'hi'] * 5, 1), pause=100_000)
    assert times > 0 and longest <= LONGEST_NAP and yields > 0


def test_nothing_is_read(t):
    """Words that name no command, `vectors` and help read nothing: the file that they are given
    stands where it stood."""
    for words, status in (([], 2), (['shows'], 2), (['show', 'it'], 2), (['--help'], 0),
                          (['vectors'], 0)):
        with tempfile.TemporaryFile() as file:
            file.write(b'0' * 64)
            file.seek(16)
            os.lseek(file.fileno(), 16, os.SEEK_SET)
            check(t.run(words, stdin=file), status)
            assert os.lseek(file.fileno(), 0, os.SEEK_CUR) == 16


# ---- the rows of tables

def named(words, cases):
    """Parameters of a test, whose first one is the case's name."""
    return pytest.mark.parametrize(words, [pytest.param(*it[1:], id=it[0]) for it in cases])


RUNS = runs.Runs()
SMALL = list(RUNS.cases(RUNS.jobs, RUNS.bad_plans, RUNS.shown, RUNS.opened, RUNS.cut, RUNS.most, RUNS.rounds,
                        RUNS.vectors))
LARGE = runs.Runs()
LARGE = LARGE.cases(LARGE.zeros, LARGE.shown_zeros, LARGE.longest)
LINES, LONG_LINES = job_lines.Lines(), job_lines.Lines()
OF_LINES = LINES.cases(LINES.lines, LINES.wide_keys, LINES.tops, LINES.order, LINES.senders)
OF_LONG = LONG_LINES.cases(LONG_LINES.limits)


@named('words, data, status, out, err', SMALL)
def test_run(t, words, data, status, out, err):
    check(t.run(words, data), status, out, err)


@pytest.mark.large
@named('words, data, status, out, err', LARGE)
def test_long_run(t, words, data, status, out, err):
    check(t.run(words, data), status, out, err)


@named('command, data, told', OF_LINES)
def test_line(t, command, data, told):
    """The command finds the job bad, by this fault, and prints nothing."""
    fault(t.run([command], data), 2, f'bad input: {told}')


@pytest.mark.large
@named('command, data, told', OF_LONG)
def test_long_line(t, command, data, told):
    fault(t.run([command], data), 2, f'bad input: {told}')


@pytest.mark.large
@pytest.mark.parametrize('texts, other', RUNS.sealed(), ids=lambda it: f'{it}'[:60])
def test_what_was_sealed(t, texts, other):
    """What `seal` prints of texts, `open` gives."""
    status, out, _ = t.run(['seal'], RUNS.job('seal', [{'texts': f'{texts}'}], other).encode())
    frames = out.decode().splitlines()[:-1]
    lines = [f'lane 0 text {it}' for it in texts] + ['lane 0 closed', 'lane 0 CLOSED']
    assert (status, len(frames)) == (0, len(texts) + 1)
    check(t.run(['open'], RUNS.job('open', [{'frames': f'{frames}'}], other).encode()), 0,
          ''.join(f'{line}\n' for line in lines).encode())


@named('key, form, words, data, status, after', RUNS.under_keys())
def test_shown_under_a_key(t, tmp_path, key, form, words, data, status, after):
    """The fields are those of `show` without a key, and what the key gives comes after them."""
    file = tmp_path / 'key'
    file.write_bytes(key)
    fields = t.run(['show', *form], data)[1].decode().splitlines()
    assert len(fields) == len(after)
    lines = ''.join(f'{front}{back}\n' for front, back in zip(fields, after))
    check(t.run(['show', *form, '--key', str(file), *words], data), status, lines.encode(), b'')


@named('key, words, told', RUNS.no_keys())
def test_no_key(t, tmp_path, key, words, told):
    """Bad input is told in a line, and nothing is printed and nothing read."""
    file = tmp_path / 'key'
    file.write_bytes(key)
    fault(t.run(['show', '--key', str(file), *words], example('messages.hex')), 2,
          f'bad input: key: {told}')


def test_key_options(t, tmp_path):
    """A file that isn't there, that is a folder or too long; a type without a key; options of another
    command, and options without a value."""
    messages, key = example('messages.hex'), tmp_path / 'key'
    for path in ('none', str(tmp_path)):
        fault(t.run(['show', '--key', path], messages), 2,
              "bad input: key: the file can't be read")
    key.write_bytes(bytes(LIMIT + 1))
    fault(t.run(['show', '--key', str(key)], messages), 2,
          "bad input: key: the file can't be read")
    fault(t.run(['show', '--etype', '17'], messages), 2,
          'bad input: key: --etype is given without --key')
    fault(t.run(['show', '--any', '--etype', '17'], messages), 2,
          'bad input: key: --etype is given without --key')
    for words in (['vectors', '--key', str(key)], ['show', '--key'], ['vectors', '--any'],
                  ['show', '--any=true'], ['show', '--any', '--any'],
                  ['show', '--key', str(key), '--etype'], ['show', '--etype', '17', 'more']):
        check(t.run(words, messages), 2, b'', lambda e: e.startswith(b'error: '))


@pytest.mark.parametrize('row', RUNS.table['flipped'], ids=lambda row: row['frame'])
def test_each_flipped_bit(t, row):
    frame = bytes.fromhex(RUNS.filled(row['frame']))
    status, out, _ = t.run(['open'], RUNS.single(row, [*runs.flips(frame), frame.hex()]))
    *lines, text, end = out.decode().splitlines()
    assert collections.Counter(line.split()[3] for line in lines) == row['codes']
    assert (status, text, end) == (3, 'lane 0 text 6869', 'lane 0 TRUNCATED')


@pytest.mark.parametrize('row', RUNS.table['spelt'], ids=lambda row: row['message'][:30])
def test_each_bit_and_prefix_shown(t, row):
    message = bytes.fromhex(RUNS.filled(row['message']))

    def shown(messages):
        return t.run(['show'], ''.join(f'{it}\n' for it in messages).encode())[1].decode().splitlines()

    lines = shown(runs.flips(message))
    assert (len(lines), lines.count('refused 901 MALFORMED')) == (8 * len(message), 8 * len(message) - row['flips'])
    assert shown(runs.prefixes(message)) == ['refused 901 MALFORMED'] * len(message)


@pytest.mark.parametrize('command', ['relay', 'show'])
def test_help(t, command):
    out, told = t.run([command, '--help'])[1].decode(), RUNS.table['help']
    keys = [f'\n  {key} = ' for key in told['keys']] if command == 'relay' else []
    assert [it for it in told[command] + keys if it not in out] == []
