"""Drawn jobs for `seal`, `open` and `relay` of krbrelay, and what it is to print of them by an
independent sender and receiver (opener.py): sessions at the edges of what a job may say, whose
wires carry right frames, of one text or of several, frames that are repeated, dropped, exchanged,
cut or changed, and frames that somebody with the key, or with another one, made up."""
from lib import jobs
from oracle import frames, fuzz_messages, opener

LAST_MOMENT = 253_402_300_799_999_999
NUMBERS = [0, 1, 7, 127, 128, 2**31 - 1, 2**31, 2**32 - 3, 2**32 - 2, 2**32 - 1]
KINDS = [-(2**31), -1, 0, 2, 24, 2**31 - 1]
MOMENTS = [5, 951_782_400_000_000, jobs.MICROS, jobs.MICROS + 999_994, LAST_MOMENT]
SIZES = [0, 0, 1, 2, 2, 3, 13, 14, 15, 16, 31, 100, 200, 1000]
LONG = [[59_999], [65_535], [999_999], [1_000_000], [499_996, 499_996], [499_997, 499_996],
        [999_992, 0], [999_993, 0]]
# Sizes of texts that are opened side by side, of eight senders or of one, and those of lanes of many frames.
OF_LONG_ROUNDS = [17_000, 70_000, 140_000]
OF_MANY_ROUNDS = [100, 1_024, 1_024, 5_000]
ODD_VALUES = ['""', "0", "-1", "17", "1.0", "true", "[]", "[0]", '["0"]', '["00"]', "{}", "{a = 1}",
              "1979-05-27", "07:32", "07:32:60", "1979-02-30", '"2:00"', "[1,\n2,]", "{a = 1,\n}",
              r'"\x41"', "'''a'''", '"""\n00"""', "0x11", "1_7", "1__7", "inf", "1e3",
              "1e400", "[{}]",
              "9223372036854775808", "1979-05-27 07:32", "0x", "00", '["flip 0 0 00"]', '["999"]']
ODD_LINES = ["[[sender]]", "[sender]", "a.b = 1", '"key" = 1', "capacity = 2", "capacity = 0",
             "[a.b]", "[[a]]", "sender.x = 1", "sender = []", "#", "\r", "\x00", "é",
             "other = 1", "]"]
SHARES = {"require_to": 0.2, "expect_time": 0.8}       # of senders whose flag is set, where it isn't half
BATCHES = [1, 2, 2, 3, 4, 1000]
WRONG_BATCHES = ["0", "1001", "-2", "2.0", "true", '"2"']


def near(value, dice, distance):
    """A moment at most about so far from another."""
    step = dice.choice([0, 0, 0, distance, distance + 1, dice.randrange(distance + 1)])
    return min(max(value + dice.choice([-step, step]), 0), LAST_MOMENT)


def address(dice):
    return dice.choice(KINDS), dice.randbytes(dice.choice([0, 1, 4, 4, 4, 16, 32]))


def session(dice):
    return opener.Session(
        key=dice.randbytes(dice.choice([16, 32])), mode=dice.choice(["safe", "priv"]),
        first=dice.choice(NUMBERS), origin=address(dice), to=address(dice),
        **{flag: dice.random() < SHARES.get(flag, 0.5) for flag in jobs.FLAGS}, skew=dice.choice([0, 1, 300, 86_400]))


def sender(dice, most):
    """A sender of at most so many texts."""
    texts = [dice.randbytes(dice.choice(SIZES)) for _ in range(dice.randrange(most + 1))]
    if dice.random() < 0.01:
        texts += [dice.randbytes(size) for size in dice.choice(LONG)]
    middle = dice.choice(MOMENTS)
    ats = [near(middle, dice, 5_000_000) for _ in range(dice.randrange(1, 4))]
    batch = dice.choice(BATCHES) if dice.random() < 0.5 else 1
    return opener.Sender(session(dice), texts, ats, dice.randbytes(32), batch=batch)


def nows(dice, sent):
    """Moments of the receiver: mostly within the skew."""
    skew = 1_000_000 * sent.session.skew
    return [near(at, dice, skew) for at in sent.ats[:dice.randrange(1, 4)]]


# ---- frames that somebody makes up

def batch(dice):
    """A batch, or what is nearly one."""
    how = dice.random()
    if how < 0.01:
        return frames.batch([bytes(dice.choice([999_992, 999_993])), b""])
    if how < 0.05:
        return frames.batch([b""] * dice.choice([1000, 1001]))
    count = dice.choice([0, 1, 2, 2, 2, 3, 20])
    data = frames.batch([dice.randbytes(dice.choice([0, 1, 3])) for _ in range(count)])
    if how < 0.5:
        return data
    place = dice.randrange(1, len(data) + 1)
    return dice.choice([data[:place], data + b"\0", data + data[1:],
                        data[:place] + dice.randbytes(1) + data[place + 1:]])


def record(dice):
    if dice.random() < 0.3:
        return batch(dice)
    return dice.choice([b"D", b"C", b"D" + dice.randbytes(3), b"", b"X", b"CC", b"B"])


def body(dice, sent, number):
    """A body of the session, with at most a few things wrong."""
    it, at = sent.session, dice.choice(sent.ats)
    odd = dice.random() < 0.5
    left_out = dice.choice([(), (0xA1,), (0xA2,), (0xA1, 0xA2), (0xA3,)]) if odd else ()
    origin = address(dice) if dice.random() < 0.1 else it.origin
    to = dice.choice([None, it.to, it.to, address(dice)])
    number += dice.choice([0, 0, 0, 0, -1, 1])
    return frames.body(record(dice), near(at, dice, 1_000_000 * it.skew),
                       min(max(number, 0), opener.LAST_NUMBER), origin, to, left_out)


def safe_frame(dice, key, inner):
    kind = frames.etype_of(key) - 2 + dice.choice([0] * 9 + [1])
    code = frames.checksum_of(key, inner)
    return frames.safe(inner, kind, dice.choice([code] * 8 + [code[:-1], code + b"\0", b""]))


def private_frame(dice, key, inner):
    part = frames.tlv(0x7C, inner)
    part = dice.choice([part] * 8 + [part[:-1], part + b"\0", inner, b""])
    return frames.seal_part(key, dice.randbytes(16) + part)


def made_up(dice, sent, number):
    """A frame that the sealer never sealed, mostly under its key and of its kind."""
    key, mode = sent.session.key, sent.session.mode
    if dice.random() < 0.1:
        key = dice.randbytes(dice.choice([16, 32]))
    if dice.random() < 0.1:
        mode = dice.choice(["safe", "priv"])
    make = safe_frame if mode == "safe" else private_frame
    return make(dice, key, body(dice, sent, number))


def changed(dice, frame):
    """A frame with an element or some bytes changed; sometimes it has too many."""
    how = dice.random()
    if how < 0.01:
        return bytes(dice.choice([1_005_000, 1_005_001, 1_010_000]))
    if how < 0.5:
        root = fuzz_messages.tree(frame)[0]
        change = dice.choice([fuzz_messages.change_node, fuzz_messages.change_content])
        change(dice, root, [fuzz_messages.tree(frame)[0]])
        return fuzz_messages.spelling(root)[:1_010_000]
    return fuzz_messages.change_bytes(dice, frame, [fuzz_messages.tree(frame)[0]])[:1_010_000]


def disturbed(dice, items):
    """The items with some of them dropped, repeated and exchanged."""
    items = list(items)
    for _ in range(dice.choice([0, 0, 0, 1, 1, 2])):
        place, how = dice.randrange(len(items) + 1), dice.randrange(3)
        if how == 0:
            del items[place:place + 1]
        elif how == 1:
            items[place:place] = items[place:place + 1]
        else:
            items[place:place + 2] = reversed(items[place:place + 2])
    return items


# ---- jobs

def wire(dice, sent):
    """What comes to the receiver of a sender."""
    right, first = sent.frames(), sent.session.first
    found = []
    for place, frame in enumerate(right):
        while dice.random() < 0.3:
            found.append(made_up(dice, sent, first + place))
        while dice.random() < 0.2:
            found.append(changed(dice, frame))
        found.append(frame)
    found += [right[-1]] * (dice.random() < 0.2)
    return disturbed(dice, found)


def emission(dice, sent, place, size):
    """An emission that isn't the frame of this place, which has so many bytes."""
    how = dice.random()
    if how < 0.5:
        return "flip", place, dice.randrange(size), 1 << dice.randrange(8)
    if how < 0.99:
        return "raw", made_up(dice, sent, sent.session.first + place)
    return dice.choice([("frame", place + 2000), ("flip", place, size, 1), ("flip", place, 0, 0)])


def plan(dice, sent):
    """No plan, or the frames of the sender with others among them: some three where frames are many."""
    if dice.random() < 0.2:
        return None
    found, right = [], sent.frames()
    for place, frame in enumerate(right):
        while dice.random() < min(0.3, 3 / len(right)):
            found.append(emission(dice, sent, place, len(frame)))
        found.append(("frame", place))
    return disturbed(dice, found)


def open_job(dice, lines_of=opener.open_lines):
    """A job for `open`, its lines, and how many frames it has."""
    sent = sender(dice, 6)
    came, moments = wire(dice, sent), nows(dice, sent)
    told = 1 if dice.random() < 0.01 else None    # a batch is no key for `open`
    text = jobs.job([jobs.sender(sent.session, moments, frames=came, batch=told)])
    lines = lines_of(sent.session, moments, came)
    return text, [bad_input(0, "batch")] if told else lines, len(came)


def plain_job(dice):
    """The same for `open --plain`."""
    return open_job(dice, opener.plain_lines)


def batch_key(dice, sent):
    """The batch of a sender as a job has it: seldom a wrong one, which is 0 in the sender, and
    sometimes none for 1."""
    if dice.random() < 0.01:
        sent.batch = 0
        return dice.choice(WRONG_BATCHES)
    return None if sent.batch == 1 and dice.random() < 0.9 else sent.batch


def lane(dice, most, sizes=(), count=0):
    """A sender with its plan, its receiver's moments, and both as a job has them. It has so many texts
    more of these sizes."""
    sent = sender(dice, most)
    sent.texts += [dice.randbytes(dice.choice(sizes)) for _ in range(count)]
    sent.plan = plan(dice, sent)
    moments = nows(dice, sent)
    return sent, moments, jobs.sealing(sent, moments, batch=batch_key(dice, sent))


def bad_input(place, key):
    return f"krbrelay: bad input: sender {place}: {key}"


def fault_of(senders):
    """The line of the least sender whose batch is wrong, else of the least whose plan is bad, or
    None."""
    for place, it in enumerate(senders):
        if it.batch == 0:
            return bad_input(place, "batch")
    least = opener.first_bad_plan(senders)
    return None if least is None else bad_input(least, "plan")


def emissions(senders):
    return sum(len(it.frames()) if it.plan is None else len(it.plan) for it in senders)


def seal_job(dice):
    """A job for `seal`, its lines, and how many frames it emits."""
    sent, _, table = lane(dice, 8)
    fault = fault_of([sent])
    lines = [fault] if fault else opener.seal_lines(sent)
    return jobs.job([table]), lines, emissions([sent])


def drawn_lanes(dice):
    """The lanes of a job for `relay`. Some jobs have texts that are opened side by side, and some have many."""
    count, how = dice.choice([1, 1, 2, 2, 3, 8]), dice.random()
    if how < 0.03:
        return [lane(dice, 4, OF_LONG_ROUNDS, 3) for _ in range(count)]
    if how < 0.06:
        return [lane(dice, 4, OF_MANY_ROUNDS, dice.choice([3, 20, 40])) for _ in range(max(count, 3))]
    return [lane(dice, 4) for _ in range(count)]


def relay_job(dice):
    """A job for `relay`, its lines, and how many frames it emits."""
    lanes = drawn_lanes(dice)
    senders = [sent for sent, _, _ in lanes]
    fault = fault_of(senders)
    pairs = [(sent, moments) for sent, moments, _ in lanes]
    lines = [fault] if fault else opener.relay_lines(pairs)
    tables = [table for _, _, table in lanes]
    return jobs.job(tables, dice.choice([1, 2, 8, 64])), lines, emissions(senders)


# ---- jobs that are spoilt

def spoilt_line(dice, lines):
    """The lines of a job with one of them changed."""
    place, other = dice.randrange(len(lines)), dice.randrange(len(lines))
    how = dice.randrange(5)
    if how == 0:
        return lines[:place] + lines[place + 1:]
    if how == 1:
        return [*lines[:place], lines[other], *lines[place:]]
    if how == 2:
        return [*lines[:place], dice.choice(ODD_LINES), *lines[place:]]
    key, equals, _ = lines[place].partition(" = ")
    line = f"{key} = {dice.choice(ODD_VALUES)}" if equals else key
    return [*lines[:place], line, *lines[place + 1:]]


def spoilt_text(dice, text):
    """A text with a character changed, left out or put in."""
    at = dice.randrange(len(text))
    put_in = dice.choice(["", "", chr(dice.randrange(32, 127)), dice.choice('"\'[]{}=.,#\\\n')])
    return text[:at] + put_in + text[at + dice.randrange(2):]


def spoilt(dice, text):
    """A job with one change or a few, most of which make it no job."""
    for _ in range(dice.choice([1, 1, 1, 2, 3])):
        if dice.random() < 0.7:
            text = "\n".join(spoilt_line(dice, text.split("\n")))
        else:
            text = spoilt_text(dice, text)
    return text
