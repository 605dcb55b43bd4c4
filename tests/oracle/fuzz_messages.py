"""Changed messages for `krbrelay show`, and what it is to print of them by an independent reader
(reader.py). A message is a tree whose elements are changed, left out, repeated, exchanged and spelt
anew, mostly with right lengths, and whose bytes are then sometimes changed, cut or joined. Under a key
an independent opener (opener.py) says what is inside."""
import random
import string

from oracle import fixtures, frames, opener, reader


# ---- what the line is to be

def typed(pair):
    return "-" if pair is None else f"{pair[0]}:{pair[1].hex()}"


def told(value):
    return "-" if value is None else str(value)


def body_text(body):
    text, time, usec, number, origin, to = body
    return (f"data={text.hex()} time={time.decode() if time else '-'} usec={told(usec)} "
            f"seq={told(number)} from={typed(origin)} to={typed(to)}")


def inside(key, data):
    """What `show` prints after the fields of the message that the bytes spell."""
    try:
        return f" opened {body_text(opener.authentic(key, data))}"
    except opener.Refused as refused:
        code = refused.args[0]
        return f" refused {code} {opener.NAMES[code]}"


def line_of(data, key=None):
    """The line of `show` for these bytes, under a key if there is one."""
    if len(data) > reader.LIMIT:
        return "refused 61 FIELD_TOOLONG"
    try:
        found = reader.message(data)
    except reader.Malformed:
        return "refused 901 MALFORMED"
    return fields_text(found) + (inside(key, data) if key else "")


def fields_text(found):
    """The fields of a message that was read."""
    if len(found) == 3:
        version, kind, (etype, key_version, cipher) = found
        return f"PRIV {version} {kind} etype={etype} kvno={told(key_version)} cipher={cipher.hex()}"
    version, kind, body, checksum = found
    return f"SAFE {version} {kind} {body_text(body)} cksum={typed(checksum)}"


# ---- what the lines of an input are to be, in both forms

LINE_FEED = 0x0A
SEPARATORS = bytes([0x20, 0x09, LINE_FEED, 0x0D, 0x3A])
DIGITS = string.hexdigits.encode()


def line_of_digits(digits, key=None):
    if len(digits) % 2 or any(it not in DIGITS for it in digits):
        return "not hexadecimal"
    return line_of(bytes.fromhex(digits.decode("ascii")), key)


def lines_in(given):
    """The lines of an input: a last one without a line feed counts where it isn't empty."""
    *lines, last = given.split(bytes([LINE_FEED]))
    return lines + [last] * (last != b"")


def without_separators(text):
    return bytes(it for it in text if it not in SEPARATORS)


def shown(given, is_any, key=None):
    """The lines of `show` for an input, and with is_any those of `show --any`."""
    if not is_any:
        return [line_of_digits(it, key) for it in lines_in(given)]
    whole = line_of_digits(without_separators(given), key)
    if whole.startswith(("SAFE ", "PRIV ")):
        return [whole]
    return [line_of_digits(without_separators(it), key) for it in lines_in(given)]


def status_of(lines):
    """The exit status of a run that prints these lines."""
    return 0 if all(it.startswith(("SAFE ", "PRIV ")) and " refused " not in it for it in lines) else 2


# ---- messages as trees: [tag, bytes or list of trees, how its length is spelt]

RIGHT, WIDE, LIE, ENDLESS = range(4)


def tree(data):
    """The elements that stand in the bytes, of a message that is known to be right."""
    found = []
    while data:
        tag = data[0]
        content, data = reader.element(data, tag)
        found.append([tag, tree(content) if tag & 0x20 else content, RIGHT])
    return found


def length(size, how):
    if how == ENDLESS:
        return b"\x80"
    if how == LIE:
        size ^= 1
    if size < 0x80 and how != WIDE:
        return bytes([size])
    digits = size.to_bytes(max(1, (size.bit_length() + 7) // 8), "big")
    if how == WIDE and size >= 0x80:
        digits = b"\0" + digits
    return bytes([0x80 + len(digits)]) + digits


def spelling(node):
    tag, content, how = node
    if isinstance(content, list):
        content = b"".join(map(spelling, content))
    return bytes([tag]) + length(len(content), how) + content


def copy(node):
    tag, content, how = node
    return [tag, [copy(it) for it in content] if isinstance(content, list) else content, how]


def nodes(node):
    """The node and all below it, each with the list that it stands in and its place."""
    return [(None, 0, node), *below(node)]


def below(node):
    content = node[1]
    if isinstance(content, list):
        for place, it in enumerate(content):
            yield content, place, it
            yield from below(it)


# ---- changes

EDGES = [0, 128, 256, 32768, 1_000_000, 2**31, 2**32, 2**63]
TIMES = [b"19700101000000Z", b"19691231235959Z", b"99991231235959Z", b"20240229120000Z",
         b"20230229120000Z", b"20000229000000Z", b"19000229000000Z", b"20230431000000Z",
         b"20231130240000Z", b"20231130236000Z", b"20231130235960Z", b"20231301000000Z",
         b"20230001000000Z", b"20230100000000Z", b"00000101000000Z", b"20231130235959z",
         b"2023113023595Z", b"20231130235959.0Z", b"20231130235959+"]
SIZES = [0, 1, 2, 27, 28, 100, 127, 128, 129, 200, 255, 256, 257, 1000]
LARGE = [32_767, 32_768, 65_535, 65_536, 65_537, 1_000_000]


def number(dice):
    """The bytes of an INTEGER beside an edge of its type, in the fewest or not."""
    value = dice.choice(EDGES) + dice.randrange(-1, 2)
    value = -value if dice.random() < 0.3 else value
    fewest = (value + (value < 0)).bit_length() // 8 + 1
    size = fewest + (dice.random() < 0.1)
    return value.to_bytes(size, "big", signed=True)


def content(dice, tag):
    """Bytes for an element with this tag, mostly of its type."""
    if tag == 0x02 and dice.random() < 0.95:
        return number(dice)
    if tag == 0x18 and dice.random() < 0.9:
        time = bytearray(dice.choice(TIMES))
        if dice.random() < 0.4:
            time[dice.randrange(len(time))] = dice.choice(b"0123456789/:Z")
        return bytes(time)
    return dice.randbytes(dice.choice(LARGE if dice.random() < 0.01 else SIZES))


def change_node(dice, root, others):
    """One change of one element, which stays in the tree."""
    siblings, place, node = dice.choice(nodes(root))
    how = dice.random()
    if siblings is None or how < 0.1:
        node[2] = dice.choice([WIDE, LIE, ENDLESS])
    elif how < 0.5:
        del siblings[place]
    elif how < 0.6:
        siblings.insert(place, copy(node))
    elif how < 0.7:
        other = dice.randrange(len(siblings))
        siblings[place], siblings[other] = siblings[other], siblings[place]
    elif how < 0.9:
        _, _, other = dice.choice(nodes(dice.choice(others)))
        siblings.insert(dice.randrange(len(siblings) + 1), copy(other))
        if dice.random() < 0.7:
            siblings.sort(key=lambda it: it[0])
    else:
        node[0] = dice.choice([node[0] ^ (1 << dice.randrange(8)), 0xA0 + dice.randrange(7)])


def change_content(dice, root, _others):
    """New bytes for an element that has no others in it."""
    leaves = [node for _, _, node in nodes(root) if not isinstance(node[1], list)]
    if leaves:
        node = dice.choice(leaves)
        node[1] = content(dice, node[0])
        node[2] = WIDE if dice.random() < 0.05 else RIGHT


def graft(dice, root, others):
    """An element of another message in the place of one with its tag."""
    _, _, node = dice.choice(nodes(root))
    same = [it for other in others for _, _, it in nodes(other) if it[0] == node[0]]
    if same:
        node[1] = copy(dice.choice(same))[1]


def fill(dice, root):
    """Gives the message about the most bytes that it may have, by one of its byte strings."""
    strings = [node for _, _, node in nodes(root) if node[0] == 0x04]
    if strings:
        node = dice.choice(strings)
        size = reader.LIMIT + dice.randrange(-1, 3)
        node[1] = bytes(max(0, size - len(spelling(root))))
        node[1] = dice.randbytes(max(0, len(node[1]) + size - len(spelling(root))))


def change_bytes(dice, data, others):
    place = dice.randrange(len(data) + 1)
    how = dice.randrange(6)
    if how == 0:
        return data[:place]
    if how == 1:
        return data[:place] + dice.randbytes(dice.randrange(1, 5)) + data[place:]
    if how == 2:
        return data[:place] + data[place + dice.randrange(1, 5):]
    if how == 3:
        return data[:place] + spelling(dice.choice(others))[place:]
    if how == 4:
        return data + dice.choice([b"\0", data, dice.randbytes(1)])
    flipped = data[place:place + 1]
    return data[:place] + bytes(b ^ (1 << dice.randrange(8)) for b in flipped) + data[place + 1:]


def changed(dice, worked):
    """One of the worked messages with up to three elements changed."""
    root = copy(dice.choice(worked))
    for _ in range(dice.choice([0, 1, 1, 1, 2, 2, 3])):
        dice.choice([change_node, change_content, change_content, graft])(dice, root, worked)
    if dice.random() < 0.003:
        fill(dice, root)
    return spelling(root)


def drawn(seed, index, worked):
    """The bytes of input number `index`."""
    dice = random.Random(f"{seed} {index}")
    data = changed(dice, worked)
    while dice.random() < 0.2:
        data = change_bytes(dice, data, worked)
    return data


# ---- messages under a key

CONFOUNDER = bytes(range(16))


def sealed(key):
    """Messages of both kinds under a key, with the receiver's address and without."""
    for receiver in (None, fixtures.RECEIVER):
        body = fixtures.body_of(b"Dhi", receiver=receiver)
        yield frames.seal_safe(key, body)
        yield frames.seal_priv(key, body, CONFOUNDER)
    yield frames.seal_priv(key, fixtures.body_of(b"", left_out=(0xA1, 0xA2, 0xA3)), CONFOUNDER)


def sealed_body(dice, key, worked):
    """A changed body that is sealed: what is inside is authentic, whatever it spells."""
    root = copy(dice.choice([tree(fixtures.body_of(b"Dhi", receiver=it))[0]
                             for it in (None, fixtures.RECEIVER)]))
    for _ in range(dice.choice([0, 1, 1, 2])):
        dice.choice([change_node, change_content])(dice, root, worked)
    seal = dice.choice([frames.seal_safe, lambda k, body: frames.seal_priv(k, body, CONFOUNDER)])
    return seal(key, spelling(root))


def drawn_under(key, seed, index, worked):
    """The bytes of input number `index` under the key."""
    dice = random.Random(f"{seed} {index} {key.hex()}")
    return sealed_body(dice, key, worked) if dice.random() < 0.5 else changed(dice, worked)


# ---- inputs of digits and other bytes

def with_each_byte(text):
    """The text with each separator put in at each place."""
    for it in SEPARATORS:
        for place in range(len(text) + 1):
            yield text[:place] + bytes([it]) + text[place:]


def change_text(dice, text):
    """Takes a byte away, or puts one in, mostly a separator."""
    place = dice.randrange(len(text) + 1)
    if dice.random() < 0.2:
        return text[:place] + text[place + 1:]
    byte = dice.choice(SEPARATORS) if dice.random() < 0.8 else dice.randrange(256)
    return text[:place] + bytes([byte]) + text[place:]


def drawn_text(seed, index, messages):
    """Input number `index`: some messages in digits of either case, mostly each on a line of its own,
    and up to eight bytes put in or taken away."""
    dice, text = random.Random(f"{seed} text {index}"), b""
    for _ in range(dice.choice([0, 1, 1, 1, 2, 3])):
        digits = dice.choice(messages).hex()
        text += (digits.upper() if dice.random() < 0.3 else digits).encode()
        text += dice.choice([b"\n", b"\n", b"\n\n", b"\r\n", b""])
    for _ in range(dice.choice([0, 1, 1, 2, 4, 8])):
        text = change_text(dice, text)
    return text
