"""Documents of one sender, examples/seal.toml with its key in odd places: what each is, its text, the
status of `krbrelay seal`, and whether the kit's parser may let digits go."""
import dataclasses

from lib.build import building

ACCEPTED, REFUSED = 0, 2
DIGITS = "000102030405060708090a0b0c0d0e0f"
LONG_DIGITS = "a0a5aaafb4b9bec3c8cdd2d7dce1e6ebf0f5faff04090e13181d22272c31363b"
KEY_LINE = f'key = "{DIGITS}"'


@dataclasses.dataclass
class Document:
    what: str
    text: str
    status: int = REFUSED
    parsed: bool = False    # the parser refuses it, or has to put the digits together


class NoPlace(Exception):
    """The example hasn't the text once in which a document differs from it."""


def differing(old, new):
    job = building.text_of("examples/seal.toml")
    if job.count(old) != 1:
        raise NoPlace(f"examples/seal.toml has {old} {job.count(old)} times")
    return job.replace(old, new)


# ---- what is done to the key's line, or to the whole document

REFUSED_KEYS = [
    ("a key of 16 bytes under type 18", "etype = 17", "etype = 18"),
    ("one sender, not a list of them", "[[sender]]", "[sender]"),
    ("an unknown key after it", KEY_LINE, f"{KEY_LINE}\nunknown = 1"),
    ("a bad mode after it", 'mode = "safe"', 'mode = "none"'),
    ("a capacity out of range", "[[sender]]", "capacity = 0\n[[sender]]"),
    ("an unknown type", "etype = 17", "etype = 16"),
    ("a key in a table of the sender", 'texts = ["6869"]', f'texts = ["6869"]\n[sender.x]\n{KEY_LINE}'),
    ("a name with a capital", "key = ", "Key = "),
    ("an input that is too long", 'texts = ["6869"]', 'texts = ["6869"]\n#' + 16_777_216 * "x"),
]
PARSERS = [
    ("a syntax error after the key", KEY_LINE, f"{KEY_LINE}\n= 1"),
    ("the key twice", KEY_LINE, f"{KEY_LINE}\n{KEY_LINE}"),
    ("a text without an end after the key", KEY_LINE, f'{KEY_LINE}\nother = "'),
    ("a bad escape after the key", KEY_LINE, f'{KEY_LINE}\nother = "\\q"'),
    ("a table twice after the key", KEY_LINE, f"{KEY_LINE}\n[other]\n[other]"),
    ("a byte that is no UTF-8 after the key", KEY_LINE, f"{KEY_LINE}\n# \udcff"),
]


# ---- each spelling in each place

@dataclasses.dataclass
class Spelling:
    what: str
    text: str
    is_key: bool = True     # it is the key's bytes, as a text
    escapes: bool = False


def escaped(digits):
    return "".join(f"\\u{ord(it):04x}" for it in digits)


SPELLINGS = [
    Spelling("as it is", f'"{DIGITS}"'),
    Spelling("in single quotes", f"'{DIGITS}'"),
    Spelling("in three quotes", f'"""{DIGITS}"""'),
    Spelling("in three single quotes", f"'''\n{DIGITS}'''"),
    Spelling("in capitals", f'"{DIGITS.upper()}"'),
    Spelling("with escapes", f'"{DIGITS[:24]}{escaped(DIGITS[24:])}"', escapes=True),
    Spelling("over two lines", f'"""{DIGITS[:24]}\\\n  {DIGITS[24:]}"""', escapes=True),
    Spelling("of 32 bytes", f'"{LONG_DIGITS}"', is_key=False),
    Spelling("with a letter that is no digit", f'"{DIGITS[:-1]}g"', is_key=False),
    Spelling("with a digit too few", f'"{DIGITS[:-1]}"', is_key=False),
    Spelling("with a space before it", f'" {DIGITS}"', is_key=False),
]
PLACES = [
    ("a key", KEY_LINE, "key = {}"),
    ("a key in a list", KEY_LINE, "key = [{}]"),
    ("a key in a list of lists", KEY_LINE, "key = [[[{}]]]"),
    ("a key in a table", KEY_LINE, "key = {{ digits = {} }}"),
    ("a key in a table in a list", KEY_LINE, "key = [{{ of = {{ digits = {} }} }}]"),
    ("a key of a part", KEY_LINE, "key.digits.of = {}"),
    ("a key under another name", KEY_LINE, "kee = {}"),
    ("a key above the sender", "[[sender]]", "key = {}\n[[sender]]"),
    ("a key in another table", KEY_LINE, "[other]\nkey = {}"),
    ("a key in another list of tables", KEY_LINE, "[[other]]\nkey = {}"),
]
# Digits as a name, which no quotes of three make.
NAMES = [
    ("the digits as a name", KEY_LINE, f"{DIGITS} = 1"),
    ("the digits as a name in quotes", KEY_LINE, f'"{DIGITS}" = 1'),
]
# As a table's name or a part of one, of which the parser makes copies.
NAMES_OF_PARTS = [
    ("the digits as a table", KEY_LINE, f"[{DIGITS}]"),
    ("the digits as a part of a name", KEY_LINE, f"key.{DIGITS}.of = 1"),
]


def in_places():
    for place, old, new in PLACES:
        for it in SPELLINGS:
            accepted = new == "key = {}" and it.is_key
            yield Document(f"{place} {it.what}", differing(old, new.format(it.text)),
                           ACCEPTED if accepted else REFUSED, it.escapes)


def in_one_line(job):
    """The job with its sender in a list of tables on one line."""
    sender = job[job.index("[[sender]]"):].splitlines()[1:]
    return f"sender = [{{ {', '.join(sender)} }}]\n"


def of_whole_jobs():
    job = building.text_of("examples/seal.toml")
    sender = job[job.index("[[sender]]"):]
    yield Document("a sender in one line", in_one_line(job), ACCEPTED)
    yield Document("two senders of one key", job + sender)
    yield Document("no table of the sender", job.replace("[[sender]]\n", ""))


def all_documents():
    yield from in_places()
    yield from of_whole_jobs()
    for what, old, new in REFUSED_KEYS + NAMES:
        yield Document(what, differing(old, new))
    for what, old, new in PARSERS + NAMES_OF_PARTS:
        yield Document(what, differing(old, new), parsed=True)
