"""KRB-SAFE and KRB-PRIV messages (RFC 4120 sections 5.6 and 5.7) of which a case may bend what it
likes, before or after the protection is computed. Keys and codes are derived as in tests/oracle, which
shares nothing with the crates."""
from __future__ import annotations

import collections.abc
import dataclasses
import functools
import hashlib

from cryptography.hazmat.primitives.ciphers import Cipher, algorithms, modes

from oracle import frames
from vectors.elements import Element, explicit, integer, octets, sequence, stamp, TIME
from vectors.model import TEXT, Address, etype_of

SAFE_USAGE, PRIV_USAGE = 15, 13                     # RFC 4120 section 7.5.1
FOR_CHECKSUM, FOR_CIPHER, FOR_INTEGRITY = 0x99, 0xAA, 0x55      # RFC 3961 section 5.3
CODE_BYTES, BLOCK = 12, 16

derive = functools.lru_cache(maxsize=4096)(frames.derive)

Bend = collections.abc.Callable[[Element], None]
Checksum = collections.abc.Callable[[bytes, bytes], bytes]


@dataclasses.dataclass(frozen=True)
class Fields:
    """The fields of a message; None where one is left out. `time` may be any bytes."""
    user: bytes = TEXT
    time: int | bytes | None = None
    usec: int | None = None
    number: int | None = None
    sender: Address | None = None
    receiver: Address | None = None
    pvno: int = 5
    msg_type: int | None = None
    key_version: int | None = None

    def but(self, **other: object) -> Fields:
        return dataclasses.replace(self, **other)


def host(name: str, address: Address) -> Element:
    return sequence(name, explicit(0, integer(f"{name}.addr-type", address.kind)),
                    explicit(1, octets(f"{name}.address", address.octets)))


def body(name: str, of: Fields) -> Element:
    """KRB-SAFE-BODY and EncKrbPrivPart have the same fields."""
    fields = [octets("user-data", of.user), None, None, None, None, None]
    if of.time is not None:
        fields[1] = Element("timestamp", TIME, of.time if isinstance(of.time, bytes) else stamp(of.time))
    if of.usec is not None:
        fields[2] = integer("usec", of.usec)
    if of.number is not None:
        fields[3] = integer("seq-number", of.number)
    if of.sender is not None:
        fields[4] = host("s-address", of.sender)
    if of.receiver is not None:
        fields[5] = host("r-address", of.receiver)
    return sequence(name, *(explicit(place, it) for place, it in enumerate(fields) if it is not None))


def safe_tree(of: Fields, kind: int, checksum: bytes) -> Element:
    total = sequence("cksum", explicit(0, integer("cksumtype", kind)),
                     explicit(1, octets("checksum", checksum)))
    told = 20 if of.msg_type is None else of.msg_type
    return Element("KRB-SAFE", 0x74, [sequence(
        "KRB-SAFE.SEQUENCE", explicit(0, integer("pvno", of.pvno)), explicit(1, integer("msg-type", told)),
        explicit(2, body("safe-body", of)), explicit(3, total))])


def priv_tree(of: Fields, etype: int, cipher: bytes) -> Element:
    fields = [explicit(0, integer("etype", etype)), explicit(2, octets("cipher", cipher))]
    if of.key_version is not None:
        fields.insert(1, explicit(1, integer("kvno", of.key_version)))
    told = 21 if of.msg_type is None else of.msg_type
    return Element("KRB-PRIV", 0x75, [sequence(
        "KRB-PRIV.SEQUENCE", explicit(0, integer("pvno", of.pvno)), explicit(1, integer("msg-type", told)),
        explicit(3, sequence("enc-part", *fields)))])


def part_tree(of: Fields) -> Element:
    return Element("EncKrbPrivPart", 0x7C, [body("part", of)])


# ---- protection

def checksum_of(key: bytes, data: bytes, usage: int = SAFE_USAGE, purpose: int = FOR_CHECKSUM) -> bytes:
    return frames.mac(derive(key, usage, purpose), data)


def checksum_kind(key: bytes) -> int:
    """The type of checksum of the key's encryption type (RFC 3962 section 7)."""
    return etype_of(key) - 2


class Confounders:
    """Confounders that are the same in each run."""
    drawn = 0

    @classmethod
    def next(cls) -> bytes:
        cls.drawn += 1
        return hashlib.sha256(b"confounder %d" % cls.drawn).digest()[:BLOCK]

    @classmethod
    def begin(cls) -> None:
        cls.drawn = 0


def stolen(key: bytes, text: bytes) -> bytes:
    """CBC with ciphertext stealing (RFC 3962 section 5), of a block or more."""
    engine = Cipher(algorithms.AES(key), modes.CBC(bytes(BLOCK))).encryptor()
    chain = engine.update(text + bytes(-len(text) % BLOCK)) + engine.finalize()
    if len(chain) > BLOCK:
        chain = chain[:-2 * BLOCK] + chain[-BLOCK:] + chain[-2 * BLOCK:-BLOCK]
    return chain[:len(text)]


def encrypt(key: bytes, plain: bytes, usage: int = PRIV_USAGE) -> bytes:
    """The cipher of RFC 3962 over these bytes, the confounder among them, with its code."""
    return (stolen(derive(key, usage, FOR_CIPHER), plain)
            + frames.mac(derive(key, usage, FOR_INTEGRITY), plain))


def safe(key: bytes, of: Fields, inside: Bend | None = None, outside: Bend | None = None,
         kind: int | None = None, checksum: Checksum = checksum_of) -> bytes:
    """A KRB-SAFE. `inside` bends what the checksum covers, `outside` only what is sent."""
    covered = safe_tree(of, 0, b"")
    if inside:
        inside(covered)
    told = checksum_kind(key) if kind is None else kind
    sent = safe_tree(of, told, checksum(key, covered.encoded()))
    for bend in filter(None, (inside, outside)):
        bend(sent)
    return sent.encoded()


def priv(key: bytes, of: Fields, inside: Bend | None = None, outside: Bend | None = None,
         etype: int | None = None, seal: Checksum = encrypt, after: bytes = b"") -> bytes:
    """A KRB-PRIV. `inside` bends the part before it is enciphered, `outside` what is sent."""
    part = part_tree(of)
    if inside:
        inside(part)
    sent = priv_tree(of, etype_of(key) if etype is None else etype,
                     seal(key, Confounders.next() + part.encoded() + after))
    if outside:
        outside(sent)
    return sent.encoded()


def of_cipher(key: bytes, cipher: bytes) -> bytes:
    """A KRB-PRIV with this cipher."""
    return priv_tree(Fields(), etype_of(key), cipher).encoded()


def message(mode: str, key: bytes, of: Fields, inside: Bend | None = None,
            outside: Bend | None = None) -> bytes:
    return (safe if mode == "safe" else priv)(key, of, inside, outside)


# ---- one element of a whole message

SAMPLE_VERSION = 3      # the key version in a bent KRB-PRIV

# What a KRB-SAFE's checksum covers and a bend can reach inside of it.
UNDER_CHECKSUM = tuple(it.name for it, _ in body("safe-body", Fields(
    time=0, usec=0, number=0, sender=Address(2, b""), receiver=Address(2, b""))).all())


def samples(mode: str, of: Fields) -> list[tuple[Element, bool]]:
    """The trees of a message, and whether each is inside of its cipher."""
    if mode == "safe":
        return [(safe_tree(of, 15, bytes(CODE_BYTES)), False)]
    versioned = of.but(key_version=SAMPLE_VERSION)
    return [(priv_tree(versioned, 18, bytes(28)), False), (part_tree(of), True)]


def names_of(mode: str, of: Fields) -> list[tuple[str, bool]]:
    """The names of all elements, and whether each is inside of the cipher."""
    return [(it.name, inside) for tree, inside in samples(mode, of) for it, _ in tree.all()]


def sample_of(mode: str, of: Fields, name: str) -> tuple[Element, Element | None]:
    """An element as it is in a message, and the one that it is in."""
    return next((it, up) for tree, _ in samples(mode, of) for it, up in tree.all() if it.name == name)


def bent(mode: str, key: bytes, of: Fields, name: str, inside: bool,
         change: collections.abc.Callable[[Element, Element], None]) -> bytes:
    """The message with one element changed by `change`, which gets the tree and the element. A bend
    of a KRB-SAFE from outside leaves the checksum of the right message."""
    def bend(tree: Element) -> None:
        change(tree, tree.get(name))
    if mode == "priv":
        of = of.but(key_version=SAMPLE_VERSION)
    return message(mode, key, of, **{"inside" if inside else "outside": bend})
