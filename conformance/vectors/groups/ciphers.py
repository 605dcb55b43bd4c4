"""The enciphered part of KRB-PRIV (RFC 3961 5.3, RFC 3962 5, RFC 4120 5.7.1)."""
from __future__ import annotations

import collections.abc
import dataclasses
import hashlib
import hmac

from oracle import frames
from vectors.common import FULL, ORDINARY, PRIV, drawn, each
from vectors.messages import (BLOCK, CODE_BYTES, FOR_CHECKSUM, FOR_CIPHER, FOR_INTEGRITY, PRIV_USAGE, Confounders, derive, encrypt,
                              of_cipher, part_tree)
from vectors.model import Suite, Verdict, invalid, valid

SECTION = "RFC3962 5; RFC3961 5.3"
OTHER_USAGES = [it for it in (*range(31), 1024, 1025, 0x0D000000, 2**31 - 1) if it != PRIV_USAGE]
INTEGRITY, MALFORMED = invalid("integrity"), invalid("der")
# A KRB-PRIV's two keys in one text that is too short for any part: it is refused anyway.
SHORTEST = BLOCK + CODE_BYTES


@dataclasses.dataclass
class Adding:
    """Adds cases of a KRB-PRIV under one key, whose derived keys are `cipher_key` and `code_key`."""
    suite: Suite
    key: bytes
    part: bytes = part_tree(FULL).encoded()

    @property
    def cipher_key(self) -> bytes:
        return derive(self.key, PRIV_USAGE, FOR_CIPHER)

    @property
    def code_key(self) -> bytes:
        return derive(self.key, PRIV_USAGE, FOR_INTEGRITY)

    def __call__(self, comment: str, cipher: bytes, flag: str, verdict: Verdict = INTEGRITY) -> None:
        self.suite.add(verdict, of_cipher(self.key, cipher), comment, SECTION, flag)

    def plain(self) -> bytes:
        return Confounders.next() + self.part

    def code(self, text: bytes) -> bytes:
        return frames.mac(self.code_key, text)

    def full(self, text: bytes) -> bytes:
        """The HMAC that isn't cut."""
        return hmac.new(self.code_key, text, hashlib.sha1).digest()

    def with_code(self, comment: str, code_of: collections.abc.Callable[[bytes], bytes], flag: str) -> None:
        """The right cipher with another code, which is made of its plain text."""
        text = self.plain()
        self(comment, frames.cts(self.cipher_key, text) + code_of(text), flag)


def keys(add: Adding) -> None:
    key = add.key
    for usage in OTHER_USAGES:
        add(f"key usage {usage}", encrypt(key, add.plain(), usage), "WrongUsage")
    ki15, kc = derive(key, 15, FOR_INTEGRITY), derive(key, PRIV_USAGE, FOR_CHECKSUM)
    add.with_code("Ke of usage 13, Ki of usage 15", lambda text: frames.mac(ki15, text), "WrongUsage")
    add.with_code("HMAC under Kc", lambda text: frames.mac(kc, text), "WrongUsage")
    add.with_code("HMAC under the session key", lambda text: frames.mac(key, text), "WrongUsage")
    text = add.plain()
    add("Ke and Ki exchanged", frames.cts(add.code_key, text) + frames.mac(add.cipher_key, text), "WrongUsage")
    add("enciphered under the session key", frames.cts(key, text) + add.code(text), "WrongUsage")
    add("another key", encrypt(bytes(len(key)), text), "WrongKey")


def codes(add: Adding) -> None:
    add.with_code("HMAC over the cipher", lambda text: add.code(frames.cts(add.cipher_key, text)), "WrongMac")
    add.with_code("HMAC over a vector and the cipher (RFC 8009)",
                  lambda text: add.code(bytes(BLOCK) + frames.cts(add.cipher_key, text)), "WrongMac")
    add.with_code("HMAC without the confounder", lambda text: add.code(text[BLOCK:]), "WrongMac")
    add.with_code("HMAC over padded text", lambda text: add.code(text + bytes(-len(text) % BLOCK)), "WrongMac")
    add.with_code("HMAC of zeros", lambda text: bytes(CODE_BYTES), "WrongMac")
    for size in (16, 20):
        add.with_code(f"{size} bytes of the HMAC", lambda text, size=size: add.full(text)[:size], "WrongMac")
    for size in range(CODE_BYTES):
        add.with_code(f"{size} bytes of the HMAC", lambda text, size=size: add.full(text)[:size], "ShortMac")
    text = add.plain()
    add("HMAC before the cipher", add.code(text) + frames.cts(add.cipher_key, text), "WrongMac")


def code_bits(add: Adding) -> None:
    for place in range(8 * CODE_BYTES):
        def flipped(text: bytes, place: int = place) -> bytes:
            found = bytearray(add.code(text))
            found[place // 8] ^= 0x80 >> place % 8
            return bytes(found)
        add.with_code(f"bit {place} of the HMAC flipped", flipped, "WrongMac")


def confounders(add: Adding) -> None:
    add("no confounder", encrypt(add.key, add.part), "Confounder", MALFORMED)
    for size in (8, 12, 15, 17, 32):
        add(f"a confounder of {size} bytes", encrypt(add.key, drawn(f"c{size}", size) + add.part), "Confounder", MALFORMED)
    for name, confounder in (("zeros", bytes(BLOCK)), ("ones", b"\xff" * BLOCK)):
        add(f"a confounder of {name}", encrypt(add.key, confounder + add.part), "Normal", valid())


def short(add: Adding) -> None:
    for size in range(SHORTEST + 1):
        add(f"a cipher of {size} bytes", drawn(f"cipher {size}", size), "ShortCipher")
    for size in range(BLOCK, 49):
        add(f"a text of {size} bytes that is no part, authentic", encrypt(add.key, drawn(f"text {size}", size)), "NoPart",
            MALFORMED)
    for size in range(3, BLOCK):
        add(f"a text of {size} bytes under its code", drawn("s", size) + add.code(bytes(size)), "ShortCipher")


# ---- stealing

def chained(key: bytes, text: bytes) -> bytes:
    """CBC from a vector of zeros, the text padded by zeros."""
    state, blocks = bytes(BLOCK), []
    padded = text + bytes(-len(text) % BLOCK)
    for place in range(0, len(padded), BLOCK):
        state = frames.aes(key, frames.xor(padded[place:place + BLOCK], state))
        blocks.append(state)
    return b"".join(blocks)


def otherwise_stolen(key: bytes, text: bytes) -> dict[str, bytes]:
    """The same text by other rules for the last two blocks."""
    chain, rest = chained(key, text), (len(text) - 1) % BLOCK + 1
    before, last = chain[-2 * BLOCK:-BLOCK], chain[-BLOCK:]
    found = {"CBC, padded by zeros, no blocks exchanged": chain,
             "CBC, blocks exchanged, not cut": chain[:-2 * BLOCK] + last + before,
             "CBC cut, no blocks exchanged (CS1)": chain[:-2 * BLOCK] + before[:rest] + last,
             "an initial vector of ones": frames.cts(key, frames.xor(text[:BLOCK], b"\xff" * BLOCK) + text[BLOCK:])}
    if rest == BLOCK:
        found["whole blocks, not exchanged (CS2)"] = chain
    return {comment: it for comment, it in found.items() if it != frames.cts(key, text)}


def stealing(add: Adding) -> None:
    for more in range(BLOCK):
        text = Confounders.next() + part_tree(FULL.but(user=b"D" * (17 + more))).encoded()
        rest = (len(text) - 1) % BLOCK + 1
        for comment, cipher in otherwise_stolen(add.cipher_key, text).items():
            add(f"rest of {rest} bytes: {comment}", cipher + add.code(text), "WrongStealing")
        cut(add, encrypt(add.key, text), rest)


def cut(add: Adding, whole: bytes, rest: int) -> None:
    cipher, code = whole[:-CODE_BYTES], whole[-CODE_BYTES:]
    for size in (1, 15, 16, 17):
        add(f"rest of {rest} bytes: {size} bytes less before the HMAC", cipher[:-size] + code, "Modified")
    add(f"rest of {rest} bytes: a byte 0 before the HMAC", cipher + b"\0" + code, "Modified")
    exchanged = cipher[BLOCK:2 * BLOCK] + cipher[:BLOCK] + cipher[2 * BLOCK:]
    add(f"rest of {rest} bytes: the first two blocks exchanged", exchanged + code, "Modified")


def parts(suite: Suite) -> None:
    for _, key in each(suite, "enciphered parts", PRIV):
        for part in (keys, codes, code_bits, confounders, short, stealing):
            part(Adding(suite, key))


def changed_bytes(suite: Suite) -> None:
    for _, key in each(suite, "changed bytes of a cipher", PRIV):
        for user in (b"D", b"Dtext of another size"):
            whole = encrypt(key, Confounders.next() + part_tree(ORDINARY.but(user=user)).encoded())
            for place, mask in ((place, mask) for place in range(len(whole)) for mask in (1, 0x80)):
                changed = whole[:place] + bytes([whole[place] ^ mask]) + whole[place + 1:]
                suite.add(INTEGRITY, of_cipher(key, changed), f"byte {place} of a cipher of {len(whole)} changed by {mask:02x}",
                          "RFC4120 3.5.2", "Modified")


def build(suite: Suite) -> None:
    parts(suite)
    changed_bytes(suite)
