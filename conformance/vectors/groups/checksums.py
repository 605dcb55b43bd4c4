"""Checksums of KRB-SAFE (RFC 4120 3.4.2 and 5.6.1, RFC 3961 5.4, RFC 3962 6)."""
from __future__ import annotations

import collections.abc
import dataclasses
import hashlib
import hmac
import zlib

from oracle import frames
from vectors.common import KEYS, ORDINARY, SAFE, each
from vectors.messages import (CODE_BYTES, FOR_CHECKSUM, FOR_CIPHER, FOR_INTEGRITY, SAFE_USAGE, checksum_kind, checksum_of,
                              derive, safe, safe_tree)
from vectors.model import TEXT, Suite, Verdict, acceptable, etype_of, invalid

SECTION = "RFC4120 3.4.2, 5.6.1; RFC3962 6"
OTHER_TYPES = (*range(22), -1, -15, -16, -138, -137, 2**31 - 1, -2**31)
OTHER_USAGES = [it for it in (*range(31), 1024, 1025, 0x0F000000, 2**31 - 1) if it != SAFE_USAGE]
CHECKSUM, CHECKSUM_TYPE = invalid("checksum"), invalid("cksumtype", "checksum")

Made = collections.abc.Callable[[bytes], bytes]     # the checksum of what is covered


@dataclasses.dataclass
class Adding:
    """Adds cases of a KRB-SAFE under one key."""
    suite: Suite
    key: bytes

    def __call__(self, comment: str, make: Made, flag: str, kind: int | None = None, verdict: Verdict = CHECKSUM) -> None:
        frame = safe(self.key, ORDINARY, checksum=lambda _key, data: make(data), kind=kind)
        self.suite.add(verdict, frame, comment, SECTION, flag)

    def right(self, data: bytes) -> bytes:
        return checksum_of(self.key, data)

    def full(self, data: bytes) -> bytes:
        """The HMAC that isn't cut."""
        return hmac.new(derive(self.key, SAFE_USAGE, FOR_CHECKSUM), data, hashlib.sha1).digest()


def always(value: bytes) -> Made:
    return lambda data: value


def bits(add: Adding) -> None:
    for place in range(8 * CODE_BYTES):
        def flipped(data: bytes, place: int = place) -> bytes:
            found = bytearray(add.right(data))
            found[place // 8] ^= 0x80 >> place % 8
            return bytes(found)
        add(f"bit {place} flipped", flipped, "WrongChecksum")


def sizes(add: Adding) -> None:
    for size in range(CODE_BYTES):
        add(f"the first {size} bytes alone", lambda data, size=size: add.right(data)[:size], "ShortChecksum")
    for size in (13, 16, 20):
        add(f"{size} bytes of the HMAC", lambda data, size=size: add.full(data)[:size], "LongChecksum")
    add("a byte 0 added", lambda data: add.right(data) + b"\0", "LongChecksum")
    add("itself twice", lambda data: add.right(data) * 2, "LongChecksum")


def contents(add: Adding) -> None:
    add("the last 12 bytes of the HMAC", lambda data: add.full(data)[8:], "WrongChecksum")
    add("bytes in reverse", lambda data: add.right(data)[::-1], "WrongChecksum")
    add("zeros", always(bytes(CODE_BYTES)), "WrongChecksum")
    add("ones", always(b"\xff" * CODE_BYTES), "WrongChecksum")


def keys(add: Adding) -> None:
    key = add.key
    for usage in OTHER_USAGES:
        add(f"key usage {usage}", lambda data, usage=usage: checksum_of(key, data, usage), "WrongUsage")
    for purpose, name in ((FOR_CIPHER, "Ke"), (FOR_INTEGRITY, "Ki")):
        add(f"key usage {SAFE_USAGE}, {name}", lambda data, purpose=purpose: checksum_of(key, data, SAFE_USAGE, purpose),
            "WrongUsage")
    add("the session key itself", lambda data: frames.mac(key, data), "WrongUsage")
    add("another key", lambda data: checksum_of(bytes(len(key)), data), "WrongKey")
    add("the key's complement", lambda data: checksum_of(bytes(255 - it for it in key), data), "WrongKey")


def inputs(add: Adding) -> None:
    tree, kind = safe_tree(ORDINARY, 0, b""), checksum_kind(add.key)
    without = safe_tree(ORDINARY, 0, b"")
    without.drop("cksum[3]")
    wrong = {"the user data": TEXT, "the SEQUENCE without its tag 74": tree.get("KRB-SAFE.SEQUENCE").encoded(),
             "the message without cksum": without.encoded(),
             "the message with its cksumtype and no bytes": safe_tree(ORDINARY, kind, b"").encoded(),
             "the message with cksumtype 0 and 12 bytes 0": safe_tree(ORDINARY, 0, bytes(12)).encoded(),
             "the message with its cksumtype and 12 bytes 0": safe_tree(ORDINARY, kind, bytes(12)).encoded(),
             "nothing": b"", "the body's contents": tree.get("safe-body").content()}
    for comment, data in wrong.items():
        add(f"over {comment}", always(add.right(data)), "WrongInput")
    add("over the KRB-SAFE-BODY (RFC 1510)", always(add.right(tree.get("safe-body").encoded())), "Rfc1510Checksum",
        verdict=acceptable())


# ---- types

def hmac_md5(key: bytes, data: bytes) -> bytes:
    """RFC 4757's checksum under usage 15."""
    signing = hmac.new(key, b"signaturekey\0", hashlib.md5).digest()
    return hmac.new(signing, hashlib.md5(SAFE_USAGE.to_bytes(4, "little") + data).digest(), hashlib.md5).digest()


def crc32(data: bytes) -> bytes:
    """RFC 3961's CRC, which begins and ends without a complement."""
    return (zlib.crc32(data, 0xFFFFFFFF) ^ 0xFFFFFFFF).to_bytes(4, "little")


UNKEYED: list[tuple[int, str, Made]] = [
    (1, "CRC-32", crc32), (7, "MD5", lambda data: hashlib.md5(data).digest()),
    (10, "SHA-1", lambda data: hashlib.sha1(data).digest()), (14, "SHA-1", lambda data: hashlib.sha1(data).digest()),
    (9, "SHA-1", lambda data: hashlib.sha1(data).digest())]


def types(add: Adding) -> None:
    key, kind = add.key, checksum_kind(add.key)
    for told, name, make in UNKEYED:
        add(f"cksumtype {told}, {name}, which has no key", make, "UnkeyedChecksum", told, CHECKSUM_TYPE)
    add("cksumtype -138, HMAC-MD5 of RFC 4757 under the AES key", lambda data: hmac_md5(key, data), "HmacMd5UnderAes", -138,
        acceptable())
    add("cksumtype -137, HMAC-MD5 under the AES key", lambda data: hmac.new(key, data, hashlib.md5).digest(),
        "OtherChecksumType", -137, CHECKSUM_TYPE)
    for told in (it for it in (*OTHER_TYPES, kind + 256, kind + 65_536) if it != kind):
        add(f"cksumtype {told}, the bytes of the right one", add.right, "OtherChecksumType", told, invalid("cksumtype"))
    other = KEYS[35 - etype_of(key)]
    add("cksumtype of the other encryption type, under a key of it", lambda data: checksum_of(other, data), "OtherChecksumType",
        checksum_kind(other), CHECKSUM_TYPE)
    add("cksumtype 0 without bytes", always(b""), "OtherChecksumType", 0, CHECKSUM_TYPE)


def checksums(suite: Suite) -> None:
    for _, key in each(suite, "checksums", SAFE):
        for part in (bits, sizes, contents, keys, inputs, types):
            part(Adding(suite, key))


def changed_bytes(suite: Suite) -> None:
    """A changed byte of the body. Which check is reported isn't said: most change a field as well."""
    for _, key in each(suite, "changed bytes of a KRB-SAFE", SAFE):
        whole, inner = safe(key, ORDINARY), safe_tree(ORDINARY, 0, b"").get("safe-body").encoded()
        begin = whole.index(inner)
        for place, mask in ((place, mask) for place in range(begin, begin + len(inner)) for mask in (1, 0x80)):
            changed = whole[:place] + bytes([whole[place] ^ mask]) + whole[place + 1:]
            suite.add(invalid("checksum"), changed, f"byte {place} changed by {mask:02x}", "RFC4120 3.4.2", "ModifiedBody")


def build(suite: Suite) -> None:
    checksums(suite)
    changed_bytes(suite)
