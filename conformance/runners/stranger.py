#!/usr/bin/env python3
"""A runner written from README.md and the RFCs alone, with Python's package cryptography: an opener that
shares no code with this project. It reads DER only."""
import calendar
import collections.abc
import hashlib
import hmac
import math
import struct
import sys
import time

from cryptography.hazmat.primitives.ciphers import Cipher, algorithms, modes

Reads = collections.abc.Callable[[bytes], object]
ZERO = bytes(16)


class No(Exception):
    """The message is refused."""


def need(holds: object, why: str) -> None:
    if not holds:
        raise No(why)


def cbc(key: bytes, data: bytes, decrypt: bool = False, iv: bytes = ZERO) -> bytes:
    engine = Cipher(algorithms.AES(key), modes.CBC(iv))
    engine = engine.decryptor() if decrypt else engine.encryptor()
    return engine.update(data) + engine.finalize()


def fold(data: bytes, size: int = 16) -> bytes:      # RFC 3961 5.1, byte by byte
    total = math.lcm(len(data), size)
    number, bits = int.from_bytes(data, "big"), 8 * len(data)
    copies = b""
    for i in range(total // len(data)):
        turn = 13 * i % bits
        copies += ((number >> turn | number << bits - turn) & (1 << bits) - 1).to_bytes(len(data), "big")
    result = sum(int.from_bytes(copies[i:i + size], "big") for i in range(0, total, size))
    while result >> 8 * size:
        result = (result & (1 << 8 * size) - 1) + (result >> 8 * size)
    return result.to_bytes(size, "big")


def derived(key: bytes, usage: int, last: int) -> bytes:     # RFC 3961 5.1 and 5.3
    return cbc(key, fold(struct.pack(">IB", usage, last)) + ZERO * (len(key) // 16 - 1))


def code(key: bytes, data: bytes) -> bytes:
    return hmac.new(key, data, hashlib.sha1).digest()[:12]


def decrypted(key: bytes, cipher: bytes) -> bytes:   # RFC 3962 5
    need(len(cipher) >= 28, "short")
    data, mac, ke = cipher[:-12], cipher[-12:], derived(key, 13, 0xAA)
    if len(data) == 16:
        plain = cbc(ke, data, True)
    else:
        rest = (len(data) - 1) % 16 + 1
        front, swapped, tail = data[:-16 - rest], data[-16 - rest:-rest], data[-rest:]
        middle = cbc(ke, swapped, True)         # the last block, before it was chained
        whole = tail + middle[rest:]
        iv = front[-16:] or ZERO
        plain = cbc(ke, front, True) if front else b""
        plain += cbc(ke, whole, True, iv) + bytes(a ^ b for a, b in zip(middle, tail))
    need(hmac.compare_digest(code(derived(key, 13, 0x55), plain), mac), "integrity")
    return plain[16:]


def element(data: bytes, tag: int) -> tuple[bytes, bytes]:
    need(len(data) > 1 and data[0] == tag, "tag")
    size, at = data[1], 2
    if size > 127:
        at += size - 128
        need(size > 128 and len(data) >= at and data[2], "length")
        size = int.from_bytes(data[2:at], "big")
        need(size > 127, "length")
    need(len(data) >= at + size, "size")
    return data[at:at + size], data[at + size:]


def only(data: bytes, tag: int) -> bytes:
    inner, rest = element(data, tag)
    need(not rest, "rest")
    return inner


def integer(data: bytes, low: int = -2**31, high: int = 2**31 - 1) -> int:
    inner = only(data, 2)
    need(inner and not (len(inner) > 1 and (inner[0] == 0 and inner[1] < 128 or inner[0] == 255 and inner[1] > 127)), "INTEGER")
    value = int.from_bytes(inner, "big", signed=True)
    need(low <= value <= high, "range")
    return value


def moment(data: bytes) -> int:
    text = only(data, 24).decode("latin-1")
    need(len(text) == 15 and text[:14].isascii() and text[:14].isdigit() and text[14] == "Z", "time")
    try:
        seconds = calendar.timegm(time.strptime(text, "%Y%m%d%H%M%SZ"))
    except ValueError:
        raise No("time")
    need(seconds >= 0 and time.strftime("%Y%m%d%H%M%SZ", time.gmtime(seconds)) == text, "time")
    return seconds


def fields(data: bytes, *grammar: tuple[int, Reads, int]) -> list:      # (number, reader, optional)
    data, found = only(data, 48), []
    for number, reader, optional in grammar:
        if optional and data[:1] != bytes([160 + number]):
            found.append(None)
            continue
        inner, data = element(data, 160 + number)
        found.append(reader(inner))
    need(not data, "rest")
    return found


def octets(data: bytes) -> bytes:
    return only(data, 4)


def typed(data: bytes) -> tuple[int, bytes]:
    return tuple(fields(data, (0, integer, 0), (1, octets, 0)))


def unsigned(data: bytes) -> int:
    return integer(data, 0, 2**32 - 1)


def body(data: bytes) -> list:
    return fields(data, (0, octets, 0), (1, moment, 1), (2, lambda it: integer(it, 0, 999_999), 1), (3, unsigned, 1),
                  (4, typed, 0), (5, typed, 1))


def opened(mode: str, etype: int, key: bytes, message: bytes) -> list:      # the body of an authentic message
    safe = message[:1] == b"\x74"
    inner = only(message, 0x74 if safe else 0x75)
    if not safe:
        pvno, kind, part = fields(inner, (0, integer, 0), (1, integer, 0), (3, lambda it: it, 0))
        need(pvno == 5 and kind == 21 and mode == "priv", "kind")
        told, _, cipher = fields(part, (0, integer, 0), (1, unsigned, 1), (2, octets, 0))
        need(told == etype, "etype")
        return body(only(decrypted(key, cipher), 0x7C))
    raw = []
    pvno, kind, found, (told, mac) = fields(inner, (0, integer, 0), (1, integer, 0),
                                            (2, lambda it: (raw.append(it), body(it))[1], 0), (3, typed, 0))
    need(pvno == 5 and kind == 20 and mode == "safe" and told == etype - 2, "kind")
    empty = b"\xa3\x0b\x30\x09\xa0\x03\x02\x01\x00\xa1\x02\x04\x00"
    front = b"\xa0\x03\x02\x01\x05\xa1\x03\x02\x01\x14" + wrapped(0xA2, raw[0])
    covered = wrapped(0x74, wrapped(48, front + empty))
    need(hmac.compare_digest(code(derived(key, 15, 0x99), covered), mac), "checksum")
    return found


def wrapped(tag: int, data: bytes) -> bytes:
    size = len(data)
    digits = size.to_bytes((size.bit_length() + 7) // 8, "big")
    return bytes([tag]) + (bytes([size]) if size < 128 else bytes([128 + len(digits)]) + digits) + data


def address(text: str) -> tuple[int, bytes] | None:
    return None if text == "-" else (int(text.split(":")[0]), bytes.fromhex(text.split(":")[1]))


def checked(f: list[str], number: int | None, message: bytes) -> bytes:     # the user data, or No
    user, seconds, usec, told, sender, receiver = opened(f[1], int(f[2]), bytes.fromhex(f[3]), message)
    need(f[4] == "-" or sender == address(f[4]), "sender")
    need(receiver is not None or f[6] == "0", "no receiver")
    need(f[5] == "-" or receiver is None or receiver == address(f[5]), "receiver")
    if f[7] != "0":
        if f[7] == "3" and seconds is not None:
            usec = usec or 0
        need((seconds is None) == (usec is None) and (seconds is not None or f[7] == "1"), "time")
        need(seconds is None or abs((seconds - int(f[8])) * 10**6 + usec - int(f[9])) <= int(f[10]) * 10**6, "skew")
    need(number is None or told == number, "number")
    need(seconds is not None or told is not None, "neither")     # RFC 4120 3.4.2, whatever field 13 says
    return user


def main() -> None:
    for line in sys.stdin:
        f, told = line.rstrip("\n").split("\t"), []
        number = None if f[11] == "-" else int(f[11])
        for message in f[14].split(","):
            try:
                if f[13] == "1":
                    told.append("na")
                    continue
                told.append("ok:" + checked(f, number, bytes.fromhex(message.strip("."))).hex())
                number = None if number is None else (number + 1) % 2**32
            except No as why:
                told.append(f"no:{why}")
        print(f[0], ",".join(told), sep="\t", flush=True)


if __name__ == "__main__":
    main()
