"""An independent reader of KRB-SAFE and KRB-PRIV messages and of KRB-PRIV's encrypted part: the
grammar of RFC 4120 (section 5 and appendix A) in DER (X.690). It shares nothing with the crates.

Each reader gives what its bytes spell, or raises Malformed: a number, bytes, or the list of the
fields of a SEQUENCE, with None for an absent one."""

import datetime

# tables/limits.toml: limits, by tools/tables
LIMIT = 1_005_000
# end of limits


class Malformed(Exception):
    pass


def need(condition):
    if not condition:
        raise Malformed


def element(data, tag):
    """The content of the first element, which has this tag, and what follows it."""
    need(len(data) >= 2 and data[0] == tag)
    first, rest = data[1], data[2:]
    if first < 0x80:
        size = first
    else:
        count = first & 0x7F
        need(1 <= count <= 3 and len(rest) >= count)
        size = int.from_bytes(rest[:count], "big")
        need(size >= 0x80 and size.bit_length() > 8 * (count - 1))
        rest = rest[count:]
    need(len(rest) >= size)
    return rest[:size], rest[size:]


def only(data, tag):
    content, rest = element(data, tag)
    need(rest == b"")
    return content


def integer(data, low, high):
    content = only(data, 0x02)
    value = int.from_bytes(content, "big", signed=True)
    fewest = (value + (value < 0)).bit_length() // 8 + 1
    need(len(content) == fewest and low <= value <= high)
    return value


def int32(data):
    return integer(data, -(2**31), 2**31 - 1)


def uint32(data):
    return integer(data, 0, 2**32 - 1)


def microseconds(data):
    return integer(data, 0, 999_999)


def octets(data):
    return only(data, 0x04)


def kerberos_time(data):
    text = only(data, 0x18)
    need(len(text) == 15 and text[14:] == b"Z" and all(b in b"0123456789" for b in text[:14]))
    numbers = [int(text[:4])] + [int(text[i : i + 2]) for i in range(4, 14, 2)]
    need(numbers[0] >= 1970)
    try:
        datetime.datetime(*numbers)
    except ValueError:
        raise Malformed from None
    return text


def fields(data, grammar):
    """The fields of a SEQUENCE: (number, reader, whether it may be absent)."""
    rest = only(data, 0x30)
    found = []
    for number, reader, optional in grammar:
        tag = 0xA0 + number
        if optional and rest[:1] != bytes([tag]):
            found.append(None)
            continue
        content, rest = element(rest, tag)
        found.append(reader(content))
    need(rest == b"")
    return found


def typed(data):
    return fields(data, [(0, int32, False), (1, octets, False)])


def body(data):
    grammar = [
        (0, octets, False),
        (1, kerberos_time, True),
        (2, microseconds, True),
        (3, uint32, True),
        (4, typed, False),
        (5, typed, True),
    ]
    return fields(data, grammar)


def encrypted(data):
    return fields(data, [(0, int32, False), (1, uint32, True), (2, octets, False)])


def safe(data):
    grammar = [(0, int32, False), (1, int32, False), (2, body, False), (3, typed, False)]
    return fields(only(data, 0x74), grammar)


def private(data):
    grammar = [(0, int32, False), (1, int32, False), (3, encrypted, False)]
    return fields(only(data, 0x75), grammar)


def message(data):
    need(len(data) <= LIMIT)
    return safe(data) if data[:1] == b"\x74" else private(data)


def part(data):
    return body(only(data, 0x7C))
