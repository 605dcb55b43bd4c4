"""An independent sealer of KRB-SAFE and KRB-PRIV messages, in plain Python over the package
`cryptography` and the standard library: the cipher and its keys, the encoding, the messages, and
the records of this project.

It shares no code with the crates: the definitions are those of RFC 4120, 3961, 3962 and 2104.
"""
import hashlib
import hmac
import math
import time

from cryptography.hazmat.primitives.ciphers import Cipher, algorithms, modes


# ---- cryptography

def aes(key, block):
    engine = Cipher(algorithms.AES(key), modes.ECB()).encryptor()
    return engine.update(block) + engine.finalize()


def xor(a, b):
    return bytes(x ^ y for x, y in zip(a, b))


def cts(key, text):
    padded = text + bytes(-len(text) % 16)
    state, blocks = bytes(16), []
    for i in range(0, len(padded), 16):
        state = aes(key, xor(padded[i:i + 16], state))
        blocks.append(state)
    if len(blocks) > 1:
        blocks[-2], blocks[-1] = blocks[-1], blocks[-2]
    return b"".join(blocks)[:len(text)]


def nfold(size, text):
    whole = math.lcm(size, len(text))
    bits = "".join(f"{b:08b}" for b in text)
    stream = ""
    for i in range(whole // len(text)):
        turn = 13 * i % len(bits)
        stream += bits[len(bits) - turn:] + bits[:len(bits) - turn]
    total = sum(int(stream[i:i + 8 * size], 2) for i in range(0, 8 * whole, 8 * size))
    modulus = 2 ** (8 * size) - 1
    total = (total - 1) % modulus + 1 if total else 0
    return total.to_bytes(size, "big")


def derive(key, usage, tail):
    first = aes(key, nfold(16, usage.to_bytes(4, "big") + bytes([tail])))
    return (first + aes(key, first))[:len(key)]


def mac(key, text):
    return hmac.new(key, text, hashlib.sha1).digest()[:12]


# ---- DER

def tlv(tag, content):
    n = len(content)
    if n < 128:
        return bytes([tag, n]) + content
    size = n.to_bytes((n.bit_length() + 7) // 8, "big")
    return bytes([tag, 0x80 + len(size)]) + size + content


def integer(n):
    fewest = (n + (n < 0)).bit_length() // 8 + 1
    return tlv(2, n.to_bytes(fewest, "big", signed=True))


def octets(content):
    return tlv(4, content)


def sequence(*fields):
    return tlv(0x30, b"".join(fields))


def body(user, micros, number, sender, receiver=None, left_out=()):
    """The six fields of a body, without those whose tags are left out."""
    stamp = time.strftime("%Y%m%d%H%M%SZ", time.gmtime(micros // 1000000)).encode()
    fields = {
        0xA0: octets(user),
        0xA1: tlv(0x18, stamp),
        0xA2: integer(micros % 1000000),
        0xA3: integer(number),
        0xA4: address(sender),
    }
    if receiver is not None:
        fields[0xA5] = address(receiver)
    return sequence(*(tlv(tag, fields[tag]) for tag in fields if tag not in left_out))


def address(pair):
    kind, content = pair
    return sequence(tlv(0xA0, integer(kind)), tlv(0xA1, octets(content)))


# ---- messages

def etype_of(key):
    return 17 if len(key) == 16 else 18


def safe(inner, kind, checksum):
    sum_ = sequence(tlv(0xA0, integer(kind)), tlv(0xA1, octets(checksum)))
    return tlv(0x74, sequence(tlv(0xA0, integer(5)), tlv(0xA1, integer(20)), tlv(0xA2, inner),
                              tlv(0xA3, sum_)))


def seal_safe(key, inner):
    return safe(inner, etype_of(key) - 2, checksum_of(key, inner))


def checksum_of(key, inner):
    return mac(derive(key, 15, 0x99), safe(inner, 0, b""))


def seal_priv(key, inner, confounder):
    return seal_part(key, confounder + tlv(0x7C, inner))


def seal_part(key, text):
    cipher = cts(derive(key, 13, 0xAA), text) + mac(derive(key, 13, 0x55), text)
    data = sequence(tlv(0xA0, integer(etype_of(key))), tlv(0xA2, octets(cipher)))
    return tlv(0x75, sequence(tlv(0xA0, integer(5)), tlv(0xA1, integer(21)), tlv(0xA3, data)))


# ---- records

# tables/limits.toml: limits, by tools/tables
MOST_TEXTS, MOST_BYTES = 1_000, 1_000_000    # of a batch; a text takes four bytes more than it has
# end of limits


def groups(texts, most):
    """The texts of each record: as many as go together, up to `most`, but one at least."""
    found, place = [], 0
    while place < len(texts):
        end, size = place + 1, 4 + len(texts[place])
        while end < min(len(texts), place + most) and size + 4 + len(texts[end]) <= MOST_BYTES:
            size += 4 + len(texts[end])
            end += 1
        found.append(texts[place:end])
        place = end
    return found


def batch(texts):
    """Several texts as one record, each after its length."""
    return b"B" + b"".join(len(text).to_bytes(4, "big") + text for text in texts)


def record(group):
    return b"D" + group[0] if len(group) == 1 else batch(group)


# ---- where a key would be seen

def strings_of(key):
    """The strings that reveal a session key, by their names."""
    return {
        "key": key,
        "digits": key.hex().encode(),
        "Kc": derive(key, 15, 0x99),
        "Ke": derive(key, 13, 0xAA),
        "Ki": derive(key, 13, 0x55),
    }
