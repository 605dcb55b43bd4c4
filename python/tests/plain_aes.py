"""AES in plain Python (FIPS 197), in the place of the package `cryptography` where that isn't
installed: the few names of it that the sealer and the opener of tests/oracle use."""
import functools
import sys
import types


def times(a, b):
    """The product in the field of 256 elements (section 4.2)."""
    total = 0
    while b:
        total ^= a if b & 1 else 0
        a, b = a << 1 ^ (0x11B if a & 0x80 else 0), b >> 1
    return total


def substitute(byte):
    """The S-box (section 5.1.1): the inverse in the field, and an affine map."""
    inverse = next((it for it in range(256) if times(byte, it) == 1), 0)
    found = 0x63
    for turn in range(5):
        found ^= (inverse << turn | inverse >> 8 - turn) & 0xFF
    return found


BOX = [substitute(byte) for byte in range(256)]
UNBOX = [BOX.index(byte) for byte in range(256)]
PRODUCTS = {factor: [times(factor, byte) for byte in range(256)]
            for factor in (1, 2, 3, 9, 11, 13, 14)}
MIX, UNMIX = (2, 3, 1, 1), (14, 11, 13, 9)


@functools.lru_cache(maxsize=64)
def round_keys(key):
    """The key of each round (section 5.2)."""
    count, factor = len(key) // 4, 1
    words = [key[at:at + 4] for at in range(0, len(key), 4)]
    for place in range(count, 4 * (count + 7)):
        word = words[-1]
        if place % count == 0:
            word = bytes(BOX[it] for it in word[1:] + word[:1])
            word = bytes([word[0] ^ factor]) + word[1:]
            factor = times(factor, 2)
        elif count == 8 and place % count == 4:
            word = bytes(BOX[it] for it in word)
        words.append(xor(word, words[place - count]))
    return [b"".join(words[at:at + 4]) for at in range(0, len(words), 4)]


def xor(a, b):
    return bytes(x ^ y for x, y in zip(a, b))


def mixed(state, factors):
    """Each column times a polynomial (section 5.1.3)."""
    tables = [PRODUCTS[it] for it in factors]
    return bytes(
        tables[-row % 4][state[at]] ^ tables[(1 - row) % 4][state[at + 1]]
        ^ tables[(2 - row) % 4][state[at + 2]] ^ tables[(3 - row) % 4][state[at + 3]]
        for at in (0, 4, 8, 12) for row in range(4))


class Engine:
    """One direction of the cipher, whole blocks one by one."""

    def __init__(self, keys, decrypts):
        self.update = lambda block: (decrypted if decrypts else encrypted)(keys, block)

    def finalize(self):
        return b""


def encrypted(keys, block):
    state = xor(block, keys[0])
    for key in keys[1:]:
        state = bytes(BOX[state[5 * at % 16]] for at in range(16))
        state = xor(state if key is keys[-1] else mixed(state, MIX), key)
    return state


def decrypted(keys, block):
    state = block
    for key in keys[:0:-1]:
        state = xor(state, key)
        state = state if key is keys[-1] else mixed(state, UNMIX)
        state = bytes(UNBOX[state[-3 * at % 16]] for at in range(16))
    return xor(state, keys[0])


class Cipher:
    def __init__(self, keys, _mode):
        self.keys = keys

    def encryptor(self):
        return Engine(self.keys, False)

    def decryptor(self):
        return Engine(self.keys, True)


def install():
    """Puts the names in the place of the package."""
    ciphers = types.ModuleType("cryptography.hazmat.primitives.ciphers")
    ciphers.Cipher = Cipher
    ciphers.algorithms = types.SimpleNamespace(AES=round_keys)
    ciphers.modes = types.SimpleNamespace(ECB=lambda: None)
    name = ""
    for part in ("cryptography", "hazmat", "primitives", "ciphers"):
        name = f"{name}.{part}" if name else part
        sys.modules[name] = ciphers if part == "ciphers" else types.ModuleType(name)
