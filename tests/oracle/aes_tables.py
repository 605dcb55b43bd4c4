"""The tables of 16 bytes by which krb_aes enciphers, computed from the field of FIPS 197 alone.

The way is that of "Accelerating AES with Vector Permute Instructions" (Hamburg, 2009). A byte is
k + i t, where i and k are of the subfield of 16 elements and t is a byte outside it; its nibbles
are i, the higher one, and k. An element of the subfield is written as a nibble: the sum of powers
of g, a root of g^4 = g + 1, that its bits name. t is a root of t^2 = g t + g.

The inverse of k + i t: with j = i + k, p = 1/i + g/k and q = 1/j + g/k, the two places are
1/p + j and 1/q + i, and any linear function of the inverse is a sum of a function of each. Where a
nibble is 0 its inverse is 0x80, for which no table has an entry, and a look-up gives 0.
"""
NO_PLACE = 0x80
CONSTANT = 0x63  # of the S-box's affine map (section 5.1.1)


# ---- the field of 256 elements (section 4.2)

def times(a, b):
    product = 0
    for i in range(8):
        if b >> i & 1:
            product ^= a << i
    for i in range(14, 7, -1):
        if product >> i & 1:
            product ^= 0x11B << (i - 8)
    return product


def inverse(a):
    """The power 254: 0 for 0."""
    result = 1
    for _ in range(254):
        result = times(result, a)
    return result


def linear(b):
    """The S-box's affine map without its constant (section 5.1.1)."""
    result = 0
    for i in range(8):
        bits = (b >> (i + d) % 8 for d in (0, 4, 5, 6, 7))
        result |= (sum(bit & 1 for bit in bits) & 1) << i
    return result


INV_LINEAR = {linear(b): b for b in range(256)}
SBOX = [linear(inverse(b)) ^ CONSTANT for b in range(256)]
INV_SBOX = {SBOX[b]: b for b in range(256)}


# ---- the subfield of 16 elements, written as nibbles

def powers(g):
    square = times(g, g)
    return [1, g, square, times(g, square)]


def embedded(n, basis):
    result = 0
    for bit, power in enumerate(basis):
        if n >> bit & 1:
            result ^= power
    return result


# The least root of g^4 = g + 1 in the subfield, whose elements are their own 16th power.
G = min(g for g in range(256) if times(times(g, g), times(g, g)) == g ^ 1)
BYTE_OF = [embedded(n, powers(G)) for n in range(16)]
NIBBLE_OF = {BYTE_OF[n]: n for n in range(16)}
T = min(t for t in range(256) if t not in NIBBLE_OF and times(t, t) == times(G, t) ^ G)

NIBBLES = {}
for i in range(16):
    for k in range(16):
        NIBBLES[BYTE_OF[k] ^ times(BYTE_OF[i], T)] = i << 4 | k
BYTE = {nibbles: byte for byte, nibbles in NIBBLES.items()}


def nibble_times(a, b):
    return NIBBLE_OF[times(BYTE_OF[a], BYTE_OF[b])]


def nibble_inverse(a):
    return NIBBLE_OF[inverse(BYTE_OF[a])]


SCALE = NIBBLE_OF[G]
INVERSES = [NO_PLACE] + [nibble_inverse(a) for a in range(1, 16)]
SCALED_INVERSES = [NO_PLACE] + [nibble_times(SCALE, nibble_inverse(a)) for a in range(1, 16)]


def entry(table, place):
    """What a look-up gives: 0 at each place from 128 on."""
    if place >= 128:
        return 0
    assert place < 16
    return table[place]


def places(nibbles):
    """The two places at which a pair of tables is read."""
    i, k = nibbles >> 4, nibbles & 15
    j = i ^ k
    scaled = entry(SCALED_INVERSES, k)
    p = entry(INVERSES, i) ^ scaled
    q = entry(INVERSES, j) ^ scaled
    return entry(INVERSES, p) ^ j, entry(INVERSES, q) ^ i


def inverse_from(p, q):
    """The inverse of the byte, from the inverses p and q of its places."""
    k = nibble_times(p ^ q, nibble_inverse(SCALE))
    i = nibble_times(p ^ k, nibble_inverse(SCALE))
    return BYTE[i << 4 | p]


def pair(f):
    """The tables that give f of a byte's inverse, for a linear f."""
    first = [0] + [f(inverse_from(nibble_inverse(place), 0)) for place in range(1, 16)]
    second = [0] + [f(inverse_from(0, nibble_inverse(place))) for place in range(1, 16)]
    return first, second


def halves(f):
    """The tables that give f of a byte from its higher and its lower half, for a linear f."""
    return [f(n << 4) for n in range(16)], [f(n) for n in range(16)]


def inv_linear_nibbles(b):
    return NIBBLES[INV_LINEAR[b]]


# ---- the tables

def tables():
    found = {"INVERSES": INVERSES, "SCALED_INVERSES": SCALED_INVERSES}

    def put(name, two, ends=("FIRST", "SECOND")):
        for end, table in zip(ends, two):
            found[f"{name}_{end}"] = table

    put("NIBBLES", halves(lambda b: NIBBLES[b]), ("HIGH", "LOW"))
    put("SBOX", pair(lambda b: NIBBLES[linear(b)]))
    put("DOUBLED", pair(lambda b: NIBBLES[times(2, linear(b))]))
    put("BARE", pair(linear))

    high, low = halves(inv_linear_nibbles)
    put("INV_LINEAR", (high, low), ("HIGH", "LOW"))
    # in the code the constant stands in the higher half
    put("UNDONE", ([b ^ inv_linear_nibbles(CONSTANT) for b in high], low), ("HIGH", "LOW"))
    for number in (14, 11, 13, 9):
        put(f"TIMES_{number}", pair(lambda b, n=number: inv_linear_nibbles(times(n, b))))
    put("INV_SBOX", pair(lambda b: b))
    return found


def test(found):
    """Each pair gives what it is to give, of every byte."""
    def read(name, nibbles):
        first, second = places(nibbles)
        return entry(found[name + "_FIRST"], first) ^ entry(found[name + "_SECOND"], second)

    for b in range(256):
        assert found["NIBBLES_HIGH"][b >> 4] ^ found["NIBBLES_LOW"][b & 15] == NIBBLES[b]
        bare = SBOX[b] ^ CONSTANT
        assert read("SBOX", NIBBLES[b]) == NIBBLES[bare]
        assert read("DOUBLED", NIBBLES[b]) == NIBBLES[times(2, bare)]
        assert read("BARE", NIBBLES[b]) == bare
        undone = found["UNDONE_HIGH"][b >> 4] ^ found["UNDONE_LOW"][b & 15]
        assert undone == inv_linear_nibbles(b ^ CONSTANT)
        assert read("INV_SBOX", undone) == INV_SBOX[b]
        for number in (14, 11, 13, 9):
            assert read(f"TIMES_{number}", undone) == inv_linear_nibbles(times(number, INV_SBOX[b]))
