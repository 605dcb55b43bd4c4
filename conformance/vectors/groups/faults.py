"""Each check failing alone, and each two together: RFC 4120 3.4.2 and 3.5.2 have an order."""
from __future__ import annotations

import itertools

from oracle import frames
from vectors.common import CLOCK, FULL, NUMBER, TO, each
from vectors.messages import CODE_BYTES, Fields, checksum_kind, checksum_of, encrypt, priv, safe
from vectors.model import Address, Suite, etype_of, invalid

RECEIPT = "RFC4120 3.4.2, 3.5.2"
# In the order in which the RFC has them. `etype` and `integrity` are of KRB-PRIV, whose other checks come
# after it is decrypted; `cksumtype` and `checksum` are of KRB-SAFE, and the last comes last.
IN_ORDER = {"safe": ("pvno", "msg-type", "cksumtype", "address", "time", "order", "checksum"),
            "priv": ("pvno", "msg-type", "etype", "integrity", "address", "time", "order")}
FIELDS = {"pvno": {"pvno": 4}, "msg-type": {"msg_type": 22}, "time": {"time": CLOCK - 1000}, "order": {"number": NUMBER + 1}}
# The two addresses are one check, which fails in either place.
WRONG_ADDRESS = {"address": {"sender": TO}, "receiver": {"receiver": Address(2, bytes([203, 0, 113, 3]))}}


def failing(mode: str, key: bytes, checks: tuple[str, ...], place: str = "address") -> bytes:
    """A message that fails just these checks."""
    of: Fields = FULL
    for check in checks:
        of = of.but(**(WRONG_ADDRESS[place] if check == "address" else FIELDS.get(check, {})))
    return (failing_safe if mode == "safe" else failing_priv)(key, of, checks)


def failing_safe(key: bytes, of: Fields, checks: tuple[str, ...]) -> bytes:
    kind = 12 if "cksumtype" in checks else checksum_kind(key)

    def checksum(key: bytes, data: bytes) -> bytes:
        right = checksum_of(key, data)
        return frames.xor(right, b"\1" * CODE_BYTES) if "checksum" in checks else right
    return safe(key, of, checksum=checksum, kind=kind)


def failing_priv(key: bytes, of: Fields, checks: tuple[str, ...]) -> bytes:
    def seal(key: bytes, text: bytes) -> bytes:
        right = encrypt(key, text)
        return right[:-1] + bytes([right[-1] ^ 1]) if "integrity" in checks else right
    return priv(key, of, etype=35 - etype_of(key) if "etype" in checks else None, seal=seal)


def one(suite: Suite) -> None:
    for mode, key in each(suite, "one check fails"):
        for check in IN_ORDER[mode]:
            suite.add(invalid(check), failing(mode, key, (check,)), check, RECEIPT, "OneCheckFails")
        suite.add(invalid("address"), failing(mode, key, ("address",), "receiver"), "address, of the receiver", RECEIPT,
                  "OneCheckFails")


def two(suite: Suite) -> None:
    for mode, key in each(suite, "two checks fail"):
        for pair in itertools.combinations(IN_ORDER[mode], 2):
            suite.add(invalid(*pair), failing(mode, key, pair), " and ".join(pair), RECEIPT, "TwoChecksFail")
        for other in (it for it in IN_ORDER[mode] if it != "address"):
            pair = tuple(it for it in IN_ORDER[mode] if it in ("address", other))
            suite.add(invalid(*pair), failing(mode, key, pair, "receiver"), f"address, of the receiver, and {other}", RECEIPT,
                      "TwoChecksFail")


def all_of_them(suite: Suite) -> None:
    """From each check on, all that come after it fail too."""
    for mode, key in each(suite, "all checks from one on fail"):
        for place in range(len(IN_ORDER[mode]) - 2):
            checks = IN_ORDER[mode][place:]
            suite.add(invalid(*checks), failing(mode, key, checks), f"{checks[0]} and all after it", RECEIPT, "TwoChecksFail")


def build(suite: Suite) -> None:
    for part in (one, two, all_of_them):
        part(suite)
