"""Version, kind, encryption type and key version of a message (RFC 4120 5.2.9, 5.10)."""
from __future__ import annotations

from vectors.common import BOTH, ORDINARY, PRIV, each
from vectors.elements import Element, digits_of
from vectors.messages import bent, message, priv
from vectors.model import Suite, acceptable, etype_of, invalid, valid

OWN_KIND = {"safe": 20, "priv": 21}
OWN_TAG = {"safe": 0x74, "priv": 0x75}
VERSIONS = (0, 1, 4, 6, -5, 127, 128, 261, 2**31 - 1, -2**31)
TAGS = (0x60, 0x61, 0x6A, 0x6B, 0x6E, 0x6F, 0x74, 0x75, 0x76, 0x7E, 0x34, 0x54, 0xB4, 0x30)
ETYPES = (0, 1, 2, 3, 5, 7, 16, 17, 18, 19, 20, 23, 24, 25, 26, -17, -18, -128, 255, 2**31 - 1, -2**31)
RECEIPT = "RFC4120 3.4.2, 3.5.2"


def kinds_but(mode: str) -> list[int]:
    own = OWN_KIND[mode]
    return [0, 10, 11, 12, 13, 14, 15, 41 - own, 22, 30, -own, own + 256, own + 65_536, 2**31 - 1]


def versions(suite: Suite) -> None:
    for mode, key in each(suite, "version and kind", BOTH):
        for value in VERSIONS:
            wrong(suite, mode, key, "pvno", value)
        for value in kinds_but(mode):
            wrong(suite, mode, key, "msg-type", value)


def wrong(suite: Suite, mode: str, key: bytes, name: str, value: int) -> None:
    field = {name.replace("-", "_"): value}
    suite.add(invalid(name), message(mode, key, ORDINARY.but(**field)), f"{name} {value}, under the checksum too", RECEIPT,
              "WrongValue")
    if mode == "safe":
        def change(_tree: Element, it: Element) -> None:
            it.value = digits_of(value)
        suite.add(invalid(name, "checksum"), bent(mode, key, ORDINARY, name, False, change), f"{name} {value} after the checksum",
                  RECEIPT, "UnauthenticatedField")


def tags(suite: Suite) -> None:
    for mode, key in each(suite, "the tag of a message", BOTH):
        for tag in (tag for tag in TAGS if tag != OWN_TAG[mode]):
            changed = bytes([tag]) + message(mode, key, ORDINARY)[1:]
            checks = ("msg-type", "der") if tag in OWN_TAG.values() else ("der",)
            suite.add(invalid(*checks), changed, f"tag {tag:02x} before the message", "RFC4120 5.10, 5.1.4", "WrongTag")
        other = "priv" if mode == "safe" else "safe"
        suite.add(invalid("msg-type"), message(other, key, ORDINARY), "a whole message of the other kind", RECEIPT, "WrongValue")


def encryption_types(suite: Suite) -> None:
    for _, key in each(suite, "encryption type and key version", PRIV):
        own = etype_of(key)
        for value in (value for value in (*ETYPES, own + 256, own + 65_536) if value != own):
            suite.add(invalid("etype"), priv(key, ORDINARY, etype=value), f"etype {value}, enciphered under {own}",
                      "RFC4120 5.2.9", "WrongValue")
        for value in (0, 1, 2, 127, 128, 255, 256, 2**31 - 1, 2**31, 2**32 - 1):
            suite.add(valid(), priv(key, ORDINARY.but(key_version=value)), f"kvno {value}", "RFC4120 5.2.9", "KeyVersion")
        for value in (-1, -128, -2**31):
            suite.add(acceptable(), priv(key, ORDINARY.but(key_version=value)), f"kvno {value}", "RFC4120 5.2.9, 8.1",
                      "NegativeKeyVersion")


def build(suite: Suite) -> None:
    for part in (versions, tags, encryption_types):
        part(suite)
