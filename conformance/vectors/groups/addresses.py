"""Addresses (RFC 4120 5.2.5, 7.1, 7.5.3): each type, another one, none, a reflected message."""
from __future__ import annotations

import dataclasses
import hashlib

from vectors.common import FROM, ORDINARY, TO, each
from vectors.messages import Fields, message
from vectors.model import Address, Suite, Verdict, acceptable, invalid, valid

DIRECTIONAL = 3
AT_CLIENT, AT_SERVER = Address(DIRECTIONAL, bytes(4)), Address(DIRECTIONAL, bytes([0, 0, 0, 1]))
KINDS = [(2, 4, "IPv4"), (24, 16, "IPv6"), (DIRECTIONAL, 4, "directional"), (5, 2, "CHAOSnet"), (6, 10, "XNS"),
         (7, 20, "ISO"), (12, 2, "DECnet IV"), (16, 3, "AppleTalk DDP"), (20, 16, "NetBIOS"), (0, 4, "type 0"),
         (1, 3, "type 1"), (100, 8, "type 100"), (256, 12, "type 256"), (32_768, 4, "type 2^15"),
         (2**31 - 1, 4, "type 2^31 - 1"), (-1, 4, "type -1"), (-7, 5, "type -7"), (-2**31, 4, "type -2^31")]
ADDRESS = invalid("address")
SECTION, DIRECTION = "RFC4120 3.4.2, 3.5.2, 5.2.5, 7.5.3", "RFC4120 7.1"
LONGEST_OF_KRBRELAY = 40


@dataclasses.dataclass
class Adding:
    """Adds cases of one mode and key."""
    suite: Suite
    mode: str
    key: bytes

    def __call__(self, verdict: Verdict, of: Fields, comment: str, section: str, *flags: str, **asked: object) -> None:
        self.suite.add(verdict, message(self.mode, self.key, of), comment, section, *flags, **asked)


def each_type(suite: Suite) -> None:
    for mode, key in each(suite, "addresses of each type"):
        add = Adding(suite, mode, key)
        for kind, size, name in KINDS:
            address = AT_SERVER if kind == DIRECTIONAL else Address(kind, hashlib.sha256(name.encode()).digest()[:size])
            of_sender(add, address, name)
            of_receiver(add, address, name)


def flag_of(address: Address) -> str:
    return {2: "Normal", 24: "Normal", DIRECTIONAL: "DirectionalAddress"}.get(address.kind, "OtherAddressType")


def changed(address: Address) -> Address:
    return Address(address.kind, bytes(it ^ 1 for it in address.octets))


def of_sender(add: Adding, address: Address, name: str) -> None:
    kind, octets = address.kind, address.octets
    add(valid(), ORDINARY.but(sender=address), f"{name}: the sender", SECTION, flag_of(address), sender=address)
    wrong = {"another sender": changed(address), "a sender one byte shorter": Address(kind, octets[:-1]),
             "a sender one byte longer": Address(kind, octets + b"\0"), "a sender without bytes": Address(kind, b""),
             "a sender of another type": Address(4, octets)}
    for comment, other in wrong.items():
        add(ADDRESS, ORDINARY.but(sender=other), f"{name}: {comment}", SECTION, "WrongAddress", sender=address)


def of_receiver(add: Adding, address: Address, name: str) -> None:
    if address.kind == DIRECTIONAL:
        add(acceptable(), ORDINARY.but(receiver=address), f"{name}: a receiver", DIRECTION, "DirectionalReceiver",
            receiver=address)
        return
    add(valid(), ORDINARY.but(receiver=address), f"{name}: the receiver", SECTION, flag_of(address), receiver=address)
    for comment, other in (("another receiver", changed(address)), ("a receiver without bytes", Address(address.kind, b"")),
                           ("a receiver one byte shorter", Address(address.kind, address.octets[:-1])),
                           ("a receiver one byte longer", Address(address.kind, address.octets + b"\0")),
                           ("a receiver of another type", Address(4, address.octets))):
        add(ADDRESS, ORDINARY.but(receiver=other), f"{name}: {comment}", SECTION, "WrongAddress", receiver=address)


def reflected(suite: Suite) -> None:
    for mode, key in each(suite, "reflected messages"):
        add = Adding(suite, mode, key)
        mapped = Address(24, bytes(10) + b"\xff\xff" + FROM.octets)
        add(ADDRESS, ORDINARY.but(sender=mapped), "the IPv6 address of the demanded IPv4", SECTION, "WrongAddress")
        add(ADDRESS, ORDINARY.but(sender=AT_CLIENT), "directional 0 for 1", DIRECTION, "Reflected", sender=AT_SERVER)
        add(ADDRESS, ORDINARY.but(sender=AT_SERVER), "directional 1 for 0", DIRECTION, "Reflected", sender=AT_CLIENT)
        add(valid(), ORDINARY.but(sender=AT_CLIENT), "directional 0", DIRECTION, "DirectionalAddress", sender=AT_CLIENT)
        add(ADDRESS, ORDINARY.but(sender=TO, receiver=FROM), "reflected: sender and receiver exchanged", DIRECTION, "Reflected")
        add(ADDRESS, ORDINARY.but(sender=TO), "reflected: the receiver's own address", DIRECTION, "Reflected")


def demanded(suite: Suite) -> None:
    section = "RFC4120 3.4.2, 3.5.2, 5.6.1"
    for mode, key in each(suite, "addresses present, absent, demanded"):
        add = Adding(suite, mode, key)
        add(valid(), ORDINARY.but(receiver=TO), "receiver told", section)
        add(valid(), ORDINARY, "receiver not told", section)
        add(valid(), ORDINARY.but(receiver=TO), "receiver told and required", section, "ReceiverRequired", receiver_required=True)
        add(ADDRESS, ORDINARY, "receiver required and not told", section, "ReceiverRequired", receiver_required=True)
        add(ADDRESS, ORDINARY.but(receiver=FROM), "another receiver told and required", section, "ReceiverRequired",
            receiver_required=True)
        add(acceptable(), ORDINARY.but(receiver=TO), "a receiver told where none is known", section, "ReceiverUnknown",
            receiver=None)
        for receiver in (None, TO):
            to = "" if receiver is None else ", a receiver"
            add(invalid("address", "der"), ORDINARY.but(sender=None, receiver=receiver), f"no sender{to}", section,
                "MissingDemandedSender")
            add(acceptable(), ORDINARY.but(sender=None, receiver=receiver), f"no sender{to}, none demanded", section,
                "MissingSender", sender=None)


def any_sender(suite: Suite) -> None:
    for mode, key in each(suite, "any sender", sender=None):
        add = Adding(suite, mode, key)
        add(valid(), ORDINARY.but(sender=Address(2, bytes(4))), "a sender of IPv4", SECTION)
        add(valid(), ORDINARY.but(sender=Address(24, bytes(16)), receiver=TO), "a sender of IPv6", SECTION)
        for size in (0, LONGEST_OF_KRBRELAY, LONGEST_OF_KRBRELAY + 1, 200):
            flag = "LongAddress" if size > LONGEST_OF_KRBRELAY else "Normal"
            add(valid(), ORDINARY.but(sender=Address(99, bytes(size))), f"a sender of {size} bytes", SECTION, flag)
            add(valid(), ORDINARY.but(receiver=Address(99, bytes(size))), f"a receiver of {size} bytes", SECTION,
                *(("LongAddress",) if size > LONGEST_OF_KRBRELAY else ()), receiver=Address(99, bytes(size)))


def build(suite: Suite) -> None:
    for part in (each_type, reflected, demanded, any_sender):
        part(suite)
