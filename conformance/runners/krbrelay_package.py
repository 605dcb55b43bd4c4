#!/usr/bin/env python3
"""The runner of the Python package krbrelay: Opener.open of single messages, Peer.open of several with
a number, Receiver.take of records. PYTHONPATH and KRBRELAY_LIBRARY say where package and library are."""
from __future__ import annotations

import collections.abc

from krbrelay import Address, Batch, Closed, Demand, How, Mode, Opener, Peer, Receiver, Refusal, Text

from asked import REQUIRED, Asked, run

OWN = Address(3, bytes(4))

Take = collections.abc.Callable[[bytes], bytes]


def address(text: str) -> Address | None:
    if text == "-":
        return None
    kind, _, digits = text.partition(":")
    return Address(int(kind), bytes.fromhex(digits))


def demand_of(asked: Asked) -> Demand:
    named: dict[str, object] = {"sender": address(asked.sender), "receiver": address(asked.receiver),
                                "number": asked.number}
    if asked.receiver != "-":
        named["how_receiver"] = How.REQUIRED if asked.receiver_required else How.IF_PRESENT
    if asked.time:
        named |= {"skew": asked.skew, "how_time": How(asked.time)}
    if asked.time_or_number:
        named["needs_time_or_number"] = True
    return Demand(**named)


def user_data(record: Text | Batch | Closed) -> bytes:
    """The user data of a record, which begin with its letter."""
    if isinstance(record, Text):
        return b"D" + record.data
    if isinstance(record, Batch):
        return b"B" + b"".join(len(it).to_bytes(4, "big") + it for it in record.texts)
    return b"C"


def taker_of(asked: Asked) -> Take:
    mode = Mode.SAFE if asked.mode == "safe" else Mode.PRIV
    if asked.records:
        receiver = Receiver(asked.etype, asked.key, mode=mode, sender=address(asked.sender),
                            receiver=address(asked.receiver), expected=asked.number,
                            require_receiver=asked.receiver_required, require_time=asked.time == REQUIRED, skew=asked.skew)
        return lambda message: user_data(receiver.take(message, asked.now))
    demand = demand_of(asked)
    if len(asked.messages) > 1 and asked.number is not None:
        peer = Peer(asked.etype, asked.key, mode=mode, sender=OWN, demand=demand, skew=None)
        return lambda message: peer.open(message, asked.now).user_data
    opener = Opener(asked.etype, asked.key, mode=mode)
    return lambda message: opener.open(message, demand, asked.now).user_data


def verdict(take: Take, message: bytes) -> str:
    try:
        return "ok:" + take(message).hex()
    except Refusal as refusal:
        return f"no:{int(refusal.code)}"


def read(asked: Asked) -> list[str] | None:
    try:
        take = taker_of(asked)
    except ValueError:      # an address that is too long
        return None
    return [verdict(take, message) for message in asked.messages]


if __name__ == "__main__":
    run(read)
