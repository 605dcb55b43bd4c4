"""What the tests have in common: the package from its folder, and the independent sealer and opener
of tests/oracle, whose values are expected."""
import os
import sys

PYTHON = os.path.dirname(os.path.dirname(os.path.realpath(__file__)))
TOP = os.path.dirname(PYTHON)
sys.path[:0] = [PYTHON, os.path.join(TOP, "tools"), os.path.join(TOP, "tests")]

try:
    import cryptography.hazmat.primitives.ciphers  # noqa: F401
except ImportError:
    import plain_aes
    plain_aes.install()

from oracle import fixtures, frames, opener, reader     # noqa: E402

import krbrelay    # noqa: E402
from krbrelay import Address, Mode     # noqa: E402

ALL = os.environ.get("KRBRELAY_TESTS") == "all"    # whether the long tests are whole

MICROS = fixtures.MICROS
CONFOUNDER = bytes(range(100, 116))
KEYS = (fixtures.KEY_128, fixtures.KEY_256)
KINDS = [(key, mode) for key in KEYS for mode in Mode]
SENDER, RECEIVER = Address(*fixtures.SENDER), Address(*fixtures.RECEIVER)
OTHER = Address.ip("2001:db8::1")
PAIRS = {SENDER: fixtures.SENDER, RECEIVER: fixtures.RECEIVER, OTHER: (24, OTHER.data)}


def etype_of(key):
    return {16: 17, 32: 18}[len(key)]


def sealed(key, mode, body, confounder=CONFOUNDER):
    """The message of a body by the independent sealer."""
    if mode is Mode.SAFE:
        return frames.seal_safe(key, body)
    return frames.seal_priv(key, body, confounder)


def frame_of(key, mode, user_data, number=7, at=MICROS, sender=SENDER, receiver=None, left_out=()):
    """The message of user data by the independent sealer."""
    to = PAIRS[receiver] if receiver else None
    return sealed(key, mode,
                  frames.body(user_data, at, number, PAIRS[sender], to, left_out=left_out))


def sealer_of(key, mode, first=7, sender=SENDER, receiver=None):
    return krbrelay.Sealer(etype_of(key), key, mode=mode, sender=sender, receiver=receiver,
                           first=first)


def opener_of(key, mode, sender=SENDER, receiver=RECEIVER, **demands):
    return krbrelay.Opener(etype_of(key), key, mode=mode, sender=sender, receiver=receiver,
                           **demands)


def receiver_of(key, mode, expected=7, sender=SENDER, **demands):
    return krbrelay.Receiver(etype_of(key), key, mode=mode, sender=sender, receiver=RECEIVER,
                             expected=expected, **demands)


def peer_of(key, mode, first=7, expected=7, here=RECEIVER, there=SENDER, **named):
    """A peer in the place of the receiver: what comes is the messages of `frame_of`."""
    demand = krbrelay.Demand(sender=there, skew=300, number=expected)
    return krbrelay.Peer(etype_of(key), key, mode=mode, sender=here, demand=demand, first=first,
                         **named)


def session_of(key, mode, **demands):
    """What the independent opener demands, as `opener_of` does."""
    names = {"require_receiver": "require_to", "require_time": "expect_time", "skew": "skew"}
    return opener.Session(key, mode.name.lower(), 7, fixtures.SENDER, fixtures.RECEIVER,
                          **{names[name]: value for name, value in demands.items()})


def outcome(call, *arguments, **named):
    """What a call returns, or the number of its refusal."""
    try:
        return call(*arguments, **named)
    except krbrelay.Refusal as refusal:
        return int(refusal.code)


def expected_outcome(session, number, at, frame):
    """The same of the independent opener."""
    try:
        return opener.unseal(session, number, at, frame)
    except opener.Refused as refused:
        return refused.args[0]
