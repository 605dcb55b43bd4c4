"""Seals a text as KRB-PRIV at one end of a session, and opens it at the other."""
from krbrelay import Address, Mode, Opener, Refusal, Sealer

# The key of the session, of encryption type 17, comes from the exchange before it.
KEY = b"chicken teriyaki"
ALICE, BOB = Address.ip("10.0.0.1"), Address.ip("10.0.0.255")

with Sealer(17, KEY, mode=Mode.PRIV, sender=ALICE, first=7) as sealer:
    frame = sealer.seal(b"hello")
with Opener(17, KEY, mode=Mode.PRIV, sender=ALICE, receiver=BOB) as opener:
    print(f"message 7: {opener.unseal(frame, 7).decode()}")
    try:
        opener.unseal(frame, 8)
    except Refusal as refusal:
        print(f"open: {refusal.code.value} {refusal.name}")
