"""An independent sender and receiver of KRB-SAFE and KRB-PRIV messages: what is sealed of a list of
texts, and the outcome of frames, by RFC 4120 (sections 3.4, 3.5, 5.6, 5.7 and 7.5.1), RFC 3961 and
RFC 3962, with the records, numbers and order of checks of this project. It uses reader.py and
frames.py and shares nothing with the crates."""
import calendar
import dataclasses
import functools
import time

from cryptography.hazmat.primitives.ciphers import Cipher, algorithms, modes

from lib.jobs import Session
from oracle import frames, reader

LAST_NUMBER = 2**32 - 1
NAMES = {
    # answers.toml: names
    14: "ETYPE_NOSUPP", 31: "BAD_INTEGRITY", 37: "SKEW", 38: "BADADDR", 39: "BADVERSION",
    40: "MSG_TYPE", 41: "MODIFIED", 42: "BADORDER", 50: "INAPP_CKSUM", 61: "FIELD_TOOLONG",
    901: "MALFORMED", 902: "BAD_RECORD", 903: "AFTER_CLOSE",
    # end of names
}


class Refused(Exception):
    """A frame is refused; the one argument is the code."""


class BadPlan(Exception):
    """A plan names what the frames don't have."""


derive = functools.lru_cache(maxsize=4096)(frames.derive)


def refuse(code, condition):
    if condition:
        raise Refused(code)


def read(grammar, data):
    """What the bytes spell, or the refusal 901."""
    try:
        return grammar(data)
    except reader.Malformed:
        raise Refused(901) from None


# ---- the cipher

def undo(key, block):
    engine = Cipher(algorithms.AES(key), modes.ECB()).decryptor()
    return engine.update(block) + engine.finalize()


def cts_open(key, cipher):
    """The text of a cipher of 16 bytes or more, by RFC 3962 section 5 (one block: plain CBC)."""
    blocks = [cipher[at:at + 16] for at in range(0, len(cipher), 16)]
    if len(blocks) > 1:
        short, last = blocks.pop(), blocks.pop()
        opened = undo(key, last)
        blocks += [short + opened[len(short):], last]
    before, text = bytes(16), b""
    for block in blocks:
        text += frames.xor(undo(key, block), before)
        before = block
    return text[:len(cipher)]


# ---- the checks of one frame, in their order

def opened_part(session, encrypted):
    """The body in the encrypted part."""
    etype, _key_version, cipher = encrypted
    refuse(14, etype != session.etype)
    refuse(31, len(cipher) < 28)
    text = cts_open(derive(session.key, 13, 0xAA), cipher[:-12])
    refuse(31, frames.mac(derive(session.key, 13, 0x55), text) != cipher[-12:])
    return read(reader.part, text[16:])


def check_addresses(session, body):
    origin, to = body[4], body[5]
    refuse(38, origin != list(session.origin))
    refuse(38, session.require_to if to is None else to != list(session.to))


def check_time(session, body, now):
    stamp, usec = body[1], body[2]
    refuse(37, (stamp is None) != (usec is None))
    if stamp is None:
        refuse(37, session.expect_time)
        return
    seconds = calendar.timegm(time.strptime(stamp.decode(), "%Y%m%d%H%M%SZ"))
    refuse(37, abs(1_000_000 * seconds + usec - now) > 1_000_000 * session.skew)


def is_modified(session, frame, checksum):
    """Whether the checksum isn't the one over the message of the same body."""
    rest = reader.only(reader.only(frame, 0x74), 0x30)
    for tag in (0xA0, 0xA1):
        rest = reader.element(rest, tag)[1]
    inner = reader.element(rest, 0xA2)[0]
    code = frames.mac(derive(session.key, 15, 0x99), frames.safe(inner, 0, b""))
    return code != checksum


def unseal(session, number, now, frame):
    """The user data of a frame at the demanded number and the timestamp `now`, in microseconds."""
    private = session.mode == "priv"
    refuse(61, len(frame) > reader.LIMIT)
    message = read(reader.message, frame)
    refuse(39, message[0] != 5)
    refuse(40, (frame[0] == 0x75) != private or message[1] != (21 if private else 20))
    if private:
        body = opened_part(session, message[2])
    else:
        body = message[2]
        refuse(50, message[3][0] != session.etype - 2)
    check_addresses(session, body)
    check_time(session, body, now)
    refuse(42, body[3] is None or body[3] != number)
    refuse(41, not private and is_modified(session, frame, message[3][1]))
    return body[0]


def authentic(key, frame):
    """The body of an authentic frame of either kind, of which nothing is demanded."""
    session = Session(key, "priv", 0, None, None)
    refuse(61, len(frame) > reader.LIMIT)
    message = read(reader.message, frame)
    private = frame[0] == 0x75
    refuse(39, message[0] != 5)
    refuse(40, message[1] != (21 if private else 20))
    if private:
        return opened_part(session, message[2])
    refuse(50, message[3][0] != session.etype - 2)
    refuse(41, is_modified(session, frame, message[3][1]))
    return message[2]


class Receiver:
    """Takes the frames of a sender, each at the timestamp of its place; the last serves all later
    ones."""

    WORD = "text"

    def __init__(self, session, nows):
        self.session, self.nows = session, nows
        self.expected, self.closed, self.place = session.first, False, 0

    def take(self, frame):
        """The lines of the log for the frame, without the lane."""
        now = self.nows[min(self.place, len(self.nows) - 1)]
        self.place += 1
        try:
            texts = self.accepted(frame, now)
        except Refused as refused:
            code = refused.args[0]
            return [f"refused {code} {NAMES[code]}"]
        self.expected += 1
        self.closed = texts is None
        return ["closed"] if texts is None else [f"{self.WORD} {text.hex()}" for text in texts]

    def accepted(self, frame, now):
        """The texts of the frame, or None for a close."""
        refuse(903, self.closed)
        data = unseal(self.session, self.expected, now, frame)
        if data == b"C":
            return None
        refuse(902, data[:1] not in (b"D", b"B") or len(data) > 1_000_001)
        return [data[1:]] if data[:1] == b"D" else batch_texts(data)


class PlainReceiver(Receiver):
    """Takes user data as they are: nothing is a record."""
    WORD = "data"

    def accepted(self, frame, now):
        return [unseal(self.session, self.expected, now, frame)]


def batch_texts(data):
    """The texts of a batch, which has two at least."""
    texts, place = [], 1
    while place < len(data):
        start = place + 4
        size = int.from_bytes(data[place:start], "big")
        refuse(902, len(data) < start + size)
        texts.append(data[start:start + size])
        place = start + size
    refuse(902, not 2 <= len(texts) <= frames.MOST_TEXTS)
    return texts


# ---- what is sealed

@dataclasses.dataclass
class Sender:
    """The texts of a session, their timestamps, the seed of their confounders, and how many of them
    a frame carries at most. A plan is None or a list of ("frame", k), ("flip", k, at, mask) and
    ("raw", bytes)."""
    session: Session
    texts: list
    ats: list
    seed: bytes = bytes(32)
    plan: list = None
    batch: int = 1

    def groups(self):
        """The texts that are sealed, frame by frame: the last number is kept for the close."""
        return frames.groups(self.texts, self.batch)[:LAST_NUMBER - self.session.first]

    def frames(self):
        """The frames of the texts that are sealed and of the close."""
        records = [frames.record(group) for group in self.groups()] + [b"C"]
        drawn = stream(self.seed, 16 * len(records))
        return [self.sealed(record, place, drawn[16 * place:16 * place + 16])
                for place, record in enumerate(records)]

    def sealed(self, record, place, confounder):
        it = self.session
        at = self.ats[min(place, len(self.ats) - 1)]
        inner = frames.body(record, at, it.first + place, it.origin, it.to if it.write_to else None)
        if it.mode == "safe":
            return frames.seal_safe(it.key, inner)
        return frames.seal_priv(it.key, inner, confounder)

    def wire(self):
        """The frames as the plan has them, or BadPlan."""
        sealed = self.frames()
        if self.plan is None:
            return sealed
        return [emitted(sealed, *emission) for emission in self.plan]

    def told(self):
        """How many of the texts were sealed."""
        count, all_texts = sum(map(len, self.groups())), len(self.texts)
        return f"sent {count} of {all_texts} {'DONE' if count == all_texts else 'LAST_NUMBER'}"


def stream(seed, size):
    """The first bytes that ChaCha20 with 20 rounds gives for the seed, from word 0 of stream 0."""
    engine = Cipher(algorithms.ChaCha20(seed, bytes(16)), None).encryptor()
    return engine.update(bytes(size))


def emitted(sealed, kind, what, at=0, mask=0):
    if kind == "raw":
        return what
    if what >= len(sealed):
        raise BadPlan
    if kind == "frame":
        return sealed[what]
    frame = bytearray(sealed[what])
    if at >= len(frame) or mask == 0:
        raise BadPlan
    frame[at] ^= mask
    return bytes(frame)


# ---- what the program prints

def seal_lines(sender):
    return [frame.hex() for frame in sender.wire()] + [sender.told()]


def open_lines(session, nows, wire):
    receiver = Receiver(session, nows)
    lines = [f"lane 0 {line}" for frame in wire for line in receiver.take(frame)]
    return lines + [f"lane 0 {'CLOSED' if receiver.closed else 'TRUNCATED'}"]


def plain_lines(session, nows, wire):
    receiver = PlainReceiver(session, nows)
    return [f"lane 0 {line}" for frame in wire for line in receiver.take(frame)]


def relay_lines(lanes):
    """The log in rounds, in each of which the lines of one frame are together, and how each lane
    ended; a lane is a sender and its receiver's moments."""
    receivers = [Receiver(sender.session, nows) for sender, nows in lanes]
    logs = [[it.take(frame) for frame in sender.wire()]
            for it, (sender, _) in zip(receivers, lanes)]
    lines = [f"lane {lane} {line}" for place in range(max(map(len, logs)))
             for lane, log in enumerate(logs) if place < len(log) for line in log[place]]
    for lane, (receiver, (sender, _)) in enumerate(zip(receivers, lanes)):
        lines.append(f"lane {lane} {sender.told()} {'CLOSED' if receiver.closed else 'TRUNCATED'}")
    return lines


def first_bad_plan(senders):
    """The least sender whose plan is bad, or None."""
    for place, sender in enumerate(senders):
        try:
            sender.wire()
        except BadPlan:
            return place
    return None
