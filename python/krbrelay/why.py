"""Why a peer refuses a message: the first check that fails, in a receiver's order, with what was
wanted and what was found. The checks are those of the library's proved opener, one demand at a
time; what finds the messages and words the answers is tested, not proved."""
from __future__ import annotations

import datetime
import json
from typing import Any, Dict, Iterator, List, NamedTuple, Optional, Tuple

from krbrelay import captures, grammar, spelt
from krbrelay.errors import Code, Refusal
from krbrelay.library import FRAME_LIMIT
from krbrelay.message import message_header
from krbrelay.opener import Opener
from krbrelay.shown import Key
from krbrelay.values import EPOCH, MICROSECOND, Address, Body, Demand, How, Mode, Moment

# The usual cause of each refusal: the rows of docs/REFUSED.md, which a test compares.
CAUSES = {
    Code.ETYPE_NOSUPP: "the key is of another encryption type, or of another session",
    Code.BAD_INTEGRITY: "another key (the ticket's where there is a subkey, the other end's "
                        "subkey, an older session's), or bytes that were changed on the way",
    Code.SKEW: "the clocks of the two ends differ, or the message was under way for too long",
    Code.BADADDR: "address translation, an end with several addresses, or a message that came back "
                  "to its maker",
    Code.BADVERSION: "changed bytes, or no message of Kerberos 5",
    Code.MSG_TYPE: "one end calls mk_safe and the other one rd_priv, or changed bytes",
    Code.MODIFIED: "another key, or bytes that were changed on the way",
    Code.BADORDER: "a message before it was lost or refused, it came twice or early, or the ends "
                   "began at different numbers",
    Code.INAPP_CKSUM: "the key is of another encryption type, or the maker takes another checksum",
    Code.FIELD_TOOLONG: "the message is longer than this library takes",
    Code.MALFORMED: "the message was cut or changed, or bytes of the protocol around it are taken "
                    "for a part of it",
}
OF_ANOTHER_TYPE = (Code.ETYPE_NOSUPP, Code.INAPP_CKSUM)
CIPHER_LEAST, CODE_SIZE = 28, 12
SKEW = 300                      # seconds, where a time is demanded and nothing is said


class Asked(NamedTuple):
    """What is demanded. What is None isn't."""
    keys: Tuple[Key, ...] = ()
    mode: Optional[Mode] = None
    sender: Optional[Address] = None
    receiver: Optional[Address] = None
    number: Optional[int] = None
    at: Optional[Moment] = None
    skew: Optional[int] = None

    def demands(self) -> List[Demand]:
        """One demand at a time, in a receiver's order: addresses, time, number."""
        skew = SKEW if self.skew is None and self.at is not None else self.skew
        return [
            *([] if self.sender is None else [Demand(sender=self.sender)]),
            *([] if self.receiver is None else
              [Demand(receiver=self.receiver, how_receiver=How.IF_PRESENT)]),
            *([] if skew is None else [Demand(skew=skew)]),
            *([] if self.number is None else
              [Demand(number=self.number, how_number=How.ABSENT_IS_0)]),
        ]


class Refused(NamedTuple):
    """The check that fails first: its code, the field, what was wanted and what was found."""
    code: Code
    field: str
    wanted: str
    found: str
    note: str = ""


class Judged(NamedTuple):
    """What was found of a message: its fields in clear, what it carries if it is authentic, and why
    it is refused."""
    fields: Optional[Dict[str, Any]]
    body: Optional[Body]
    refused: Optional[Refused]


class Place(NamedTuple):
    """A message, and where it stands: the file, the byte, and in a capture the packet."""
    frame: bytes
    file: str
    at: int
    packet: Optional[captures.Packet] = None
    ends: Optional[captures.Ends] = None


Unopened = Tuple[Refusal, Key]


# ---- judging

def malformed(refusal: Refusal, frame: bytes) -> Refused:
    """Where the bytes are no message."""
    if refusal.code is Code.FIELD_TOOLONG:
        return Refused(refusal.code, "message", f"{FRAME_LIMIT} bytes at most", str(len(frame)))
    try:
        grammar.read(frame)
    except grammar.Malformed as fault:
        return Refused(refusal.code, fault.field, "a message in DER",
                       f"at byte {fault.at}, {fault.why}")
    return Refused(refusal.code, "", "a message in DER", "another form")


def of_key(refusal: Refusal, fields: Dict[str, Any], key: Key, asked: Asked, kind: Mode) -> Refused:
    """Why a message isn't authentic under a key."""
    code, part = refusal.code, fields.get("enc-part") or fields["cksum"]
    if code is Code.BADVERSION:
        return Refused(code, "pvno", "5", str(fields["pvno"]))
    if code is Code.MSG_TYPE and asked.mode is not None and asked.mode is not kind:
        return Refused(code, "tag", f"KRB-{asked.mode.name}", f"KRB-{kind.name}")
    if code is Code.MSG_TYPE:
        return Refused(code, "msg-type", str(kind.value), str(fields["msg-type"]))
    if code is Code.ETYPE_NOSUPP:
        return Refused(code, "etype", f"{key.etype}, the key's", str(part["etype"]))
    if code is Code.INAPP_CKSUM:
        return Refused(code, "cksum type", f"{key.etype - 2}, the key's", str(part["type"]))
    if code is Code.MODIFIED:
        return Refused(code, "cksum", "the checksum of this message under the key",
                       part["bytes"].hex())
    if code is Code.BAD_INTEGRITY and len(part["cipher"]) < CIPHER_LEAST:
        return Refused(code, "cipher", f"{CIPHER_LEAST} bytes at least", str(len(part["cipher"])))
    if code is Code.BAD_INTEGRITY:
        return Refused(code, "cipher", "the code of what is encrypted, under the key",
                       part["cipher"][-CODE_SIZE:].hex())
    if code is Code.BADADDR:
        return Refused(code, "s-address, r-address", "40 bytes at most", "more")
    return Refused(code, "enc-part", "the DER of an EncKrbPrivPart",
                   "other bytes, which are authentic")


def of_demand(refusal: Refusal, body: Body, demand: Demand, at: Optional[Moment]) -> Refused:
    """Why an authentic message doesn't meet a demand."""
    code = refusal.code
    if demand.sender is not None:
        return Refused(code, "s-address", str(demand.sender), str(body.sender))
    if demand.receiver is not None:
        return Refused(code, "r-address", str(demand.receiver), told(body.receiver))
    if demand.skew is not None:
        now = "now" if at is None else moment_text(at)
        return Refused(code, "timestamp", f"within {demand.skew} s of {now}", time_found(body, at))
    absent = "none, which counts as 0" if body.number is None else str(body.number)
    return Refused(code, "seq-number", str(demand.number), absent)


def opened(frame: bytes, kind: Mode, asked: Asked) -> Tuple[Optional[Opener], List[Unopened]]:
    """The opener whose key the message is authentic under, and why it isn't under those before."""
    refusals: List[Unopened] = []
    for key in asked.keys:
        opener = Opener(key.etype, key.bytes, mode=asked.mode or kind)
        try:
            opener.open(frame)
            return opener, refusals
        except Refusal as refusal:
            opener.free()
            refusals.append((refusal, key))
    return None, refusals


def in_order_of_rfc(frame: bytes, kind: Mode, key: Key, asked: Asked) -> str:
    """What a receiver says of an altered KRB-SAFE that compares its checksum last, as RFC 4120
    section 3.4.2 lists the checks. It has to demand all of it."""
    if asked.sender is None or asked.receiver is None or asked.number is None:
        return ""
    skew = 2**32 - 1 if asked.skew is None and asked.at is None else asked.skew or SKEW
    with Opener(key.etype, key.bytes, mode=kind, sender=asked.sender, receiver=asked.receiver,
                require_time=False, skew=skew) as opener:
        try:
            opener.unseal(frame, asked.number, asked.at)
        except Refusal as refusal:
            if refusal.code is not Code.MODIFIED:
                return ("a receiver that compares the checksum last says "
                        f"{refusal.code.value} {refusal.name}")
    return ""


def judged(frame: bytes, asked: Asked) -> Judged:
    """Makes the checks of a message until one fails."""
    try:
        kind = message_header(frame).kind
    except Refusal as refusal:
        return Judged(None, None, malformed(refusal, frame))
    fields = grammar.read(frame)
    opener, refusals = opened(frame, kind, asked)
    if opener is None and not refusals:
        return Judged(fields, None, None)
    if opener is None:
        first, key = min(refusals, key=lambda it: it[0].code in OF_ANOTHER_TYPE)
        why = of_key(first, fields, key, asked, kind)
        note = in_order_of_rfc(frame, kind, key, asked) if why.code is Code.MODIFIED else ""
        return Judged(fields, None, why._replace(note=note))
    with opener:
        body = opener.open(frame)
        for demand in asked.demands():
            try:
                opener.open(frame, demand, asked.at)
            except Refusal as refusal:
                return Judged(fields, body, of_demand(refusal, body, demand, asked.at))
    return Judged(fields, body, None)


# ---- the messages of an input

def is_message(data: bytes) -> bool:
    try:
        return grammar.read(data) is not None
    except grammar.Malformed:
        return False


def in_capture(data: bytes, file: str) -> List[Place]:
    """The messages of a capture, in the order of their packets. NoCapture."""
    found = [Place(frame, file, at, stream.packet_at(at), stream.ends)
             for stream in captures.streams(data)
             for at, frame in grammar.found_in(stream.data).items()]
    return sorted(found, key=lambda it: it.packet.number if it.packet else 0)


def places_of(data: bytes, file: str, is_searched: bool) -> Optional[List[Place]]:
    """The messages of an input; what holds none is one itself, unless it is searched. None where
    it has no known form. NoCapture."""
    if captures.is_capture(data):
        return in_capture(data, file)
    parts = spelt.parts_of(data, is_message)
    if parts is None:
        return None
    found: List[Place] = []
    for part in parts:
        begins = part[:1] in (b"\x74", b"\x75") and not is_searched
        within = {} if begins else grammar.found_in(part)
        alone = {} if within or is_searched else {0: part}
        found += [Place(frame, file, at) for at, frame in {**within, **alone}.items()]
    return found


# ---- words

def told(value: object) -> str:
    return "none" if value is None else str(value)


def moment_text(at: Moment) -> str:
    if not isinstance(at, datetime.datetime):
        at = EPOCH + (datetime.timedelta(seconds=at) if isinstance(at, float) else at * MICROSECOND)
    return at.astimezone(datetime.timezone.utc).isoformat().replace("+00:00", "Z")


def time_found(body: Body, at: Optional[Moment]) -> str:
    if body.moment is None or body.microseconds is None:
        return "none" if body.moment is None else f"{moment_text(body.moment)} without microseconds"
    return moment_text(body.moment)


def text_of(data: bytes) -> Optional[str]:
    """The text that bytes are in UTF-8, if it can be printed."""
    try:
        text = data.decode("utf-8")
    except UnicodeDecodeError:
        return None
    return text if all(it.isprintable() or it in "\n\r\t" for it in text) else None


def address_of(fields: Optional[Dict[str, Any]]) -> str:
    return told(None if fields is None else Address(fields["type"], fields["bytes"]))


def kind_text(fields: Dict[str, Any], size: int) -> str:
    part = fields.get("enc-part")
    if part is None:
        return f"KRB-SAFE of {size} bytes, checksum type {fields['cksum']['type']}"
    version = "" if part["kvno"] is None else f", kvno {part['kvno']}"
    return f"KRB-PRIV of {size} bytes, etype {part['etype']}{version}"


def data_text(data: bytes) -> str:
    text = text_of(data)
    return data.hex() if text is None else json.dumps(text, ensure_ascii=False)


def place_text(place: Place) -> str:
    packet = place.packet
    if packet is None:
        return place.file if place.at == 0 else f"{place.file}: byte {place.at}"
    return (f"{place.file}: packet {packet.number}, {moment_text(packet.micros)}, {place.ends}, "
            f"byte {place.at}")


def lines_of(place: Place, found: Judged) -> Iterator[str]:
    """What is printed of a message."""
    yield place_text(place)
    if found.fields is not None:
        yield "  " + kind_text(found.fields, len(place.frame))
    clear = (found.fields or {}).get("safe-body")
    if found.body is not None:
        body = found.body
        yield (f"  data {data_text(body.user_data)}, time {time_found(body, None)}, number "
               f"{told(body.number)}, from {body.sender}, to {told(body.receiver)}")
    elif clear is not None:
        yield (f"  in clear, not authentic: data {data_text(clear['user-data'])}, number "
               f"{told(clear['seq-number'])}, from {address_of(clear['s-address'])}, to "
               f"{address_of(clear['r-address'])}")
    refused = found.refused
    if refused is None:
        yield "  accepted" if found.body is not None else "  not opened: no key is given"
        return
    yield (f"  refused {refused.code.value} {refused.code.name}: {refused.field}: wanted "
           f"{refused.wanted}; found {refused.found}")
    yield f"  usual cause: {CAUSES[refused.code]}"
    if refused.note:
        yield f"  {refused.note}"


def object_of(place: Place, found: Judged) -> Dict[str, Any]:
    """The same as an object of JSON."""
    made: Dict[str, Any] = {"file": place.file, "byte": place.at, "size": len(place.frame)}
    if place.packet is not None and place.ends is not None:
        made |= {"packet": place.packet.number, "captured": moment_text(place.packet.micros),
                 "protocol": "TCP" if place.ends.protocol == captures.TCP else "UDP",
                 "source": captures.at(place.ends.source, place.ends.source_port),
                 "target": captures.at(place.ends.target, place.ends.target_port)}
    if found.fields is not None:
        part = found.fields.get("enc-part")
        made |= {"kind": "SAFE" if part is None else "PRIV", "etype": part and part["etype"],
                 "kvno": part and part["kvno"]}
    body, refused = found.body, found.refused
    made["verdict"] = "refused" if refused else "accepted" if body else "not opened"
    if body is not None:
        made |= {"data": body.user_data.hex(), "text": text_of(body.user_data),
                 "time": body.moment and moment_text(body.moment), "number": body.number,
                 "from": str(body.sender), "to": body.receiver and str(body.receiver)}
    if refused is not None:
        made |= {"code": refused.code.value, "name": refused.code.name, "field": refused.field,
                 "wanted": refused.wanted, "found": refused.found, "cause": CAUSES[refused.code],
                 "note": refused.note}
    return made
