"""The cases of the proxy: what it does to which message, and what has to follow.

Expected values come from RFC 4120 (3.4.2, 3.5.2, 5.6.1, 5.7.1), RFC 3244, docs/C.md, and the order
of kprop's messages: the size as KRB-SAFE, the blocks of 32 KiB as KRB-PRIV, and, once kpropd has
loaded the database, the size as KRB-SAFE back, the confirmation."""
import dataclasses

from proxy import (Add, Alteration, Border, Cut, Drop, Exchange, Flip, FlipHead, Length, Repeat,
                   Replace)

# The outcome: what the database or the password is afterwards, and how the sender ends.
OLD = "the old one stays, an error"
NEW = "the new one is there, an error"
WELL = "the new one is there, well"
EARLIER = "the one of the earlier session is there, an error"

PASSED = "passed on"        # the library passes the message on: a chained cipher state
NONE = ""                   # no message that is wrong comes to the library

SAFE = (0x74,)
SAFE_BODY = (0x74, 0x30, 0xa2, 0x30)
PRIV = (0x75,)
CIPHER = (0x75, 0x30, 0xa3, 0x30, 0xa2, 0x04)
MAC = 12                    # the last bytes of the cipher


@dataclasses.dataclass(frozen=True)
class Case:
    message: str
    what: str
    alteration: Alteration
    outcome: str
    refusal: str            # what the library answers to the message
    mit: str = ""           # MIT's outcome where it is another one, and
    why: str = ""           # its reason
    timed: bool = False     # the message needs a time, which the library's messages have alone
    stalls: bool = False    # both ends wait, and the proxy ends the connection


NO_TYPE = "MIT's code doesn't look at msg-type, which stands in clear"
NO_END = "MIT's code doesn't look at what comes after the message"


# ---- flips

def safe_flips(message, outcome):
    """In KRB-SAFE: what makes it a message is looked at first, then its checksum."""
    def case(what, path, part, refusal, mask=1, **more):
        return Case(message, what, Flip(path, part, mask), outcome, refusal, **more)
    sender = (*SAFE_BODY, 0xa4, 0x30)
    checksum = (0x74, 0x30, 0xa3, 0x30)
    return [
        case("application tag", SAFE, "tag", "MSG_TYPE"),
        case("application tag, another class", SAFE, "tag", "MSG_TYPE", 0x80),
        case("length of the message", SAFE, "length", "MALFORMED"),
        case("tag of the sequence", (*SAFE, 0x30), "tag", "MALFORMED"),
        case("pvno", (0x74, 0x30, 0xa0, 0x02), 0, "BADVERSION"),
        case("tag of msg-type", (0x74, 0x30, 0xa1), "tag", "MALFORMED", 0x10),
        case("msg-type", (0x74, 0x30, 0xa1, 0x02), 0, "MSG_TYPE", mit=WELL, why=NO_TYPE),
        case("tag of safe-body", (0x74, 0x30, 0xa2), "tag", "MALFORMED", 0x10),
        case("tag of user-data", (*SAFE_BODY, 0xa0, 0x04), "tag", "MALFORMED"),
        case("user-data, first byte", (*SAFE_BODY, 0xa0, 0x04), 0, "MODIFIED"),
        case("user-data, last byte", (*SAFE_BODY, 0xa0, 0x04), -1, "MODIFIED"),
        case("seq-number", (*SAFE_BODY, 0xa3, 0x02), -1, "MODIFIED"),
        case("tag of seq-number", (*SAFE_BODY, 0xa3), "tag", "MALFORMED", 0x10),
        case("type of s-address", (*sender, 0xa0, 0x02), 0, "MODIFIED"),
        case("s-address", (*sender, 0xa1, 0x04), -1, "MODIFIED"),
        case("timestamp", (*SAFE_BODY, 0xa1, 0x18), -2, "MODIFIED", timed=True),
        case("usec", (*SAFE_BODY, 0xa2, 0x02), -1, "MODIFIED", timed=True),
        case("cksumtype", (*checksum, 0xa0, 0x02), 0, "INAPP_CKSUM"),
        case("tag of checksum", (*checksum, 0xa1, 0x04), "tag", "MALFORMED"),
        case("length of checksum", (*checksum, 0xa1, 0x04), "length", "MALFORMED"),
        case("checksum, first byte", (*checksum, 0xa1, 0x04), 0, "MODIFIED"),
        case("checksum, middle", (*checksum, 0xa1, 0x04), "middle", "MODIFIED", 0x80),
        case("checksum, last byte", (*checksum, 0xa1, 0x04), -1, "MODIFIED"),
    ]


def priv_flips(message, outcome):
    """In KRB-PRIV: what isn't in the cipher is looked at first."""
    def case(what, path, part, refusal, mask=1, **more):
        return Case(message, what, Flip(path, part, mask), outcome, refusal, **more)
    return [
        case("application tag", PRIV, "tag", "MSG_TYPE"),
        case("length of the message", PRIV, "length", "MALFORMED"),
        case("tag of the sequence", (*PRIV, 0x30), "tag", "MALFORMED"),
        case("pvno", (0x75, 0x30, 0xa0, 0x02), 0, "BADVERSION"),
        case("tag of msg-type", (0x75, 0x30, 0xa1), "tag", "MALFORMED", 0x10),
        case("msg-type", (0x75, 0x30, 0xa1, 0x02), 0, "MSG_TYPE", mit=WELL, why=NO_TYPE),
        case("tag of enc-part", (0x75, 0x30, 0xa3), "tag", "MALFORMED", 0x10),
        case("etype", (0x75, 0x30, 0xa3, 0x30, 0xa0, 0x02), 0, "ETYPE_NOSUPP"),
        case("tag of cipher", CIPHER, "tag", "MALFORMED"),
        case("length of cipher", CIPHER, "length", "MALFORMED"),
        case("cipher, first byte", CIPHER, 0, "BAD_INTEGRITY"),
        case("cipher, second block", CIPHER, 16, "BAD_INTEGRITY", 0x80),
        case("cipher, middle", CIPHER, "middle", "BAD_INTEGRITY"),
        case("cipher, last byte before the HMAC", CIPHER, -MAC - 1, "BAD_INTEGRITY"),
        case("HMAC, first byte", CIPHER, -MAC, "BAD_INTEGRITY"),
        case("HMAC, last byte", CIPHER, -1, "BAD_INTEGRITY", 0x80),
    ]


def chained_flips():
    """In KRB-PRIV under a chained cipher state, which MIT's code reads at both ends."""
    def case(message, what, path, part, outcome=OLD):
        return Case(message, what, Flip(path, part), outcome, PASSED)
    return [
        case("block 2", "pvno", (0x75, 0x30, 0xa0, 0x02), 0),
        case("block 2", "msg-type: MIT's code doesn't look at it", (0x75, 0x30, 0xa1, 0x02), 0,
             WELL),
        case("block 2", "etype", (0x75, 0x30, 0xa3, 0x30, 0xa0, 0x02), 0),
        case("block 2", "cipher, first byte", CIPHER, 0),
        case("middle block", "cipher, middle", CIPHER, "middle"),
        case("last block", "cipher, first byte", CIPHER, 0),
        case("last block", "HMAC, last byte", CIPHER, -1),
    ]


# ---- other alterations of kprop's messages

def kprop_repeats():
    return [
        Case("size", "repeated", Repeat(), OLD, "MSG_TYPE"),
        Case("block 1", "repeated", Repeat(), OLD, PASSED),
        Case("block 2", "repeated", Repeat(), OLD, PASSED),
        Case("block before the last", "repeated", Repeat(), OLD, PASSED),
        Case("last block", "repeated: kpropd has read what it wants", Repeat(), WELL, NONE),
        Case("confirmation", "repeated: kprop has read what it wants", Repeat(), WELL, NONE),
        Case("size", "exchanged with block 1", Exchange(), OLD, "MSG_TYPE"),
        Case("block 1", "exchanged with block 2", Exchange(), OLD, "BAD_INTEGRITY"),
        Case("block 2", "exchanged with block 3", Exchange(), OLD, PASSED),
        Case("block before the last", "exchanged with the last", Exchange(), OLD, PASSED),
        Case("block 2", "replaced by block 1", Replace("block 1"), OLD, PASSED),
        Case("confirmation", "replaced by the sender's size", Replace("size"), NEW, "BADORDER"),
        Case("confirmation", "replaced by block 1", Replace("block 1"), NEW, "MSG_TYPE"),
        Case("size", "dropped", Drop(), OLD, "MSG_TYPE"),
        Case("block 1", "dropped", Drop(), OLD, "BAD_INTEGRITY"),
        Case("block 2", "dropped", Drop(), OLD, PASSED),
        Case("middle block", "dropped", Drop(), OLD, PASSED),
        Case("last block", "dropped", Drop(), OLD, NONE, stalls=True),
        Case("confirmation", "dropped", Drop(), NEW, NONE),
    ]


def kprop_cuts():
    parts = [("before it", lambda _: 0), ("in its length", lambda _: 2), ("in the middle",
             lambda size: size // 2), ("before its last byte", lambda size: size - 1)]
    ends = [("size", OLD), ("block 1", OLD), ("middle block", OLD), ("last block", OLD),
            ("confirmation", NEW)]
    return [Case(message, f"cut {where}", Cut(kept), outcome, NONE)
            for message, outcome in ends for where, kept in parts]


def kprop_lengths():
    """Four bytes of length come before each message."""
    return [
        Case("size", "a byte longer by its length", Length(lambda n: n + 1), OLD, "MALFORMED",
             stalls=True),
        Case("size", "a byte shorter by its length", Length(lambda n: n - 1), OLD, "MALFORMED"),
        Case("size", "length 0", Length(lambda _: 0), OLD, "MSG_TYPE"),
        Case("size", "a gigabyte by its length", FlipHead(0, 0x40), OLD, NONE, stalls=True),
        Case("block 1", "a byte shorter by its length", Length(lambda n: n - 1), OLD, "MALFORMED"),
        Case("block 1", "length 0", Length(lambda _: 0), OLD, "MSG_TYPE"),
        Case("block 1", "16 MiB by its length", FlipHead(0, 0x01), OLD, NONE, stalls=True),
        Case("confirmation", "a byte longer by its length", Length(lambda n: n + 1), NEW, NONE),
        Case("confirmation", "a byte shorter by its length", Length(lambda n: n - 1), NEW,
             "MALFORMED"),
        Case("confirmation", "length 0", Length(lambda _: 0), NEW, "MSG_TYPE"),
        Case("size", "a byte added after it", Add(), OLD, "MALFORMED", WELL, NO_END),
        Case("block 1", "a byte added after it", Add(), OLD, "MALFORMED", WELL, NO_END),
        Case("confirmation", "a byte added after it", Add(), NEW, "MALFORMED", WELL, NO_END),
    ]


KPROP = [*safe_flips("size", OLD), *priv_flips("block 1", OLD), *chained_flips(),
         *safe_flips("confirmation", NEW), *kprop_repeats(), *kprop_cuts(), *kprop_lengths()]


# ---- kpasswd's messages

def kpasswd_others():
    """kadmind answers a request that it refuses, and kpasswd ends with its error. It doesn't
    answer one whose length or version is wrong."""
    def cut(message, what, kept, outcome, **more):
        return Case(message, f"cut {what}", Cut(kept), outcome, NONE, **more)
    return [
        cut("request", "in its head", lambda _: 5, OLD, stalls=True),
        cut("request", "in the middle", lambda size: size // 2, OLD, stalls=True),
        cut("request", "before its last byte", lambda size: size - 1, OLD, stalls=True),
        cut("reply", "in the middle", lambda size: size // 2, NEW),
        cut("reply", "before its last byte", lambda size: size - 1, NEW),
        Case("request", "its length", FlipHead(1, 1), OLD, NONE, stalls=True),
        Case("request", "its version", FlipHead(3, 4), OLD, NONE, stalls=True),
        # MIT's code doesn't look at what comes after AP-REQ or AP-REP.
        Case("request", "AP-REQ a byte longer by its length", Border(1), OLD, "MSG_TYPE"),
        Case("request", "AP-REQ a byte shorter by its length", Border(-1), OLD, NONE),
        Case("reply", "its length", FlipHead(1, 1), NEW, NONE),
        Case("reply", "its version", FlipHead(3, 4), NEW, NONE),
        Case("reply", "AP-REP a byte longer by its length", Border(1), NEW, "MSG_TYPE"),
        Case("reply", "AP-REP a byte shorter by its length", Border(-1), NEW, NONE),
        Case("request", "repeated", Repeat(), WELL, NONE),
        Case("request", "dropped once, and sent again", Drop(), WELL, NONE),
        # kadmind accepts an AP-REQ twice, so this is the earlier session once more, unaltered.
        Case("request", "replaced by that of an earlier session", Replace("earlier request"),
             EARLIER, NONE),
        Case("request", "its KRB-PRIV replaced by that of an earlier session",
             Replace("earlier request", whole=False), OLD, "BAD_INTEGRITY"),
        Case("request", "its KRB-PRIV replaced by an earlier reply's",
             Replace("earlier reply", whole=False), OLD, "BAD_INTEGRITY"),
        Case("reply", "repeated", Repeat(), WELL, NONE),
        Case("reply", "replaced by that of an earlier session", Replace("earlier reply"), NEW,
             NONE),
        Case("reply", "its KRB-PRIV replaced by that of an earlier session",
             Replace("earlier reply", whole=False), NEW, "BAD_INTEGRITY"),
        Case("reply", "its KRB-PRIV replaced by the request's", Replace("request", whole=False),
             NEW, "BADORDER"),
        Case("request", "a byte added after it", Add(), OLD, "MALFORMED", WELL, NO_END),
        Case("reply", "a byte added after it", Add(), NEW, "MALFORMED", WELL, NO_END),
    ]


KPASSWD = [*priv_flips("request", OLD), *priv_flips("reply", NEW), *kpasswd_others()]
