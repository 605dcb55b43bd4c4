"""The control of the comparison: changes of what is compared, each of which it has to report."""
import re
from typing import List, NamedTuple

from lib import report
from signatures import compared
from signatures.given import HEADER, MAP, MODULE, PROVED, PYTHON, RELEASED, Given

RECEIVING, SESSION = "crates/krb_carrier_structs/src/receiving.rt", "crates/krb_structs/src/session.rt"


class Plant(NamedTuple):
    """In the part of a text that `within` finds, `old` stands once, and becomes `new`: then a line
    of what isn't alike has to begin with `expected`."""
    name: str
    path: str
    within: str
    old: str
    new: str
    expected: str


def define(name: str) -> str:
    """The line of the module that defines a function."""
    return rf"^define [^\"\n]*@{name}\([^\n]*"


def declares(name: str) -> str:
    """A declaration of the header, with what stands before and after it."""
    return rf"^[\w ]*\b{name}\([^;]*;"


def of_module(name: str, call: str, old: str, new: str) -> Plant:
    return Plant(name, MODULE, define(call), old, new, f"{call}, in the module: ")


def of_header(name: str, call: str, old: str, new: str, what: str) -> Plant:
    return Plant(name, HEADER, declares(call), old, new, call + what)


def of_enum(name: str, old: str, new: str, enum: str) -> Plant:
    return Plant(name, HEADER, "", old, new, f"enum krbrelay_{enum}: ")


PLANTS = [
    of_module("a number of 32 bits in the module", "krbrelay_opener_unseal", "i64 noundef %a3", "i32 noundef %a3"),
    of_module("an offset of 32 bits in the module", "krbrelay_sending_confirmed", "i64 noundef %a2", "i32 noundef %a2"),
    of_module("a flag of 8 bits in the module", "krbrelay_receiver_new", "i32 noundef %a6", "i8 noundef zeroext %a6"),
    of_module("a length of 32 bits in the module", "krbrelay_sealer_frame_size", "i64 noundef %a1", "i32 noundef %a1"),
    of_module("an answer of 8 bits in the module", "krbrelay_window_take", "i32 @krbrelay_window_take(",
              "i8 @krbrelay_window_take("),
    of_module("an extension in the module", "krbrelay_sealer_set_mode", "i32 noundef %a1", "i32 noundef signext %a1"),
    of_module("a struct by value in the module", "krbrelay_peer_free", "%a0", "byval([2 x i64]) align 8 %a0"),
    Plant("a function gone from the module", MODULE, define("krbrelay_window_new"),
          "@krbrelay_window_new(", "@window_new(", "exports of module and source: "),
    of_header("a size of 32 bits in the header", "krbrelay_frame_size", "size_t krb", "uint32_t krb",
              ", in the module: "),
    of_header("an etype without a sign", "krbrelay_opener_new", "int32_t etype", "uint32_t etype", ", in the source: "),
    of_header("two pointers exchanged", "krbrelay_sealer_seal", "const struct krbrelay_moment *at,\n"
              "                                          const uint8_t confounder[16]",
              "const uint8_t confounder[16], const struct krbrelay_moment *at", ", in the source: "),
    of_header("two numbers exchanged", "krbrelay_progress_new", "uint64_t carried, uint64_t at",
              "uint64_t at, uint64_t carried", ", names: "),
    of_header("a length that is called a size", "krbrelay_message_header", "size_t len", "size_t number", ", names: "),
    of_header("a version with a sign", "krbrelay_version", "uint32_t", "int32_t", " returns u32 in the source, "),
    of_header("NULL allowed", "krbrelay_opener_open", "(1, 4, 5, 8, 9)", "(1, 4, 5, 8)", ", never NULL: "),
    Plant("a function of another name", HEADER, declares("krbrelay_window_take"),
          "krbrelay_window_take(", "krbrelay_window_took(", "functions of module and C: "),
    Plant("a function more in proved.h", PROVED, declares("krbrelay_proved_peer_new"),
          "krbrelay_proved_peer_new(", "krbrelay_proved_peer_open(",
          "functions of both, in proved.h: "),
    Plant("an etype of 64 bits in proved.h", PROVED, declares("krbrelay_proved_sealer_new"),
          "int32_t etype", "int64_t etype", "krbrelay_proved_sealer_new of proved.h: "),
    Plant("a field less in reserve", HEADER, r"^struct krbrelay_demand \{.*?\n\};",
          "reserved[4]", "reserved[3]", "struct krbrelay_demand, reserved: "),
    Plant("a field more", HEADER, r"^struct krbrelay_row \{.*?\n\};",
          "uint32_t closed; ", "uint32_t closed, more; ",
          "struct krbrelay_row: fields, size and alignment: "),
    Plant("a struct more", HEADER, r"^struct krbrelay_moment \{",
          "struct", "struct krbrelay_more { int a; };\nstruct", "structs of the source: "),
    Plant("two fields exchanged in the source", RECEIVING, r"pub struct KrbSeen \{.*?\n\}",
          "pub has_opened: u32,\n"
          "    /// Not 0: it opens at the demanded number, and passes each check.\n"
          "    pub accepted: u32,", "pub accepted: u32,\n    pub has_opened: u32,",
          "struct krbrelay_seen, accepted: "),
    Plant("an address of 39 bytes", SESSION, "",
          "ADDRESS_ROOM: usize = 40", "ADDRESS_ROOM: usize = 39",
          "struct krbrelay_address, bytes: "),
    of_enum("an answer of 919", "KRBRELAY_REPEATED = 917,", "KRBRELAY_REPEATED = 919,", "answer"),
    of_enum("a mode of 22", "KRBRELAY_PRIV = 21\n", "KRBRELAY_PRIV = 22\n", "mode of a sealer"),
    of_enum("a batch of 4", "KRBRELAY_BATCH = 2,", "KRBRELAY_BATCH = 4,", "record of 8 bytes"),
    of_enum("a record more", "KRBRELAY_CLOSE = 3\n", "KRBRELAY_CLOSE = 3, KRBRELAY_MORE = 4\n", "record of all"),
    of_enum("a way to demand more", "KRBRELAY_ABSENT_IS_0 = 3 ", "KRBRELAY_ABSENT_IS_0 = 3, KRBRELAY_MORE = 4 ",
            "how of all"),
    of_enum("a record of another name", "KRBRELAY_BATCH = 2,", "KRBRELAY_BUNCH = 2,", "record of 8 bytes"),
    of_enum("an answer of another name", "KRBRELAY_ARGUMENT = 912,", "KRBRELAY_ARGUMENTS = 912,", "answer"),
    of_enum("an outcome of another name", "KRBRELAY_OUTCOME_REPEAT = 1,", "KRBRELAY_OUTCOME_REPEATED = 1,",
            "outcome of REPEAT"),
    of_enum("a receipt that asks for 4", "KRBRELAY_ASKS_REFUSED = 3 ", "KRBRELAY_ASKS_REFUSED = 4 ", "asks"),
    of_enum("two commands exchanged",
            "KRBRELAY_COMMAND_PROBE = 2,         /* the frame of that number leaves again, alone */\n"
            "    KRBRELAY_COMMAND_WAKE = 3,",
            "KRBRELAY_COMMAND_WAKE = 2,         /* the frame of that number leaves again, alone */\n"
            "    KRBRELAY_COMMAND_PROBE = 3,", "command_kind"),
    of_header("a pause that ends in 32 bits", "krbrelay_pause_end", "uint64_t krb", "uint32_t krb",
              ", in the module: "),
    Plant("a session's end with one field less", HEADER, r"^struct krbrelay_sending \{.*?\n\};",
          "    uint64_t window;                    /* so many frames may be under way */\n", "",
          "struct krbrelay_sending, "),
    of_enum("a demand of 4", "KRBRELAY_ABSENT_IS_0 = 3 ", "KRBRELAY_ABSENT_IS_0 = 4 ", "how of number"),
    of_enum("a class of 7", "KRBRELAY_CLASS_SYSTEM = 5,", "KRBRELAY_CLASS_SYSTEM = 7,", "class"),
    of_enum("a class more", "KRBRELAY_CLASS_UNKNOWN = 6 ", "KRBRELAY_CLASS_UNKNOWN = 6, KRBRELAY_CLASS_MORE = 7 ",
            "class of any number"),
    of_enum("an outcome of 5", "KRBRELAY_OUTCOME_UNKNOWN = 3,", "KRBRELAY_OUTCOME_UNKNOWN = 5,", "outcome of UNKNOWN"),
    of_enum("an outcome more", "KRBRELAY_OUTCOME_UNSETTLED = 4 ",
            "KRBRELAY_OUTCOME_UNSETTLED = 4, KRBRELAY_OUTCOME_MORE = 5 ", "outcome of all"),
    of_enum("a kind of address of 23", "KRBRELAY_IPV6 = 24 ", "KRBRELAY_IPV6 = 23 ", "address_kind of IPV6"),
    Plant("an enum more", HEADER, "",
          "enum krbrelay_mode {", "enum krbrelay_more { A = 1 };\nenum krbrelay_mode {",
          "enums that aren't tried: "),
    Plant("a struct of another name in Python", PYTHON, "",
          '"""struct krbrelay_window."""', '"""struct krbrelay_windows."""',
          "Python's krbrelay_windows: "),
    Plant("two fields exchanged in Python", PYTHON, r"^class DemandStruct.*?\n\n",
          '("how_sender", c_uint32), ("how_receiver", c_uint32)',
          '("how_receiver", c_uint32), ("how_sender", c_uint32)', "Python's krbrelay_demand: "),
    Plant("a number of 32 bits in Python", PYTHON, r'^    "krbrelay_opener_unseal":[^\n]*',
          "c_uint64", "c_uint32", "Python's krbrelay_opener_unseal: "),
    Plant("an etype without a sign in Python", PYTHON, r"^_KEY = [^\n]*",
          "c_int32", "c_uint32", "Python's krbrelay_peer_new: "),
    Plant("no call in Python", PYTHON, "",
          "# ---- finding and loading", "CALLS = {}", "Python's types aren't read"),
    Plant("a version that moves", MAP, "",
          "KRBRELAY_1.1 {", "KRBRELAY_1.2 {", "krbrelay_now, its version: "),
    Plant("a name gone from the map", MAP, "", "        krbrelay_now;\n", "",
          f"functions of {MAP}: "),
    Plant("a name gone from the list", RELEASED, "",
          "krbrelay_window_new 1.1\n", "", "krbrelay_window_new, its version: "),
]


class Faults(report.Count):
    """A count that keeps what failed, and prints nothing."""

    def __init__(self) -> None:
        super().__init__()
        self.lines: List[str] = []

    def right(self, passed: object, fault: str) -> None:
        self.add(bool(passed), not passed)
        if not passed:
            self.lines.append(fault)


class NotPlanted(Exception):
    """A plant whose place isn't there, or that changes nothing."""


def planted(given: Given, plant: Plant) -> Given:
    """What is compared, with the change."""
    text = given.text_of(plant.path)
    places = list(re.finditer(plant.within or r"\A.*\Z", text, re.M | re.S))
    if len(places) != 1:
        raise NotPlanted(f"{plant.path} has {len(places)} places for it")
    part = places[0][0]
    if part.count(plant.old) != 1 or plant.old == plant.new:
        raise NotPlanted(f"{plant.path} has {part.count(plant.old)} times {plant.old!r}")
    return given.changed(plant.path, text[:places[0].start()] + part.replace(plant.old, plant.new)
                         + text[places[0].end():])


def faults_of(given: Given) -> List[str]:
    """What isn't alike."""
    faults = Faults()
    compared.compare(faults, given)
    return faults.lines


def missing(given: Given, plant: Plant, before: List[str]) -> str:
    """Why a plant isn't seen, or ''. A comparison that ends early has seen nothing."""
    try:
        lines = [it for it in faults_of(planted(given, plant)) if it not in before]
    except Exception as fault:
        return f"{type(fault).__name__}: {fault}"
    seen = any(it.startswith(f"FAILED {plant.expected}") for it in lines)
    return "" if seen else f"no line begins with {plant.expected!r} among {lines}"
