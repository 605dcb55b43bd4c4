"""`python3 -m krbrelay why`: where messages are found, in which form, and why each is refused. What finds them needs
no library, and is tested without it."""
import base64
import contextlib
import io
import json
import os
import re
import struct
import subprocess
import tempfile
import unittest

from support import KEYS, KINDS, RECEIVER, TOP, Mode, fixtures, frame_of, frames, reader, sealed

from krbrelay import captures, grammar, spelt, why
from krbrelay.__main__ import main
from lib import typed

EXAMPLES = os.path.join(TOP, "examples")
MESSAGES = [frame for _, frame in fixtures.texts()]


def is_read(read, fault, data):
    try:
        return read(data) is not None
    except fault:
        return False


class Grammar(unittest.TestCase):
    def test_it_reads_what_an_independent_reader_reads(self):
        """Of messages of which one byte is another, is left out or comes twice."""
        for frame in (*MESSAGES[:1], *MESSAGES[2:3], *(it for _, it in fixtures.odd_bodies())):
            for at in range(len(frame)):
                others = [frame[:at] + bytes([frame[at] ^ mask]) + frame[at + 1:] for mask in (1, 2, 0x20, 0x80)]
                for data in (*others, frame[:at], frame[:at] + frame[at + 1:], frame[:at + 1] + frame[at:]):
                    self.assertEqual(is_read(grammar.read, grammar.Malformed, data),
                                     is_read(reader.message, reader.Malformed, data), data.hex())

    def test_the_place(self):
        """The byte and the field, in a KRB-SAFE and in a KRB-PRIV."""
        safe, private = MESSAGES[0], MESSAGES[2]
        for frame, change, at, field in (
                (safe, (0, 0x61), 0, "tag"), (safe, (1, 0x5F), 1, "KRB-SAFE"), (safe, (1, 0x5D), 95, "KRB-SAFE"), (safe, (4, 0xA1), 4, "pvno"),
                (safe, (9, 0xA2), 9, "msg-type"), (safe, (safe.index(b"\x04\x03Dhi"), 0x05), 0, "safe-body user-data"),
                (safe, (safe.index(b"20231114"), 0x78), 0, "safe-body timestamp"), (private, (1, 0), 2, "KRB-PRIV"),
                (private, (private.index(b"\xa2"), 0xA4), 0, "enc-part cipher")):
            wrong = frame[:change[0]] + bytes([change[1]]) + frame[change[0] + 1:]
            with self.assertRaises(grammar.Malformed) as told:
                grammar.read(wrong)
            self.assertEqual((told.exception.at, told.exception.field), (at or change[0], field))

    def test_messages_among_other_bytes(self):
        junk = bytes(range(0x70, 0x80)) * 3
        self.assertEqual(grammar.found_in(junk + MESSAGES[0] + junk + MESSAGES[2] + MESSAGES[0][:40]), {
            48: MESSAGES[0], 96 + len(MESSAGES[0]): MESSAGES[2],
            96 + len(MESSAGES[0] + MESSAGES[2]): MESSAGES[0][:40]})


def by(*words):
    """What a tool makes of bytes."""
    return lambda data: subprocess.run(words, input=data, capture_output=True, check=True).stdout


FORMS = {
    "as they are": bytes, "digits": lambda it: it.hex().encode(), "in C": lambda it: it.hex(" ").replace(" ", ", 0x").encode(),
    "colons": lambda it: it.hex(":").upper().encode() + b"\r\n",
    "lines": lambda it: b"\n".join(re.findall(b".{1,9}", it.hex().encode())), "base64": base64.b64encode,
    "base64 in lines": base64.encodebytes, "a string of C": lambda it: "".join(f"\\x{byte:02x}" for byte in it).encode(),
    "hexdump": by("hexdump", "-vC"), "od": by("od", "-v", "-tx1"), "od, letters": by("od", "-v", "-Ax", "-tx1z")}


class Spelt(unittest.TestCase):
    def test_forms(self):
        for frame in MESSAGES:
            for name, form in FORMS.items():
                text = form(frame)
                text = b"{0x" + text + b"}" if name == "in C" else text
                self.assertEqual(spelt.parts_of(text, why.is_message), [frame], name)

    def test_dumps(self):
        """By xxd and tshark, whose letters may be digits."""
        data = b"uface0abc beef00" * 3 + b"cafe"
        rows = [data[at:at + 16] for at in range(0, len(data), 16)]
        in_twos = [" ".join(re.findall(".{1,4}", it.hex())) for it in rows]
        xxd = "".join(f"{16 * at:08x}: {two:39}  {row.decode()}\n" for at, (row, two) in enumerate(zip(rows, in_twos)))
        tshark = "".join(f"{16 * at:04x}  {row.hex(' '):47}   {row.decode()}\n" for at, row in enumerate(rows))
        for text in (xxd, tshark):
            self.assertEqual(spelt.parts_of(text.encode(), why.is_message), [data])

    def test_a_message_a_line(self):
        lines = "\n".join(it.hex() for it in MESSAGES)
        self.assertEqual(spelt.parts_of(lines.encode(), why.is_message), MESSAGES)
        for text in (b"", b"no message", b"xyz!"):
            self.assertIsNone(spelt.parts_of(text, why.is_message), text)


# ---- packets, made by hand

def ipv4(protocol, data):
    return struct.pack(">BBHHHBBH4s4s", 0x45, 0, 20 + len(data), 0, 0, 64, protocol, 0, bytes([10, 0, 0, 1]),
                       bytes([10, 0, 0, 2])) + data


def ipv6(protocol, data):
    """With a header of options before the protocol's."""
    data = bytes([protocol, 0, 0, 0, 0, 0, 0, 0]) + data
    return struct.pack(">IHBB", 6 << 28, len(data), 60, 64) + bytes(15) + b"\1" + bytes(15) + b"\2" + data


def udp(data):
    return struct.pack(">HHHH", 1000, 464, 8 + len(data), 0) + data


def tcp(sequence, data, flags=0x18):
    return struct.pack(">HHIIBBHHH", 1000, 754, sequence % 2**32, 0, 0x50, flags, 0, 0, 0) + data


def pcap(link, packets, order="<", magic=0xA1B2C3D4):
    """A second lies between packets."""
    head = struct.pack(order + "IHHiIII", magic, 2, 4, 0, 0, 65535, link)
    return head + b"".join(struct.pack(order + "IIII", 100 + at, 5, len(it), len(it)) + it
                           for at, it in enumerate(packets))


def block(kind, body):
    body += bytes(-len(body) % 4)
    return struct.pack(">II", kind, 12 + len(body)) + body + struct.pack(">I", 12 + len(body))


def pcapng(packets):
    """Big-endian, of an interface with nanoseconds, after one without a resolution."""
    section = block(0x0A0D0D0A, struct.pack(">IHHq", 0x1A2B3C4D, 1, 0, -1))
    faces = block(1, struct.pack(">HHI", 113, 0, 0)) + block(
        1, struct.pack(">HHI", 101, 0, 0) + struct.pack(">HHB3xHH", 9, 1, 9, 0, 0))
    clocks = [(100 + at) * 10**9 + 5000 for at in range(len(packets))]
    return section + faces + block(5, bytes(12)) + b"".join(
        block(6, struct.pack(">IIIII", 1, clock >> 32, clock % 2**32, len(it), len(it)) + it)
        for clock, it in zip(clocks, packets))


ETHERNET = bytes(12)
LINKS = {1: ETHERNET + b"\x08\x00", 0: b"\2\0\0\0", 101: b"", 113: bytes(14) + b"\x08\x00", 276: b"\x08\x00" + bytes(18)}


class Captures(unittest.TestCase):
    SAFE, PRIV = MESSAGES[0], MESSAGES[2]

    def found(self, data):
        return [(it.packet.number, it.packet.micros, it.at, it.frame) for it in why.places_of(data, "", False)]

    def test_links_and_forms(self):
        """A datagram in each kind of link, and in each form of file."""
        sent = ipv4(17, udp(b"abc" + self.PRIV))
        files = [pcap(link, [head + sent]) for link, head in LINKS.items()]
        files += [pcap(1, [ETHERNET + b"\x81\x00\0\1\x08\x00" + sent]), pcap(101, [ipv6(17, udp(b"abc" + self.PRIV))]),
                  pcap(101, [sent], ">"), pcapng([sent])]
        for data in files:
            self.assertEqual(self.found(data), [(1, 100_000_005, 3, self.PRIV)])
        nanoseconds = self.found(pcap(101, [sent], "<", 0xA1B23C4D))
        self.assertEqual(nanoseconds, [(1, 100_000_000, 3, self.PRIV)])

    def test_a_stream_in_pieces(self):
        """Out of order, repeated, over the end of the numbers, and after a gap."""
        sent, begin = b"len." + self.SAFE + self.PRIV, 2**32 - 40
        pieces = [(0, sent[:10]), (60, sent[60:]), (10, sent[10:60]), (5, sent[5:30])]
        packets = [ipv4(6, tcp(begin - 1, b"", 2)), *(ipv4(6, tcp(begin + at, data)) for at, data in pieces)]
        after_a_gap = ipv4(6, tcp(begin + len(sent) + 9, self.SAFE))
        found = self.found(pcap(101, [*packets, after_a_gap]))
        self.assertEqual([(number, at, frame) for number, _, at, frame in found], [
            (2, 4, self.SAFE), (3, 4 + len(self.SAFE), self.PRIV), (6, 0, self.SAFE)])

    def test_what_is_no_payload(self):
        fragment = bytearray(ipv4(17, udp(self.PRIV)))
        fragment[7] = 1
        others = [b"", b"\x45", bytes(60), bytes(fragment), ipv4(1, self.PRIV), ipv4(6, b"ab")]
        self.assertEqual(self.found(pcap(101, others)), [])
        self.assertEqual(self.found(pcap(147, [ipv4(17, udp(self.PRIV))])), [])
        for wrong in (pcap(1, [])[:20], b"\xd4\xc3\xb2\xa1", pcapng([])[:28] + bytes(12)):
            self.assertRaises(captures.NoCapture, why.places_of, wrong, "", False)

    def test_a_capture_that_is_still_written(self):
        for made in (lambda packets: pcap(101, packets), pcapng):
            sent = ipv4(17, udp(self.PRIV))
            for cut in range(1, 16):
                self.assertEqual(self.found(made([sent, sent])[:-len(sent) - cut]), [(1, 100_000_005, 0, self.PRIV)])

    def test_kpasswd(self):
        """What dumpcap wrote of MIT's kpasswd on the loopback: two KRB-PRIV over TCP, after AP-REQ and AP-REP."""
        with open(os.path.join(EXAMPLES, "kpasswd.pcapng"), "rb") as file:
            places = why.places_of(file.read(), "", False)
        self.assertEqual([(it.packet.number, str(it.ends).split()[0]) for it in places], [(4, "TCP"), (6, "TCP")])
        for place in places:
            self.assertEqual(reader.private(place.frame)[2][0], 18)


# ---- why a message is refused

RIGHT = {"--from": "10.0.0.1", "--to": "10.0.0.255", "--number": "7", "--at": "20231114221320Z", "--skew": "300"}
BYTE = {Mode.SAFE: ("41 MODIFIED", "cksum"), Mode.PRIV: ("31 BAD_INTEGRITY", "cipher")}
# Of a peer that is wrong in one thing: what it demands otherwise, or how the message is changed; then
# the refusal, the field, and what is wanted and found, or the beginning of it.
PEERS = [
    ({"--from": "10.0.0.2"}, "38 BADADDR", "s-address", "10.0.0.2", "10.0.0.1"),
    ({"--from": "2001:db8::1"}, "38 BADADDR", "s-address", "2001:db8::1", "10.0.0.1"),
    ({"--from": "3:0a000001"}, "38 BADADDR", "s-address", "3:0a000001", "10.0.0.1"),
    ({"--to": "10.0.0.1"}, "38 BADADDR", "r-address", "10.0.0.1", "10.0.0.255"),
    ({"--at": "20231114221821Z"}, "37 SKEW", "timestamp", "within 300 s of 2023-11-14T22:18:21Z", "2023-11-14T22:13:20.000005Z"),
    ({"--at": "1699999700"}, "37 SKEW", "timestamp", "within 300 s of 2023-11-14T22:08:20Z", "2023-11-14T22:13:20"),
    ({"--skew": "0"}, "37 SKEW", "timestamp", "within 0 s", "2023-11-14T22:13:20.000005Z"),
    ({"--number": "8"}, "42 BADORDER", "seq-number", "8", "7"),
    ({"--number": "0"}, "42 BADORDER", "seq-number", "0", "7"),
    ({"--from": "10.0.0.2", "--number": "8"}, "38 BADADDR", "s-address", "10.0.0.2", "10.0.0.1"),
    ({"--skew": "0", "--number": "8"}, "37 SKEW", "timestamp", "within 0 s", "2023"),
]
NOT_SENT = [
    ((0xA1, 0xA2), {}, "37 SKEW", "timestamp", "within 300 s", "none"),
    ((0xA3,), {}, "42 BADORDER", "seq-number", "7", "none, which counts as 0"),
]
CHANGED = [
    (lambda it: it.replace(b"\xa0\3\2\1\5", b"\xa0\3\2\1\4", 1), "39 BADVERSION", "pvno", "5", "4"),
    (lambda it: re.sub(rb"\xa1\x03\x02\x01.", b"\xa1\3\2\1\x0b", it, count=1, flags=re.S), "40 MSG_TYPE", "msg-type", "2", "11"),
    (lambda it: it[:-1], "901 MALFORMED", "", "a message in DER", "at byte 1, "),
    (lambda it: it[:20], "901 MALFORMED", "", "a message in DER", "at byte 1, "),
    (lambda it: it + b"\0", "901 MALFORMED", "", "a message in DER", "at byte "),
    (lambda it: b"\x6f" + it[1:], "901 MALFORMED", "tag", "a message in DER", "at byte 0, the first byte is 6f"),
]


class Why(unittest.TestCase):
    def told(self, frame, key, demands, *words):
        """The status and the one object of JSON."""
        with tempfile.TemporaryDirectory() as folder:
            for name, data in (("key", key), ("message", frame)):
                with open(os.path.join(folder, name), "wb") as file:
                    file.write(data)
            given = [it for pair in demands.items() for it in pair]
            with contextlib.redirect_stdout(io.StringIO()) as printed:
                status = main(["why", os.path.join(folder, "message"), "--json", "--key",
                               os.path.join(folder, "key"), *given, *words])
        return status, json.loads(printed.getvalue())

    def check(self, answer, code, field, wanted, found):
        status, told = answer
        self.assertEqual((status, told["verdict"], f"{told['code']} {told['name']}"), (1, "refused", code), told)
        self.assertIn(field, told["field"])
        self.assertTrue(told["wanted"].startswith(wanted) and told["found"].startswith(found), told)
        self.assertTrue(told["cause"])

    def test_a_right_peer(self):
        for key, mode in KINDS:
            status, told = self.told(frame_of(key, mode, b"hello\n", receiver=RECEIVER), key, RIGHT)
            self.assertEqual((status, told["verdict"], told["text"], told["number"], told["from"], told["to"]),
                             (0, "accepted", "hello\n", 7, "10.0.0.1", "10.0.0.255"))

    def test_wrong_peers(self):
        for key, mode in KINDS:
            frame = frame_of(key, mode, b"hello", receiver=RECEIVER)
            for demands, *wanted in PEERS:
                self.check(self.told(frame, key, {**RIGHT, **demands}), *wanted)
            for left_out, demands, *wanted in NOT_SENT:
                other = frame_of(key, mode, b"hello", receiver=RECEIVER, left_out=left_out)
                self.check(self.told(other, key, {**RIGHT, **demands}), *wanted)

    def test_changed_messages(self):
        for key, mode in KINDS:
            frame = frame_of(key, mode, b"hello", receiver=RECEIVER)
            for change, *wanted in CHANGED:
                self.check(self.told(change(frame), key, RIGHT), *wanted)
            at = frame.index(b"hello") if mode is Mode.SAFE else len(frame) - 20
            altered = frame[:at] + bytes([frame[at] ^ 1]) + frame[at + 1:]
            self.check(self.told(altered, key, RIGHT), *BYTE[mode], "the ", frame[-12:].hex())

    def test_wrong_keys_and_modes(self):
        for key, mode in KINDS:
            frame = frame_of(key, mode, b"hello", receiver=RECEIVER)
            self.check(self.told(frame, key[:-1] + b"?", RIGHT), *BYTE[mode], "the ", frame[-12:].hex())
            other, number = next(it for it in KEYS if it != key), 17 if len(key) == 16 else 18
            wanted = (("14 ETYPE_NOSUPP", "etype", str(35 - number), str(number)) if mode is Mode.PRIV else
                      ("50 INAPP_CKSUM", "cksum type", str(31 - number + 2), str(number - 2)))
            self.check(self.told(frame, other, RIGHT), *wanted)
            name = "PRIV" if mode is Mode.SAFE else "SAFE"
            self.check(self.told(frame, key, RIGHT, "--mode", name), "40 MSG_TYPE", "tag", f"KRB-{name}", f"KRB-{mode.name}")

    def test_another_order_of_checks(self):
        """A KRB-SAFE whose number was changed: a receiver in RFC 4120's order says BADORDER first."""
        frame = sealed(KEYS[0], Mode.SAFE, frames.body(b"a", fixtures.MICROS, 8, fixtures.SENDER, fixtures.RECEIVER))
        at = frame.index(b"\xa3\x03\x02\x01\x08")
        _, told = self.told(frame[:at + 4] + b"\7" + frame[at + 5:], KEYS[0], {**RIGHT, "--number": "9"})
        self.assertEqual(told["name"], "MODIFIED")
        self.assertIn("42 BADORDER", told["note"])

    def test_kpasswd_by_one_command(self):
        """Both directions are opened; and one that demands the other's address and number is told."""
        words = ["why", "--key", os.path.join(EXAMPLES, "kpasswd.key"), os.path.join(EXAMPLES, "kpasswd.pcapng")]
        for more, status, wanted in (([], 0, ["accepted"] * 2),
                                     (["--number", "0"], 1, ["accepted", "refused 42 BADORDER"]),
                                     (["--from", "10.9.9.9"], 1, ["refused 38 BADADDR"] * 2)):
            with contextlib.redirect_stdout(io.StringIO()) as printed:
                self.assertEqual(main(words + more), status)
            lines = printed.getvalue().splitlines()
            self.assertEqual(len([it for it in lines if ": packet " in it]), 2)
            self.assertEqual([it.split(":")[0].strip() for it in lines if re.match("  (accepted|refused)", it)], wanted)
        self.assertIn('data "password2"', printed.getvalue())

    def test_the_command_of_the_page(self):
        """As it is pasted."""
        first = typed.lines_of("docs/REFUSED.md")[0]
        given = {**os.environ, "PYTHONPATH": os.path.join(TOP, "python"), "PYTHONDONTWRITEBYTECODE": "1"}
        done = subprocess.run(first.command, shell=True, cwd=TOP, env=given, capture_output=True, text=True)
        self.assertTrue(typed.are_printed(first.printed, done.stdout.splitlines()), done.stdout + done.stderr)

    def test_what_cannot_be_read(self):
        for words in (["why", "/none"], ["why", "--key", os.path.join(TOP, "README.md"), "/dev/null"], ["why", "/dev/null"]):
            with contextlib.redirect_stderr(io.StringIO()) as told:
                self.assertEqual(main(words), 2)
            self.assertIn(words[-1] if len(words) == 2 else words[2], told.getvalue())

    def test_the_page_has_each_cause(self):
        with open(os.path.join(TOP, "docs", "REFUSED.md"), encoding="utf-8") as file:
            rows = re.findall(r"^\| `(\d+) (\w+)` \| ([^|]*) \|", file.read(), re.M)
        self.assertEqual({(int(code), name): cause for code, name, cause in rows if int(code) != 902},
                         {(it.value, it.name): cause for it, cause in why.CAUSES.items()})
