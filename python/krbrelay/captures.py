"""The payloads of TCP and UDP in a capture of a network's packets: pcap and pcapng, as tcpdump,
tshark and dumpcap write them."""
from __future__ import annotations

import ipaddress
import struct
from typing import Dict, Iterator, List, NamedTuple, Optional, Tuple

PCAP = {b"\xa1\xb2\xc3\xd4": (">", 10**6), b"\xd4\xc3\xb2\xa1": ("<", 10**6),
        b"\xa1\xb2\x3c\x4d": (">", 10**9), b"\x4d\x3c\xb2\xa1": ("<", 10**9)}
PCAPNG = b"\x0a\x0d\x0d\x0a"
SECTION, INTERFACE, SIMPLE, ENHANCED = 0x0A0D0D0A, 1, 3, 6     # pcapng's blocks
BYTE_ORDERS = {b"\x1a\x2b\x3c\x4d": ">", b"\x4d\x3c\x2b\x1a": "<"}
RESOLUTION = 9                                                 # the option if_tsresol
TCP, UDP = 6, 17
# What precedes an IP packet, by the type of link: how many bytes, and where among them its type
# stands in two bytes, which is looked at where it stands last.
LINKS = {0: (4, None), 1: (14, 12), 12: (0, None), 14: (0, None), 101: (0, None), 108: (4, None),
         113: (16, 14), 228: (0, None), 229: (0, None), 276: (20, 0)}
VLANS = (0x8100, 0x88A8)
EXTENSIONS = (0, 43, 60)        # headers of IPv6 that may come before TCP's or UDP's


class NoCapture(Exception):
    """Why a file can't be read as a capture."""


class Packet(NamedTuple):
    """A packet: its number from 1, microseconds since 1970, the type of its link, its bytes."""
    number: int
    micros: int
    link: int
    data: bytes


class Ends(NamedTuple):
    """From where a payload goes to where: addresses and ports."""
    protocol: int
    source: str
    source_port: int
    target: str
    target_port: int

    def __str__(self) -> str:
        name = "TCP" if self.protocol == TCP else "UDP"
        return f"{name} {at(self.source, self.source_port)} > {at(self.target, self.target_port)}"


def at(address: str, port: int) -> str:
    return f"[{address}]:{port}" if ":" in address else f"{address}:{port}"


class Piece(NamedTuple):
    """A payload of one packet; of TCP with the number of its first byte."""
    packet: Packet
    ends: Ends
    sequence: Optional[int]
    data: bytes


class Stream(NamedTuple):
    """What one end sent in one direction without a gap, and where each packet's part begins."""
    ends: Ends
    data: bytes
    places: List[Tuple[int, Packet]]

    def packet_at(self, place: int) -> Packet:
        """The packet that brought the byte there."""
        return [packet for begin, packet in self.places if begin <= place][-1]


# ---- files

def is_capture(data: bytes) -> bool:
    return data[:4] in PCAP or data[:4] == PCAPNG


def packets(data: bytes) -> Iterator[Packet]:
    """The packets of a file; of the last one what is there. NoCapture."""
    try:
        yield from (of_pcapng(data) if data[:4] == PCAPNG else of_pcap(data))
    except (struct.error, KeyError, IndexError) as fault:
        raise NoCapture("the capture is cut short or of another form") from fault


def of_pcap(data: bytes) -> Iterator[Packet]:
    order, unit = PCAP[data[:4]]
    link, place, number = struct.unpack_from(order + "I", data, 20)[0] & 0xFFFF, 24, 0
    while place + 16 <= len(data):
        seconds, parts, size = struct.unpack_from(order + "III", data, place)
        place, number = place + 16, number + 1
        micros = seconds * 10**6 + parts * 10**6 // unit
        yield Packet(number, micros, link, data[place:place + size])
        place += size


def of_pcapng(data: bytes) -> Iterator[Packet]:
    place, number, order = 0, 0, "<"
    interfaces: List[Tuple[int, int]] = []
    while place + 12 <= len(data):
        if data[place:place + 4] == PCAPNG:
            order, interfaces = BYTE_ORDERS[data[place + 8:place + 12]], []
        kind, size = struct.unpack_from(order + "II", data, place)
        if size < 12:
            raise NoCapture("a block of the capture has no size")
        if place + size > len(data):
            return                        # a capture that is still written
        block = data[place + 8:place + size - 4]
        place += size
        if kind == INTERFACE:
            interfaces.append((struct.unpack_from(order + "H", block)[0], units_of(block, order)))
        elif kind in (SIMPLE, ENHANCED):
            number += 1
            yield packet_of(kind, block, order, number, interfaces)


def units_of(block: bytes, order: str) -> int:
    """In how many parts an interface's clock counts a second."""
    place = 8
    while place + 4 <= len(block):
        code, size = struct.unpack_from(order + "HH", block, place)
        if code == RESOLUTION and size == 1:
            power = block[place + 4]
            return int(2 ** (power & 0x7F)) if power & 0x80 else int(10**power)
        place += 4 + (size + 3) // 4 * 4
    return 10**6


def packet_of(kind: int, block: bytes, order: str, number: int,
              interfaces: List[Tuple[int, int]]) -> Packet:
    if kind == SIMPLE:
        return Packet(number, 0, interfaces[0][0], block[4:])
    which, high, low, size = struct.unpack_from(order + "IIII", block)
    link, units = interfaces[which]
    return Packet(number, ((high << 32) + low) * 10**6 // units, link, block[20:20 + size])


# ---- a packet's payload

def piece_of(packet: Packet) -> Optional[Piece]:
    """The payload of TCP or UDP in a packet; None where it has none, or only a part of one."""
    try:
        internet = internet_of(packet)
        found = None if internet is None else (
            of_ipv4(internet) if internet[0] >> 4 == 4 else of_ipv6(internet))
        return None if found is None else payload_of(packet, *found)
    except (struct.error, IndexError, ValueError):
        return None


def internet_of(packet: Packet) -> Optional[bytes]:
    """What follows the header of the link; None for an unknown link, and where it is no IP."""
    if packet.link not in LINKS:
        return None
    size, place = LINKS[packet.link]
    while place is not None and size == place + 2 and of_16(packet.data, place) in VLANS:
        place, size = place + 4, size + 4
    internet = packet.data[size:]
    return internet if internet and internet[0] >> 4 in (4, 6) else None


def of_16(data: bytes, place: int) -> int:
    return int.from_bytes(data[place:place + 2], "big")


def of_ipv4(data: bytes) -> Optional[Tuple[int, str, str, bytes]]:
    if of_16(data, 6) & 0x3FFF:
        return None                       # a fragment
    source, target = (str(ipaddress.IPv4Address(data[it:it + 4])) for it in (12, 16))
    return data[9], source, target, data[4 * (data[0] & 15):of_16(data, 2) or len(data)]


def of_ipv6(data: bytes) -> Optional[Tuple[int, str, str, bytes]]:
    source, target = (str(ipaddress.IPv6Address(data[it:it + 16])) for it in (8, 24))
    following, rest = data[6], data[40:40 + of_16(data, 4)]
    while following in EXTENSIONS:
        following, rest = rest[0], rest[8 * (rest[1] + 1):]
    return following, source, target, rest


def payload_of(packet: Packet, protocol: int, source: str, target: str,
               data: bytes) -> Optional[Piece]:
    if protocol not in (TCP, UDP):
        return None
    source_port, target_port = struct.unpack_from(">HH", data)
    ends = Ends(protocol, source, source_port, target, target_port)
    if protocol == UDP:
        return Piece(packet, ends, None, data[8:])
    begins_session = data[13] & 2         # SYN, which takes a number
    sequence = struct.unpack_from(">I", data, 4)[0] + (1 if begins_session else 0)
    return Piece(packet, ends, sequence % 2**32, data[4 * (data[12] >> 4):])


# ---- streams

def streams(data: bytes) -> Iterator[Stream]:
    """What each end sent: the payload of each datagram, and of each direction of TCP what comes
    without a gap, in order. NoCapture."""
    pieces: Dict[Ends, List[Piece]] = {}
    for packet in packets(data):
        piece = piece_of(packet)
        if piece is None or not piece.data:
            continue
        if piece.sequence is None:
            yield Stream(piece.ends, piece.data, [(0, packet)])
        else:
            pieces.setdefault(piece.ends, []).append(piece)
    for ends, of_one in pieces.items():
        yield from joined(ends, of_one)


def joined(ends: Ends, pieces: List[Piece]) -> Iterator[Stream]:
    """The pieces of a direction of TCP in the order of their numbers, each byte once."""
    first = pieces[0].sequence or 0

    def place_of(piece: Piece) -> int:    # numbers wrap, and a piece may come before its time
        return ((piece.sequence or 0) - first + 2**31) % 2**32 - 2**31

    ordered = sorted(pieces, key=place_of)
    data, end = bytearray(), place_of(ordered[0])
    places: List[Tuple[int, Packet]] = []
    for piece in ordered:
        begin = place_of(piece)
        if begin > end:
            yield Stream(ends, bytes(data), places)
            data, places, end = bytearray(), [], begin
        fresh = piece.data[end - begin:]
        if fresh:
            places.append((len(data), piece.packet))
            data += fresh
            end = begin + len(piece.data)
    yield Stream(ends, bytes(data), places)
