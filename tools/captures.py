"""The packets of a capture: a pcap or pcapng file, packed by gzip or not, read as its octets come.

Nothing is kept but the piece that was read last and the packet that it cut, so memory is bounded for a capture of
any size, and what is whole is handed on while the capture still grows.
"""
from __future__ import annotations

import struct
import zlib
from typing import Iterator, NamedTuple, Protocol

PIECE = 1 << 20                # the most octets that are read, or unpacked, at once
MOST_PACKET = 256 * 1024       # the bounds of Wireshark, past which a length is none
MOST_BLOCK = 16 * 1024 * 1024
SECOND = 1_000_000_000
GZIP = b"\x1f\x8b"
SECTION = b"\x0a\x0d\x0d\x0a"
# Of the first four octets of a pcap file: the order of octets, and the nanoseconds in a unit of its times.
PCAP = {b"\xd4\xc3\xb2\xa1": ("<", 1000), b"\x4d\x3c\xb2\xa1": ("<", 1),
        b"\xa1\xb2\xc3\xd4": (">", 1000), b"\xa1\xb2\x3c\x4d": (">", 1)}


class CaptureFault(Exception):
    """What is wrong with a capture, in a line."""


# A packet: the link type of its interface; its time in nanoseconds since 1970, where the capture tells; and its octets.
Packet = tuple[int, int | None, bytes]


class Stream(Protocol):
    """A file without a buffer, so that a read gives what is there."""

    def read(self, most: int, /) -> bytes | None: ...


def batches(stream: Stream) -> Iterator[list[Packet]]:
    """The packets that became whole by each piece of a capture, as often as some did."""
    buffer = bytearray()
    reader: Pcap | Pcapng | None = None
    frames = 0
    for piece in pieces(stream):
        buffer += piece
        if reader is None and len(buffer) >= 24:
            reader = reader_of(buffer)
        if reader is not None:
            packets, fault, used = reader.cut(buffer)
            del buffer[:used]
            frames += len(packets)
            yield packets
            if fault:
                raise CaptureFault(f"behind frame {frames}: {fault}")
    if reader is None:
        raise CaptureFault("this is no pcap and no pcapng file")
    if buffer:
        raise CaptureFault(f"behind frame {frames}: the file ends inside a packet")


def pieces(stream: Stream) -> Iterator[bytes]:
    """The octets of a file as they come, unpacked where it is packed by gzip."""
    first = b""
    while len(first) < 2 and (more := stream.read(PIECE)):
        first += more
    octets = rest_of(first, stream)
    return unpacked(octets) if first.startswith(GZIP) else octets


def rest_of(first: bytes, stream: Stream) -> Iterator[bytes]:
    yield first
    while piece := stream.read(PIECE):
        yield piece


def unpacked(packed: Iterator[bytes]) -> Iterator[bytes]:
    """What is packed by gzip, in one member or in several."""
    member = zlib.decompressobj(31)
    for piece in packed:
        full = False
        while piece or full:
            if member.eof:
                member = zlib.decompressobj(31)
            try:
                octets = member.decompress(piece, PIECE)
            except zlib.error as fault:
                raise CaptureFault(f"gzip: {fault}") from fault
            if octets:
                yield octets
            full = len(octets) == PIECE and not member.eof
            piece = member.unused_data.lstrip(b"\0") if member.eof else member.unconsumed_tail
    if not member.eof:
        raise CaptureFault("gzip: the file ends too early")


def reader_of(buffer: bytearray) -> Pcap | Pcapng:
    magic = bytes(buffer[:4])
    if magic == SECTION:
        return Pcapng()
    if magic in PCAP:
        return Pcap(*PCAP[magic], buffer)
    raise CaptureFault("this is no pcap and no pcapng file")


Cut = tuple[list[Packet], str, int]    # the packets, what is wrong behind them or nothing, and the octets that are done


class Pcap:
    """Cuts a pcap file."""

    def __init__(self, order: str, unit: int, buffer: bytearray) -> None:
        self.head = struct.Struct(order + "IIII")
        self.unit = unit
        self.link = struct.unpack_from(order + "I", buffer, 20)[0] & 0xFFFF
        self.begun = False

    def cut(self, buffer: bytearray) -> Cut:
        packets: list[Packet] = []
        octets, link, unit = bytes(buffer), self.link, self.unit
        at, last = 0 if self.begun else 24, len(octets) - 16
        self.begun = True
        while at <= last:
            seconds, fraction, length, _ = self.head.unpack_from(octets, at)
            if length > MOST_PACKET:
                return packets, f"no packet has {length} octets", at
            begin, end = at + 16, at + 16 + length
            if end > len(octets):
                break
            packets.append((link, seconds * SECOND + fraction * unit, octets[begin:end]))
            at = end
        return packets, "", at


class Interface(NamedTuple):
    link: int
    ticks: int             # a second has so many
    offset: int            # seconds, to be added

    def time(self, high: int, low: int) -> int:
        return ((high << 32 | low) * SECOND) // self.ticks + self.offset * SECOND


class Pcapng:
    """Cuts a pcapng file."""

    def __init__(self) -> None:
        self.order = "<"
        self.interfaces: list[Interface] = []

    def cut(self, buffer: bytearray) -> Cut:
        packets: list[Packet] = []
        at = 0
        while at + 12 <= len(buffer):
            is_section = buffer[at:at + 4] == SECTION
            if is_section:
                self.order = "<" if buffer[at + 8:at + 12] == b"\x4d\x3c\x2b\x1a" else ">"
                self.interfaces = []
            kind, length = struct.unpack_from(self.order + "II", buffer, at)
            if length < (28 if is_section else 12) or length % 4 or length > MOST_BLOCK:
                return packets, f"no block has {length} octets", at
            if at + length > len(buffer):
                break
            try:
                packet = self.packet_in(kind, bytes(buffer[at + 8:at + length - 4]))
            except (struct.error, IndexError):
                return packets, f"a block of kind {kind} is damaged", at
            if packet is not None:
                packets.append(packet)
            at += length
        return packets, "", at

    def packet_in(self, kind: int, body: bytes) -> Packet | None:
        """The packet in a block, where it has one."""
        if kind == 1:
            self.interfaces.append(interface_in(self.order, body))
        elif kind == 6:
            number, high, low, length = struct.unpack_from(self.order + "IIII", body)
            interface = self.interfaces[number]
            return packet_of(interface.link, interface.time(high, low), body[20:], length)
        elif kind == 3:
            length = struct.unpack_from(self.order + "I", body)[0]
            return packet_of(self.interfaces[0].link, None, body[4:], min(length, len(body) - 4))
        elif kind == 2:
            number, _, high, low, length = struct.unpack_from(self.order + "HHIII", body)
            interface = self.interfaces[number]
            return packet_of(interface.link, interface.time(high, low), body[20:], length)
        return None


def packet_of(link: int, time: int | None, octets: bytes, length: int) -> Packet:
    if length > len(octets):
        raise IndexError("the packet is longer than its block")
    return link, time, octets[:length]


def interface_in(order: str, body: bytes) -> Interface:
    """The interface that a block describes, of whose options the unit and the offset of times count."""
    link, _, _ = struct.unpack_from(order + "HHI", body)
    ticks, offset, at = 1_000_000, 0, 8
    while at + 4 <= len(body):
        code, length = struct.unpack_from(order + "HH", body, at)
        value = body[at + 4:at + 4 + length]
        if code == 0:
            break
        if code == 9 and length == 1:
            ticks = 2 ** (value[0] & 0x7F) if value[0] & 0x80 else 10 ** value[0]
        elif code == 14 and length == 8:
            offset = struct.unpack(order + "q", value)[0]
        at += 4 + length + -length % 4
    return Interface(link, ticks, offset)
