"""Captures that are made by hand, with what they hold."""
from __future__ import annotations

import struct
from dataclasses import dataclass

from tried import EXAMPLES

# A message up to its rest octets, written out: its length, the protocol, the type, and fields of zeros.
HEADS = {"si1": "550619" + "00" * 19, "si3": "49061b" + "00" * 16, "si4": "31061c" + "00" * 10, "si13": "010600",
         "ia": "2d063f" + "00" * 9}
FIRST, SECOND = "800C10B00000006B2B2B2B2B2B2B2B2B2B2B2B2B2B2B2B", "808E" + "2B" * 21


@dataclass
class Frame:
    """A GSMTAP frame, with the job and the line that it gives, if any."""

    octets: bytes
    job: str = ""
    line: str = ""


def tap(channel: int, payload: str, *, arfcn: int = 871, uplink: bool = False, pcs: bool = False, slot: int = 0) -> bytes:
    number = pcs << 15 | uplink << 14 | arfcn
    return struct.pack(">BBBBHbbIBBBB", 2, 4, 1, slot, number, -60, 20, 0, channel, 0, 0, 0) + bytes.fromhex(payload)


def downlink(block: str, job: str, channel: int = 13) -> Frame:
    arfcn, slot = job.split("/")
    return Frame(tap(channel, block, arfcn=int(arfcn.rstrip("p")), pcs="p" in arfcn, slot=int(slot)), job, block)


def frames() -> list[Frame]:
    """Frames of all kinds that are read, and of some that are not."""
    made = []
    for line in (EXAMPLES / "capture.blocks").read_text().split("\n"):
        entry, _, block = line.partition(" ")
        if entry == "uplink":
            made.append(Frame(tap(13, "40" + block, uplink=True), "replay", line))
        elif entry in HEADS and set(block) <= set("0123456789ABCDEF"):
            made.append(Frame(tap(2 if entry == "ia" else 1, HEADS[entry] + block), "replay", line))
    made += [downlink(block, "871/6", 11) for block in (EXAMPLES / "segments.blocks").read_text().split()]
    made += [downlink(FIRST, job) for job in ("871/6", "871/5", "871p/6", "12/6")]
    made += [downlink(SECOND, job) for job in ("12/6", "871p/6", "871/6", "871/5", "12/5")]
    made.append(Frame(tap(13, "00" * 23)))                      # a data block
    made.append(Frame(tap(13, "4010B0")))                       # a block of three octets
    made.append(Frame(tap(13, "80" + "00" * 22, uplink=True)))  # an uplink has no segments
    made.append(Frame(tap(1, "59061a" + "00" * 20)))            # a system information of type 2
    made.append(Frame(tap(4, "15062100" + "2b" * 19)))          # a paging request
    made.append(Frame(tap(3, "83", uplink=True)))               # a random access
    made.append(Frame(b"\x03" + tap(13, "40" + "2b" * 22)[1:]))  # another version of GSMTAP
    made.append(Frame(b""))
    return made


# What the blocks of frames() are answered by, as to joining: of two downlinks that take turns, no segment is joined with
# one of the other.
JOINED = ["ok", "wait 3", "ok", "bad 9"] + ["wait 3"] * 4 + ["ok"] * 4 + ["bad 9"]


def udp(payload: bytes, port: int = 4729) -> bytes:
    return struct.pack(">HHHH", 40000, port, 8 + len(payload), 0) + payload


def ip4(payload: bytes, port: int = 4729) -> bytes:
    datagram = udp(payload, port)
    return struct.pack(">BBHHHBBH8x", 0x45, 0, 20 + len(datagram), 0, 0, 64, 17, 0) + datagram


def ip4_with_options(payload: bytes) -> bytes:
    datagram = udp(payload)
    return struct.pack(">BBHHHBBH8x", 0x46, 0, 24 + len(datagram), 0, 0, 64, 17, 0) + b"\x01\x01\x01\x00" + datagram


def ip6(payload: bytes) -> bytes:
    datagram = udp(payload)
    return struct.pack(">IHBB32x", 6 << 28, len(datagram), 17, 64) + datagram


# Of each way to carry a frame, the link type and the packet. SLL and SLL2 tell the protocol as Ethernet does.
LINKS = {
    "Ethernet": (1, lambda tap: bytes(12) + b"\x08\x00" + ip4(tap)),
    "Ethernet, padded": (1, lambda tap: bytes(12) + b"\x08\x00" + ip4(tap) + bytes(7)),
    "Ethernet with a tag": (1, lambda tap: bytes(12) + b"\x81\x00\x00\x05\x86\xdd" + ip6(tap)),
    "raw IP": (101, ip4), "raw IPv6": (101, ip6), "IPv4": (228, ip4_with_options), "IPv6": (229, ip6),
    "SLL": (113, lambda tap: bytes(14) + b"\x08\x00" + ip4(tap)),
    "SLL2": (276, lambda tap: b"\x86\xdd" + bytes(18) + ip6(tap)),
    "GSMTAP": (217, lambda tap: tap),
}
BEGIN = 1_700_000_000          # seconds


def time_of(frame: int) -> str:
    """The time that a made capture gives to a frame, which a file in microseconds can hold."""
    return f"{BEGIN + frame}.{frame * 1000:09d}"


def pcap(link: int, packets: list[bytes], order: str = "<", unit: int = 1000) -> bytes:
    magic = 0xA1B2C3D4 if unit == 1000 else 0xA1B23C4D
    head = struct.pack(order + "IHHiIII", magic, 2, 4, 0, 0, 65535, link)
    return head + b"".join(struct.pack(order + "IIII", BEGIN + frame, frame * 1000 // unit, len(one), len(one)) + one
                           for frame, one in enumerate(packets, 1))


def pcapng(link: int, packets: list[bytes], order: str = "<", unit: int = 1000) -> bytes:
    def block(kind: int, body: bytes) -> bytes:
        body += bytes(-len(body) % 4)
        size = struct.pack(order + "I", 12 + len(body))
        return struct.pack(order + "I", kind) + size + body + size

    # The unit of times is an option of the interface, microseconds where there is none.
    option = struct.pack(order + "HHB3xHH", 9, 1, 9, 0, 0) if unit == 1 else b""
    made = block(0x0A0D0D0A, struct.pack(order + "IHHq", 0x1A2B3C4D, 1, 0, -1))
    made += block(1, struct.pack(order + "HHI", 147, 0, 0)) + block(1, struct.pack(order + "HHI", link, 0, 0) + option)
    for frame, one in enumerate(packets, 1):
        ticks = ((BEGIN + frame) * 10**9 + frame * 1000) // unit
        made += block(6, struct.pack(order + "IIIII", 1, ticks >> 32, ticks & 0xFFFFFFFF, len(one), len(one)) + one)
        if frame == 3:
            made += block(4, b"\0" * 4)            # names, which are no frame
    return made


FORMS = {"pcap": pcap, "pcapng": pcapng}
