#!/usr/bin/env python3
"""Makes a capture of blocks, which Wireshark opens.

usage: to_pcap.py [--arfcn N] [--slot N] < LINES > CAPTURE

A line is one of `replay` (an entry, a space and a block), one of `segments` (23 octets of a downlink), or a row of
gsmtap.py, whose time and downlink are kept. Other lines are 20 milliseconds apart, and of the ARFCN and
the slot that are given. An entry of rest octets is put behind a message whose own fields are all zeros; a control
block of `replay` behind the MAC header 40. Each block becomes one frame of GSMTAP in UDP in IPv4.
"""
from __future__ import annotations

import argparse
import re
import struct
import sys
from typing import BinaryIO, Iterable, NamedTuple

from frames import BLOCK_OCTETS, PDCH, PORT

IPV4 = 228                     # the link type
BCCH, AGCH = 1, 4              # channels
STEP = 20_000_000              # nanoseconds
MAC_HEADER = b"\x40"
# What comes before the rest octets of a message: its length so far, the protocol, the type, and fields of zeros.
HEADS = {"si1": b"\x55\x06\x19" + bytes(19), "si3": b"\x49\x06\x1b" + bytes(16), "si4": b"\x31\x06\x1c" + bytes(10),
         "si13": b"\x01\x06\x00", "ia": b"\x2d\x06\x3f" + bytes(9)}
ROW = re.compile(r"\d+\t(\d+\.\d{9}|-)\t(?:replay|(\d+)(p?)/([0-7]))\t(.*)")


class LineFault(Exception):
    """What is wrong with a line."""


class Where(NamedTuple):
    arfcn: int
    is_pcs: bool
    slot: int


def frame_of(line: str, where: Where) -> bytes:
    """The GSMTAP frame of a line."""
    entry, space, digits = line.rpartition(" ")
    if not re.fullmatch("([0-9A-Fa-f]{2})+", digits):
        raise LineFault("this is no block of whole octets")
    octets = bytes.fromhex(digits)
    if entry in HEADS:
        return tap(where, AGCH if entry == "ia" else BCCH, False, HEADS[entry] + octets)
    if entry in ("uplink", "downlink"):
        octets = MAC_HEADER + octets
    elif space:
        raise LineFault(f"there is no entry {entry!r}")
    if len(octets) > BLOCK_OCTETS:
        raise LineFault(f"a frame has room for {BLOCK_OCTETS} octets")
    return tap(where, PDCH, entry == "uplink", octets)


def tap(where: Where, channel: int, is_uplink: bool, octets: bytes) -> bytes:
    arfcn = where.is_pcs << 15 | is_uplink << 14 | where.arfcn
    return struct.pack(">BBBBHbbIBBBB", 2, 4, 1, where.slot, arfcn, 0, 0, 0, channel, 0, 0, 0) + octets


def ip_of(payload: bytes) -> bytes:
    """A payload in UDP in IPv4, from and to 127.0.0.1."""
    udp = struct.pack(">HHHH", PORT, PORT, 8 + len(payload), 0) + payload
    head = struct.pack(">BBHHHBBH4s4s", 0x45, 0, 20 + len(udp), 0, 0, 64, 17, 0, b"\x7f\0\0\1", b"\x7f\0\0\1")
    total = sum(struct.unpack(">10H", head))
    total = (total & 0xFFFF) + (total >> 16)
    return head[:10] + struct.pack(">H", 0xFFFF - total) + head[12:] + udp


def write(lines: Iterable[str], given: Where, to: BinaryIO) -> None:
    to.write(struct.pack("<IHHiIII", 0xA1B23C4D, 2, 4, 0, 0, 0x40000, IPV4))
    for number, line in enumerate(lines):
        time, where, line = number * STEP, given, line.rstrip("\r\n")
        row = ROW.fullmatch(line)
        if row:
            told, arfcn, band, slot, line = row.groups()
            time = time if told == "-" else int(told.replace(".", ""))
            where = Where(int(arfcn), band == "p", int(slot)) if arfcn else given
        try:
            packet = ip_of(frame_of(line, where))
        except LineFault as fault:
            raise LineFault(f"line {number + 1}: {fault}") from fault
        to.write(struct.pack("<IIII", time // 10**9, time % 10**9, len(packet), len(packet)) + packet)


def number_below(bound: int):
    def number(word: str) -> int:
        if not 0 <= int(word) < bound:
            raise ValueError
        return int(word)
    return number


def main() -> int:
    parser = argparse.ArgumentParser(description=__doc__, formatter_class=argparse.RawDescriptionHelpFormatter)
    parser.add_argument("--arfcn", type=number_below(1024), default=0)
    parser.add_argument("--slot", type=number_below(8), default=0)
    options = parser.parse_args()
    try:
        write(sys.stdin, Where(options.arfcn, False, options.slot), sys.stdout.buffer)
        sys.stdout.flush()
    except (LineFault, UnicodeDecodeError, OSError) as fault:
        print(f"to_pcap.py: {fault}", file=sys.stderr)
        return 2
    return 0


if __name__ == "__main__":
    sys.exit(main())
