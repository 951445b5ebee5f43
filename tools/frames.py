"""The control blocks in GSMTAP frames, as lines of `replay` and `segments`."""
from __future__ import annotations

import struct

from captures import Packet

PORT = 4729
VERSION, UM = 2, 1             # of the GSMTAP header, and its type for the radio interface
PACCH, PDCH = 11, 13           # channels of packet data, whose blocks have 23 octets
BROADCAST = {1, 2, 4, 5}       # BCCH, CCCH, AGCH and PCH
BLOCK_OCTETS = 23
CONTROL, SEGMENTED = 1, 2      # payload types of the MAC header
RADIO_RESOURCE = 6             # protocol discriminator
REST_OCTETS = {0x00: "si13", 0x19: "si1", 0x1B: "si3", 0x1C: "si4", 0x3F: "ia"}    # by message type
# Where the IP header begins, by link type: BSD loopback, raw IP (three numbers), OpenBSD loopback, SLL, IPv4, IPv6 and
# SLL2.
IP_BEGINS = {0: 4, 12: 0, 14: 0, 101: 0, 108: 4, 113: 16, 228: 0, 229: 0, 276: 20}
ETHERNET, GSMTAP = 1, 217      # further link types
ETHERNET_OCTETS = 14           # of a header without tags
VLAN_TAGS = {b"\x81\x00", b"\x88\xa8"}
UDP = 17                       # protocol, and the ports and the length that its header begins with
UDP_PORTS, UDP_OCTETS = struct.Struct(">HHH"), 8

# A control block: its frame, counted from 1; its time, as of the packet; its job; and its line. It is a plain tuple, which
# is made in an eighth of the time of one with names.
Block = tuple[int, int | None, str, str]


def block_in(frame: int, packet: Packet) -> Block | None:
    """The control block in a packet, where it has one."""
    link, time, octets = packet
    tap = octets if link == GSMTAP else gsmtap_in(link, octets)
    if len(tap) < 16 or tap[0] != VERSION or tap[2] != UM:
        return None
    channel, is_uplink, octets = tap[12], tap[4] & 0x40, tap[4 * tap[1]:]
    if channel == PDCH or channel == PACCH:
        if len(octets) != BLOCK_OCTETS:
            return None
        kind = octets[0] >> 6
        if is_uplink:
            return (frame, time, "replay", "uplink " + octets[1:].hex().upper()) if kind == CONTROL else None
        return (frame, time, downlink_of(tap), octets.hex().upper()) if kind in (CONTROL, SEGMENTED) else None
    if channel in BROADCAST and not is_uplink and len(octets) > 3 and octets[1] == RADIO_RESOURCE:
        entry = REST_OCTETS.get(octets[2])
        # The first octet tells how many of the message come before the rest octets.
        before = 1 + (octets[0] >> 2)
        rest = octets[max(3, before):]
        if entry and rest:
            return frame, time, "replay", f"{entry} {rest.hex().upper()}"
    return None


def downlink_of(tap: bytes) -> str:
    """The job of a downlink: its ARFCN, `p` where that is one of the PCS band, and its time slot."""
    band = "p" if tap[4] & 0x80 else ""
    return f"{(tap[4] & 0x3F) << 8 | tap[5]}{band}/{tap[3] & 7}"


def gsmtap_in(link: int, packet: bytes) -> bytes:
    """What a UDP datagram from or to the port of GSMTAP carries, or nothing."""
    at = ETHERNET_OCTETS if link == ETHERNET else IP_BEGINS.get(link, len(packet))
    if link == ETHERNET and packet[12:14] in VLAN_TAGS:
        at = begin_behind_tags(packet)
    if len(packet) < at + 28:
        return b""
    first = packet[at]
    if first >> 4 == 4 and packet[at + 9] == UDP and not (packet[at + 6] & 0x3F or packet[at + 7]):
        at += 4 * (first & 15)
    elif first >> 4 == 6 and packet[at + 6] == UDP:
        at += 40
    else:
        return b""
    begin = at + UDP_OCTETS
    if begin > len(packet):
        return b""
    source, target, length = UDP_PORTS.unpack_from(packet, at)
    if PORT not in (source, target) or at + length > len(packet):
        return b""
    return packet[begin:at + length]


def begin_behind_tags(packet: bytes) -> int:
    """Where an Ethernet frame with tags goes on."""
    at = 12
    while packet[at:at + 2] in VLAN_TAGS:
        at += 4
    return at + 2
