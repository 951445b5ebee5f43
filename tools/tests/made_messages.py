"""Frames of all channels with blocks of the repository's descriptions, by a seed, and what is to be shown of each."""
from __future__ import annotations

import random
import sys
from dataclasses import dataclass, field

from made import tap
from tried import ROOT

DESCRIPTIONS = ROOT / "descriptions"
sys.path.append(str(DESCRIPTIONS))

import csn1  # noqa: E402

CONTROL, REST_OCTETS = "44.060.csn1", "44.018.csn1"
UPLINK, DOWNLINK = "Uplink RLC/MAC control message", "Downlink RLC/MAC control message"
BLOCK_BITS = 176
FRAME_OCTETS = 23
# Of the messages with rest octets: the rule, the type, the length that the first octet tells, and how many octets of a
# frame come before the rest octets.
MESSAGES = (
    ("SI 1 Rest Octets", 0x19, 21, 22), ("SI 2bis Rest Octets", 0x02, 21, 22), ("SI 2ter Rest Octets", 0x03, 18, 19),
    ("SI 2quater Rest Octets", 0x07, 1, 3), ("SI 3 Rest Octets", 0x1B, 18, 19), ("SI 4 Rest Octets", 0x1C, 12, 13),
    ("SI 7 Rest Octets", 0x1F, 1, 3), ("SI 8 Rest Octets", 0x18, 1, 3), ("SI 9 Rest Octets", 0x04, 1, 6),
    ("SI 13 Rest Octets", 0x00, 0, 3), ("SI 16 Rest Octets", 0x3D, 1, 3), ("SI 17 Rest Octets", 0x3E, 1, 3),
    ("IA Rest Octets", 0x3F, 11, 12), ("IAR Rest Octets", 0x3A, 19, 20), ("IAX Rest Octets", 0x39, 18, 19),
    ("P1 Rest Octets", 0x21, 5, 6), ("P2 Rest Octets", 0x22, 11, 12), ("P3 Rest Octets", 0x24, 19, 20),
    ("NT/N Rest Octets", 0x20, 1, 3),
)


@dataclass
class Block:
    """A block that is to be shown: its rule, its digits, and whether it is joined of two segments."""

    rule: str
    line: str
    is_joined: bool = False

    @property
    def file(self) -> str:
        return str(DESCRIPTIONS / file_of(self.rule))


@dataclass
class Messages:
    """Frames, and of each what is to be shown: a block, the answer to a segment, or nothing."""

    frames: list[bytes] = field(default_factory=list)
    wanted: list[Block | str | None] = field(default_factory=list)

    def add(self, frame: bytes, wanted: Block | str | None = None) -> None:
        self.frames.append(frame)
        self.wanted.append(wanted)


def file_of(rule: str) -> str:
    return CONTROL if rule in (UPLINK, DOWNLINK) else REST_OCTETS


class Maker:
    """Makes frames by a seed. In one block of four some bits are turned, and some rest octets are cut."""

    def __init__(self, seed: int) -> None:
        self.source = random.Random(seed)
        self.makers = {name: csn1.Maker(csn1.rules_of((DESCRIPTIONS / name).read_text(encoding="ascii")), self.source)
                       for name in (CONTROL, REST_OCTETS)}
        # By slot and transaction, the second segments that come, each with the whole message.
        self.waiting: dict[tuple[int, int], tuple[str, str]] = {}
        self.made = Messages()

    def digits(self, rule: str, bits: int) -> str:
        """A block of so many bits in hexadecimal digits."""
        for _ in range(20):
            block = csn1.several(self.makers[file_of(rule)], rule, bits, 1)[0][0]
            if len(block) == bits:
                break
        value = int(block.ljust(bits, "0"), 2)
        if self.source.random() < 0.25:
            for _ in range(self.source.randrange(1, 4)):
                value ^= 1 << self.source.randrange(bits)
        return f"{value:0{bits // 4}X}"

    def uplink(self) -> None:
        block = self.digits(UPLINK, BLOCK_BITS)
        self.made.add(tap(13, "40" + block, uplink=True), Block(UPLINK, block))

    def downlink(self) -> None:
        block = self.digits(DOWNLINK, BLOCK_BITS)
        self.made.add(tap(self.source.choice([11, 13]), "4F" + block), Block(DOWNLINK, block))

    def segment(self) -> None:
        """A first segment, the second one of a message that waits, or a second one that nothing waits for."""
        slot, transaction = self.source.randrange(3), self.source.randrange(4)
        second, message = self.waiting.pop((slot, transaction), ("", ""))
        # One of four has an address behind its header.
        heads = [f"80{transaction << 2 | last | has_address:02X}" + "5A" * has_address
                 for last in (0, 0x82) for has_address in [self.source.random() < 0.25]]
        if second:
            self.made.add(tap(13, second, slot=slot), Block(DOWNLINK, message, True))
        elif self.source.random() < 0.1:
            self.made.add(tap(13, heads[1].ljust(2 * FRAME_OCTETS, "2"), slot=slot), "bad 9")
        else:
            room = [2 * FRAME_OCTETS - len(head) for head in heads]
            message = self.digits(DOWNLINK, 4 * sum(room))
            self.waiting[slot, transaction] = heads[1] + message[room[0]:], message
            self.made.add(tap(13, heads[0] + message[:room[0]], slot=slot), f"wait {transaction}")

    def data(self) -> None:
        self.made.add(tap(13, "00" * FRAME_OCTETS))

    def rest_octets(self) -> None:
        rule, kind, length, before = self.source.choice(MESSAGES)
        block = self.digits(rule, 8 * (FRAME_OCTETS - before))
        if self.source.random() < 0.2:
            block = block[:2 * self.source.randrange(1, FRAME_OCTETS - before + 1)]
        head = bytes([length << 2 | 1, 6, kind]) + bytes(before - 3)
        self.made.add(tap(1 if rule.startswith("SI") else 4, head.hex() + block), Block(rule, block))


def messages(many: int) -> Messages:
    """So many frames, with other blocks between the two segments of a message."""
    maker = Maker(2056)
    kinds = [maker.uplink] * 4 + [maker.downlink] * 4 + [maker.segment] * 3 + [maker.data] + [maker.rest_octets] * 6
    while len(maker.made.frames) < many:
        maker.source.choice(kinds)()
    return maker.made
