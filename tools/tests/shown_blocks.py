"""What tshark shows of blocks by a plugin, what csn_explain tells of them, and what Wireshark's own dissectors show."""
from __future__ import annotations

import re
import subprocess
import xml.etree.ElementTree as ElementTree
from typing import Iterator, NamedTuple

from made_messages import Block
from tried import Tried

# How an item says which bits it has: drawn in their octets, or by their numbers.
DRAWN = re.compile(r"(?:\[truncated\])?\s*([.01][.01 ]*) = ([^:]*)")
NUMBERED = re.compile(r"(?:\[truncated\])?\s*Bits (\d+) to (-?\d+) = ([^:]*)")
ALTERNATIVE = re.compile(r"#\d+")
# Where Wireshark adds to the number that the bits write.
RAISED = re.compile(r"\(Raw (\d+) \+ Offset \d+\)")
# Items of Wireshark's that do not tell the number of the bits that they draw, by the dissector and the beginning of their
# names, and why.
DIFFERENCES = {
    ("gsm_rlcmac", "gsm_rlcmac.dl.prach_max_retrans"): "of an array each item tells 0, and its place in the array",
    ("gsm_rlcmac", "gsm_rlcmac.persistent_level"): "of an array each item tells 0, and its place in the array",
    ("gsm_rlcmac", "gsm_rlcmac.received_block_bitmap"): "of 64 bits the number of the last 32 is told",
    ("gsm_rlcmac", "gsm_a."): "an identity is moved to octets of its own first, so it is drawn at another place",
}


class Leaf(NamedTuple):
    """A leaf: its first bit, its bits, its path without alternatives, and its kind where it stands right at no label."""

    place: int
    bits: str
    path: str
    kind: str


class Shown(NamedTuple):
    """What is shown of a block: its answer, its leaves, how many alternatives are named, and where it is refused."""

    answer: str
    leaves: list[Leaf]
    alternatives: int
    refused: str

    @property
    def labelled(self) -> int:
        """How many leaves stand right at a label."""
        return sum(leaf.kind == "" for leaf in self.leaves)


def told_leaf(line: str) -> Leaf:
    """A leaf as csn_explain tells it, which does not say whether its label stands right at it."""
    place, width, kind, value, path = line.split("\t")
    bits = value if int(width) > 64 else f"{int(value):0{width}b}" if int(width) else ""
    return Leaf(int(place), bits, ALTERNATIVE.sub("", path).lstrip("."), kind)


def told_by(program: str, blocks: list[Block]) -> Iterator[Shown]:
    """What csn_explain tells of blocks."""
    answers = {}
    for rule in {block.rule for block in blocks}:
        some = [block for block in blocks if block.rule == rule]
        ran = subprocess.run([program, "fields", some[0].file, rule, "received"], stdout=subprocess.PIPE, text=True,
                             input="".join(block.line + "\n" for block in some), check=False)
        answers[rule] = iter(ran.stdout.splitlines())
    for block in blocks:
        lines = []
        while (line := next(answers[block.rule], "")) and line[0].isdigit():
            lines.append(line)
        paths = {line[:found.end()] for line in (one.split("\t")[4] for one in lines) for found in ALTERNATIVE.finditer(line)}
        answer = line.split("\t")[0]
        yield Shown(answer, [told_leaf(line) for line in lines], len(paths), answer.split()[1] if answer[:2] == "no" else "")


def labels_at_leaves(tried: Tried, blocks: list[Block]) -> Iterator[int]:
    """How many labels the tree of each block has right at a leaf."""
    trees = {}
    for rule in {block.rule for block in blocks}:
        some = [block for block in blocks if block.rule == rule]
        trees[rule] = iter(tried.csn_cli(["json", some[0].file, rule, "received"], [block.line for block in some]))
    for block in blocks:
        yield len(re.findall('"label":"[^"]*","tree":(?:"|null)', next(trees[block.rule])))


def text_of(item: ElementTree.Element) -> str:
    return item.get("showname") or item.get("show") or ""


def shown_leaves(item: ElementTree.Element, begun: int, path: str) -> Iterator[Leaf]:
    """The leaves below an item, of a block that begins at this bit."""
    for inner in item.findall("field"):
        name, text = inner.get("name"), text_of(inner)
        kind = name.removeprefix("nambroit.part.") if name.startswith("nambroit.part.") else ""
        drawn, numbered = DRAWN.match(text), NUMBERED.match(text)
        if name.startswith(("nambroit.block.", "_ws.expert")):
            continue
        if drawn or numbered:
            title, value = (drawn or numbered).groups()[-1], inner.get("show")
            inside = path if kind else f"{path}.{title}".lstrip(".")
            if drawn:
                pattern = drawn[1].replace(" ", "")
                bits, first = pattern.strip("."), len(pattern) - len(pattern.lstrip("."))
                is_so = value == (bits if kind else str(int(bits, 2)))
                yield Leaf(8 * int(inner.get("pos")) - begun + first, bits if is_so else f"{bits}, but {value}", inside, kind)
            else:
                yield Leaf(int(numbered[1]), value, inside, kind)
        else:
            step = text.partition(": alternative ")[0]
            yield from shown_leaves(inner, begun, path + step if step[0] == "[" else f"{path}.{step}".lstrip("."))


def shown_by_plugin(packet: ElementTree.Element) -> Shown | None:
    part = packet.find("proto[@name='nambroit']")
    if part is None:
        return None
    answer = part.find("field[@name='nambroit.block.answer']").get("show")
    alternatives = sum(len(re.findall("[:,] alternative ", text_of(item))) for item in part.iter("field"))
    refused = part.find("field[@name='nambroit.block.refused']")
    return Shown(answer, list(shown_leaves(part, 8 * int(part.get("pos")), "")), alternatives,
                 "" if refused is None else refused.get("show"))


class Item(NamedTuple):
    """An item of Wireshark's own: its first bit in the frame, the bits that it draws, its number, and who shows it."""

    place: int
    bits: str
    number: int
    dissector: str
    name: str

    @property
    def is_so(self) -> bool:
        """Whether its number is that of its bits."""
        return self.number == int(self.bits, 2)

    @property
    def is_named(self) -> bool:
        """Whether it is in the list of differences."""
        return any(self.dissector == dissector and self.name.startswith(name) for dissector, name in DIFFERENCES)


def number_of(item: ElementTree.Element) -> int:
    """The number that an item tells, without what Wireshark adds to it."""
    raised, told = RAISED.search(text_of(item)), item.get("show")
    return int(raised[1]) if raised else {"False": 0, "True": 1}.get(told) if told in ("False", "True") else int(told, 0)


def items_of_wireshark(packet: ElementTree.Element) -> Iterator[Item]:
    """The items whose bits Wireshark's own dissectors draw."""
    for part in packet.findall("proto"):
        for item in part.iter("field") if part.get("name") != "nambroit" else ():
            drawn = DRAWN.match(text_of(item))
            pattern = drawn[1].replace(" ", "") if drawn else ""
            if pattern.strip("."):
                place = 8 * int(item.get("pos")) + len(pattern) - len(pattern.lstrip("."))
                yield Item(place, pattern.strip("."), number_of(item), part.get("name"), item.get("name"))
