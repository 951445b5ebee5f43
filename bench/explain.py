#!/usr/bin/env python3
"""Holds the companion against the program, and measures it.

usage: bench/explain.py [--bin PATH] [--companion PATH] [--blocks N] [--generator FOLDER] [--descriptions N] [--speed]

The paths are crates/csn_cli/out/csn_cli and crates/csn_explain/out/csn_explain where they are left out. For blocks of the
catalogue, and of random descriptions where FOLDER has a gen.py that makes them, `csn_explain fields` is compared with
`csn_cli json`: the leaves lie one behind another, and are the whole block; their values are its bits; what is no literal
has the values, labels and alternatives of the tree; refusals have the program's place, and their leaves end before it.
With --speed it prints how many fields a second `fields` writes, and its processor time in those of `csn_cli show`: the least
of seven runs of each, in turn, whose output is dropped.
"""
from __future__ import annotations

import argparse
import json
import os
import random
import re
import subprocess
import sys
import tempfile
from dataclasses import dataclass
from pathlib import Path

ROOT = Path(__file__).resolve().parent.parent
RULES = {"uplink": "Uplink Control Block", "downlink": "Downlink Control Block", "si1": "SI 1 Rest Octets",
         "si3": "SI 3 Rest Octets", "si4": "SI 4 Rest Octets", "si13": "SI 13 Rest Octets", "ia": "IA Rest Octets"}
ROUNDS = 24
SPEED_LINES = 200_000
SPEED_RUNS = 7


@dataclass
class Leaf:
    """A line of `fields`."""

    place: int
    bits: int
    kind: str
    value: str
    path: str

    def digits(self) -> str:
        """The bits that its value tells."""
        return self.value if self.bits > 64 else f"{int(self.value):0{self.bits}b}" if self.bits else ""


@dataclass
class Told:
    """What `fields` answers to one line."""

    leaves: list[Leaf]
    end: str


def bits_of(line: str) -> str:
    """The bits of a block line."""
    digits, _, last = line.partition("/")
    text = "" if digits == "." else "".join(f"{octet:08b}" for octet in bytes.fromhex(digits))
    return text[:len(text) - 8 + int(last)] if last else text


def line_of(bits: str) -> str:
    """The block line of bits."""
    if not bits:
        return "."
    filled = bits + "0" * (-len(bits) % 8)
    last = f"/{len(bits) % 8}" if len(bits) % 8 else ""
    return int(filled, 2).to_bytes(len(filled) // 8, "big").hex().upper() + last


def values_of(tree: object, path: str = "") -> list[tuple[str, str]]:
    """The bits in a tree in their order, each with the way to it, without the turns of repetitions."""
    if tree is None:
        return []
    if isinstance(tree, str):
        return [(bits_of(tree), path)]
    if isinstance(tree, list):
        return [value for part in tree for value in values_of(part, path)]
    if "alt" in tree:
        return values_of(tree["tree"], f"{path}#{tree['alt']}")
    return values_of(tree["tree"], f"{path}.{tree['label']}" if path else tree["label"])


def ran(words: list[str], lines: list[str]) -> list[str]:
    given = "".join(line + "\n" for line in lines)
    return subprocess.run(words, input=given, stdout=subprocess.PIPE, text=True, check=False).stdout.splitlines()


def told_by(lines: list[str]) -> list[Told]:
    """The answers in the output of `fields`."""
    answers, leaves = [], []
    for line in lines:
        cells = line.split("\t")
        if len(cells) == 5 and cells[0].isdigit():
            leaves.append(Leaf(int(cells[0]), int(cells[1]), cells[2], cells[3], cells[4]))
        else:
            answers.append(Told(leaves, line))
            leaves = []
    return answers


def fault(line: str, answer: str, told: Told) -> str:
    """What is wrong with the leaves of a block line, or nothing."""
    if answer.startswith("bad"):
        return "" if told.end == answer and not told.leaves else "another answer"
    bits, place = bits_of(line), 0
    for leaf in told.leaves:
        if leaf.place != place:
            return f"a leaf at {leaf.place} behind one that ends at {place}"
        place += leaf.bits
        if leaf.digits() != bits[leaf.place:place]:
            return f"at {leaf.place} stand other bits than {leaf.value}"
    if answer.startswith("no"):
        if told.end.split("\t")[0] != answer:
            return "another refusal"
        return "" if place <= int(answer.split()[1]) else "a leaf behind the refusal"
    if told.end != "ok" or place != len(bits):
        return "the leaves are not the whole block"
    shown = [(leaf.digits(), re.sub(r"\[\d+\]", "", leaf.path).removeprefix(".")) for leaf in told.leaves if leaf.kind != "literal"]
    return "" if shown == values_of(json.loads(answer[3:])) else "other values than the tree has"


def grown(program: list[str], blocks: list[str], source: random.Random) -> list[str]:
    """The blocks changed where they are refused, so that more of them are read to the end, and all on the way there."""
    seen = list(blocks)
    for _ in range(ROUNDS):
        answers = ran(program, [line_of(bits) for bits in blocks])
        changed = []
        for bits, answer in zip(blocks, answers):
            if answer.startswith("no"):
                place = int(answer.split()[1])
                flipped = "10"[int(bits[place])] if answer.endswith("bit") else source.choice("01")
                more = "".join(source.choice("01") for _ in range(source.randrange(6)))
                changed.append(bits[:place] + flipped + more)
        blocks = changed[:200]
        seen += blocks
        if not blocks:
            break
    return seen


def compare(options: argparse.Namespace, file: str, name: str, reading: str, blocks: list[str]) -> tuple[int, int, int]:
    """How many blocks were compared, how many are whole, and how many differ."""
    lines = [line_of(bits) for bits in blocks] + ["0G", "123", "01/8", "01/7"]
    answers = ran([options.bin, "json", file, name, reading], lines)
    told = told_by(ran([options.companion, "fields", file, name, reading], lines))
    if len(answers) != len(lines) or len(told) != len(lines):
        print(f"{name}: {len(lines)} lines, {len(answers)} answers and {len(told)} of the companion")
        return len(lines), 0, 1
    wrong = 0
    for line, answer, one in zip(lines, answers, told):
        why = fault(line, answer, one)
        wrong += why != ""
        if why:
            print(f"{name}: {line}: {why}")
    return len(lines), sum(answer.startswith("ok") for answer in answers), wrong


def catalogue_blocks(word: str, count: int, source: random.Random) -> list[str]:
    """The samples of an entry, and samples with changed bits and other lengths."""
    samples = [bits_of(line.split()[1]) for line in (ROOT / "docs/examples/capture.blocks").read_text().splitlines()
               if re.fullmatch(f"{word} ([0-9A-F]{{2}})+", line)]
    blocks = list(samples)
    while len(blocks) < count:
        bits = list(source.choice(samples))
        for _ in range(source.randrange(1, 6)):
            at = source.randrange(len(bits))
            bits[at] = source.choice("01")
        blocks.append("".join(bits)[:source.choice([len(bits), len(bits), source.randrange(len(bits) + 1)])])
    return blocks


def all_compared(options: argparse.Namespace, folder: str) -> int:
    source = random.Random(4729)
    text = subprocess.run([sys.executable, ROOT / "bench/catalogue.py"], stdout=subprocess.PIPE, check=True).stdout
    (Path(folder) / "catalogue.csn1").write_bytes(text)
    total = whole = wrong = 0
    for word, name in RULES.items():
        for reading in ("received", "sent"):
            file = f"{folder}/catalogue.csn1"
            blocks = catalogue_blocks(word, options.blocks // 28, source)
            blocks = grown([options.bin, "show", file, name, reading], blocks, source)
            results = compare(options, file, name, reading, blocks)
            total, whole, wrong = total + results[0], whole + results[1], wrong + results[2]
    print(f"catalogue: {total} blocks, {whole} whole, {wrong} differ")
    return wrong + (made_compared(options, folder, source) if options.generator else 0)


def made_compared(options: argparse.Namespace, folder: str, source: random.Random) -> int:
    """The same for random descriptions."""
    sys.path.insert(0, options.generator)
    from gen import Gen
    total = whole = wrong = certified = seed = 0
    while certified < options.descriptions:
        seed += 1
        file = f"{folder}/made.csn1"
        Path(file).write_text(Gen(random.Random(seed)).text())
        reading = source.choice(["received", "sent"])
        if not ran([options.bin, "check", file, "M", reading], [])[0].startswith("certified"):
            continue
        certified += 1
        blocks = ["".join(source.choice("01") for _ in range(source.randrange(48))) for _ in range(20)]
        blocks = grown([options.bin, "show", file, "M", reading], blocks, source)
        results = compare(options, file, "M", reading, blocks)
        total, whole, wrong = total + results[0], whole + results[1], wrong + results[2]
    print(f"{certified} made descriptions: {total} blocks, {whole} whole, {wrong} differ")
    return wrong


def taken(words: list[str], given: str) -> float:
    """The processor time of a run whose output is dropped."""
    with open(given, "rb") as source:
        process = subprocess.Popen(words, stdin=source, stdout=subprocess.DEVNULL)
        _, _, usage = os.wait4(process.pid, 0)
    return usage.ru_utime + usage.ru_stime


def least(first: list[str], second: list[str], given: str) -> tuple[float, float]:
    """The least processor times of two commands, which run in turn."""
    both = [(taken(first, given), taken(second, given)) for _ in range(SPEED_RUNS)]
    return min(one for one, _ in both), min(other for _, other in both)


def speed(options: argparse.Namespace, folder: str) -> None:
    source = random.Random(4729)
    print("| Entry | Fields | A second | In times of show |\n|---|---|---|---|")
    for word, name in RULES.items():
        file = f"{folder}/catalogue.csn1"
        blocks = grown([options.bin, "show", file, name, "received"], catalogue_blocks(word, 400, source), source)
        lines = [line_of(bits) for bits in blocks]
        shown = ran([options.bin, "show", file, name, "received"], lines)
        whole = [line for line, answer in zip(lines, shown) if answer.startswith("ok")]
        with open(f"{folder}/lines", "w", encoding="ascii") as given:
            given.writelines(source.choice(whole) + "\n" for _ in range(SPEED_LINES))
        asked = [options.companion, "fields", file, name, "received"], [options.bin, "show", file, name, "received"]
        with open(f"{folder}/lines", "rb") as given:
            written = subprocess.run(asked[0], stdin=given, stdout=subprocess.PIPE, check=False).stdout
        count = sum(line.count(b"\t") == 4 for line in written.split(b"\n"))
        fields, show = least(*asked, f"{folder}/lines")
        print(f"| {word} | {count} | {count / fields:,.0f} | {fields / show:.2f} |", flush=True)


def main() -> int:
    parser = argparse.ArgumentParser(description=__doc__, formatter_class=argparse.RawDescriptionHelpFormatter)
    parser.add_argument("--bin", metavar="PATH", default=str(ROOT / "crates/csn_cli/out/csn_cli"))
    parser.add_argument("--companion", metavar="PATH", default=str(ROOT / "crates/csn_explain/out/csn_explain"))
    parser.add_argument("--blocks", type=int, default=10_000)
    parser.add_argument("--generator", metavar="FOLDER")
    parser.add_argument("--descriptions", type=int, default=1000)
    parser.add_argument("--speed", action="store_true")
    options = parser.parse_args()
    with tempfile.TemporaryDirectory() as folder:
        wrong = all_compared(options, folder)
        if options.speed:
            speed(options, folder)
    return 1 if wrong else 0


if __name__ == "__main__":
    sys.exit(main())
