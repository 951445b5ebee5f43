#!/usr/bin/env python3
"""Holds the test vectors that the companion makes against the program.

usage: bench/cover.py [--bin PATH] [--companion PATH] [--blocks N] [--descriptions N] [--parts N] [--chance N] [--seed S]
                      [FOLDER]

The paths are crates/csn_cli/out/csn_cli and crates/csn_explain/out/csn_explain where they are left out. By each message of
descriptions/ and of N random descriptions, 2,000 where that is left out, of 4 to 20 parts or of as many as is given, or of all
*.csn1 of FOLDER whose rule is `M`, in both readings, `csn_cli show` answers each block of `blocks` with the tree that is told,
takes each of `cover`, and answers each of `nearly` as is told: N blocks of `blocks` of the messages, 100,000 where that is left
out, and as many of the others. Then it asks of the random descriptions whether some of 20,000 blocks by chance, or of the
number that is given (0 leaves this out), go a way that no block of `cover` goes where it has told of one: a part, told by the
path of its field, that is in none of them. Prints a table, and a line for each difference.
"""
from __future__ import annotations

import argparse
import random
import re
import subprocess
import sys
import tempfile
import time
from pathlib import Path

ROOT = Path(__file__).resolve().parent.parent
FILES = ("44.060", "44.018", "24.008")
READINGS = ("received", "sent")
CODES = (("0", "1"), ("0", "10", "11"), ("00", "01", "1"), ("L", "H"), ("10", "0", "11"), ("000", "001", "01", "1"))
DEEPEST = 4


class Text:
    """A random rule, most of which have a certificate: alternatives and lists begin with their own bits."""

    def __init__(self, source: random.Random, parts: int) -> None:
        self.source = source
        self.labels = 0
        self.left = parts or source.choice((4, 8, 12, 20))

    def rule(self) -> str:
        return f"<M> ::= {self.parts(0)} <spare padding> ;\n"

    def label(self) -> str:
        self.labels += 1
        return f"F{self.labels}"

    def parts(self, depth: int) -> str:
        return " ".join(self.part(depth) for _ in range(self.source.randint(1, 3)))

    def part(self, depth: int) -> str:
        self.left -= 1
        kinds = [self.field, self.literal, self.spare]
        if depth < DEEPEST and self.left > 0:
            kinds += [self.choice, self.choice, self.repetition, self.counted, self.optional, self.window, self.labelled]
        return self.source.choice(kinds)(depth)

    def field(self, depth: int) -> str:
        return f"<{self.label()} : bit ({self.source.choice((1, 1, 2, 3, 5, 8))})>"

    def literal(self, depth: int) -> str:
        return "".join(self.source.choice("01LH") for _ in range(self.source.randint(1, 2)))

    def spare(self, depth: int) -> str:
        return "<spare bit>"

    def choice(self, depth: int) -> str:
        codes = self.source.choice(CODES)
        return "{ " + " | ".join(f"{code} {self.parts(depth + 1)}" for code in codes) + " }"

    def optional(self, depth: int) -> str:
        return f"{{ 0 | 1 {self.parts(depth + 1)} }}"

    def repetition(self, depth: int) -> str:
        return f"{{ 1 {self.parts(depth + 1)} }} ** 0"

    def counted(self, depth: int) -> str:
        label = self.label()
        return f"<{label} : bit (2)> {{ {self.parts(depth + 1)} }} * (val({label}) + {self.source.randint(0, 1)})"

    def window(self, depth: int) -> str:
        label = self.label()
        inside = " ".join(self.part(depth + 1) for _ in range(self.source.randint(1, 3)))
        return f"<{label} : bit (5)> bit (val({label})) & {{ {{ {inside} }} // }}"

    def labelled(self, depth: int) -> str:
        return f"<{self.label()} : {self.parts(depth + 1)}>"


class Programs:
    """The two programs."""

    def __init__(self, program: str, companion: str) -> None:
        self.program = str(Path(program).resolve())
        self.companion = str(Path(companion).resolve())

    def lines(self, words: list[str], given: str = "") -> list[str]:
        ran = subprocess.run(words, input=given, stdout=subprocess.PIPE, text=True)
        if ran.returncode not in (0, 1):
            raise SystemExit(f"{' '.join(words)}: status {ran.returncode}")
        return ran.stdout.split("\n")[:-1]

    def certifies(self, file: str, rule: str, reading: str) -> bool:
        words = [self.program, "check", file, rule, reading]
        return subprocess.run(words, stdout=subprocess.DEVNULL).returncode == 0

    def show(self, file: str, rule: str, reading: str, blocks: list[str]) -> list[str]:
        return self.lines([self.program, "show", file, rule, reading], "".join(f"{block}\n" for block in blocks))

    def told(self, job: str, file: str, rule: str, reading: str, *words: str) -> list[list[str]]:
        lines = self.lines([self.companion, job, file, rule, reading, *words])
        return [line.split("\t") for line in lines]

    def parts(self, file: str, rule: str, blocks: list[str]) -> set[str]:
        """The paths and kinds of the fields of some blocks, without the turns of repetitions."""
        words = [self.companion, "fields", file, rule, "received"]
        found = set()
        for line in self.lines(words, "".join(f"{block}\n" for block in blocks)):
            columns = line.split("\t")
            if len(columns) == 5:
                found.add(columns[2] + " " + re.sub(r"\[\d+\]", "[]", columns[4]))
        return found


class Differences:
    """What was not as it should be."""

    def __init__(self) -> None:
        self.count = 0

    def tell(self, what: str) -> None:
        self.count += 1
        if self.count <= 50:
            print(what, flush=True)


def messages() -> list[tuple[str, str]]:
    """The file and the rule of each message."""
    found = []
    for name in FILES:
        path = ROOT / f"descriptions/{name}.csn1"
        found += [(str(path), rule) for rule in re.findall(r"^-- message\n<([^>]+)>", path.read_text(), re.M)]
    return found


def compare(differences: Differences, where: str, blocks: list[str], told: list[str], shown: list[str]) -> int:
    """Compares what is told of blocks with what is shown of them."""
    if len(shown) != len(blocks):
        differences.tell(f"{where}: {len(blocks)} blocks and {len(shown)} answers")
    for block, want, got in zip(blocks, told, shown):
        if want != got:
            differences.tell(f"{where}: {block}: told {want}, shown {got}")
    return len(blocks)


class Held:
    """What is told of blocks, held against `show`."""

    def __init__(self, programs: Programs, seed: int, differences: Differences) -> None:
        self.programs, self.seed, self.differences = programs, str(seed), differences
        self.counts = {"blocks": 0, "cover": 0, "nearly": 0}
        self.unmet = 0

    def hold(self, job: str, case: tuple[str, str, str], told: list[list[str]], wanted: list[str] | None) -> None:
        blocks = [line[0] for line in told]
        shown = self.programs.show(*case, blocks)
        if wanted is None:
            shown, wanted = [answer[:3] for answer in shown], ["ok "] * len(blocks)
        self.counts[job] += compare(self.differences, " ".join(case), blocks, wanted, shown)

    def case(self, case: tuple[str, str, str], many: int) -> None:
        """Holds so many blocks by chance of a rule in a reading, and those that cover it and nearly are strings of it."""
        told = self.programs.told("blocks", *case, str(many), self.seed, "--trees")
        self.hold("blocks", case, told, [f"ok {line[1]}" for line in told])
        told = self.programs.told("cover", *case)
        met = [line for line in told if line[0] != "unmet"]
        self.unmet += len(told) - len(met)
        self.hold("cover", case, met, None)
        told = self.programs.told("nearly", *case)
        self.hold("nearly", case, told, [line[1] for line in told])

    def cases(self, files: list[tuple[str, str]], wanted: int) -> None:
        """Holds altogether so many blocks by chance, or a few more, of the rules of some files."""
        for file, rule in files:
            for reading in READINGS:
                self.case((file, rule, reading), -(-wanted // (len(files) * len(READINGS))))


def answers(programs: Programs, wanted: int, seed: int, files: list[str], differences: Differences) -> None:
    """Holds what is told of blocks of all messages and of random descriptions against `show`."""
    real, made = Held(programs, seed, differences), Held(programs, seed, differences)
    real.cases(messages(), wanted)
    made.cases([(file, "M") for file in files if programs.certifies(file, "M", "sent")], wanted)
    print("| Command | Blocks of messages that `show` answers as told | Of random descriptions |\n|---|---|---|")
    for job, count in real.counts.items():
        print(f"| `{job}` | {count:,} | {made.counts[job]:,} |")
    print(f"\n{real.unmet:,} ways of messages are not met.\n", flush=True)


def covered(programs: Programs, files: list[str], chance: int, seed: int, differences: Differences) -> None:
    """Asks whether blocks by chance have a part that no block of `cover` has."""
    begun = time.monotonic()
    tried = asked = 0
    for file in files:
        if not programs.certifies(file, "M", "received"):
            continue
        tried += 1
        told = programs.told("cover", file, "M", "received")
        found = [line[0] for line in told if line[0] != "unmet"]
        if len(found) == len(told):
            continue
        asked += 1
        drawn = [line[0] for line in programs.told("blocks", file, "M", "received", str(chance), str(seed))]
        more = programs.parts(file, "M", drawn) - programs.parts(file, "M", found)
        if more:
            differences.tell(f"{file}: {len(more)} parts are in blocks by chance alone, as {sorted(more)[0]}")
    print(f"{tried:,} random descriptions, of which {asked:,} have ways that are not met: {chance:,} blocks each, "
          f"in {time.monotonic() - begun:.0f} seconds.")


def random_files(folder: str, count: int, parts: int, seed: int, programs: Programs) -> list[str]:
    """Writes as many descriptions that have a certificate, of so many parts, or of few where that is 0."""
    source = random.Random(seed)
    files: list[str] = []
    while len(files) < count:
        path = f"{folder}/{len(files):06d}.csn1"
        Path(path).write_text(Text(source, parts).rule())
        if programs.certifies(path, "M", "received"):
            files.append(path)
    return files


def main() -> int:
    parser = argparse.ArgumentParser(description=__doc__, formatter_class=argparse.RawDescriptionHelpFormatter)
    parser.add_argument("--bin", metavar="PATH", default=str(ROOT / "crates/csn_cli/out/csn_cli"))
    parser.add_argument("--companion", metavar="PATH", default=str(ROOT / "crates/csn_explain/out/csn_explain"))
    parser.add_argument("--blocks", type=int, default=100_000)
    parser.add_argument("--descriptions", type=int, default=2_000)
    parser.add_argument("--parts", type=int, default=0)
    parser.add_argument("--chance", type=int, default=20_000)
    parser.add_argument("--seed", type=int, default=1)
    parser.add_argument("folder", nargs="?")
    options = parser.parse_args()
    programs = Programs(options.bin, options.companion)
    differences = Differences()
    with tempfile.TemporaryDirectory() as folder:
        if options.folder:
            files = [str(path) for path in sorted(Path(options.folder).glob("*.csn1"))]
        else:
            files = random_files(folder, options.descriptions, options.parts, options.seed, programs)
        answers(programs, options.blocks, options.seed, files, differences)
        if options.chance:
            covered(programs, files, options.chance, options.seed, differences)
    print(f"{differences.count:,} differences.")
    return 1 if differences.count else 0


if __name__ == "__main__":
    sys.exit(main())
