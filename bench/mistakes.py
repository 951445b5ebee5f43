#!/usr/bin/env python3
"""Makes mistakes in real descriptions, and asks whether `csn_explain check` names the line of the mistake.

usage: bench/mistakes.py [--bin PATH] [--each N] [--seed S] [--show] [TEXT..]

PATH is crates/csn_explain/out/csn_explain where it is left out. The descriptions are those of descriptions/ and each
TEXT that is given. Of each kind N mistakes are made, 100 where that is left out, one in a copy of a text at a time: a
brace, `;`, `>` or `|` is lost, a name or a label that a count names is mistyped, `0` is written for `null`, or the literal
that ends a list is lost. The rule that has the mistake is asked for. A mistake that leaves a certified description is no
fault and not counted. A line is named where it or one next to it stands in a `FILE:LINE:COLUMN`. Prints a table, and
with --show each mistake that was not named.
"""
from __future__ import annotations

import argparse
import random
import re
import subprocess
import sys
import tempfile
from dataclasses import dataclass
from pathlib import Path

ROOT = Path(__file__).resolve().parent.parent
TOKEN = re.compile(r"--[^\n]*|(?P<token>::=|\*\*|//|[<>:;{}|!&=()*+]|[^\s<>:;{}|!&=()*+]+)")
SECONDS = 60


@dataclass(frozen=True)
class Token:
    text: str
    place: int


@dataclass(frozen=True)
class Mistake:
    """A text with a mistake, where it was made, and the rule that has it."""

    text: str
    place: int
    rule: str


class Description:
    """A text, its tokens, and the rule that each stands in."""

    def __init__(self, text: str) -> None:
        self.text = text
        self.tokens = [Token(m["token"], m.start("token")) for m in TOKEN.finditer(text) if m["token"]]
        self.rules: list[str] = []
        begun, name = True, ""
        for at, token in enumerate(self.tokens):
            if begun:
                name = self.named(at)
            self.rules.append(name)
            begun = token.text == ";"

    def named(self, at: int) -> str:
        """The name or label behind a `<`."""
        words = []
        for token in self.tokens[at + 1 :]:
            if token.text in (">", ":"):
                break
            words.append(token.text)
        return " ".join(words)

    def changed(self, at: int, word: str) -> Mistake:
        """The text with another word for a token."""
        token = self.tokens[at]
        text = self.text[: token.place] + word + self.text[token.place + len(token.text) :]
        return Mistake(text, token.place, self.rules[at])

    def all_of(self, kind: str) -> list[int]:
        """The tokens at which a kind of mistake can be made."""
        tokens = self.tokens
        if kind == "a name mistyped":
            return [
                at + 1
                for at, token in enumerate(tokens[:-2])
                if token.text == "<" and tokens[at - 1].text != ";" and at and self.closed_by(at) == ">" and not self.is_spare(at)
            ]
        if kind == "a label mistyped":
            return [at + 2 for at, token in enumerate(tokens[:-2]) if token.text == "val"]
        if kind == "`0` for `null`":
            return [at for at, token in enumerate(tokens) if token.text == "null"]
        if kind == "the end of a list lost":
            return [at + 1 for at, token in enumerate(tokens[:-1]) if token.text == "**" and tokens[at + 1].text in ("0", "1")]
        lost = kind.split("`")[1]
        return [at for at, token in enumerate(tokens) if token.text == lost]

    def closed_by(self, at: int) -> str:
        return next((t.text for t in self.tokens[at + 1 :] if t.text in "<>:;{}|!&=()*+" or t.text == "::="), "")

    def is_spare(self, at: int) -> bool:
        return self.named(at).startswith(("spare ", "no string"))


def mistyped(word: str, source: random.Random) -> str:
    """A word with a letter lost, doubled, changed or put behind the next one."""
    at = source.randrange(len(word))
    ways = [word[:at] + word[at + 1 :], word[:at] + word[at] + word[at:], word[:at] + "x" + word[at + 1 :]]
    if at + 1 < len(word):
        ways.append(word[:at] + word[at + 1] + word[at] + word[at + 2 :])
    other = source.choice(ways)
    return other if other and other != word else word + "x"


def chosen(places: list[tuple[Description, int]], count: int, source: random.Random) -> list[tuple[Description, int]]:
    """So many of the places: each once where there are enough of them."""
    return source.sample(places, count) if count <= len(places) else source.choices(places, k=count)


KINDS = ["`{` lost", "`}` lost", "`;` lost", "`>` lost", "a name mistyped", "a label mistyped", "`0` for `null`", "the end of a list lost", "`|` lost"]


def mistake_at(description: Description, kind: str, at: int, source: random.Random) -> Mistake:
    if kind.endswith("mistyped"):
        return description.changed(at, mistyped(description.tokens[at].text, source))
    if kind.startswith("`0`"):
        return description.changed(at, "0")
    return description.changed(at, "")


def named_lines(program: str, mistake: Mistake, folder: str) -> set[int] | None:
    """The lines that are named, or none where the description is certified."""
    path = f"{folder}/text.csn1"
    Path(path).write_text(mistake.text)
    words = [program, "check", path, mistake.rule, "received"]
    ran = subprocess.run(words, capture_output=True, text=True, errors="replace", timeout=SECONDS)
    if ran.stdout.startswith("certified"):
        return None
    return {int(line) for line in re.findall(re.escape(path) + r":(\d+):\d+", ran.stdout)}


def main() -> int:
    parser = argparse.ArgumentParser(description=__doc__, formatter_class=argparse.RawDescriptionHelpFormatter)
    parser.add_argument("--bin", metavar="PATH", default=str(ROOT / "crates/csn_explain/out/csn_explain"))
    parser.add_argument("--each", type=int, default=100)
    parser.add_argument("--seed", type=int, default=1)
    parser.add_argument("--show", action="store_true")
    parser.add_argument("texts", metavar="TEXT", nargs="*")
    options = parser.parse_args()
    paths = [*sorted((ROOT / "descriptions").glob("*.csn1")), *map(Path, options.texts)]
    descriptions = [Description(path.read_text()) for path in paths]
    source = random.Random(options.seed)
    print("| Mistake | Made | A fault | Named | Of 100 |\n|---|---|---|---|---|")
    with tempfile.TemporaryDirectory() as folder:
        for kind in KINDS:
            places = [(d, at) for d in descriptions for at in d.all_of(kind)]
            made = faults = named = 0
            for description, at in chosen(places, options.each, source):
                mistake = mistake_at(description, kind, at, source)
                line = mistake.text.count("\n", 0, mistake.place) + 1
                made += 1
                lines = named_lines(options.bin, mistake, folder)
                if lines is None:
                    continue
                faults += 1
                if any(abs(line - other) <= 1 for other in lines):
                    named += 1
                elif options.show:
                    print(f"<!-- {kind}: line {line} of <{mistake.rule}>, named {sorted(lines)} -->")
            share = f"{100 * named // faults}" if faults else "-"
            shown = kind.replace("|", "\\|")
            print(f"| {shown} | {made} | {faults} | {named} | {share} |", flush=True)
    return 0


if __name__ == "__main__":
    sys.exit(main())
