"""What the tests of the tools share: counting, running and skipping."""
from __future__ import annotations

import subprocess
import sys
from dataclasses import dataclass
from pathlib import Path

TOOLS = Path(__file__).resolve().parent.parent
ROOT = TOOLS.parent
EXAMPLES = ROOT / "docs/examples"


@dataclass
class Tried:
    """How much was tried and how much is wrong, with the built programs, a folder for files and the size of the test."""

    program: str
    companion: str         # csn_explain, or nothing where it is not built
    archive: str           # the library for C, or nothing
    folder: Path
    is_whole: bool
    many: int = 0
    wrong: int = 0
    part: str = ""         # of the test, with which lines begin

    def same(self, what: str, got: object, wanted: object) -> None:
        self.many += 1
        if got != wanted:
            self.wrong += 1
            print(f"{self.part}{what}: {shown(got)} in place of {shown(wanted)}")

    def skip(self, what: str, why: str) -> None:
        print(f"skipped: {what}, since {why}")

    def csn_cli(self, words: list[str], lines: list[str]) -> list[str]:
        """What the program answers."""
        text = "".join(line + "\n" for line in lines)
        ran = subprocess.run([self.program, *words], input=text, stdout=subprocess.PIPE, text=True, check=False)
        return ran.stdout.splitlines()

    def tool(self, name: str, *words: object, given: bytes = b"") -> tuple[int, str, str]:
        """Status, output and standard error of a tool."""
        ran = subprocess.run([sys.executable, str(TOOLS / name), *map(str, words)], input=given, capture_output=True,
                             check=False, timeout=600)
        return ran.returncode, ran.stdout.decode(errors="backslashreplace"), ran.stderr.decode()


def shown(value: object) -> str:
    text = repr(value)
    return text if len(text) <= 400 else f"{text[:200]} .. {text[-200:]}"
