"""The pages of the repository, and the commands that stand in them.

A command is a line that begins with `$ ` in an indented block. Where it ends with a backslash or a `|`, it goes on in the
next line. The lines below it, up to the next command, are what it prints:

    $ printf 'A5\\nB5\\n' | csn_cli show data/F M received
    ok [<A>=3'5 . <B>=4'5]
    no 3 bit
    status 1

A line that begins with a space goes on the one before it. Where the last line ends with `..`, more may be printed. `status N`,
which may be left out, is the exit status.
"""
import re
from dataclasses import dataclass
from pathlib import Path

ROOT = Path(__file__).resolve().parent.parent


@dataclass
class Example:
    """A command of a page, by the number of its line, with what it prints."""
    line: int
    command: str
    printed: str = ""
    status: int | None = None

    def fault(self, printed, status):
        """What differs from what a run printed, and from its status; or nothing."""
        got, wanted = (text.replace("\n ", " ") for text in (printed, self.printed))
        if wanted.endswith("..\n"):
            wanted = wanted[:-3].rstrip("\n")
            got = got[:len(wanted)]
        if got != wanted:
            return f"printed {printed!r} in place of {wanted!r}"
        if self.status not in (None, status):
            return f"status {status} in place of {self.status}"
        return ""


def pages():
    """The files of the pages."""
    found = [ROOT / "README.md", ROOT / "CONTRIBUTING.md", *sorted((ROOT / "docs").glob("*.md"))]
    for folders in ("docs/examples", "*", "bindings/*"):
        found += sorted(ROOT.glob(f"{folders}/README.md"))
    return found


def examples(document):
    """The commands of a page, or of a text that has nothing else, whose lines are not indented."""
    indent = "    " if document.suffix == ".md" else ""
    found = []
    inside = goes_on = False
    for number, line in enumerate(document.read_text().split("\n"), 1):
        code = line.removeprefix(indent) if line.startswith(indent) else ""
        inside = code != "" and (inside or code.startswith("$ "))
        if inside and goes_on:
            found[-1].command += "\n" + code
        elif inside and code.startswith("$ "):
            found.append(Example(number, code[2:]))
        elif inside and re.fullmatch(r"status \d", code):
            found[-1].status = int(code[-1])
        elif inside:
            found[-1].printed += code + "\n"
        goes_on = inside and code.endswith(("\\", "|")) and (goes_on or code.startswith("$ "))
    return found


def words_in_text(document):
    """The commands in the text of a page: what stands between backquotes, with the number of its line."""
    for number, line in enumerate(document.read_text().split("\n"), 1):
        if not line.startswith("    "):
            for words in re.findall("`([^`]+)`", line):
                yield number, words
