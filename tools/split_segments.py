#!/usr/bin/env python3
"""Splits the blocks of one downlink into parts that runs of `segments` answer apart.

usage: split_segments.py [--octets N] FOLDER < LINES

Each part begins with the first segments that wait behind the part before, since `segments` forgets them at the end
of a run. Their answers stand in the part before already, so a row is printed for each part: its file, a space, and
the number of the first line of its output that counts. An empty line is left out. A part has at most N octets, 8 MiB
where that is left out.
"""
from __future__ import annotations

import argparse
import sys
from pathlib import Path
from typing import Iterable, Iterator

from answers import Waiting


def parts(lines: Iterable[str], octets: int) -> Iterator[tuple[list[str], int]]:
    """The lines of each part, and how many of them stood in a part before."""
    waiting = Waiting()
    part: list[str] = []
    again = used = 0
    for line in filter(None, (line.removesuffix("\n").removesuffix("\r") for line in lines)):
        if used + len(line) >= octets and len(part) > again:
            yield part, again
            part = list(waiting.lines.values())
            again, used = len(part), sum(map(len, part)) + len(part)
        part.append(line)
        used += len(line) + 1
        waiting.see(line)
    if len(part) > again:
        yield part, again


def main() -> int:
    parser = argparse.ArgumentParser(description=__doc__, formatter_class=argparse.RawDescriptionHelpFormatter)
    parser.add_argument("--octets", type=int, default=8 << 20)
    parser.add_argument("folder", type=Path)
    options = parser.parse_args()
    sys.stdin.reconfigure(encoding="latin-1", newline="\n")
    try:
        options.folder.mkdir(parents=True, exist_ok=True)
        for number, (part, again) in enumerate(parts(sys.stdin, options.octets)):
            file = options.folder / f"{number:04}"
            file.write_bytes(("\n".join(part) + "\n").encode("latin-1"))
            print(file, again + 1, flush=True)
    except OSError as fault:
        print(f"split_segments.py: {fault}", file=sys.stderr)
        return 2
    return 0


if __name__ == "__main__":
    sys.exit(main())
