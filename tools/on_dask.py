#!/usr/bin/env python3
"""Answers files of `replay` lines on the workers of a dask.distributed cluster, and sums their counts.

usage: on_dask.py [--bin PATH] SCHEDULER READING FILE..

SCHEDULER is an address as tcp://10.0.0.1:8786. The answers stand beside each file, as FILE.answers, and the sums of
the counts are printed. The workers see the files and the program at the same paths. A file whose worker is lost is
answered by another one.
"""
from __future__ import annotations

import argparse
import os
import subprocess
import sys
from collections import Counter
from pathlib import Path

from distributed import Client
from distributed.scheduler import KilledWorker

PROGRAM = Path(__file__).resolve().parent.parent / "crates/csn_cli/out/csn_cli"
COUNTS = 9                     # lines, at the end of what a run prints


def answer(program: str, reading: str, file: str) -> dict[str, int]:
    """Answers a file, and gives its counts. Its answers are there whole, or not at all."""
    with open(file, "rb") as lines:
        ran = subprocess.run([program, "replay", reading], stdin=lines, stdout=subprocess.PIPE, check=False)
    if ran.returncode not in (0, 1):
        raise OSError(f"{file}: {program} ended with status {ran.returncode}")
    told = ran.stdout.decode().splitlines(keepends=True)
    unfinished = Path(f"{file}.{os.getpid()}.unfinished")
    unfinished.write_text("".join(told[:-COUNTS]))
    unfinished.replace(f"{file}.answers")
    counts = (line.rpartition(" ") for line in told[-COUNTS:])
    return {name: int(count) for name, _, count in counts}


def summed(scheduler: str, program: str, reading: str, files: list[str]) -> Counter[str]:
    """Has the workers answer the files, and sums their counts."""
    sums: Counter[str] = Counter()
    with Client(scheduler) as client:
        many = len(files)
        for counts in client.gather(client.map(answer, [program] * many, [reading] * many, files)):
            sums.update(counts)
    return sums


def main() -> int:
    parser = argparse.ArgumentParser(description=__doc__, formatter_class=argparse.RawDescriptionHelpFormatter)
    parser.add_argument("--bin", metavar="PATH", default=str(PROGRAM))
    parser.add_argument("scheduler")
    parser.add_argument("reading", choices=["received", "sent"])
    parser.add_argument("files", nargs="+", metavar="FILE")
    options = parser.parse_args()
    try:
        files = [str(Path(file).resolve()) for file in options.files]
        sums = summed(options.scheduler, options.bin, options.reading, files)
    except (OSError, KilledWorker) as fault:
        print(f"on_dask.py: {fault}", file=sys.stderr)
        return 2
    for name, count in sums.items():
        print(name, count)
    return 0


if __name__ == "__main__":
    sys.exit(main())
