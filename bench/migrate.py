#!/usr/bin/env python3
"""Times `migrate` of the built program, and prints the table of docs/BENCH.md.

usage: bench/migrate.py [PROGRAM]

PROGRAM is crates/csn_cli/out/csn_cli where it is left out. Each time is the least of five runs, and it
holds the start of the process.
"""
import subprocess
import sys
import time
from pathlib import Path

RUNS = 5
LEAVES = 100_000
BITS = 524_288


def row():
    """The old text of a row of many labelled leaves."""
    return b"[" + b" ".join([b"<A>=8'165"] * LEAVES) + b"]\n"


def leaf():
    """The old text of the longest leaf."""
    return b"b" + b"10" * (BITS // 2) + b"\n"


def seconds(program, text):
    best = None
    for _ in range(RUNS):
        start = time.perf_counter()
        done = subprocess.run([program, "migrate"], input=text, stdout=subprocess.DEVNULL, check=False)
        took = time.perf_counter() - start
        if done.returncode != 0:
            sys.exit(f"the program ended with status {done.returncode}")
        best = took if best is None else min(best, took)
    return best


def main():
    program = Path(sys.argv[1] if len(sys.argv) > 1 else "crates/csn_cli/out/csn_cli").resolve()
    print("| Lines | Bytes | Time | Bytes a second |")
    print("|---|---|---|---|")
    for title, make in [(f"a row of {LEAVES:,} leaves", row), (f"a leaf of {BITS:,} bits", leaf)]:
        for count in (1, 4, 16):
            text = make() * count
            took = seconds(program, text)
            print(f"| {count} × {title} | {len(text):,} | {1000 * took:.0f} ms | {len(text) / took / 1e6:.0f} MB |")


main()
