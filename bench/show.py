#!/usr/bin/env python3
"""Times `show` of the built program, and prints the table of docs/BENCH.md.

usage: bench/show.py [PROGRAM]

PROGRAM is crates/csn_cli/out/csn_cli where it is left out. Each time is the least of five runs, and it
holds the start of the process.
"""
import subprocess
import sys
import tempfile
import time
from pathlib import Path

KIB = 1024
RUNS = 5


def rules(size):
    """As many short rules as the size has room for."""
    text = "<M> ::= 0 ;\n"
    number = 0
    while True:
        rule = f"<R{number}> ::= <A : bit (3)> {{ 0 | 1 <B : bit (4)> }} ;\n"
        if len(text) + len(rule) > size:
            return text
        text += rule
        number += 1


def deep(size):
    """One rule of parts that are each 64 braces deep."""
    part = "{" * 64 + "0" + "}" * 64 + " "
    return "<M> ::= " + part * ((size - 12) // len(part)) + ";"


def sequence(size):
    """One rule that is one long sequence."""
    part = "<A : bit (3)> 0 "
    return "<M> ::= " + part * ((size - 12) // len(part)) + ";"


def seconds(program, folder, text, blocks):
    (folder / "F").write_text(text)
    best = None
    for _ in range(RUNS):
        start = time.perf_counter()
        subprocess.run([program, "show", "F", "M", "received"], cwd=folder, input=blocks,
                       stdout=subprocess.DEVNULL, check=False)
        took = time.perf_counter() - start
        best = took if best is None else min(best, took)
    return best


def main():
    program = Path(sys.argv[1] if len(sys.argv) > 1 else "crates/csn_cli/out/csn_cli").resolve()
    with tempfile.TemporaryDirectory() as name:
        folder = Path(name)
        print("| Description | 64 KiB | 128 KiB | 256 KiB |")
        print("|---|---|---|---|")
        for title, make in [("many rules", rules), ("one deep rule", deep), ("one long sequence", sequence)]:
            cells = [f"{1000 * seconds(program, folder, make(n * KIB), b''):.1f} ms" for n in (64, 128, 256)]
            print(f"| {title} | " + " | ".join(cells) + " |")
        print()
        print("| Blocks of one octet | Time |")
        print("|---|---|")
        fields = "<M> ::= <A : bit (3)> 0 <B : bit (4)> ;"
        for count in (250_000, 500_000, 1_000_000):
            took = seconds(program, folder, fields, b"A5\n" * count)
            print(f"| {count:,} | {1000 * took:.0f} ms |")


main()
