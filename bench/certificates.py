#!/usr/bin/env python3
"""Times `certificate` and `verify` of a program, and prints a table.

usage: bench/certificates.py [--beside OTHER] [PROGRAM]

PROGRAM is crates/csn_cli/out/csn_cli where it is left out. OTHER answers the same commands without proofs. The least
processor time of five runs counts; the certificates that no certifier makes are each checked once.
"""
import argparse
import itertools
import os
import subprocess
import tempfile
from pathlib import Path

from descriptions import doubling

ROOT = Path(__file__).resolve().parent.parent
RUNS = 5
SEQUENCE = "<M> ::= <A : bit (11)> <B : bit (12)> ;"


def run(command):
    """What a command prints, and its processor time in seconds."""
    with subprocess.Popen(command, stdin=subprocess.DEVNULL, stdout=subprocess.PIPE) as child:
        text = child.stdout.read()
        _, _, used = os.wait4(child.pid, 0)
        child.returncode = 0
    return text, used.ru_utime + used.ru_stime


def least(command):
    return min(run(command)[1] for _ in range(RUNS))


def patterns(length, count, end):
    """So many patterns of a length, in the order of their texts."""
    marks = itertools.product("01x", repeat=length)
    return ["".join(word) + end for word in itertools.islice(marks, count)]


def with_patterns(certificate, line, keys):
    """The certificate with other patterns at a position."""
    lines = certificate.split("\n")
    lines[line] = " ".join(lines[line].split(" ")[:4] + [",".join(sorted(keys))])
    return "\n".join(lines)


def hostile(certificate):
    """Titles, and certificates of the sequence with many patterns. The lines 2, 4 and 6 are the positions of the sequence,
    of its first part and of the field in this; line 8 is that of the second part."""
    for first, second in [(1000, 1000), (2000, 2000), (4000, 4000), (20, 1_062_882)]:
        text = with_patterns(certificate, 4, patterns(11, first, "!"))
        keys = patterns(12, second, "!") + patterns(12, max(second - 3**12, 0), "+")
        yield f"{first:,} before {second:,}", with_patterns(text, 8, keys)
    for count in (1000, 2000, 4000):
        keys = patterns(11, count - 1, "!") + ["x" * 11 + "!"]
        text = with_patterns(certificate, 4, keys)
        yield f"{count:,} that {count:,} cover", with_patterns(text, 6, keys)


def main():
    parser = argparse.ArgumentParser()
    parser.add_argument("program", nargs="?", default=str(ROOT / "crates/csn_cli/out/csn_cli"))
    parser.add_argument("--beside")
    args = parser.parse_intermixed_args()
    programs = [args.program] + ([args.beside] if args.beside else [])
    with tempfile.TemporaryDirectory() as name:
        folder = Path(name)
        doubled, sequence, certificate = (str(folder / file) for file in ("doubled", "sequence", "certificate"))
        Path(doubled).write_text(doubling())
        Path(sequence).write_text(SEQUENCE)
        made = [doubled, "D13", "sent"]
        Path(certificate).write_bytes(run([args.program, "certificate", *made])[0])
        for words in (["certificate", *made], ["verify", *made, certificate]):
            times = [least([program, *words]) for program in programs]
            ratio = f" | {times[0] / times[1]:.1f}" if args.beside else ""
            print(f"| `{words[0]}` | " + " | ".join(f"{1000 * took:.1f} ms" for took in times) + ratio + " |", flush=True)
        small = run([args.program, "certificate", sequence, "M", "sent"])[0].decode()
        for title, text in hostile(small):
            Path(certificate).write_text(text)
            answer, took = run([args.program, "verify", sequence, "M", "sent", certificate])
            print(f"| {title} | {len(text):,} | {answer.decode().strip()} | {took:.2f} s |", flush=True)


main()
