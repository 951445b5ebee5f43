#!/usr/bin/env python3
"""Times certifying, beside another program if there is one, and prints a table.

usage: bench/certify.py CATALOGUE [--beside OTHER] [PROGRAM]

CATALOGUE is a file with the catalogue's text, as bench/catalogue.py prints it. PROGRAM is the small program of
descriptions.py, which reads the rules of a file, resolves a name and certifies its description; where it is
left out it is built as there. OTHER does the same as `OTHER check FILE NAME received`. Each case is run by both
in turn, many times by a shell, so that the start of this script is not counted; the least processor time of a
run counts, and the most memory.
"""
import argparse
import os
import shutil
import subprocess
import tempfile
from pathlib import Path

from descriptions import alternatives, built, doubling

TURNS = 3
RUNS = 20
LOOP = 'n=$1; shift; while [ "$n" -gt 0 ]; do "$@" </dev/null >/dev/null; n=$((n-1)); done'
ROOTS = ["Uplink Control Block", "Downlink Control Block", "SI 1 Rest Octets", "SI 3 Rest Octets", "SI 4 Rest Octets",
         "SI 13 Rest Octets", "IA Rest Octets"]
CHOICE = "{ 0 <A : bit (2)> | 10 <B : bit> | 11 } "
BY_PLACE = "{ LL <A : bit (2)> | LH <B : bit> | H } "


def run(command):
    """The processor time of one of many runs, in seconds, and the most memory, in bytes, where it can be told."""
    command = ["sh", "-c", LOOP, "sh", str(RUNS)] + command
    timed = shutil.which("time")
    if timed:
        command = [timed, "-q", "-f", "%M"] + command
    with subprocess.Popen(command, stderr=subprocess.PIPE, stdout=subprocess.DEVNULL) as child:
        told = child.stderr.read()
        _, _, used = os.wait4(child.pid, 0)
        child.returncode = 0
    held = 1024 * int(told.split()[-1]) if timed else 1024 * used.ru_maxrss
    return (used.ru_utime + used.ru_stime) / RUNS, held


def measured(commands):
    """The least time and the most memory of each command."""
    turns = [[run(command) for command in commands] for _ in range(TURNS)]
    return [(min(took for took, _ in runs), max(held for _, held in runs)) for runs in zip(*turns)]


def wide(count):
    """So many words of 12 bits as alternatives, each with a field behind it."""
    return "<M> ::= { " + " | ".join(f"{word:012b} <A : bit (8)>" for word in range(count)) + " } ;"


def cases(folder, catalogue):
    """Titles, files and names."""
    def kept(name, text):
        path = folder / name
        path.write_text(text)
        return str(path)

    yield "doubling, 16,383 nodes", kept("doubling", doubling()), "D13"
    yield "1,500 choices", kept("choices", f"<M> ::= {CHOICE * 1500};"), "M"
    yield "1,500 choices of L and H", kept("by_place", f"<M> ::= {BY_PLACE * 1500};"), "M"
    yield "4,000 alternatives of 12 bits", kept("wide", wide(4000)), "M"
    yield "4,096 alternatives, and no more", kept("full", alternatives()), "M"
    for root in ROOTS:
        yield root, catalogue, root


def main():
    parser = argparse.ArgumentParser()
    parser.add_argument("catalogue")
    parser.add_argument("program", nargs="?")
    parser.add_argument("--beside")
    args = parser.parse_intermixed_args()
    with tempfile.TemporaryDirectory() as name:
        folder = Path(name)
        listed = list(cases(folder, str(Path(args.catalogue).resolve())))
        program = str(Path(args.program).resolve()) if args.program else str(built(folder / "copy", listed[0][1]))
        print("| Description | Certified | Memory | Beside | Memory | Ratio |")
        print("|---|---|---|---|---|---|")
        for title, file, root in listed:
            commands = [[program, "certify", file, root]]
            if args.beside:
                commands.append([str(Path(args.beside).resolve()), "check", file, root, "received"])
            told = measured(commands)
            row = " | ".join(f"{1000 * took:.2f} ms | {held / 1e6:.1f} MB" for took, held in told)
            ratio = f" | {told[0][0] / told[1][0]:.1f}" if args.beside else " | | |"
            print(f"| {title} | {row}{ratio} |", flush=True)


main()
