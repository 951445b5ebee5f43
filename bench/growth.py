#!/usr/bin/env python3
"""Runs small inputs that could take the machine, and tells time and peak memory of each.

usage: bench/growth.py [--only WORD] [--beside OTHER] [PROGRAM]
       bench/growth.py --random COUNT [--seed S] [--only COMMAND] [PROGRAM]

PROGRAM is crates/csn_cli/out/csn_cli where it is left out. OTHER answers the same commands without proofs. A row is a run
whose work, or whose memory, once grew far beyond its input. Each has its limit in seconds of processor time; with OTHER
beside, eight times the time of OTHER is the limit, and a tenth of a second is always allowed. Of memory a row may take
64 MiB, and eight times the bytes that it reads and writes. A row past its limit, or with another answer than the one
that it should have, is told, and the script ends with status 1.

With --random so many inputs of each command are made from the seed and the number of the input: descriptions and
certificates that repeat what they have, the one in the other. The longest and the largest run of each command is told,
with the number of its input; a run past 10 seconds, or past 512 MiB and the bytes that it reads and writes, is told as
wrong.
"""
import argparse
import filecmp
import itertools
import os
import random
import shutil
import subprocess
import sys
import tempfile
from dataclasses import dataclass
from pathlib import Path

ROOT = Path(__file__).resolve().parent.parent
MIB = 1 << 20
BESIDE = 8
LEAST = 0.1
MOST_SECONDS = 10
MOST_MEMORY = 512 * MIB
DESCRIPTION = 262_144

TURNS = "<M> ::= { 1 { { 0 | 1 } * 12 } * %d } ** 0 ;"
TWO_RUNS = "<M> ::= { 0 | 1 } * 12 { 0 | 1 } * 12 ;"
BITS = "<M> ::= { bit } * 99 ;"
TWO_ALTERNATIVES = "<M> ::= { 0 <A : bit (11)> | 1 <B : bit (11)> } ;"
CHOICES = "<M> ::= " + "{ 0 | 1 } " * 1500 + ";"
ONE_BIT = "<M> ::= bit ;"
PATTERNS = 40_000
FOLLOW = "1" * 24


@dataclass
class Row:
    title: str
    command: str
    description: str
    seconds: float
    certificate: str | Path = ""
    given: bytes = b""
    answer: str = ""

    def words(self, folder):
        """The words of the run, whose files stand in the folder."""
        (folder / "description").write_text(self.description)
        (folder / "input").write_bytes(self.given)
        if isinstance(self.certificate, Path):
            shutil.copy(self.certificate, folder / "certificate")
        else:
            (folder / "certificate").write_text(self.certificate)
        files = [str(folder / "description")] * (2 if self.command == "compat" else 1)
        return [self.command, *files, "M", "received"] + ([str(folder / "certificate")] if self.certificate else [])


@dataclass
class Run:
    output: Path
    size: int
    seconds: float
    memory: int

    def starts(self):
        with open(self.output, "rb") as it:
            return it.read(100).decode()


def run(command, given, output):
    """What a command writes into a file, its processor time, and the most memory that it had at once. This script keeps
    no long text, since a child begins with the memory of its parent."""
    with open(given, "rb") as source, open(output, "wb") as text:
        with subprocess.Popen(command, stdin=source, stdout=text) as child:
            _, _, used = os.wait4(child.pid, 0)
            child.returncode = 0
    return Run(output, os.path.getsize(output), used.ru_utime + used.ru_stime, used.ru_maxrss * 1024)


def written_certificate(program, folder, description):
    """The file of the certificate that the program writes of a description."""
    file = folder / "certified"
    file.write_text(description)
    return run([program, "certificate", str(file), "M", "received"], "/dev/null", folder / "written").output


def certificate_of(program, folder, description):
    """The certificate that the program writes of a description."""
    return written_certificate(program, folder, description).read_text()


def claims(node, patterns):
    """Lines of a certificate that claim patterns of a node at each octet position, and all else."""
    told = ",".join(sorted(patterns))
    return f"node {node} 1 {FOLLOW}\n" + "".join(f"at {octet} 11111111 11 {told}\n" for octet in range(8))


def all_words(most):
    """The patterns of up to so many marks."""
    return ["".join(marks) + "!" if marks else "e!" for size in range(most + 1) for marks in itertools.product("01x", repeat=size)]


def any_bits():
    """A certificate by which up to twelve bits come from a part that is claimed to begin at each octet position, and to be
    empty: so each pattern of up to twelve marks is made there."""
    return f"csn-cert 2\nnode 0 1 {FOLLOW}\nat 0 11111111 11 e!\n" + claims(1, all_words(1))


def covered_bits(most):
    """The same from a part that is claimed to have all patterns of up to so many marks, where each that is made is covered."""
    wide = [("x" * size or "e") + "!" for size in range(13)] + ["x" * 12 + "+"]
    return "csn-cert 2\n" + claims(0, wide) + claims(1, all_words(most))


def begun_by(bit, count):
    """So many patterns of twelve marks that begin with a bit, in the order of their texts; the last one covers them."""
    marks = itertools.islice(itertools.product("01x", repeat=11), count - 1)
    return [bit + "".join(word) + "!" for word in marks] + [bit + "x" * 11 + "!"]


def many_patterns(certificate):
    """The certificate of the two alternatives, each of which is claimed to have many patterns."""
    lines = certificate.split("\n")
    for node, bit in ((1, "0"), (5, "1")):
        at = next(k for k, line in enumerate(lines) if line.startswith(f"node {node} ")) + 1
        lines[at] = " ".join(lines[at].split(" ")[:4] + [",".join(begun_by(bit, PATTERNS))])
    return "\n".join(lines)


def doubled(expression, times):
    """A rule that has an expression two to so many times."""
    rules = "".join(f"<A{k}> ::= <A{k - 1}> <A{k - 1}> ;\n" for k in range(times, 0, -1))
    return f"<M> ::= <A{times}> ;\n{rules}<A0> ::= {expression} ;\n"


def certificates(program, folder):
    """Descriptions whose certificates are written, and certificates that are checked."""
    yield Row("turns of blocks of 12 bits", "certificate", TURNS % 13, 0.5)
    yield Row("two runs of 12 bits", "certificate", TWO_RUNS, 0.5)
    yield Row("1,500 choices in a row", "certificate", CHOICES, 2)
    turns = certificate_of(program, folder, TURNS % 65536)
    yield Row("65,536 turns of such blocks", "verify", TURNS % 65536, 0.5, turns, answer="verified 10\n")
    choices = certificate_of(program, folder, CHOICES)
    yield Row("1,500 choices in a row", "verify", CHOICES, 3, choices, answer="verified 4501\n")
    yield Row("any bits at eight places", "verify", BITS, 5, any_bits(), answer="unproved 5 0\n")
    yield Row("the same, all covered", "verify", BITS, 10, covered_bits(1), answer="unproved 8 0\n")
    yield Row("words of up to three bits, all covered", "verify", BITS, 10, covered_bits(3), answer="unproved 8 0\n")
    alternatives = many_patterns(certificate_of(program, folder, TWO_ALTERNATIVES))
    title = f"two alternatives, {PATTERNS:,} patterns each"
    yield Row(title, "verify", TWO_ALTERNATIVES, 0.5, alternatives, answer="verified 9\n")


def rows(program, folder):
    yield from certificates(program, folder)
    title = "a label of 250,000 bytes 4,096 times"
    label = doubled("<" + "a" * 250_000 + " : bit>", 12)
    yield Row(title, "check", label, 0.5, answer="certified 12287\n")
    yield Row(title, "show", label, 0.5, given=b"00\n", answer="no 8 ended\n")
    yield Row(title, "json", label, 0.5, given=b"00\n", answer="no 8 ended\n")
    literal = doubled("01" * 125_000, 13)
    yield Row("a literal of 250,000 symbols 8,192 times", "compat", literal, 5, answer="ok compat\n")
    line = b"[" + b'{"":0},' * 2_396_744 + b"0]"
    yield Row("a line of 16 MiB of small objects", "unjson", ONE_BIT, 2, given=line, answer="bad 2\n")


def faults(row, read, own, other):
    """What is wrong with a run, beside another one where there is one."""
    told = []
    if row.answer and own.starts() != row.answer:
        told.append(f"it wrote {own.starts()!r}")
    if other and not filecmp.cmp(own.output, other.output, shallow=False):
        told.append("the outputs differ")
    seconds = max(BESIDE * other.seconds, LEAST) if other else row.seconds
    if own.seconds > seconds:
        told.append(f"it took more than {seconds:.2f} s")
    memory = 64 * MIB + 8 * (read + own.size)
    if own.memory > memory:
        told.append(f"it took more than {memory / MIB:.0f} MiB")
    return told


def run_row(program, row, folder, output="output"):
    return run([program, *row.words(folder)], folder / "input", folder / output)


def run_rows(program, beside, only, folder):
    """Runs the rows: how many things were wrong."""
    wrong = 0
    for row in rows(program, folder):
        if only not in row.title and only not in row.command:
            continue
        own = run_row(program, row, folder)
        other = run_row(beside, row, folder, "other") if beside else None
        ratio = f" | {other.seconds:.2f} s | {own.seconds / max(other.seconds, 0.001):.1f}" if other else ""
        print(f"| `{row.command}`, {row.title} | {own.seconds:.2f} s | {own.memory / MIB:.0f} MiB{ratio} |", flush=True)
        read = sum(os.path.getsize(folder / name) for name in ("description", "certificate", "input"))
        for fault in faults(row, read, own, other):
            wrong += 1
            print(f"  {fault}", flush=True)
    print(f"{wrong} past a limit or with another answer")
    return wrong


# ---- inputs made at random

COMMANDS = ["check", "certificate", "verify", "compat", "show", "unjson"]


def part(source, depth):
    """A part that is there many times, or has many alternatives, where there is room."""
    inner = "bit" if depth == 0 else part(source, depth - 1)
    few = source.choice([1, 2, 3, 5, 8, 12, 13])
    match source.randrange(9):
        case 0:
            return f"{{ {inner} }} * {source.choice([few, 99, 4096, 65536])}"
        case 1:
            return f"{{ 0 {inner} | 1 }} * {few}"
        case 2:
            return "{ " + " | ".join(f"{word:0{few}b} {inner if word == 0 else ''}" for word in range(min(1 << few, 64))) + " }"
        case 3:
            return f"{inner} {{ 0 | 1 {inner} }}"
        case 4:
            return f"{{ 1 {inner} }} ** 0"
        case 5:
            return f"<{'a' * source.choice([1, 100, 4000])} : {inner}>"
        case 6:
            return "01LH"[source.randrange(4)] * source.choice([1, 13, 5000])
        case 7:
            return f"bit ({few}) {inner}"
        case _:
            return f"{{ {inner} }} // {{ null | {inner} }}"


def repeated(source):
    """A description of parts, some of which stand in it again and again."""
    text = doubled(part(source, source.randrange(5)), source.randrange(13))
    return text if len(text) <= DESCRIPTION else doubled("bit", 3)


def repeated_claims(source, certificate):
    """A certificate whose nodes have many patterns more, at octet positions more."""
    with open(certificate) as it:
        first = it.readline().split(" ")
    if first[0] != "csn-cert":
        return covered_bits(source.randrange(1, 4))
    count = int(first[1])
    if source.randrange(3) == 0:
        return certificate
    told = [f"csn-cert {count}\n"]
    choices = [["e!"], all_words(1), all_words(2), all_words(3), begun_by("0", 300), ["x" * 12 + "+", "x!"], covering()]
    for node in range(count):
        told.append(claims(node, source.choice(choices)))
        if sum(map(len, told)) > MIB:
            return covered_bits(2)
    return "".join(told)


def covering():
    return [("x" * size or "e") + "!" for size in range(13)] + [("x" * size or "e") + "+" for size in range(13)]


def input_of(source, command):
    """A line that repeats what it has."""
    if command == "show":
        return source.choice([b"00", b"A5", b"FF" * 60000, b"2B" * 23]) + b"\n"
    piece = source.choice([b"[", b'{"label":"a","tree":', b'"0",', b'{"":0},', b"7,", b'"\\u0030",', b"[],", b'{"alt":1,"tree":null},'])
    return b"[" + piece * source.choice([10, 60, 1000, 2_000_000 // len(piece)]) + b"0]\n"


def random_row(program, folder, command, seed, number):
    """The input of a command with this seed and number."""
    source = random.Random(f"{seed} {command} {number}")
    description = repeated(source)
    row = Row(f"input {number}", command, description, MOST_SECONDS)
    if command == "verify":
        row.certificate = repeated_claims(source, written_certificate(program, folder, description))
    if command in ("show", "unjson"):
        row.given = input_of(source, command)
    return row


def run_random(program, count, seed, only, folder):
    """Runs inputs made at random: how many went past what is allowed."""
    wrong = 0
    for command in COMMANDS:
        if only not in command:
            continue
        longest = largest = (0, 0)
        for number in range(count):
            row = random_row(program, folder, command, seed, number)
            own = run_row(program, row, folder)
            longest = max(longest, (own.seconds, number))
            largest = max(largest, (own.memory / MIB, number))
            if own.seconds > MOST_SECONDS or own.memory > MOST_MEMORY + own.size:
                wrong += 1
                print(f"  `{command}`, input {number}: {own.seconds:.2f} s, {own.memory / MIB:.0f} MiB", flush=True)
        print(f"| `{command}` | {longest[0]:.2f} s, input {longest[1]} | {largest[0]:.0f} MiB, input {largest[1]} |", flush=True)
    print(f"seed {seed}: {count} inputs of each command, {wrong} past {MOST_SECONDS} s or {MOST_MEMORY // MIB} MiB")
    return wrong


def main():
    parser = argparse.ArgumentParser()
    parser.add_argument("program", nargs="?", default=str(ROOT / "crates/csn_cli/out/csn_cli"))
    parser.add_argument("--beside")
    parser.add_argument("--only", default="")
    parser.add_argument("--random", type=int, default=0)
    parser.add_argument("--seed", type=int, default=1)
    args = parser.parse_intermixed_args()
    with tempfile.TemporaryDirectory() as name:
        folder = Path(name)
        if args.random:
            wrong = run_random(args.program, args.random, args.seed, args.only, folder)
        else:
            wrong = run_rows(args.program, args.beside, args.only, folder)
    return 1 if wrong else 0


if __name__ == "__main__":
    sys.exit(main())
