#!/usr/bin/env python3
"""Times the library from C, Python and Rust beside the built program, and prints the table of docs/BENCH.md.

usage: bench/library.py [--archive PATH] [--bin PATH] [--count N] [--seed S]

The archive is crates/csn_c/out/libcsn_c.a and the program crates/csn_cli/out/csn_cli where they are left out. Of two
entries of the catalogue 2,000 blocks of 22 octets are made of a sample with bits turned, those that the program can
read. Each row is blocks a second, the best of five runs over N blocks; that of the program holds its start. A line tells
how often judge, tell and show of C ask for memory behind the first block, and then as all blocks come again.
"""
import argparse
import os
import random
import subprocess
import sys
import tempfile
import time
from pathlib import Path

ROOT = Path(__file__).resolve().parent.parent
C = ROOT / "bindings" / "c"
ENTRIES = {"downlink": "Downlink Control Block", "uplink": "Uplink Control Block"}
CALLS = ("judge", "pieces", "tell", "show", "json", "write")
COMMANDS = {"show": "show", "json": "json", "write": "write"}
BLOCKS = 2000
RUNS = 5
MOST_INPUT = 16_777_216


def lines(words, given, **more):
    ran = subprocess.run([str(word) for word in words], input=given, stdout=subprocess.PIPE, text=True, check=False,
                         env={**os.environ, **more})
    return ran.stdout.splitlines()


def made_blocks(program, catalogue, name, sample, rng):
    """Blocks of the rule, as lines of digits."""
    found = []
    while len(found) < BLOCKS:
        tries = []
        for _ in range(4 * BLOCKS):
            octets = bytearray.fromhex(sample)
            for _ in range(rng.randint(0, 12)):
                at = rng.randrange(8 * len(octets))
                octets[at // 8] ^= 0x80 >> at % 8
            tries.append(octets.hex().upper())
        answers = lines([program, "show", catalogue, name, "received"], "\n".join(tries) + "\n")
        found += [block for block, answer in zip(tries, answers) if answer.startswith("ok ")]
    return found[:BLOCKS]


def best(call, count):
    most = 0.0
    for _ in range(RUNS):
        start = time.perf_counter()
        call()
        most = max(most, count / (time.perf_counter() - start))
    return most


def by_program(program, catalogue, name, blocks, count):
    """Rates of the program, which is given as many lines, or as many as an input may have."""
    trees = [answer[3:] for answer in lines([program, "show", catalogue, name, "received"], "\n".join(blocks) + "\n")]
    told = {}
    for call, command in COMMANDS.items():
        given = trees if call == "write" else blocks
        many = min(count, MOST_INPUT // (1 + max(map(len, given))))
        text = "".join(f"{given[i % len(given)]}\n" for i in range(many)).encode()
        words = [program, command, catalogue, name, "received"]
        told[call] = best(lambda: subprocess.run(words, input=text, stdout=subprocess.DEVNULL, check=True), many)
    return told


def by_python(catalogue, name, blocks, count):
    import nambroit
    rule = nambroit.Description(catalogue.read_bytes(), name)
    given = [bytes.fromhex(block) for block in blocks]
    trees = [rule.show(octets) for octets in given]
    stream = nambroit.Stream(catalogue.read_bytes(), name)

    def in_pieces(octets):
        stream.push(octets[:len(octets) // 2])
        stream.push(octets[len(octets) // 2:])
        stream.end()

    calls = {"judge": (rule.judge, given), "pieces": (in_pieces, given), "tell": (rule.fields, given), "show": (rule.show, given),
             "json": (lambda octets: rule.show(octets, form="json"), given), "write": (rule.write, trees)}

    def turn(call, values):
        for i in range(count):
            call(values[i % len(values)])

    return {what: best(lambda: turn(call, values), count) for what, (call, values) in calls.items()}


def by_speed(words, catalogue, name, blocks, count, **more):
    told = lines([*words, catalogue, name, "received", count], "\n".join(blocks) + "\n", **more)
    return {call: float(rate) for call, rate in (line.split() for line in told)}


def row(what, rates):
    return f"| {what} | " + " | ".join(f"{rates[call]:,.0f}" if call in rates else "" for call in CALLS) + " |"


def main():
    parser = argparse.ArgumentParser(description=__doc__, formatter_class=argparse.RawDescriptionHelpFormatter)
    parser.add_argument("--archive", type=Path, default=ROOT / "crates/csn_c/out/libcsn_c.a")
    parser.add_argument("--bin", type=Path, default=ROOT / "crates/csn_cli/out/csn_cli")
    parser.add_argument("--count", type=int, default=200_000)
    parser.add_argument("--seed", type=int, default=1)
    options = parser.parse_args()
    rng, archive, program = random.Random(options.seed), options.archive.resolve(), options.bin.resolve()
    with tempfile.TemporaryDirectory() as folder:
        room = Path(folder)
        catalogue = room / "catalogue.csn1"
        with catalogue.open("wb") as out:
            subprocess.run([sys.executable, ROOT / "bench/catalogue.py"], stdout=out, check=True)
        heap = C / "heap.c"
        subprocess.run(["gcc", "-O2", "-std=c11", "-I", C, C / "tests/speed.c", C / "tests/common.c", archive,
                        "-o", room / "speed"], check=True)
        subprocess.run(["gcc", "-shared", "-fPIC", "-I", C, "-o", room / "libcsn.so", "-Wl,--whole-archive", archive,
                        "-Wl,--no-whole-archive", heap, f"-Wl,--version-script={C / 'csn.map'}"], check=True)
        os.environ["NAMBROIT_LIBRARY"] = str(room / "libcsn.so")
        sys.dont_write_bytecode = True
        sys.path.insert(0, str(ROOT / "bindings" / "python"))
        in_rust = ["cargo", "run", "-q", "--release", "--offline", "--manifest-path", ROOT / "bindings/rust/Cargo.toml",
                   "--example", "speed", "--"]
        where = {"NAMBROIT_ARCHIVE": str(archive.parent), "CARGO_TARGET_DIR": str(room / "rust")}
        for word, name in ENTRIES.items():
            sample = (ROOT / "docs" / "examples" / f"{word}.blocks").read_text().split()[0]
            blocks = made_blocks(program, catalogue, name, sample, rng)
            print(f"| {word}, blocks a second | " + " | ".join(CALLS) + " |\n|---" + "|---" * len(CALLS) + "|")
            print(row("csn_cli", by_program(program, catalogue, name, blocks, options.count)), flush=True)
            in_c = by_speed([room / "speed"], catalogue, name, blocks, options.count)
            print(row("C", in_c), flush=True)
            print(row("Rust", by_speed(in_rust, catalogue, name, blocks, options.count, **where)), flush=True)
            print(row("Python", by_python(catalogue, name, blocks, options.count // 10)), flush=True)
            print(f"memory asked for in C: {in_c['taken']:.0f} times behind the first block, then {in_c['again']:.0f}", flush=True)


if __name__ == "__main__":
    main()
