#!/usr/bin/env python3
"""Times the judging of blocks, beside another program if there is one, and prints the tables of docs/BENCH.md.

usage: bench/judge.py CATALOGUE [--beside OTHER] [PROGRAM]

CATALOGUE is a file with the catalogue's text, as bench/catalogue.py prints it. The program that is timed is
written here: it reads the rules of a file, certifies the description of a name, reads block lines, judges all
the blocks so many times, and prints how many there were, how many of them are strings and how many are not, and
their bits. Where PROGRAM is left out it is built with `rt run` in a copy of the repository, which proves what is
not proved yet. OTHER does about the same, and makes trees, as `OTHER soak ENTRY BLOCKS`; what both print is
compared. The blocks of an entry are its sample, where one field holds one number after another, and each
sixteenth is cut to its first bit. The least processor time of some runs counts.
"""
import argparse
import os
import subprocess
import sys
import tempfile
from pathlib import Path

from descriptions import program_of

RUNS = 5
# together a million blocks, the most that OTHER takes
LINES = 4000
TURNS = 250
# entry: its root, its sample, and the place and the width of the field that changes
ENTRIES = {
    "uplink": ("Uplink Control Block", "0400000003" + "2B" * 17, 6, 32),
    "downlink": ("Downlink Control Block", "10B00000006B" + "2B" * 16, 10, 32),
    "si1": ("SI 1 Rest Octets", "83", 1, 5),
    "si3": ("SI 3 Rest Octets", "2B" * 4, 6, 16),
    "si4": ("SI 4 Rest Octets", "2B" * 3, 3, 16),
    "si13": ("SI 13 Rest Octets", "900058406FA2A00F51" + "2B" * 11, 10, 8),
    "ia": ("IA Rest Octets", "D000000000" + "2B" * 6, 4, 32),
}
# descriptions for long blocks
LONG = {
    "fields of seven bits, behind a bit each": "<M> ::= { 1 <A : bit (7)> } ** 0 <spare padding> ;",
    "choices in octets": "<M> ::= { 1 { 0 <A : bit (6)> | 10 <B : bit (5)> | 11 <C : bit (5)> } } ** 0 <spare padding> ;",
    "windows in octets": "<M> ::= { 1 { bit (7) & { <A : bit (2)> { 0 | 1 <B : bit (2)> } <C : bit (**)> } } } ** 0 <spare padding> ;",
    "raw bits": "<M> ::= <A : bit (3)> <B : bit (**)> ;",
}
OCTETS = [16384, 32768, 65536]

CRATE = "bench_judge: csn_bits csn_desc csn_grammar csn_resolve csn_certify csn_judge"

MAIN = """//! Judges the blocks of an input by a named rule, some times over, to be timed.
#![tactic(auto)]

ghost use Rattle.std.specs.Prelude.{◌≡◌, ◌<◌};

use csn_bits::{Bits, MOST_LINE};
use csn_certify::{Plan, Steps, certify};
use csn_desc::Reading;
use csn_grammar::read_rules;
use csn_judge::{Judge, Judged};
use csn_resolve::resolve;
use std::alloc::Global;
use std::env;
use std::fs;
use std::io::Read;
use std::marker::Brand;
use std::process::ExitCode;
use std::sync::ledger::{Blank, Ledger};

/// What was judged.
#[derive(Clone, Copy, Default)]
struct Sums {
    blocks: u64,
    ok: u64,
    refused: u64,
    bits: u64,
}

/// The plan of a rule, as a sender may write it; none where it is refused.
fn plan_of(alloc: Global, text: &[u8], name: &[u8]) -> Option<Plan> {
    if text.len() > 262_144 {
        return None;
    }
    let Ok(rules) = read_rules(alloc, text) else {
        return None;
    };
    let Ok(desc) = resolve(alloc, &rules, name, Reading::Sent) else {
        return None;
    };
    certify(alloc, desc).ok()
}

/// The blocks of all lines; none where one is no block.
fn blocks_of(alloc: Global, input: &[u8]) -> Option<Vec<Bits>> {
    let mut blocks = Vec::new(alloc);
    for line in input.split(|byte| *byte == b'\\n') {
        if !line.is_empty() {
            if line.len() > MOST_LINE as usize {
                return None;
            }
            let Ok(block) = Bits::from_hex_line(alloc, line) else {
                return None;
            };
            if blocks.push(block).is_err() {
                return None;
            }
        }
    }
    Some(blocks)
}

/// Judges each block once.
fn judge_all<L: Ledger>(plan: &Plan, blocks: &[Bits], steps: &mut Steps<L>, sums: &mut Sums) {
    let mut judge = Judge::new(plan);
    for block in blocks {
        let _verdict = judge.feed(block.octets(), block.len(), steps);
        match judge.next_block(steps) {
            Judged::Ok => sums.ok = sums.ok.wrapping_add(1),
            Judged::Refused { .. } => sums.refused = sums.refused.wrapping_add(1),
        }
        sums.blocks = sums.blocks.wrapping_add(1);
        sums.bits = sums.bits.wrapping_add(block.len() as u64);
    }
}

/// Judges the blocks so many times.
fn judge_turns<L: Ledger>(plan: &Plan, blocks: &[Bits], turns: u32, blank: Blank) -> Sums
    requires name { blank.name ≡ L.name }
    requires parts { blank.parts ≡ L.parts }
    requires some { 0 < blank.parts }
{
    let mut steps = Steps::<L>::new(blank);
    let mut sums = Sums::default();
    for _turn in 0..turns {
        judge_all(plan, blocks, &mut steps, &mut sums);
    }
    sums
}

/// The same, by steps of its own.
fn judged(plan: &Plan, blocks: &[Bits], turns: u32) -> Sums {
    judge_turns::<Brand>(plan, blocks, turns, Blank::new(1))
}

fn main(rt: HostRuntime) -> ExitCode {
    let alloc = rt.alloc();
    let Ok(words) = env::args(&rt) else {
        return ExitCode::from(2);
    };
    let Ok(words) = words.collect::<Vec<String>>(alloc) else {
        return ExitCode::from(2);
    };
    let [_program, file, name, turns] = words.as_slice() else {
        return ExitCode::from(2);
    };
    let (Ok(text), Ok(turns)) = (fs::read_to_string(&rt, file.as_str()), turns.parse::<u32>()) else {
        return ExitCode::from(3);
    };
    let mut input = Vec::new(alloc);
    if rt.stdin().read_to_end(&mut input).is_err() {
        return ExitCode::from(5);
    }
    let Some(plan) = plan_of(alloc, text.as_bytes(), name.as_bytes()) else {
        return ExitCode::from(3);
    };
    let Some(blocks) = blocks_of(alloc, &input) else {
        return ExitCode::from(5);
    };
    let Sums {
        blocks,
        ok,
        refused,
        bits,
    } = judged(&plan, &blocks, turns);
    if println!(rt; "blocks {blocks} ok {ok} refused {refused} bits {bits}").is_err() {
        return ExitCode::from(4);
    }
    ExitCode::from(0)
}
"""

PICK = """use Rattle.bench_judge.proofs.judged.Given as goal

abbrev pub ghosts-judge_turns : goal.ghosts-judge_turns
ghosts-judge_turns a = record { name = a.blank.name; parts = a.blank.parts }
"""

SEEN = """use Rattle.std.proofs.Common.{◌≡◌}
use Rattle.bench_judge.proofs.judge_all.Given as goal

abbrev pub invariant-loop-block : goal.invariant-loop-block
invariant-loop-block g l = l.judge.seen ≡ 0
"""


def numbers():
    """One number after another, of 64 bits."""
    number = 1
    while True:
        number = (number * 6364136223846793005 + 1442695040888963407) % 2**64
        yield number


def entry_lines(sample, at, width):
    """Block lines of an entry."""
    bits = 4 * len(sample)
    shift = bits - at - width
    for count, number in zip(range(LINES), numbers()):
        field = number >> 64 - width
        block = int(sample, 16) & ~((2**width - 1) << shift) | field << shift
        if count % 16 == 15:
            yield ("80/1" if block >> bits - 1 else "00/1") + "\n"
        else:
            yield f"{block:0{len(sample)}X}\n"


def long_line(octets):
    """A block line of so many octets that each of the long descriptions takes."""
    begun = b"".join(number.to_bytes(8, "big") for _, number in zip(range(octets // 8), numbers()))
    return bytes(octet | 0x80 for octet in begun[:-1]).hex().upper() + "2B\n"


def run(command, path):
    """The processor time of a run, in seconds, and what it printed."""
    with open(path, "rb") as source, subprocess.Popen(command, stdin=source, stdout=subprocess.PIPE, text=True) as child:
        printed = child.stdout.read()
        _, status, used = os.wait4(child.pid, 0)
        child.returncode = os.waitstatus_to_exitcode(status)
    if child.returncode != 0:
        sys.exit(f"{command[0]} ended with status {child.returncode}")
    return used.ru_utime + used.ru_stime, printed


def least(commands, path):
    """The least time of some runs of each command, where all print the same."""
    runs = [[run(command, path) for command in commands] for _ in range(RUNS)]
    if len({printed for turn in runs for _, printed in turn}) > 1:
        sys.exit(f"what is printed differs: {runs[0]}")
    return [min(took for took, _ in turns) for turns in zip(*runs)]


def kept(folder, name, text):
    path = folder / name
    path.write_text(text)
    return str(path)


def entries(folder, program, catalogue, other):
    """Blocks of the entries of the catalogue."""
    blocks = LINES * TURNS
    print(f"| {blocks:,} blocks of | Judged | A block | Beside | Ratio |")
    print("|---|---|---|---|---|")
    for entry, (root, sample, at, width) in ENTRIES.items():
        lines = kept(folder, entry, "".join(entry_lines(sample, at, width)))
        commands = [[program, catalogue, root, str(TURNS)]]
        if other:
            commands.append([other, "soak", entry, str(blocks)])
        took, *beside = least(commands, lines)
        cells = "".join(f"{1000 * time:.0f} ms | {took / time:.1f}" for time in beside) or " | "
        print(f"| {root} | {1000 * took:.0f} ms | {1e9 * took / blocks:.0f} ns | {cells} |", flush=True)


def long_blocks(folder, program):
    """Long blocks: the time grows in proportion to the bits."""
    turns = 64
    print(f"| {turns} blocks of | " + " | ".join(f"{octets:,} octets" for octets in OCTETS) + " | A bit |")
    print("|---|" + "---|" * (len(OCTETS) + 1))
    for title, rule in LONG.items():
        file = kept(folder, "rule", rule + "\n")
        times = []
        for octets in OCTETS:
            lines = kept(folder, "long", long_line(octets))
            times += least([[program, file, "M", str(turns)]], lines)
        cells = " | ".join(f"{1000 * took:.0f} ms" for took in times)
        print(f"| {title} | {cells} | {1e9 * times[-1] / (8 * OCTETS[-1] * turns):.2f} ns |", flush=True)


def main():
    parser = argparse.ArgumentParser()
    parser.add_argument("catalogue")
    parser.add_argument("program", nargs="?")
    parser.add_argument("--beside")
    args = parser.parse_intermixed_args()
    catalogue = str(Path(args.catalogue).resolve())
    with tempfile.TemporaryDirectory() as name:
        folder = Path(name)
        files = {"src/main.rt": MAIN, "proofs/judged/Invariants.antt": PICK, "proofs/judge_all/Invariants.antt": SEEN}
        words = [catalogue, ENTRIES["si1"][0], "1"]
        program = args.program or program_of(folder / "copy", CRATE, files, words)
        other = str(Path(args.beside).resolve()) if args.beside else None
        entries(folder, str(Path(program).resolve()), catalogue, other)
        print()
        long_blocks(folder, str(Path(program).resolve()))


if __name__ == "__main__":
    main()
