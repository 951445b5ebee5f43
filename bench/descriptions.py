#!/usr/bin/env python3
"""Times resolving and certifying, and prints the tables of docs/BENCH.md.

usage: bench/descriptions.py CATALOGUE [PROGRAM]

CATALOGUE is a file with the catalogue's text, as bench/catalogue.py prints it. The program that is timed
is written here: it reads the rules of a file, resolves a name, certifies its description where it is
told so, and prints the number of nodes. Where PROGRAM is left out it is built with `rt run` in a copy of
the repository, which proves what is not proved yet. Each time is the least of five runs, and it holds
the start of the process and the reading of the rules.
"""
import os
import shutil
import subprocess
import sys
import tempfile
import time
from pathlib import Path

RUNS = 5

MAIN = """//! Resolves a named rule, and certifies what it gives, to be timed.
#![tactic(auto)]

use csn_certify::certify;
use csn_desc::Reading;
use csn_grammar::read_rules;
use csn_resolve::resolve;
use std::alloc::Global;
use std::env;
use std::fs;
use std::process::ExitCode;

/// How many nodes the description of the rule has; none where it is refused.
fn made(alloc: Global, text: &[u8], name: &[u8], certified: bool) -> Option<u16> {
    if text.len() > 262_144 {
        return None;
    }
    let Ok(rules) = read_rules(alloc, text) else {
        return None;
    };
    let Ok(desc) = resolve(alloc, &rules, name, Reading::Received) else {
        return None;
    };
    if !certified {
        return Some(desc.len());
    }
    match certify(alloc, desc) {
        Ok(plan) => Some(plan.len()),
        Err(_) => None,
    }
}

fn main(rt: HostRuntime) -> ExitCode {
    let Ok(words) = env::args(&rt) else {
        return ExitCode::from(2);
    };
    let Ok(words) = words.collect::<Vec<String>>(rt.alloc()) else {
        return ExitCode::from(2);
    };
    let [_program, job, file, name] = words.as_slice() else {
        return ExitCode::from(2);
    };
    let Ok(text) = fs::read_to_string(&rt, file.as_str()) else {
        return ExitCode::from(3);
    };
    let certified = job.as_str() == "certify";
    let nodes = made(rt.alloc(), text.as_bytes(), name.as_bytes(), certified).unwrap_or(0);
    if println!(rt; "{nodes}").is_err() {
        return ExitCode::from(4);
    }
    ExitCode::from(0)
}
"""


def program_of(folder, crate, files, words):
    """A small program over the crates, built in a copy of the repository and run on the words: its line in
    crates.txt, and its files."""
    root = Path(__file__).resolve().parent.parent
    shutil.copytree(root / "crates", folder / "crates", ignore=shutil.ignore_patterns("out"))
    shutil.copy(root / "HANDLES", folder)
    (folder / "crates.txt").write_text((root / "crates.txt").read_text() + crate + "\n")
    name = crate.split(":")[0]
    home = folder / "crates" / name
    for file, text in files.items():
        (home / file).parent.mkdir(parents=True, exist_ok=True)
        (home / file).write_text(text)
    subprocess.run(["rt", "run", "--"] + words, cwd=home, check=True, stdin=subprocess.DEVNULL, stdout=subprocess.DEVNULL)
    return home / "out" / name


def built(folder, file):
    """The program, built in a copy of the repository."""
    crate = "bench_rules: csn_desc csn_grammar csn_resolve csn_look csn_certify"
    return program_of(folder, crate, {"src/main.rt": MAIN}, ["resolve", file, "D0"])


def run(program, job, file, name):
    """The time of a run, the memory that it held at most, and how many nodes there are."""
    start = time.perf_counter()
    with subprocess.Popen([program, job, file, name], stdout=subprocess.PIPE, text=True) as child:
        nodes = int(child.stdout.read())
        _, status, used = os.wait4(child.pid, 0)
        child.returncode = os.waitstatus_to_exitcode(status)
    if child.returncode != 0:
        sys.exit(f"the program ended with status {child.returncode}")
    return time.perf_counter() - start, used.ru_maxrss * 1024, nodes


def least(program, job, file, name):
    """The least time of some runs, the most memory, and how many nodes there are."""
    runs = [run(program, job, file, name) for _ in range(RUNS)]
    return min(took for took, _, _ in runs), max(held for _, held, _ in runs), runs[0][2]


def doubling():
    """Rules of which each stands twice in the next."""
    rules = ["<D0> ::= 0 ;"] + [f"<D{n}> ::= <D{n - 1}> <D{n - 1}> ;" for n in range(1, 14)]
    return "\n".join(rules) + "\n"


def alternatives():
    """All words of 12 bits as alternatives."""
    return "<M> ::= { " + " | ".join(f"{word:012b}" for word in range(4096)) + " } ;"


def main():
    catalogue = str(Path(sys.argv[1]).resolve())
    with tempfile.TemporaryDirectory() as name:
        folder = Path(name)
        doubled, wide = str(folder / "doubling"), str(folder / "alternatives")
        Path(doubled).write_text(doubling())
        Path(wide).write_text(alternatives())
        if len(sys.argv) > 2:
            program = Path(sys.argv[2]).resolve()
        else:
            program = built(folder / "copy", doubled)
        rows = [("doubling, D11", doubled, "D11"), ("doubling, D12", doubled, "D12"), ("doubling, D13", doubled, "D13"),
                ("4,096 alternatives", wide, "M"), ("the catalogue's largest root", catalogue, "Downlink Control Block")]
        print("| Description | Nodes | Resolved | Resolved and certified | Memory |")
        print("|---|---|---|---|---|")
        for title, file, root in rows:
            plain, _, nodes = least(program, "resolve", file, root)
            both, held, _ = least(program, "certify", file, root)
            cells = f"{nodes:,} | {1000 * plain:.1f} ms | {1000 * both:.1f} ms | {held / 1e6:.1f} MB"
            print(f"| {title} | {cells} |")


if __name__ == "__main__":
    main()
