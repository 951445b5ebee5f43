#!/usr/bin/env python3
"""Measures the tools for captures, the plugins for Wireshark, and runs side by side.

usage: bench/tools.py [--bin PATH] [--companion PATH] [--archive PATH] [--megabytes N] [--times N]

The programs and the library are those that are built in crates where they are left out. Takes about two minutes, and prints
the three tables of docs/BENCH.md, each of what is at hand:
  - how many frames a second tools/gsmtap.py answers on one processor, of a capture that tools/to_pcap.py makes of lines of
    all entries, by the time of the processor;
  - how many microseconds of the processor each plugin adds to tshark for a block, the least of N times;
  - how long GNU parallel takes for N megabytes of lines, 50 where that is left out, by 1, 2 and 4 workers.
"""
from __future__ import annotations

import argparse
import os
import random
import re
import shutil
import subprocess
import sys
import tempfile
import time
from dataclasses import dataclass
from pathlib import Path

ROOT = Path(__file__).resolve().parent.parent
TOOLS = ROOT / "tools"
sys.path.append(str(TOOLS / "tests"))

from tried import Tried  # noqa: E402
from tsharks import tsharks_of  # noqa: E402

WORKERS = (1, 2, 4)
ANSWERED_OCTETS = 10_000_000
# How many frames each plugin shows, and tshark alone.
FRAMES = {"": 20_000, "C": 20_000, "Lua": 2_000}
FIELDS = ["-T", "fields", "-e", "frame.number"]
# What tshark is asked for: without a plugin, and with one.
ASKED = {
    "a line for each frame that a filter takes": (["-Y", "frame.number == 1"], ["-Y", "nambroit.rac == 256"]),
    "fields of each frame": ([*FIELDS, "-e", "gsmtap.arfcn"], [*FIELDS, "-e", "nambroit.block.answer"]),
    "the whole tree of each frame": (["-V"], ["-V"]),
}


def lines_of(octets: int) -> list[str]:
    """The sample lines of all entries, in a random order and with random ends."""
    source = random.Random(4729)
    samples = (ROOT / "docs/examples/capture.blocks").read_text().split("\n")
    whole = [line for line in samples if re.fullmatch("[a-z0-9]+ ([0-9A-F]{2}){2,}", line)]
    lines, used = [], 0
    while used < octets:
        line = source.choice(whole)
        lines.append(f"{line[:-4]}{source.randrange(65536):04X}\n")
        used += len(line) + 1
    return lines


def taken(words: list[str], given: str, to: str, processors: set[int], **environment: str) -> tuple[float, float]:
    """The seconds of a command, and those of the processors that it used, with what it started."""
    with open(given, "rb") as source, open(to, "wb") as target:
        begun = time.monotonic()
        ran = subprocess.Popen(words, stdin=source, stdout=target, stderr=subprocess.DEVNULL, env=os.environ | environment,
                               preexec_fn=lambda: os.sched_setaffinity(0, processors))
        _, status, used = os.wait4(ran.pid, 0)
    if os.waitstatus_to_exitcode(status) not in (0, 1):
        raise OSError(f"{words[0]} ended with status {os.waitstatus_to_exitcode(status)}")
    return time.monotonic() - begun, used.ru_utime + used.ru_stime


def capture_of(lines: list[str], folder: str, name: str) -> str:
    """A capture of lines."""
    text, capture = f"{folder}/{name}", f"{folder}/{name}.pcap"
    Path(text).write_text("".join(lines))
    taken([sys.executable, str(TOOLS / "to_pcap.py")], text, capture, os.sched_getaffinity(0))
    return capture


def measure_answers(program: str, lines: list[str], folder: str, times: int) -> None:
    capture = capture_of(lines, folder, "lines")
    words = [sys.executable, str(TOOLS / "gsmtap.py"), "--bin", program, "--answer", "received", "-"]
    processors = {min(os.sched_getaffinity(0))}
    seconds, used = min((taken(words, capture, f"{folder}/out", processors) for _ in range(times)), key=lambda both: both[1])
    print("| What | Seconds | Of the processor | A second of the processor |\n|---|---|---|---|")
    print(f"| `gsmtap.py` with answers, {len(lines):,} frames, one processor | {seconds:.1f} | {used:.1f} |"
          f" {len(lines) / used:,.0f} frames |\n")


@dataclass
class Shower:
    """tshark, alone or with a plugin, as it is asked to show frames."""

    name: str
    words: list[str]
    variables: dict[str, str]
    many: int    # frames that it shows

    def microseconds(self, captures: dict[int, str], processors: set[int], least: dict[int, float]) -> float:
        """Those of the processor for a frame, by the least times of this run and of those before."""
        for many in (1, self.many):
            words = [*self.words, "-r", captures[many]]
            used = taken(words, os.devnull, os.devnull, processors, **self.variables)[1]
            least[many] = min(used, least.get(many, used))
        return (least[self.many] - least[1]) / (self.many - 1) * 1e6


def measure_plugins(tried: Tried, lines: list[str], times: int) -> None:
    """What a plugin adds to tshark for a block, without what it takes to start both. The runs take turns."""
    folder, processors = str(tried.folder), {min(os.sched_getaffinity(0))}
    captures = {many: capture_of(lines[:many], folder, f"frames-{many}") for many in {1, *FRAMES.values()}}
    plugins = sorted(tsharks_of(tried), key=lambda tshark: tshark.name)
    print("| tshark is asked for | Alone |" + "".join(f" {tshark.name} adds |" for tshark in plugins))
    print("|---|---|" + "---|" * len(plugins))
    for what, (without, with_plugin) in ASKED.items():
        showers = [Shower("", ["tshark", *without], {"HOME": folder}, FRAMES[""])]
        showers += [Shower(tshark.name, [*tshark.words, *with_plugin],
                           {"HOME": str(tshark.folder), "NAMBROIT_PROGRAM": tshark.companion}, FRAMES[tshark.name])
                    for tshark in plugins]
        least: list[dict[int, float]] = [{} for _ in showers]
        for _ in range(times):
            alone, *added = [one.microseconds(captures, processors, known) for one, known in zip(showers, least)]
        print(f"| {what} | {alone:.1f} |" + "".join(f" {one - alone:.1f} |" for one in added), flush=True)
    print()


def measure_workers(program: str, lines: list[str], folder: str) -> None:
    print("| What | Seconds | Of processors | A second |\n|---|---|---|---|")
    for workers in WORKERS:
        words = ["parallel", "-j", str(workers), "-k", "--pipepart", "-a", f"{folder}/lines", "--block", "2M", program, "replay",
                 "received"]
        seconds, used = taken(words, os.devnull, f"{folder}/out", os.sched_getaffinity(0))
        print(f"| GNU parallel, {len(lines):,} lines, {workers} at a time | {seconds:.1f} | {used:.1f} |"
              f" {len(lines) / seconds:,.0f} lines |")


def main() -> int:
    parser = argparse.ArgumentParser(description=__doc__, formatter_class=argparse.RawDescriptionHelpFormatter)
    for name, built in (("bin", "csn_cli/out/csn_cli"), ("companion", "csn_explain/out/csn_explain"),
                        ("archive", "csn_c/out/libcsn_c.a")):
        parser.add_argument(f"--{name}", metavar="PATH", type=os.path.abspath, default=str(ROOT / "crates" / built))
    parser.add_argument("--megabytes", type=int, default=50)
    parser.add_argument("--times", type=int, default=5)
    options = parser.parse_args()
    lines = lines_of(options.megabytes * 1_000_000)
    with tempfile.TemporaryDirectory() as folder:
        few = lines[:len(lines) * ANSWERED_OCTETS // (options.megabytes * 1_000_000)]
        measure_answers(options.bin, few, folder, options.times)
        if shutil.which("tshark"):
            companion, archive = (path if os.path.isfile(path) else "" for path in (options.companion, options.archive))
            measure_plugins(Tried(options.bin, companion, archive, Path(folder), False), lines, options.times)
        if shutil.which("parallel"):
            Path(folder, "lines").write_text("".join(lines))
            measure_workers(options.bin, lines, folder)
    return 0


if __name__ == "__main__":
    sys.exit(main())
