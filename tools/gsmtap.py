#!/usr/bin/env python3
"""Reads the control blocks of a capture with GSMTAP frames, and has the program answer each beside its frame.

usage: gsmtap.py CAPTURE                      rows of FRAME, TIME, JOB and LINE
       gsmtap.py --only JOB CAPTURE           the lines of one job, as csn_cli takes them
       gsmtap.py --answer READING CAPTURE     rows of FRAME, TIME, JOB and ANSWER, and the counts of `replay`

Tabs stand between. CAPTURE is a pcap or pcapng file, packed by gzip or not; `-` is the standard input, and what it
has so far is answered while it grows. FRAME counts from 1, as Wireshark does, and TIME is in seconds since 1970, or
`-` where the capture does not tell. JOB is `replay`, or ARFCN/SLOT of a downlink for `segments`.

The status is 0; 1 where a line was answered by `no` or `bad`; 2 where the words, the capture or the program are at
fault, which the standard error tells in one line, behind all that was read before.
"""
from __future__ import annotations

import argparse
import os
import sys
from pathlib import Path
from typing import Callable, Iterator

from answers import Answers, ProgramFault
from captures import SECOND, CaptureFault, Stream, batches
from frames import Block, block_in

PROGRAM = Path(__file__).resolve().parent.parent / "crates/csn_cli/out/csn_cli"


def blocks_of(stream: Stream) -> Iterator[list[Block]]:
    """The control blocks of a capture, in lists as they come."""
    frame = 0
    for packets in batches(stream):
        found = [block_in(number, packet) for number, packet in enumerate(packets, frame + 1)]
        frame += len(packets)
        blocks = [block for block in found if block is not None]
        if blocks:
            yield blocks


def time_text(time: int | None) -> str:
    return "-" if time is None else "%d.%09d" % divmod(time, SECOND)


def rows(blocks: list[Block], told: list[str]) -> str:
    """A row for each block, with what is told of it."""
    return "".join([f"{frame}\t{time_text(time)}\t{job}\t{last}\n" for (frame, time, job, _), last in zip(blocks, told)])


def rows_of(blocks: list[Block]) -> str:
    return rows(blocks, [line for _, _, _, line in blocks])


def lines_of(job: str) -> Callable[[list[Block]], str]:
    return lambda blocks: "".join([line + "\n" for _, _, of, line in blocks if of == job])


def answered(answers: Answers) -> Callable[[list[Block]], str]:
    return lambda blocks: rows(blocks, answers.to(blocks))


def print_all(stream: Stream, told: Callable[[list[Block]], str]) -> str:
    """Prints what is told of the blocks, and gives what is wrong with the capture, or nothing."""
    try:
        for blocks in blocks_of(stream):
            sys.stdout.write(told(blocks))
            sys.stdout.flush()
    except CaptureFault as fault:
        return str(fault)
    return ""


def run(options: argparse.Namespace) -> int:
    stream = sys.stdin.buffer.raw if options.capture == "-" else open(options.capture, "rb", buffering=0)
    if not options.answer:
        fault = print_all(stream, lines_of(options.only) if options.only else rows_of)
        refused = False
    else:
        answers = Answers(options.bin, options.answer)
        fault = print_all(stream, answered(answers))
        sys.stdout.writelines(f"{name} {count}\n" for name, count in answers.close().items())
        sys.stdout.flush()
        refused = answers.refused
    if fault:
        print(f"gsmtap.py: {options.capture}: {fault}", file=sys.stderr)
    return 2 if fault else int(refused)


def options_of(words: list[str]) -> argparse.Namespace:
    parser = argparse.ArgumentParser(description=__doc__, formatter_class=argparse.RawDescriptionHelpFormatter)
    form = parser.add_mutually_exclusive_group()
    form.add_argument("--only", metavar="JOB")
    form.add_argument("--answer", metavar="READING", choices=["received", "sent"])
    parser.add_argument("--bin", metavar="PATH", default=os.environ.get("CSN_CLI", str(PROGRAM)),
                        help="the program, where it is neither what CSN_CLI names nor the repository's own")
    parser.add_argument("capture", metavar="CAPTURE")
    return parser.parse_args(words)


def main() -> int:
    try:
        return run(options_of(sys.argv[1:]))
    except BrokenPipeError:
        os.dup2(os.open(os.devnull, os.O_WRONLY), sys.stdout.fileno())
        return 2
    except (ProgramFault, OSError) as fault:
        print(f"gsmtap.py: {fault}", file=sys.stderr)
        return 2
    except KeyboardInterrupt:
        return 130


if __name__ == "__main__":
    sys.exit(main())
