"""Runs of the program that stay and answer line by line."""
from __future__ import annotations

import subprocess
import threading
from collections import OrderedDict

from frames import Block

MOST_INPUT = 16 * 1024 * 1024      # octets that one run takes
MOST_RUNS = 32                     # that are open at a time
REPLAY = "replay"


class ProgramFault(Exception):
    """How the program ended, where it should have answered."""


class Run:
    """One run of the program."""

    def __init__(self, words: list[str]) -> None:
        self.words = words
        self.given = 0
        self.process = subprocess.Popen(words, stdin=subprocess.PIPE, stdout=subprocess.PIPE)

    def answers(self, lines: list[str]) -> list[str]:
        """The answer to each line."""
        text = ("\n".join(lines) + "\n").encode() if lines else b""
        self.given += len(text)
        giver = threading.Thread(target=self.give, args=(text,))
        giver.start()
        readline = self.process.stdout.readline
        told = [readline() for _ in lines]
        giver.join()
        if told and not told[-1].endswith(b"\n"):
            raise ProgramFault(f"{' '.join(self.words)} ended with status {self.process.wait()}")
        return b"".join(told).decode().split("\n")[:-1]

    def give(self, text: bytes) -> None:
        try:
            self.process.stdin.write(text)
            self.process.stdin.flush()
        except OSError:
            pass                   # the program has ended, which its answers tell

    def end(self) -> list[str]:
        """Ends the run, and gives what it still says."""
        try:
            self.process.stdin.close()
        except OSError:
            pass
        rest = self.process.stdout.read().decode().splitlines()
        self.process.stdout.close()
        status = self.process.wait()
        if status not in (0, 1):
            raise ProgramFault(f"{' '.join(self.words)} ended with status {status}")
        return rest


class Waiting:
    """Of one downlink, the first segments that wait for a second one, as `segments` keeps them."""

    def __init__(self) -> None:
        self.lines: dict[int, str] = {}        # by radio transaction

    def see(self, line: str) -> None:
        """Goes on behind one more block of the downlink."""
        if len(line) != 46 or line[0] not in "89ABab":
            return                             # it carries no segment
        control = int(line[2:4], 16)
        transaction, is_second, is_final = control >> 2 & 31, control & 0x80, control & 2
        if not (is_second or is_final):
            self.lines[transaction] = line
        elif is_final:
            self.lines.pop(transaction, None)


class Answers:
    """Has the program answer blocks: those of `replay` in one run, and those of each downlink in one of their own.

    A run that has taken all it can is ended, and so is the one that stood longest where there are too many. The next
    run of the same downlink begins with the first segments that wait; the counts of `replay` are summed.
    """

    def __init__(self, program: str, reading: str, most_input: int = MOST_INPUT, most_runs: int = MOST_RUNS) -> None:
        self.program, self.reading = program, reading
        self.most_input, self.most_runs = most_input, most_runs
        self.runs: OrderedDict[str, Run] = OrderedDict()
        self.waiting: dict[str, Waiting] = {}
        self.counts: dict[str, int] = {}
        self.refused = False

    def to(self, blocks: list[Block]) -> list[str]:
        """The answer to each block."""
        told = [""] * len(blocks)
        places: dict[str, list[int]] = {}
        for place, (_, _, job, _) in enumerate(blocks):
            places.setdefault(job, []).append(place)
        for job, some in places.items():
            for place, answer in zip(some, self.of_job(job, [blocks[place][3] for place in some])):
                told[place] = answer
        self.refused = self.refused or any(answer.startswith(("no ", "bad ")) for answer in told)
        return told

    def of_job(self, job: str, lines: list[str]) -> list[str]:
        told = self.run(job, sum(map(len, lines)) + len(lines)).answers(lines)
        if job != REPLAY:
            for line in lines:
                self.waiting[job].see(line)
        return told

    def run(self, job: str, octets: int) -> Run:
        """The run of a job, which takes so many octets more."""
        run = self.runs.get(job)
        if run is not None and run.given + octets <= self.most_input:
            self.runs.move_to_end(job)
            return run
        if run is not None:
            self.end(job)
        elif len(self.runs) >= self.most_runs:
            self.end(next(iter(self.runs)))
        self.runs[job] = run = Run([self.program, REPLAY if job == REPLAY else "segments", self.reading])
        if job != REPLAY:
            run.answers(list(self.waiting.setdefault(job, Waiting()).lines.values()))
        return run

    def end(self, job: str) -> None:
        for line in self.runs.pop(job).end():
            name, _, count = line.rpartition(" ")
            self.counts[name] = self.counts.get(name, 0) + int(count)

    def close(self) -> dict[str, int]:
        """Ends all runs, and gives the counts of `replay`, which has at least one run."""
        if not self.counts:
            self.run(REPLAY, 0)
        for job in list(self.runs):
            self.end(job)
        return self.counts
