#!/usr/bin/env python3
"""Refuses each allocation of a run once, and looks at how the run ends and what it has written.

usage: bench/refused.py [--only COMMAND] [PROGRAM]

PROGRAM is crates/csn_cli/out/csn_cli where it is left out. It is run as it was built: a small library, which `cc` builds
(or what CC names), stands before the C library and splits the process at each allocation, from the first to the last one
of the whole run: one half is refused it. That half must end with status 7 and a front of the whole text, or with the
whole text and its status. What does something else is told, and at the end the table of docs/BENCH.md.
"""
import argparse
import os
import shutil
import struct
import subprocess
import sys
import tempfile
from dataclasses import dataclass
from pathlib import Path

ROOT = Path(__file__).resolve().parent.parent
SECONDS = 60
USAGE, READ_FAULT, NO_MEMORY = 2, 5, 7

# The words of each run, and the file that is its input. The files are those of docs/examples and a few more.
RUNS = [
    (["check", "poll.csn1", "Poll", "received"], None),
    (["check", "catalogue.csn1", "Downlink Control Block", "sent"], None),
    (["check", "recursive-tail.csn1", "List", "received"], None),
    (["check", "counted-mended.csn1", "M", "received"], None),
    (["check", "brace.csn1", "Poll", "received"], None),
    (["check", "recursive.csn1", "List", "received"], None),
    (["check", "overlap.csn1", "M", "received"], None),
    (["show", "fields.csn1", "M", "received"], "fields.blocks"),
    (["show", "poll.csn1", "Poll", "received"], "poll.blocks"),
    (["show", "poll.csn1", "Poll", "received"], "bad.blocks"),
    (["show", "extension.csn1", "Options", "received"], "extension.blocks"),
    (["show", "catalogue.csn1", "Downlink Control Block", "received"], "downlink.blocks"),
    (["show", "catalogue.csn1", "SI 13 Rest Octets", "received"], "si13.blocks"),
    (["write", "poll.csn1", "Poll", "sent"], "poll.trees"),
    (["write", "extension.csn1", "Options", "received"], "extension.trees"),
    (["write", "catalogue.csn1", "SI 3 Rest Octets", "received"], "si3.trees"),
    (["json", "poll.csn1", "Poll", "received"], "poll.blocks"),
    (["json", "catalogue.csn1", "Downlink Control Block", "received"], "downlink.blocks"),
    (["unjson", "poll.csn1", "Poll", "sent"], "poll.json"),
    (["migrate"], "old.trees"),
    (["segments", "received"], "segments.blocks"),
    (["replay", "received"], "capture.blocks"),
    (["soak", "downlink", "64"], None),
    (["compat", "poll.csn1", "poll.csn1", "Poll", "received"], None),
    (["certificate", "poll.csn1", "Poll", "received"], None),
    (["verify", "poll.csn1", "Poll", "received", "poll.cert"], None),
]

# What stands before the C library. At an allocation the process makes a child, which is refused it and goes on to the
# end. The process waits, tells how the child ended and what stood written, puts its files back where they were, and goes
# on. So what comes before an allocation runs once, and not again for each that is refused.
SHIM = r"""
#define _GNU_SOURCE
#include <errno.h>
#include <stdint.h>
#include <stdlib.h>
#include <sys/wait.h>
#include <unistd.h>

enum { FILES = 64, OUT = 1 };
extern void *__libc_malloc(size_t);
extern void *__libc_calloc(size_t, size_t);
extern void *__libc_realloc(void *, size_t);
static int was_refused;

static unsigned number(const char *name)
{
    const char *digits = getenv(name);
    return digits ? strtoul(digits, NULL, 10) : 0;
}

static void tell(const void *bytes, size_t size)
{
    while (size > 0) {
        ssize_t wrote = write(number("REFUSED_TO"), bytes, size);
        if (wrote <= 0)
            _exit(100);
        bytes = (const char *)bytes + wrote;
        size -= wrote;
    }
}

static void tell_end(int status)
{
    uint32_t end[2] = {status, lseek(OUT, 0, SEEK_END)};
    tell(end, sizeof end);
    char piece[4096];
    for (off_t at = 0; at < end[1];) {
        ssize_t got = pread(OUT, piece, sizeof piece, at);
        if (got <= 0)
            _exit(100);
        tell(piece, got);
        at += got;
    }
}

static int refuse(void)
{
    if (was_refused)
        return 0;
    off_t places[FILES];
    for (int file = 0; file < FILES; file++)
        places[file] = lseek(file, 0, SEEK_CUR);
    pid_t child = fork();
    if (child == 0) {
        was_refused = 1;
        alarm(number("REFUSED_SECONDS"));
        errno = ENOMEM;
        return 1;
    }
    int status;
    if (child < 0 || waitpid(child, &status, 0) != child)
        _exit(100);
    tell_end(status);
    if (ftruncate(OUT, places[OUT]) != 0)
        _exit(100);
    for (int file = 0; file < FILES; file++)
        if (places[file] >= 0)
            lseek(file, places[file], SEEK_SET);
    return 0;
}

void *malloc(size_t size) { return refuse() ? NULL : __libc_malloc(size); }
void *calloc(size_t count, size_t size) { return refuse() ? NULL : __libc_calloc(count, size); }
void *realloc(void *old, size_t size) { return refuse() ? NULL : __libc_realloc(old, size); }
"""


@dataclass
class End:
    """How a run ended, and what it wrote."""
    status: int
    text: bytes

    def fault(self, whole):
        """What is wrong with a run of which an allocation was refused, or nothing."""
        front = whole.text.startswith(self.text)
        if self == whole or self.status == NO_MEMORY and front:
            return ""
        return f"status {self.status}, {'a front' if front else 'no front'} of {len(self.text)} bytes"


def built(folder):
    """The library that stands before the C library."""
    source, library = folder / "refused.c", folder / "refused.so"
    source.write_text(SHIM)
    subprocess.run([os.environ.get("CC", "cc"), "-O2", "-shared", "-fPIC", "-o", library, source], check=True)
    return str(library)


def examples(folder, program):
    """A copy of docs/examples with what the runs need besides."""
    copy = shutil.copytree(ROOT / "docs/examples", folder / "examples")
    (copy / "fields.csn1").write_text("<M> ::= <A : bit (3)> 0 <B : bit (4)> ;")
    (copy / "fields.blocks").write_text("A5\nB5\nA0/6\nA500\nA5GG\n\nA5")
    with open(copy / "catalogue.csn1", "wb") as catalogue:
        subprocess.run([sys.executable, ROOT / "bench/catalogue.py"], stdout=catalogue, check=True)
    with open(copy / "poll.cert", "wb") as certificate:
        subprocess.run([program, "certificate", "poll.csn1", "Poll", "received"], cwd=copy, stdout=certificate, check=False)
    return copy


def run(command, folder, given, **more):
    """Runs to the end, and hands out what was told meanwhile too, if there is something that tells."""
    tells = more.pop("tells", None)
    with open(folder / given if given else os.devnull, "rb") as source, open(folder / "text", "w+b") as text:
        with subprocess.Popen(command, cwd=folder, stdin=source, stdout=text, **more) as ran:
            told = tells() if tells else []
        text.seek(0)
        return End(ran.returncode, text.read()), told


def refuse_each(command, folder, given, library):
    """How a run ends in which nothing is refused, and how it ends with each of its allocations refused."""
    told, telling = os.pipe()
    outside = {**os.environ, "LD_PRELOAD": library, "REFUSED_TO": str(telling), "REFUSED_SECONDS": str(SECONDS)}

    def ends():
        os.close(telling)
        with open(told, "rb") as pipe:
            while head := pipe.read(8):
                status, size = struct.unpack("=iI", head)
                found.append(End(os.waitstatus_to_exitcode(status), pipe.read(size)))
        return found

    found = []
    return run(command, folder, given, env=outside, pass_fds=[telling], tells=ends)


def main():
    words = argparse.ArgumentParser(description=__doc__.split("\n", 1)[0])
    words.add_argument("--only")
    words.add_argument("program", nargs="?", default=str(ROOT / "crates/csn_cli/out/csn_cli"))
    asked = words.parse_args()
    program = str(Path(asked.program).resolve())
    table, wrong = {}, 0
    with tempfile.TemporaryDirectory() as name:
        folder = Path(name)
        library, copy = built(folder), examples(folder, program)
        for words, given in RUNS:
            if asked.only not in (None, words[0]):
                continue
            whole, _ = run([program, *words], copy, given)
            last, ends = refuse_each([program, *words], copy, given, library)
            faults = [f"allocation {number}: {fault}" for number, end in enumerate(ends, 1) if (fault := end.fault(whole))]
            if last != whole or whole.status in (USAGE, READ_FAULT, NO_MEMORY):
                faults.append(f"none refused: status {last.status}, and {whole.status} by itself")
            for fault in faults:
                print(f"{' '.join(words)}: {fault}")
            wrong += len(faults)
            counts = 1, len(ends), sum(end.status == NO_MEMORY for end in ends), ends.count(whole)
            table[words[0]] = [one + more for one, more in zip(table.get(words[0], [0, 0, 0, 0]), counts)]
    print("| Command | Runs | Allocations refused | Ended with `NoMemory` | Ended whole |")
    print("|---|---|---|---|---|")
    for command, counts in table.items():
        print(f"| `{command}` | " + " | ".join(f"{count:,}" for count in counts) + " |")
    print(f"\n{sum(refused for _, refused, _, _ in table.values()):,} allocations refused, {wrong} wrong")
    return 1 if wrong else 0


if __name__ == "__main__":
    sys.exit(main())
