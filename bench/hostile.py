#!/usr/bin/env python3
"""Runs the built program on strangers' bytes, and looks for what must never come.

usage: bench/hostile.py [--seed S] [--cases N] [PROGRAM]

PROGRAM is crates/csn_cli/out/csn_cli where it is left out. A case is a line of the input, or a run of a command that
reads no input: a description that is checked, one held against another, a certificate made or verified. Descriptions,
lines of blocks and texts of trees are those of the catalogue and of docs/examples with bytes changed, taken away,
doubled and put in, and so are certificates that the program made; other descriptions are grown at random from all forms
of the notation. Each run has a bound of memory and of processor time. What is told as wrong:

- a status that is none for these words, or a signal;
- a run that takes more memory or time than its bound;
- another output where the input comes in many pieces in place of one;
- an output that does not have a line for each line of the input that is not empty, or one line where none is read;
- a certificate that is refused as the program made it.
"""
import argparse
import os
import random
import resource
import shutil
import signal
import subprocess
import sys
import tempfile
import threading
from pathlib import Path

ROOT = Path(__file__).resolve().parent.parent
MEMORY = 256 << 20
SECONDS = 20
# More lines come behind the many rules that these two certify first.
LINES = {"replay": 400, "segments": 400}
FEW_LINES = 80
ROOTS = ["Uplink Control Block", "Downlink Control Block", "SI 1 Rest Octets", "SI 3 Rest Octets", "SI 4 Rest Octets",
         "SI 13 Rest Octets", "IA Rest Octets"]
ENTRIES = ["uplink", "downlink", "si1", "si3", "si4", "si13", "ia"]
# Each entry has a line at the end of `replay`, and so have the refused blocks and the bits.
REPORTS = len(ENTRIES) + 2
# The commands over the input, and the files of docs/examples whose lines are changed for them.
COMMANDS = {
    "show": [".blocks"], "json": [".blocks"], "write": [".trees"], "unjson": [".json"], "migrate": [".trees"],
    "replay": ["capture.blocks"], "segments": ["segments.blocks"],
}
# The commands that read no input, and the statuses with which they end.
WITHOUT_INPUT = {"check": (0, 3, 4), "certificate": (0, 3, 4), "compat": (0, 1, 3, 4), "verify": (0, 3, 4)}
BLOCKS = [b"10B00000006B" + b"2B" * 16, b"0400000003" + b"2B" * 17, b"900058406FA2A00F51" + b"2B" * 11, b"D000000000" + b"2B" * 6,
          b"2B2B2B2B", b".", b"80/1", b"FF" * 40, b"A5", b"6EAB2B2B"]
TREES = [b"#1:[. [<PAGE_MODE>=2'0 #1:[. <TLLI>=32'3221225473] <TYPE_OF_ACK>=1'1 #0:.]]", b"[#0:. <BAND_INDICATOR>=#0:. 6'43]",
         b"[<A>=3'5 . <B>=4'5]", b"xFFFFFFFFFFFFFFFF80/1", b"b", b"[[] [. 7'127]]"]
MARKS = [b"\r\n", b"/", b"'", b"[", b" ", b'"', b"{", b":", b"\\u00", b"\xff", b"\x00"]
CERTIFICATE = b"csn-cert 2\nnode 0 0 001001001001001001001001\nat 0 01000000 11 x!\n"
CLAIMS = [b"node ", b"at ", b"\n", b"-", b"e!", b"x", b"xxxxxxxxxxxx+", b",", b"1", b"16383", b"csn-cert ", b" ", b"\xff"]
TOKENS = [b"<", b">", b"{", b"}", b"|", b"!", b"&", b"=", b"(", b")", b"*", b"**", b"//", b"::=", b";", b"val(N)", b"bit",
          b"octet", b"null", b"<spare padding>", b"<no string>", b"L", b"H", b"0", b"65536", b"4294967296", b"--", b"\n",
          b"\xff", b"\x00"]


def changed(source, data, pieces):
    """The bytes with some of them changed."""
    data = bytearray(data)
    for _ in range(source.randrange(4)):
        at = source.randrange(len(data) + 1)
        match source.randrange(5):
            case 0 if data:
                data[min(at, len(data) - 1)] = source.randrange(256)
            case 1:
                del data[at:at + source.randrange(1, 9)]
            case 2:
                piece = data[at:at + source.randrange(1, 40)]
                data[at:at] = piece * source.randrange(1, 4)
            case 3:
                data[at:at] = source.choice(pieces)
            case _:
                other = source.randrange(len(data) + 1)
                data[at:at] = data[other:other + 30]
    return bytes(data)


def count(source, labels):
    """The number in an exponent."""
    if labels and source.randrange(2):
        return source.choice(["val({0})", "2 * val({0})", "val({0}) + 3", "255 * val({0}) + 65535"]).format(source.choice(labels))
    return str(source.choice([1, 2, 3, 5, 8, 13, 65536]))


def item(source, depth, labels):
    """An item of the notation, over labels that it may count on; a label of its own is added."""
    def inner():
        return sequence(source, depth - 1, list(labels))

    match source.randrange(12) if depth else source.randrange(5):
        case 0 | 1:
            return "".join(source.choice("0011LH") for _ in range(source.choice([1, 1, 2, 3, 13])))
        case 2:
            labels.append(source.choice("ABCDE"))
            return f"<{labels[-1]} : bit ({source.randrange(1, 17)})>"
        case 3:
            return f"{source.choice(['bit', 'octet'])} ({count(source, labels)})"
        case 4:
            return source.choice(["null", "bit (**)", "<spare bit>", "<spare L>", "<spare padding>", "bit = <no string>", "bit = 0"])
        case 5 | 6 | 7:
            return "{ " + " | ".join(inner() for _ in range(source.randrange(2, 5))) + source.choice([" }", " }", " ! bit = <no string> }"])
        case 8:
            return "{ " + inner() + " } " + source.choice(["**", "(*)", f"* {source.randrange(1, 9)}", f"* ({count(source, labels)})"])
        case 9:
            return "{ " + inner() + " } //"
        case 10:
            return f"{source.choice(['bit', 'octet'])} ({count(source, labels)}) & {{ {inner()} }}"
        case _:
            return source.choice(["<R>", f"<Z : {inner()}>", "{ " + inner() + " } = { " + inner() + " }"])


def sequence(source, depth, labels):
    return " ".join(item(source, depth, labels) for _ in range(source.randrange(1, 5)))


def grown(source):
    """A description of random items."""
    turn = source.choice(["", " { 0 | 1 <R> }"])
    return f"<M> ::= {sequence(source, 4, [])} ;\n<R> ::= {sequence(source, 1, [])}{turn} ;\n".encode()


def limit():
    resource.setrlimit(resource.RLIMIT_AS, (MEMORY, MEMORY))
    resource.setrlimit(resource.RLIMIT_CPU, (SECONDS, SECONDS))


def run(program, words, folder, given, most):
    """Status and output, where each read of the input gives at most so many bytes, or none is so short."""
    reads, writes = os.pipe2(os.O_CLOEXEC | (os.O_DIRECT if most else 0))
    ran = subprocess.Popen([program, *words], cwd=folder, stdin=reads, stdout=subprocess.PIPE, preexec_fn=limit)
    os.close(reads)

    def feed():
        step = most or 1 << 16
        try:
            for at in range(0, len(given), step):
                os.write(writes, given[at:at + step])
        except BrokenPipeError:
            pass
        os.close(writes)

    writer = threading.Thread(target=feed)
    writer.start()
    told = ran.stdout.read()
    writer.join()
    ran.stdout.close()
    return ran.wait(), told


def answers(words, given):
    """How many lines the output has where the run came to its end."""
    lines = sum(line not in (b"", b"\r") for line in given.split(b"\n"))
    return lines + REPORTS if words[0] == "replay" else lines


def faults_of_one(program, words, folder):
    """What is wrong with a run that reads no input."""
    status, told = run(program, words, folder, b"", 0)
    if status not in WITHOUT_INPUT[words[0]]:
        return f"status {status}"
    if words[0] == "certificate" and status == 0:
        (folder / "CERT").write_bytes(told)
        nodes = told.split(b"\n", 1)[0].removeprefix(b"csn-cert ")
        verified = run(program, ["verify", *words[1:], "CERT"], folder, b"", 0)
        return "" if verified == (0, b"verified " + nodes + b"\n") else "its own certificate is refused"
    return "" if told.count(b"\n") == 1 else "not one line"


def faults(program, words, folder, given, source):
    """What is wrong with a run, and how many cases it was."""
    if words[0] in WITHOUT_INPUT:
        return faults_of_one(program, words, folder), 1
    status, told = run(program, words, folder, given, 0)
    if status not in ((0, 1) if "F" not in words else (0, 1, 3, 4)):
        return f"status {status}", 1
    if status in (3, 4):
        return "" if told.count(b"\n") == 1 else "not one line", 1
    if source.randrange(4) == 0 and (status, told) != run(program, words, folder, given, source.randrange(1, 60)):
        return "pieces make a difference", 1
    if told.count(b"\n") != answers(words, given):
        return "lines without an answer", 1
    return "", max(1, told.count(b"\n"))


class Seeds:
    """What is changed: the descriptions and the lines of the documents' examples."""

    def __init__(self, folder):
        self.texts = [text for path in sorted(folder.glob("*.csn1")) if len(text := path.read_bytes()) < 4096]
        self.lines = {command: self.of(folder, ends) for command, ends in COMMANDS.items()}
        self.lines["show"] += BLOCKS
        self.lines["json"] += BLOCKS
        self.lines["write"] += TREES
        self.lines["replay"] += [f"{entry} ".encode() + block for entry in ENTRIES for block in BLOCKS]

    @staticmethod
    def of(folder, ends):
        paths = [path for path in sorted(folder.iterdir()) if path.name.endswith(tuple(ends))]
        return [line for path in paths for line in path.read_bytes().split(b"\n") if line]

    def description(self, source):
        """The rules of a description and the name of one."""
        if source.randrange(2):
            return grown(source), "M"
        text = source.choice(self.texts)
        return changed(source, text, TOKENS), text[1:].split(b">", 1)[0].decode(errors="replace") or "M"

    def given(self, source, command):
        lines = (source.choice(self.lines[command]) for _ in range(source.randrange(1, LINES.get(command, FEW_LINES))))
        return b"\n".join(changed(source, line, MARKS) for line in lines)


def described(source, seeds, folder, from_catalogue):
    """The file of a description and the name of a rule; a file that is not the catalogue's is written."""
    if from_catalogue:
        return "catalogue", source.choice(ROOTS)
    text, rule = seeds.description(source)
    (folder / "F").write_bytes(text)
    return "F", rule


def case_without_input(source, seeds, folder, program, command, reading):
    """The words of a run that reads no input, whose files stand in the folder."""
    file, rule = described(source, seeds, folder, command != "check" and source.randrange(8) == 0)
    if command == "compat":
        (folder / "NEW").write_bytes(changed(source, (folder / file).read_bytes(), TOKENS))
        return [command, file, "NEW", rule, reading]
    if command == "verify":
        status, told = run(program, ["certificate", file, rule, reading], folder, b"", 0)
        (folder / "CERT").write_bytes(changed(source, told if status == 0 else CERTIFICATE, CLAIMS))
        return [command, file, rule, reading, "CERT"]
    return [command, file, rule, reading]


def case(source, seeds, folder, program):
    """The words and the input of a run, whose files stand in the folder."""
    command = source.choice(["check", *WITHOUT_INPUT, "verify", "show", *COMMANDS])
    reading = source.choice(["received", "sent"])
    if command in WITHOUT_INPUT:
        return case_without_input(source, seeds, folder, program, command, reading), b""
    given = seeds.given(source, command)
    if command == "migrate":
        return [command], given
    if command in ("replay", "segments"):
        return [command, reading], given
    return [command, *described(source, seeds, folder, source.randrange(2)), reading], given


def main():
    words = argparse.ArgumentParser(description=__doc__.split("\n", 1)[0])
    words.add_argument("--seed", type=int, default=1)
    words.add_argument("--cases", type=int, default=100_000)
    words.add_argument("program", nargs="?", default=str(ROOT / "crates/csn_cli/out/csn_cli"))
    asked = words.parse_args()
    program = str(Path(asked.program).resolve())
    signal.signal(signal.SIGPIPE, signal.SIG_IGN)
    source = random.Random(asked.seed)
    seeds = Seeds(ROOT / "docs/examples")
    cases = wrong = runs = 0
    ran = {}
    with tempfile.TemporaryDirectory() as name:
        folder = Path(name)
        with open(folder / "catalogue", "wb") as catalogue:
            subprocess.run([sys.executable, ROOT / "bench/catalogue.py"], stdout=catalogue, check=True)
        while cases < asked.cases:
            asked_words, given = case(source, seeds, folder, program)
            fault, came = faults(program, asked_words, folder, given, source)
            cases, runs = cases + came, runs + 1
            ran[asked_words[0]] = ran.get(asked_words[0], 0) + 1
            if fault:
                wrong += 1
                kept = Path(f"/tmp/hostile-{asked.seed}-{runs}")
                shutil.copytree(folder, kept, dirs_exist_ok=True)
                (kept / "input").write_bytes(given)
                print(f"{asked_words}: {fault}: kept in {kept}", flush=True)
    told = ", ".join(f"{many} of {command}" for command, many in sorted(ran.items()))
    print(f"seed {asked.seed}: {cases} cases in {runs} runs ({told}), {wrong} wrong")
    return 1 if wrong else 0


if __name__ == "__main__":
    sys.exit(main())
