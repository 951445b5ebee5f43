#!/usr/bin/env python3
"""Runs the built program at its limits, just past them, and on floods of input.

usage: bench/limits.py [--only WORD] [PROGRAM]

PROGRAM is crates/csn_cli/out/csn_cli where it is left out. Each row of the table below is a run: what it is about, its
words, its description, its input, the certificate beside it where there is one, and the text and the status that it must
have by the definitions. The input is a file, or, where a row says so, a pipe that gives one byte at a time. A run has
64 MiB of memory and 20 seconds of processor time. Each row that comes out otherwise is told, and at the end how many
rows there are, and the longest time of one.
"""
import argparse
import os
import resource
import subprocess
import sys
import tempfile
import threading
from dataclasses import dataclass
from pathlib import Path

import growth

ROOT = Path(__file__).resolve().parent.parent
MEMORY = 64 << 20
SECONDS = 20

DESCRIPTION = 262_144
INPUT = 16_777_216
OCTETS = 65_536
DIGITS = 2 * OCTETS
BITS = 8 * OCTETS

FIELDS = "<M> ::= <A : bit (3)> 0 <B : bit (4)> ;"
TURNS = "<M> ::= { 1 <A : bit(7)> } ** 0 <spare padding> ;"
BIT_TURNS = "<M> ::= { 1 } ** 0 ;"
ONE_FIELD = "<M> ::= <A : octet (65536)> ;"
RAW = "<M> ::= <A : octet (65536)> <B : bit (**)> ;"
REPORTS = b"entry uplink 0\nentry downlink 0\nentry si1 %d\nentry si3 0\nentry si4 0\nentry si13 0\nentry ia 0\nrefused %d\nbits %d\n"

CHECK = ["check", "F", "M", "received"]
SHOW = ["show", "F", "M", "received"]
JSON = ["json", "F", "M", "received"]
WRITE = ["write", "F", "M", "received"]
UNJSON = ["unjson", "F", "M", "received"]
VERIFY = ["verify", "F", "M", "received", "CERT"]


@dataclass
class Row:
    title: str
    words: list
    description: str | bytes
    given: bytes
    text: bytes
    status: int
    in_single_bytes: bool = False
    certificate: bytes = b""


def lengths():
    """The greatest lengths of a description, of an input and of a line, and one more."""
    yield Row("bytes that no text has", CHECK, b"\xff\x00", b"", b"syntax 0\n", 3)
    yield Row("a description of 262,144 bytes", CHECK, FIELDS.ljust(DESCRIPTION), b"", b"certified 6\n", 0)
    yield Row("a description of 262,145 bytes", CHECK, FIELDS.ljust(DESCRIPTION + 1), b"", b"", 8)
    yield Row("262,144 spaces", CHECK, " " * DESCRIPTION, b"", b"syntax 262144\n", 3)
    yield Row("a comment of 262,144 bytes", CHECK, b"--" + b"\xff" * (DESCRIPTION - 2), b"", b"syntax 262144\n", 3)
    for command in (SHOW, JSON, WRITE, UNJSON, ["migrate"], ["segments", "received"]):
        name = command[0]
        yield Row(f"16,777,216 line feeds, {name}", command, FIELDS, b"\n" * INPUT, b"", 0)
        yield Row(f"16,777,217 line feeds, {name}", command, FIELDS, b"\n" * (INPUT + 1), b"", 8)
    replay = ["replay", "received"]
    yield Row("16,777,216 line feeds, replay", replay, "", b"\n" * INPUT, REPORTS % (0, 0, 0), 0)
    yield Row("16,777,217 line feeds, replay", replay, "", b"\n" * (INPUT + 1), b"", 8)
    # 5,592,405 lines of three bytes and one line feed are 16,777,216 bytes. The fourth bit of B5 is no 0.
    refused = b"no 3 bit\n" * 5_592_405
    yield Row("16,777,216 bytes of blocks", SHOW, FIELDS, b"B5\n" * 5_592_405 + b"\n", refused, 1)
    yield Row("16,777,217 bytes of blocks", SHOW, FIELDS, b"B5\n" * 5_592_405 + b"\nB", refused, 8)
    yield Row("a line of 131,072 digits", SHOW, FIELDS, b"0" * DIGITS, b"no 8 bit\n", 1)
    yield Row("a line of 131,074 digits", SHOW, FIELDS, b"0" * (DIGITS + 2), b"bad 4\n", 1)
    yield Row("the same with one that is none", SHOW, FIELDS, b"0" * (DIGITS + 2) + b"G", b"bad 1 131074\n", 1)


def lines_without_end():
    """One line that fills the input, for each command that reads lines, and one byte more."""
    digits = b"0" * INPUT
    yield Row("a line of 16 MiB, show", SHOW, FIELDS, digits, b"bad 4\n", 1)
    yield Row("a line of 16 MiB and a byte, show", SHOW, FIELDS, digits + b"0", b"", 8)
    yield Row("a line of 16 MiB, json", JSON, FIELDS, digits, b"bad 4\n", 1)
    yield Row("a line of 16 MiB, segments", ["segments", "sent"], "", digits, b"bad 4\n", 1)
    yield Row("a line of 16 MiB, replay", ["replay", "sent"], "", b"si1 " + digits[4:], b"bad 4\n" + REPORTS % (0, 0, 0), 1)
    yield Row("a word of 16 MiB, replay", ["replay", "sent"], "", digits, b"bad 5\n" + REPORTS % (0, 0, 0), 1)
    # The row at level 64 can only be `[]`, so the next `[` begins no tree.
    yield Row("16 MiB of brackets, write", WRITE, FIELDS, b"[" * INPUT, b"bad 64\n", 1)
    # A leaf has at most 524,288 bits, so no digit follows so many, or an old text's 524,288.
    yield Row("a leaf of 16 MiB, write", WRITE, FIELDS, b"x" + digits[1:], b"bad 131073\n", 1)
    yield Row("a leaf of 16 MiB, migrate", ["migrate"], "", b"b" + digits[1:], b"bad 524289\n", 1)
    yield Row("16 MiB of brackets, unjson", UNJSON, FIELDS, b"[" * INPUT, b"bad 1\n", 1)
    yield Row("16 MiB of spaces, unjson", UNJSON, FIELDS, b" " * INPUT, b"bad 1\n", 1)
    yield Row("a number of 16 MiB, unjson", UNJSON, FIELDS, b"1" * INPUT, b"bad 1\n", 1)
    yield Row("a string of 16 MiB, unjson", UNJSON, FIELDS, b'"' + digits[2:] + b'"', b"bad 2\n", 1)
    yield Row("a label of 16 MiB, write", WRITE, FIELDS, b"<" + b"A" * (INPUT - 1), b"bad 16777216\n", 1)


def nested(levels):
    return "<M> ::= " + "{" * levels + "0" + "}" * levels + " ;"


def labelled(levels):
    return "<M> ::= " + "<A:" * levels + "bit" + ">" * levels + " ;"


def chain(names):
    """A rule that holds a name, whose rule holds a name, and so on to a literal."""
    return "<M>::=<R1>;\n" + "".join(f"<R{n}>::=<R{n + 1}>;\n" for n in range(1, names)) + f"<R{names}>::=0;"


def depths():
    """Parts, names, trees and JSON as deep as they may be, and one level more."""
    yield Row("a literal in 63 braces", CHECK, nested(63), b"", b"certified 1\n", 0)
    yield Row("a literal in 64 braces", CHECK, nested(64), b"", b"description 12 72\n", 3)
    yield Row("a literal in 65 braces", CHECK, nested(65), b"", b"syntax 72\n", 3)
    yield Row("a field in 63 labels", CHECK, labelled(63), b"", b"certified 64\n", 0)
    yield Row("a field in 64 labels", CHECK, labelled(64), b"", b"description 12 200\n", 3)
    yield Row("a field in 65 labels", CHECK, labelled(65), b"", b"syntax 202\n", 3)
    yield Row("a literal behind 63 names", CHECK, chain(63), b"", b"certified 1\n", 0)
    text = chain(64)
    yield Row("a literal behind 64 names", CHECK, text, b"", b"description 12 %d\n" % (len(text) - 2), 3)
    tree = "<A>=" * 63 + "1'0"
    yield Row("the block of a tree of 64 levels", SHOW, labelled(63), b"00/1", f"ok {tree}\n".encode(), 0)
    yield Row("a tree of 64 levels", WRITE, labelled(63), tree.encode(), b"ok 00/1\n", 0)
    # What a label has at level 64 would be at level 65, so it is refused itself.
    yield Row("a tree of 65 levels", WRITE, labelled(63), b"<A>=" + tree.encode(), b"bad 252\n", 1)
    rows = b"[" * 64 + b"]" * 64
    yield Row("64 rows", ["migrate"], "", rows, b"ok " + rows + b"\n", 0)
    yield Row("65 rows", ["migrate"], "", b"[" + rows + b"]", b"bad 64\n", 1)
    yield Row("64 arrays", UNJSON, FIELDS, rows, b"no / WrongCount 3 1\n", 1)
    yield Row("65 arrays", UNJSON, FIELDS, b"[" + rows + b"]", b"bad 2\n", 1)
    yield Row("200 arrays", UNJSON, FIELDS, b"[" * 200 + b"]" * 200, b"bad 1\n", 1)


def words(count):
    """So many words of 12 bits, and from the first one again where there are no more."""
    return "<M> ::= { " + " | ".join(f"{word % 4096:012b}" for word in range(count)) + " } ;"


def counted(fields):
    """So many fields, and behind them a part for each that counts on it."""
    first = " ".join(f"<N{n} : bit>" for n in range(fields))
    return f"<M> ::= {first} " + " ".join(f"bit (val(N{n}))" for n in range(fields)) + " ;"


def numbers():
    """As many nodes, counted fields and alternatives as there may be, and one more; and counts that multiply."""
    yield Row("16,384 nodes", CHECK, "<M> ::= " + "bit " * 16_383 + ";", b"", b"certified 16384\n", 0)
    yield Row("16,385 nodes", CHECK, "<M> ::= " + "bit " * 16_384 + ";", b"", b"description 11 %d\n" % (8 + 4 * 16_383), 3)
    yield Row("64 counted fields", CHECK, counted(64), b"", b"certified 193\n", 0)
    text = counted(65)
    yield Row("65 counted fields", CHECK, text, b"", b"description 13 %d\n" % text.index("<N64"), 3)
    yield Row("4,096 alternatives", CHECK, words(4096), b"", b"certified 4097\n", 0)
    yield Row("the last of 4,096", SHOW, words(4096), b"FFF0/4\n", b"ok #4095:.\n", 0)
    yield Row("4,097 alternatives, two alike", CHECK, words(4097), b"", b"conflict 3 0 0 0 4096 000000000000 000000000000\n", 4)
    empty = "<M> ::= bit (8) & { { null } * 65536 <A : bit (8)> } ;"
    yield Row("65,536 parts without bits", CHECK, empty, b"", b"conflict 2 2 0\n", 4)
    # Eighty bits tell how long such a string is, so no block is one, and each is a front of one.
    powers = "<M> ::= " + "{ " * 5 + "0" + " } * 65536" * 5 + " ;"
    yield Row("65,536 parts, to the fifth power", CHECK, powers, b"", b"certified 6\n", 0)
    yield Row("a block of them", SHOW, powers, b"00" * OCTETS, b"no 524288 ended\n", 1)
    yield Row("a tree of them", WRITE, powers, b"[]", b"no / WrongCount 65536 0\n", 1)
    yield Row("a constant count of 65,537", CHECK, "<M> ::= bit (65537) ;", b"", b"description 7 8\n", 3)
    yield Row("a count of twenty digits", CHECK, "<M> ::= bit (99999999999999999999) ;", b"", b"syntax 13\n", 3)
    yield Row("soak, 1,000,001 blocks", ["soak", "ia", "1000001"], "", b"", b"", 2)
    yield Row("soak, no blocks", ["soak", "ia", "0"], "", b"", b"", 2)


def blocks():
    """Blocks as long as they may be."""
    for in_single_bytes in (False, True):
        cut = ", in single bytes" if in_single_bytes else ""
        ended = b"no 524288 ended\n"
        yield Row("65,536 octets FF in turns" + cut, SHOW, TURNS, b"FF" * OCTETS, ended, 1, in_single_bytes)
        yield Row("65,536 octets FF in turns of a bit" + cut, SHOW, BIT_TURNS, b"FF" * OCTETS, ended, 1, in_single_bytes)
    zeros = b"0" * DIGITS
    shown = b"ok <A>=x" + zeros + b"\n"
    yield Row("a field of 524,288 bits", SHOW, ONE_FIELD, zeros, shown, 0)
    yield Row("the same, in single bytes", SHOW, ONE_FIELD, zeros, shown, 0, True)
    yield Row("an octet less", SHOW, ONE_FIELD, zeros[2:], b"no 524280 ended\n", 1)
    yield Row("as JSON", JSON, ONE_FIELD, zeros, b'ok {"label":"A","tree":"' + zeros + b'"}\n', 0)
    yield Row("its tree", WRITE, ONE_FIELD, b"<A>=x" + zeros, b"ok " + zeros + b"\n", 0)
    yield Row("its tree as JSON", UNJSON, ONE_FIELD, b'{"label":"A","tree":"' + zeros + b'"}', b"ok " + zeros + b"\n", 0)
    yield Row("a tree of one bit more", WRITE, RAW, b"[<A>=x" + zeros + b" <B>=1'0]", b"no /1/0 TooManyBits\n", 1)
    yield Row("turns of a bit, shown", SHOW, "<M> ::= { 1 } ** ;", b"FF" * OCTETS, b"ok [" + b" ".join([b"."] * BITS) + b"]\n", 0)
    row = b"[" + b" ".join([b"."] * BITS) + b"]"
    yield Row("their tree", WRITE, "<M> ::= { 1 } ** ;", row, b"ok " + b"FF" * OCTETS + b"\n", 0)
    yield Row("a tree of one turn more", WRITE, "<M> ::= { 1 } ** ;", row[:-1] + b" .]", b"no /524288 TooManyBits\n", 1)


LITERAL = "<M> ::= 0 ;"
PROVED = b"csn-cert 1\nnode 0 0 001001001001001001001001\nat 0 01000000 10 0!\n"


def certificates():
    """Certificates as long as they may be, and a byte more; and claims without end."""
    def row(title, certificate, text, status, description=LITERAL):
        return Row(title, VERIFY, description, b"", text, status, certificate=certificate)

    unread = b"unproved 1 0\n"
    yield row("the certificate of a literal", PROVED, b"verified 1\n", 0)
    yield row("no certificate", b"", unread, 4)
    yield row("a certificate of 16,777,216 bytes", PROVED.ljust(INPUT, b"\n"), unread, 4)
    yield row("a certificate of 16,777,217 bytes", PROVED.ljust(INPUT + 1, b"\n"), b"", 8)
    # A description that is refused ends the run before its certificate is asked for.
    yield row("the same, of a text without a rule", PROVED.ljust(INPUT + 1, b"\n"), b"syntax 3\n", 3, "<M>")
    yield row("a certificate of 16,384 nodes", b"csn-cert 16384\n", unread, 4)
    yield row("a number of 16 MiB", b"csn-cert ".ljust(INPUT, b"1"), unread, 4)


def repeats(program, folder):
    """Small texts that stand for much more than their bytes, as `growth.py` has them."""
    for row in growth.rows(program, folder):
        files = ["F", "F"] if row.command == "compat" else ["F"]
        words = [row.command, *files, "M", "received"] + (["CERT"] if row.certificate else [])
        # A certificate is the one that is written without a bound of memory.
        text = row.answer or growth.certificate_of(program, folder, row.description)
        status = {"unproved": 4, "no": 1, "bad": 1}.get(text.split(" ", 1)[0], 0)
        yield Row(f"{row.command}, {row.title}", words, row.description, row.given, text.encode(), status,
                  certificate=row.certificate.encode())


def limit():
    resource.setrlimit(resource.RLIMIT_AS, (MEMORY, MEMORY))
    resource.setrlimit(resource.RLIMIT_CPU, (SECONDS, SECONDS))


def fed(given):
    """A pipe from which each read takes one byte."""
    reads, writes = os.pipe2(os.O_DIRECT | os.O_CLOEXEC)

    def feed():
        try:
            for byte in given:
                os.write(writes, bytes([byte]))
        except BrokenPipeError:
            pass
        os.close(writes)

    threading.Thread(target=feed).start()
    return reads


def run(program, folder, row):
    """The text, the status and the processor time of a row's run."""
    description = row.description if isinstance(row.description, bytes) else row.description.encode()
    (folder / "F").write_bytes(description)
    (folder / "CERT").write_bytes(row.certificate)
    (folder / "input").write_bytes(row.given)
    source = fed(row.given) if row.in_single_bytes else os.open(folder / "input", os.O_RDONLY)
    with open(folder / "text", "w+b") as text:
        ran = subprocess.Popen([program, *row.words], cwd=folder, stdin=source, stdout=text, preexec_fn=limit)
        os.close(source)
        _, status, used = os.wait4(ran.pid, 0)
        ran.returncode = os.waitstatus_to_exitcode(status)
        text.seek(0)
        return text.read(), ran.returncode, used.ru_utime + used.ru_stime


def short(text):
    return repr(text if len(text) < 80 else text[:60] + b" .. " + text[-20:])


def main():
    arguments = argparse.ArgumentParser(description=__doc__.split("\n", 1)[0])
    arguments.add_argument("--only", default="")
    arguments.add_argument("program", nargs="?", default=str(ROOT / "crates/csn_cli/out/csn_cli"))
    asked = arguments.parse_args()
    program = str(Path(asked.program).resolve())
    count = wrong = longest = 0
    with tempfile.TemporaryDirectory() as name:
        folder = Path(name)
        tables = [rows() for rows in (lengths, lines_without_end, depths, numbers, blocks, certificates)]
        for rows in [*tables, repeats(program, folder)]:
            for row in rows:
                if asked.only not in row.title:
                    continue
                text, status, took = run(program, folder, row)
                count += 1
                longest = max(longest, took)
                if (text, status) != (row.text, row.status):
                    wrong += 1
                    print(f"{row.title}: {short(text)} and status {status} in place of {short(row.text)} and {row.status}")
    print(f"{count} rows, {wrong} wrong; at most {longest:.1f} s a row")
    return 1 if wrong else 0


if __name__ == "__main__":
    sys.exit(main())
