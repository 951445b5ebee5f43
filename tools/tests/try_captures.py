"""Captures to lines and to answers, and back."""
from __future__ import annotations

import contextlib
import gzip
import io
import os
import random
import select
import shutil
import signal
import subprocess
import sys
import tracemalloc

import gsmtap
from answers import Answers
from made import BEGIN, FORMS, JOINED, LINKS, frames, pcap, time_of
from tried import TOOLS, Tried


def wanted_rows() -> list[tuple[int, str, str, str]]:
    return [(number, time_of(number), frame.job, frame.line) for number, frame in enumerate(frames(), 1) if frame.job]


def made_capture(link: str = "Ethernet", form: str = "pcap", order: str = "<", unit: int = 1000) -> bytes:
    number, packet = LINKS[link]
    return FORMS[form](number, [packet(frame.octets) for frame in frames()], order, unit)


def rows_read(octets: bytes) -> list[tuple[int, str, str, str]]:
    return [(frame, gsmtap.time_text(time), job, line)
            for some in gsmtap.blocks_of(io.BytesIO(octets)) for frame, time, job, line in some]


def try_forms(tried: Tried) -> None:
    """All links and forms of files give the same rows."""
    wanted = wanted_rows()
    for link in LINKS:
        for form in FORMS:
            for order in "<", ">":
                for unit in 1000, 1:
                    octets = made_capture(link, form, order, unit)
                    half = len(octets) // 2
                    for packed in octets, gzip.compress(octets), gzip.compress(octets[:half]) + gzip.compress(octets[half:]):
                        tried.same(f"{link} in {form} {order}", rows_read(packed), wanted)


class Trickle(io.BytesIO):
    """A file of which each read gives few octets."""

    def read(self, most: int | None = -1, /) -> bytes:
        return super().read(7)


def try_pieces(tried: Tried) -> None:
    for form in FORMS:
        octets = made_capture(form=form)
        for packed in octets, gzip.compress(octets):
            told = [(frame, line) for some in gsmtap.blocks_of(Trickle(packed)) for frame, _, _, line in some]
            tried.same(f"{form} in pieces of 7 octets", told, [(row[0], row[3]) for row in wanted_rows()])


def try_beside_tshark(tried: Tried) -> None:
    """Numbers, times, ARFCNs, slots and octets as tshark tells them."""
    if not shutil.which("tshark"):
        return tried.skip("captures beside tshark", "it is not installed")
    fields = ["frame.number", "frame.time_epoch", "gsmtap.arfcn", "gsmtap.ts", "gsmtap.uplink", "udp.payload"]
    asked = [word for field in fields for word in ("-e", field)]
    for form in FORMS:
        for link in "Ethernet", "Ethernet with a tag", "SLL", "SLL2", "raw IP", "IPv4":
            file = tried.folder / f"beside.{form}"
            file.write_bytes(made_capture(link, form))
            ran = subprocess.run(["tshark", "-r", str(file), "-T", "fields", *asked], capture_output=True, text=True,
                                 check=False)
            shown = [line.split("\t") for line in ran.stdout.split("\n")[:-1]]
            rows = rows_read(file.read_bytes())
            tried.same(f"tshark reads {link} in {form}", len(shown), len(frames()))
            for number, time, job, line in rows:
                frame, epoch, arfcn, slot, uplink, octets = shown[number - 1]
                block = line.split(" ")[-1]
                tried.same(f"{link} in {form}, frame {number}", (number, time, octets.upper().endswith(block)),
                           (int(frame), epoch, True))
                if job != "replay":
                    tried.same(f"{link} in {form}, frame {number}", job.replace("p", ""), f"{arfcn}/{slot}")
                tried.same(f"{link} in {form}, uplink of {number}", line.startswith("uplink"), uplink in ("1", "True"))


def answers_wanted(tried: Tried) -> list[str]:
    """What gsmtap.py prints, by one run of the program for `replay` and one for each downlink."""
    rows = wanted_rows()
    told = {}
    counts: list[str] = []
    for job in {row[2] for row in rows}:
        lines = [row[3] for row in rows if row[2] == job]
        answers = tried.csn_cli(["replay" if job == "replay" else "segments", "received"], lines)
        told[job] = iter(answers[:len(lines)])
        counts += answers[len(lines):]
    return [f"{number}\t{time}\t{job}\t{next(told[job])}" for number, time, job, _ in rows] + counts


def try_answers(tried: Tried) -> None:
    file = tried.folder / "capture.pcap"
    file.write_bytes(made_capture())
    wanted = answers_wanted(tried)
    status, told, fault = tried.tool("gsmtap.py", "--bin", tried.program, "--answer", "received", file)
    tried.same("answers beside frames", (status, told.splitlines(), fault), (1, wanted, ""))
    shown = [line[4:] for line in (TOOLS / "README.md").read_text().splitlines() if line.startswith("    1")]
    tried.same("rows that the page shows", (len(shown), set(shown) <= set(told.splitlines())), (3, True))
    columns = [line.split("\t") for line in told.splitlines()]
    joined = [row[3] for row in columns if len(row) == 4 and row[2] != "replay"]
    tried.same("which segments are joined", [answer if answer[0] in "wb" else answer[:2] for answer in joined], JOINED)
    status, told, fault = tried.tool("gsmtap.py", file)
    tried.same("rows", (status, told, fault), (0, "".join("\t".join(map(str, row)) + "\n" for row in wanted_rows()), ""))
    status, told, fault = tried.tool("gsmtap.py", "--only", "871/5", file)
    tried.same("one downlink", (status, told.split(), fault), (0, [row[3] for row in wanted_rows() if row[2] == "871/5"], ""))
    status, told, fault = tried.tool("gsmtap.py", "--bin", tried.program, "--answer", "received", "-",
                                     given=gzip.compress(file.read_bytes()))
    tried.same("answers of the standard input", (status, told.splitlines()), (1, wanted))


def try_no_blocks(tried: Tried) -> None:
    """A capture without blocks has counts all the same."""
    status, told, fault = tried.tool("gsmtap.py", "--bin", tried.program, "--answer", "received", "-", given=pcap(1, []))
    tried.same("no blocks", (status, told.splitlines(), fault), (0, tried.csn_cli(["replay", "received"], []), ""))
    tried.same("counts of no blocks", told.count(" 0\n"), 9)


def try_many_runs(tried: Tried) -> None:
    """Runs that end early, and few at a time, answer as those that stay."""
    wanted = answers_wanted(tried)
    for most_input, most_runs in (100, 32), (200, 1), (1000, 2), (1 << 24, 1):
        answers = Answers(tried.program, "received", most_input, most_runs)
        rows = []
        for some in gsmtap.blocks_of(io.BytesIO(made_capture())):
            for block in some:
                rows += gsmtap.rows([block], answers.to([block])).splitlines()
        rows += [f"{name} {count}" for name, count in answers.close().items()]
        tried.same(f"runs of {most_input} octets, {most_runs} at a time", rows, wanted)


def try_growing(tried: Tried) -> None:
    """What has come is answered before the rest comes."""
    octets = made_capture()
    length = int.from_bytes(octets[32:36], "little")
    begun = 24 + 16 + length + 9               # the first packet, and a part of the head of the second
    words = [sys.executable, str(TOOLS / "gsmtap.py"), "--bin", tried.program, "--answer", "received", "-"]
    environment = {name: value for name, value in os.environ.items() if name != "PYTHONUNBUFFERED"}
    with subprocess.Popen(words, stdin=subprocess.PIPE, stdout=subprocess.PIPE, env=environment) as ran:
        ran.stdin.write(octets[:begun])
        ran.stdin.flush()
        came = bool(select.select([ran.stdout], [], [], 20)[0])
        first = os.read(ran.stdout.fileno(), 1 << 16).decode().splitlines() if came else []
        tried.same("an answer while the capture grows", first, answers_wanted(tried)[:1])
        ran.stdin.write(octets[begun:])
        ran.stdin.close()
        tried.same("the answers behind it", ran.stdout.read().decode().splitlines(), answers_wanted(tried)[1:])


def try_faults(tried: Tried) -> None:
    """Each fault is told in one line behind what was read, by status 2."""
    octets = made_capture()
    ng = made_capture(form="pcapng")
    long = octets[:24] + b"\0" * 8 + b"\xff\xff\xff\x7f" + octets[36:]
    cases = [
        ("nothing", b"", "no pcap", 0), ("text", b"no capture at all, but some text\n", "no pcap", 0),
        ("a cut packet", octets[:-3], "ends inside a packet", len(wanted_rows())),
        ("a length past all bounds", long, "behind frame 0: no packet has 2147483647 octets", 0),
        ("a block of no length", ng[:28] + b"\1\0\0\0\0\0\0\0" + ng[36:], "behind frame 0: no block has 0 octets", 0),
        ("a section of no length", ng[:4] + b"\x0c\0\0\0" + ng[8:], "behind frame 0: no block has 12 octets", 0),
        ("cut gzip", gzip.compress(octets)[:-9], "gzip: the file ends too early", len(wanted_rows())),
        ("damaged gzip", gzip.compress(octets)[:10] + b"\xff" * 90, "gzip: ", 0),
    ]
    for what, given, fault, rows in cases:
        status, told, error = tried.tool("gsmtap.py", "-", given=given)
        tried.same(f"{what}: rows", told.count("\n"), rows)
        tried.same(f"{what}: fault", (status, error.count("\n"), fault in error), (2, 1, True))
    file = tried.folder / "capture.pcap"
    file.write_bytes(octets)
    for what, words in (("no file", [tried.folder / "none"]), ("a folder", [tried.folder]),
                        ("no program", ["--bin", tried.folder / "none", "--answer", "received", file]),
                        ("a program that ends", ["--bin", "/bin/false", "--answer", "received", file]),
                        ("a program that says nothing", ["--bin", "/bin/true", "--answer", "received", file])):
        status, _, error = tried.tool("gsmtap.py", *words)
        tried.same(what, (status, error.count("\n")), (2, 1))
    status, _, error = tried.tool("gsmtap.py", "--answer", "maybe", file)
    tried.same("no reading", (status, "Traceback" in error), (2, False))


def damaged(source: random.Random, octets: bytes) -> bytes:
    """The octets with some of them changed."""
    data = bytearray(octets)
    for _ in range(source.randrange(1, 5)):
        at = source.randrange(len(data))
        match source.randrange(5):
            case 0:
                data[at] = source.randrange(256)
            case 1:
                del data[at:at + source.randrange(1, 30)]
            case 2:
                data[at:at] = data[at:at + source.randrange(1, 60)]
            case 3:
                data[at:at + 4] = source.choice([b"\xff" * 4, bytes(4), b"\x0a\x0d\x0d\x0a"])
            case _ if len(data) > 100:
                del data[max(40, at):]
    return bytes(data)


def stopped(*_: object) -> None:
    raise TimeoutError("it hangs")


def try_damaged(tried: Tried) -> None:
    """Damaged captures, by a seed: no hang, no traceback, at most one line."""
    source = random.Random(56)
    whole = [made_capture(link, form, order) for link in LINKS for form in FORMS for order in "<>"]
    whole += [gzip.compress(one) for one in whole]
    file = tried.folder / "damaged"
    signal.signal(signal.SIGALRM, stopped)
    for number in range(6000 if tried.is_whole else 600):
        file.write_bytes(damaged(source, source.choice(whole)))
        error = io.StringIO()
        signal.alarm(20)
        try:
            with contextlib.redirect_stdout(io.StringIO()), contextlib.redirect_stderr(error):
                status = gsmtap.run(gsmtap.options_of([str(file)]))
            told = (status, error.getvalue().count("\n"))
        except Exception as fault:  # any that escapes is what is looked for
            told = repr(fault)
        signal.alarm(0)
        tried.same(f"damaged capture {number}", told in [(0, 0), (2, 1)], True)


def try_memory(tried: Tried) -> None:
    """What is kept does not grow with the capture."""
    packets = [LINKS["Ethernet"][1](frame.octets) for frame in frames()]
    body = pcap(1, packets)[24:]

    def most(times: int) -> int:
        class Long(io.RawIOBase):
            left = times

            def read(self, size: int = -1, /) -> bytes:
                self.left -= 1
                return pcap(1, []) if self.left == times - 1 else body * 20 if self.left >= 0 else b""

        tracemalloc.start()
        for _ in gsmtap.blocks_of(Long()):
            pass
        peak = tracemalloc.get_traced_memory()[1]
        tracemalloc.stop()
        return peak

    few, many = most(20), most(400 if tried.is_whole else 80)
    tried.same("memory of a long capture", many < few * 1.5, True)


def try_all(tried: Tried) -> None:
    assert time_of(1).startswith(str(BEGIN + 1))
    for one in (try_forms, try_pieces, try_beside_tshark, try_answers, try_no_blocks, try_many_runs, try_growing, try_faults,
                try_damaged, try_memory):
        one(tried)
