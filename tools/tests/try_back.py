"""Blocks to a capture, sums of counts, and parts of one downlink."""
from __future__ import annotations

import random
import shutil
import subprocess
import sys

from made import FIRST, SECOND
from tried import TOOLS, Tried

POLLING = "10B00000006B2B2B2B2B2B2B2B2B2B2B2B2B2B2B2B2B"
SI3 = "si3 6EAB2B2B"
UPLINK = "uplink 04000000032B2B2B2B2B2B2B2B2B2B2B2B2B2B2B2B2B"
LINES = [SI3, UPLINK, "si1 83", "si4 2B2B2B2B2B2B2B2B2B2B", "si13 900058406FA2A00F512B2B2B2B2B2B2B2B2B2B2B",
         "ia D0000000002B2B2B2B2B2B", FIRST, f"downlink {POLLING}"]
# How tshark's summary of each ends.
SUMMARIES = ["System Information Type 3", "PACKET_CONTROL_ACKNOWLEDGEMENT", "System Information Type 1",
             "System Information Type 4", "System Information Type 13", "Immediate Assignment", "PACKET_POLLING_REQUEST",
             "PACKET_POLLING_REQUEST"]
FIELDS = ["gsmtap.arfcn", "gsmtap.ts", "gsmtap.chan_type"]


def shown_by_tshark(file: object, *words: str) -> list[str]:
    ran = subprocess.run(["tshark", "-r", str(file), *words], capture_output=True, text=True, check=False)
    return [line.strip() for line in ran.stdout.splitlines()]


def try_capture_of_blocks(tried: Tried) -> None:
    text = "".join(line + "\n" for line in LINES)
    file = tried.folder / "blocks.pcap"
    with open(file, "wb") as capture:
        words = [sys.executable, str(TOOLS / "to_pcap.py"), "--arfcn", "871", "--slot", "6"]
        ran = subprocess.run(words, input=text.encode(), stdout=capture, check=False)
    tried.same("blocks to a capture", ran.returncode, 0)
    status, rows, fault = tried.tool("gsmtap.py", file)
    jobs = ["replay"] * 6 + ["871/6"] * 2
    wanted = [f"{number}\t0.{(number - 1) * 20:03}000000\t{job}\t{line}"
              for number, (job, line) in enumerate(zip(jobs, [*LINES[:7], f"40{POLLING}"]), 1)]
    tried.same("and back", (status, rows.splitlines(), fault), (0, wanted, ""))
    with open(tried.folder / "again.pcap", "wb") as capture:
        later = rows.replace("\t0.", "\t1700000000.")
        subprocess.run([sys.executable, str(TOOLS / "to_pcap.py")], input=later.encode(), stdout=capture, check=False)
    status, again, fault = tried.tool("gsmtap.py", tried.folder / "again.pcap")
    tried.same("rows to a capture and back", (status, again, fault), (0, later, ""))
    if not shutil.which("tshark"):
        return tried.skip("whether Wireshark opens a capture of blocks", "tshark is not installed")
    told = shown_by_tshark(file)
    tried.same("what tshark shows", [line.endswith(end) for line, end in zip(told, SUMMARIES)], [True] * len(LINES))
    told = shown_by_tshark(file, "-o", "ip.check_checksum:TRUE", "-Y", "ip.checksum.status == \"Good\"")
    tried.same("checksums that tshark finds good", len(told), len(LINES))
    told = shown_by_tshark(file, "-T", "fields", *(word for field in FIELDS for word in ("-e", field)))
    tried.same("channels that tshark shows", told, [f"871\t6\t{channel}" for channel in (1, 13, 1, 1, 1, 4, 13, 13)])


def try_lines_refused(tried: Tried) -> None:
    for line, why in (("si9 00", "there is no entry 'si9'"), ("si3 6E/3", "no block of whole octets"), ("", "no block"),
                      ("si3 6EA", "no block of whole octets"), ("40" * 24, "room for 23 octets"),
                      ("uplink " + "40" * 23, "room for 23 octets"), ("nonsense", "no block of whole octets")):
        status, _, fault = tried.tool("to_pcap.py", given=f"{SI3}\n{line}\n".encode())
        tried.same(f"a capture of {line!r}", (status, fault.count("\n"), fault.startswith("to_pcap.py: line 2: "), why in fault),
                   (2, 1, True, True))


def try_sums(tried: Tried) -> None:
    given = b"ok .\nentry si1 2\nrefused 1\nbits 16\nno 3 bit\nbad 5\nentry si1 40\nrefused 0\nbits 320\n"
    wanted = "ok .\nno 3 bit\nbad 5\nentry si1 42\nrefused 1\nbits 336\n"
    tried.same("sums", tried.tool("sum_counts.py", given=given), (0, wanted, ""))


def segment_lines(source: random.Random, many: int) -> list[str]:
    """Segments of a downlink in all orders, and blocks between."""
    body = "10B00000006B2B2B2B2B2B2B2B2B2B2B2B2B2B2B2B"
    lines = []
    for _ in range(many):
        head = source.choice([0x80, 0x80, 0x80, 0xBF, 0x40, 0x00, 0xC0])
        control = source.randrange(8) << 2 | source.choice([0, 0, 0x82, 0x82, 0x80, 0x02])
        line = f"{head:02X}{control:02X}{body}"
        lines.append(source.choice([line] * 60 + [f"{line}\r", f" {line}", f"{line} ", "4G", "80", "."]))
    return lines


def try_parts(tried: Tried) -> None:
    """Parts of a downlink are answered as the whole."""
    source = random.Random(7)
    for octets in 200, 1000, 9000:
        lines = segment_lines(source, 400)
        folder = tried.folder / f"parts-{octets}"
        given = "".join(line + "\n\n" for line in lines).encode()
        status, told, fault = tried.tool("split_segments.py", "--octets", octets, folder, given=given)
        tried.same("splitting", (status, fault), (0, ""))
        joined = []
        for row in told.splitlines():
            file, first = row.split(" ")
            with open(file, encoding="ascii", newline="\n") as part:
                answers = tried.csn_cli(["segments", "received"], part.read().split("\n"))
            tried.same("first segments that wait", {answer[:5] for answer in answers[:int(first) - 1]} <= {"wait "}, True)
            joined += answers[int(first) - 1:]
        tried.same("how many parts", len(told.splitlines()) > 18000 // octets, True)
        tried.same(f"parts of {octets} octets", joined, tried.csn_cli(["segments", "received"], lines))
    wanted = tried.csn_cli(["segments", "received"], [FIRST, SECOND])
    tried.same("a first and a second segment", [answer[:2] for answer in wanted], ["wa", "ok"])


def try_all(tried: Tried) -> None:
    for one in (try_capture_of_blocks, try_lines_refused, try_sums, try_parts):
        one(tried)
