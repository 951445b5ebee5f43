"""Much data by existing engines, with the commands of the page: order and completeness are held by a checksum."""
from __future__ import annotations

import gzip
import hashlib
import json
import os
import random
import re
import shlex
import shutil
import signal
import subprocess
import sys
import time
from collections import Counter
from dataclasses import dataclass
from pathlib import Path

from made import HEADS, LINKS, pcap, pcapng, tap
from places import Place
from tried import EXAMPLES, Tried
from try_back import segment_lines

COUNT = re.compile(r"(entry \w+|refused|bits) (\d+)")
# How the page has a cluster of several machines.
SCHEDULER, WORKER, ADDRESS = "dask scheduler --port 8786", "dask worker tcp://10.0.0.1:8786 --nthreads 1", "tcp://10.0.0.1:8786"
ANSWERED = "tools/on_dask.py tcp://10.0.0.1:8786 received part-??"


@dataclass
class Wanted:
    """What the answers and the counts of some lines come to, by runs one after another."""

    lines: int
    checksum: str
    counts: dict[str, int]


def made_lines(octets: int) -> list[str]:
    """Lines of all entries, of which hardly two are the same."""
    source = random.Random(50)
    good = [line for line in (EXAMPLES / "capture.blocks").read_text().split("\n") if re.fullmatch("[a-z0-9]+ ([0-9A-F]{2}){2,}", line)]
    lines, used = [], 0
    while used < octets:
        line = source.choice(good)
        lines.append(f"{line[:-4]}{source.randrange(65536):04X}")
        used += len(line) + 1
    return lines


def wanted_of(tried: Tried, command: str, lines: list[str]) -> Wanted:
    sums: Counter[str] = Counter()
    digest = hashlib.sha256()
    answers = 0
    step = 100_000 if command == "replay" else len(lines)
    for at in range(0, len(lines), step):
        for answer in tried.csn_cli([command, "received"], lines[at:at + step]):
            count = COUNT.fullmatch(answer)
            if count:
                sums[count[1]] += int(count[2])
            else:
                digest.update(answer.encode() + b"\n")
                answers += 1
    return Wanted(answers, digest.hexdigest(), dict(sums))


def found_in(text: str) -> Wanted:
    """The same of what an engine gave, whose counts are summed already."""
    rows = text.splitlines(keepends=True)
    answers = [row for row in rows if not COUNT.fullmatch(row.rstrip("\n"))]
    counts = {count[1]: int(count[2]) for count in map(COUNT.fullmatch, map(str.rstrip, rows)) if count}
    return Wanted(len(answers), hashlib.sha256("".join(answers).encode()).hexdigest(), counts)


def try_parallel(place: Place, wanted: Wanted) -> None:
    place.run("parallel -k --pipepart -a lines --block 8M csn_cli replay received | tools/sum_counts.py > answers")
    place.tried.same("parts of a file by parallel", found_in(place.text("answers")), wanted)


def try_files(place: Place, lines: list[str]) -> None:
    """Captures side by side."""
    captures = place.folder / "captures"
    captures.mkdir()
    number, packet = LINKS["Ethernet"]
    parts = [lines[at::7] for at in range(7)]
    for name, part in enumerate(parts):
        frames = [packet(framed(line)) for line in part]
        (captures / f"{name}.pcap.gz").write_bytes(gzip.compress(pcap(number, frames), 1))
    place.run("parallel 'tools/gsmtap.py --answer received {} > {}.answers' ::: captures/*.pcap.gz")
    place.run("cat captures/*.answers | tools/sum_counts.py > counted")
    told = [row.split("\t") for row in place.text("counted").splitlines()]
    answers = "".join(row[3] + "\n" for row in told if len(row) == 4)
    counts = "".join(row[0] + "\n" for row in told if len(row) == 1)
    wanted = wanted_of(place.tried, "replay", [line for part in parts for line in part])
    place.tried.same("captures side by side", found_in(answers + counts), wanted)


def framed(line: str) -> bytes:
    """The GSMTAP frame of a line."""
    entry, block = line.split(" ")
    if entry in HEADS:
        return tap(1, HEADS[entry] + block)
    return tap(13, "40" + block, uplink=True)


def try_one_downlink(place: Place) -> None:
    """The lines of one downlink by gsmtap.py, and without it where tshark is at hand."""
    lines = [line for line in segment_lines(random.Random(9), 500) if len(line) == 46]
    number, packet = LINKS["Ethernet"]
    frames = [packet(tap(13, line, slot=6)) for line in lines]
    (place.folder / "capture.pcapng").write_bytes(pcapng(number, frames))
    controls = [line for line in lines if line[0] in "48B"]
    wanted = wanted_of(place.tried, "segments", controls)
    place.run("tools/gsmtap.py --only 871/6 capture.pcapng | csn_cli segments received", "found")
    place.tried.same("one downlink by gsmtap.py", found_in(place.text("found")), wanted)
    if shutil.which("tshark"):
        place.run("tshark -r capture.pcapng -Y 'gsmtap.chan_type==13 && gsmtap.uplink==0' -T fields -e udp.payload"
                  " | cut -c33- | csn_cli segments received", "found")
        place.tried.same("one downlink by tshark", found_in(place.text("found")), wanted_of(place.tried, "segments", lines))
    else:
        place.tried.skip("the downlink by tshark", "it is not installed")


def try_xargs(place: Place, wanted: Wanted) -> None:
    place.run("split -C 8M lines part-")
    place.run("ls part-* | xargs -P 4 -I{} sh -c 'csn_cli replay received < {} > {}.out'")
    place.run("cat part-*.out | tools/sum_counts.py > answers")
    place.tried.same("parts of a file by xargs", found_in(place.text("answers")), wanted)


def try_segments(place: Place) -> None:
    lines = segment_lines(random.Random(8), 300_000 if place.tried.is_whole else 60_000)
    (place.folder / "blocks").write_text("".join(line + "\n" for line in lines))
    place.run("tools/split_segments.py --octets 1000000 parts < blocks > parts.list")
    place.run("parallel -k --colsep ' ' 'csn_cli segments received < {1} | tail -n +{2}' < parts.list > joined")
    place.tried.same("more than one part", place.text("parts.list").count("\n") > 1, True)
    place.tried.same("segments over parts", found_in(place.text("joined")), wanted_of(place.tried, "segments", lines))


def python_with_distributed() -> str:
    """A Python that has dask.distributed, or nothing."""
    for python in (sys.executable, "/usr/bin/python3"):
        ran = subprocess.run([python, "-c", "import dask.__main__, distributed"], capture_output=True, check=False)
        if ran.returncode == 0:
            return python
    return ""


def on_this_machine(place: Place, command: str, address: str = "") -> list[str]:
    """The words of a command of the page, with the address of this cluster, or any port, in place of the page's."""
    return shlex.split(place.words_of(command)[-1].replace(ADDRESS, address).replace("8786", "0"))


def try_cluster(place: Place, python: str, wanted: Wanted) -> None:
    """A cluster of three workers over TCP, of which one is killed in the middle."""
    size = 500_000 if place.tried.is_whole else 50_000
    subprocess.run(["split", "-C", str(size), "-a", "4", "lines", "share-"], cwd=place.folder, check=True)
    shares = sorted(str(file) for file in place.folder.glob("share-*"))
    about = place.folder / "scheduler.json"
    quiet = {"stdout": subprocess.DEVNULL, "stderr": subprocess.DEVNULL, "cwd": place.folder}
    begin = [*on_this_machine(place, SCHEDULER), "--host", "127.0.0.1", "--no-dashboard", "--scheduler-file", str(about)]
    started = [subprocess.Popen([python, "-m", *begin], **quiet)]
    try:
        address = address_in(about)
        work = [*on_this_machine(place, WORKER, address), "--no-nanny", "--no-dashboard"]
        started += [subprocess.Popen([python, "-m", *work], **quiet) for _ in range(3)]
        script, *words, _ = on_this_machine(place, ANSWERED, address)
        main = subprocess.Popen([python, script, "--bin", place.tried.program, *words, *shares], cwd=place.folder,
                                stdout=subprocess.PIPE, stderr=subprocess.DEVNULL, text=True)
        started.append(main)
        done = kill_in_the_middle(started[1], place.folder)
        place.tried.same("a worker was killed in the middle", 0 < done < len(shares), True)
        counts = main.communicate(timeout=300)[0]
    finally:
        for process in started:
            process.kill()
            process.wait()
    answers = "".join(Path(f"{share}.answers").read_text() for share in shares)
    place.tried.same("a cluster of which a worker was killed", found_in(answers + counts), wanted)


def address_in(about: Path) -> str:
    for _ in range(600):
        try:
            return json.loads(about.read_text())["address"]
        except (OSError, ValueError):
            time.sleep(0.05)
    raise TimeoutError("no scheduler")


def kill_in_the_middle(worker: subprocess.Popen, folder: Path) -> int:
    """Kills a worker when first answers are there, and gives how many are."""
    for _ in range(60_000):
        done = len(list(folder.glob("share-*.answers")))
        if done:
            worker.send_signal(signal.SIGKILL)
            return done
        time.sleep(0.001)
    return 0


def try_all(tried: Tried) -> None:
    place = Place(tried, tried.folder / "scale")
    lines = made_lines(50_000_000 if tried.is_whole else 9_000_000)
    (place.folder / "lines").write_text("".join(line + "\n" for line in lines))
    wanted = wanted_of(tried, "replay", lines)
    tried.same("answers in all", wanted.lines, len(lines))
    if shutil.which("parallel"):
        try_parallel(place, wanted)
        frames = [line for line in lines if not line.startswith("downlink")]
        try_files(place, frames if tried.is_whole else frames[:20_000])
        try_segments(place)
    else:
        tried.skip("GNU parallel", "it is not installed")
    try_one_downlink(place)
    try_xargs(place, wanted)
    python = python_with_distributed()
    if python:
        try_cluster(place, python, wanted)
    else:
        tried.skip("a cluster", "no Python here has dask.distributed")
