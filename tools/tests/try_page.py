"""The commands of the page that read and make captures, as they stand there."""
from __future__ import annotations

import os
import re
import select
import shutil
import signal
import socket
import subprocess

from made import LINKS, frames, pcapng, tap
from places import Place
from tried import EXAMPLES, Tried
from try_back import LINES
from try_captures import answers_wanted

ANSWERED = "tools/gsmtap.py --answer received capture.pcapng"
REPLAYED = "tools/gsmtap.py --only replay capture.pcapng | csn_cli replay received"
SHOWN = ("tools/gsmtap.py --only replay capture.pcapng | sed -n 's/^uplink //p' | csn_cli show descriptions/44.060.csn1 "
         "'Uplink RLC/MAC control message' received")
LISTENING = "tcpdump -i lo -U -w - udp port 4729 | tools/gsmtap.py --answer received -"
MADE = "tools/to_pcap.py --arfcn 871 --slot 6 < lines > blocks.pcap"
PORT = 4729


def try_capture(place: Place) -> None:
    """A capture answered beside its frames, by `replay`, and by a description."""
    number, packet = LINKS["Ethernet"]
    (place.folder / "capture.pcapng").write_bytes(pcapng(number, [packet(frame.octets) for frame in frames()]))
    lines = [frame.line for frame in frames() if frame.job == "replay"]
    place.tried.same("the page's answers", place.told(ANSWERED).splitlines(), answers_wanted(place.tried))
    replayed = place.tried.csn_cli(["replay", "received"], lines)
    place.tried.same("the page's replay", place.told(REPLAYED).splitlines(), replayed)
    uplinks = [line.removeprefix("uplink ") for line in lines if line.startswith("uplink ")]
    words = ["show", str(place.folder / "descriptions/44.060.csn1"), "Uplink RLC/MAC control message", "received"]
    shown = place.tried.csn_cli(words, uplinks)
    place.tried.same("the page's trees", (place.told(SHOWN).splitlines(), len(shown) > 0), (shown, True))


def try_to_capture(place: Place) -> None:
    (place.folder / "lines").write_text("".join(line + "\n" for line in LINES))
    place.run(MADE)
    status, rows, fault = place.tried.tool("gsmtap.py", place.folder / "blocks.pcap")
    places = [row.split("\t")[2] for row in rows.splitlines()]
    place.tried.same("the page's capture", (status, places, fault), (0, ["replay"] * 6 + ["871/6"] * 2, ""))


def first_row(ran: subprocess.Popen) -> str:
    """The first row that comes of datagrams that are sent until one does."""
    line = next(line for line in (EXAMPLES / "capture.blocks").read_text().split("\n") if re.fullmatch("uplink ([0-9A-F]{2})+", line))
    with socket.socket(socket.AF_INET, socket.SOCK_DGRAM) as sender:
        for _ in range(100):
            sender.sendto(tap(13, "40" + line.split(" ")[1], uplink=True), ("127.0.0.1", PORT))
            if select.select([ran.stdout], [], [], 0.2)[0]:
                return os.read(ran.stdout.fileno(), 1 << 16).decode()
            if ran.poll() is not None:
                break
    return ""


def try_listening(place: Place) -> None:
    """Frames are answered as they come from the net."""
    if not shutil.which("tcpdump") or os.geteuid() != 0:
        return place.tried.skip("frames from the net", "tcpdump is not installed, or needs root")
    with subprocess.Popen(place.words_of(LISTENING), cwd=place.folder, env=place.path(), stdin=subprocess.DEVNULL,
                          stdout=subprocess.PIPE, stderr=subprocess.DEVNULL, start_new_session=True) as ran:
        row = first_row(ran)
        os.killpg(ran.pid, signal.SIGTERM)
    place.tried.same("the row of a frame from the net", re.sub(r"\t[\d.]+\t", "\t", row)[:12], "1\treplay\tok ")


def try_all(tried: Tried) -> None:
    place = Place(tried, tried.folder / "page")
    for one in (try_capture, try_to_capture, try_listening):
        one(place)
