"""The Wireshark plugins: what tshark shows by them is what csn_explain tells, and as its own items say."""
from __future__ import annotations

import re
import shlex
import xml.etree.ElementTree as ElementTree
from pathlib import Path
from typing import Iterator

from made import HEADS, LINKS, frames, ip4, pcap, tap, time_of
from made_messages import Block, Messages, messages
from places import Place
from shown_blocks import Item, Shown, items_of_wireshark, labels_at_leaves, shown_by_plugin, told_by
from tried import EXAMPLES, ROOT, TOOLS, Tried
from tsharks import PAGE_IN_C, Tshark, as_user, environment_of, tsharks_of

SHOWN_IN_LUA = "tshark -X lua_script:tools/wireshark/nambroit.lua -r capture.pcapng -O nambroit -Y 'frame.number == 2'"
ALWAYS_IN_LUA = "echo \"dofile('$PWD/tools/wireshark/nambroit.lua')\" > ~/.local/lib/wireshark/plugins/nambroit.lua"
FILTERED_IN_C = "tshark -r capture.pcapng -Y 'nambroit.rac == 1'"


def capture_of(tried: Tried, name: str, octets: list[bytes], link: str = "Ethernet") -> Path:
    number, packet = LINKS[link]
    file = tried.folder / f"{name}.pcap"
    file.write_bytes(pcap(number, [packet(one) for one in octets]))
    return file


def shown_of(tried: Tried, tshark: Tshark, made: Messages) -> Iterator[tuple[ElementTree.Element, Shown | None]]:
    """Each frame, and what is shown of it."""
    file = tried.folder / "messages.pdml"
    file.write_text(tshark.run(capture_of(tried, "messages", made.frames), "-T", "pdml"))
    packets = ElementTree.parse(file).getroot().findall("packet")
    tried.same("frames that tshark shows", len(packets), len(made.frames))
    tried.same("faults of the plugin", file.read_text().count("Lua Error"), 0)
    return ((packet, shown_by_plugin(packet)) for packet in packets)


def same_items(packet: ElementTree.Element, shown: Shown) -> list[Item]:
    """The items of Wireshark's own whose bits are those of a leaf."""
    begun = 8 * int(packet.find("proto[@name='nambroit']").get("pos"))
    ours = {(begun + leaf.place, len(leaf.bits)) for leaf in shown.leaves}
    return [item for item in items_of_wireshark(packet) if (item.place, len(item.bits)) in ours]


def try_messages(tried: Tried, tshark: Tshark) -> None:
    """Frames of all channels: the leaves of each block, and the items that Wireshark draws at the same bits."""
    made = messages(2000 if tried.is_whole else 300)
    blocks = [block for block in made.wanted if isinstance(block, Block)]
    told = zip(told_by(tried.companion, blocks), labels_at_leaves(tried, blocks))
    items: list[Item] = []
    for number, ((packet, shown), wanted) in enumerate(zip(shown_of(tried, tshark, made), made.wanted), 1):
        what = f"frame {number}"
        block, labels = next(told) if isinstance(wanted, Block) else (None, 0)
        if block is None or shown is None:
            tried.same(what, shown and shown.answer, wanted)
            continue
        leaves = [leaf if got.kind else leaf._replace(kind="") for leaf, got in zip(block.leaves, shown.leaves)]
        tried.same(f"{what}, {wanted.rule}, {wanted.line}", shown, block._replace(leaves=leaves, alternatives=shown.alternatives))
        # The plugin in C tells alternatives of two choices that have the same path, where paths alone tell one.
        tried.same(f"{what}, alternatives", shown.alternatives < block.alternatives, False)
        if tshark.companion:
            tried.same(f"{what}, alternatives", shown.alternatives, block.alternatives)
        if shown.answer == "ok":
            tried.same(f"{what}, labels", shown.labelled, labels)
        if not wanted.is_joined:
            items += same_items(packet, shown)
    apart = [item for item in items if not item.is_so and not item.is_named]
    tried.same("items of Wireshark's at the same bits that differ", apart, [])
    tried.same("items of Wireshark's at the same bits, three a frame or more", len(items) > 3 * len(blocks), True)
    if tried.is_whole:
        others = sum(not item.is_so for item in items)
        print(f"{tshark.name}: {len(items)} items of Wireshark's at the same bits, {others} differ as named")


def told_of(tshark: Tshark, capture: Path, *names: str, words: tuple[str, ...] = (), **settings: str) -> list[list[str]]:
    """Of each frame the values of some fields of the plugin."""
    asked = [word for name in names for word in ("-e", f"nambroit.{name}")]
    return [row.split("\t") for row in tshark.run(capture, *words, "-T", "fields", *asked, **settings).splitlines()]


def column(rows: list[list[str]], place: int = 0) -> dict[int, str]:
    """The values in a column, by the numbers of the frames that have one."""
    return {number: row[place] for number, row in enumerate(rows, 1) if row[place]}


def try_labels(tried: Tried, tshark: Tshark, capture: Path) -> None:
    """Labels are fields to filter by: of numbers, of alternatives, and of parts, which tell only that they are there."""
    wanted = {"rac": {4: "1"}, "gprs_indicator": {2: "1", 3: "0"}, "gprs_cell_options": {4: "1"},
              "tlli_g_rnti": {6: "0"} | dict.fromkeys((7, 9, 15, 16, 17, 18), "3221225473"), "block.refused": {}}
    rows = told_of(tshark, capture, *wanted)
    for place, name in enumerate(wanted):
        tried.same(f"frames with {name}", column(rows, place), wanted[name])
    tried.same("frames by a filter", tshark.run(capture, "-Y", "nambroit.rac == 1 && nambroit.t3192 < 3").count("\n"), 1)
    rows = [line for line in (TOOLS / "README.md").read_text().splitlines() if line.startswith("| `nambroit.")]
    filters = [told for row in rows for told in re.findall("`(nambroit[^`]*)`", row.split(" | ")[0])]
    found = tshark.run(capture, "-Y", " || ".join(f"({told})" for told in filters))
    tried.same("filters of the page", (len(filters), found.startswith("status"), found.count("\n") > 3), (9, False, True))


def try_recipes(tried: Tried, tshark: Tshark, capture: Path) -> None:
    """What the page of recipes has tshark go on with."""
    rows = [line for line in (ROOT / "docs/RECIPES.md").read_text().splitlines() if re.match(r"\| .*`-\S.*nambroit", line)]
    asked = [shlex.split(row.split("`")[1]) for row in rows]
    failed = [words for words in asked if tshark.run(capture, *words).startswith("status")]
    tried.same("words of the recipes", (len(asked), failed), (5, []))


def place_of(tried: Tried, tshark: Tshark, page: Path, home: Path, capture: Path) -> Place:
    """Where the commands of a page run, over a capture."""
    place = Place(tried, tshark.folder / "page", page, environment_of(home, tshark.companion, {}))
    (place.folder / "capture.pcapng").symlink_to(capture)
    return place


def try_page_in_lua(tried: Tried, tshark: Tshark, capture: Path) -> None:
    """The commands of the page: what one shows, and that by another the plugin is always there."""
    place = place_of(tried, tshark, TOOLS / "README.md", tshark.folder / "page", capture)
    example = place.page.read_text().split(f"    $ {SHOWN_IN_LUA}\n")[1].split("        ..\n")[0]
    shown = "".join(f"    {line}\n" for line in place.told(SHOWN_IN_LUA).splitlines())
    tried.same("the example of the page", (example.count("\n"), example in shown), (8, True))
    if as_user() is None:
        return tried.skip("a plugin that is always loaded", "root cannot be another user here")
    (place.folder / ".local/lib/wireshark/plugins").mkdir(parents=True)
    place.run(ALWAYS_IN_LUA)
    always = Tshark("always", place.folder, [*as_user(), "tshark"], tshark.companion)
    tried.same("a plugin that is always loaded", column(told_of(always, capture, "rac")), {4: "1"})


def try_page_in_c(tried: Tried, tshark: Tshark, capture: Path) -> None:
    place = place_of(tried, tshark, PAGE_IN_C, tshark.folder, capture)
    place.before = tuple(as_user() or ())
    tried.same("the frames of the page's filter", [line.split()[0] for line in place.told(FILTERED_IN_C).splitlines()], ["4"])


def try_segments(tried: Tried, tshark: Tshark, capture: Path) -> None:
    """Segments are joined within their downlink, and lead to each other where the capture is read twice."""
    second_of = {8: "9", 11: "17", 12: "18", 13: "16", 14: "15"}
    first_of = {int(second): str(first) for first, second in second_of.items()}
    answers = ["wait 3", "ok", "bad 9"] + ["wait 3"] * 4 + ["ok"] * 4 + ["bad 9"]
    eight_and_ten = " || ".join(f"frame.time_epoch == {time_of(number)[:-3]}" for number in (8, 10))
    rows = told_of(tshark, capture, "block.answer", words=("-2", "-R", eight_and_ten))
    tried.same("a first segment that is shown again, and a second one that came again", rows, [["wait 3"], ["bad 9"]])
    # Without a filter tshark makes a tree at its first reading only where a plugin in C asks for one.
    at_second = first_of if tshark.companion else first_of | second_of
    for words, other_of in ((), first_of), (("-2",), at_second), (("-2", "-Y", "udp"), first_of | second_of):
        rows = told_of(tshark, capture, "block.segment", "block.answer", words=words)
        tried.same(f"segments with {words}", column(rows), other_of)
        tried.same(f"answers to segments with {words}", [row[1] for row in rows[7:19]], answers)


def try_preferences(tried: Tried, tshark: Tshark, capture: Path) -> None:
    """Any rule is set by a variable, by a preference that is saved, or by one on the command line."""
    rule = f"{EXAMPLES / 'flag.csn1'}#Flag"
    told = column(told_of(tshark, capture, "block.rule", si3="", si4="", uplink="", downlink=""))
    tried.same("rules that are empty", {number: told[number] for number in told if number < 20},
               {1: "SI 1 Rest Octets", 4: "SI 13 Rest Octets", 5: "IA Rest Octets"})
    by_word = told_of(tshark, capture, "block.rule", words=("-o", f"nambroit.si3:{rule}"))
    tried.same("a rule by a word", by_word[1], ["Flag"])
    by_variable = told_of(tshark, capture, "block.rule", "value", si3=rule)
    saved = tshark.folder / "wireshark/preferences"
    saved.parent.mkdir()
    saved.write_text(f"nambroit.si3: {rule}\n")
    by_preference = told_of(tshark, capture, "block.rule", "value", si3="")
    saved.unlink()
    for what, rows in ("a variable", by_variable), ("a saved preference", by_preference):
        tried.same(f"a rule by {what}", (rows[1][0], column(rows, 1)), ("Flag", {2: "6"}))
    spare = capture_of(tried, "spare", [tap(1, HEADS["si1"] + "82")])
    tried.same("a spare bit that is turned", told_of(tshark, spare, "block.answer"), [["ok"]])
    tried.same("the same, as it is sent", told_of(tshark, spare, "block.refused", reading="sent"), [["7"]])


def try_other_blocks(tried: Tried, tshark: Tshark) -> None:
    """A block of any protocol, by the field that has its octets."""
    rule, blocks = EXAMPLES / "poll.csn1", (EXAMPLES / "poll.blocks").read_text().split()
    capture = tried.folder / "other.pcap"
    capture.write_bytes(pcap(1, [bytes(12) + b"\x08\x00" + ip4(b"\xff" + bytes.fromhex(block), 5000) for block in blocks]))
    settings = {"other": f"{rule}#Poll", "other_field": "udp.payload", "other_skip": "1"}
    rows = told_of(tshark, capture, "block.answer", "tfi", **settings)
    answers = tried.csn_cli(["show", str(rule), "Poll", "received"], blocks)
    tried.same("answers to other blocks", [row[0] for row in rows], [answer.partition(" [")[0] for answer in answers])
    tried.same("a field of other blocks, also before a refusal", column(rows, 1), {1: "21", 3: "21", 5: "21"})
    rows = told_of(tshark, capture, "block.answer", **settings | {"other_field": "no.such"})
    tried.same("a field that Wireshark has not", rows, [[""]] * len(blocks))


def try_long_blocks(tried: Tried, tshark: Tshark) -> None:
    """More octets than one run of csn_explain takes, in blocks that are longer than a pipe holds."""
    rule = tried.folder / "long.csn1"
    rule.write_text("<Long> ::= <A : bit (5)> <B : bit (**)> ;\n")
    capture = tried.folder / "long.pcap"
    packets = [bytes(12) + b"\x08\x00" + ip4(bytes([number]) + bytes(60000), 5000) for number in range(160)]
    capture.write_bytes(pcap(1, packets))
    rows = told_of(tshark, capture, "a", "block.answer", other=f"{rule}#Long", other_field="udp.payload")
    tried.same("long blocks", rows, [[str(number >> 3), "ok"] for number in range(160)])


def try_cut_frames(tried: Tried, tshark: Tshark) -> None:
    """Frames that end anywhere."""
    whole = [frame.octets for frame in frames()[3:9]]
    cut = [octets[:length] for octets in whole for length in range(len(octets))]
    shown = tshark.run(capture_of(tried, "cut", cut), "-V")
    tried.same("frames that are cut", shown.count("\nFrame ") + 1, len(cut))
    tried.same("faults of the plugin in frames that are cut", shown.count("Lua Error"), 0)


def try_faults(tried: Tried, tshark: Tshark, capture: Path) -> None:
    """A description that cannot be used is told beside each block, and tshark goes on."""
    rows = told_of(tshark, capture, "block.answer", "block.rule", si3=f"{EXAMPLES / 'undefined.csn1'}#Poll", si4="/no/such#Poll",
                   si13="44.018.csn1")
    tried.same("a description that is refused", rows[1], ["description 1 33", "Poll"])
    tried.same("no description", (rows[2][0] not in ("", "ok"), rows[2][1]), (True, "Poll"))
    tried.same("no rule", rows[3], ["", ""])
    try_fault(tried, tshark, capture, "no reading", "", reading="maybe")


def try_fault(tried: Tried, tshark: Tshark, capture: Path, what: str, wanted: str, **settings: str) -> None:
    """Beside each block that is else answered, some words are told in place of an answer."""
    answers = column(told_of(tshark, capture, "block.answer"))
    rows = told_of(tshark, capture, "block.answer", **settings)
    told = column(rows)
    blocks = [number for number, answer in answers.items() if answer[:3] in ("ok", "no ")]
    tried.same(f"{what}: frames", len(rows), len(frames()))
    tried.same(f"{what}: answers", [told[number] for number in blocks if wanted not in told[number]
                                    or told[number][:3] in ("ok", "no ", "bad")], [])


def try_programs(tried: Tried, tshark: Tshark, capture: Path) -> None:
    """A program that cannot be used is told beside each block."""
    for what, program, wanted in (
            ("no program", "/no/such", "not found"), ("a program with a quote", "/it's", "not found"),
            ("a program that says nothing", "/bin/true", "ended"), ("a program that fails", "/bin/false", "does not run")):
        try_fault(tried, tshark, capture, what, wanted, program=program)
    ending = tried.folder / "ending"
    ending.write_text(f"#!/bin/sh\nif [ $1 = nodes ]; then exec '{tshark.companion}' \"$@\"; fi\nread line\necho ok\n")
    ending.chmod(0o755)
    told = column(told_of(tshark, capture, "block.answer", program=str(ending)))
    tried.same("a program that ends early", [told[number] for number in (7, 15, 16)], ["ok"] + [f"{ending} ended"] * 2)


def try_plugin(tried: Tried, tshark: Tshark) -> None:
    if tried.companion:
        try_messages(tried, tshark)
    else:
        tried.skip("the fields of 2,000 frames", "csn_explain is not built")
    capture = capture_of(tried, "frames", [frame.octets for frame in frames()])
    for one in (try_labels, try_recipes, try_segments, try_preferences, try_faults):
        one(tried, tshark, capture)
    if tshark.companion:
        try_page_in_lua(tried, tshark, capture)
        try_programs(tried, tshark, capture)
    else:
        try_page_in_c(tried, tshark, capture)
    try_other_blocks(tried, tshark)
    try_cut_frames(tried, tshark)
    if tried.is_whole:
        try_long_blocks(tried, tshark)


def try_all(tried: Tried) -> None:
    for tshark in tsharks_of(tried):
        tried.part = f"{tshark.name}: "
        try_plugin(tried, tshark)
        tried.part = ""
