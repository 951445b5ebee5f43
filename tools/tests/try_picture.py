"""The page of `csn_explain picture`, as a browser shows it: each bit of a block in one coloured cell."""
from __future__ import annotations

import html
import json
import re
import shutil
import subprocess
from itertools import groupby
from pathlib import Path

from tried import EXAMPLES, Tried

BROWSERS = ("chromium", "chromium-browser", "google-chrome")
WORDS = [str(EXAMPLES / "poll.csn1"), "Poll", "received"]
# Blocks that are read, one that is not of whole octets, some that are refused at a bit or at their end, and no block.
LINES = [*(EXAMPLES / "poll.blocks").read_text().split(), "15AA/7", "354BE0/3", ".", "9Z"]
# Puts in place of the page what the browser shows of each block: its cells of bits, the rows beside them, and the text
# below.
ASK = """<script>
window.onload = () => {
  const told = [...document.querySelectorAll('.block')].map(block => {
    const cells = [...block.querySelectorAll('.bits td')].map(cell => {
      const box = cell.getBoundingClientRect();
      return {bit: cell.textContent, colour: getComputedStyle(cell).backgroundColor, part: cell.dataset.part ?? null,
              octet: cell.parentElement.rowIndex, isSeen: box.width > 4 && box.height > 4};
    });
    const rows = [...block.querySelectorAll('.parts tr[data-part]')].map(row => row.dataset.part);
    return {cells, rows, below: block.nextElementSibling?.textContent ?? ''};
  });
  document.body.textContent = JSON.stringify(told);
};
</script>
"""
GROUND = {"rgba(0, 0, 0, 0)", "rgb(255, 255, 255)"}


def bits_of(line: str) -> str:
    """The bits of a block line."""
    digits, _, last = line.partition("/")
    bits = "".join(f"{octet:08b}" for octet in bytes.fromhex(digits.strip(".")))
    return bits[:len(bits) - 8 + int(last)] if last else bits


def shown_in(browser: str, page: str, folder: Path) -> list[dict]:
    """What a browser shows of the blocks of a page."""
    file = folder / "page.html"
    file.write_text(page.replace("</body>", ASK + "</body>"))
    words = [browser, "--headless", "--no-sandbox", "--disable-gpu", f"--user-data-dir={folder / 'browser'}", "--dump-dom"]
    ran = subprocess.run([*words, file.as_uri()], stdout=subprocess.PIPE, stderr=subprocess.DEVNULL, text=True, check=False,
                         timeout=120)
    body = re.search(r"<body>(.*)</body>", ran.stdout, re.DOTALL)
    return json.loads(html.unescape(body[1])) if body else []


def try_block(tried: Tried, line: str, answer: str, widths: list[int], shown: dict) -> None:
    """A block has one cell a bit, each field one colour, and the bit that is refused a colour of its own."""
    cells, bits = shown["cells"], bits_of(line)
    tried.same(f"{line}: bits", "".join(cell["bit"] for cell in cells), bits)
    tried.same(f"{line}: octets", [cell["octet"] for cell in cells], [place // 8 for place in range(len(bits))])
    tried.same(f"{line}: cells without colour", [cell for cell in cells if cell["colour"] in GROUND or not cell["isSeen"]], [])
    parts = [list(some) for _, some in groupby(cells[:sum(widths)], lambda cell: cell["part"])]
    tried.same(f"{line}: bits of each field", [len(part) for part in parts], widths)
    tried.same(f"{line}: colours of each field", {len({cell["colour"] for cell in part}) for part in parts}, {1} if parts else set())
    tried.same(f"{line}: rows of fields", shown["rows"], [str(number) for number in range(len(widths))])
    verdict, place, *_ = [*answer.split(), "", ""]
    if verdict == "no":
        tried.same(f"{line}: text below", shown["below"].startswith(answer), True)
        refused = {cell["colour"] for cell in cells[int(place):int(place) + 1]}
        tried.same(f"{line}: the refused bit has no other's colour",
                   refused & {cell["colour"] for number, cell in enumerate(cells) if number != int(place)}, set())


def try_all(tried: Tried) -> None:
    browser = next(filter(None, map(shutil.which, BROWSERS)), None)
    if not browser:
        return tried.skip("pictures in a browser", "no chromium is installed")
    if not tried.companion:
        return tried.skip("pictures in a browser", "csn_explain is not built")
    given = "".join(line + "\n" for line in LINES)
    page, fields = (subprocess.run([tried.companion, word, *WORDS], input=given, stdout=subprocess.PIPE, text=True,
                                   check=False).stdout for word in ("picture", "fields"))
    answers = tried.csn_cli(["show", *WORDS], LINES)
    drawn = [(line, answer) for line, answer in zip(LINES, answers) if not answer.startswith("bad")]
    blocks = shown_in(browser, page, tried.folder)
    tried.same("blocks that a browser shows", len(blocks), len(drawn))
    told = iter(fields.splitlines())
    for (line, answer), shown in zip(drawn, blocks):
        widths = []
        while (one := next(told))[0].isdigit():
            widths.append(int(one.split("\t")[1]))
        try_block(tried, line, answer, widths, shown)
    tried.same("a line that is no block", page.count("bad 1 1"), 1)
    tried.same("words of other hosts", re.findall(r"(?:src|href)\s*=|https?:|@import|url\(", page), [])
