"""The commands of a page, run as they stand there."""
from __future__ import annotations

import os
import subprocess
from dataclasses import dataclass, field
from pathlib import Path

from tried import ROOT, TOOLS, Tried

STATUSES = range(124)          # of engines: how many runs ended by another status than 0, and 123 of xargs
BESIDE = ("tools", "descriptions", "bindings")


@dataclass
class Place:
    """A folder in which the commands of a page run, as at the top of the repository: the program is on the path."""

    tried: Tried
    folder: Path
    page: Path = TOOLS / "README.md"
    environment: dict[str, str] = field(default_factory=lambda: dict(os.environ))
    before: tuple[str, ...] = ()         # words that run the shell

    def __post_init__(self) -> None:
        self.folder.mkdir(exist_ok=True)
        (self.folder / "csn_cli").symlink_to(self.tried.program)
        for beside in BESIDE:
            (self.folder / beside).symlink_to(ROOT / beside)

    def words_of(self, command: str) -> list[str]:
        """What runs a command of the page, which is looked for there."""
        self.tried.same(f"the page has {command}", f"    $ {command}\n" in self.page.read_text(), True)
        return [*self.before, "sh", "-c", command.replace("gsmtap.py ", f"gsmtap.py --bin '{self.tried.program}' ")]

    def path(self) -> dict[str, str]:
        return {**self.environment, "PATH": f"{self.folder}:{os.environ['PATH']}"}

    def run(self, command: str, file: str = "") -> None:
        """Runs a command of the page; what it prints goes into a file, where one is named."""
        ran = subprocess.run(self.words_of(command), cwd=self.folder, stdin=subprocess.DEVNULL, capture_output=True,
                             env=self.path(), check=False)
        if file:
            (self.folder / file).write_bytes(ran.stdout)
        if ran.returncode not in STATUSES:
            self.tried.same(f"the status of {command}", (ran.returncode, ran.stderr), 0)

    def told(self, command: str) -> str:
        """What a command of the page prints."""
        self.run(command, "told")
        return self.text("told")

    def text(self, file: str) -> str:
        return (self.folder / file).read_text()
