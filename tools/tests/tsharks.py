"""Runs of tshark with one of the plugins, in a folder of their own."""
from __future__ import annotations

import os
import re
import shlex
import shutil
import subprocess
from dataclasses import dataclass
from pathlib import Path

from places import Place
from tried import ROOT, TOOLS, Tried

LUA = TOOLS / "wireshark/nambroit.lua"
PAGE_IN_C = ROOT / "bindings/wireshark/README.md"
INSTALL = "make -C bindings/wireshark install"
AS_ANOTHER = ["unshare", "--map-user=1000", "--map-group=1000"]    # since tshark loads no plugin for root


@dataclass
class Tshark:
    """tshark with a plugin, and with no preferences but those that are given."""

    name: str
    folder: Path           # its home
    words: list[str]       # that run it with the plugin
    companion: str         # csn_explain, or nothing where the plugin has no use for it

    def run(self, capture: Path, *words: str, **settings: str) -> str:
        """What it prints of a capture. A setting is a variable of the plugin."""
        ran = subprocess.run([*self.words, "-r", str(capture), *words], env=environment_of(self.folder, self.companion, settings),
                             stdout=subprocess.PIPE, stderr=subprocess.DEVNULL, text=True, check=False, timeout=600)
        return ran.stdout if ran.returncode == 0 else f"status {ran.returncode}"


def environment_of(home: Path, companion: str, settings: dict[str, str]) -> dict[str, str]:
    environment = {name: value for name, value in os.environ.items() if not name.startswith("NAMBROIT_")}
    environment |= {"HOME": str(home), "XDG_CONFIG_HOME": str(home), "NAMBROIT_PROGRAM": companion}
    return environment | {"NAMBROIT_" + name.upper(): value for name, value in settings.items()}


def in_lua(tried: Tried, about: str) -> Tshark | None:
    if not re.search(r"\bwith\s+Lua", about):
        return tried.skip("the Lua plugin", "this tshark has no Lua")
    if not tried.companion:
        return tried.skip("the Lua plugin", "csn_explain is not built")
    folder = tried.folder / "lua"
    folder.mkdir()
    return Tshark("Lua", folder, ["tshark", "-X", f"lua_script:{LUA}"], tried.companion)


def runs(*words: str) -> bool:
    return shutil.which(words[0]) is not None and subprocess.run(words, capture_output=True, check=False).returncode == 0


def as_user() -> list[str] | None:
    """What runs a command for which tshark loads plugins, or nothing where there is no such way."""
    return [] if os.geteuid() != 0 else AS_ANOTHER if runs(*AS_ANOTHER, "true") else None


def in_c(tried: Tried) -> Tshark | None:
    """The plugin over the library, which is built here."""
    if not tried.archive:
        return tried.skip("the C plugin", "the library is not built")
    for tool in "make", "cc", "pkg-config":
        if not shutil.which(tool):
            return tried.skip("the C plugin", f"there is no {tool}")
    if not runs("pkg-config", "--exists", "wireshark"):
        return tried.skip("the C plugin", "Wireshark's headers are not installed")
    if as_user() is None:
        return tried.skip("the C plugin", "tshark loads no plugin for root, and root cannot be another user here")
    folder = tried.folder / "c"
    place = Place(tried, tried.folder / "built", PAGE_IN_C)
    words = [f"ARCHIVE={tried.archive}", f"OUT={folder}", f"HOME={folder}"]
    built = subprocess.run([*shlex.split(place.words_of(INSTALL)[-1]), "-s", *words], cwd=place.folder, stdout=subprocess.PIPE,
                           stderr=subprocess.STDOUT, text=True, check=False)
    tried.same("the C plugin as it is built", (built.returncode, built.stdout), (0, ""))
    return Tshark("C", folder, [*as_user(), "tshark"], "")


def tsharks_of(tried: Tried) -> list[Tshark]:
    """tshark with each plugin that can be tried."""
    if not shutil.which("tshark"):
        tried.skip("the Wireshark plugins", "tshark is not installed")
        return []
    about = subprocess.run(["tshark", "--version"], stdout=subprocess.PIPE, stderr=subprocess.DEVNULL, text=True, check=False)
    return [tshark for tshark in (in_lua(tried, about.stdout), in_c(tried)) if tshark is not None]
