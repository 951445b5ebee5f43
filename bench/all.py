#!/usr/bin/env python3
"""Makes all tables of docs/BENCH.md anew, one after another, and says of which machine, day and kit they are.

usage: bench/all.py [--beside OTHER] [--cases N]

The built program is crates/csn_cli/out/csn_cli, which `rt run` leaves there. OTHER is a plain program to compare with, as
certify.py and judge.py take it. N is the number of cases that hostile.py tries, 100,000 where it is left out. Nothing
else should run on the machine meanwhile.
"""
import argparse
import datetime
import platform
import subprocess
import sys
import tempfile
from pathlib import Path

BENCH = Path(__file__).resolve().parent


def run(name, *arguments):
    print(f"\n## {name} {' '.join(arguments)}\n", flush=True)
    return subprocess.run([sys.executable, str(BENCH / name), *arguments]).returncode


def main():
    parser = argparse.ArgumentParser()
    parser.add_argument("--beside")
    parser.add_argument("--cases", default="100000")
    options = parser.parse_args()
    beside = ["--beside", options.beside] if options.beside else []
    kit = subprocess.run(["rt", "version"], capture_output=True, text=True).stdout.strip()
    print(f"{datetime.date.today()}, {platform.machine()}, {platform.release()}, {kit}")
    with tempfile.NamedTemporaryFile(suffix=".csn1") as catalogue:
        subprocess.run([sys.executable, str(BENCH / "catalogue.py")], stdout=catalogue, check=True)
        failed = [
            run("show.py"),
            run("migrate.py"),
            run("tools.py"),
            run("explain.py", "--speed"),
            run("cover.py", "--descriptions", "100"),
            run("mistakes.py"),
            run("descriptions.py"),
            run("certify.py", catalogue.name, *beside),
            run("judge.py", catalogue.name, *beside),
            run("certificates.py", *beside),
            run("growth.py", *beside),
            run("refused.py"),
            run("limits.py"),
            run("hostile.py", "--cases", options.cases),
        ]
    return 1 if any(failed) else 0


if __name__ == "__main__":
    sys.exit(main())
