#!/usr/bin/env python3
"""Prints the text of the catalogue, which the other scripts take as a file.

usage: bench/catalogue.py > CATALOGUE

It stands in a byte string of csn_catalogue, in which nothing is escaped but the end of its first line.
"""
import sys
from pathlib import Path

SOURCE = Path(__file__).resolve().parent.parent / "crates/csn_catalogue/src/catalogue.rt"


def main():
    _, _, behind = SOURCE.read_text().partition('= b"\\\n')
    text, _, _ = behind.partition('";\n')
    sys.stdout.write(text)


if __name__ == "__main__":
    main()
