#!/usr/bin/env python3
"""Hands the answers of several runs of `replay` on, and prints the sums of their counts behind them."""
import re
import sys

sums: dict[str, int] = {}
for line in sys.stdin:
    if re.match("entry |refused |bits ", line):
        name, _, count = line.rpartition(" ")
        sums[name] = sums.get(name, 0) + int(count)
    else:
        sys.stdout.write(line)
sys.stdout.writelines(f"{name} {count}\n" for name, count in sums.items())
