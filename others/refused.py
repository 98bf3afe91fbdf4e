#!/usr/bin/env python3
"""Finds the first line of a trace that `check` refuses.

    python3 others/refused.py JUDGE < LINES

JUDGE is evat, or evat_check. Each line is read by itself, so a front of the lines with `end` behind it is refused exactly if it has such a line.
"""
from __future__ import annotations

import subprocess
import sys

REFUSED = 6


def is_refused(judge: str, lines: list[str]) -> bool:
    text = "".join(line + "\n" for line in [*lines, "end"])
    return subprocess.run([judge, "check"], input=text.encode(), stdout=subprocess.DEVNULL).returncode == REFUSED


def first_refused(judge: str, lines: list[str]) -> int:
    """How many lines the shortest front has that is refused, where the whole is."""
    fine, refused = 0, len(lines)
    while refused - fine > 1:
        middle = (fine + refused) // 2
        fine, refused = (fine, middle) if is_refused(judge, lines[:middle]) else (middle, refused)
    return refused


def main() -> None:
    text = sys.stdin.read()
    lines = text.split("\n")
    if lines.pop() != "" or not lines or lines.pop() != "end":
        print("the last line is not `end` with its line feed")
    if not is_refused(sys.argv[1], lines):
        print("no line is refused")
    else:
        number = first_refused(sys.argv[1], lines)
        print(f"{number}: {lines[number - 1]}")


if __name__ == "__main__":
    main()
