#!/usr/bin/env python3
"""Times evat beside another program of the same job, run for run in turn, and prints ratios.

    bench/beside.py [BINARY] [--evat FILE] [--tries N] [--only WORD..]

Both are called as evat is (`run`, `expand`, `check`, `sum 3000`), with what they write thrown away. Without BINARY evat's own figures are printed alone.
Each figure is the least of N (5) runs: processor time (user and system) and most resident memory (in which the system counts what this
script holds, some 25 MB, so less is not seen). Runs of both alternate, so that a machine that is slower
for a while is so for both. Of the loops, which spend a million units of fuel and ten, the mean of the ratios stands below. Absolute figures of two machines
are not to be compared; ratios of two binaries are only where both were built alike.
"""
from __future__ import annotations

import argparse
import json
import math
import os
import pathlib
import subprocess
import tempfile

import expansion
import running
import vats

FUELS = [1_000_000, 10_000_000]
KEY = "0" * 64


def doubled(size: int, name: str = "t") -> str:
    """A text of at least that many characters, made by doubling."""
    times = max(0, math.ceil(math.log2(size)))
    return f'var {name} := "a"\nfor i in 1..{times} {{ {name} := {name} + {name} }}\n' if times else f'var {name} := "a"\n'


# What stands before the loop, and its body.
LOOPS = {
    "int loop": ("var n := 0\n", "n := n + 1"),
    "empty while": ("", "null"),
    "for over range": ("", "for i in 1..1000 { null }"),
    "list with": ("", "var l := []; for i in 1..30 { l := l.with(i) }"),
    "list literals": ("", "[1, 2, 3, 4]"),
    "l[k]": ("def l := [1, 2, 3, 4]\n", "l[2]"),
    "method call": ("def o { method put(x) { x } }\n", "o.put(1)"),
    "function call": ("def f(x) { return x }\n", "f(1)"),
    "closure": ("", "def f(x) { x }; f(1)"),
    "object, 8 captures": running.LOOPS["object, 8 captures"],
    "fib": ("def o { method fib(n) { if (n < 2) { n } else { o.fib(n - 1) + o.fib(n - 2) } } }\n", "o.fib(15)"),
    "text + (to 1000)": ("", 'var t := ""; for i in 1..1000 { t := t + "a" }'),
    "text + (to 30000)": ("", 'var t := ""; for i in 1..30000 { t := t + "a" }'),
    "t[k]": ('def t := "abcdef"\n', "t[2]"),
    "try/throw": ("", 'try { throw("bad") } catch p { p }'),
    "escape": ("", "escape ej { ej(1) }"),
    "finally": ("", "try { 1 } finally { 2 }"),
    "deep recursion": ("def o { method down(n) { if (n == 0) { 0 } else { o.down(n - 1) } } }\n", "o.down(1000)"),
    "for over list": ("def l := [1, 2, 3, 4, 5, 6, 7, 8]\n", "for x in l { x }"),
}


def script(source: str, schedule: list[str], fuel: int = vats.AMPLE) -> bytes:
    return json.dumps({"key": KEY, "fuel": fuel, "vats": [{"name": "a", "knows": [], "source": source}], "schedule": schedule}).encode()


def nested(open_by: str, inner: str, close_by: str, depth: int, size: int) -> bytes:
    """Programs of one form that stands so deep in itself, repeated to that size."""
    unit = "{ " + open_by * depth + inner + close_by * depth + " }\n"
    return unit.encode() * max(1, size // len(unit))


NESTED = {
    "blocks": ("{ 1; ", "2", " }"),
    "lists": ("[1, ", "2", "]"),
    "if": ("if (true) { 1; ", "2", " }"),
    "fn": ("fn { ", "2", " }"),
    "for": ("for x in [1] { ", "2", " }"),
    "def f()": ("def f() { ", "2", " }"),
    "when": ("when (1) -> { ", "2", " }"),
}


def cases() -> dict[str, tuple[list[str], bytes]]:
    """What each is called, the words of the command and the input."""
    found = {}
    for fuel in FUELS:
        for name, (before, body) in LOOPS.items():
            found[f"{name}, {fuel // 1_000_000} M"] = (["run"], script(f"{before}while (true) {{ {body} }}\n", [], fuel))
    for name, (made, sizes, _) in vats.RUNS.items():
        found[f"{name}, {sizes[-1]}"] = (["run"], json.dumps(made(sizes[-1])).encode())
    for name, source in running.SENDERS.items():
        found[f"one vat: {name}, 90000 turns"] = (["run"], script(source, ["turn a"] * 90_000))
    found["idle turns, 90000"] = (["run"], script("1", ["turn a"] * 90_000))
    found["sum 3000"] = (["sum", "3000"], b"")
    found["smallest script"] = (["run"], script("1", []))
    for name, unit in expansion.FORMS.items():
        found[f"expand, {name}, 64 KiB"] = (["expand"], expansion.program(unit, 65_000))
    for name, (front, inner, back) in NESTED.items():
        for depth in (14, 27):
            found[f"expand, {name} {depth} deep, 64 KiB"] = (["expand"], nested(front, inner, back, depth, 65_000))
    return found


def once(binary: str, words: list[str], given: pathlib.Path) -> tuple[float, float, int]:
    """Seconds of processor, MB of memory, and the status."""
    with given.open("rb") as source:
        run = subprocess.Popen([binary, *words], stdin=source, stdout=subprocess.DEVNULL, stderr=subprocess.DEVNULL)
        _, status, used = os.wait4(run.pid, 0)
        run.returncode = os.waitstatus_to_exitcode(status)
    return used.ru_utime + used.ru_stime, used.ru_maxrss / 1024, run.returncode


def least(binaries: list[str], words: list[str], given: pathlib.Path, tries: int) -> list[tuple[float, float, int]]:
    """Of each binary the least time and memory, the runs in turn."""
    runs = [[once(it, words, given) for it in binaries] for _ in range(tries)]
    return [(min(run[i][0] for run in runs), min(run[i][1] for run in runs), runs[0][i][2]) for i in range(len(binaries))]


def main() -> None:
    parser = argparse.ArgumentParser(description=__doc__.splitlines()[0])
    parser.add_argument("binary", nargs="?")
    parser.add_argument("--evat", default="crates/evat/out/evat")
    parser.add_argument("--tries", type=int, default=5)
    parser.add_argument("--only", nargs="*", default=[])
    given = parser.parse_args()
    binaries = [given.evat] + ([given.binary] if given.binary else [])
    ratios: dict[int, list[float]] = {}
    with tempfile.TemporaryDirectory() as room:
        chosen = {name: it for name, it in cases().items() if not given.only or any(word in name for word in given.only)}
        # The text of a long run, for `check`.
        path = pathlib.Path(room) / "input"
        if not given.only or any(word in "check, 1 MiB" for word in given.only):
            path.write_bytes(json.dumps(vats.to_and_fro(1_700)).encode())
            with path.open("rb") as source:
                chosen["check, 1 MiB"] = (["check"], subprocess.run([given.evat, "run"], stdin=source, stdout=subprocess.PIPE).stdout[: 1 << 20])
        print(f"{'run':44} {'s':>9} {'MB':>8}" + (f" {'other s':>9} {'MB':>8} {'time':>6} {'memory':>7}" if given.binary else ""))
        for name, (words, text) in chosen.items():
            path.write_bytes(text)
            figures = least(binaries, words, path, given.tries)
            line = f"{name:44} {figures[0][0]:9.4f} {figures[0][1]:8.1f}"
            if given.binary:
                ratio = figures[0][0] / max(figures[1][0], 1e-9)
                line += f" {figures[1][0]:9.4f} {figures[1][1]:8.1f} {ratio:6.2f} {figures[0][1] / figures[1][1]:7.2f}"
                line += "" if figures[0][2] == figures[1][2] else f"  statuses {figures[0][2]} and {figures[1][2]}"
                for at, fuel in enumerate(FUELS):
                    if name.endswith(f", {fuel // 1_000_000} M"):
                        ratios.setdefault(at, []).append(ratio)
            print(line, flush=True)
    for at, found in ratios.items():
        print(f"{len(found)} loops of {FUELS[at]} units: mean ratio {math.exp(sum(map(math.log, found)) / len(found)):.2f}, greatest {max(found):.2f}")


if __name__ == "__main__":
    main()
