#!/usr/bin/env python3
"""Times the evaluator: nanoseconds and bytes of memory for a unit of fuel, and bytes for a line that is told.

Run it at the top of the repository. It builds crates/evat and bench/programs/bench_frames.txt, which evaluates each loop
below until 0.1, 1 and 10 million units of fuel are spent. A loop never ends by itself, so all its fuel is spent and its
lines are told and dropped at the stop; the time of one unit, which is that of reading, is taken off, so what is measured is
evaluation alone. The figures of one loop should stay level as the fuel grows.

Then it runs scripts of one vat whose program sends to itself (`evat run`), with 1,000 to 100,000 turns, and prints
microseconds, bytes of memory and bytes of text for a turn. These are whole runs, whose texts are made.
"""
import json
import os
import pathlib
import subprocess
import tempfile

import building

EVAT = pathlib.Path("crates/evat")
DEPTH = 20_000
FUELS = [100_000, 1_000_000, 10_000_000]
TRIES = 3

LONG = "a" * 60_000

# The body of each loop, behind what is made once.
LOOPS = {
    "empty while": ("", "null"),
    "integer arithmetic": ("var n := 0\n", "n := n * 3 + 1 - n * 2"),
    "method call": ("def o { method put(x) { x } }\n", "o.put(1)"),
    "function call": ("def f(x) { return x }\n", "f(1)"),
    "recursion by method": ("def o { method down(n) { if (n == 0) { 0 } else { o.down(n - 1) } } }\n", "o.down(20)"),
    "closure": ("", "def f(x) { x }; f(1)"),
    "object, 8 captures": (
        "def a := 1; def b := 2; def c := 3; def d := 4; def e := 5; def f := 6; def g := 7; def h := 8\n",
        "def o { method all() { a + b + c + d + e + f + g + h } }; o.all()",
    ),
    "list literals": ("", "[1, 2, 3, 4]"),
    "l[k]": ("def l := [1, 2, 3, 4]\n", "l[2]"),
    "t[k]": ('def t := "abcdef"\n', "t[2]"),
    "for over a list": ("def l := [1, 2, 3, 4, 5, 6, 7, 8]\n", "for x in l { x }"),
    "native guard": ("", "def x :int := 1"),
    "guarded var slot": ("var n :int := 0\n", "n := 1"),
    "object as guard": ("def g { method coerce(x, ej) { x } }\n", "def x :g := 1"),
    "object": ("", "def x { method f() { 1 } }"),
    "DeepFrozen stamps": ("", "def x implements DeepFrozen { method f() { 1 } }"),
    "object as auditor": ("def a { method audit(m) { true } }\n", "def x implements a { method f() { 1 } }"),
    "try/throw": ("", 'try { throw("bad") } catch p { p }'),
    "finally": ("", "try { 1 } finally { 2 }"),
    "escape and ejection": ("", "escape ej { ej(1) }"),
    "text slices": ('def t := "the quick brown fox"\n', "t.run(4, 9)"),
    "text, 60,000 characters": (f'def t := "{LONG}"\n', "t.size()"),
    "literal, 60,000 characters": ("", f'"{LONG}"'),
    "a thousand names": ("\n".join(f"def n{i} := {i}" for i in range(1000)) + "\n", "n999 + n0"),
    "two thousand captures": (
        "\n".join(f"def n{i} := {i}" for i in range(2000))
        + "\ndef o { method one() { 1 }\nmethod all() { ["
        + "]; [".join(", ".join(f"n{i}" for i in range(k, k + 200)) for k in range(0, 2000, 200))
        + "] } }\n",
        "o.one()",
    ),
}


# Programs each turn of which sends a message.
SENDERS = {
    "ping-pong": "def o { method ping(n) { o <- pong(n); null }\nmethod pong(n) { o <- ping(n + 1); null } }\no <- ping(0)",
    "chain of answers": "def o { method go(n) { o <- go(n + 1) } }\no <- go(0)",
    "reactions": "def o { method go(x) { when (x) -> { o <- go(x) }; null } }\no <- go(0)",
}
TURNS = [1_000, 10_000, 100_000]
AMPLE = 10_000_000


def build() -> pathlib.Path:
    """Builds evat, and the program that evaluates alone, of which it tells where that stands."""
    subprocess.run(["rt", "run", "--", "help"], cwd=EVAT, stdin=subprocess.DEVNULL, stdout=subprocess.DEVNULL)
    return building.build("bench_frames", ["1", "1"], b"41")


def loop_of(before: str, body: str) -> str:
    """The program of a loop that never ends."""
    return f"{before}while (true) {{ {body} }}\n"


def once(words: list, given: pathlib.Path) -> tuple[float, int, bytes]:
    """The seconds of processor of one run, its memory in bytes, and what it told."""
    with given.open("rb") as program:
        run = subprocess.Popen(words, stdin=program, stdout=subprocess.PIPE)
        told = run.stdout.read()
        _, _, used = os.wait4(run.pid, 0)
    return used.ru_utime + used.ru_stime, used.ru_maxrss * 1024, told


def measured(words: list, given: pathlib.Path) -> tuple[float, int, bytes]:
    """The least of some runs."""
    runs = [once(words, given) for _ in range(TRIES)]
    return min(run[0] for run in runs), min(run[1] for run in runs), runs[0][2]


def evaluated(bench: pathlib.Path, program: pathlib.Path, fuel: int) -> tuple[float, int, int | None]:
    """Seconds, bytes of memory, and how many lines were told; none where the program was not read."""
    seconds, most, text = measured([bench, str(DEPTH), str(fuel)], program)
    told = text.decode().split()
    return seconds, most, int(told[-1]) if "told" in told else None


def run_with(script: pathlib.Path, source: str, turns: int) -> tuple[float, int, int]:
    """Seconds, bytes of memory, and bytes of text, of a vat that takes so many turns."""
    vat = {"name": "a", "knows": [], "source": source}
    script.write_text(json.dumps({"key": "0" * 64, "fuel": AMPLE, "vats": [vat], "schedule": ["turn a"] * turns}))
    seconds, most, text = measured([EVAT / "out" / "evat", "run"], script)
    return seconds, most, len(text)


def print_loops(bench: pathlib.Path, program: pathlib.Path) -> None:
    print(f"{'loop':28} {'fuel':>10} {'ns a unit':>10} {'bytes a unit':>13} {'bytes a line':>13}")
    for name, (before, body) in LOOPS.items():
        program.write_text(loop_of(before, body))
        rest, floor, told = evaluated(bench, program, 1)
        if told is None:
            print(f"{name:28} not read")
            continue
        for fuel in FUELS:
            seconds, most, lines = evaluated(bench, program, fuel)
            more = max(0, most - floor)
            line = f"{more / lines:13.0f}" if lines else " " * 13
            print(f"{name:28} {fuel:10} {(seconds - rest) / fuel * 1e9:10.1f} {more / fuel:13.1f} {line}")


def print_senders(script: pathlib.Path) -> None:
    print(f"\n{'sender':28} {'turns':>10} {'us a turn':>10} {'bytes a turn':>13} {'text a turn':>13}")
    for name, source in SENDERS.items():
        rest, floor, _ = run_with(script, source, 0)
        for turns in TURNS:
            seconds, most, text = run_with(script, source, turns)
            more = max(0, most - floor)
            print(f"{name:28} {turns:10} {(seconds - rest) / turns * 1e6:10.2f} {more / turns:13.0f} {text / turns:13.0f}")


def main() -> None:
    bench = build()
    with tempfile.TemporaryDirectory() as room:
        print_loops(bench, pathlib.Path(room) / "program")
        print_senders(pathlib.Path(room) / "script")


if __name__ == "__main__":
    main()
