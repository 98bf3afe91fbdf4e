#!/usr/bin/env python3
"""Times runs of several vats: nanoseconds, bytes of memory and bytes of text for a message.

Run it at the top of the repository. It builds crates/evat, and runs scripts of growing size by `evat run`. Each figure is that
of a whole run, from the bytes of the script to the text, less those of a script of no vats. A figure that stays level as the
size grows tells a time or memory that grows with the size and not faster. Messages are counted in the history: those that were
taken and those that were lost. What is a list is counted by its members.

A program that was built elsewhere is timed by `bench/vats.py PROGRAM`.
"""
import json
import os
import pathlib
import subprocess
import sys
import tempfile

EVAT = pathlib.Path("crates/evat")
KEY = "0" * 64
AMPLE = 10_000_000
TRIES = 3


def script(vats: dict[str, tuple[str, str]], schedule: list[str]) -> dict:
    """A script with these vats, each with the names of those that it knows, and its source."""
    told = [{"name": name, "knows": knows.split(), "source": source} for name, (knows, source) in vats.items()]
    return {"key": KEY, "vats": told, "schedule": schedule, "fuel": AMPLE}


def to_and_fro(size: int) -> dict:
    """Two vats, each of which sends the next message from the turn of the last."""
    back = "def o { method go(n) { E.sendOnly(%s, \"go\", [n + 1]); null } }\n"
    return script(
        {"a": ("b", back % "b" + 'E.sendOnly(b, "go", [0])\no'), "b": ("a", back % "a")},
        [f"drain {size}"],
    )


def answered(size: int) -> dict:
    """Messages each of which is sent as the answer of the last has come."""
    asks = "def o { method go(n) { when (b <- add(n)) -> { o <- go(n + 1); null }; null } }\no <- go(0)"
    return script({"a": ("b", asks), "b": ("", "def o { method add(n) { n + 1 } }")}, [f"drain {size}"])


def pipeline(size: int) -> dict:
    """Many messages on one answer, which leave before it comes."""
    sends = f"def r := b <- get()\nfor i in 1..{size} {{ r <- put(i) }}"
    serves = "def x { method put(n) { n } }\ndef o { method get() { x } }"
    return script({"a": ("b", sends), "b": ("", serves)}, [f"drain {size + 3}"])


def ring(size: int) -> dict:
    """Sixteen vats, each of which introduces the next one to the one after that, so many times."""
    names = [f"v{i}" for i in range(16)]
    meets = "def o { method meet(x) { x <- hello() } method hello() { null } }\n"
    vats, carries = {}, []
    for i, name in enumerate(names):
        to, third = names[(i + 1) % 16], names[(i + 2) % 16]
        vats[name] = (f"{to} {third}", meets + f"for i in 1..{size} {{ {to} <- meet({third}) }}\no")
        carries += [f"carry {v} {w}" for v, w in ((name, to), (name, third), (to, name), (third, name))]
    return script(vats, ([f"turn {name}" for name in names] + carries) * (3 * size + 4))


def long_list(size: int) -> dict:
    """One message with a list."""
    return script(
        {"a": ("b", f"b <- take(1..{size})"), "b": ("", "def o { method take(l) { l.size() } }")},
        ["carry a b", "turn b", "carry b a", "carry b a"],
    )


def cut_under_way(size: int) -> dict:
    """A link that is cut with many messages under way."""
    return script(
        {"a": ("b", f"for i in 1..{size} {{ b <- put(i) }}"), "b": ("", "def o { method put(n) { n } }")},
        ["cut a b", "notice a b", "notice b a"],
    )


def cut_held(size: int) -> dict:
    """Many messages that are held by a promise, which breaks by a cut."""
    sends = f"def r := b <- get()\nfor i in 1..{size} {{ r <- put(i) }}"
    waits = "def o { method get() { c <- never() } }"
    carries = ["carry a b", "turn b"] + ["carry a b"] * size
    return script(
        {"a": ("b", sends), "b": ("c", waits), "c": ("", "def o { method never() { null } }")},
        carries + ["cut b c", "notice b c"],
    )


# How each is made, its sizes, and what it is counted by: the count that is told here, or else messages.
RUNS = {
    "to and fro": (to_and_fro, [250, 2_500, 25_000], None),
    "asked and answered": (answered, [250, 2_500, 25_000], None),
    "pipeline on one answer": (pipeline, [200, 2_000, 20_000], None),
    "16 vats introduce in a ring": (ring, [1, 10, 100], None),
    "a list passed, by members": (long_list, [600, 6_000, 60_000], lambda size: size),
    "cut, messages under way": (cut_under_way, [400, 4_000, 40_000], None),
    "cut, messages held": (cut_held, [400, 4_000, 40_000], None),
}


def messages(text: str) -> int:
    words = (line.split(" ", 2) for line in text.splitlines())
    return sum(1 for line in words if line[0] == "lost" or (len(line) > 1 and line[1] == "take"))


def once(program: str, path: pathlib.Path) -> tuple[float, int, str]:
    """The seconds of processor of one run, its memory in bytes, and its text."""
    with path.open("rb") as source:
        run = subprocess.Popen([program, "run"], stdin=source, stdout=subprocess.PIPE)
        text = run.stdout.read().decode()
        _, _, used = os.wait4(run.pid, 0)
    return used.ru_utime + used.ru_stime, used.ru_maxrss * 1024, text


def measured(program: str, path: pathlib.Path, what: dict) -> tuple[float, int, str]:
    """The least of some runs."""
    path.write_text(json.dumps(what))
    runs = [once(program, path) for _ in range(TRIES)]
    return min(run[0] for run in runs), min(run[1] for run in runs), runs[0][2]


def print_runs(program: str, path: pathlib.Path) -> None:
    rest, floor, _ = measured(program, path, script({}, []))
    print(f"{'run':28} {'size':>7} {'count':>7} {'ns each':>9} {'bytes each':>11} {'text each':>10}  last line")
    for name, (made, sizes, count_of) in RUNS.items():
        for size in sizes:
            seconds, most, text = measured(program, path, made(size))
            count = count_of(size) if count_of else max(1, messages(text))
            last = text.rstrip("\n").rpartition("\n")[2]
            each = f"{(seconds - rest) / count * 1e9:9.0f} {max(0, most - floor) / count:11.0f} {len(text) / count:10.0f}"
            print(f"{name:28} {size:7} {count:7} {each}  {last}")


def main() -> None:
    if len(sys.argv) > 1:
        program = sys.argv[1]
    else:
        subprocess.run(["rt", "run", "--", "help"], cwd=EVAT, stdin=subprocess.DEVNULL, stdout=subprocess.DEVNULL)
        program = str(EVAT / "out" / "evat")
    with tempfile.TemporaryDirectory() as room:
        print_runs(program, pathlib.Path(room) / "script")


if __name__ == "__main__":
    main()
