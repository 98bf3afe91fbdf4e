#!/usr/bin/env python3
"""Tries that `evat_see why --strict` refuses no history of evat.

    rows/let_through.py [EVAT [EVAT_SEE]] [--count N]    crates/NAME/out/NAME where none is named, and 300 scripts where no count is

It asks of the histories that rows/*.rows and rows/*.json have, of those of `gen 0` to `gen 39`, and of N scripts that are made here by
chance: three vats, whose programs send, pass, wait for, resolve, list, write, read and leave by ejectors, and a schedule with cuts and
notices. A script that is refused, or whose run stops, counts as any other. The status is 1 where a verdict is no, and the history is
then written to standard output.
"""
import json
import pathlib
import random
import subprocess
import sys

ROWS = pathlib.Path(__file__).resolve().parent
CRATES = ROWS.parent / "crates"
VATS = ["a", "b", "c"]


def asked(program, words, given):
    return subprocess.run([program, *words], input=given, capture_output=True, timeout=120)


def recorded():
    """The histories that rows have."""
    for path in sorted(ROWS.glob("*.rows")):
        for text in path.read_text().split("====\n"):
            head, rest = text.split("\n", 1)
            told = rest.split("---\n", 1)[-1]
            if " run" in head and told.startswith("open "):
                yield f"{path.name}: {head}", told.encode()
    for path in sorted(ROWS.glob("*.json")):
        lines = path.with_suffix(".lines")
        if lines.exists():
            yield lines.name, lines.read_bytes()


def value(chance, nouns, depth=2):
    """An expression."""
    kind = chance.randrange(9 if depth else 5)
    if kind < 3:
        return chance.choice(nouns)
    if kind == 3:
        return str(chance.randrange(10))
    if kind == 4:
        return chance.choice(['"text"', "null", "true", "'c'"])
    if kind == 5:
        return f"[{value(chance, nouns, depth - 1)}, {value(chance, nouns, depth - 1)}]"
    if kind == 6:
        return f"({chance.choice(nouns)} <- go({value(chance, nouns, depth - 1)}))"
    if kind == 7:
        return f"escape out {{ out({value(chance, nouns, depth - 1)}) }}"
    return f"(fn x {{ [x, {chance.choice(nouns)}] }})({value(chance, nouns, depth - 1)})"


def step(chance, nouns, number):
    """A step of a program, and the nouns that it defines."""
    kind, new = chance.randrange(8), f"n{number}"
    if kind == 0:
        return f"def {new} := {value(chance, nouns)}\n", [new]
    if kind == 1:
        return f"def [{new}, r{number}] := Ref.promise()\n", [new, f"r{number}"]
    if kind == 2:
        return f"var {new} := {value(chance, nouns)}\n{new} := {value(chance, nouns)}\n{new}\n", [new]
    if kind == 3:
        return f"try {{ {chance.choice(nouns)}.resolve({value(chance, nouns)}) }} catch problem {{ null }}\n", []
    if kind == 4:
        return f"when ({chance.choice(nouns)}) -> {{ {chance.choice(nouns)} <- go({value(chance, nouns)}) }}\n", []
    if kind == 5:
        return f"var kept{number} := null\ndef {new} {{ method go(x) {{ def was := kept{number}; kept{number} := x; {chance.choice(nouns)} <- go(was); {chance.choice(nouns + ['x', 'was'])} }} }}\n", [new]
    return f"{chance.choice(nouns)} <- go({value(chance, nouns)})\n", []


def program(chance, knows):
    """A program that gives an object with the verb `go`."""
    nouns, text = list(knows) + ["null"], ""
    for number in range(chance.randrange(2, 7)):
        more, new = step(chance, nouns, number)
        text, nouns = text + more, nouns + new
    body = "; ".join([f"{chance.choice(nouns + ['x'])} <- go({value(chance, nouns + ['x'])})" for _ in range(chance.randrange(3))] + [chance.choice(nouns + ["x"])])
    return text + f"def root {{ method go(x) {{ {body} }} }}\n"


def schedule(chance):
    found = []
    for _ in range(chance.randrange(10, 120)):
        v, w = chance.sample(VATS, 2)
        kind = chance.randrange(60)
        found.append(f"cut {v} {w}" if kind == 0 else f"notice {v} {w}" if kind == 1 else f"turn {v}" if kind < 25 else f"carry {v} {w}")
    return found


def made(number):
    """The script of a number."""
    chance = random.Random(number)
    vats = []
    for vat in VATS:
        knows = [other for other in VATS if other != vat and chance.randrange(3)]
        vats.append({"knows": knows, "name": vat, "source": program(chance, knows)})
    return json.dumps({"key": f"{number:064x}", "schedule": schedule(chance), "vats": vats}, separators=(",", ":"), sort_keys=True).encode()


def main():
    words = sys.argv[1:]
    count = 300
    if "--count" in words:
        at = words.index("--count")
        count = int(words[at + 1])
        del words[at : at + 2]
    evat = words[0] if words else str(CRATES / "evat" / "out" / "evat")
    see = words[1] if len(words) > 1 else str(CRATES / "evat_see" / "out" / "evat_see")
    tried = bad = lines = runs = 0
    histories = list(recorded())
    for number in range(40):
        histories.append((f"gen {number}", asked(evat, ["run"], asked(evat, ["gen", str(number)], b"").stdout).stdout))
    for number in range(count):
        histories.append((f"script {number}", asked(evat, ["run"], made(number)).stdout))
    for name, history in histories:
        if not history.startswith(b"open "):
            continue
        told = asked(see, ["why", "--strict"], history)
        tried, lines, runs = tried + 1, lines + history.count(b"\n"), runs + name.startswith("script")
        if told.returncode:
            bad += 1
            print(f"{name}: {told.returncode}\n{told.stdout.decode()}{told.stderr.decode()}{history.decode()}")
    print(f"{tried} histories ({runs} of scripts made by chance), {lines} lines, {bad} refused")
    return 1 if bad else 0


if __name__ == "__main__":
    sys.exit(main())
