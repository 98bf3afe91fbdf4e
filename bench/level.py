#!/usr/bin/env python3
"""Grows one thing at a time, from once to sixteen times, and prints how time and memory grow: what no fuel bounds has to grow as the work does.

    bench/level.py [BINARY] [--tries N] [--only WORD..]

With crates/evat/out/evat where no binary is named. Each row is a script of one vat. Time is user and system, less that of a script of no vats, memory the
most resident, less the same (which counts what this script holds: so a run of less than some 25 MB shows none). The last column of each is the factor from the smallest size to the greatest: 16 where it grows with the work, 256 where with
its square. Where a run is too short to tell its time, the smallest size counts as a millisecond.
"""
from __future__ import annotations

import argparse
import pathlib
import tempfile

from beside import doubled, least, script

STEPS = [1, 2, 4, 8, 16]
NOTHING = b'{"key":"' + b"0" * 64 + b'","vats":[],"schedule":[]}'


def lines_of_a_text(size: int) -> str:
    """So many lines of one turn that name one text of 32,768 characters."""
    return doubled(32_768) + f"for i in 1..{size} {{ t.size() }}"


def size_of_a_text(size: int) -> str:
    """A fixed number of calls on a text of that many characters."""
    return doubled(size) + "for i in 1..2000 { t.size(); t[0]; t.run(0, 1) }"


def long_verb(size: int) -> str:
    """A verb of so many characters, in fifty calls."""
    return doubled(size) + "for i in 1..50 { try { E.call(1, t, []) } catch p { null } }"


def chain(size: int) -> str:
    """So many names each of which waits on the next, made from the last."""
    return (
        "var before := Ref.promise()\n"
        f"for i in 1..{size} {{ def next := Ref.promise(); next[1].resolve(before[0]); before := next }}"
    )


def captures(size: int) -> str:
    """A fixed number of objects that capture so many names each."""
    names = "\n".join(f"def n{i} := {i}" for i in range(size))
    parts = "]; [".join(", ".join(f"n{i}" for i in range(k, min(k + 200, size))) for k in range(0, size, 200))
    return f"{names}\nfor i in 1..20 {{ def o {{ method all() {{ [{parts}] }} }} }}"


def same_lists(size: int) -> str:
    """A fixed number of comparisons of two lists of so many members."""
    return f"def a := 1..{size}\ndef b := 1..{size}\nfor i in 1..40 {{ a == b }}"


def long_turn(size: int) -> str:
    """So many calls in one turn."""
    return f"def o {{ method put(x) {{ x }} }}\nfor i in 1..{size // 1000} {{ for j in 1..1000 {{ o.put(j) }} }}"


def resolved_list(size: int) -> str:
    """A list of so many members to which promises are resolved."""
    return f"def l := 1..{size}\nfor i in 1..40 {{ def p := Ref.promise(); p[1].resolve(l) }}"


def reactions(size: int) -> str:
    """So many reactions on one promise, which then is resolved."""
    return f"def p := Ref.promise()\nfor i in 1..{size} {{ when (p[0]) -> {{ i }} }}\np[1].resolve(1)"


# What makes each, and its smallest size.
ROWS = {
    "lines that name a long text": (lines_of_a_text, 1_000),
    "size, get and run of a text": (size_of_a_text, 2_048),
    "a verb of many characters": (long_verb, 1_024),
    "names that wait in a chain": (chain, 500),
    "captures of objects": (captures, 100),
    "== of two lists": (same_lists, 3_750),
    "calls of one turn": (long_turn, 20_000),
    "a list resolved": (resolved_list, 3_750),
    "reactions on one promise": (reactions, 1_000),
}


def main() -> None:
    parser = argparse.ArgumentParser(description=__doc__.splitlines()[0])
    parser.add_argument("binary", nargs="?", default="crates/evat/out/evat")
    parser.add_argument("--tries", type=int, default=3)
    parser.add_argument("--only", nargs="*", default=[])
    given = parser.parse_args()
    with tempfile.TemporaryDirectory() as room:
        path = pathlib.Path(room) / "script"
        path.write_bytes(NOTHING)
        rest = least([given.binary], ["run"], path, given.tries)[0]
        sizes = "".join(f"{f'{it}x':>9}" for it in STEPS)
        print(f"{'what grows':30} {'from':>6} s{sizes}  factor | MB{sizes}  factor")
        for name, (made, first) in ROWS.items():
            if given.only and not any(word in name for word in given.only):
                continue
            figures = []
            for step in STEPS:
                path.write_bytes(script(made(first * step), ["turn a"]))
                figures.append(least([given.binary], ["run"], path, given.tries)[0])
            times = [max(0.0, it[0] - rest[0]) for it in figures]
            room_of = [max(0.0, it[1] - rest[1]) for it in figures]
            factors = times[-1] / max(times[0], 0.001), room_of[-1] / max(room_of[0], 0.1)
            said = "" if len({it[2] for it in figures}) == 1 and not figures[0][2] else f"  statuses {sorted({it[2] for it in figures})}"
            cells = "".join(f"{it:9.4f}" for it in times), "".join(f"{it:9.1f}" for it in room_of)
            print(f"{name:30} {first:6}  {cells[0]}  {factors[0]:6.1f} |   {cells[1]}  {factors[1]:6.1f}{said}", flush=True)


if __name__ == "__main__":
    main()
