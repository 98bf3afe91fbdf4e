#!/usr/bin/env python3
"""Times how programs are expanded and read, and how scripts are read.

Run it at the top of the repository. It builds bench/programs/bench_reading.txt. For programs of 1, 4, 16 and 64 KiB, of each form of the
language and of all of them together, it prints the time of one expansion of the parsed tree, that of one whole reading (tokens,
tree, expansion and scopes), and each by the byte. Then it prints the same of scripts of up to 1 MB, which are long by their
schedule, by a drain or by their sources. The time of a byte should stay level.
"""
import json
import pathlib

from timing import SIZES, build, per_call

SCRIPT_SIZES = [1024, 16_384, 262_144, 1_048_000]

# Each stands in a block of its own, so that its names are bound once.
FORMS = {
    "calls": "{ def x := 1; x(x, 2)[1].put(x) }\n",
    "sends": "{ def a := 1; a <- run(1); a <- (2) }\n",
    "defs": "{ def x := 1; var y :int := x; y := x; y += 2 }\n",
    "objects": "{ def p { to at(x) { x }\nmatch [verb, args] { args } }; p }\n",
    "functions": "{ def f(x, _) :int { x }; fn y { f(y, 1) } }\n",
    "if": "if (true) { 1 } else if (false) { 2 } else { 3 }\n",
    "while": "while (true) { break }\n",
    "for": "for k => v in [1, 2] { k + v }\n",
    "try": "try { 1 } catch e { e } finally { 3 }\n",
    "escape": "escape ej { ej(1) } catch v { v }\n",
    "when": "when (1) -> { 1 } catch e { e }\n",
    "lists": "{ def [a, b] := [1, [2, 3], 'a']; a }\n",
    "texts": '"some text \\n"\n',
    "operators": "1 + 2 * -3 ** 2 <= 4 & 5\n",
}
FORMS["all"] = "".join(FORMS.values())


def program(unit: str, size: int) -> bytes:
    encoded = unit.encode()
    return encoded * max(1, size // len(encoded))


def script(vats: list[dict], schedule: list[str]) -> bytes:
    return json.dumps({"key": "00" * 32, "vats": vats, "schedule": schedule}).encode()


def vat(index: int, source: str) -> dict:
    return {"name": f"v{index}", "knows": [], "source": source}


def scripts(size: int) -> dict[str, bytes]:
    two = [vat(0, "1"), vat(1, "2")]
    share = max(1, size // 16 - 64)
    return {
        "turns": script(two, ["turn v0"] * (size // 11)),
        "carries": script(two, ["carry v0 v1"] * (size // 15)),
        "sources": script([vat(i, "x" * min(share, 65_536)) for i in range(16)], []),
    }


def print_programs(bench: pathlib.Path) -> None:
    print(f"{'program':12} {'bytes':>7} {'expand us':>10} {'ns/byte':>8} {'read us':>10} {'ns/byte':>8}")
    for name, unit in FORMS.items():
        for size in SIZES:
            text = program(unit, size)
            times = max(5, 1_000_000 // len(text))
            expanded = per_call(bench, "expand", times, text) * 1e6
            read = per_call(bench, "program", times, text) * 1e6
            per = 1000 / len(text)
            print(f"{name:12} {len(text):7} {expanded:10.1f} {expanded * per:8.1f} {read:10.1f} {read * per:8.1f}")


def print_scripts(bench: pathlib.Path) -> None:
    print(f"\n{'script':12} {'bytes':>7} {'read us':>10} {'ns/byte':>8}")
    for size in SCRIPT_SIZES:
        for name, text in scripts(size).items():
            times = max(5, 2_000_000 // len(text))
            read = per_call(bench, "script", times, text) * 1e6
            print(f"{name:12} {len(text):7} {read:10.1f} {read * 1000 / len(text):8.1f}")
    for rounds in (10, 1000, 24_999, 25_001):
        text = script([vat(0, "1"), vat(1, "2")], [f"drain {rounds}"])
        print(f"drain {rounds:6} {len(text):7} {per_call(bench, 'script', 20, text) * 1e6:10.1f}")


if __name__ == "__main__":
    bench = build()
    print_programs(bench)
    print_scripts(bench)
