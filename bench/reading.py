#!/usr/bin/env python3
"""Times how texts of E are taken apart into tokens, and how the tokens are parsed.

Run it at the top of the repository. It builds bench/programs/bench_reading.txt and prints, for each form of the language, for each
deep nesting and for texts of 1, 4, 16 and 64 KiB, the time of one call and of one byte. The time of a byte should stay level.
"""
from timing import SIZES, build, per_call

FORMS = {
    "calls": "f(x, y)[1].put(2)\n",
    "sends": "a <- run(1)\nb <- (2)\n",
    "defs": "def x := 1\nvar y :int := x\n",
    "objects": 'def p { to at(x) { x }\nmatch [verb, args] { 1 } }\n',
    "functions": "def f(x, _) :int { x }\nfn y { y }\n",
    "if": "if (a) { 1 } else { 2 }\n",
    "while": "while (a) { b() }\n",
    "for": "for k => v in m { k }\n",
    "try": "try { 1 } catch e { 2 } finally { 3 }\n",
    "escape": "escape ej { ej(1) } catch v { v }\n",
    "when": "when (p) -> { 1 } catch e { 2 }\n",
    "lists": "[1, [2, 3], 'a']\n",
    "texts": '"some text \\n"\n',
    "operators": "a + b * -c ** 2 <= d & e\n",
    "assignments": "x += 1\ny[0] := x\n",
    "words": "été_中文\n",
    "comments": "1 # a comment\n/** another */\n",
}
NESTINGS = ["(", "-", "return ", "[", "{", "/** * ", '"\\n']


def texts() -> dict[str, bytes]:
    """A text of each kind and size, by its name."""
    made = {}
    for name, line in FORMS.items():
        for size in SIZES:
            unit = line.encode()
            made[f"{name} {size}"] = unit * (size // len(unit))
    for opening in NESTINGS:
        for size in SIZES:
            unit = opening.encode()
            text = unit * (size // len(unit))
            if opening.startswith("/"):
                text += b"**/"
            if opening.startswith('"'):
                text = b'"' + b"\\n" * (size // 2) + b'"'
            made[f"{opening!r} {size}"] = text
    return made


if __name__ == "__main__":
    bench = build()
    print(f"{'text':20} {'bytes':>6} {'lex ns':>11} {'ns/byte':>8} {'parse ns':>12} {'ns/byte':>8}")
    for name, text in texts().items():
        length = len(text)
        times = max(10, 4_000_000 // length)
        lexed = per_call(bench, "lex", times, text) * 1e9
        parsed = per_call(bench, "parse", times, text) * 1e9
        print(f"{name:20} {length:6} {lexed:11.0f} {lexed / length:8.2f} {parsed:12.0f} {parsed / length:8.2f}")
