#!/usr/bin/env python3
"""Makes rows whose answers were computed by Python, and not by the program: `by_python.rows`.

    rows/by_python.py            writes the rows
    rows/by_python.py --check    is 0 where the rows that are there are these

- Drawn words: ChaCha20 as its authors tell it (twenty rounds on a block of sixteen words), in this file.
- Integers: Python's, which have no greatest; what leaves 128 bits is an overflow.
- Identifiers: `str.isidentifier`, whose tables are Python's own. A verb prints bare exactly where it is an identifier.
- Texts and characters as lines print them; what is the same; problems; methods that no table has.
- The form of an object, written by hand, as the lists that an audition makes of it.
- Refusals of a `return`, a `break` or a name in each place of an expression, at the token that counting words finds.
- Scripts: the twelve rules once more (docs/FORMATS.md), over what the module `json` reads, for scripts with a change or two.

It needs Python 3.11 or later. Nothing in it is drawn but by seeds, so that the rows are the same each time.
"""
from __future__ import annotations

import json
import math
import pathlib
import random
import re
import struct
import sys

ROWS = pathlib.Path(__file__).resolve().parent / "by_python.rows"
ZEROS = "0" * 64
LEAST, GREATEST = -(2**127), 2**127 - 1


def row(name: str, words: str, status: int, given: str, told: str) -> str:
    return f"{name}: {words} -> {status}\n{given}\n---\n{told}"


def script(vats: list[tuple[str, list[str], str]], schedule: list[str], key: str = ZEROS) -> str:
    return json.dumps({"key": key, "vats": [{"name": n, "knows": k, "source": s} for n, k, s in vats], "schedule": schedule})


# Drawn words.


def block(key: bytes, counter: int) -> list[int]:
    """A block of ChaCha20 on stream 0."""
    start = [0x61707865, 0x3320646E, 0x79622D32, 0x6B206574, *struct.unpack("<8I", key), counter & 0xFFFFFFFF, counter >> 32, 0, 0]
    words = start[:]

    def quarter(a: int, b: int, c: int, d: int) -> None:
        for x, y, z, turn in ((a, b, d, 16), (c, d, b, 12), (a, b, d, 8), (c, d, b, 7)):
            words[x] = (words[x] + words[y]) & 0xFFFFFFFF
            words[z] ^= words[x]
            words[z] = ((words[z] << turn) | (words[z] >> (32 - turn))) & 0xFFFFFFFF

    for _ in range(10):
        for columns in ((0, 4, 8, 12), (1, 5, 9, 13), (2, 6, 10, 14), (3, 7, 11, 15), (0, 5, 10, 15), (1, 6, 11, 12), (2, 7, 8, 13), (3, 4, 9, 14)):
            quarter(*columns)
    return [(a + b) & 0xFFFFFFFF for a, b in zip(words, start)]


def draw(key: bytes, number: int) -> bytes:
    """Sixteen bytes, the lowest first: words `4 number` to `4 number + 3`."""
    words = block(key, number // 4)
    return struct.pack("<4I", *words[4 * (number % 4) : 4 * (number % 4) + 4])


def draws() -> str:
    """A vat passes the root of a third one ten times: each time a gift under the next word."""
    key, count = bytes(range(32)), 10
    source = "; ".join("b <- f(c)" for _ in range(count))
    vats = [("a", ["b", "c"], source), ("b", [], ""), ("c", [], "")]
    given = script(vats, ["carry a c"] * count + ["carry a b"] * count, key.hex())
    lines = ["open a"]
    for at in range(count):
        lines += [f"!0 list a%{at} @c", f"!0 send a/{at} @b f @c -> b?a/{at}"]
    lines += [f"!0 done b?a/{count - 1}", f"wait @a b?a/{count - 1}"]
    for vat in "bc":
        lines += [f"open {vat}", "!0 done null", f"settle @{vat} null"]
    for at in range(count):
        lines += [f"{at + 1} carry a c open c^{at} @c", f"frame 030900{draw(key, at).hex()}", f"settle c^{at} null"]
    for at in range(count):
        lines += [f"{count + at + 1} carry a b deliver a/{at} @b f c^{at}", f"frame 01{at:02x}090001660" + f"10d02{draw(key, at).hex()}"]
    # The root of b settled to null, so the messages are queued there, on null.
    lines += [f"left queue b a/{at}" for at in range(count)] + ["left link b a settled @b null"]
    lines += [f"left link b c ask c^{at} a" for at in range(count)]
    lines += ["left link c a settled @c null", "end"]
    return row("ten-draws", "run wire", 0, given, "\n".join(lines) + "\n")


def swiss_numbers() -> str:
    """Numbers that are drawn for sturdy references, over three blocks of the stream; each shows its object."""
    key, count = bytes(range(255, 223, -1)), 9
    given, told = ["key " + key.hex()], []
    for at in range(count):
        given.append(f"register {at + 100}")
        told.append("swiss " + draw(key, at).hex())
    given.append("connect")
    told.append("connected 1")
    for rank, at in enumerate([8, 3, 0, 5]):
        given += ["show " + draw(key, at).hex(), f"use 1 {rank}"]
        told += [f"ref 1 {rank}", f"object {at + 100}"]
    other = bytes([draw(key, 1)[0] ^ 1]) + draw(key, 1)[1:]
    given.append("show " + other.hex())
    told.append("refused unknown")
    return row("nine-swiss-numbers", "sturdy", 0, "\n".join([*given, ""]), "\n".join([*told, "end"]) + "\n")


# Integers.

EDGES = {"a": 0, "b": 1, "c": -1, "d": 7, "e": -7, "f": GREATEST, "g": GREATEST - 1, "h": LEAST, "i": LEAST + 1, "j": 2**63, "k": -(2**63),
    "l": 2**64 - 1,
         "m": 2**64, "n": -(2**64), "o": 2**63 - 1, "p": 10**19, "q": 13043817825332782212, "r": 13043817825332782213, "s": 126, "t": 127}
BINARY = {"add": "+", "subtract": "-", "multiply": "*", "floorDivide": "//", "remainder": "%", "mod": "%%", "pow": "**", "and": "&", "or": "|",
    "xor": "^"}


def within(value: int) -> int | str:
    return value if LEAST <= value <= GREATEST else "integer overflow"


def powered(a: int, b: int) -> int | str:
    if b < 0:
        return "negative power"
    if abs(a) < 2:
        return a ** (b if b < 2 else 2 + b % 2)
    return within(a**b) if b < 200 else "integer overflow"


def applied(verb: str, a: int, b: int) -> int | str:
    if verb in ("floorDivide", "remainder", "mod") and b == 0:
        return "zero divisor"
    # Python divides downwards; a remainder has the sign of the number that is divided.
    return {
        "add": lambda: within(a + b),
        "subtract": lambda: within(a - b),
        "multiply": lambda: within(a * b),
        "floorDivide": lambda: within(a // b),
        "remainder": lambda: int(math.copysign(1, a)) * (abs(a) % abs(b)),
        "mod": lambda: a % b,
        "pow": lambda: powered(a, b),
        "and": lambda: a & b,
        "or": lambda: a | b,
        "xor": lambda: a ^ b,
    }[verb]()


def told_of(call: str, value: int | str) -> list[str]:
    return [f"!0 call {call}", f"!0 back {value}" if isinstance(value, int) else f'!0 thrown "{value}"']


def integers() -> str:
    """Each of the ten verbs of two integers on pairs of edges."""
    source, lines = [], ["open a"]
    for name, value in EDGES.items():
        if value < 0 and value > LEAST:
            source.append(f"def {name} := -{-value}")
            lines += told_of(f"{-value} negate", value)
        elif value == LEAST:
            source.append(f"def {name} := -{GREATEST} - 1")
            lines += told_of(f"{GREATEST} negate", -GREATEST) + told_of(f"{-GREATEST} subtract 1", LEAST)
        else:
            source.append(f"def {name} := {value}")
    chosen = random.Random(128)
    pairs = [(x, y) for x in EDGES for y in EDGES]
    for verb, sign in BINARY.items():
        for x, y in sorted(chosen.sample(pairs, 40)):
            source.append(f"try {{ {x} {sign} {y} }} catch z {{ z }}")
            lines += told_of(f"{EDGES[x]} {verb} {EDGES[y]}", applied(verb, EDGES[x], EDGES[y]))
    for x, value in EDGES.items():
        source.append(f"try {{ -{x} }} catch z {{ z }}")
        lines += told_of(f"{value} negate", within(-value))
    lines += ["!0 done null", "settle @a null", "end"]
    return row("integers-at-their-edges", "run", 0, script([("a", [], "\n".join([*source, "null"]))], []), "\n".join(lines) + "\n")


def orders() -> str:
    """The five tests of an order on integers, characters, and texts, which compare by their bytes."""
    chars = ["'a'", "'b'", "'\u00e9'", "'\U00010000'", "'\uffff'"]
    kinds = [[LEAST, -1, 0, GREATEST], chars, ['""', '"a"', '"ab"', '"b"', '"\u00e9"', '"\U00010000"', '"\uffff"']]
    tests = [("<", lambda x, y: x < y), ("<=", lambda x, y: x <= y), ("<=>", lambda x, y: x == y), (">=", lambda x, y: x >= y),
        (">", lambda x, y: x > y)]
    source = [f"def least := -{GREATEST} - 1", "def one := -1"]
    lines = ["open a", *told_of(f"{GREATEST} negate", -GREATEST), *told_of(f"{-GREATEST} subtract 1", LEAST), *told_of("1 negate", -1)]
    number = 0
    for kind in kinds:
        spelled = [{LEAST: "least", -1: "one"}.get(x, x) for x in kind]
        valued = [x if isinstance(x, int) else x[1:-1].encode() for x in kind]
        for sign, test in tests:
            source.append("[" + ", ".join(f"{x} {sign} {y}" for x in spelled for y in spelled) + "]")
            answers = " ".join("true" if test(x, y) else "false" for x in valued for y in valued)
            lines.append(f"!0 list a%{number} {answers}")
            number += 1
    lines += [f"!0 done a%{number - 1}", f"settle @a a%{number - 1}", "end"]
    return row("orders-of-all-pairs", "run", 0, script([("a", [], "\n".join(source))], []), "\n".join(lines) + "\n")


# Identifiers.

KEYWORDS = set("break catch continue def else escape exit finally fn for if implements in match method return to try var via when while _".split())
# Blocks whose characters have long been assigned: Latin, Greek, Cyrillic, Hebrew, Arabic, Devanagari, Thai, Georgian, Hangul, letters and signs above
# them, kana, ideographs, and two planes further up.
BLOCKS = [(0x20, 0x24F), (0x250, 0x3FF), (0x400, 0x4FF), (0x5D0, 0x5EA), (0x620, 0x6D3), (0x904, 0x970), (0xE01, 0xE5B), (0x10D0, 0x10F0),
    (0x1100, 0x1112),
          (0x1E00, 0x1FFF), (0x2000, 0x21FF), (0x3040, 0x30FF), (0x4E00, 0x4E40), (0xAC00, 0xAC40), (0xFF00, 0xFF5E), (0x10400, 0x1044F),
          (0x1D400, 0x1D454)]


def quoted(text: str) -> str:
    named = {'"': '\\"', "\\": "\\\\", "\n": "\\n", "\t": "\\t", "\r": "\\r"}
    return '"' + "".join(named.get(c) or (f"\\u{ord(c):04x}" if ord(c) < 32 else c) for c in text) + '"'


def identifiers() -> str:
    """Verbs of one character, and of an `a` with one character behind it."""
    chosen = random.Random(32)
    verbs = []
    for first, last in BLOCKS:
        codes = list(range(first, last + 1))
        for code in sorted(chosen.sample(codes, min(len(codes), 24))):
            verbs += [chr(code), "a" + chr(code)]
    verbs += [*sorted(KEYWORDS), "", "_", "__", "_a", "a_", "1", "a1", "1a", "a b"]
    verbs += ["\u00aa", "a\u00b7", "\u00b7", "a\u0300", "\u0300", "\u2118", "\u212e", "\u309b", "a\u309b"]
    calls = [f"1.{quoted(verb)}()" for verb in verbs]
    forms = [f"(call (lit 1) {verb if verb.isidentifier() and verb not in KEYWORDS else quoted(verb)})" for verb in verbs]
    return row("verbs-that-are-identifiers", "expand", 0, "; ".join(calls), f"(seq {' '.join(forms)})\n")


# Texts as they print.


def spelled(char: str) -> str:
    """A character as it prints, between single quotes."""
    named = {'"': '\\"', "'": "\\'", "\\": "\\\\", "\n": "\\n", "\t": "\\t", "\r": "\\r"}
    return "'" + (named.get(char) or (f"\\u{ord(char):04x}" if ord(char) < 32 else char)) + "'"


def shortened(text: str) -> str:
    return quoted(text) if len(text) <= 32 else f"{quoted(text[:32])}+{len(text) - 32}"


def texts() -> str:
    """Texts round the length up to which a line shows them, and characters, each written raw where a literal may hold it."""
    shown = [char * count for char in ("x", "\u00e9", "\U0001f600", "\n", '"', "\\", "\x01", "\x7f", "\u200b") for count in (0, 1, 31, 32, 33, 34)]
    shown += ["".join(map(chr, range(32))), "".join(map(chr, range(32, 64))), "a" * 31 + "\u00e9", "a" * 31 + "\u00e9b", "a" * 31 + "\n\n"]
    chars = [chr(code) for code in (*range(32), *range(32, 48), 92, 126, 127, 160, 233, 0x20AC, 0xD7FF, 0xE000, 0xFFFF, 0x10000, 0x10FFFF)]
    raw = [('"' + it.replace("\\", "\\\\").replace('"', '\\"') + '"', it) for it in shown]
    source = ["[" + ", ".join(it for it, _ in raw) + "]", "[" + ", ".join(spelled(it) for it in chars) + "]"]
    lines = ["open a", "!0 list a%0 " + " ".join(map(shortened, shown)), "!0 list a%1 " + " ".join(map(spelled, chars)), "!0 done a%1",
        "settle @a a%1", "end"]
    return row("texts-and-characters-as-they-print", "run", 0, script([("a", [], "\n".join(source))], []), "\n".join(lines) + "\n")


# Refusals at a token.

# Programs with one place for an expression; each token is a word. In those of the second list a loop is round the place.
PLACES = [
    *["@", "[ 1 , @ ]", "( @ )", "{ @ }", "1 + ( @ )", "( @ ) + 1", "- ( @ )", "! ( @ )", "( @ ) ( )", "1 ( @ )", "1 . f ( @ )", "1 . f ( 2 , @ )"],
    *["1 [ @ ]", "1 <- f ( @ )", "( @ ) <- f ( )", "1 == ( @ )", "1 < ( @ )", "1 .. ( @ )", "1 ** ( @ )", "1 && ( @ )", "( @ ) || 1", "1 | ( @ )"],
    *["1 =~ _ : ( @ )", "( @ ) =~ _", "def x := @", "def x exit ( @ ) := 1", "def x : ( @ ) := 1", "var x := @", "var x : ( @ ) := 1"],
    *["var x exit ( @ ) := 1", "def [ x , y : ( @ ) ] := 1", "def via ( @ ) x := 1", "def x : int [ @ ] := 1", "def _ implements ( @ ) { }"],
    *["def x { match m { @ } }", "def x { match _ : ( @ ) { } }", "def x { method f ( ) { @ } }", "def x { method f ( y : ( @ ) ) { } }",
        "fn x { @ }"],
    *["fn x : ( @ ) { }", "when ( @ ) -> { }", "when ( 1 ) -> { @ }", "when ( 1 ) -> { } catch e { @ }", "try { @ } catch e { }",
        "try { } catch e { @ }"],
    *["try { } catch e : ( @ ) { }", "try { } finally { @ }", "try { } catch e { } catch f { @ }", "escape e { @ }", "escape e { } catch x { @ }"],
    *["escape e : ( @ ) { }", "if ( @ ) { }", "if ( 1 ) { @ }", "if ( 1 ) { } else { @ }", "if ( 1 ) { } else if ( @ ) { }", "1 ; @", "x := @",
        "x += @"],
    *["x [ 1 ] := @", "x [ @ ] := 1", "return @", "1 ; return ( @ )"],
]
LOOPS = ["while ( @ ) { }", "while ( true ) { @ }", "for x in ( @ ) { }", "for x in 1 { @ }", "for k => v in 1 { @ }", "for x : ( @ ) in 1 { }"]


def refusals():
    """A `return`, a `break` or a name that may not stand there, in each place of an expression: the token is told by counting words."""
    for number, place in enumerate(PLACES + LOOPS):
        before = len(place.split("@", 1)[0].split())
        words = {1: "return 1", 3: "__x"} if place in LOOPS else {1: "return 1", 2: "continue" if number % 2 else "break", 3: "__x"}
        for kind, word in words.items():
            if place.startswith(("return", "1 ; return")):
                kind, at = 1, place.split().index("return")
            else:
                at = before
            yield row(f"refused-{kind}-place-{number}", "expand", 7, place.replace("@", word), f"refused program - expand {kind} {at}\n")


# Methods that are not there.

INTEGER = {(verb, 1) for verb in BINARY} | {("negate", 0), ("asChar", 0)}
TEXT = {("size", 0), ("get", 1), ("run", 2), ("add", 1), ("iterate", 1)}
GUARD = {("coerce", 2)}
COMPARED = {(verb, 2) for verb in ("lessThan", "leq", "asBigAs", "geq", "greaterThan")}
METHODS = {
    "1": INTEGER, "true": {("and", 1), ("or", 1), ("xor", 1), ("not", 0)}, "'c'": {("asInteger", 0)}, '"t"': TEXT, "[]": TEXT | {("with", 1)},
    "null": set(),
    "__makeList": None, "__equalizer": {("sameEver", 2)}, "__comparer": COMPARED, "__loop": {("run", 1)},
    "E": {("send", 3), ("sendOnly", 3), ("call", 3)}, "throw": {("run", 1)}, "auditedBy": {("run", 2)},
    "Ref": {("promise", 0), ("whenResolved", 2)} | {(it, 1) for it in "broken isNear isFar isResolved isBroken optProblem fulfillment".split()},
    "nullOk": GUARD | {("get", 1)}, "Selfless": set(), "Functional": set(),
    **{it: GUARD for it in "any void int boolean char String List near DeepFrozen".split()},
}
VERBS = sorted({verb for table in METHODS.values() for verb, _ in table or set()} | {"zip", "put", "till", "through", "to"})


def absent() -> str:
    """Calls of what no table has: each throws. A call on data has two lines, one on a primitive none."""
    # These words cannot be spelled by `__` in a program: they come out of its sugar.
    spelled = {it: it for it in METHODS if not it.startswith("__")}
    source, lines, number, chosen = [], ["open a"], 0, random.Random(27)
    for receiver, name in spelled.items():
        table = METHODS[receiver]
        calls = [(verb, count) for verb in VERBS for count in range(4) if (verb, count) not in table]
        calls = sorted(chosen.sample(calls, 24))
        held = name
        if receiver == "[]":
            source.append("def l := []")
            lines.append(f"!0 list a%{number}")
            held, receiver, number = "l", f"a%{number}", number + 1
        source.append("[" + ", ".join(f"try {{ {held}.{quoted(verb)}({', '.join('7' * count)}) }} catch e {{ e }}" for verb, count in calls) + "]")
        if name[0] in "1'\"[" or name in ("true", "null"):
            for verb, count in calls:
                lines += [" ".join(["!0 call", receiver, verb if verb not in KEYWORDS else quoted(verb), *"7" * count]), '!0 thrown "no method"']
        lines.append(f"!0 list a%{number}" + ' "no method"' * len(calls))
        number += 1
    lines += [f"!0 done a%{number - 1}", f"settle @a a%{number - 1}", "end"]
    return row("methods-that-are-not-there", "run", 0, script([("a", [], "\n".join(source))], []), "\n".join(lines) + "\n")


# What is the same.


def sames() -> str:
    """`==` and `!=` of all pairs of values of each kind: two are the same where they are one, or equal data, lists member by member."""
    values = {
        "null": 0, "true": True, "false": False, "0": (1, 0), "1": (1, 1), "'0'": ("c", "0"), "'1'": ("c", "1"), '"0"': "0", '"1"': "1", '""': "",
        "int": ("p", 10),
        "nullOk": ("p", 15), "nullOk[int]": ("p", 42), "o": ("o", 0), "q": ("o", 1), "l": [(1, 1)], "m": [(1, 1)], "n": [(1, 1), (1, 1)], "e": [],
        "w": [[(1, 1)], ("o", 0)],
        "x": [[(1, 1)], ("o", 1)], "y": [[(1, 1)], ("o", 0)], 'Ref.broken("a")': ("b", "a"), 'Ref.broken("b")': ("b", "b"),
    }
    source = "def o {}; def q {}; def l := [1]; def m := [1]; def n := [1, 1]; def e := []; def w := [l, o]; def x := [m, q]; def y := [m, o]"
    lines = ["open a", "!0 made a.0 o", "!0 made a.1 q", "!0 list a%0 1", "!0 list a%1 1", "!0 list a%2 1 1", "!0 list a%3", "!0 list a%4 a%0 a.0",
        "!0 list a%5 a%1 a.1"]
    lines.append("!0 list a%6 a%1 a.0")
    number = 7
    for a, left in values.items():
        source += "\n[" + ", ".join(f"{a} == {b}" for b in values) + "]"
        # A boolean is no number here.
        answers = " ".join("true" if type(left) is type(right) and left == right else "false" for right in values.values())
        lines.append(f"!0 list a%{number} {answers}")
        number += 1
    source += "\n[" + ", ".join(f"1 != {b}" for b in ("1", "2")) + "]"
    lines += ["!0 call true not", "!0 back false", "!0 call false not", "!0 back true", f"!0 list a%{number} false true", f"!0 done a%{number}",
        f"settle @a a%{number}", "end"]
    return row("equality-of-all-pairs", "run", 0, script([("a", [], source)], []), "\n".join(lines) + "\n")


# Problems.

# What is called on data: the receiver as it is written and as it prints, the verb, the arguments likewise, and the problem.
DATA = [
    *[("1", "1", verb, other, shown, "not int") for verb in BINARY for other,
        shown in (("'c'", "'c'"), ('"1"', '"1"'), ("null", "null"), ("true", "true"), ("o", "a.0"))],
    *[("true", "true", verb, other, other, "not boolean") for verb in ("and", "or", "xor") for other in ("1", "null", '"true"')],
    *[(number, number, "asChar", "", "", "not char") for number in ("1114112", "55296", "57343")],
    *[('"t"', '"t"', "add", other, shown, "not String") for other,
        shown in (("o", "a.0"), ("int", "<int>"), ("l", "a%0"), ('Ref.broken("b")', 'broken:"b"'))],
    *[('"t"', '"t"', "get", other, other, "bad argument") for other in ("'0'", "null", '"0"', "true")],
    *[('"t"', '"t"', "get", other, other, "out of range") for other in ("1", "2", "170141183460469231731687303715884105727")],
    ('"tu"', '"tu"', "run", "1, 0", "1 0", "out of range"), ('"tu"', '"tu"', "run", "0, 3", "0 3", "out of range"),
    ('"tu"', '"tu"', "run", "0, null", "0 null", "bad argument"),
    ('"tu"', '"tu"', "run", "null, 5", "null 5", "bad argument"),
    *[("l", "a%0", "add", other, shown, "not List") for other, shown in (("1", "1"), ('"t"', '"t"'), ("null", "null"), ("o", "a.0"))],
    *[("l", "a%0", "get", other, other, "bad argument") for other in ("'0'", "null")], ("l", "a%0", "get", "2", "2", "out of range"),
    ("l", "a%0", "run", "2, 1", "2 1", "out of range"), ("l", "a%0", "run", "0, 3", "0 3", "out of range"),
    ("l", "a%0", "run", "true, 3", "true 3", "bad argument"),
]
# What prints no line of its own.
SILENT = [
    *[(f"{a} {sign} {b}", "not comparable") for sign in ("<", "<=", "<=>", ">=", ">") for a,
        b in (("1", "'c'"), ("'c'", '"c"'), ('"c"', "1"), ("null", "null"), ("o", "o"), ("1", "l"))],
    *[(f"{a}..{b}", "not int") for a, b in (("1", "'c'"), ("'a'", "'c'"), ("null", "2"))], ("1..!'c'", "not int"), ("1..70000", "too heavy"),
    ("1..!70000", "too heavy"),
    ("E.call(o, 1, l)", "bad message"), ('E.call(o, "f", 1)', "bad message"), ("E.send(o, null, l)", "bad message"),
    ('E.sendOnly(o, "f", o)', "bad message"),
    ("Ref.broken(1)", "bad argument"), ("throw(1)", "not a text"), ("throw('c')", "not a text"), ('throw("own")', "own"),
    ("Ref.fulfillment(p)", "not resolved"),
    ('Ref.fulfillment(Ref.broken("b"))', "b"), ("Ref.whenResolved(1, p)", "not near"), ('Ref.whenResolved(1, Ref.broken("b"))', "not near"),
    ("p.f()", "not near"),
    ('Ref.broken("b").f()', "b"), ("1 == p", "not settled"), ("p == p", "not settled"), ("[p] == []", "not settled"), ("if (1) {}", "not boolean"),
    ("if (null) {}", "not boolean"),
    ("def f :(1) := 2", "not a guard"), ("def f :p := 2", "not a guard"), ("def f :throw := 2", "not a guard"),
    ("def f :Selfless := 2", "not a guard"), ("def [f] := 1", "not a list"),
    ("def [f] := l", "not a list"), ("def [f, g, h] := l", "not a list"), ("nullOk[1]", "bad argument"), ("nullOk[nullOk]", "bad argument"),
    ("nullOk[Selfless]", "bad argument"),
    ("def f implements 1 {}", "not an auditor"), ("def f implements p {}", "not an auditor"), ("def f implements int {}", "not an auditor"),
    ("def f implements null {}", "not an auditor"),
    *[(f"def f :{guard} := {value}", f"not {guard}") for guard,
        value in (("int", "'c'"), ("boolean", "1"), ("char", '"c"'), ("String", "'c'"), ("List", '"l"'), ("near", "p"))],
    *[(f"def f :{guard} := {value}", f"not {guard}") for guard,
        value in (("nullOk", "1"), ("DeepFrozen", "o"), ("near", 'Ref.broken("b")'), ("int", "p"), ("DeepFrozen", "p"))],
    *[(f"def f :nullOk[{guard}] := {value}", f"not nullOk:{guard}") for guard,
        value in (("int", "'c'"), ("boolean", "1"), ("char", '"c"'), ("String", "'c'"), ("List", '"l"'), ("near", "p"))],
    ("def f :nullOk[DeepFrozen] := o", "not nullOk:DeepFrozen"),
]


def problems() -> str:
    """Each problem that the language's tables name, by what throws it."""
    source = ["def o {}", "def l := [1, 2]", "def [p, r] := Ref.promise()"]
    lines = ["open a", "!0 made a.0 o", "!0 list a%0 1 2", "!0 promise a~0 a.1", "!0 list a%1 a~0 a.1"]
    number, at = 2, 0
    for receiver, shown, verb, args, printed, problem in DATA:
        source.append(f"try {{ {receiver}.{verb}({args}) }} catch e {{ e }}")
        lines += [f"!0 call {shown} {verb} {printed}".rstrip(), f'!0 thrown "{problem}"']
    while at < len(SILENT):
        part = SILENT[at : at + 60]
        for expression, _ in part:
            # Of what makes a list of its own before it throws, that is told.
            if expression == "[p] == []":
                lines += [f"!0 list a%{number} a~0", f"!0 list a%{number + 1}"]
                number += 2
        source.append("[" + ", ".join(f"try {{ {expression} }} catch e {{ e }}" for expression, _ in part) + "]")
        lines.append(f"!0 list a%{number} " + " ".join(f'"{problem}"' for _, problem in part))
        number, at = number + 1, at + 60
    source += ["r.resolve(1)", "try { r.resolve(2) } catch e { e }", "try { r.smash(3) } catch e { e }", 'try { r.smash("s") } catch e { e }']
    lines += ["!0 call a.1 resolve 1", "settle a~0 1", "!0 back null", "!0 call a.1 resolve 2", '!0 thrown "already resolved"',
        "!0 call a.1 smash 3", '!0 thrown "bad argument"']
    lines += ['!0 call a.1 smash "s"', '!0 thrown "already resolved"', '!0 done "already resolved"', 'settle @a "already resolved"', "end"]
    return row("problems", "run", 0, script([("a", [], "\n".join(source))], []), "\n".join(lines) + "\n")


# The form of an object.

OBJECT = """def x implements aud {
  method "if"(a :int, [b, var c], via (throw) e, _) {
    var v := -41; v := "t\\n"; if (true) { 'c' } else { a.zip(2, "to") }
    escape ej { ej(1) } catch p { p }; try { 3 } catch q { 4 } finally { 5 }
    a =~ [_, _ :int]; def g exit null := 6; def [y, z] exit null := [7, 8]; { def h :nullOk[int] := g }
  }
  match m :any { fn w { w } }
}"""
FORM = r"""(object (final x) ((noun aud)) (method "if" ((final a (noun int)) (list (final b) (var c)) (via (noun throw) (final e)) (any))
(seq (def (var v) (call (lit 41) negate)) (set v (lit "t\n")) (if (noun true) (lit 'c') (call (noun a) zip (lit 2) (lit "to")))
(escape (final ej) (call (noun ej) run (lit 1)) (final p) (noun p)) (finally (try (lit 3) (final q) (lit 4)) (lit 5))
(match (noun a) (list (any) (any (noun int)))) (def (final g) exit (noun null) (lit 6))
(def (list (final y) (final z)) exit (noun null) (call (noun __makeList) run (lit 7) (lit 8)))
(hide (def (final h (call (noun nullOk) get (noun int))) (noun g))))) (matcher (final m (noun any)) (object (any) () (method run ((final w)) (noun w)))))"""


def forms():
    """The form of an object with each kind of node, and the lists of which an audition makes it: inner ones first, from left to right."""
    form = FORM.replace("\n", " ")
    yield row("form-with-each-kind-of-node", "expand", 0, "def aud := 1; " + OBJECT, f"(seq (def (final aud) (lit 1)) {form})\n")
    lines = ["open a", "!0 made a.0 aud", "!0 audition a.1", "!0 call a.0 audit a.1 as !1", "!1 call a.1 getObjectExpr"]
    open_lists, number = [], 0
    for item in re.findall(r'"(?:[^"\\]|\\.)*"|\'[^\']*\'|[()]|[^\s()]+', form):
        if item == "(":
            open_lists.append([])
        elif item == ")":
            members = open_lists.pop()
            lines.append(" ".join([f"!1 list a%{number}", *members]))
            whole, number = f"a%{number}", number + 1
            if open_lists:
                open_lists[-1].append(whole)
        else:
            # A literal stands for itself, a word as a text.
            open_lists[-1].append(item if item[0] in "\"'" or item.isdigit() else quoted(item))
    lines += [f"!1 back {whole}", f"!0 back {whole}", "!0 made a.2 x", "!0 done a.2", "settle @a a.2", "end"]
    source = f"def aud {{ method audit(n) {{ n.getObjectExpr() }} }}\n{OBJECT}"
    yield row("form-as-lists", "run", 0, script([("a", [], source)], []), "\n".join(lines) + "\n")


# Scripts.

SCOPE = {
    *"__makeList __equalizer __comparer __loop E Ref throw auditedBy any void int boolean char String List nullOk near".split(),
    *"DeepFrozen Selfless Functional null true false".split(),
}
BASE = script([("a", ["b"], "41 + 1"), ("b", [], "7")], ["turn a", "cut a b", "notice b a", "drain 2"])
TOLD = """open a
!0 call 41 add 1
!0 back 42
!0 done 42
settle @a 42
open b
!0 done 7
settle @b 7
1 idle
2 cut a b
3 notice b a
"""
TOLD += "".join(f"{number} idle\n" for number in range(4, 12)) + "end\n"


def as_json(text: str):
    """The value of a text, or an error where it is refused. A number is to be one of a 64-bit float, a text to have no lone surrogate."""

    def no(_: str):
        raise ValueError

    whole = {"parse_int": lambda it: int(it) if math.isfinite(float(it)) else no(it)}
    value = json.loads(text, parse_constant=no, parse_float=lambda it: float(it) if math.isfinite(float(it)) else no(it), **whole)
    deepest, depth = 0, 0
    for it in re.findall(r'"(?:[^"\\]|\\.)*"|[\[{]|[\]}]', text):
        depth += (it in "[{") - (it in "]}")
        deepest = max(deepest, depth)
    if deepest > 127:
        raise ValueError
    json.dumps(value, ensure_ascii=False).encode()
    return value


def are_texts(value) -> bool:
    return isinstance(value, list) and all(isinstance(it, str) for it in value)


def is_vat(value) -> bool:
    if not isinstance(value, dict) or set(value) != {"name", "knows", "source"}:
        return False
    return isinstance(value["name"], str) and are_texts(value["knows"]) and isinstance(value["source"], str)


def is_name(name: str) -> bool:
    return re.fullmatch("[a-z][a-z0-9]{0,15}", name) is not None and name not in KEYWORDS | SCOPE


def is_entry(entry: str) -> bool:
    words = entry.split(" ")
    if words[0] == "drain":
        return len(words) == 2 and re.fullmatch("[1-9][0-9]{0,5}", words[1]) is not None and int(words[1]) <= 100_000
    return all(words) and len(words) == {"turn": 2, "carry": 3, "cut": 3, "notice": 3}.get(words[0], 0)


def entries(value: dict) -> int:
    vats = len(value["vats"])
    return sum(int(it.split(" ")[1]) * vats * vats if it.startswith("drain ") else 1 for it in value["schedule"])


def is_cut_before(schedule: list[str]) -> bool:
    cuts: set[frozenset[str]] = set()
    for entry in schedule:
        words = entry.split(" ")
        if words[0] == "notice" and frozenset(words[1:]) not in cuts:
            return False
        if words[0] == "cut":
            cuts.add(frozenset(words[1:]))
    return True


def rule_of(text: str) -> int:
    """The first rule that a text fails, and 0 where it is a script."""
    try:
        value = as_json(text)
    except (ValueError, RecursionError, OverflowError):
        return 1
    if not isinstance(value, dict) or set(value) - {"fuel"} != {"key", "vats", "schedule"}:
        return 2
    if not isinstance(value["key"], str) or not re.fullmatch("[0-9a-f]{64}", value["key"]):
        return 3
    fuel = value.get("fuel", 1)
    if type(fuel) is not int or not 1 <= fuel <= 10_000_000:
        return 4
    vats = value["vats"]
    if not isinstance(vats, list) or len(vats) > 16 or not all(map(is_vat, vats)):
        return 5
    names = [it["name"] for it in vats]
    if not all(map(is_name, names)) or len(set(names)) < len(names):
        return 6
    if any(len(it["source"].encode()) > 65_536 for it in vats):
        return 7
    if any(other not in names or other == it["name"] or it["knows"].count(other) > 1 for it in vats for other in it["knows"]):
        return 8
    schedule = value["schedule"]
    if not are_texts(schedule) or not all(map(is_entry, schedule)):
        return 9
    named = [it.split(" ")[1:] for it in schedule if not it.startswith("drain ")]
    if any(set(it) - set(names) or len(set(it)) < len(it) for it in named):
        return 10
    if entries(value) > 100_000:
        return 11
    return 0 if is_cut_before(schedule) else 12


CHOSEN = [
    *["", " ", "null", "[]", "{}", "1", '"a"', "{,}", "[1,]", '{"a":1,}', "01", "1.", ".5", "+1", "1e", "1e+", "-", "--1", "0x1", "1_0", "NaN"],
    *["Infinity", "-Infinity", "nul", "True", "'a'", '"\\x"', '"\\u12"', '"\\ud800"', '"\\udc00\\ud800"', '"\\ud83d\\ude00"', '"\t"', '"\\t"',
        '"\\/"'],
    *['"a', "[", "]", "[[]", '{"a"}', '{"a":}', '{1:2}', "1 2", "[] []", "/**/1", "#1", "\ufeff1", "\u00a01", "\x0c1", "1e308", "1e309", "-1e309"],
    *["1e-400", "123456789012345678901234567890", "1" + "0" * 308, "1" + "0" * 309, "[" * 127 + "]" * 127, "[" * 128 + "]" * 128],
    *['{"a":' * 127 + "1" + "}" * 127, '{"a":' * 128 + "1" + "}" * 128],
]
NAMES = "a-b A 1a a1 if in any null true void int near throw b to _ var via def".split()
ENTRIES = [
    *["turn", "turn ", "turn  a", " turn a", "turn a ", "Turn a", "turn c", "turn A!", "carry a", "carry a a", "carry a b c", "carry a c", "cut a"],
    *["cut a a", "notice a b", "drain", "drain 0", "drain 01", "drain -1", "drain +1", "drain 1.0", "drain 100001", "drain 25001", "drain 99999"],
    *["drain a", "drain 1 2", "inject a b 00", "turn\ta", ""],
]


def changed(chosen: random.Random) -> str:
    """The script with a change or two of one character."""
    text = BASE
    for _ in range(chosen.choice([1, 1, 2])):
        at = chosen.randrange(len(text))
        put = chosen.choice('{}[]",:0123456789abcdnrtuev \\eE+-.\u00e9')
        front, behind = text[:at], text[at + 1 :]
        text = chosen.choice([front + behind, front + put + behind, front + put + text[at:], front + text[at] + text[at:]])
    return text


def variants():
    """Scripts with one part that is another."""
    value = json.loads(BASE)
    fuels = ["1", "10000000", "10000001", "0", "-1", "-0", "5.0", "5e0", "5E0", "true", "null", '"5"', "18446744073709551616", "[1]"]
    for fuel in fuels:
        yield f"fuel {fuel}", BASE[:-1] + f', "fuel": {fuel}}}'
    for key in ("0" * 63, "0" * 65, "A" * 64, "g" * 64, "\u0660" * 64, "0" * 63 + " ", ""):
        yield f"key {key}", json.dumps({**value, "key": key})
    for name in ("", "a" * 16, "a" * 17, "\u00e9", *NAMES):
        yield f"name {name}", json.dumps({**value, "vats": [{**value["vats"][0], "name": name}, value["vats"][1]], "schedule": []})
    for knows in (["b", "b"], ["a"], ["c"], [""], [1], "b", None, {}):
        yield f"knows {knows}", json.dumps({**value, "vats": [{**value["vats"][0], "knows": knows}, value["vats"][1]]})
    for entry in ENTRIES:
        yield f"entry {entry}", json.dumps({**value, "schedule": [entry]})
    for more in ("hostile", "Key", "", "keys"):
        yield f"member {more}", json.dumps({**value, more: []})
    for lost in ("key", "vats", "schedule"):
        yield f"without {lost}", json.dumps({key: it for key, it in value.items() if key != lost})
    for vats in ({}, [[]], [{}], value["vats"] * 9, [{**value["vats"][1], "more": 1}], [{"name": "b", "knows": []}]):
        yield f"vats {len(vats)}", json.dumps({**value, "vats": vats, "schedule": []})
    yield "spaces", " \t\r\n" + BASE.replace(",", " ,\n\t") + "\r\n"
    other = json.dumps(["turn a", "cut b a", "notice a b", "notice b a"])
    yield "twice", f'{BASE[:-1]}, "schedule": 5, "schedule": {other}, "schedule": {json.dumps(value["schedule"])}}}'


def scripts():
    """A row for each text that fails a rule, or that says what the script says."""
    chosen = random.Random(12)
    texts = [(f"text {at}", it) for at, it in enumerate(CHOSEN)] + list(variants()) + [(f"change {at}", changed(chosen)) for at in range(70)]
    same, seen = json.loads(BASE), {""}
    for name, text in texts:
        rule = rule_of(text)
        is_same = not rule and {**as_json(text), "fuel": 1} == {**same, "fuel": 1} and as_json(text).get("fuel", 100) >= 100
        if text in seen - {""} or "\n---\n" in text or not (rule or is_same):
            continue
        seen.add(text)
        name = re.sub(r"[^a-z0-9]+", "-", name.lower()).strip("-")
        yield row(f"json-{len(seen) - 1}-{name}", "run", 6 if rule else 0, text, f"refused script {rule}\n" if rule else TOLD)


def main() -> None:
    text = "====\n".join([draws(), swiss_numbers(), integers(), orders(), identifiers(), texts(), absent(), sames(), problems(), *forms(),
        *refusals(), *scripts()])
    if sys.argv[1:] == ["--check"]:
        if not ROWS.exists() or ROWS.read_bytes() != text.encode():
            sys.exit(f"{ROWS.name} is not what {pathlib.Path(__file__).name} makes")
        return
    ROWS.write_bytes(text.encode())


if __name__ == "__main__":
    main()
