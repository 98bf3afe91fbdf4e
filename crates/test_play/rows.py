#!/usr/bin/env python3
"""Makes src/rows.rt: texts, and what a reader of plays says of each: the play, or the first rule that fails.

It is a second reader, written from the words of docs/FORMATS.md, and shares nothing with the first but a reader of JSON.
"""
import json
import os
import re

KEYWORDS = {"if", "def"}
SAFE = {"any", "E"}
KEY = "00" * 32
NULL = object()


class Fails(Exception):
    """A rule that fails."""


def hold(rule, fact):
    if not fact:
        raise Fails(rule)


def texts(value):
    return isinstance(value, list) and all(isinstance(item, str) for item in value)


def spelled(text):
    """The words of an entry, where it is spelled as one."""
    words = text.split(" ")
    if "" in words:
        return None
    shape = {"turn": 2, "carry": 3, "cut": 3, "notice": 3, "drain": 2, "inject": 4}
    if len(words) != shape.get(words[0]):
        return None
    if words[0] == "drain" and not (re.fullmatch("[1-9][0-9]{0,5}", words[1]) and int(words[1]) <= 100000):
        return None
    if words[0] == "inject" and not re.fullmatch("([0-9a-f]{2}){1,4096}", words[3]):
        return None
    return words


def read(text):
    try:
        play = json.loads(text)
    except ValueError:
        raise Fails(1)
    hold(2, isinstance(play, dict) and {"key", "vats", "schedule"} <= set(play) <= {"key", "vats", "schedule", "fuel", "hostile"})
    hold(3, isinstance(play["key"], str) and re.fullmatch("[0-9a-f]{64}", play["key"]))
    hold(4, "fuel" not in play or (type(play["fuel"]) is int and 1 <= play["fuel"] <= 10000000))
    vats = play["vats"]
    hold(5, isinstance(vats, list) and len(vats) <= 16 and all(
        isinstance(vat, dict) and set(vat) == {"name", "knows", "source"} and isinstance(vat["name"], str) and texts(vat["knows"]) and isinstance(vat["source"], str)
        for vat in vats))
    names = [vat["name"] for vat in vats]
    hold(6, all(re.fullmatch("[a-z][a-z0-9]{0,15}", name) and name not in KEYWORDS | SAFE for name in names) and len(set(names)) == len(names))
    hold(7, all(len(vat["source"].encode()) <= 65536 for vat in vats))
    hold(8, all(set(vat["knows"]) <= set(names) - {vat["name"]} and len(set(vat["knows"])) == len(vat["knows"]) for vat in vats))
    hold(9, texts(play["schedule"]) and all(spelled(text) for text in play["schedule"]))
    entries = [spelled(text) for text in play["schedule"]]
    for verb, *words in entries:
        if verb != "drain":
            hold(10, all(word in names for word in words[:2 if verb != "turn" else 1]) and (verb == "turn" or words[0] != words[1]))
    size = len(names)
    hold(11, sum(int(words[0]) * size * size if verb == "drain" else 1 for verb, *words in entries) <= 100000)
    done, cuts = [], set()
    for verb, *words in entries:
        if verb == "drain":
            for _ in range(int(words[0]) if size else 0):
                done += [f"t{v}" for v in range(size)] + [f"c{v}-{w}" for v in range(size) for w in range(size) if v != w]
            continue
        places = [str(names.index(word)) for word in words[:1 if verb == "turn" else 2]]
        if verb == "cut":
            cuts.add(frozenset(places))
        hold(12, verb != "notice" or frozenset(places) in cuts)
        done.append({"turn": "t", "carry": "c", "cut": "x", "notice": "n", "inject": "i"}[verb] + "-".join(places) + (":" + words[2] if verb == "inject" else ""))
    hostile = play.get("hostile", [])
    hold(13, texts(hostile) and set(hostile) <= set(names) and len(set(hostile)) == len(hostile))
    hold(14, all(vats[names.index(name)]["source"] == "" for name in hostile))
    hold(15, all(words[0] in hostile for verb, *words in entries if verb == "inject"))
    return "".join(f"h{names.index(name)} " for name in hostile) + "".join(word + " " for word in done)


def script(schedule=(), hostile=("h",), vats=None, **more):
    vats = vats if vats is not None else [("a", [], "1"), ("h", ["a"], "")]
    described = vats if isinstance(vats, str) else [{"name": name, "knows": knows, "source": source} for name, knows, source in vats]
    made = {"key": KEY, "vats": described, "schedule": schedule if isinstance(schedule, str) else list(schedule)}
    if hostile is not None:
        made["hostile"] = list(hostile) if isinstance(hostile, tuple) else None if hostile is NULL else hostile
    made.update(more)
    return json.dumps({name: value for name, value in made.items() if value != "left out"})


TWO = [("a", [], "1"), ("b", [], "1")]
ROWS = [
    # lawful
    script(), script(hostile=()), script(hostile=None), script(fuel=5), script(vats=[], hostile=()),
    script(["carry a h", "inject h a 0100090003707574010305", "carry h a", "turn a", "drain 1"]),
    script(["inject h a " + "0f" * 4096]), script(["inject h a 00", "inject i h ff"], ("i", "h"), [("h", [], ""), ("a", [], "2"), ("i", ["h"], "")]),
    script(["inject h a 01", "cut a h", "inject h a 01", "notice h a", "notice a h"]),
    script(["turn a", "carry a h", "cut a h", "notice h a"], ()),
    script(["drain 100000"], (), []),
    # one rule after another
    "", "{", script() + " x", "[]", script(key="left out"), script(hostil=[]), script(vats="left out"), script(schedule="left out"),
    script(key="0" * 63), script(key="0" * 63 + "A"), script(key=None), script(fuel=0), script(fuel=5.0), script(fuel=10000001), script(fuel=None),
    script(vats=[(f"v{n}", [], "") for n in range(17)], hostile=()), script(vats=[("a", [], 1)], hostile=()), script(vats=[("a", None, "")], hostile=()),
    script(vats=[("if", [], "")], hostile=()), script(vats=[("a", [], ""), ("a", [], "")], hostile=()), script(vats=[("A", [], "")], hostile=()),
    script(vats=[("a", [], " " * 65537)], hostile=()), script(vats=[("a", ["a"], "")], hostile=()), script(vats=[("a", ["h"], "")], hostile=()),
    script("turn a"), script([5]), script(["turn"]), script(["turn "]), script(["turn  a"]), script(["drain 0"]), script(["drain 100001"]), script(["Turn a"]),
    script(["inject h a"]), script(["inject h a "]), script(["inject h a 0"]), script(["inject h a 012"]), script(["inject h a 0A"]), script(["inject h a 0g"]),
    script(["inject h  a 00"]), script(["inject h a 00 00"]), script(["inject h a 00 "]), script(["inject  h a 00"]), script(["inject h a " + "0f" * 4097]),
    script(["Inject h a 00"]), script(["inject"]), script(["inject h 00"]),
    script(["turn b"]), script(["carry a a"]), script(["inject h h 00"]), script(["inject h b 00"]), script(["inject b a 00"]), script(["turn A!"]),
    script(["drain 25001"], (), TWO), script(["drain 25000", "inject a b 00"], ("a",), [("a", [], ""), ("b", [], "")]), script(["drain 25000", "turn a"], (), TWO),
    script(["notice a h", "cut a h"]), script(["inject h a 01", "notice a h"]),
    script(hostile=NULL), script(hostile={}), script(hostile="h"), script(hostile=[5]), script(hostile=("b",)), script(hostile=("h", "h")), script(hostile=("h", "")),
    script(hostile=("a",)), script(hostile=("h", "a")), script(hostile=("h",), vats=[("h", [], " ")]),
    script(["inject a h 00"]), script(["inject h a 00"], ()), script(["inject h a 00"], None),
    # the first of two rules that fail
    script(["inject h a 0"], ("a",)), script(["inject h h 00"], None), script(["notice a h", "inject a h 00"], ("h", "h")), script(["inject a h 00"], ("b",)), script(["inject a h 00"], ("a",)),
    script(["inject b a 00", "inject h a 0"]), script(fuel=0, hostil=[]), script(["drain 99999", "inject h h 00"]),
]


COUNT = 9


def shown(text):
    try:
        return 0, read(text)
    except Fails as failed:
        return failed.args[0], ""


def literal(text):
    return '"' + text.replace("\\", "\\\\").replace('"', '\\"') + '"'


def main():
    out = ["//! Texts, and what a reader of plays says of each. Made by `rows.py` of this crate.\n",
           "/// A text, and what it is read as.", "pub struct Row {", "    pub text: &'static str,", "    /// The first rule that fails, and 0 where none does.", "    pub rule: u8,",
           "    /// The hostile vats and what is done, each with its sign and a space behind it.", "    pub play: &'static str,", "}\n"]
    rows = [(text, *shown(text)) for text in ROWS]
    rows = [row for row in rows if len(row[0]) + len(row[2]) < 2000]
    # A proof of a test reads all of its table, so each test has a table of a few rows.
    for number, first in enumerate(range(0, len(rows), COUNT)):
        some = rows[first:first + COUNT]
        out.append(f"pub const ROWS_{number}: [Row; {len(some)}] = [")
        for text, rule, play in some:
            out += ["    Row {", f"        text: {literal(text)},", f"        rule: {rule},", f"        play: {literal(play)},", "    },"]
        out.append("];\n")
    out.pop()
    out.append("];")
    with open(os.path.join(os.path.dirname(os.path.realpath(__file__)), "src/rows.rt"), "w") as file:
        file.write("\n".join(out) + "\n")
    print(len(rows), sorted({rule for _, rule, _ in rows}))


if __name__ == "__main__":
    main()
