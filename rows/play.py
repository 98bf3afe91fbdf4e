#!/usr/bin/env python3
"""Makes a row of `test_hostile` of a script with hostile vats: a play as the definitions have it, and the text that it has.

    rows/play.py EVAT SCRIPT TEXT NAME "WHAT IT SHOWS" [--wire]

EVAT is the program, which expands each vat's source. SCRIPT is a script (docs/FORMATS.md) that may have a member `hostile`, a list of
names of vats, and entries `inject V W HEX`. TEXT is its text, with frames where `--wire` stands. What it makes is
`crates/test_hostile/specs/NAME.antt`, with the module's name in `specs/Lib.antt` and the row in `src/rows.rt`. `rt fmt` in that
crate lays it out.
"""
from __future__ import annotations

import json
import pathlib
import re
import subprocess
import sys

CRATE = pathlib.Path(__file__).resolve().parent.parent / "crates/test_hostile"
TOKEN = re.compile(r"""\(|\)|"(?:\\.|[^"\\])*"|'(?:\\.|[^'\\])*'|[^\s()"']+""")
ENTRIES = {"turn": "Turn", "carry": "Carry", "cut": "CutLink", "notice": "NoticeLink"}


def listed(items: list[str]) -> str:
    return "(" + "".join(item + " ∷ " for item in items) + "[])" if items else "[]"


def codes(text: str) -> str:
    return f"(codes {json.dumps(text, ensure_ascii=False)})"


def parsed(form: str):
    """The form of a program as nested lists of its tokens."""
    stack: list[list] = [[]]
    for token in TOKEN.findall(form):
        if token == "(":
            stack.append([])
        elif token == ")":
            done = stack.pop()
            stack[-1].append(done)
        else:
            stack[-1].append(token)
    return stack[0][0]


class Tree:
    """The nodes of a program, each in front of its parts."""

    def __init__(self, form) -> None:
        self.nodes: list[str] = []
        self.used: set[str] = set()
        self.add(form)

    def all(self, forms: list) -> str:
        return listed([str(self.add(form)) for form in forms])

    def guard(self, forms: list) -> str:
        return f"(Some {self.add(forms[0])})" if forms else "None"

    def literal(self, token: str) -> str:
        self.used.add("literal")
        if token[0] == '"':
            return f"(literal.Text {codes(json.loads(token))})"
        number = int(token)
        self.used.add("pos" if number >= 0 else "negsuc")
        return f"(literal.Int ({f'pos {number}' if number >= 0 else f'negsuc {-number - 1}'}))"

    def add(self, form) -> int:
        at = len(self.nodes)
        self.nodes.append("")
        kind, rest = form[0], form[1:]
        if kind == "lit":
            made = ("Lit", self.literal(rest[0]))
        elif kind == "noun":
            made = ("Noun", codes(rest[0]))
        elif kind == "seq":
            made = ("Sequence", self.all(rest))
        elif kind == "call":
            made = ("Call", str(self.add(rest[0])), codes(rest[1]), self.all(rest[2:]))
        elif kind == "def" and len(rest) == 2:
            made = ("Def", str(self.add(rest[0])), "None", str(self.add(rest[1])))
        elif kind == "object":
            made = ("Object", str(self.add(rest[0])), self.all(rest[1]), self.all(rest[2:]))
        elif kind == "method":
            made = ("Method", codes(rest[0]), self.all(rest[1]), str(self.add(rest[2])))
        elif kind == "matcher":
            made = ("Matcher", str(self.add(rest[0])), str(self.add(rest[1])))
        elif kind in ("final", "var"):
            made = (kind.capitalize(), codes(rest[0]), self.guard(rest[1:]))
        elif kind == "any":
            made = ("Any", self.guard(rest))
        elif kind == "list":
            made = ("ListPattern", self.all(rest))
        else:
            sys.exit(f"rows/play.py makes no node of {kind!r} yet")
        self.used.add(made[0])
        self.nodes[at] = " ".join(made)
        return at


def expanded(evat: str, vat: dict) -> Tree | None:
    """The program of a vat. A program by itself is given no roots, so the names that it knows are bound in front, and those parts left out."""
    if not vat["source"]:
        return None
    bound = "".join(f"def {name} := 0; " for name in vat["knows"])
    done = subprocess.run([evat, "expand"], input=bound + vat["source"], capture_output=True, text=True)
    if done.returncode:
        sys.exit(f"{vat['name']}: {done.stdout.strip()}")
    form = parsed(done.stdout)
    if not bound:
        return Tree(form)
    own = form[1 + len(vat["knows"]) :]
    return Tree(["seq", *own] if len(own) > 1 else own[0])


def doing(entry: str, numbers: dict[str, int]) -> str:
    word, *rest = entry.split(" ")
    if word == "inject":
        return f"Injects {numbers[rest[0]]} {numbers[rest[1]]} {listed([str(byte) for byte in bytes.fromhex(rest[2])])}"
    return f"Does ({ENTRIES[word]} {' '.join(str(numbers[name]) for name in rest)})"


def module(evat: str, script: dict, text: str, shows: str, wire: bool) -> str:
    vats, hostile = script["vats"], script.get("hostile", [])
    numbers = {vat["name"]: at for at, vat in enumerate(vats)}
    trees = {at: tree for at, vat in enumerate(vats) if (tree := expanded(evat, vat))}
    used = set().union(*(tree.used for tree in trees.values()))
    nodes = sorted(used - {"literal", "pos", "negsuc"})
    entries = sorted({ENTRIES[word] for entry in script["schedule"] if (word := entry.split(" ")[0]) in ENTRIES} | {"Script"})
    prelude = ["◌≡◌", "List", "[]", "◌∷◌", "codes", "None", *sorted(used & {"pos", "negsuc"})]
    told = "wire_text" if wire else "text"
    lines = [f"-- {shows}", f"use Rattle.std.specs.Prelude.{{{', '.join(prelude)}}}", f"use Rattle.def_run.specs.World.{{{', '.join(entries)}}}"]
    lines += ["use Rattle.def_hostile.specs.Hostile.{Play, Does, Injects, acts}", f"use Rattle.def_hostile.specs.HostileText.{{{told}}}", "use Rattle.test_hostile.specs.Lines.{lines}"]
    lines += ["use Rattle.def_kernel.specs.declared.node.Literal.TheVariants as literal"] if "literal" in used else []
    lines += ["use Rattle.def_kernel.specs.declared.node.Node.{Node}", f"use Rattle.def_kernel.specs.declared.node.Node.TheVariants.{{{', '.join(nodes)}}}", ""]
    for at, tree in trees.items():
        lines += [f"unfoldable pub tree_{at} : List Node", f"tree_{at} =", *(f"    {node} ∷" for node in tree.nodes), "    []", ""]
    lines += ["unfoldable pub play : Play", "play = record {", "  script = record {", f"    key = {listed([str(byte) for byte in bytes.fromhex(script['key'])])};"]
    lines += [f"    fuel = {script.get('fuel', 1000000)};", "    depth = 400;", "    vats ="]
    for at, vat in enumerate(vats):
        knows, tree = listed([str(numbers[name]) for name in vat["knows"]]), f"tree_{at}" if at in trees else "[]"
        lines += [f"        record {{ name = {codes(vat['name'])[1:-1]}; knows = {knows}; tree = {tree} }} ∷"]
    lines += ["        [];", "    schedule = [];", "  };", f"  hostile = {listed([str(numbers[name]) for name in hostile])};", "  doings ="]
    lines += [*(f"    {doing(entry, numbers)} ∷" for entry in script["schedule"]), "    [];", "}", "", "abbrev pub Holds : Type 0", f"Holds = {told} play (acts play) ≡ lines ("]
    shown = [f"codes {json.dumps(line, ensure_ascii=False)}" for line in text.splitlines()]
    lines += [f"    {'∷ ' if at else ''}{line}" for at, line in enumerate(shown)] + ["    ∷ [])", ""]
    lines += ["unfoldable pub opened : Unit {0}", f"unfolding {' '.join(f'tree_{at}' for at in trees)} play", "opened = tt", ""]
    return "\n".join(lines)


def function(name: str, shows: str) -> str:
    row = re.sub(r"(?<=.)(?=[A-Z])", "_", name).lower()
    opens = f"def_hostile::specs::HostileText::opened_hostile_text, crate::specs::Lines::opened_more, crate::specs::{name}::opened"
    return f"\n/// {shows}\n#[tactic(auto, unfolding({opens}))]\npub fn {row}()\n    ensures text {{ {name}Holds }}\n{{}}\n"


def added(path: pathlib.Path, line: str, behind: str) -> None:
    """Puts the line behind the last that begins so, unless it is there."""
    lines = path.read_text(encoding="utf-8").splitlines()
    if line not in lines:
        last = max(at for at, old in enumerate(lines) if old.startswith(behind))
        lines.insert(last + 1, line)
        path.write_text("\n".join(lines) + "\n", encoding="utf-8")


def main(args: list[str]) -> None:
    wire = "--wire" in args
    evat, script, text, name, shows = [arg for arg in args if arg != "--wire"]
    made = module(evat, json.loads(pathlib.Path(script).read_text(encoding="utf-8")), pathlib.Path(text).read_text(encoding="utf-8"), shows, wire)
    (CRATE / f"specs/{name}.antt").write_text(made, encoding="utf-8")
    added(CRATE / "specs/Lib.antt", f"pub mod {name}", "pub mod ")
    rows = CRATE / "src/rows.rt"
    use = f"ghost use Rattle.test_hostile.specs.{name}.{{Holds as {name}Holds}};"
    if use not in rows.read_text(encoding="utf-8").splitlines():
        added(rows, use, "ghost use ")
        rows.write_text(rows.read_text(encoding="utf-8") + function(name, shows), encoding="utf-8")


if __name__ == "__main__":
    main(sys.argv[1:])
