#!/usr/bin/env python3
"""Which files a new variant of a type touches, found in the tree as it stands.

    docs/touches.py                 the kinds of change that have a name here, with the types of each
    docs/touches.py KIND|TYPE..     the files that go by the variants of the types of that kind, or of a type of that name
    docs/touches.py --some ..       those too that name a fourth of the variants

A type is an `enum` of a .rt file or a `data` of an .antt file. A file counts where it names the type, or the module that declares it,
and at least two thirds of the variants. Files stand by crates, what is below first; beside each stands how many of the variants it
names. A file that names them all goes by each of them, and wants a case for a new one; one that names fewer may have a last case for
all others, and a file may be one of two that share the cases: look at those of `--some` in a crate that has one. A file that goes by
other types which follow from these (a view, a count) is not found: `rt check` finds it. It reads files and runs nothing.
"""
from __future__ import annotations

import math
import pathlib
import re
import sys

TOP = pathlib.Path(__file__).resolve().parent.parent

KINDS = {
    "line": (["Happened", "Event", "RawLine"], "a line of the history"),
    "note": (["Note", "ShownNote", "Op", "Operation", "Heard"], "a note between vats"),
    "node": (["Node"], "a node of the kernel language"),
    "primitive": (["Primitive", "Rule", "Guard"], "a primitive of the safe scope"),
    "method": (["SeqVerb", "IntVerb", "FlagVerb", "Reply", "Problem"], "a native method"),
    "value": (["Value", "Passed", "Brought", "Desc", "Described", "Shown"], "a kind of value"),
    "entry": (["Entry", "Step", "Doing"], "an entry of a schedule"),
    "stop": (["Stop", "Status", "VatStop", "Halted", "RunEnd"], "an end of a run"),
    "token": (["TokenKind", "Form", "Line", "Place"], "a token or a row of the grammar"),
}


def crates() -> list[str]:
    """Each crate behind all that it stands on, else in the order of crates.txt."""
    below = {}
    for line in (TOP / "crates.txt").read_text().splitlines():
        head, colon, rest = line.split("#")[0].partition(":")
        if colon:
            below[head.split()[0]] = rest.split()
    found: list[str] = []

    def put(name: str) -> None:
        if name in below and name not in found:
            for it in below[name]:
                put(it)
            found.append(name)

    for name in below:
        put(name)
    return found


def files_of(crate: str) -> list[pathlib.Path]:
    root = TOP / "crates" / crate
    found = [it for part in ("src", "specs", "proofs") for it in (root / part).rglob("*") if it.suffix in (".rt", ".antt")]
    return sorted(found, key=lambda it: (["src", "specs", "proofs"].index(it.relative_to(root).parts[0]), it))


def enums_in(text: str, name: str) -> list[str]:
    """The variants of a Rust enum of that name that is declared in the text."""
    found = re.search(rf"^(?:pub(?:\(crate\))? )?enum {name}\b[^{{]*\{{\n(.*?)^\}}", text, re.M | re.S)
    return re.findall(r"^    ([A-Z]\w*)\b", found[1], re.M) if found else []


def data_in(text: str, name: str) -> list[str]:
    """The constructors of a `data` of that name, by their indent."""
    found = re.search(rf"^( *)(?:pub )?data {name}\b[^\n]*where\n", text, re.M)
    if not found:
        return []
    variants = []
    for line in text[found.end():].splitlines():
        if line.strip() and not line.startswith(found[1] + "  "):
            break
        told = re.match(rf"{found[1]}  ([A-Z]\w*) :", line)
        variants += [told[1]] if told else []
    return variants


class Declared:
    """A type, where it is declared, and the words by which a file that goes by it can be told."""

    def __init__(self, crate: str, path: pathlib.Path, name: str, variants: list[str]):
        self.crate, self.path, self.name, self.variants = crate, path, name, variants
        inside = path.relative_to(TOP / "crates" / crate)
        module = ".".join(inside.with_suffix("").parts[1:])
        self.module = f"{crate}.specs.declared.{module}.{name}" if path.suffix == ".rt" else f"{crate}.{inside.parts[0]}.{module}"
        self.names = re.compile(r"\b(?:" + "|".join(variants) + r")\b")

    def is_used_in(self, path: pathlib.Path, text: str) -> bool:
        if path == self.path or self.module in text:
            return True
        return path.suffix == ".rt" and self.path.suffix == ".rt" and re.search(rf"\b{self.name}::", text) is not None

    def least(self, share: float) -> int:
        return max(2, math.ceil(share * len(self.variants)))

    def named_in(self, text: str) -> int:
        body = "\n".join(line for line in text.splitlines() if not re.match(r"\s*(?:pub |unfoldable )*(?:ghost )?use ", line))
        return len(set(self.names.findall(body)))


def declared(names: list[str], order: list[str]) -> list[Declared]:
    found = []
    for crate in order:
        for path in files_of(crate):
            text = path.read_text()
            for name in names:
                variants = enums_in(text, name) if path.suffix == ".rt" else data_in(text, name)
                if len(variants) > 1:
                    found.append(Declared(crate, path, name, variants))
    return found


def tell(types: list[Declared], order: list[str], share: float) -> None:
    for it in types:
        print(f"{it.name}: {len(it.variants)} variants, {it.path.relative_to(TOP)}")
    count = 0
    for crate in order:
        rows = []
        for path in files_of(crate):
            text = path.read_text()
            told = [(it, it.named_in(text)) for it in types if it.is_used_in(path, text)]
            told = [(it, n) for it, n in told if n >= it.least(share)]
            if told:
                words = ", ".join(dict.fromkeys(f"{it.name} {n} of {len(it.variants)}" for it, n in told))
                rows.append(f"    {path.relative_to(TOP / 'crates' / crate)}: {words}")
        if rows:
            print(f"\n{crate}")
            print("\n".join(rows))
            count += len(rows)
    print(f"\n{count} files")


def main() -> None:
    asked = [it for it in sys.argv[1:] if it != "--some"]
    if not asked:
        print(__doc__)
        for kind, (names, words) in KINDS.items():
            print(f"    {kind:10} {words}: {', '.join(names)}")
        return
    order = crates()
    names = [name for it in asked for name in (KINDS[it][0] if it in KINDS else [it])]
    types = declared(names, order)
    if not types:
        sys.exit("no such type: " + " ".join(asked))
    tell(types, order, 0.25 if "--some" in sys.argv else 2 / 3)


if __name__ == "__main__":
    main()
