"""Which changes of one line there are: for `mutants`.

The code is in the layout of `rt fmt`, so a line tells what it is: a condition, an arm, a `let`, a `return`, the last expression of a block, or a
statement. A change of an expression E into F is written `if MUTANT { F } else { E }`, MUTANT being a test of which mutant the program is.
"""
from __future__ import annotations

import pathlib
import re

ROOT = pathlib.Path(__file__).resolve().parent.parent
HERE = pathlib.Path(__file__).resolve().parent
# Crates of other commands than `run`, and of frames that only a hostile vat would send. `--only` names them all the same.
BESIDE = {"ev_generate", "ev_summary", "ev_sturdy", "ev_mint", "ev_trace_words", "ev_trace_lines", "ev_trace", "ev_check_text", "ev_order",
          "ev_links", "ev_known", "ev_uses", "ev_parts"}
FUNCTION = re.compile(r"^(\s*)(?:pub(?:\([^)]*\))? )?(?:const )?fn (\w+)")
NOT_CODE = re.compile(r"\s*(//|#|ghost |prove!|ensures|requires|invariant|use |pub |const |fn |impl |struct |enum |mod )")
# Pairs of arguments that are likely of one type.
PAIRS = re.compile(r"(a|b|x|y|first|second|third|left|right|from|to|old|new|low|high|start|end|i|j|m|n|before|behind|above|below)$")
INTEGER = re.compile(r"const (\w+): [ui](?:8|16|32|64|128|size)\b")
# Want of memory, stops that nothing meets, and what frees memory.
UNSEEN = re.compile(r"\bMemory\b|Stop::Missing|Stop::Astray|\bdrop\(")
CONDITION = re.compile(r"^(\s*)((?:\} else )?if|while) (.+) \{$")
ARM = re.compile(r"^(\s*)([^=]+?(?: if [^=]+?)?) => (.+),$")
LET = re.compile(r"^(\s*let (?:mut )?\w+(?:: [^=]+)?) = (.+);$")
RETURN = re.compile(r"^(\s*)return (.+);$")
ASSIGN = re.compile(r"^(\s*)([\w.*\[\]&]+) ([-+*|&]?=) (.+);$")
SPACED = {" < ": " <= ", " <= ": " < ", " > ": " >= ", " >= ": " > ", " == ": " != ", " != ": " == ", " + ": " - ", " - ": " + ", " * ": " + ",
          " / ": " * ", " % ": " / ", " << ": " >> ", " >> ": " << ", " && ": " || ", " || ": " && "}
NAMES = {"is_lt": "is_le", "is_le": "is_lt", "is_gt": "is_ge", "is_ge": "is_gt", "is_eq": "is_ne", "push_front": "push_back",
    "push_back": "push_front",
         "pop_front": "pop_back", "first": "last", "last": "first", "min": "max", "max": "min", "is_some": "is_none", "is_none": "is_some",
         "is_ok": "is_err", "checked_add": "checked_sub", "checked_sub": "checked_add", "is_near": "is_far", "true": "false", "false": "true"}


# The names of all constants that are integers.
INTEGERS = {name for path in (ROOT / "crates").glob("ev_*/src/**/*.rt") for name in INTEGER.findall(path.read_text())}


def is_whole(text: str) -> bool:
    """Whether each bracket of a piece of code is closed in it, outside texts."""
    text = re.sub(r'b?"(?:[^"\\]|\\.)*"|\'(?:[^\'\\]|\\.)\'', "", text)
    depth = 0
    for char in text:
        depth += (char in "([{") - (char in ")]}")
        if depth < 0:
            return False
    return not depth and '"' not in text


def of_numbers(text: str):
    for it in re.finditer(r"(?<![\w.\"'#])(\d+)(?![\w.\"'])", text):
        number = int(it[1])
        for other in {number + 1, max(number - 1, 0)} - {number}:
            yield f"{number} is {other}", text[: it.start()] + str(other) + text[it.end() :]
    for it in re.finditer(r"(?<![\w:\"])([A-Z][A-Z0-9_]{2,})(?![\w:(\"])", text):
        if it[1] in INTEGERS:
            yield f"{it[1]} is one more", text[: it.start()] + f"({it[1]} + 1)" + text[it.end() :]


def of_words(text: str):
    for old, new in SPACED.items():
        for it in re.finditer(re.escape(old), text):
            yield f"{old.strip()} is {new.strip()}", text[: it.start()] + new + text[it.end() :]
    for it in re.finditer(r"\b(\w+)\b", text):
        if it[1] in NAMES and (it[1] in ("true", "false") or text[it.start() - 1 : it.start()] == "."):
            yield f"{it[1]} is {NAMES[it[1]]}", text[: it.start()] + NAMES[it[1]] + text[it.end() :]
    for it in re.finditer(r"(?<!b)\"([^\"\\]+)\"", text):
        yield f"the text {it[1]}", text[: it.start()] + f'"?{it[1]}"' + text[it.end() :]
    for it in re.finditer(r"!(?=[\w(])", text):
        if text[it.start() - 1 : it.start()] not in tuple("abcdefghijklmnopqrstuvwxyz_"):
            yield "not is left out", text[: it.start()] + text[it.end() :]


def of_calls(text: str):
    if re.match(r"Some\(.*\)$", text):
        yield "Some is None", "None"
    for it in re.finditer(r"\((&?(?:mut )?[\w.]+), (&?(?:mut )?[\w.]+)\)", text):
        if it[1] != it[2] and PAIRS.match(it[1]) and PAIRS.match(it[2]):
            yield f"{it[1]} and {it[2]} change places", text[: it.start()] + f"({it[2]}, {it[1]})" + text[it.end() :]


def of_expression(text: str):
    """The changes of an expression, each with its words."""
    yield from of_words(text)
    yield from of_numbers(text)
    yield from of_calls(text)


def chosen(new: str, old: str) -> str:
    return f"if MUTANT {{ {new} }} else {{ {old} }}"


def bound_in(pattern: str) -> set[str]:
    return set(re.findall(r"(?<![\w:])([a-z_]\w*)(?!\w*[:(])", pattern)) - {"if", "mut", "ref", "_"}


def of_condition(line: str, found):
    indent, word, test = found.groups()
    if test.startswith("let ") or " let " in test or not is_whole(test):
        return
    yield "never", f"{indent}{word} !MUTANT && ({test}) {{"
    if word != "while":
        yield "always", f"{indent}{word} MUTANT || ({test}) {{"
    for words, other in of_expression(test):
        yield words, f"{indent}{word} ({chosen(other, test)}) {{"


def of_arm(line: str, after: str, found):
    indent, pattern, value = found.groups()
    if not is_whole(pattern) or not is_whole(value):
        return
    for words, other in of_expression(value):
        yield words, f"{indent}{pattern} => {chosen(other, value)},"
    beside = ARM.match(after)
    if beside and is_whole(beside[3]) and beside[3] != value:
        used = set(re.findall(r"\w+", beside[3]))
        if not (bound_in(beside[2]) - bound_in(pattern)) & used:
            yield "as the next arm", f"{indent}{pattern} => {chosen(beside[3], value)},"


def of_statement(before: str, line: str, after: str):
    indent, text = re.match(r"(\s*)(.*)", line).groups()
    if re.match(r"(let|return|break|continue)\b", text) or not is_whole(text):
        if text in ("break;", "continue;") and not before.endswith(" else {"):
            yield "left out", f"{indent}if !MUTANT {{ {text} }}"
        return
    yield "left out", f"{indent}if !MUTANT {{ {text} }}"
    other = after.strip()
    if other.endswith(";") and is_whole(other) and not re.match(r"(let|return|break|continue)\b",
        other) and len(after) - len(after.lstrip()) == len(indent):
        yield "behind the next", f"{indent}if MUTANT {{ {other} {text} }} else {{ {text} {other} }}\n"


def of_line(before: str, line: str, after: str):
    """The changes of a line, each with its words and the line that stands for it. One that ends with a line feed stands for the next line too."""
    if NOT_CODE.match(line) or not line.strip() or UNSEEN.search(line):
        return
    begins = re.search(r"[;{},]\s*$|=>\s*$", before) or re.match(r"\s*(#|//)", before)
    if found := CONDITION.match(line):
        yield from of_condition(line, found)
    elif not begins:
        return
    elif (found := ARM.match(line)) and "=>" not in found[3]:
        yield from of_arm(line, after, found)
    elif (found := LET.match(line)) and is_whole(found[2]):
        for words, other in of_expression(found[2]):
            yield words, f"{found[1]} = {chosen(other, found[2])};"
    elif (found := RETURN.match(line)) and is_whole(found[2]):
        if not before.endswith(" else {"):
            yield "left out", f"{found[1]}if !MUTANT {{ return {found[2]}; }}"
        for words, other in of_expression(found[2]):
            yield words, f"{found[1]}return {chosen(other, found[2])};"
    elif line.endswith(";"):
        yield from of_statement(before, line, after)
        if (found := ASSIGN.match(line)) and is_whole(found[4]):
            for words, other in of_expression(found[4]):
                yield words, f"{found[1]}{found[2]} {found[3]} {chosen(other, found[4])};"
    elif after.strip() == "}" and is_whole(line) and line[-1] not in "{,(" and re.search(r"[;{}]\s*$", before):
        indent, text = re.match(r"(\s*)(.*)", line).groups()
        for words, other in of_expression(text):
            yield words, f"{indent}{chosen(other, text)}"


def bodies(lines: list[str]):
    """The functions of a file: the name, and the numbers of the lines of the body."""
    at = 0
    while at < len(lines):
        found = FUNCTION.match(lines[at])
        if not found:
            at += 1
            continue
        start = at
        while start < len(lines) and lines[start] != f"{found[1]}{{" and not (lines[start].endswith(" {") and not NOT_CODE.match(lines[start])
                                                                              or FUNCTION.match(lines[start]) and lines[start].endswith(" {")):
            if lines[start] == f"{found[1]}{{}}" or lines[start].endswith(";") and "ensures" not in lines[start]:
                break
            start += 1
        end = start
        while end < len(lines) and lines[end] not in (f"{found[1]}}}", f"{found[1]}{{}}") and not lines[end].endswith(f"{found[1]}{{}}"):
            end += 1
        yield found[2], start + 1, end
        at = max(end, at) + 1


def names_of(only: str) -> list[str]:
    found = sorted(it.name for it in (ROOT / "crates").glob("ev_*"))
    return [only] if only else [it for it in found if it not in BESIDE]


def candidates(only: str) -> list[dict]:
    """All changes of the crates that a run goes through, or of one crate."""
    found = []
    for name in names_of(only):
        for path in sorted((ROOT / "crates" / name / "src").rglob("*.rt")):
            file = str(path.relative_to(ROOT))
            lines = path.read_text().splitlines()
            for function, start, end in bodies(lines):
                for at in range(start, end):
                    after = lines[at + 1] if at + 1 < len(lines) else ""
                    for number, (words, new) in enumerate(of_line(lines[at - 1], lines[at], after)):
                        key = f"{file}:{at + 1} {function}: {lines[at].strip()} -- {words}" + (f" ({number})" if words.startswith("the text") else "")
                        found.append({"key": key, "file": file, "function": function, "words": words, "edits": [[file, at, new]]})
    return found


def one_a_line(changes: list[dict]) -> list[dict]:
    """The first change of each line, none beside another whose lines it takes."""
    taken, kept = set(), []
    for change in changes:
        lines = {(file, at + more) for file, at, new in change["edits"] for more in range(1 + new.endswith("\n"))}
        if not lines & taken:
            taken |= lines
            kept.append(change)
    return kept


def named() -> list[dict]:
    """The changes of `mutants.named`. Each begins with a line `NAME`, and has triples of lines `FILE FUNCTION`, `- OLD` and `+ NEW`."""
    found = []
    for text in (HERE / "mutants.named").read_text().split("\n\n"):
        lines = [it for it in text.splitlines() if it and not it.startswith("#")]
        if not lines:
            continue
        edits = []
        for where, old, new in zip(lines[1::3], lines[2::3], lines[3::3]):
            file, function = where.split(" ")
            code = (ROOT / file).read_text().splitlines()
            places = [at for name, start, end in bodies(code) if name == function for at in range(start, end) if code[at].strip() == old[2:]]
            if len(places) != 1:
                raise SystemExit(f"mutants.named: {lines[0]}: {len(places)} lines of {function} are {old[2:]}")
            edits.append([file, places[0], new[2:]])
        found.append({"key": lines[0], "file": edits[0][0], "function": where.split(" ")[1], "words": lines[0], "edits": edits, "whole": True})
    return found


def home_of(crate: str) -> str:
    """Where the crate has the test of which mutant the program is: in itself, or in `ev_base`."""
    line = next(it for it in (ROOT / "crates.txt").read_text().splitlines() if it.startswith(f"{crate}:"))
    return "ev_base" if "ev_base" in line.partition(":")[2].split() else "crate"


def switched(tree: pathlib.Path, changes: list[dict], code: str) -> None:
    """Puts that test into `ev_base`, and into the crates with changes that do not stand on it."""
    crates = {"ev_base"} | {file.split("/")[1] for change in changes for file, _, _ in change["edits"] if home_of(file.split("/")[1]) == "crate"}
    for crate in crates:
        source = tree / "crates" / crate / "src"
        (source / "mutants.rt").write_text(code)
        root = source / "lib.rt"
        root.write_text(re.sub(r"^pub mod ", "pub mod mutants;\npub mod ", root.read_text(), count=1, flags=re.M))


def applied(tree: pathlib.Path, changes: list[dict]) -> None:
    """Writes the changes into a copy of the tree."""
    of_file: dict[str, list] = {}
    for change in changes:
        for file, at, new in change["edits"]:
            of_file.setdefault(file, []).append((at, new, change["number"]))
    for file, edits in of_file.items():
        path = tree / file
        lines = path.read_text().splitlines()
        home = home_of(file.split("/")[1])
        for at, new, number in edits:
            text = new.replace("MUTANT", f"{home}::mutants::is_mutant({number})")
            if text.endswith("\n"):
                lines[at], lines[at + 1] = text.rstrip("\n"), ""
            else:
                lines[at] = text
        path.write_text("\n".join(lines) + "\n")


def blamed(said: str, changes: list[dict]) -> list[dict]:
    """The changes on lines that the compiler names, or else the next ones behind these."""
    named = {(file, int(line) - 1) for file, line in re.findall(r"(crates/[\w/.-]+\.rt):(\d+)", said)}
    places = {(file, at): change for change in changes for file, at, _ in change["edits"]}
    bad = [places[it] for it in named if it in places]
    for file, line in named if not bad else ():
        behind = sorted(at for other, at in places if other == file and at > line)
        bad += [places[file, behind[0]]] if behind else []
    return [it for at, it in enumerate(bad) if it not in bad[:at]]


def known_same() -> list[tuple[str, str, str, str]]:
    """The lines `FILE FUNCTION CODE: REASON` of `mutants.same`: changes there, on lines with that code where it is told, show in no run."""
    found = []
    for line in (HERE / "mutants.same").read_text().splitlines():
        if line and not line.startswith("#"):
            place, reason = line.split(": ", 1)
            file, function, code = (place + " ").split(" ", 2)
            found.append((file, function, code.strip(), reason))
    return found


def why_same(change: dict, same: list[tuple[str, str, str, str]]) -> str:
    where = (change["file"], change["function"])
    return next((reason for file, function, code, reason in same if (file, function) == where and code in change["key"]), "")
