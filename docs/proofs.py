#!/usr/bin/env python3
"""Makes the tables of docs/PROOFS.md that follow from what proofs import.

    docs/proofs.py             writes them anew, each between its two marks
    docs/proofs.py --check     ends with status 1 where one of them is not what it would write
    docs/proofs.py CRATE       prints the parts of a crate of laws by levels: each stands on parts of lower levels alone

The *invariant* lists the laws that hold in every world of a run, each with the file of its statement and with those of the list that its
proof imports, on whatever way, but for those that another of these rests on already. The *levels* are the folders of a crate of laws: a
folder is one above the highest that one of its files imports. It reads imports and runs nothing.
"""
from __future__ import annotations

import pathlib
import re
import sys

TOP = pathlib.Path(__file__).resolve().parent.parent
PAGE = TOP / "docs" / "PROOFS.md"

# Each conjunct: the law that says it, what it says in the field's words, and what it is for.
INVARIANT = [
    ("Names and messages", [
        ("law_fate::names_were_made", "each name that a vat has was made, by the vat that hosts it or by the draw of its word (`IsMade`)", "what comes to be is fresh"),
        ("law_fate::notes_name_what_was_made", "so has each name in a note under way been made", "the same, of what arrives"),
        ("law_fate::places_and_fates", "conservation: places, takes and losses of a message are together at most its sends, and it is sent at most once", "at-most-once delivery"),
        ("law_fate::each_message_has_a_fate", "they are exactly as many", "nothing vanishes without a line"),
        ("law_reference::each_name_is_known_once", "no vat knows a name twice", "the naming of numbers is injective"),
        ("law_reference::each_vat_has_its_table", "the table of a vat's numbers tells names apart (`IsTable`)", "premise of the renaming theorem"),
        ("law_reference::waits_end_in_every_vat", "waits and views inside a vat are acyclic", "settling and following end"),
        ("law_reference::lists_end_in_runs", "lists are acyclic through promises", "passing, comparing and weighing end"),
        ("law_reference::vats_rest", "between steps nothing waits for a host that was noticed, a view is of an unsettled name, following is acyclic", "broken is for good"),
    ]),
    ("Notes and gifts", [
        ("law_reference::notes_name_their_ends", "a note is about a name of its sender or of its receiver", "notes are well-formed"),
        ("law_reference::notes_carry_their_ends", "what passes in it is of one of the two, or is a gift", "third-party names travel as gifts alone"),
        ("law_reference::answers_are_named", "the answer that a note asks for is the receiver's name for it", "a question and its answer are one name"),
        ("law_reference::gifts_pass_once", "of each draw one gift at most was ever put", "a nonce is used once"),
        ("law_reference::each_draw_has_one_provider", "and it has one provider", "a nonce tells who drew it"),
        ("law_reference::gifts_under_way_are_hidden", "as long as a gift is under way nobody but its host knows it", "secrecy of nonces among honest vats"),
        ("law_reference::unopened_gifts_rest", "a gift that was not opened is unsettled, or broken", "nothing but its opening settles a gift"),
        ("law_order::each_gift_is_opened_once", "at most one note that opens a gift was ever put", "the position of that note is unique"),
        ("law_order::each_is_told_once", "a vat tells another at most once where a name settled", "at-most-once notification"),
        ("law_order::news_is_new", "what a note tells of is unsettled at its receiver, or broken there", "an arrival settles, and never settles anew"),
    ]),
    ("Partitions", [
        ("law_reference::noticed_links_are_cut", "who was noticed is another vat, and both links are cut", "nothing comes from behind a notice"),
        ("law_reference::notes_name_nobody_noticed", "a note that can still arrive names nothing of a host that its receiver noticed, but as a gift", "severed stays severed"),
    ]),
    ("Frames and numbers", [
        ("law_frame::notes_have_their_frames", "the frames of a link are those that the sender wrote, behind those that arrived, in order", "a link is a FIFO channel of what was written"),
        ("law_frame::names_come_from_their_hosts", "a foreign name was asked of its host, or exported by it, while the link from there is not cut", "each name has a number on the connection"),
        ("law_frame::notes_name_what_was_given", "what a note tells of its receiver was asked of it, or exported to the sender", "a sender can write the frame"),
        ("law_frame::notes_are_numbered", "each name in a note under way has a number there", "a receiver can read the frame"),
        ("law_frame::lists_are_as_logged", "the tables of a connection are a function of the log of its notes", "both ends agree on numbers"),
    ]),
    ("Vats", [
        ("law_never_astray::objects_are_there", "each object that is named is in the store of its vat", "no dangling object"),
        ("law_never_astray::all_carry_in_runs", "captures cover the scopes of the methods that use them", "each noun is bound as it is read"),
        ("law_never_astray::targets_are_near_in_runs", "the target of a queued message is data, or an object of the vat", "a turn has something to call"),
        ("law_uses::nothing_is_live_in_runs", "no ejector and no audition is live between steps", "escapes do not outlive their turn"),
        ("law_frozen::reach_is_frozen_in_runs", "from a DeepFrozen stamp only frozen values are reached", "deep immutability"),
        ("law_uses::runs_tell_what_is_held", "what objects and var slots hold stands in a line of the history", "authority is told by the lines"),
        ("law_uses::messages_stem_from_sends", "each message is what was sent, up to what references lead to", "introductions are sends"),
        ("law_uses::each_known_gift_tells_its_provider", "a gift that is known has the one provider of its draw", "names print apart"),
    ]),
    ("Order", [
        ("law_order::waiters_wait", "what stands among the waiters of a name waits on it, views it, or settled", "the next hop of a held message"),
        ("law_order::answers_are_open", "the answer of a message in a vat is unsettled, and of no other message", "a turn settles it once"),
    ]),
]


def text_of(path: pathlib.Path) -> str:
    return path.read_text(encoding="utf-8")


def statement(law: str) -> tuple[str, pathlib.Path, pathlib.Path]:
    """Of a law: the name of its clause, the file that defines it, and the file of its proof."""
    crate, name = law.split("::")
    root = TOP / "crates" / crate
    for source in sorted((root / "src").rglob("*.rt")):
        text = text_of(source)
        found = re.search(rf"pub fn {name}\(\)\s*\n\s*ensures (?:\w+ )?\{{ (\w+)", text)
        if not found:
            continue
        module = re.search(rf"use Rattle\.([\w.]+)\.\{{[^}}]*\b{found[1]}\b", text)
        part = () if source.stem == "lib" else (source.stem,)
        answer = text_of(root.joinpath("proofs", *part, name, "Answers.antt"))
        lemma = re.search(r"^use Rattle\.(\w+\.proofs\.[\w.]+)\.\{", answer, re.M)
        return found[1], path_of(module[1]), path_of(lemma[1])
    sys.exit(f"no law {law}")


def path_of(module: str) -> pathlib.Path:
    return TOP / "crates" / (module.replace(".", "/") + ".antt")


def imports(path: pathlib.Path) -> set[pathlib.Path]:
    """The files of proofs of laws that a file imports."""
    found = re.findall(r"^\s*(?:pub )?use Rattle\.(law_\w+\.proofs\.[\w.]+?)(?:\.\{| as|$)", text_of(path), re.M)
    return {path_of(it) for it in found if path_of(it).is_file()}


class Conjuncts:
    def __init__(self):
        self.laws = [it[0] for _, rows in INVARIANT for it in rows]
        self.told = {it: statement(it) for it in self.laws}
        self.at: dict[pathlib.Path, list[str]] = {}
        for law in self.laws:
            self.at.setdefault(self.told[law][2], []).append(law)
        self.seen: dict[pathlib.Path, set[pathlib.Path]] = {}

    def behind(self, law: str) -> set[str]:
        """The laws of the list whose proofs are imported by the proof of this one, on whatever way."""
        first = self.told[law][2]
        todo, seen, found = [first], {first}, set()
        while todo:
            at = todo.pop()
            if at not in self.seen:
                self.seen[at] = imports(at)
            for it in self.seen[at] - seen:
                seen.add(it)
                found.update(self.at.get(it, []))
                todo.append(it)
        return found - set(self.at[first])

    def rests_on(self, law: str) -> list[str]:
        """Those of them that no other of them rests on."""
        all_of = self.behind(law)
        hidden = {it for other in all_of for it in self.behind(other)}
        return [it for it in self.laws if it in all_of - hidden]


def invariant() -> list[str]:
    laws = Conjuncts()
    out = ["| In every world of a run | It is for | It rests on | Statement |", "|---|---|---|---|"]
    for title, rows in INVARIANT:
        out.append(f"| **{title}** | | | |")
        for law, words, use in rows:
            name, path, _ = laws.told[law]
            rests = ", ".join(f"`{it.split('::')[1]}`" for it in laws.rests_on(law)) or "the steps alone"
            out.append(f"| `{law}`: {words} | {use} | {rests} | [`{name}`](../{path.relative_to(TOP)}) |")
    return out


def levels_of(crate: str) -> list[list[str]]:
    root = TOP / "crates" / crate
    stands: dict[str, set[str]] = {}
    for path in root.rglob("*.antt"):
        parts = path.relative_to(root).parts
        if len(parts) > 2 and path.name not in ("Answers.antt", "Invariants.antt") and parts[1][0].isupper():
            below = set(re.findall(rf"use Rattle\.{crate}\.(?:specs|proofs)\.(\w+)\.", text_of(path)))
            stands.setdefault(parts[1], set()).update(below - {parts[1]})
    level: dict[str, int] = {}

    def height(name: str, above: tuple[str, ...] = ()) -> int:
        if name in above:
            sys.exit("these import one another: " + ", ".join(above[above.index(name):]))
        if name not in level:
            level[name] = 1 + max((height(it, (*above, name)) for it in stands[name] if it in stands), default=-1)
        return level[name]

    highest = max(height(it) for it in stands)
    return [sorted(it for it in stands if level[it] == at) for at in range(highest + 1)]


def levels() -> list[str]:
    out = ["| Level | Folders of `crates/law_order/specs` and `proofs` |", "|---|---|"]
    return out + [f"| {at} | {', '.join(f'`{it}`' for it in names)} |" for at, names in enumerate(levels_of("law_order"))]


def made(text: str) -> str:
    for name, rows in (("invariant", invariant()), ("levels", levels())):
        begin, end = f"<!-- docs/proofs.py: {name} -->", f"<!-- end of {name} -->"
        front, _, rest = text.partition(begin)
        back = rest.partition(end)[2]
        if not back:
            sys.exit(f"docs/PROOFS.md has no marks for {name}")
        text = front + begin + "\n" + "\n".join(rows) + "\n" + end + back
    return text


def main() -> None:
    asked = sys.argv[1:]
    if asked and asked != ["--check"]:
        for crate in asked:
            for at, names in enumerate(levels_of(crate)):
                print(at, *names)
        return
    text = text_of(PAGE)
    if not asked:
        PAGE.write_text(made(text), encoding="utf-8")
    elif made(text) != text:
        sys.exit("docs/PROOFS.md: not what docs/proofs.py writes")


if __name__ == "__main__":
    main()
