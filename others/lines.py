"""The lines of a history as a converter writes them: values, names that are counted, steps, and what settles.

docs/HISTORY.md has the lines, docs/OTHERS.md what a converter has to decide. Nothing here knows of any one system.
"""
from __future__ import annotations

import re
import sys

# How many characters of a text a line shows.
SHOWN = 32
KEYWORDS = set("break catch continue def else escape exit finally fn for if implements in match method return to try var via when while".split())
ESCAPES = {"\n": "\\n", "\t": "\\t", "\r": "\\r", "\\": "\\\\", '"': '\\"'}


def escaped(character: str) -> str:
    return ESCAPES.get(character) or (f"\\u{ord(character):04x}" if ord(character) < 32 else character)


def quoted(text: str) -> str:
    return '"' + "".join(map(escaped, text)) + '"'


def text(whole: str, more: int = 0) -> str:
    """A text, of which `more` characters are not at hand: a line shows the first 32, and how many there are behind them."""
    more += max(0, len(whole) - SHOWN)
    return quoted(whole[:SHOWN]) + (f"+{more}" if more else "")


def broken(problem: str) -> str:
    return "broken:" + text(problem)


def data(value) -> str:
    """Data of Python. What has no spelling in a history is written as the text that Python prints of it."""
    if value is None:
        return "null"
    if isinstance(value, bool):
        return str(value).lower()
    if isinstance(value, int) and -(2**127) <= value < 2**127:
        return str(value)
    return text(value if isinstance(value, str) else repr(value))


def verb(word: str) -> str:
    """A verb: bare where it is an identifier, else quoted."""
    is_identifier = re.fullmatch(r"[A-Za-z_][A-Za-z0-9_]*", word) and word not in KEYWORDS and word != "_"
    return word if is_identifier else quoted(word)


def host(name: str) -> str:
    """The vat from which a name settles: `b` of `@b`, `b.0`, `b^1` and `b?a/2`."""
    return re.match(r"@?([a-z][a-z0-9]*)", name).group(1)


def is_promise(name: str) -> bool:
    """An answer, a root, a promise or a gift: what can be settled."""
    return bool(re.fullmatch(r"@[a-z0-9]+|[a-z][a-z0-9]*(\?[a-z0-9]+/|~|\^)[0-9]+", name))


def earliest(steps: list) -> int:
    """The place of the step that began first. A step is the list of its events, each with its `time`."""
    return min(range(len(steps)), key=lambda place: steps[place][0]["time"])


def merged(queues: list[list], is_caused, choose=earliest):
    """The steps of all vats, one after the other: those of each queue in their order, and none before its cause.

    `is_caused` says of a step, whenever it is asked, whether what it needs was written; `choose` gives the place of one of several steps.
    """
    queues = [list(queue) for queue in queues if queue]
    while queues:
        ready = [queue for queue in queues if is_caused(queue[0])]
        if not ready:
            print("no cause stands in the logs of", [queue[0][0] for queue in queues], file=sys.stderr)
            ready = queues
        yield ready[choose([queue[0] for queue in ready])].pop(0)
        queues = [queue for queue in queues if queue]


class History:
    """Lines as they are written, with what is needed to write the next: counts, the entries, and what settled where."""

    def __init__(self) -> None:
        self.lines: list[str] = []
        self.entries = 0
        self.counts: dict[tuple[str, str], int] = {}
        self.settled: dict[tuple[str, str], str] = {}
        self.waiting: dict[tuple[str, str], list[str]] = {}
        self.noticed: set[tuple[str, str]] = set()

    def line(self, *words: str) -> None:
        self.lines.append(" ".join(words))

    def entry(self, *words: str) -> None:
        """The first line of a step that is no opening: a turn, a carry, a cut or a notice."""
        self.entries += 1
        self.line(str(self.entries), *words)

    def fresh(self, vat: str, mark: str) -> str:
        """The next name of the vat with this mark: `.` of objects, `%` of lists, `&` of slots, `~` of promises, `^` of gifts, `/` of messages."""
        number = self.counts.get((vat, mark), 0)
        self.counts[vat, mark] = number + 1
        return f"{vat}{mark}{number}"

    def settle(self, vat: str, name: str, value: str) -> None:
        """The name settles at the vat of the step, and with it what waits for it there."""
        pending = [(name, value)]
        for one, what in pending:
            if (vat, one) not in self.settled:
                self.settled[vat, one] = what
                self.line("settle", one, what)
                pending += [(other, what) for other in self.waiting.pop((vat, one), [])]

    def resolve(self, vat: str, name: str, value: str) -> None:
        """The name is given a value: it settles to what that is known to be at the vat, or waits on it."""
        while (vat, value) in self.settled and self.settled[vat, value] != value:
            value = self.settled[vat, value]
        if is_promise(value):
            self.line("wait", name, value)
            self.waiting.setdefault((vat, value), []).append(name)
        else:
            self.settle(vat, name, value)

    def cut(self, vat: str, other: str) -> None:
        """The vat learns that its links with the other are cut."""
        if (vat, other) not in self.noticed:
            if (other, vat) not in self.noticed:
                self.entry("cut", vat, other)
            self.noticed.add((vat, other))
            self.entry("notice", vat, other)

    def text(self) -> str:
        return "\n".join(self.lines + ["end"]) + "\n"
