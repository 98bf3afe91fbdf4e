"""From a log of Cap'n Proto's RPC, as a tracing hook could write it, to the lines of a history: a sketch.

    convert.py LOG > LINES

README.md has the form of the log, which is made up. The names of its messages and members are those of `rpc.capnp`.
"""
from __future__ import annotations

import json
import pathlib
import sys

sys.path.insert(0, str(pathlib.Path(__file__).resolve().parent.parent))
from lines import History, broken, data, merged, text, verb  # noqa: E402

# What forwards has no task in the log; its activations are numbered from here on.
ADDED = 1_000_000
# The messages of the protocol that begin or end something, each with the member that tells of what.
NUMBERED = {"bootstrap": "questionId", "call": "questionId", "return": "answerId", "resolve": "promiseId", "finish": "questionId"}

# A row of a table: the vat whose table it is, the other vat, and the number there.
Row = tuple[str, str, int]


def note_list(members: list[str]) -> str:
    return "[" + " ".join(members) + "]"


class Converter:
    def __init__(self, events: list[dict]) -> None:
        self.history = History()
        self.queues = steps_of(events)
        self.sent: set[tuple] = set()
        # The four tables, as names. An answer is the question of the other side, so one table has both; imports are named as they are held.
        self.questions: dict[Row, str] = {}
        self.exports: dict[Row, str] = {}
        self.imports: dict[Row, str] = {}
        self.messages: dict[Row, str] = {}
        self.objects: dict[tuple[str, str], str] = {}
        self.forwarders: dict[tuple[str, str], str] = {}
        self.vat, self.mark, self.forwarded = "", "", 0

    def text(self) -> str:
        for step in merged(self.queues, self.is_caused):
            for event in step:
                self.write(event)
        return self.history.text()

    def is_caused(self, step: list[dict]) -> bool:
        """What the step receives was sent."""
        return "from" not in step[0] or (step[0]["from"], step[0]["vat"], *kind_of(step[0])) in self.sent

    def write(self, event: dict) -> None:
        self.vat = event["vat"]
        if "task" in event:
            self.mark = f"!{event['task']}"
        if "start" in event:
            self.start(event["start"])
        elif "makes" in event:
            self.make(event["makes"], event["holds"])
        else:
            kind, number = kind_of(event)
            peer = event.get("to") or event["from"]
            if "to" in event:
                self.sent.add((self.vat, peer, kind, number))
            handler = getattr(self, f"{'send' if 'to' in event else 'receive'}_{kind}", None)
            if handler:
                handler(peer, number, event[kind], event)

    def act(self, *words: str) -> None:
        self.history.line(self.mark, *words)

    # ---- objects

    def start(self, started: dict) -> None:
        self.history.line("open", self.vat)
        self.mark = "!0"
        if "bootstrap" in started:
            self.make(started["bootstrap"], [])
            served = self.objects[self.vat, started["bootstrap"]]
            self.act("done", served)
            self.history.settle(self.vat, "@" + self.vat, served)

    def make(self, label: str, holds: list[dict]) -> None:
        name = self.objects[self.vat, label] = self.history.fresh(self.vat, ".")
        captures = [self.held(one) for one in holds]
        self.act("made", name, label, *(["caps", *captures] if captures else []))

    def held(self, what: dict) -> str:
        """What code of this vat holds: an object of its own, an import, or the answer of a question."""
        if "object" in what:
            return self.objects[self.vat, what["object"]]
        if "importedCap" in what:
            return self.imports[(self.vat, *what["importedCap"])]
        return self.questions[(self.vat, *what["promisedAnswer"])]

    def forwarder(self, name: str) -> str:
        """What this vat exports in place of a thing of a third vat: an object that passes each call on."""
        if (self.vat, name) not in self.forwarders:
            self.forwarders[self.vat, name] = self.history.fresh(self.vat, ".")
            self.act("made", self.forwarders[self.vat, name], "forwarder", "caps", name)
        return self.forwarders[self.vat, name]

    # ---- values

    def given(self, peer: str, cap: dict) -> str:
        """A capability as this vat sends it. What it exports is told by `is`."""
        if "receiverHosted" in cap:
            return self.imports[self.vat, peer, cap["receiverHosted"]]
        if "receiverAnswer" in cap:
            return self.questions[self.vat, peer, cap["receiverAnswer"]]
        number = cap["senderHosted"] if "senderHosted" in cap else cap["senderPromise"]
        name = self.held(cap["is"])
        self.exports[self.vat, peer, number] = name if "object" in cap["is"] else self.forwarder(name)
        return self.exports[self.vat, peer, number]

    def received(self, peer: str, cap: dict) -> str:
        """A capability as it comes to this vat: under the name that it has here, or under that of what the other exported."""
        if "receiverHosted" in cap:
            return self.exports[self.vat, peer, cap["receiverHosted"]]
        if "receiverAnswer" in cap:
            return self.questions[peer, self.vat, cap["receiverAnswer"]]
        number = cap["senderHosted"] if "senderHosted" in cap else cap["senderPromise"]
        return self.imports.setdefault((self.vat, peer, number), self.exports[peer, self.vat, number])

    def value(self, peer: str, what, passed, spell_list) -> str:
        if isinstance(what, dict):
            return passed(peer, what["cap"])
        if isinstance(what, list):
            return spell_list([self.value(peer, one, passed, spell_list) for one in what])
        return data(what)

    def made_list(self, members: list[str]) -> str:
        name = self.history.fresh(self.vat, "%")
        self.act("list", name, *members)
        return name

    def came_list(self, members: list[str]) -> str:
        name = self.history.fresh(self.vat, "%")
        self.history.line("list", name, *members)
        return name

    def result(self, results: list):
        """A struct of one field is that field, of none it is null, else the list of its fields."""
        return results[0] if len(results) == 1 else results or None

    def target(self, peer: str, target: dict) -> str:
        if "importedCap" in target:
            return self.imports[self.vat, peer, target["importedCap"]]
        return self.questions[self.vat, peer, target["promisedAnswer"]]

    # ---- messages of the protocol

    def send_bootstrap(self, peer: str, number: int, _, event: dict) -> None:
        self.questions[self.vat, peer, number] = "@" + peer

    def send_call(self, peer: str, number: int, call: dict, event: dict) -> None:
        arguments = [self.value(peer, one, self.given, self.made_list) for one in call["params"]]
        message = self.messages[self.vat, peer, number] = self.history.fresh(self.vat, "/")
        answer = self.questions[self.vat, peer, number] = f"{peer}?{message}"
        self.act("send", message, self.target(peer, call["target"]), verb(call["method"]), *arguments, "->", answer)
        if "answers" in event:
            self.end(self.questions[event["answers"][0], self.vat, event["answers"][1]], answer)

    def receive_call(self, peer: str, number: int, call: dict, event: dict) -> None:
        message, asked = self.messages[peer, self.vat, number], verb(call["method"])
        if "forwarder" in event:
            taker = self.exports[self.vat, peer, event["forwarder"]]
            self.mark = f"!{ADDED + self.forwarded}"
            self.forwarded += 1
        else:
            taker = self.objects[self.vat, event["object"]]
        carried = [self.value(peer, one, self.received, note_list) for one in call["params"]]
        self.history.entry("carry", peer, self.vat, "deliver", message, taker, asked, *carried)
        arguments = [self.value(peer, one, self.received, self.came_list) for one in call["params"]]
        self.history.entry("turn", self.vat)
        self.act("take", message, taker, asked, *arguments)

    def end(self, answer: str, value: str) -> None:
        self.act("done", value)
        self.history.resolve(self.vat, answer, value)

    def send_return(self, peer: str, number: int, ended: dict, event: dict) -> None:
        answer = self.questions[peer, self.vat, number]
        if "task" not in event:
            # A bootstrap, whose root settled as the vat began, or what was forwarded, whose answer settled as that came.
            for one in ended["results"]:
                self.value(peer, one, self.given, note_list)
        elif "exception" in ended:
            self.act("threw", text(ended["exception"]))
            self.history.settle(self.vat, answer, broken(ended["exception"]))
        else:
            self.end(answer, self.value(peer, self.result(ended["results"]), self.given, self.made_list))

    def receive_return(self, peer: str, number: int, ended: dict, event: dict) -> None:
        answer = self.questions[self.vat, peer, number]
        if "exception" in ended:
            self.history.entry("carry", peer, self.vat, "settled", answer, broken(ended["exception"]))
            self.history.settle(self.vat, answer, broken(ended["exception"]))
            return
        result = self.result(ended["results"])
        told = self.value(peer, result, self.exported, note_list)
        self.history.entry("carry", peer, self.vat, "settled", answer, told)
        self.name_import(peer, result, answer)
        self.history.settle(self.vat, answer, self.value(peer, result, self.exported, self.came_list))

    def exported(self, peer: str, cap: dict) -> str:
        """The capability by the other's own name for it, which the news of an answer tells."""
        if "senderHosted" in cap or "senderPromise" in cap:
            number = cap["senderHosted"] if "senderHosted" in cap else cap["senderPromise"]
            return self.exports[peer, self.vat, number]
        return self.received(peer, cap)

    def name_import(self, peer: str, result, answer: str) -> None:
        """What an answer is goes on under the name of the answer, by which this vat held it first."""
        cap = result["cap"] if isinstance(result, dict) else {}
        if "senderHosted" in cap:
            self.imports.setdefault((self.vat, peer, cap["senderHosted"]), answer)

    def send_resolve(self, peer: str, number: int, resolved: dict, event: dict) -> None:
        self.given(peer, resolved["cap"])

    def receive_resolve(self, peer: str, number: int, resolved: dict, event: dict) -> None:
        """The promise was a forwarder, and stays one; what it became is another import."""
        self.received(peer, resolved["cap"])


def kind_of(event: dict) -> tuple[str, int]:
    kind = next(kind for kind in NUMBERED if kind in event)
    return kind, event[kind][NUMBERED[kind]]


def steps_of(events: list[dict]) -> list[list[list[dict]]]:
    """The steps of each vat in their order. What a vat receives begins one, and so does its start."""
    queues: dict[str, list[list[dict]]] = {}
    for event in events:
        steps = queues.setdefault(event["vat"], [])
        if "from" in event or "start" in event:
            steps.append([])
        steps[-1].append(event)
    return list(queues.values())


def converted(events: list[dict]) -> str:
    return Converter(events).text()


if __name__ == "__main__":
    if len(sys.argv) != 2:
        sys.exit(__doc__)
    sys.stdout.write(converted([json.loads(line) for line in pathlib.Path(sys.argv[1]).read_text().splitlines()]))
