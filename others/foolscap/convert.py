"""From the log of a run of Foolscap to the lines of a history.

    convert.py LOG [--flat] [--reply] [--one-name] > LINES

docs/OTHERS.md says what a converter decides, and why. Three of its decisions can be made otherwise here:

    --flat      the members of a list among the arguments are spelled as arguments, so that references in lists count for the order
    --reply     each send brings a reply object, and what is answered by a reference sends it there too, so that answers count for the order
    --one-name  what came over a second connection keeps the name of the object, as if nothing had been lost with the first
"""
from __future__ import annotations

import json
import pathlib
import sys

sys.path.insert(0, str(pathlib.Path(__file__).resolve().parent.parent))
from lines import History, broken, data, earliest, host, merged, text, verb  # noqa: E402

# Messages and activations that no log has, but only the spelling, are numbered from here on.
ADDED = 1_000_000


def note_list(members: list[str]) -> str:
    """A list in a note, by its members."""
    return "[" + " ".join(members) + "]"


class Converter:
    """Writes the turns of all vats one after the other: each vat's in their order, and none before its cause."""

    def __init__(self, events: list[dict], flat: bool = False, reply: bool = False, one_name: bool = False, choose=earliest) -> None:
        self.flat, self.reply, self.one_name, self.choose = flat, reply, one_name, choose
        self.history = History()
        self.queues = queues_of(events)
        self.vat_of_tub = {event["tub"]: event["vat"] for event in events if event["event"] == "open"}
        self.sends = {event["message"]: event for event in events if event["event"] in ("send", "only", "when")}
        self.taken = {event["message"] for event in events if event["event"] in ("take", "react")}
        self.sent: set[str] = set()
        self.objects: dict[str, str] = {}
        self.callbacks: dict[tuple[str, int], str] = {}
        self.connections: dict[tuple[str, str], int] = {}
        self.gifts: dict[tuple[str, str, int], str] = {}
        self.new_gifts: list[tuple[str, str]] = []
        self.replies: dict[str, str] = {}
        self.replied: dict[str, tuple[str, str]] = {}
        # Of the turn at hand: its vat, its first event, the mark of its activation, and the name that it settles.
        self.vat, self.first, self.mark, self.settles = "", {}, "", None

    # ---- the order of the turns

    def text(self) -> str:
        for turn in merged(self.queues, lambda turn: all(map(self.is_caused, turn)), self.choose):
            self.turn(turn)
        return self.history.text()

    def is_caused(self, event: dict) -> bool:
        """What has to be before the event is written already, where the logs have it."""
        kind, vat = event["event"], event["vat"]
        if kind == "take":
            return event["message"] in self.sent or event["message"] not in self.sends
        if kind == "root":
            return (event["root"], "@" + event["root"]) in self.history.settled
        is_told = kind == "result" or kind == "broke" and event["problem"] != "dead reference"
        if is_told and event["message"] in self.sends and event["message"] in self.taken:
            answer = self.answer(event["message"])
            return host(answer) == vat or (host(answer), answer) in self.history.settled
        return True

    def turn(self, events: list[dict]) -> None:
        self.first, self.vat, self.settles = events[0], events[0]["vat"], None
        for event in events:
            self.mark = f"!{event['activation']}" if "activation" in event else ""
            getattr(self, "write_" + event["event"].replace(" ", "_"))(event)

    def act(self, *words: str) -> None:
        """A line of the activation at hand."""
        self.history.line(self.mark, *words)

    # ---- names and values

    def answer(self, message: str) -> str:
        """The promise of the answer of a message, at the host of its target."""
        sent = self.sends[message]
        return f"{self.host_of(sent['target']) if 'target' in sent else sent['vat']}?{message}"

    def host_of(self, described: dict) -> str:
        if "object" in described:
            return self.vat_of_tub[described["object"].split("/")[0]]
        if "root" in described:
            return described["root"]
        return host(self.answer(described["answer"]))

    def object(self, identity: str) -> str:
        if identity not in self.objects:
            self.objects[identity] = self.history.fresh(self.vat_of_tub[identity.split("/")[0]], ".")
        return self.objects[identity]

    def reference(self, described: dict) -> str:
        """An object by its name, and over a later connection than the first by a gift for each connection."""
        name = self.object(described["object"])
        if self.one_name or "connection" not in described:
            return name
        connection, there = described["connection"], host(name)
        if self.connections.setdefault((self.vat, there), connection) == connection:
            return name
        key = (self.vat, name, connection)
        if key not in self.gifts:
            self.gifts[key] = self.history.fresh(there, "^")
            self.new_gifts.append((self.gifts[key], name))
        return self.gifts[key]

    def value(self, described: dict, spell_list) -> str:
        """A value as it prints; `spell_list` says how a list does, by its members."""
        if "object" in described:
            return self.reference(described)
        if "root" in described:
            return "@" + described["root"]
        if "promise" in described:
            return f"{self.vat}~{described['promise']}"
        if "answer" in described:
            return self.answer(described["answer"])
        if "list" in described:
            return spell_list([self.value(member, spell_list) for member in described["list"]])
        if "other" in described:
            return text(f"<{described['other']}>")
        return text(described["data"], described["more"]) if "more" in described else data(described["data"])

    def made_list(self, members: list[str]) -> str:
        """A list that the activation makes, or that came in a note where there is none."""
        name = self.history.fresh(self.vat, "%")
        self.history.line(*([self.mark] if self.mark else []), "list", name, *members)
        return name

    def held(self, described: dict) -> str:
        return self.value(described, self.made_list)

    def spread(self, arguments: list[dict]) -> list[dict]:
        if not self.flat:
            return arguments
        return [one for argument in arguments for one in (self.spread(argument["list"]) if "list" in argument else [argument])]

    # ---- what an activation does

    def write_open(self, event: dict) -> None:
        self.history.line("open", self.vat)
        self.settles = "@" + self.vat

    def write_slot(self, event: dict) -> None:
        self.act("slot", f"{self.vat}&{event['slot']}", self.held(event["value"]))

    def write_read(self, event: dict) -> None:
        self.act("read", f"{self.vat}&{event['slot']}", self.held(event["value"]))

    def write_wrote(self, event: dict) -> None:
        self.act("wrote", f"{self.vat}&{event['slot']}", self.held(event["value"]))

    def make(self, name: str, event: dict) -> None:
        captures = [self.held(one) for one in event["captures"]] + [f"{self.vat}&{slot}" for slot in event.get("slots", [])]
        self.act("made", name, event["name"], *(["caps", *captures] if captures else []))

    def write_made(self, event: dict) -> None:
        self.objects[event["object"]["object"]] = self.history.fresh(self.vat, ".")
        self.make(self.object(event["object"]["object"]), event)

    def write_callback(self, event: dict) -> str:
        name = self.callbacks[self.vat, event["callback"]] = self.history.fresh(self.vat, ".")
        self.make(name, event)
        return name

    def write_when(self, event: dict) -> None:
        callback = self.write_callback(event)
        self.act("when", event["message"], self.held(event["awaited"]), callback, "->", self.answer(event["message"]))

    def write_after(self, event: dict) -> None:
        self.act("sendonly", event["message"], self.write_callback(event), "run")

    def write_enliven(self, event: dict) -> None:
        """A sturdy reference that is used again: what asks for the object holds it, and a promise stands for what comes."""
        self.act("made", self.history.fresh(self.vat, "."), "getReference", "caps", "@" + event["root"])
        self.act("promise", f"{self.vat}~{event['promise']}", self.history.fresh(self.vat, "."))

    def write_sending(self, event: dict, asks: bool) -> None:
        arguments = [self.held(one) for one in self.spread(event["arguments"])]
        self.sent.add(event["message"])
        if asks and self.reply:
            self.replies[event["message"]] = self.history.fresh(self.vat, ".")
            self.act("made", self.replies[event["message"]], "reply")
            arguments.append(self.replies[event["message"]])
        answer = ["->", self.answer(event["message"])] if asks else []
        self.act("send" if asks else "sendonly", event["message"], self.held(event["target"]), verb(event["verb"]), *arguments, *answer)

    def write_send(self, event: dict) -> None:
        self.write_sending(event, True)

    def write_only(self, event: dict) -> None:
        self.write_sending(event, False)

    def write_done(self, event: dict) -> None:
        value, message = self.held(event["value"]), self.first.get("message")
        if message in self.replies and "object" in event["value"] and not message.startswith(self.vat + "/"):
            added = f"{self.vat}/{ADDED + len(self.replied)}"
            self.replied[message] = (added, value)
            self.act("sendonly", added, self.replies[message], "reply", value)
        self.act("done", value)
        if self.settles:
            self.history.resolve(self.vat, self.settles, value)

    def write_threw(self, event: dict) -> None:
        self.act("threw", text(event["problem"]))
        if self.settles:
            self.history.settle(self.vat, self.settles, broken(event["problem"]))

    # ---- how a turn begins

    def carry(self, sender: str, *words: str) -> None:
        """A note from another vat, and the gifts that are new in it."""
        self.history.entry("carry", sender, self.vat, *words)
        for gift, name in self.new_gifts:
            self.history.settle(self.vat, gift, name)
        self.new_gifts = []

    def write_take(self, event: dict) -> None:
        message, target, asked = event["message"], self.object(event["target"]["object"]), verb(event["verb"])
        sender, sent = message.split("/")[0], self.sends.get(message)
        reply = [self.replies[message]] if message in self.replies else []
        arguments, mark, self.mark = self.spread(event["arguments"]), self.mark, ""
        if sender != self.vat:
            kind = "deliver" if sent and sent["event"] == "send" else "deliveronly"
            self.carry(sender, kind, message, target, asked, *[self.value(one, note_list) for one in arguments], *reply)
        values = [self.held(one) for one in arguments]
        self.mark = mark
        self.history.entry("turn", self.vat)
        self.act("take", message, target, asked, *values, *reply)
        self.settles = self.answer(message) if sent and sent["event"] == "send" else None

    def write_react(self, event: dict) -> None:
        self.history.entry("turn", self.vat)
        self.act("take", event["message"], self.callbacks[self.vat, event["callback"]], "run", self.held(event["awaited"]))
        self.settles = self.answer(event["message"])

    def write_timer(self, event: dict) -> None:
        self.history.entry("turn", self.vat)
        self.act("take", event["message"], self.callbacks[self.vat, event["callback"]], "run")

    # ---- what is told by no activation

    def is_own(self, event: dict) -> bool:
        """The answer is of this vat, whose turn settled it, or of a message that no log sends."""
        return event["message"] not in self.sends or host(self.answer(event["message"])) == self.vat

    def write_result(self, event: dict) -> None:
        if self.is_own(event):
            return
        answer = self.answer(event["message"])
        if event["message"] in self.replied:
            self.take_reply(host(answer), self.replies[event["message"]], *self.replied[event["message"]])
        self.carry(host(answer), "settled", answer, self.value(event["value"], note_list))
        self.history.settle(self.vat, answer, self.held(event["value"]))

    def take_reply(self, sender: str, reply: str, message: str, value: str) -> None:
        self.carry(sender, "deliveronly", message, reply, "reply", value)
        self.history.entry("turn", self.vat)
        activation = "!" + message.split("/")[1]
        self.history.line(activation, "take", message, reply, "reply", value)
        self.history.line(activation, "done", "null")

    def write_broke(self, event: dict) -> None:
        if self.is_own(event):
            return
        answer, problem = self.answer(event["message"]), broken(event["problem"])
        if event["problem"] != "dead reference":
            self.carry(host(answer), "settled", answer, problem)
        else:
            if "activation" not in self.first:
                self.history.cut(self.vat, host(answer))
            if event["message"] not in self.taken:
                self.history.line("lost", event["message"], "cut")
        self.history.settle(self.vat, answer, problem)

    def write_disconnected(self, event: dict) -> None:
        if event["tub"] in self.vat_of_tub:
            self.history.cut(self.vat, self.vat_of_tub[event["tub"]])

    def write_root(self, event: dict) -> None:
        self.carry(event["root"], "settled", "@" + event["root"], self.value(event["value"], note_list))
        self.history.settle(self.vat, self.held(event["settles"]), self.held(event["value"]))

    def write_no_root(self, event: dict) -> None:
        self.carry(event["root"], "settled", "@" + event["root"], broken(event["problem"]))
        self.history.settle(self.vat, self.held(event["settles"]), broken(event["problem"]))


def queues_of(events: list[dict]) -> list[list[list[dict]]]:
    """The turns of each vat in their order, each by its events."""
    turns: dict[str, dict[int, list[dict]]] = {}
    for event in events:
        turns.setdefault(event["vat"], {}).setdefault(event["turn"], []).append(event)
    return [list(of_vat.values()) for of_vat in turns.values()]


def converted(events: list[dict], **decisions) -> str:
    return Converter(events, **decisions).text()


def main() -> None:
    options = {"--flat": "flat", "--reply": "reply", "--one-name": "one_name"}
    names, flags = [word for word in sys.argv[1:] if word not in options], [word for word in sys.argv[1:] if word in options]
    if len(names) != 1:
        sys.exit(__doc__)
    events = [json.loads(line) for line in pathlib.Path(names[0]).read_text().splitlines()]
    sys.stdout.write(converted(events, **{options[flag]: True for flag in flags}))


if __name__ == "__main__":
    main()
