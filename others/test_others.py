#!/usr/bin/env python3
"""Holds the converters to their rows, and the page docs/OTHERS.md to the rows that it shows.

    python3 others/test_others.py

Needs no Foolscap. What asks for a judge is skipped unless crates/evat_check/out/evat_check or crates/evat/out/evat is there, or EVAT names one.
"""
from __future__ import annotations

import importlib.util
import json
import os
import pathlib
import random
import re
import subprocess
import unittest

HERE = pathlib.Path(__file__).resolve().parent
ROOT = HERE.parent
ROWS = ROOT / "rows"
JUDGES = [os.environ.get("EVAT"), ROOT / "crates/evat_check/out/evat_check", ROOT / "crates/evat/out/evat"]
JUDGE = next((str(judge) for judge in JUDGES if judge and pathlib.Path(judge).exists()), None)
SECOND = 1_000_000_000


def module(name: str, path: pathlib.Path):
    spec = importlib.util.spec_from_file_location(name, path)
    made = importlib.util.module_from_spec(spec)
    spec.loader.exec_module(made)
    return made


foolscap = module("foolscap_convert", HERE / "foolscap/convert.py")
capnp = module("capnp_convert", HERE / "capnp/convert.py")
rows = module("rows_try", ROWS / "try.py")


def events_of(scenario: str) -> list[dict]:
    return [json.loads(line) for line in (HERE / "foolscap/recorded" / f"{scenario}.log").read_text().splitlines()]


def judged(text: str) -> str:
    return subprocess.run([JUDGE, "check"], input=text.encode(), capture_output=True).stdout.decode()


def scenarios() -> list[str]:
    return sorted(path.stem for path in (HERE / "foolscap/recorded").glob("*.log"))


def verdict_of(scenario: str) -> str:
    """What the row of the scenario says."""
    wanted = "foolscap-" + scenario.replace("_", "-")
    return next(told.decode() for name, *_, told in rows.rows_of(ROWS / "foolscap.rows") if name == wanted)


class Lines(unittest.TestCase):
    def test_logs_are_converted_to_the_lines_of_their_rows(self):
        spellings = [(scenario, None) for scenario in scenarios()]
        for scenario, decision in spellings + [("slow_list", "flat"), ("slow_answer", "reply"), ("reconnect", "one_name")]:
            name = "-".join(["foolscap", scenario] + ([decision] if decision else [])).replace("_", "-")
            text = foolscap.converted(events_of(scenario), **({decision: True} if decision else {}))
            self.assertEqual(text, (ROWS / f"{name}.lines").read_text(), name)

    def test_the_sketch_is_converted_to_its_row(self):
        events = [json.loads(line) for line in (HERE / "capnp/log.jsonl").read_text().splitlines()]
        self.assertEqual(capnp.converted(events), (ROWS / "capnp.lines").read_text())

    def test_wrong_clocks_change_nothing_of_the_causes(self):
        for scenario in scenarios():
            for behind in (-SECOND, SECOND):
                events = events_of(scenario)
                for event in events:
                    event["time"] += behind * (event["vat"] == "carol")
                text = foolscap.converted(sorted(events, key=lambda event: event["time"]))
                self.assertEqual(causes_that_fail(text), [], scenario)


class Page(unittest.TestCase):
    page = (ROOT / "docs/OTHERS.md").read_text()

    def test_the_worked_example_is_its_row(self):
        block = self.page.split("```\n")[1]
        self.assertEqual("".join(line.split("  ")[0] + "\n" for line in block.splitlines()), (ROWS / "others-worked.lines").read_text())

    def test_each_row_that_it_names_is_there_and_none_is_left_out(self):
        there = {name for path in ROWS.glob("*.rows") for name, *_ in rows.rows_of(path)}
        named = set(re.findall(r"`((?:others|forged|foolscap|capnp)-[a-z-]+)`", self.page))
        self.assertEqual(named - there, set())
        self.assertEqual({name for name in there - named if name.startswith(("others-", "forged-"))}, set())

    def test_what_is_believed_passes_and_nothing_else(self):
        told = {name: text for name, *_, text in rows.rows_of(ROWS / "forged.rows")}
        believed = self.page.split("**Believed.**")[1].split("So `uses yes`")[0]
        named = set(re.findall(r"`(forged-[a-z-]+)`", believed))
        self.assertEqual(named, {name for name, text in told.items() if text == rows.RIGHT})


def causes_that_fail(text: str) -> list[str]:
    """The lines that carry or take a message which no line before sends."""
    sent, found = set(), []
    for line in text.splitlines():
        words = line.split(" ")
        if words[1:2] and words[1] in ("send", "sendonly", "when"):
            sent.add(words[2])
        message = words[5] if words[4:5] and words[4].startswith("deliver") else words[2] if words[1:2] == ["take"] else None
        if message and message not in sent:
            found.append(line)
    return found


@unittest.skipUnless(JUDGE, "no judge is built")
class Verdicts(unittest.TestCase):
    def test_any_order_that_keeps_causes_has_one_verdict(self):
        for scenario in scenarios():
            for seed in range(20):
                choice = random.Random(seed)
                text = foolscap.converted(events_of(scenario), choose=lambda turns: choice.randrange(len(turns)))
                self.assertEqual(judged(text), verdict_of(scenario), f"{scenario}, order {seed}")

    def test_what_was_changed_in_a_log(self):
        for name, (change, verdict) in CHANGES.items():
            events = events_of("meet")
            change(events)
            events.sort(key=lambda event: event["time"])
            text = foolscap.converted(events)
            found = judged(text).split("\n")
            if found[1].startswith("uses no "):
                found[1] = "uses no: " + " ".join(text.splitlines()[int(found[1][8:]) - 1].split(" ")[-5:])
            self.assertEqual(", ".join(found[:2]), verdict, name)


# ---- changes of the log of `meet`

def of(events: list[dict], kind: str, message: str) -> dict:
    return next(event for event in events if event["event"] == kind and event["message"] == message)


def turn_of(events: list[dict], message: str) -> list[dict]:
    took = of(events, "take", message)
    return [event for event in events if (event["vat"], event["turn"]) == (took["vat"], took["turn"])]


def exchanged(first: str, second: str):
    """The turns that take the two messages change places."""
    def change(events: list[dict]) -> None:
        one, other = turn_of(events, first), turn_of(events, second)
        (time, turn), (late, later) = [(part[0]["time"], part[0]["turn"]) for part in (one, other)]
        for event in one:
            event.update(time=late, turn=later)
        for event in other:
            event.update(time=time, turn=turn)
    return change


def left_out(kind: str, message: str):
    def change(events: list[dict]) -> None:
        gone = turn_of(events, message) if kind == "take" else [of(events, kind, message)]
        events[:] = [event for event in events if event not in gone]
    return change


def cell(events: list[dict]) -> dict:
    """An object of Carol that nobody handed to Bob."""
    return {"object": next(event["object"]["object"] for event in events if event["event"] == "made" and event["name"] == "Cell")}


def with_cell(kind: str, message: str, member: str):
    def change(events: list[dict]) -> None:
        event = of(events, kind, message)
        event[member] = [cell(events), *event[member][1:]] if member == "arguments" else cell(events)
    return change


def slot_with_cell(events: list[dict]) -> None:
    next(event for event in events if event["event"] == "slot" and event["vat"] == "bob")["value"] = cell(events)


def with_member(kind: str, message: str, **members):
    return lambda events: of(events, kind, message).update(members)


def taken_again(events: list[dict]) -> None:
    late = max(event["time"] for event in events)
    events += [{**event, "time": late + 1, "turn": 999, "activation": 999} for event in turn_of(events, "alice/3")]


# The name of the change, and what `check` says: of uses, with the end of the line that it names. The last five go unseen.
CHANGES = {
    "two messages on one reference are exchanged": (exchanged("alice/2", "alice/3"), "order no alice/2 alice/3, uses yes"),
    "a message is not taken": (left_out("take", "alice/3"), "order no alice/3 alice/4, uses yes"),
    "a message is not sent": (left_out("send", "alice/3"), "order yes, uses no: deliveronly alice/3 carol.0 put 1"),
    "another argument is carried": (with_cell("take", "alice/5", "arguments"), "order yes, uses no: alice/5 bob.0 meet carol.1 3"),
    "a message is sent on what nobody gave": (with_cell("send", "bob/0", "target"), "order yes, uses no: carol.1 put 3 -> carol?bob/0"),
    "another object takes a message": (with_cell("take", "alice/3", "target"), "order yes, uses no: deliver alice/3 carol.1 put 1"),
    "an answer is another object": (with_cell("result", "alice/13", "value"), "order yes, uses yes"),
    "a slot holds an object from the start": (slot_with_cell, "order yes, uses yes"),
    "other data is carried": (with_member("take", "alice/3", arguments=[{"data": 99}]), "order yes, uses yes"),
    "another verb is carried": (with_member("take", "alice/3", verb="wipe"), "order yes, uses yes"),
    "a message is taken twice": (taken_again, "order yes, uses yes"),
}


if __name__ == "__main__":
    unittest.main()
