"""Runs scenarios over three processes of Foolscap on 127.0.0.1, converts their logs, and shows what `evat check` says.

    /usr/bin/python3 others/foolscap/run.py [--size BYTES] [--messages COUNT] [--keep FOLDER] [SCENARIO..]

Without a scenario all are run, but `many`. The log and the lines of each are left in FOLDER (`/tmp/evat_foolscap` where none is named).
The judge is crates/evat_check/out/evat_check or crates/evat/out/evat, or what the variable EVAT names; without one only lines are written.
"""
from __future__ import annotations

import argparse
import json
import os
import pathlib
import random
import shutil
import socket
import subprocess
import sys
import tempfile
import time

import convert

HERE = pathlib.Path(__file__).resolve().parent
CRATES = HERE.parent.parent / "crates"
JUDGES = [os.environ.get("EVAT"), CRATES / "evat_check/out/evat_check", CRATES / "evat/out/evat"]
# Those with a proxy before Carol, and the connection from which on it refuses, if any.
PROXIED = {"slow": None, "slow_list": None, "slow_answer": None, "older": None, "waiting": None, "gap": 2, "part": None, "reconnect": None}
DIRECT = ["meet", "kragen", "closure", "ambient"]
# Each process ends by itself after so many seconds.
SECONDS = 40


def free_ports(count: int) -> list[int]:
    """Ports below those that the system gives to outgoing connections, on which nobody listens."""
    found: list[int] = []
    while len(found) < count:
        port = random.randrange(12000, 32000)
        with socket.socket() as tried:
            try:
                tried.bind(("127.0.0.1", port))
            except OSError:
                continue
        if port not in found:
            found.append(port)
    return found


class Processes:
    """The processes of a run, each with its errors in a file of the folder."""

    def __init__(self, folder: pathlib.Path) -> None:
        self.folder = folder
        self.started: list[subprocess.Popen] = []

    def start(self, script: str, *words) -> subprocess.Popen:
        errors = open(self.folder / f"errors{len(self.started)}", "w")
        command = [sys.executable, str(HERE / script), *map(str, words)]
        self.started.append(subprocess.Popen(command, stdout=subprocess.DEVNULL, stderr=errors, cwd=self.folder))
        return self.started[-1]

    def end(self) -> None:
        for process in self.started:
            if process.poll() is None:
                process.terminate()
        for process in self.started:
            process.wait()
        for path in sorted(self.folder.glob("errors*")):
            if path.read_text():
                print(f"{path.name}: {path.read_text()[-600:]}", file=sys.stderr)


def record(scenario: str, size: int, messages: int) -> list[dict]:
    """Runs the scenario; gives the events of the three vats up to the end of Alice's, by time."""
    folder = pathlib.Path(tempfile.mkdtemp(prefix="foolscap_"))
    front, orders, alice, bob, carol = free_ports(5)
    processes = Processes(folder)

    def start(vat: str, listen: int, location: int) -> subprocess.Popen:
        settings = {"scenario": scenario, "vat": vat, "folder": str(folder), "listen": listen, "location": location,
                    "control": orders, "seconds": SECONDS, "size": size, "messages": messages}
        return processes.start("scenarios.py", json.dumps(settings))

    try:
        if scenario in PROXIED:
            refuse = PROXIED[scenario]
            processes.start("proxy.py", front, orders, carol, *([refuse] if refuse else []))
            time.sleep(0.5)
        start("carol", carol, front if scenario in PROXIED else carol)
        start("bob", bob, bob)
        start("alice", alice, alice).wait(SECONDS + 20)
        ended = time.clock_gettime_ns(time.CLOCK_MONOTONIC)
    finally:
        processes.end()
    events = [json.loads(line) for path in sorted(folder.glob("*.log")) for line in path.read_text().splitlines()]
    shutil.rmtree(folder)
    events = sorted((event for event in events if event["time"] <= ended), key=lambda event: event["time"])
    first = events[0]["time"]
    return [{**event, "time": event["time"] - first} for event in events]


def judged(text: str) -> str:
    for judge in JUDGES:
        if judge and pathlib.Path(judge).exists():
            return subprocess.run([str(judge), "check"], input=text.encode(), capture_output=True).stdout.decode().replace("\n", "  ")
    return "(no judge is built)"


def main() -> None:
    parser = argparse.ArgumentParser(description=__doc__.split("\n", 1)[0])
    parser.add_argument("--size", type=int, default=30_000_000)
    parser.add_argument("--messages", type=int, default=1000)
    parser.add_argument("--keep", type=pathlib.Path, default=pathlib.Path("/tmp/evat_foolscap"))
    parser.add_argument("scenarios", nargs="*", metavar="SCENARIO", default=DIRECT + list(PROXIED))
    asked = parser.parse_args()
    asked.keep.mkdir(parents=True, exist_ok=True)
    for scenario in asked.scenarios:
        events = record(scenario, asked.size, asked.messages)
        (asked.keep / f"{scenario}.log").write_text("".join(json.dumps(event, sort_keys=True) + "\n" for event in events))
        text = convert.converted(events)
        (asked.keep / f"{scenario}.lines").write_text(text)
        print(f"{scenario:12} {len(events):6} events {text.count(chr(10)):6} lines  {judged(text)}", flush=True)


if __name__ == "__main__":
    main()
