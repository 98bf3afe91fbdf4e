#!/usr/bin/env python3
"""Times settlings inside one vat: names that wait on one another, messages that one name holds, and both at once.

Run it at the top of the repository. It builds bench/programs/bench_references.txt and prints, for each kind and count, the time of one
name or message, and the memory of one.
"""
import os
import pathlib
import subprocess
import time

import building

COUNTS = [1_000, 10_000, 100_000, 1_000_000]
RUNS = 3


def once(program: pathlib.Path, kind: str, count: int) -> tuple[float, int]:
    """The seconds and the most kilobytes of memory of one run."""
    begin = time.perf_counter()
    process = subprocess.Popen([program, kind, str(count)], stdout=subprocess.DEVNULL)
    _, status, usage = os.wait4(process.pid, 0)
    if status != 0:
        raise SystemExit(f"{kind} {count} ended with status {status}")
    return time.perf_counter() - begin, usage.ru_maxrss


def least(program: pathlib.Path, kind: str, count: int) -> tuple[float, int]:
    taken = [once(program, kind, count) for _ in range(RUNS)]
    return min(seconds for seconds, _ in taken), min(memory for _, memory in taken)


def main() -> None:
    bench = building.build("bench_references", ["chain", "1"])
    print(f"{'kind':8} {'count':>9} {'ns each':>9} {'bytes each':>11}")
    for kind in ["chain", "held", "both"]:
        empty, base = least(bench, kind, 0)
        for count in COUNTS:
            seconds, memory = least(bench, kind, count)
            print(f"{kind:8} {count:9} {(seconds - empty) / count * 1e9:9.0f} {(memory - base) * 1024 / count:11.0f}")


if __name__ == "__main__":
    main()
