#!/usr/bin/env python3
"""Times the reading and writing of frames, and look-ups in the tables of a connection.

Run it at the top of the repository. It builds bench/programs/bench_tables.txt and prints, for each kind of frame and each size, the
time of one call and of one byte, and for each table the time of one look-up.
"""
import pathlib
import subprocess
import time

import building

SIZES = [16, 256, 4096, 65_000]


def number(value: int) -> bytes:
    """The digits of a number, 7 bits a byte, lowest first."""
    digits = bytearray()
    while value > 127:
        digits.append(value % 128 + 128)
        value //= 128
    digits.append(value)
    return bytes(digits)


def text_frame(size: int) -> bytes:
    return b"\x02\x0c\x00\x05" + number(size) + b"x" * size


def list_frame(size: int) -> bytes:
    return b"\x02\x0c\x00\x06" + number(size) + b"\x00" * size


def integers_frame(size: int) -> bytes:
    return b"\x02\x0c\x00\x06" + number(size // 2) + b"\x03\x2a" * (size // 2)


def seconds(program: pathlib.Path, words: list[str], stdin: bytes = b"") -> float:
    begin = time.perf_counter()
    subprocess.run([program, *words], input=stdin, check=True)
    return time.perf_counter() - begin


def per_call(program: pathlib.Path, words: list[str], times: int, stdin: bytes = b"") -> float:
    """The time of one call, without that of a run that makes none."""
    return (seconds(program, [*words, str(times)], stdin) - seconds(program, [*words, "0"], stdin)) / times


def time_frames(bench: pathlib.Path) -> None:
    print(f"{'frame':10} {'bytes':>7} {'decode ns':>12} {'ns/byte':>9} {'both ns':>12} {'ns/byte':>9}")
    for name, make in [("text", text_frame), ("list", list_frame), ("integers", integers_frame)]:
        for size in SIZES:
            frame = make(size)
            times = max(20, 2_000_000 // size)
            decode = per_call(bench, ["decode"], times, frame) * 1e9
            both = per_call(bench, ["encode"], times, frame) * 1e9
            length = len(frame)
            print(f"{name:10} {length:7} {decode:12.0f} {decode / length:9.2f} {both:12.0f} {both / length:9.2f}")


def time_tables(bench: pathlib.Path) -> None:
    print(f"\n{'table':10} {'entries':>7} {'look-up ns':>12}")
    for name in ["position", "gift"]:
        for entries in [10, 1_000, 100_000]:
            call = per_call(bench, [name, str(entries)], 1_000_000) * 1e9
            print(f"{name:10} {entries:7} {call:12.1f}")


if __name__ == "__main__":
    bench = building.build("bench_tables", ["gift", "1", "1"])
    time_frames(bench)
    time_tables(bench)
