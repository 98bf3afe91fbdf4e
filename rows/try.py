#!/usr/bin/env python3
"""Tries a program on the worked rows, as another program would call it.

    rows/try.py [BINARY]    the rows of rows/*.rows, with crates/evat/out/evat where none is named

A row may name another program, by a word `program=NAME`: crates/NAME/out/NAME. Such a row is left out, and counted, where that was not built.

A file of rows is a text. A row begins with a line `NAME: WORD.. -> STATUS`: its name, the words of the command, and the exit status.
Behind it stands the input, a line `---`, and what is written; a line `====` stands between two rows. An input or an output of one line
`<FILE` is what that file of this folder holds. What a `run` writes that ends with 0 is judged by `check` too, which has to say yes twice.

Words of the form `KEY=NUMBER` are none of the command, and say how the program is called:

    spaces    so many spaces stand in the input in place of the sign `@`
    byte      this byte stands behind the input
    serves    a read gives at most so many bytes
    fails     the input cannot be read (1)
    refuses   the output cannot be written (1)
    puts      so many writes are wanted
    says      what is wanted is written to standard error, and nothing to standard output (1)

The last line counts the rows. The status is 1 where a row comes out otherwise, and those are named.
"""
from __future__ import annotations

import os
import pathlib
import subprocess
import sys
import threading

ROWS = pathlib.Path(__file__).resolve().parent
CRATES = ROWS.parent / "crates"
BINARY = CRATES / "evat" / "out" / "evat"
KEYS = {"spaces", "byte", "serves", "fails", "refuses", "puts", "says"}
# The most bytes that are one packet of a pipe of packets, of which a read takes one.
PACKET = 4096
# What a call may take, in seconds.
SECONDS = 120
RIGHT = b"order yes\nuses yes\n"


def part(text: str) -> bytes:
    """What a part of a row stands for: what the file holds that it names, or itself."""
    if text.startswith("<") and text.count("\n") <= 1:
        return (ROWS / text[1:].strip()).read_bytes()
    return text.encode()


def rows_of(path: pathlib.Path):
    """The rows of a file: name, program (none: `evat`), words, keys, status, input and output."""
    for text in path.read_bytes().decode().split("====\n"):
        head, rest = text.split("\n", 1)
        name, call = head.split(": ", 1)
        words, status = call.rsplit(" -> ", 1)
        given, told = rest.split("---\n", 1) if rest.startswith("---\n") else rest.split("\n---\n", 1)
        keys = dict(it.split("=") for it in words.split() if "=" in it)
        program = keys.pop("program", None)
        if not keys.keys() <= KEYS:
            sys.exit(f"{path.name}: {name}: no such key")
        keys = {key: int(number) for key, number in keys.items()}
        yield name, program, [it for it in words.split() if "=" not in it], keys, int(status), part(given), part(told)


def with_keys(given: bytes, keys: dict) -> bytes:
    if "spaces" in keys:
        given = given.replace(b"@", b" " * keys["spaces"], 1)
    return given + bytes([keys["byte"]]) if "byte" in keys else given


def put(end: int, given: bytes, most: int) -> None:
    """Writes packets of at most so many bytes. A program may end before it has read them all."""
    try:
        for at in range(0, len(given), most):
            os.write(end, given[at : at + most])
    except BrokenPipeError:
        pass
    finally:
        os.close(end)


def packets(end: int) -> list[bytes]:
    found = []
    while packet := os.read(end, PACKET):
        found.append(packet)
    os.close(end)
    return found


def called_for_what_it_says(binary: str, words: list[str], given: bytes) -> tuple[int, bytes, int]:
    """The status, and what is written to standard error, where nothing is written to standard output."""
    ran = subprocess.run([binary, *words], input=given, capture_output=True, timeout=SECONDS)
    return ran.returncode, ran.stdout or ran.stderr, 0


def called_where_streams_fail(binary: str, words: list[str], keys: dict, given: bytes) -> tuple[int, bytes, int]:
    """The same where the input is a folder, which cannot be read, or the output a device that is full."""
    how = {"stderr": subprocess.DEVNULL, "timeout": SECONDS}
    if "refuses" in keys:
        with open("/dev/full", "wb") as full:
            return subprocess.run([binary, *words], input=given, stdout=full, **how).returncode, b"", 0
    folder = os.open(ROWS, os.O_RDONLY)
    ran = subprocess.run([binary, *words], stdin=folder, stdout=subprocess.PIPE, **how)
    os.close(folder)
    return ran.returncode, ran.stdout, 0


def called(binary: str, words: list[str], keys: dict, given: bytes) -> tuple[int, bytes, int]:
    """The status, what was written, and in how many writes (of at most PACKET bytes)."""
    if "says" in keys:
        return called_for_what_it_says(binary, words, given)
    if keys.keys() & {"fails", "refuses"}:
        return called_where_streams_fail(binary, words, keys, given)
    source, feed = os.pipe2(os.O_DIRECT | os.O_CLOEXEC)
    drain, sink = os.pipe2(os.O_DIRECT | os.O_CLOEXEC)
    with subprocess.Popen([binary, *words], stdin=source, stdout=sink, stderr=subprocess.DEVNULL) as program:
        os.close(source)
        os.close(sink)
        threading.Thread(target=put, args=(feed, given, min(keys.get("serves", PACKET), PACKET)), daemon=True).start()
        too_long = threading.Timer(SECONDS, program.kill)
        too_long.start()
        told = packets(drain)
        program.wait()
        too_long.cancel()
    return program.returncode, b"".join(told), len(told)


def is_as_told(binary: str, words: list[str], keys: dict, status: int, given: bytes, told: bytes) -> bool:
    code, text, writes = called(binary, words, keys, with_keys(given, keys))
    if code != status or text != told or writes != keys.get("puts", writes):
        return False
    if words[:1] == ["run"] and status == 0:
        return called(binary, ["check"], {}, told)[:2] == (0, RIGHT)
    return True


def main() -> None:
    binary = str(pathlib.Path(sys.argv[1] if sys.argv[1:] else BINARY).resolve())
    passed, failed, left = 0, 0, 0
    for path in sorted(ROWS.glob("*.rows")):
        for name, program, *row in rows_of(path):
            called_by = str(CRATES / program / "out" / program) if program else binary
            if program and not os.path.exists(called_by):
                left += 1
            elif is_as_told(called_by, *row):
                passed += 1
            else:
                failed += 1
                print(f"{path.name}: {name} comes out otherwise")
    print(f"rows: {passed} passed, {failed} failed" + (f", {left} of programs that were not built" if left else ""))
    sys.exit(failed > 0)


if __name__ == "__main__":
    main()
