#!/usr/bin/env python3
"""Tries a program on damaged and greatest input, and on streams that fail, as a shell makes them.

    rows/damage.py [BINARY]    with crates/evat/out/evat where none is named

Each case has the status and the text that docs/FORMATS.md says. One that comes out otherwise is named; the last line counts them, and the status is
1 where there is one. It takes some seconds.
"""
from __future__ import annotations

import contextlib
import json
import os
import pathlib
import resource
import signal
import subprocess
import sys
import tempfile
import time

ROOT = pathlib.Path(__file__).resolve().parent.parent
ZEROS = "0" * 64
SMALL = f'{{"key":"{ZEROS}","vats":[{{"name":"a","knows":[],"source":"41 + 1"}}],"schedule":[]}}'
SMALL_TEXT = b"open a\n!0 call 41 add 1\n!0 back 42\n!0 done 42\nsettle @a 42\nend\n"
# A run of half a megabyte of lines: more than a pipe holds.
LONG = json.dumps({"key": ZEROS, "vats": [{"name": "a", "knows": [], "source": "1"}], "schedule": ["drain 100000"]})
LONG_TEXT = b"open a\n!0 done 1\nsettle @a 1\n" + b"".join(b"%d idle\n" % number for number in range(1, 100_001)) + b"end\n"
MOST_BYTES = 1_048_576
SECONDS = 60


class Tried:
    def __init__(self, binary: str) -> None:
        self.binary, self.passed, self.failed = binary, 0, 0

    def holds(self, name: str, is_so: bool, said: object = "") -> None:
        self.passed += is_so
        self.failed += not is_so
        if not is_so:
            print(f"{name} comes out otherwise: {str(said)[:200]}")

    def called(self, words: str, given: bytes = b"", **how) -> tuple[int, bytes]:
        ran = subprocess.run([self.binary, *words.split()], input=given, stdout=subprocess.PIPE, stderr=subprocess.PIPE, timeout=SECONDS,
            check=False, **how)
        return ran.returncode, ran.stdout

    def answers(self, name: str, words: str, given: bytes | str, status: int, text: bytes | str) -> None:
        given = given.encode() if isinstance(given, str) else given
        text = text.encode() if isinstance(text, str) else text
        said = self.called(words, given)
        self.holds(name, said == (status, text), said)

    def refused(self, name: str, given: bytes | str, rule: int) -> None:
        self.answers(name, "run", given, 6, f"refused script {rule}\n")


def of(source: str = "41 + 1", schedule: list[str] | None = None, **parts) -> str:
    vat = {"name": "a", "knows": [], "source": source, **{key: parts.pop(key) for key in ("name", "knows") if key in parts}}
    return json.dumps({"key": ZEROS, "vats": [vat], "schedule": schedule or [], **parts})


def cut_short(tried: Tried) -> None:
    """Each front of a script, of the text of a run, of orders of mints, of lines of sturdy references, and of a program."""
    tried.answers("the script", "run", SMALL, 0, SMALL_TEXT)
    for size in range(len(SMALL)):
        tried.refused(f"the first {size} bytes of a script", SMALL[:size], 1)
    text = (ROOT / "rows" / "introduction.lines").read_bytes()[-700:].split(b"\n", 1)[1]
    status, _ = tried.called("check", text)
    tried.holds("the end of a run's text is judged", status == 0, status)
    for size in range(len(text)):
        tried.answers(f"the first {size} bytes of a run's text", "check", text[:size], 6, "refused script 42\n")
    orders = b"mint\nissue 0 5\nbalance 0\n"
    for size in range(len(orders)):
        whole = orders[:size].endswith(b"\n") or not size
        status, _ = tried.called("mint", orders[:size])
        tried.holds(f"the first {size} bytes of orders", status == (0 if whole else 6), status)
    lines = b"key " + ZEROS.encode() + b"\nregister 7\nconnect\n"
    for size in range(len(lines)):
        status, told = tried.called("sturdy", lines[:size])
        wanted = b"refused script 22\n" if size < 68 else b"refused script 23\n"
        is_so = status == 0 if lines[:size].endswith(b"\n") else (status, told) == (6, wanted)
        tried.holds(f"the first {size} bytes of lines", is_so, (status, told))
    program = 'def f(n :int) { to g() { return "a\\n" } }'
    for size in range(len(program)):
        status, told = tried.called("expand", program[:size].encode())
        tried.holds(f"the first {size} bytes of a program", (status == 0) != told.startswith(b"refused program - "), (status, told))


def broken_bytes(tried: Tried) -> None:
    """A byte that is no UTF-8 at each place of a script, and each byte in the place of one."""
    for at in range(0, len(SMALL) + 1, 7):
        tried.refused(f"no text at {at}", SMALL[:at].encode() + b"\xff" + SMALL[at:].encode(), 1)
    for byte in range(256):
        status, told = tried.called("run", SMALL[:60].encode() + bytes([byte]) + SMALL[61:].encode())
        tried.holds(f"byte {byte} in a key", (status == 0) == (byte in b"0123456789abcdef") and status in (0, 6), (status, told))


def lengths(tried: Tried) -> None:
    """The greatest input, source, nesting and counts, and one more."""
    tried.refused("as many spaces as are read", b" " * MOST_BYTES, 1)
    for words in ("run", "run wire", "expand", "sturdy", "mint", "check"):
        tried.answers(f"one byte more than is read by {words}", words, b" " * (MOST_BYTES + 1), 5, "refused long\n")
    tried.answers("the script with spaces up to what is read", "run", SMALL.ljust(MOST_BYTES), 0, SMALL_TEXT)
    tried.refused("200 brackets", "[" * 200, 1)
    tried.refused("a million brackets", "[" * 1_000_000, 1)
    tried.refused("a million members", "[" + "0," * 500_000 + "0]", 2)
    tried.refused("a source of 65,537 spaces", of(" " * 65_537), 7)
    tried.answers("a source of 65,536 spaces", "run", of(" " * 65_536), 0, "open a\n!0 done null\nsettle @a null\nend\n")
    tried.answers("a program of 65,537 bytes", "expand", " " * 65_537, 6, "refused script 7\n")
    tried.refused("17 vats", json.dumps({"key": ZEROS, "vats": [{"name": f"v{n}", "knows": [], "source": ""} for n in range(17)], "schedule": []}), 5)
    sixteen = [{"name": f"v{n}", "knows": [f"v{m}" for m in range(16) if m != n], "source": ""} for n in range(16)]
    status, told = tried.called("run", json.dumps({"key": ZEROS, "vats": sixteen, "schedule": ["drain 390"]}).encode())
    tried.holds("16 vats that know each other", status == 0 and told.endswith(b"99840 idle\nend\n"), (status, told[-40:]))
    tried.answers("the longest schedule", "run", LONG, 0, LONG_TEXT)
    tried.refused("an entry more", LONG.replace("]}", ', "turn a"]}'), 11)
    for count, status in ((255, 0), (256, 7)):
        told = tried.called("expand", ("1.f(" + ", ".join("0" for _ in range(count)) + ")").encode())
        wanted = b"refused program - parse 0 513\n" if status else b"(call (lit 1) f" + b" (lit 0)" * 255 + b")\n"
        tried.holds(f"{count} arguments", told == (status, wanted), told)
    for depth, status in ((58, 0), (61, 7), (32_000, 7)):
        told = tried.called("expand", ("(" * depth + "1" + ")" * depth).encode())
        tried.holds(f"{depth} parentheses", told[0] == status, told)
    for fuel, rule in (("0", 4), ("10000001", 4), ("99999999999999999999", 4)):
        tried.refused(f"fuel {fuel}", SMALL[:-1] + f',"fuel":{fuel}}}', rule)
    tried.answers("a loop without end", "run", of("while (true) {}"), 8, "stop fuel 0\n")
    tried.answers("calls without end", "run", of("def f() { return f() }; f()"), 9, "stop depth 0\n")


def words(tried: Tried) -> None:
    """Words that are no command, and one that is no text."""
    given = ["", "run run", "Run", "run wire wire", "gen", "gen -1", "gen 3001", "gen 00", "gen 1 1", "sum 3001", "sum x", "check run", "expand 1"]
    given += ["--help", "-h", "--version", "x" * 100_000]
    for it in given:
        tried.answers(f"the words {it[:20]}", it, SMALL, 2, "refused usage\n")
    ran = subprocess.run([tried.binary, b"\xff"], input=b"", stdout=subprocess.PIPE, check=False, timeout=SECONDS)
    tried.holds("a word that is no text", (ran.returncode, ran.stdout) == (1, b""), ran)
    ran = subprocess.run([tried.binary, ""], input=b"", stdout=subprocess.PIPE, check=False, timeout=SECONDS)
    tried.holds("an empty word", (ran.returncode, ran.stdout) == (2, b"refused usage\n"), ran)
    shell = subprocess.run(["sh", "-c", 'exec "$0" gen 0 < /dev/null', tried.binary], stdout=subprocess.PIPE, check=False, timeout=SECONDS)
    tried.holds("an input of nothing for gen", shell.returncode == 0 and len(shell.stdout) == 353, shell)


def in_shell(tried: Tried, name: str, line: str, status: int, text: bytes) -> None:
    """A line of bash in which $0 is the program and $1 a file of the long script."""
    with tempfile.NamedTemporaryFile() as file:
        file.write(LONG.encode())
        file.flush()
        ran = subprocess.run(["bash", "-c", line, tried.binary, file.name], stdout=subprocess.PIPE, stderr=subprocess.PIPE, check=False,
            timeout=SECONDS)
    tried.holds(name, (ran.returncode, ran.stdout) == (status, text), (ran.returncode, ran.stdout[:80], ran.stderr[:80]))


def streams(tried: Tried) -> None:
    """Streams that are closed, are folders or full, or go away."""
    for it in ("run", "run wire", "expand", "sturdy", "mint", "check"):
        in_shell(tried, f"a closed input of {it}", f'"$0" {it} <&-', 3, b"")
        in_shell(tried, f"a folder as the input of {it}", f'"$0" {it} < /', 3, b"")
    in_shell(tried, "a closed input of gen", '"$0" gen 0 <&- | wc -c', 0, b"353\n")
    in_shell(tried, "a closed output", '"$0" run < "$1" >&-', 4, b"")
    in_shell(tried, "a full disk", '"$0" run < "$1" > /dev/full', 4, b"")
    for it in ("gen 0", "sum 0", "walk"):
        in_shell(tried, f"a full disk of {it}", f'"$0" {it} > /dev/full', 4, b"")
        in_shell(tried, f"a closed output of {it}", f'"$0" {it} >&-', 4, b"")
    in_shell(tried, "closed input and output", '"$0" run <&- >&-', 3, b"")
    in_shell(tried, "a closed place for complaints", '"$0" run < "$1" 2>&- | tail -n 1', 0, b"end\n")
    in_shell(tried, "a reader that goes away", '"$0" run < "$1" | head -n 1; exit ${PIPESTATUS[0]}', 4, b"open a\n")
    in_shell(tried, "a reader that reads nothing", '"$0" run < "$1" | true; exit ${PIPESTATUS[0]}', 4, b"")
    in_shell(tried, "a reader that takes all", '"$0" run < "$1" | wc -l; exit ${PIPESTATUS[0]}', 0, b"100004\n")
    in_shell(tried, "an input that is opened for writing alone", '"$0" run 0> /dev/null', 3, b"")
    in_shell(tried, "an output that is opened for reading alone", '"$0" run < "$1" 1< /dev/null', 4, b"")


def least_file(tried: Tried) -> None:
    """A file that may not grow further holds a front of the text."""

    def small() -> None:
        signal.signal(signal.SIGXFSZ, signal.SIG_IGN)
        resource.setrlimit(resource.RLIMIT_FSIZE, (1000, 1000))

    with tempfile.NamedTemporaryFile() as out:
        ran = subprocess.run([tried.binary, "run"], input=LONG.encode(), stdout=out, preexec_fn=small, check=False, timeout=SECONDS)
        told = pathlib.Path(out.name).read_bytes()
    tried.holds("a file of at most 1,000 bytes", ran.returncode == 4 and LONG_TEXT.startswith(told) and len(told) == 1000,
        (ran.returncode, len(told)))


def slow(tried: Tried) -> None:
    """A reader that is slow, an input that comes byte by byte, and signals."""
    with subprocess.Popen([tried.binary, "run"], stdin=subprocess.PIPE, stdout=subprocess.PIPE) as program:
        for byte in SMALL.encode():
            program.stdin.write(bytes([byte]))
            program.stdin.flush()
        program.stdin.close()
        told = program.stdout.read()
    tried.holds("an input byte by byte", (program.returncode, told) == (0, SMALL_TEXT), program.returncode)
    with subprocess.Popen([tried.binary, "run"], stdin=subprocess.PIPE, stdout=subprocess.PIPE) as program:
        with contextlib.suppress(BrokenPipeError):
            program.stdin.write(LONG.encode())
            program.stdin.close()
        time.sleep(0.5)
        told = program.stdout.read()
    tried.holds("a reader that waits", (program.returncode, told) == (0, LONG_TEXT), program.returncode)
    for number in (signal.SIGTERM, signal.SIGINT, signal.SIGHUP):
        with subprocess.Popen([tried.binary, "run"], stdin=subprocess.PIPE, stdout=subprocess.PIPE) as program:
            time.sleep(0.1)
            program.send_signal(number)
            program.wait(SECONDS)
        tried.holds(f"signal {number.name} while it reads", program.returncode == -number, program.returncode)
    with subprocess.Popen([tried.binary, "run"], stdin=subprocess.PIPE, stdout=subprocess.PIPE) as program:
        time.sleep(0.1)
        program.send_signal(signal.SIGSTOP)
        program.send_signal(signal.SIGCONT)
        told, _ = program.communicate(SMALL.encode(), SECONDS)
    tried.holds("stopped and gone on", (program.returncode, told) == (0, SMALL_TEXT), program.returncode)


def main() -> None:
    binary = str(pathlib.Path(sys.argv[1] if sys.argv[1:] else ROOT / "crates" / "evat" / "out" / "evat").resolve())
    if not os.access(binary, os.X_OK):
        sys.exit(f"no program {binary}")
    tried = Tried(binary)
    for part in (cut_short, broken_bytes, lengths, words, streams, least_file, slow):
        part(tried)
    print(f"damage: {tried.passed} passed, {tried.failed} failed")
    sys.exit(tried.failed > 0)


if __name__ == "__main__":
    main()
