#!/usr/bin/env python3
"""Times the commands that answer lines, judge the text of a run, write a script or sum up its run: seconds of processor, and memory, on inputs of up to 1 MiB.

Run it at the top of the repository. It builds crates/evat. The figures should grow as the input does.
"""
import os
import pathlib
import subprocess
import tempfile

EVAT = pathlib.Path("crates/evat")
TRIES = 3
SIZES = [10 << 10, 100 << 10, 1 << 20]
KEY = "key " + "0" * 64 + "\n"


def repeated(front: str, line, size: int) -> bytes:
    """Lines by their numbers, behind the front, as many as fit."""
    lines, length, number = [front], len(front), 0
    while length + len(line(number)) <= size:
        lines.append(line(number))
        length += len(lines[-1])
        number += 1
    return "".join(lines).encode()


TWO_VATS = "open a\n!0 done null\nopen b\n!0 made b.0 o\n!0 done b.0\nsettle @b b.0\n"


def sent(number: int) -> str:
    """One line of a run in which vat a sends b one message after the other, each with the answer of the one before."""
    k = number // 6
    before = f"b?a/{max(k - 1, 0)}"
    return [
        f"{3 * k + 1} turn a\n",
        f"!0 send a/{k} @b f {before} -> b?a/{k}\n",
        f"{3 * k + 2} carry a b deliver a/{k} @b f {before}\n",
        f"{3 * k + 3} turn b\n",
        f"!{k + 1} take a/{k} b.0 f {before}\n",
        f"settle b?a/{k} {k}\n",
    ][number % 6]


def settled(number: int) -> str:
    """One line of a run in which each promise settles to the next one, and that one is used."""
    k = number // 2
    return [f"settle a~{k} a~{k + 1}\n", f"!0 call 1 add a~{k + 1}\n"][number % 2]


def trace(front: str, line, size: int) -> bytes:
    """A trace of such lines."""
    return repeated(front, line, size - 4) + b"end\n"


def counted(front: str, line, count: int) -> bytes:
    """A trace of so many lines behind the front."""
    return (front + "".join(line(n) for n in range(count)) + "end\n").encode()


def chain_then(front: str, line, size: int) -> bytes:
    """A trace of a chain of promises, as long as half of it, and then of lines by their numbers and the number of the last promise."""
    built = repeated(front, lambda n: f"settle a~{n} a~{n + 1}\n", size // 2)
    last = built.count(b"settle")
    return trace(built.decode(), lambda n: line(n, last), size)


PROMISE = "open a\n!0 made a.0 o\n!0 promise a~0 a.1\n"


def used_back(number: int, last: int) -> str:
    """The promises of a chain are used from the last one back."""
    return f"!0 call 1 add a~{last - number % last}\n"


def end_used(number: int, last: int) -> str:
    """One activation after the other is given the first promise of a chain, and gives back the last one."""
    k = number // 3 + 1
    return [f"!0 call a.0 f a~0 as !{k}\n", f"!{k} done a~{last}\n", "!0 back null\n"][number % 3]


def later_end_used(number: int, last: int) -> str:
    """The same, each given another promise of the chain."""
    k = number // 3 + 1
    return [f"!0 call a.0 f a~{k % last} as !{k}\n", f"!{k} done a~{last}\n", "!0 back null\n"][number % 3]


def start_called(number: int, last: int) -> str:
    """One activation after the other runs the object to which the first promise of a chain leads."""
    k = number // 2 + 1
    return [f"!0 call a~0 f as !{k}\n", "!0 back null\n"][number % 2]


def end_called(size: int) -> bytes:
    """The same, where the chain comes to an object."""
    built = repeated(PROMISE, lambda n: f"settle a~{n} a~{n + 1}\n", size // 2).decode()
    return trace(built + f"settle a~{built.count('settle')} a.0\n", lambda n: start_called(n, 0), size)


def start_carried(size: int) -> bytes:
    """One message after the other carries the second promise of a chain, where the first was sent."""
    built = repeated("open a\n!0 promise a~0 a.1\n", lambda n: f"settle a~{n} a~{n + 1}\n", size // 2).decode()
    count = (size - len(built)) // 85
    sends = "".join(f"!0 send a/{k} @b f a~0 -> b?a/{k}\n" for k in range(count))
    return counted(built + sends + "!0 done null\nopen b\n", lambda k: f"{k + 1} carry a b deliver a/{k} @b f a~1\n", count)


def list_sent(number: int) -> str:
    """One message after the other is taken with the same long list."""
    k = number // 3
    return [f"{k + 1} turn a\n", f"!{k + 1} take a/{k} a.0 f a%0\n", f"!{k + 1} done null\n"][number % 3]


def long_list(size: int) -> bytes:
    """A long list is sent and taken often."""
    promises = repeated(PROMISE, lambda n: f"!0 promise a~{n + 1} a.{n + 2}\n", size // 4).decode()
    members = " ".join(f"a~{n}" for n in range(promises.count("promise")))
    count = (size - len(promises) - len(members)) // 110
    sends = "".join(f"!0 send a/{k} a.0 f a%0 -> a?a/{k}\n" for k in range(count))
    return counted(promises + f"!0 list a%0 {members}\n" + sends + "!0 done null\n", list_sent, 3 * count)


def lists_in_lists(size: int) -> bytes:
    """An activation is given a list in which a list stands, and so on, and uses what stands in each of them, the innermost first."""
    front = repeated(PROMISE + "!0 list a%0 a.0\n", lambda n: f"!0 promise a~{n + 1} a.{n + 2}\n!0 list a%{n + 1} a%{n} a~{n + 1}\n", 2 * size // 3).decode()
    last = front.count("list") - 1
    return trace(front + f"!0 call a.0 f a%{last} as !1\n", lambda n: f"!1 call 1 add a~{n % last + 1}\n", size)


def settled_to_one(number: int) -> str:
    """One promise after the other settles to the same object, and an activation that is given it uses that object."""
    k = number // 5 + 1
    return [f"!0 promise a~{k} a.1\n", f"settle a~{k} a.2\n", f"!0 call a.0 f a~{k} as !{k}\n", f"!{k} done a.2\n", "!0 back null\n"][number % 5]


INPUTS = {
    ("check", "messages of two vats"): lambda size: trace(TWO_VATS, sent, size),
    ("check", "promises in a chain"): lambda size: trace("open a\n!0 promise a~0 a.0\n", settled, size),
    ("check", "a chain used from its end"): lambda size: chain_then(PROMISE, used_back, size),
    ("check", "a chain's end, by many"): lambda size: chain_then(PROMISE, end_used, size),
    ("check", "its end, from many places"): lambda size: chain_then(PROMISE, later_end_used, size),
    ("check", "calls on a chain's start"): end_called,
    ("check", "a chain's start carried"): start_carried,
    ("check", "a list taken often"): long_list,
    ("check", "lists in lists"): lists_in_lists,
    ("check", "many settle to one"): lambda size: trace(PROMISE, settled_to_one, size),
    ("sturdy", "register"): lambda size: repeated(KEY, lambda n: f"register {n % 10000}\n", size),
    ("sturdy", "connect, cut, notice"): lambda size: repeated(
        KEY, lambda n: ["connect\n", "use 1 0\n", "cut\n", "notice host\n", "notice guest\n"][n % 5], size
    ),
    ("mint", "deposit, balance"): lambda size: repeated(
        "mint\nissue 0 1000000\nissue 0 0\n", lambda n: ["deposit 1 0 1\n", "balance 1\n"][n % 2], size
    ),
    ("mint", "seal, unseal"): lambda size: repeated(
        "brand\n", lambda n: [f"seal 0 {n}\n", f"unseal 0 {n // 2}\n"][n % 2], size
    ),
}


def once(words: list[str], given: bytes) -> tuple[float, int, int]:
    """The seconds of processor of one run, its memory in bytes, and its status."""
    with tempfile.TemporaryFile() as lines:
        lines.write(given)
        lines.seek(0)
        run = subprocess.Popen([EVAT / "out" / "evat", *words], stdin=lines, stdout=subprocess.PIPE)
        run.stdout.read()
        _, status, used = os.wait4(run.pid, 0)
    return used.ru_utime + used.ru_stime, used.ru_maxrss * 1024, status >> 8


def main() -> None:
    subprocess.run(["rt", "run", "--", "help"], cwd=EVAT, stdin=subprocess.DEVNULL, stdout=subprocess.DEVNULL)
    print(f"{'command':32} {'bytes':>10} {'ms':>9} {'MB':>6} {'status':>6}")
    for (word, what), made in INPUTS.items():
        for size in SIZES:
            runs = [once([word], made(size)) for _ in range(TRIES)]
            seconds, memory, status = min(runs)
            print(f"{word + ': ' + what:32} {size:>10} {seconds * 1000:>9.1f} {memory / 1e6:>6.1f} {status:>6}")
    for word in ("gen", "sum"):
        for count in (30, 300, 3000):
            seconds, memory, status = min(once([word, str(count)], b"") for _ in range(TRIES))
            print(f"{word + ' ' + str(count):32} {'':>10} {seconds * 1000:>9.1f} {memory / 1e6:>6.1f} {status:>6}")


if __name__ == "__main__":
    main()
