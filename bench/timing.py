"""How bench/programs/bench_reading.txt is built and timed."""
import pathlib
import subprocess
import time

import building

# Of texts and programs, in bytes.
SIZES = [1024, 4096, 16_384, 65_536]


def build() -> pathlib.Path:
    return building.build("bench_reading", ["lex", "1"])


def seconds(program: pathlib.Path, word: str, times: int, text: bytes) -> float:
    begin = time.perf_counter()
    subprocess.run([program, word, str(times)], input=text, check=True)
    return time.perf_counter() - begin


def per_call(program: pathlib.Path, word: str, times: int, text: bytes) -> float:
    """The time of one call, without that of a run that makes none."""
    return (seconds(program, word, times, text) - seconds(program, word, 0, text)) / times
