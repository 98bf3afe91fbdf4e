"""Builds a program that a bench times.

The programs stand in bench/programs and not among the crates, since the gate would prove and build each of them in every run. One is put among the
crates while it is built, and taken out again.
"""
import pathlib
import shutil
import subprocess
import tempfile

PROGRAMS = pathlib.Path("bench/programs")
CRATES = pathlib.Path("crates.txt")

# What each program stands on.
STANDS_ON = {
    "bench_frames": "ev_base ev_io def_kernel ev_reader ev_vat",
    "bench_tables": "ev_base ev_intro ev_io def_op ev_op ev_tables",
    "bench_reading": "ev_base ev_expand ev_io def_syntax ev_lexer ev_parser ev_reader ev_script",
    "bench_references": "ev_base ev_heap ev_intro ev_refs ev_pass ev_settle",
}


def build(name: str, words: list[str], stdin: bytes = b"") -> pathlib.Path:
    """Proves and builds a program, runs it once with these words, and tells where it then stands."""
    crate = pathlib.Path("crates") / name
    listed = CRATES.read_text()
    try:
        (crate / "src").mkdir(parents=True)
        shutil.copyfile(PROGRAMS / f"{name}.txt", crate / "src" / "main.rt")
        CRATES.write_text(f"{listed}{name}: {STANDS_ON[name]}\n")
        subprocess.run(["rt", "run", "--", *words], cwd=crate, check=True, input=stdin, stdout=subprocess.DEVNULL)
        built = pathlib.Path(tempfile.mkdtemp()) / name
        shutil.copy2(crate / "out" / name, built)
        return built
    finally:
        CRATES.write_text(listed)
        shutil.rmtree(crate, ignore_errors=True)
