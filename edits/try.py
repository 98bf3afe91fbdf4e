#!/usr/bin/env python3
"""Tries wrong bodies that the prover has to refuse and that the gate does not try.

    edits/try.py CRATE..    those of these crates (all of them: edits/*)

The first edit of a crate costs a proof of all of it, so the gate tries those of a few crates, in `crates/NAME/must-fail`. The others
stand here, in the same form, and are to be tried when their crate changes. Each is put beside the crate's own for the time of the run.
"""
import os
import shutil
import signal
import subprocess
import sys

TOP = os.path.dirname(os.path.dirname(os.path.realpath(__file__)))


def tried(name):
    """Whether each edit of the crate is refused."""
    kept, room = os.path.join(TOP, 'edits', name), os.path.join(TOP, 'crates', name, 'must-fail')
    made = not os.path.isdir(room)
    os.makedirs(room, exist_ok=True)
    brought = [it for it in os.listdir(kept) if it.endswith('.edit') and not os.path.exists(os.path.join(room, it))]
    try:
        for it in brought:
            shutil.copy(os.path.join(kept, it), room)
        return subprocess.run(['rt', 'must-fail', name], cwd=TOP).returncode == 0
    finally:
        for it in brought:
            os.remove(os.path.join(room, it))
        if made:
            os.rmdir(room)


if __name__ == '__main__':
    if not sys.argv[1:]:
        sys.exit(__doc__)
    # who ends the script by a signal leaves no edit behind
    signal.signal(signal.SIGTERM, lambda number, frame: sys.exit(1))
    sys.exit(0 if all([tried(it) for it in sys.argv[1:]]) else 1)
