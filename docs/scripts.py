#!/usr/bin/env python3
"""Makes the scripts of several vats in rows from what a reader reads.

Run it at the top of the repository. Of each NAME.vats it writes the script NAME.json. NAME.vats has, in this order, some
lines on what the script shows; for each vat a line `=== vat NAME`, with `knows` and the names of those that it knows where
it knows some, and its source; and `=== schedule` with an entry in each line. With `--check` it writes nothing, and fails
where a script is not the one that its text makes. It writes what `evat_make script` writes, for a tree in which nothing was built yet.
"""
import json
import pathlib
import sys

DATA = pathlib.Path("rows")
KEY = "0" * 64


def vat_of(head: str, source: str) -> dict:
    name, _, known = head.removeprefix("vat ").partition(" knows ")
    return {"name": name, "knows": known.split(), "source": source.strip("\n") + "\n"}


def script_of(text: str) -> str:
    _, *parts = text.split("=== ")
    vats, schedule = [], []
    for part in parts:
        head, _, body = part.partition("\n")
        if head == "schedule":
            schedule = body.split("\n")
        else:
            vats.append(vat_of(head, body))
    entries = [entry for entry in schedule if entry and not entry.startswith("#")]
    script = {"key": KEY, "vats": vats, "schedule": entries}
    return json.dumps(script, separators=(",", ":"), sort_keys=True, ensure_ascii=False)


def main() -> None:
    stale = []
    for path in sorted(DATA.glob("*.vats")):
        script = path.with_suffix(".json")
        made = script_of(path.read_text())
        if "--check" not in sys.argv:
            script.write_text(made)
        elif not script.exists() or script.read_text() != made:
            stale.append(script.name)
    if stale:
        sys.exit("not made from their texts: " + ", ".join(stale))


if __name__ == "__main__":
    main()
