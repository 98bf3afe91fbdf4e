#!/bin/sh
# Makes the change of wrong/NAME.patch on a copy of what is committed, and checks there the law that the patch names.
# It ends with 0 where that law is refused. It proves again each crate below the law that the change touches: that takes minutes.
# A kit whose `rt ci` takes names is asked so; else `rt check` in the crate of the law, which proves what lies below it first.
set -eu
here=$(cd "$(dirname "$0")/.." && pwd)
patch="$here/wrong/$1.patch"
law=$(sed -n 's/^refused by: //p' "$patch")
crate=${law%%::*}
copy=$(mktemp -d)
trap 'rm -rf "$copy"' EXIT
git clone -q "$here" "$copy/tree"
git -C "$copy/tree" apply "$patch"
cd "$copy/tree"
if rt --help 2>&1 | grep -Eq '^ *rt ci +\[?NAME'; then
    rt ci "$crate" > "$copy/log" 2>&1 || true
else
    (cd "crates/$crate" && rt check) > "$copy/log" 2>&1 || true
fi
if grep -Eq "^fn $law: (not proved|no proof)" "$copy/log"; then
    echo "$1: refused by $law"
else
    tail -n 20 "$copy/log"
    echo "$1: not refused by $law"
    exit 1
fi
