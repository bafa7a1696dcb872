#!/bin/sh
# Tries every wrong body of the crates that are named: those of the gate, and those that it has no time for, which stand beside them as
# must-fail/NAME.edit.md (a file whose name ends in .md is only read). The prover must refuse each. It works on a copy of what is committed.
set -eu
if [ $# -eq 0 ]; then
    echo "usage: bench/edits.sh CRATE.." >&2
    exit 2
fi
top=$(cd "$(dirname "$0")/.." && pwd)
room=$(mktemp -d)
trap 'rm -rf "$room"' EXIT
git clone -q "$top" "$room/all"
cd "$room/all"
for crate in "$@"; do
    for edit in "crates/$crate/must-fail"/*.edit.md; do
        [ -f "$edit" ] && mv "$edit" "${edit%.md}"
    done
done
rt must-fail "$@"
