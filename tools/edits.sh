#!/bin/sh
# Tries the edits in edits/, which the gate leaves out to spare its time. Each must be refused, as those in the crates' must-fail/ are.
#
#     tools/edits.sh [CRATE...]
#
# Works on a copy. Ends with a non-zero status where an edit is not refused, or is bad.
set -e
root=$(cd "$(dirname "$0")/.." && pwd)
work=$(mktemp -d)
trap 'rm -rf "$work"' EXIT
(cd "$root" && tar cf - --exclude=out crates crates.txt) | (cd "$work" && tar xf -)
rm -rf "$work"/crates/*/must-fail
cd "$root/edits"
if [ $# -eq 0 ]; then set -- *; fi
for crate in "$@"; do
    mkdir -p "$work/crates/$crate/must-fail"
    cp "$crate"/*.edit "$work/crates/$crate/must-fail"
done
cd "$work"
rt must-fail "$@"
