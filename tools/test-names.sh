#!/bin/sh
# Runs the program `names` itself, beside the gate: on each case of crates/test_sheets, in a folder of its own with the case's types.bin, ids.bin and sheet.bin, one
# of them without ids.bin, and compares what it prints with the lines that `test_sheets` is held to.
#
#     (cd crates/names && rt run) && tools/test-names.sh
#
# The last line is 'test-names: passed'; else the status is not 0.
set -eu
root=$(cd "$(dirname "$0")/.." && pwd)
names=$root/crates/names/out/names
[ -x "$names" ] || { echo "test-names: $names is not there: run rt run in crates/names" >&2; exit 1; }
work=$(mktemp -d)
trap 'rm -rf "$work"' EXIT
cd "$work"

while read -r case; do
    mkdir "$case"
    for part in types ids sheet; do
        given=$root/crates/test_sheets/data/$case-$part.bin
        [ ! -f "$given" ] || cp "$given" "$case/$part.bin"
    done
    (cd "$case" && "$names") >>printed 2>>said
done <"$root/crates/test_sheets/args"
cmp printed "$root/crates/test_sheets/stdout"
# the one file that is not there is named
[ "$(wc -l <said)" -eq 1 ] && grep -q 'ids\.bin' said
echo "test-names: $(wc -l <"$root/crates/test_sheets/args") sheets as expected, one of them without ids.bin"
echo "test-names: passed"
