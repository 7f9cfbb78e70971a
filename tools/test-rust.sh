#!/bin/sh
# Tests the Rust crate at scale, beside the gate: cargo's tests and examples, its documentation without the library; then random and damaged streams, more of
# them, their sheets compared with tools/reading.py, a reading of document 01 in Python; calls over streams checked once, over places and batches compared
# with the plain calls, and over any numbers; measures compared with the text calls; more random streams compared with the original; then the tests that call
# the library once under valgrind, where it is installed.
#
#     tools/staticlib.sh && tools/test-rust.sh [CASES]
#
# CASES is how many pairs of random streams are made, 3000 where it is not given. The seed is fixed. The last line is 'test-rust: passed'; else the status
# is not 0.
set -eu
root=$(cd "$(dirname "$0")/.." && pwd)
cases=${1:-3000}
[ -f "${YOKBERD_LIB_DIR:-$root/target/staticlib}/libyokberd.a" ] || { echo "test-rust: the library is not there: run tools/staticlib.sh" >&2; exit 1; }
work=$(mktemp -d)
trap 'rm -rf "$work"' EXIT
cd "$root/rust"

cargo test --offline --quiet
cargo run --offline --quiet --example names >"$work/names"
grep -qx '0x1001 loom::advance(float)' "$work/names"
grep -qx '0x1002 loom::advance(int)' "$work/names"
mkdir "$work/none"
YOKBERD_LIB_DIR="$work/none" cargo doc --offline --no-deps --target-dir "$work/doc" 2>"$work/said"
grep -q 'nothing can be linked' "$work/said"
echo "test-rust: cargo's tests and the example; the documentation without the library"

YOKBERD_CASES="$cases" YOKBERD_WRITE="$work/sheets" cargo test --offline --release --quiet --test hostile -- --nocapture >"$work/said" || { cat "$work/said"; exit 1; }
grep 'pairs of streams' "$work/said"
YOKBERD_CASES="$cases" cargo test --offline --release --quiet --test threads --test checked --test batches --test places --test measures
echo "test-rust: threads; streams checked once, places and batches as the plain calls have them, and any numbers in place of what was noted; measures"
find "$work/sheets" -mindepth 1 -maxdepth 1 -type d -print0 | xargs -0 -n 500 python3 "$root/tools/reading.py" sheets
echo "test-rust: $(ls "$work/sheets" | wc -l) sheets as tools/reading.py has them"

YOKBERD_CASES="$cases" cargo test --offline --release --quiet --test original -- --nocapture >"$work/said" || { cat "$work/said"; exit 1; }
grep 'Agreed' "$work/said"
echo "test-rust: texts, sizes and errors as the original has them"

if command -v valgrind >/dev/null; then
    YOKBERD_CASES=30 CARGO_TARGET_X86_64_UNKNOWN_LINUX_GNU_RUNNER="valgrind -q --error-exitcode=1" cargo test --offline --quiet \
        --test expected --test hostile --test threads --test checked --test batches --test places --test measures --test container
    echo "test-rust: the tests under valgrind, with no error"
fi
echo "test-rust: passed"
