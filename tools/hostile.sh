#!/bin/sh
# Times what is made to take long, beside the gate: the program `names` on streams and sheets within its limits (tools/hostile.py), then single calls of the
# library on streams of growing length (rust/benches/hostile). Prints Markdown tables. Some minutes.
#
#     (cd crates/names && rt run) && tools/staticlib.sh && tools/hostile.sh
#
# docs/BENCHMARKS.md has the figures of one run, and says what bounds a call's time.
set -eu
root=$(cd "$(dirname "$0")/.." && pwd)
[ -x "$root/crates/names/out/names" ] || { echo "hostile: the program is not there: run rt run in crates/names" >&2; exit 1; }
[ -f "${YOKBERD_LIB_DIR:-$root/target/staticlib}/libyokberd.a" ] || { echo "hostile: the library is not there: run tools/staticlib.sh" >&2; exit 1; }
echo "## \`names\`, within its limits"
echo
python3 "$root/tools/hostile.py" "$root/crates/names/out/names"
cd "$root/rust"
cargo bench --offline --quiet --bench hostile
echo
echo "hostile: done"
