#!/bin/sh
# Prints the time of the calls side by side with the original's, that of calls over kept places beside the plain ones, that of measures beside the calls
# that write the text, and their stack, as Markdown tables, with the machine that they were taken on: rust/benches/calls. Some minutes.
#
#     tools/staticlib.sh && tools/bench.sh [BYTES]
#
# BYTES is the most that a generated stream has, the limit of a stream where it is not given; with 0 there are the shipped streams only, in seconds.
# docs/BENCHMARKS.md has the figures of one run.
set -eu
root=$(cd "$(dirname "$0")/.." && pwd)
[ -f "${YOKBERD_LIB_DIR:-$root/target/staticlib}/libyokberd.a" ] || { echo "bench: the library is not there: run tools/staticlib.sh" >&2; exit 1; }
cd "$root/rust"
cargo bench --offline --quiet --bench calls --no-run
echo "$(sed -n 's/^model name[^:]*: //p' /proc/cpuinfo | head -n 1), $(nproc) processors, $(uname -sm), $(rustc --version | cut -d' ' -f1,2)"
cargo bench --offline --quiet --bench calls -- "$@"
echo
echo "bench: done"
