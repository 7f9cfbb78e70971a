#!/bin/sh
# Tests the command line and the reading of .pdb files, beside the gate. Makes real files with clang and lld-link: a small program, the same for 32 bits and
# with another block size, one without debug information, and a large one. Then tools/test_pdb.py: every stream as llvm-pdbutil exports it; copies that are
# damaged at every field of the superblock and the directory, and cut ones, as tools/msf.py answers them; the same under a sanitizer; names, types and sizes of
# the command line as tools/reading.py has them; its messages and statuses; a closed pipe; progress; the uses that --help and docs/FROM-A-PDB.md show.
#
#     tools/staticlib.sh && tools/test-pdb.sh
#
# The last line is 'test-pdb: passed'; else the status is not 0.
set -eu
root=$(cd "$(dirname "$0")/.." && pwd)
archive=${YOKBERD_LIB_DIR:-$root/target/staticlib}/libyokberd.a
[ -f "$archive" ] || { echo "test-pdb: $archive is not there: run tools/staticlib.sh" >&2; exit 1; }
for tool in clang lld-link llvm-pdbutil cargo python3; do
    command -v "$tool" >/dev/null || { echo "test-pdb: $tool is not there" >&2; exit 1; }
done
work=$(mktemp -d)
trap 'rm -rf "$work"' EXIT
export PYTHONDONTWRITEBYTECODE=1

(cd "$root/rust" && cargo build --offline --quiet --release --bin yokberd)
PATH=$root/rust/target/release:$PATH
compile="${CC:-cc} -std=c99 -Wall -Wextra -Wpedantic -Werror -I$root/c"
$compile -O2 -o "$work/plain" "$root/c/streams.c" "$archive"
$compile -g -fsanitize=address,undefined -fno-sanitize-recover=all -o "$work/sanitized" "$root/c/streams.c" "$archive"

cd "$work"
python3 "$root/tools/test_pdb.py" reel >reel.cpp
python3 "$root/tools/test_pdb.py" program 3000 >large.cpp
echo 'int start() { return 0; }' >bare.cpp
printf '0x1004\n0x1009\n0x1004\n' >sampled-ids.txt
link="lld-link /debug /nodefaultlib /entry:start /subsystem:console"
windows=pc-windows-msvc
clang --target=x86_64-$windows -g -gcodeview -c reel.cpp
clang --target=x86_64-$windows -g -gcodeview -c large.cpp
clang --target=i686-$windows -g -gcodeview -c reel.cpp -o reel32.o
clang --target=x86_64-$windows -c bare.cpp
for name in reel large bare; do
    $link $name.o
done
$link /safeseh:no reel32.o
$link /pdbpagesize:16384 /pdb:pages.pdb /out:pages.exe reel.o
echo "test-pdb: five real files, of $(wc -c <bare.pdb) to $(wc -c <large.pdb) bytes"

python3 "$root/tools/test_pdb.py" test "$work" "$root/rust/target/release/yokberd" "$work/plain" "$work/sanitized"
echo "test-pdb: passed"
