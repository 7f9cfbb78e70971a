#!/bin/sh
# Compiles c/example.c against c/yokberd.h and the library, runs it on a shipped pair of streams, and compares what it prints: the ids with the lines of
# crates/test_vectors/stdout, which a reading of document 01 in Python made, the rest with lines worked out by hand; and once more with no ids. Then c/pdb.c,
# which names the ids of a .pdb file in batches, on the same pair inside such a file, which tools/msf.py makes, and on files without ids. Then c/checked.c on
# all shipped pairs and damaged copies: calls over streams checked once against the plain ones, and over any numbers; and c/places.c on the same, longer
# ones too: places filled, and calls over right, longer, short and wrong places. Then c/measure.c on document 01's small stream, against lines worked out by
# hand, and on all shipped pairs: measures against the text calls. All once more under a sanitizer, and, where it is installed, under valgrind; and c/pdb.c
# once more as yokberd.pc says that it is built.
#
#     tools/staticlib.sh && tools/test-c.sh
#
# The last line is 'test-c: passed'; else the status is not 0.
set -eu
root=$(cd "$(dirname "$0")/.." && pwd)
cd "$root"
archive=${YOKBERD_LIB_DIR:-target/staticlib}/libyokberd.a
[ -f "$archive" ] || { echo "test-c: $archive is not there: run tools/staticlib.sh" >&2; exit 1; }
work=$(mktemp -d)
trap 'rm -rf "$work"' EXIT
cc=${CC:-cc}
pair=crates/test_vectors/data/overloads
pairs=$(for types in crates/test_vectors/data/*-types.bin; do echo "$types" "${types%-types.bin}-ids.bin"; done; echo "$pair-types.bin" "$work/none")

# the section of `overloads` with the example's flags, 0x1e
awk '/^== /{on = $2 == "overloads"; ids = 0; next} !/^0x/{ids = on && $0 == "ids flags 0x1e"; next} ids && $2 == 0 {sub(/ 0 0x0 /, " "); print}' \
    crates/test_vectors/stdout >"$work/ids"
# c/pdb.c has room for texts of 200 bytes
LC_ALL=C awk '{at = index($0, " "); print length($0) - at <= 200 ? $0 : substr($0, 1, at) "refused: the text is longer than its buffer, detail 0x0"}' \
    "$work/ids" >"$work/expected-pdb"
PYTHONDONTWRITEBYTECODE=1 python3 tools/msf.py make "$work/overloads.pdb" 512 - - "$pair-types.bin" - "$pair-ids.bin"
cp "$work/ids" "$work/expected"
cat >>"$work/expected" <<'END'
function 0x1001 void advance(float)
type 0x640 float*, 8 bytes
1 0 0x0 void loom::advance(float)
2 0 0x0 4
3 0 0x0 int*
4 16 0xff
END

# over no ids, by document 02, Note 1
: >"$work/none"
cat >"$work/expected-none" <<'END'
0x1001 <missing type 0x1001>
function 0x1001 void advance(float)
type 0x640 float*, 8 bytes
1 0 0x0 <missing type 0x1001>
2 0 0x0 4
3 0 0x0 int*
4 16 0xff
END
for ids in - "$work/none"; do
    PYTHONDONTWRITEBYTECODE=1 python3 tools/msf.py make "$work/no-ids-$(basename "$ids").pdb" 512 - - "$pair-types.bin" - "$ids"
done

# document 01's small stream with one id. The texts are by its rules (crates/names/data/README.md has its cases; `const ` leads where a modifier is written by
# itself), their lengths are counted. What is opened, by document 02, Note 4: 0x1000 itself and 0x74; 0x1001 itself, void, 0x1000, 0x74; 0x1002 itself and
# those of 0x1001; 0x1003 itself and char; 0x1004 itself and those of 0x1003; 0x1005, 0x1006, 0x1007 themselves, for an array's elements are not opened; 0x1009
# itself and its target, which is opened before it is found missing. 0x100a and id 0x1001 are missing and written by themselves: a mark replaces them. The id
# and the function open 0x1001, void, 0x1000, 0x74, with NO_ARGUMENTS 0x1001 and void. Function type 0 is not opened.
small=crates/names/data
cat >"$work/expected-measure" <<'END'
type 0x1000, flags 0x0: 3 bytes, 2 opened: int
type 0x1001, flags 0x0: 11 bytes, 4 opened: void ()(int
type 0x1002, flags 0x0: 13 bytes, 5 opened: void (*)(int)
type 0x1003, flags 0x0: 10 bytes, 2 opened: const char
type 0x1004, flags 0x0: 17 bytes, 3 opened: char const* const
type 0x1005, flags 0x0: 8 bytes, 1 opened: struct A
type 0x1006, flags 0x0: 11 bytes, 1 opened: struct A[3]
type 0x1007, flags 0x0: 14 bytes, 1 opened: struct A[5][3]
type 0x1008, flags 0x0: 0 bytes, 0 opened: refused, a type is circular, detail 0x1008
type 0x1009, flags 0x0: 21 bytes, 2 opened: <missing type 0x2000>
type 0x100a, flags 0x0: 21 bytes, 0 opened: <missing type 0x100a>
id 0x1000, flags 0x0: 14 bytes, 4 opened: void step(int)
id 0x1001, flags 0x0: 21 bytes, 0 opened: <missing type 0x1001>
function 0x1001, flags 0x0: 14 bytes, 4 opened: void step(int)
function 0x1001, flags 0x20: 9 bytes, 2 opened: void step
function 0x0, flags 0x0: 4 bytes, 0 opened: step
191 bytes in all
END

compare() {
    "$@" "$pair-types.bin" "$pair-ids.bin" >"$work/printed"
    cmp "$work/printed" "$work/expected"
    "$@" "$pair-types.bin" "$work/none" >"$work/printed"
    cmp "$work/printed" "$work/expected-none"
}

compare_pdb() {
    "$@" "$work/overloads.pdb" >"$work/printed"
    cmp "$work/printed" "$work/expected-pdb"
    for file in "$work"/no-ids-*.pdb; do
        "$@" "$file" >"$work/printed"
        cmp "$work/printed" "$work/none"
    done
}

# on the shipped pairs the program itself compares the measures with the text calls
compare_measure() {
    "$@" "$small/types.bin" "$small/ids.bin" >"$work/printed"
    cmp "$work/printed" "$work/expected-measure"
    for types in crates/test_vectors/data/*-types.bin; do
        "$@" "$types" "${types%-types.bin}-ids.bin" >/dev/null
        "$@" "$types" "$work/none" >/dev/null
    done
}

# the header's numbers are those of the library
sed -n '/pub fn number/,/pub fn detail/s/^ *Refusal::\([A-Za-z]*\).* => \([0-9]*\),$/\1 \2/p' crates/streams/src/refusal.rt |
    sed 's/\([a-z]\)\([A-Z]\)/\1_\2/g' | tr '[:lower:]' '[:upper:]' >"$work/numbers"
sed -n '/^enum yokberd_number/,/^}/s/^ *YOKBERD_\([A-Z_]*\) = \([1-9][0-9]*\).*/\1 \2/p' c/yokberd.h >"$work/named"
[ "$(wc -l <"$work/numbers")" -eq 17 ]
cmp "$work/numbers" "$work/named"
cat crates/msf/src/*.rt | sed -n '/pub fn number/,/pub fn place/s/^ *Damage::\([A-Za-z]*\).* => \([0-9]*\),$/\1 \2/p' |
    sed 's/\([a-z]\)\([A-Z]\)/\1_\2/g' | tr '[:lower:]' '[:upper:]' >"$work/numbers"
sed -n 's/^ *YOKBERD_CONTAINER_\([A-Z_]*\) = \([1-9][0-9]*\).*/\1 \2/p' c/yokberd.h >"$work/named"
[ "$(wc -l <"$work/numbers")" -eq 12 ]
cmp "$work/numbers" "$work/named"
sed -n 's/^ *pub const \([A-Z_]*\): TypeFormatterFlags = TypeFormatterFlags(0b\([01_]*\));$/\1 \2/p' crates/context/src/flags.rt |
    awk '{gsub("_", "", $2); n = 0; for (i = 1; i <= length($2); i++) n = 2 * n + substr($2, i, 1); printf "%s 0x%02x\n", $1, n}' >"$work/flags"
sed -n 's/^#define YOKBERD_\([A-Z_]*\) \(0x[0-9a-f]*\)u.*/\1 \2/p' c/yokberd.h >"$work/named"
[ "$(wc -l <"$work/flags")" -eq 6 ]
cmp "$work/flags" "$work/named"
sed -n 's/^version = "\(.*\)"$/#define YOKBERD_VERSION "\1"/p' rust/Cargo.toml >"$work/version"
grep -qxFf "$work/version" c/yokberd.h
sed -n 's/^#define YOKBERD_VERSION_[A-Z]* //p' c/yokberd.h | paste -sd. | sed 's/.*/#define YOKBERD_VERSION "&"/' | cmp - "$work/version"
sed -n 's/^[a-z0-9_]* \(yokberd_[a-z_]*\)(.*/\1/p' c/yokberd.h | sort >"$work/declared"
nm -g --defined-only "$archive" | awk '$3 ~ /^yokberd_/ {print $3}' | sort | cmp - "$work/declared"
[ "$(wc -l <"$work/declared")" -eq 30 ]
echo "test-c: the header declares the library's 30 functions and names its 17 refusals, 12 cases of the container and 6 flags, and the version of the Rust crate"

"$cc" -std=c99 -Wall -Wextra -Wpedantic -Werror -O2 -Ic -o "$work/example" c/example.c "$archive"
compare "$work/example"
echo "test-c: $(wc -l <"$work/expected") lines as expected"
"$cc" -std=c99 -Wall -Wextra -Wpedantic -Werror -O2 -Ic -o "$work/pdb" c/pdb.c "$archive"
compare_pdb "$work/pdb"
echo "test-c: $(wc -l <"$work/expected-pdb") names of a .pdb file as expected"
described=$(dirname "$archive")/yokberd.pc
if [ -f "$described" ]; then
    if command -v pkg-config >/dev/null; then
        found=$(PKG_CONFIG_PATH=$(dirname "$described") pkg-config --cflags --libs yokberd)
    else
        # as pkg-config has it: the file's variables are written as a shell's
        pcfiledir=$(dirname "$described")
        eval "$(sed -n '/^[a-z]*=/p' "$described")"
        found=$(eval "echo $(sed -n 's/^Cflags: //p; s/^Libs: //p' "$described" | tr '\n' ' ')")
    fi
    # shellcheck disable=SC2086
    "$cc" -std=c99 -o "$work/found" c/pdb.c $found
    compare_pdb "$work/found"
    echo "test-c: the same by yokberd.pc, $(sed -n 's/^Version: /version /p' "$described")"
else
    echo "test-c: no yokberd.pc beside the library: not tried"
fi
if command -v c++ >/dev/null; then
    c++ -Wall -Wextra -Wpedantic -Werror -fsyntax-only -x c++ c/yokberd.h
    echo "test-c: the header is C++ too"
fi
# shellcheck disable=SC2086
{
    "$cc" -std=c99 -Wall -Wextra -Wpedantic -Werror -O2 -Ic -o "$work/checked" c/checked.c "$archive"
    "$work/checked" $pairs >"$work/said"
    echo "test-c: streams checked once: $(cat "$work/said")"
    "$cc" -std=c99 -Wall -Wextra -Wpedantic -Werror -O2 -Ic -o "$work/places" c/places.c "$archive"
    "$work/places" $pairs >"$work/said"
    echo "test-c: places: $(cat "$work/said")"
    "$cc" -std=c99 -Wall -Wextra -Wpedantic -Werror -O2 -Ic -o "$work/measure" c/measure.c "$archive"
    compare_measure "$work/measure"
    echo "test-c: $(wc -l <"$work/expected-measure") lines of measures as expected; those of the shipped pairs as the text calls have them"
    sanitized="$cc -std=c99 -g -fsanitize=address,undefined -fno-sanitize-recover=all -Ic"
    $sanitized -o "$work/sanitized" c/example.c "$archive"
    compare "$work/sanitized"
    $sanitized -o "$work/pdb-sanitized" c/pdb.c "$archive"
    compare_pdb "$work/pdb-sanitized"
    $sanitized -o "$work/checked-sanitized" c/checked.c "$archive"
    "$work/checked-sanitized" $pairs >/dev/null
    $sanitized -o "$work/places-sanitized" c/places.c "$archive"
    "$work/places-sanitized" $pairs >/dev/null
    $sanitized -o "$work/measure-sanitized" c/measure.c "$archive"
    compare_measure "$work/measure-sanitized"
    echo "test-c: the same with the address and undefined behaviour sanitizers"
    if command -v valgrind >/dev/null; then
        compare valgrind -q --error-exitcode=1 --leak-check=full "$work/example"
        compare_pdb valgrind -q --error-exitcode=1 --leak-check=full "$work/pdb"
        valgrind -q --error-exitcode=1 --leak-check=full "$work/checked" $pairs >/dev/null
        valgrind -q --error-exitcode=1 --leak-check=full "$work/places" $pairs >/dev/null
        compare_measure valgrind -q --error-exitcode=1 --leak-check=full "$work/measure"
        echo "test-c: the same under valgrind"
    fi
}
echo "test-c: passed"
