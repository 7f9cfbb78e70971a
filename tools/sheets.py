#!/usr/bin/env python3
"""Makes the data files of the programs `names`, `test_sheets`, `test_places` and `test_measures`.

    sheets.py names CRATE            writes data/types.bin, ids.bin, sheet.bin and stdout of `names` into its folder CRATE, and prints the table of its README
    sheets.py sheets CRATE DIR...    copies the three files of each DIR into CRATE/data, and writes args and, from each DIR/expected.txt (or,
                                     where Note NN changed it, DIR/expected-after-NN.txt), stdout; a case of a folder noteNN has that before its name.
                                     Then follows the sheet of `names` over no ids, once with a file of no bytes and once with none
    sheets.py places CRATE DIR...    the same for `test_places`: copies the four files of each DIR, writes the lengths that DIR/pass.txt has lines for, args,
                                     and stdout from DIR/expected.txt and DIR/pass.txt. Then follow the cases that stand here
    sheets.py measures CRATE DIR...  the same for `test_measures`: copies the three files of each DIR, and its places.bin where there is one behind the number
                                     of its entries, and writes args and, from DIR/expected.txt, stdout. Then follow the cases that stand here

The lines of `names` stand here beside their commands and were worked out by hand from document 01, those over no ids from document 02, Note 1, and those of
PLACES from Note 3 and of MEASURES from Note 4. The script also asks tools/reading.py, a reading of the documents in Python, for each whole sheet and stops
where that answers otherwise."""
import os
import sys

sys.dont_write_bytecode = True
import reading
from streams import (BUILD, MALFORMED, SMALL, UNLISTED, arguments, array, class_, function, member, method, modifier, pointer, procedure, rec, stream, string,
                     strings, u8, u32)

IDS = {0x1000: function(0, 0x1001, "step")}


def put(data, *path):
    with open(os.path.join(*path), "wb") as f:
        f.write(data)


def flags(n):
    return u8(0x01) + u32(n)


def pointer_size(n):
    return u8(0x02) + u8(n)


def type_(index):
    return u8(0x10) + u32(index)


def size(index):
    return u8(0x11) + u32(index)


def id_(index):
    return u8(0x12) + u32(index)


def named(name, index):
    return u8(0x13) + u32(index) + name.ljust(16, b"\0")


# Commands, the line that they end in, and where it comes from. Settings stand before the call whose line is beside them.
LINES = [
    ([type_(0x1007)], "1 0 0x0 struct A[5][3]", "case 4; the printed example"),
    ([size(0x1007)], "2 0 0x0 60", "case 4; the printed example"),
    ([type_(0x1008)], "3 12 0x1008", "case 6; the printed example"),
    ([type_(0x1002)], "4 0 0x0 void (*)(int)", "case 1, in a buffer of 4,096 bytes"),
    ([type_(0x1004)], "5 0 0x0 char const* const", "case 2"),
    ([flags(8), type_(0x1004)], "6 0 0x0 char const * const", "case 3"),
    ([size(0x1007)], "7 0 0x0 60", "case 4"),
    ([type_(0x1004)], "8 0 0x0 char const * const", "case 3: the flags carry over"),
    ([flags(0), type_(0x1001)], "9 0 0x0 void ()(int", "case 5"),
    ([type_(0x1004)], "10 0 0x0 char const* const", "case 2: flags 0 again"),
    ([type_(0x1009)], "11 0 0x0 <missing type 0x2000>", "case 7"),
    ([named(b"step", 0x1001)], "12 0 0x0 void step(int)", "case 8"),
    ([flags(0x20), named(b"step", 0x1001)], "13 0 0x0 void step", "case 8"),
    ([flags(0), named(b"step", 0x2000)], "14 8 0x2000", "case 9"),
    ([named(b"", 0)], "15 0 0x0 <name omitted>", "case 10"),
    ([named(b"", 0x74)], "16 0 0x0 ", "case 10: an empty text leaves the space before it"),
    ([named(b"sixteen_letters_", 0x1001)], "17 0 0x0 void sixteen_letters_(int)", "as case 8; the name ends by the width"),
    ([named(b"step\0behind", 0x1001)], "18 0 0x0 void step(int)", "case 8; what is behind the zero is not looked at"),
    ([flags(0x40), type_(0x1007)], "19 1 0x40", "refusal 1"),
    ([size(0x1007)], "20 0 0x0 60", "case 4: a size takes no flags"),
    ([flags(0), pointer_size(5), size(0x1007)], "21 2 0x5", "refusal 2"),
    ([type_(0x1007)], "22 2 0x5", "refusal 2: the pointer size carries over"),
    ([pointer_size(4), size(0x674)], "23 0 0x0 4", "a pointer below 0x1000 has the pointer size"),
    ([pointer_size(8), id_(0x1000)], "24 0 0x0 void step(int)", "as case 8, by a function id"),
    ([flags(1), id_(0x1000)], "25 0 0x0 step(int)", "the same, NO_FUNCTION_RETURN"),
    ([id_(0x1001)], "26 0 0x0 <missing type 0x1001>", "as case 7, by an id that is not there"),
    ([u8(0x14)], "27 16 0x14", "an unknown command ends the run"),
    ([type_(0x1007)], None, "not looked at"),
]

COMMANDS = b"".join(b"".join(group) for group, _, _ in LINES)

# "Each index that 6 does not refuse is missing and is written so": the lines of the commands 0x12 where there are no ids. The others stay.
WITHOUT_IDS = {24: "24 0 0x0 <missing type 0x1000>", 25: "25 0 0x0 <missing type 0x1000>", 26: "26 0 0x0 <missing type 0x1001>"}


def agreed(lines, read):
    """Lines by hand, which must be those of the reading in Python."""
    lines = b"".join(line.encode() + b"\n" for line in lines)
    if read != lines:
        pairs = zip(lines.split(b"\n"), read.split(b"\n"))
        sys.exit("by hand %r, by reading.py %r" % next((p for p in pairs if p[0] != p[1]), (lines, read)))
    return lines


def by_hand(types, ids, changed):
    """The lines of the sheet, with those that changed."""
    told = [line for _, line, _ in LINES if line is not None]
    return agreed([changed.get(number, line) for number, line in enumerate(told, 1)], reading.sheet(types, ids, COMMANDS))


def names(crate):
    types, ids = stream(SMALL), stream(IDS)
    commands, lines = COMMANDS, by_hand(types, ids, {})
    for name, data in (("types.bin", types), ("ids.bin", ids), ("sheet.bin", commands)):
        put(data, crate, "data", name)
    put(lines, crate, "stdout")
    print("| Command bytes | Line | From |\n|---|---|---|")
    for group, line, source in LINES:
        shown = ", ".join("`%s`" % command.hex(" ") for command in group)
        print(f"| {shown} | {'none' if line is None else f'`{line}`'} | {source} |")


def case_name(folder):
    *_, note, name = os.path.abspath(folder).split("/")
    return f"{note}-{name}" if note.startswith("note") else name


def sheets(crate, folders):
    args, lines = [], []
    for folder in folders:
        name = case_name(folder)
        for part in ("types", "ids", "sheet"):
            put(reading.load(folder, part + ".bin"), crate, "data", f"{name}-{part}.bin")
        args.append(name.encode() + b"\n")
        lines.append(reading.expected(folder))
    for name, files in (("no-ids-bytes", ("types", "ids", "sheet")), ("no-ids-file", ("types", "sheet"))):
        given = {"types": stream(SMALL), "ids": b"", "sheet": COMMANDS}
        for part in files:
            put(given[part], crate, "data", f"{name}-{part}.bin")
        args.append(name.encode() + b"\n")
        lines.append(by_hand(given["types"], given["ids"], WITHOUT_IDS))
    put(b"".join(args), crate, "args")
    put(b"".join(lines), crate, "stdout")


# Places. A record that can be told by its text and its size, and so many of them.

def counted(count, first=0x1000):
    """Record n is an array of n chars, `char[n]`. It has 15 bytes, so that from one place to the next there are 64 * 15 = 960."""
    return stream({first + n: array(0x70, n) for n in range(count)}, first)


def patched(data, at, value):
    """A stream with another u32 in its header: at 4 the header size, at 12 the end index."""
    return data[:at] + u32(value) + data[at + 4:]


def forward(name, size):
    return class_(name, size, forward=True)


def in_order(*groups):
    """A stream of these records, each so many times."""
    records = [record for count, record in groups for _ in range(count)]
    return stream({0x1000 + n: record for n, record in enumerate(records)})


INT_POINTER = pointer(0x74)                        # 12 bytes; a class with a name of one letter has 24
FORWARD_LAST = in_order((63, INT_POINTER), (1, forward("T", 5)))

# Full records before and behind forward references, over three places: 56, 56 + 24 + 61 * 12 + 48 = 860 and 860 + 48 + 61 * 12 + 24 = 1664.
BORDERS = in_order(
    (1, class_("A", 1)), (1, arguments(0x103f)), (60, INT_POINTER), (1, class_("T", 7)), (1, forward("T", 2)),     # records 0, 1, 2 to 61, 62, 63
    (1, class_("T", 40)), (1, forward("U", 3)), (61, INT_POINTER), (1, forward("V", 4)),                           # records 64, 65, 66 to 126, 127
    (1, class_("V", 9)), (1, class_("U", 50)), (1, procedure(3, 0x1001)), (1, array(0x103f, 80)))                  # records 128 to 131

# 80 modifiers of 10 bytes, each of the next and the last of int: the second place is 56 + 640 = 696.
STEPS = stream({**{0x1000 + n: modifier(0x1001 + n, 0) for n in range(79)}, 0x104f: modifier(0x74, 0)})

FOUR_CALLS = (type_(0x1000), size(0x1000), id_(0x1000), named(b"f", 0x1000))


def refused(number, detail):
    """The same refusal of all four calls."""
    return [([call], f"{running} {number} {detail}") for running, call in enumerate(FOUR_CALLS, 1)]


# Cases: name, types, ids, lent places, commands with their lines and what these are for, and the lines of the pass.
PLACES = [
    ("places-of-129", counted(129), b"", [56, 1016, 1976], [
        ([type_(0x1000)], "1 0 0x0 char[0]", "entry 0, no record passed over"),
        ([type_(0x103f)], "2 0 0x0 char[63]", "entry 0, 63 records passed over"),
        ([type_(0x1040)], "3 0 0x0 char[64]", "entry 1, no record passed over"),
        ([type_(0x107f)], "4 0 0x0 char[127]", "entry 1, 63 records passed over"),
        ([type_(0x1080)], "5 0 0x0 char[128]", "entry 2"),
        ([size(0x1080)], "6 0 0x0 128"),
        ([type_(0x1081)], "7 0 0x0 <missing type 0x1081>", "behind the last record"),
        ([size(0x1081)], "8 0 0x0 0"),
        ([type_(0x80000000)], "9 6 0x80000000"),
        ([named(b"f", 0x1080)], "10 0 0x0 f", "the type of a function that is no function type"),
        ([named(b"f", 0x1081)], "11 8 0x1081"),
        ([id_(0x1000)], "12 0 0x0 <missing type 0x1000>", "no ids"),
        ([flags(0x200), type_(0x1000)], "13 1 0x200"),
        ([flags(0), pointer_size(5), type_(0x1000)], "14 2 0x5"),
    ], ["0 17 0x0 zeros", "1 17 0x1 zeros", "2 17 0x2 zeros", "3 0 0x0 56 1016 1976", "4 0 0x0 56 1016 1976", "40 0 0x0 56 1016 1976"]),

    ("wrong-before-lacking", counted(129), b"", [56, 1017], [
        *refused(17, "0x1"),                       # entry 1 is wrong, entry 2 lacking: the first of them
        ([type_(0x2000)], "5 17 0x1", "before the mark of a missing type"),
        ([type_(0x80000000)], "6 17 0x1", "before 6"),
        ([named(b"f", 0)], "7 17 0x1", "no record is looked up"),
        ([size(0x74)], "8 17 0x1", "no record is looked up"),
        ([flags(0x200), type_(0x1000)], "9 1 0x200", "1 before 17"),
        ([id_(0x1000)], "10 1 0x200"),
        ([named(b"f", 0)], "11 1 0x200"),
        ([size(0x1000)], "12 17 0x1", "a size takes no flags"),
        ([pointer_size(5), type_(0x1000)], "13 1 0x200", "1 before 2"),
        ([flags(0), type_(0x1000)], "14 2 0x5", "2 before 17"),
        ([id_(0x1000)], "15 2 0x5"),
        ([named(b"f", 0)], "16 2 0x5"),
        ([size(0x1000)], "17 2 0x5"),
        ([pointer_size(8), u8(0x14)], "18 16 0x14", "an unknown command ends the run"),
        ([type_(0x1000)], None, "not looked at"),
    ], ["2 17 0x2 zeros"]),
    ("lacking", counted(129), b"", [56, 1016], [
        *refused(17, "0x2"),
        ([u8(0x10) + u32(0x1000)[:3]], "5 16 0x10", "a cut command"),
    ], ["2 17 0x2 zeros"]),
    ("first-lacking", counted(1), b"", [], refused(17, "0x0"), ["0 17 0x0 zeros", "1 0 0x0 56", "2 0 0x0 56"]),
    ("first-wrong", counted(129), b"", [57, 1016, 1976], refused(17, "0x0"), ["3 0 0x0 56 1016 1976"]),

    # all entries that a stream needs are compared: 200 records have four, 56, 1016, 1976 and 2936
    ("unused-wrong", counted(200), b"", [56, 1016, 1976, 2937], [
        ([named(b"f", 0)], "1 17 0x3", "function type 0"),
        ([type_(0x74)], "2 17 0x3", "a primitive"),
        ([type_(0x1000)], "3 17 0x3", "a record of entry 0"),
        ([size(0x1000)], "4 17 0x3"),
        ([id_(0x1000)], "5 17 0x3", "no ids"),
    ], ["3 17 0x3 zeros", "4 0 0x0 56 1016 1976 2936"]),
    ("unused-right", counted(200), b"", [56, 1016, 1976, 2936], [
        ([named(b"f", 0)], "1 0 0x0 f"),
        ([named(b"", 0)], "2 0 0x0 <name omitted>"),
        ([type_(0x74)], "3 0 0x0 int"),
        ([type_(0x10c7)], "4 0 0x0 char[199]", "the last record"),
        ([id_(0x1000)], "5 0 0x0 <missing type 0x1000>", "no ids"),
    ], ["5 0 0x0 56 1016 1976 2936"]),

    # "from the stream's start": not from the first record, and the length field, neither the kind nor the fields
    ("from-the-records", counted(65), b"", [0, 960], refused(17, "0x0"), ["2 0 0x0 56 1016"]),
    ("at-the-kind", counted(65), b"", [58, 1018], refused(17, "0x0"), ["2 0 0x0 56 1016"]),
    ("at-the-fields", counted(65), b"", [60, 1020], refused(17, "0x0"), ["2 0 0x0 56 1016"]),

    # how many entries are needed: one for 64 records, two for 65 to 128
    ("places-of-64", counted(64), b"", [56], [([type_(0x103f)], "1 0 0x0 char[63]"), ([size(0x103f)], "2 0 0x0 63")],
     ["0 17 0x0 zeros", "1 0 0x0 56", "2 0 0x0 56"]),
    ("places-of-65", counted(65), b"", [56], refused(17, "0x1"), ["1 17 0x1 zeros", "2 0 0x0 56 1016"]),
    ("places-of-128", counted(128), b"", [56, 1016], [([type_(0x107f)], "1 0 0x0 char[127]"), ([size(0x107f)], "2 0 0x0 127")],
     ["1 17 0x1 zeros", "2 0 0x0 56 1016", "3 0 0x0 56 1016"]),
    ("more-behind", counted(65), b"", [56, 1016, 0, 0xffffffff, 57], [
        ([type_(0x103f)], "1 0 0x0 char[63]"),
        ([type_(0x1040)], "2 0 0x0 char[64]"),
        ([type_(0x1041)], "3 0 0x0 <missing type 0x1041>"),
    ], ["5 0 0x0 56 1016"]),
    ("from-2000", counted(65, 0x2000), b"", [56, 1016], [
        ([type_(0x203f)], "1 0 0x0 char[63]", "records are counted from the first index"),
        ([type_(0x2040)], "2 0 0x0 char[64]"),
        ([type_(0x1000)], "3 0 0x0 <missing type 0x1000>"),
    ], ["2 0 0x0 56 1016"]),

    # no records: no entry is needed
    ("no-records", stream({}), b"", [], [
        ([type_(0x1000)], "1 0 0x0 <missing type 0x1000>"),
        ([size(0x1000)], "2 0 0x0 0"),
        ([id_(0x1000)], "3 0 0x0 <missing type 0x1000>", "no ids"),
        ([named(b"f", 0)], "4 0 0x0 f"),
    ], ["0 0 0x0", "1 0 0x0", "3 0 0x0"]),
    ("no-records-and-more", stream({}), stream(IDS), [0, 0xffffffff], [
        ([type_(0x74)], "1 0 0x0 int"),
        ([id_(0x1000)], "2 8 0x1001", "a function id whose type is missing"),
    ], ["0 0 0x0", "2 0 0x0"]),

    # ids before places, places before the walk
    ("ids-good", counted(65), stream(IDS), [56, 1017], [
        ([id_(0x1000)], "1 17 0x1"),
        ([id_(0x1001)], "2 17 0x1", "a missing id"),
        ([id_(0x80000000)], "3 17 0x1", "before 6"),
    ], ["2 0 0x0 56 1016"]),
    ("ids-right", counted(65), stream(IDS), [56, 1016], [
        ([id_(0x1000)], "1 10 0x1001", "an array, no procedure"),
        ([id_(0x1001)], "2 0 0x0 <missing type 0x1001>"),
        ([id_(0x80000000)], "3 6 0x80000000"),
    ], ["2 0 0x0 56 1016"]),
    ("ids-header", counted(65), patched(stream(IDS), 4, 55), [56, 1017], [
        ([id_(0x1000)], "1 3 0x1", "3 of the ids before 17"),
        ([id_(0x1001)], "2 3 0x1", "a missing id"),
        ([type_(0x1000)], "3 17 0x1", "the ids are not looked at"),
        ([size(0x1000)], "4 17 0x1"),
        ([named(b"f", 0)], "5 17 0x1"),
        ([pointer_size(5), id_(0x1000)], "6 2 0x5"),
        ([flags(0x200), id_(0x1000)], "7 1 0x200"),
    ], ["1 17 0x1 zeros"]),
    ("ids-tiling", counted(65), patched(stream(IDS), 12, 0x1002), [56, 1017], [
        ([id_(0x1000)], "1 4 0x1", "4 of the ids before 17"),
        ([type_(0x1000)], "2 17 0x1"),
    ], ["1 17 0x1 zeros"]),

    # a size call: 2, 3, 4, 17, 14, in this order; and 3 and 4 of the types before those of the ids
    ("types-header", patched(STEPS, 4, 55), patched(stream(IDS), 12, 0x1002), [56, 697], [
        *refused(3, "0x0"),
        ([pointer_size(5), size(0x1000)], "5 2 0x5", "2 before 3"),
        ([type_(0x1000)], "6 2 0x5"),
    ], ["0 3 0x0 zeros", "1 3 0x0 zeros", "3 3 0x0 zeros"]),
    ("types-tiling", patched(STEPS, 12, 0x1051), patched(stream(IDS), 4, 55), [56, 697], [
        *refused(4, "0x0"),
        ([pointer_size(5), size(0x1000)], "5 2 0x5", "2 before 4"),
    ], ["0 4 0x0 zeros", "1 4 0x0 zeros", "3 4 0x0 zeros"]),
    ("steps-wrong", STEPS, b"", [56, 697], [
        ([size(0x1000)], "1 17 0x1", "17 before 14"),
        ([pointer_size(5), size(0x1000)], "2 2 0x5", "2 before 17"),
    ], ["1 17 0x1 zeros"]),
    ("steps", STEPS, b"", [56, 696], [
        ([size(0x1000)], "1 14 0x1020", "the 33rd record of the chain is record 32"),
        ([size(0x102f)], "2 14 0x104f", "of 33 records, the last is number 79, behind the second place"),
        ([size(0x1030)], "3 0 0x0 4", "32 records, then int"),
        ([type_(0x1000)], "4 0 0x0 int", "81 open indexes"),
    ], ["2 0 0x0 56 696"]),

    # look-ups and forward scans over the borders between places
    ("borders", BORDERS, stream({0x1000: function(0, 0x1082, "step")}), [56, 860, 1664], [
        ([size(0x103e)], "1 0 0x0 7", "a full T before the forward reference"),
        ([size(0x103f)], "2 0 0x0 40", "record 63; the first full T behind it is record 64, at the next place"),
        ([size(0x1040)], "3 0 0x0 40"),
        ([size(0x1041)], "4 0 0x0 50", "record 65; its full record is 129, behind the third place"),
        ([size(0x107f)], "5 0 0x0 9", "record 127; its full record is 128"),
        ([type_(0x103f)], "6 0 0x0 struct T"),
        ([type_(0x1001)], "7 0 0x0 struct T", "a list with one entry"),
        ([type_(0x103d)], "8 0 0x0 int*"),
        ([type_(0x1080)], "9 0 0x0 struct V"),
        ([type_(0x1083)], "10 0 0x0 struct T[2]", "80 bytes of 40 each"),
        ([size(0x1083)], "11 0 0x0 80"),
        ([named(b"go", 0x1082)], "12 0 0x0 void go(struct T)"),
        ([id_(0x1000)], "13 0 0x0 void step(struct T)"),
        ([id_(0x1001)], "14 0 0x0 <missing type 0x1001>"),
    ], ["2 17 0x2 zeros", "3 0 0x0 56 860 1664", "4 0 0x0 56 860 1664"]),
    ("forward-last", FORWARD_LAST, b"", [56], [
        ([size(0x103f)], "1 0 0x0 5", "record 63, the last: the scan would start at an entry that is not needed"),
    ], ["1 0 0x0 56"]),
    ("forward-last-and-more", FORWARD_LAST, b"", [56, 0xffffffff], [
        ([size(0x103f)], "1 0 0x0 5", "nor is it read where there is one"),
    ], ["2 0 0x0 56"]),
    ("bytes-behind", FORWARD_LAST + class_("T", 40), b"", [56, 836], [
        ([size(0x103f)], "1 0 0x0 5", "bytes behind the record bytes are no record, though entry 1 is where they stand: 56 + 63 * 12 + 24"),
        ([type_(0x1040)], "2 0 0x0 <missing type 0x1040>"),
    ], ["1 0 0x0 56", "2 0 0x0 56"]),
]


def given_places(folder):
    """Name, files and lines of a case that was given."""
    told = reading.load(folder, "pass.txt")
    files = {part: reading.load(folder, part + ".bin") for part in ("types", "ids", "places", "sheet")}
    files["lengths"] = b"".join(map(u32, reading.lengths(told)))
    return case_name(folder), files, reading.expected(folder) + told


def places_by_hand(name, types, ids, lent, calls, passes):
    """The same of a case of PLACES."""
    commands = b"".join(b"".join(group) for group, *_ in calls)
    lengths = [int(line.split()[0]) for line in passes]
    lines = agreed([line for _, line, *_ in calls if line is not None], reading.sheet(types, ids, commands, lent))
    filled = agreed(passes, reading.passes(types, lengths))
    numbers = {"places": lent, "lengths": lengths}
    files = {"types": types, "ids": ids, "sheet": commands, **{part: b"".join(map(u32, entries)) for part, entries in numbers.items()}}
    return name, files, lines + filled


def write_cases(crate, cases):
    """The data files, args and stdout of a program, from names, files and lines."""
    for name, files, _ in cases:
        for part, data in files.items():
            put(data, crate, "data", f"{name}-{part}.bin")
    put(b"".join(name.encode() + b"\n" for name, _, _ in cases), crate, "args")
    put(b"".join(b"== %s\n" % name.encode() + told for name, _, told in cases), crate, "stdout")


def places(crate, folders):
    write_cases(crate, [given_places(folder) for folder in folders] + [places_by_hand(*case) for case in PLACES])


# Measures. Flags by their numbers: 1 NO_FUNCTION_RETURN, 2 NO_MEMBER_FUNCTION_STATIC, 8 SPACE_BEFORE_POINTER, 16 NAME_ONLY, 32 NO_ARGUMENTS.

def numbered(*records):
    return stream({0x1000 + n: record for n, record in enumerate(records)})


# What is opened and what is not, each record with its text.
OPENED = numbered(
    arguments(0x74, 0x74),                         # 0x1000 int,int
    arguments(),                                   # 0x1001 no bytes
    arguments(0x1000, 0x1000),                     # 0x1002 int,int,int,int
    procedure(0x74, 0x1000),                       # 0x1003 int ()(int,int
    pointer(0x1003),                               # 0x1004 int (*)(int,int)
    arguments(0x2000, 0x74, 0x1006),               # 0x1005 <missing type 0x2000>,int,<unimplemented type kind 0xa>
    UNLISTED,                                      # 0x1006 <unimplemented type kind 0xa>
    pointer(0x1006),                               # 0x1007 refused, 7
    arguments(0x1009, 0x1009),                     # 0x1008 <missing type 0x2000>,<missing type 0x2000>
    pointer(0x2000),                               # 0x1009 <missing type 0x2000>
    pointer(0x1009),                               # 0x100a <missing type 0x2000>
    modifier(0x2000),                              # 0x100b <missing type 0x2000>
    pointer(0x100b),                               # 0x100c <missing type 0x2000>
    rec(0x1203),                                   # 0x100d unhandled type /* 0x1203 */
    pointer(0x100d),                               # 0x100e unhandled type /* 0x1203 */*
    class_("A", 4),                                # 0x100f struct A
    modifier(0x100f),                              # 0x1010 const struct A
    array(0x1010, 8),                              # 0x1011 const struct A[2]
    array(0x1004, 16),                             # 0x1012 int (*)(int,int)[2]
    array(0x2000, 8),                              # 0x1013 <missing type 0x2000>
    procedure(0, 0x1000),                          # 0x1014 ()(int,int
    procedure(0x2000, 0x2001),                     # 0x1015 <missing type 0x2000> ()(<missing type 0x2001>
    MALFORMED)                                     # 0x1016 refused, 5

METHODS = numbered(
    class_("A", 4),                                # 0x1000 struct A
    pointer(0x1000),                               # 0x1001 its this pointer
    arguments(0x74),                               # 0x1002 int
    method(3, 0x1000, 0x1001, 0x1002),             # 0x1003 void ()(int)
    pointer(0x1003, mode=3),                       # 0x1004 void (struct A::*)(int)
    class_("B", 1),                                # 0x1005 struct B
    pointer(0x1005),                               # 0x1006 struct B*
    method(3, 0x1000, 0x1006, 0x1002),             # 0x1007 this is no pointer to its class
    modifier(0x1000),                              # 0x1008 const struct A
    pointer(0x1008),                               # 0x1009 the this pointer of a const method
    method(3, 0x1000, 0x1009, 0x1002),             # 0x100a a const method
    method(3, 0x1000, 0, 0x1002),                  # 0x100b a static one
    method(3, 0x1000, 0x1001, 0x1002, 2),          # 0x100c a constructor
    method(3, 0x1000, 0x1001, 0x2000),             # 0x100d without its list
    pointer(0x100d, mode=3),                       # 0x100e
    method(3, 0x1000, 0x1001, 0x74),               # 0x100f whose list is int
    method(3, 0x1000, 0x2001, 0x1002),             # 0x1010 without its this pointer
    method(0x2000, 0x1000, 0x1001, 0x1002),        # 0x1011 without its result
    method(0, 0x1000, 0x1001, 0x1002),             # 0x1012 a result that is no type
    procedure(0, 0x1002),                          # 0x1013 no result
    procedure(3, 0x1002))                          # 0x1014 void ()(int

SCOPES = numbered(
    member(0x1000, 0x1003, "go"),                  # 0x1000
    member(0x2000, 0x1003, "go"),                  # 0x1001 without its parent
    member(0x1000, 0x1014, "go"),                  # 0x1002 its type is a procedure
    member(0x1000, 0x100d, "go"),                  # 0x1003 the method without its list
    string("ns"),                                  # 0x1004
    function(0x1004, 0x1014, "f"),                 # 0x1005 in ns
    function(0x1005, 0x1014, "g"),                 # 0x1006 in f
    function(0x2000, 0x1014, "h"),                 # 0x1007 in what is missing
    function(0x1000, 0x1014, "h"),                 # 0x1008 in a member
    function(0, 0x1014, ""),                       # 0x1009
    function(0, 0, "f"),                           # 0x100a its type is 0
    function(0, 0x1013, "f"),                      # 0x100b
    function(0x100e, 0x1014, "h"),                 # 0x100c in a build id
    UNLISTED,                                      # 0x100d
    BUILD,                                         # 0x100e
    string(""),                                    # 0x100f
    string("?A0x1f"),                              # 0x1010
    strings(0x74, 0x74, 0x2000),                   # 0x1011
    strings(),                                     # 0x1012
    strings(0x1002, 0x1002))                       # 0x1013

# 96 pointers in a row to int, from 0x1000; 33 array levels of a byte each over char, from 0x1060; int and void of int; 33 functions, each in the next.
LIMITS = numbered(*[pointer(0x1001 + n) for n in range(95)], pointer(0x74), *[array(0x1061 + n, 1) for n in range(32)], array(0x70, 1),
                  arguments(0x74), procedure(3, 0x1081))
CHAIN = numbered(*[function(0x1001 + n, 0x1082, "f") for n in range(32)], function(0, 0x1082, "f"))

# Under NAME_ONLY: 512 names of 32,767 bytes and 511 commas are 512 * 32,768 - 1 = 16,777,215 bytes, and 511 names 511 * 32,768 - 1 = 16,744,447. Five names of
# 6,552 bytes are 5 * 6,553 - 1 = 32,764, so that 0x1006 has 16,744,447 + 1 + 32,764 = 16,777,212 bytes, and its methods ` ()` more: all that a measure has.
BOUND = numbered(
    class_("a" * 32767, 1),                        # 0x1000
    class_("", 1),                                 # 0x1001
    arguments(*[0x1000] * 512),                    # 0x1002: 16,777,215 bytes
    arguments(*[0x1000] * 512, 0x1001),            # 0x1003: a comma more
    arguments(*[0x1000] * 511),                    # 0x1004: 16,744,447 bytes
    class_("b" * 6552, 1),                         # 0x1005
    arguments(0x1004, 0x1007),                     # 0x1006: 16,777,212 bytes
    arguments(*[0x1005] * 5),                      # 0x1007: 32,764 bytes
    arguments(),                                   # 0x1008
    method(0x1006, 0x1001, 0, 0x1008),             # 0x1009: 16,777,215 bytes, then `(`
    method(0x1006, 0x1001, 0, 0x2000),             # 0x100a: then a mark
    method(0x1006, 0x1001, 0, 0x74),               # 0x100b: then a list that is none
    method(0x1006, 0x1001, 0, 0x100d),             # 0x100c: then one that is malformed
    MALFORMED,                                     # 0x100d
    method(0x1006, 0x1001, 0, 0x80000002),         # 0x100e: then an index of another module
    method(0x1006, 0x1001, 0, 0x100f),             # 0x100f: then itself
    arguments(0x1002, 0x80000001),                 # 0x1010: full, a comma, 6
    arguments(0x80000001, 0x1002),                 # 0x1011
    arguments(0x1002, 0x100d),                     # 0x1012: full, a comma, 5
    arguments(0x1004, 0x100d),                     # 0x1013: a comma, 5
    arguments(0x1002, 0x1014),                     # 0x1014: full, a comma, 12
    arguments(0x1004, 0x1015),                     # 0x1015: a comma, 12
    procedure(0x1002, 0x80000001),                 # 0x1016: full, a space, 6
    procedure(0, 0x1002),                          # 0x1017: `()(` and one that would be full
    procedure(0, 0x1004),                          # 0x1018: `()(` and 16,744,447 bytes
    pointer(0x1002),                               # 0x1019: full, `*`
    pointer(0x1004))                               # 0x101a: 16,744,447 bytes, `*`
LONG_STRINGS = numbered(strings(0x1002), strings(0x1006), strings(0x1006, 0x80000001), strings(0x80000001, 0x1002))

# 1,023 bytes under NAME_ONLY, and 14 lists, each of the one before it and it again: 2 * n + 1 bytes, so that list n has 2^(10 + n) - 1, and as many openings
# as a tree of n + 1 levels has knots, 2^(n + 1) - 1. The places are those of 17 records: 56.
DOUBLED = numbered(class_("a" * 1023, 1), *[arguments(0x1000 + n, 0x1000 + n) for n in range(14)], class_("", 1), arguments(0x100e, 0x100f))

THREE_CALLS = (type_(0x1000), id_(0x1000), named(b"f", 0x1000))


def each(answer):
    """The same answer of all three calls."""
    return [([call], answer) for call in THREE_CALLS]


# Cases: name, types, ids, lent places or None, commands with refusal, detail, length and openings of the one that has a line, and its text and what is opened.
MEASURES = [
    ("small", stream(SMALL), stream(IDS), None, [
        ([type_(0x1002)], "0 0x0 13 5", "void (*)(int): itself, 0x1001, void, 0x1000, int"),
        ([type_(0x1004)], "0 0x0 17 3", "char const* const: itself, 0x1003, char"),
        ([flags(8), type_(0x1004)], "0 0x0 18 3", "char const * const"),
        ([flags(0), type_(0x1007)], "0 0x0 14 1", "struct A[5][3]: itself, no level and no base"),
        ([type_(0x1001)], "0 0x0 11 4", "void ()(int: itself, void, 0x1000, int"),
        ([type_(0x1008)], "12 0x1008", "case 6"),
        ([type_(0x1009)], "0 0x0 21 2", "<missing type 0x2000>: itself, and its target before it is looked for"),
        ([type_(0x2000)], "0 0x0 21 0", "<missing type 0x2000>: a mark in place of an index written by itself"),
        ([named(b"step", 0x1001)], "0 0x0 14 4", "void step(int): 0x1001, void, 0x1000, int"),
        ([flags(32), named(b"step", 0x1001)], "0 0x0 9 2", "void step: 0x1001, void"),
        ([flags(1), named(b"step", 0x1001)], "0 0x0 9 3", "step(int): 0x1001, 0x1000, int"),
        ([flags(33), named(b"step", 0x1001)], "0 0x0 4 1", "step: 0x1001"),
        ([flags(0), named(b"step", 0x2000)], "8 0x2000", "case 9"),
        ([named(b"", 0)], "0 0x0 14 0", "<name omitted>: function type 0"),
        ([named(b"step", 0)], "0 0x0 4 0", "step: function type 0"),
        ([named(b"", 0x74)], "0 0x0 0 1", "no bytes: int as a function type"),
        ([named(b"step", 0x74)], "0 0x0 4 1", "step: int as a function type"),
        ([named(b"step", 0x1009)], "0 0x0 4 1", "step: 0x1009, whose target is not looked at"),
        ([type_(0x74)], "0 0x0 3 1", "int: a primitive is opened too"),
        ([type_(0)], "0 0x0 8 1", "<NoType>: a primitive, no function type"),
        ([type_(0x674)], "0 0x0 4 1", "int*: a primitive"),
        ([type_(0x874)], "0 0x0 20 0", "<missing type 0x874>"),
        ([type_(0x1000)], "0 0x0 3 2", "int: itself, int"),
        ([type_(0x1003)], "0 0x0 10 2", "const char: itself, char"),
        ([type_(0x1005)], "0 0x0 8 1", "struct A"),
        ([flags(16), type_(0x1005)], "0 0x0 1 1", "A"),
        ([type_(0x1006)], "0 0x0 4 1", "A[3]"),
        ([flags(0), id_(0x1000)], "0 0x0 14 4", "void step(int): 0x1001, void, 0x1000, int; an id is not opened"),
        ([size(0x1007), id_(0x1001)], "0 0x0 21 0", "<missing type 0x1001>; a size before it has no line"),
        ([type_(0x80000000)], "6 0x80000000"),
        ([id_(0x80000000)], "6 0x80000000"),
        ([named(b"", 0x80000000)], "6 0x80000000"),
        ([flags(0x200), type_(0x1002)], "1 0x200"),
        ([id_(0x1000)], "1 0x200"),
        ([named(b"", 0)], "1 0x200"),
        ([pointer_size(5), type_(0x1002)], "1 0x200", "1 before 2"),
        ([flags(0), type_(0x1002)], "2 0x5"),
        ([id_(0x1000)], "2 0x5"),
        ([named(b"", 0)], "2 0x5"),
    ]),
    ("opened", OPENED, b"", None, [
        ([type_(0x1000)], "0 0x0 7 3", "int,int: itself and int twice"),
        ([type_(0x1001)], "0 0x0 0 1", "no bytes: itself"),
        ([type_(0x1002)], "0 0x0 15 7", "int,int,int,int: itself, and twice 0x1000, int, int"),
        ([named(b"f", 0x1003)], "0 0x0 14 5", "int f(int,int): 0x1003, int, 0x1000, int, int"),
        ([type_(0x1004)], "0 0x0 16 6", "int (*)(int,int): itself, 0x1003, int, 0x1000, int, int"),
        ([type_(0x1005)], "0 0x0 55 2", "21 + 1 + 3 + 1 + 29 bytes: itself, int; two marks"),
        ([type_(0x1006)], "0 0x0 29 0", "<unimplemented type kind 0xa>"),
        ([type_(0x1007)], "7 0xa", "a target, and no index written by itself"),
        ([type_(0x1008)], "0 0x0 43 5", "21 + 1 + 21 bytes: itself, and twice 0x1009, 0x2000"),
        ([type_(0x100a)], "0 0x0 21 3", "itself, 0x1009, 0x2000"),
        ([type_(0x100b)], "0 0x0 21 2", "itself, 0x2000"),
        ([type_(0x100c)], "0 0x0 21 3", "itself, 0x100b, 0x2000"),
        ([type_(0x100d)], "0 0x0 27 1", "unhandled type /* 0x1203 */: it is read, so it is opened"),
        ([type_(0x100e)], "0 0x0 28 2", "and a `*`: itself, 0x100d"),
        ([type_(0x1010)], "0 0x0 14 2", "const struct A: itself, 0x100f"),
        ([type_(0x1011)], "0 0x0 17 2", "const struct A[2]: itself, 0x100f; its base 0x1010 is not opened, the target of that is"),
        ([type_(0x1012)], "0 0x0 19 6", "int (*)(int,int)[2]: itself, then from its base 0x1004 on 0x1003, int, 0x1000, int, int"),
        ([type_(0x1013)], "0 0x0 21 1", "itself; a base is not opened"),
        ([type_(0x1014)], "0 0x0 10 4", "()(int,int: itself, 0x1000, int, int; result 0 is none"),
        ([type_(0x1015)], "0 0x0 46 1", "21 + 4 + 21 bytes: itself; two marks"),
        ([named(b"f", 0x1015)], "0 0x0 46 1", "<missing type 0x2000> f(<missing type 0x2001>): 21 + 3 + 21 + 1 bytes"),
        ([type_(0x1016)], "5 0x1016"),
        ([id_(0x1000)], "0 0x0 21 0", "<missing type 0x1000>: no ids"),
        ([id_(0)], "0 0x0 18 0", "<missing type 0x0>"),
        ([id_(0x80001000)], "6 0x80001000"),
    ]),
    ("methods", METHODS, SCOPES, None, [
        ([type_(0x1003)], "0 0x0 12 4", "void ()(int): itself, void, 0x1002, int; the this pointer is looked at and not opened"),
        ([flags(32), type_(0x1003)], "0 0x0 7 2", "void (): itself, void"),
        ([type_(0x1004)], "0 0x0 18 4", "void (struct A::*): itself, 0x1003, void, struct A"),
        ([named(b"go", 0x1003)], "0 0x0 7 2", "void go: 0x1003, void"),
        ([flags(0), type_(0x1004)], "0 0x0 23 6", "void (struct A::*)(int): itself, 0x1003, void, struct A, 0x1002, int"),
        ([named(b"go", 0x1003)], "0 0x0 12 4", "void go(int): 0x1003, void, 0x1002, int"),
        ([named(b"go", 0x1007)], "0 0x0 22 6", "void go(struct B*,int): 0x1007, void, 0x1002, 0x1006, struct B, int"),
        ([named(b"go", 0x100a)], "0 0x0 18 4", "void go(int) const: 0x100a, void, 0x1002, int"),
        ([named(b"go", 0x100b)], "0 0x0 19 4", "static void go(int)"),
        ([flags(2), named(b"go", 0x100b)], "0 0x0 12 4", "void go(int)"),
        ([flags(0), named(b"go", 0x100c)], "0 0x0 7 3", "go(int): 0x100c, 0x1002, int"),
        ([type_(0x100d)], "0 0x0 28 3", "void ()<missing type 0x2000>: itself, void, and its list before it is looked for"),
        ([flags(1), type_(0x100d)], "0 0x0 23 2", "()<missing type 0x2000>: itself, its list"),
        ([flags(32), type_(0x100d)], "0 0x0 7 2", "void (): itself, void"),
        ([flags(0), type_(0x100e)], "0 0x0 39 5", "void (struct A::*)<missing type 0x2000>: itself, 0x100d, void, struct A, its list"),
        ([named(b"go", 0x100d)], "8 0x2000", "a function, not inside a type"),
        ([type_(0x100f)], "9 0x74"),
        ([type_(0x1010)], "0 0x0 28 3", "void ()<missing type 0x2001>: itself, void, 0x1002; the this pointer is looked for before `(`, and not opened"),
        ([named(b"go", 0x1010)], "8 0x2001"),
        ([named(b"go", 0x1011)], "0 0x0 29 3", "<missing type 0x2000> go(int): 0x1011, 0x1002, int"),
        ([named(b"go", 0x1012)], "0 0x0 16 4", "<NoType> go(int): 0x1012, type 0, 0x1002, int"),
        ([named(b"go", 0x1013)], "0 0x0 7 3", "go(int): 0x1013, 0x1002, int"),
        ([id_(0x1000)], "0 0x0 22 5", "void struct A::go(int): 0x1003, void, struct A, 0x1002, int"),
        ([flags(16), id_(0x1000)], "0 0x0 15 5", "void A::go(int)"),
        ([flags(0), id_(0x1001)], "0 0x0 35 4", "void <missing type 0x2000>::go(int): 0x1003, void, 0x1002, int"),
        ([id_(0x1002)], "11 0x1014"),
        ([id_(0x1003)], "8 0x2000"),
        ([id_(0x1004)], "0 0x0 2 0", "ns"),
        ([id_(0x1005)], "0 0x0 15 4", "void ns::f(int): 0x1014, void, 0x1002, int"),
        ([id_(0x1006)], "0 0x0 28 8", "void void ns::f(int)::g(int): 0x1014, void, then the four of f in a list of their own, 0x1002, int"),
        ([flags(1), id_(0x1006)], "0 0x0 18 6", "ns::f(int)::g(int): 0x1014; 0x1014, 0x1002, int; 0x1002, int"),
        ([flags(32), id_(0x1006)], "0 0x0 18 4", "void void ns::f::g: 0x1014, void; 0x1014, void"),
        ([flags(33), id_(0x1006)], "0 0x0 8 2", "ns::f::g: 0x1014 of g, 0x1014 of f"),
        ([flags(0), id_(0x1007)], "0 0x0 34 4", "void <missing type 0x2000>::h(int): 0x1014, void, 0x1002, int"),
        ([id_(0x1008)], "0 0x0 35 9", "void void struct A::go(int)::h(int): 0x1014, void, the five of go, 0x1002, int"),
        ([id_(0x1009)], "0 0x0 24 4", "void <name omitted>(int)"),
        ([id_(0x100a)], "10 0x0", "type 0 of an id is no procedure"),
        ([id_(0x100b)], "0 0x0 6 3", "f(int): 0x1013, 0x1002, int"),
        ([id_(0x100c)], "0 0x0 42 4", "void <unhandled id scope 0x1603>::::h(int): 5 + 29 + 2 + 1 + 5 bytes"),
        ([id_(0x100d)], "0 0x0 29 0", "<unimplemented type kind 0xa>"),
        ([id_(0x100e)], "0 0x0 29 0", "<unhandled id scope 0x1603>::"),
        ([id_(0x100f)], "0 0x0 0 0", "no bytes"),
        ([id_(0x1010)], "0 0x0 21 0", "`anonymous namespace'"),
        ([id_(0x1011)], "0 0x0 35 2", '"int" "int" "<missing type 0x2000>": int, int'),
        ([id_(0x1012)], "0 0x0 2 0", '""'),
        ([id_(0x1013)], "0 0x0 11 4", '"int" "int": 0x1002, int, 0x1002, int'),
        ([id_(0x1014)], "0 0x0 21 0", "<missing type 0x1014>"),
    ]),
    ("limits", LIMITS, CHAIN, None, [
        ([type_(0x1000)], "13 0x74", "96 pointers, then int"),
        ([type_(0x1001)], "0 0x0 98 96", "int and 95 `*`: 95 pointers, then int"),
        ([type_(0x1060)], "14 0x1080", "33 levels"),
        ([type_(0x1061)], "0 0x0 100 1", "char and 32 times [1]: itself"),
        ([id_(0x1000)], "14 0x1020", "33 functions"),
        ([id_(0x1001)], "0 0x0 414 128", "32 * 11 + 31 * 2 bytes: of each function 0x1082, void, 0x1081, int"),
        ([flags(33), id_(0x1000)], "14 0x1020"),
        ([id_(0x1001)], "0 0x0 94 32", "32 names of a byte and 31 times `::`: of each function 0x1082"),
    ]),
    ("bound", BOUND, LONG_STRINGS, None, [
        ([flags(16), type_(0x1002)], "0 0x0 16777215 513", "itself and 512 classes"),
        ([type_(0x1003)], "15 0x0", "16,777,216 bytes, the last a comma"),
        ([type_(0x1004)], "0 0x0 16744447 512"),
        ([type_(0x1006)], "0 0x0 16777212 519", "itself, the 512 of 0x1004, 0x1007 and five classes"),
        ([type_(0x1009)], "15 0x0", "`(` is byte 16,777,216"),
        ([type_(0x100a)], "15 0x0", "the mark does not fit"),
        ([type_(0x100b)], "9 0x74", "the list is read before `(`"),
        ([type_(0x100c)], "5 0x100d", "the same"),
        ([type_(0x100e)], "6 0x80000002", "the same"),
        ([type_(0x100f)], "12 0x100f", "the list is opened before `(`"),
        ([flags(48), type_(0x1009)], "0 0x0 16777215 520", "without its list: itself and the 519 of its result"),
        ([type_(0x100b)], "0 0x0 16777215 520", "the same"),
        ([flags(16), type_(0x1010)], "15 0x0", "the comma before 6"),
        ([type_(0x1011)], "6 0x80000001", "6 before the first byte"),
        ([type_(0x1012)], "15 0x0", "the comma before 5"),
        ([type_(0x1013)], "5 0x100d"),
        ([type_(0x1014)], "15 0x0", "the comma before 12"),
        ([type_(0x1015)], "12 0x1015"),
        ([type_(0x1016)], "15 0x0", "the space before 6"),
        ([flags(17), type_(0x1016)], "6 0x80000001", "no result is written"),
        ([type_(0x1017)], "15 0x0"),
        ([type_(0x1018)], "0 0x0 16744450 513", "()( and 0x1004: itself and the 512 of that"),
        ([named(b"", 0x1018)], "0 0x0 16744463 513", "<name omitted>(..): 14 + 2 bytes more than 0x1004"),
        ([named(b"", 0x1002)], "0 0x0 0 1", "a type that is no function type is not written"),
        ([type_(0x1019)], "15 0x0", "the `*`"),
        ([type_(0x101a)], "0 0x0 16744448 513", "itself, 0x1004 and its 511"),
        ([id_(0x1000)], "15 0x0", "two quotes more than 0x1002"),
        ([id_(0x1001)], "0 0x0 16777214 519", "two quotes more than 0x1006"),
        ([id_(0x1002)], "15 0x0", "behind the first entry a quote and a space fit, the next quote does not: before 6"),
        ([id_(0x1003)], "6 0x80000001"),
        ([flags(0), type_(0x1002)], "15 0x0", "`struct ` before each name"),
    ]),
    ("types-header", patched(stream(SMALL), 4, 55), patched(stream(IDS), 12, 0x1002), None, [
        *each("3 0x0"),                            # before 4 of the ids
        ([named(b"", 0)], "3 0x0", "function type 0"),
        ([pointer_size(5), type_(0x74)], "2 0x5", "2 before 3"),
    ]),
    ("types-tiling", patched(stream(SMALL), 12, 0x100b), patched(stream(IDS), 4, 55), None, [
        *each("4 0x0"),                            # before 3 of the ids
        ([type_(0x74)], "4 0x0"),
        ([flags(0x200), type_(0x74)], "1 0x200", "1 before 4"),
    ]),
    ("ids-header", stream(SMALL), patched(stream(IDS), 4, 55), None, [
        ([id_(0x1000)], "3 0x1"),
        ([id_(0x2000)], "3 0x1", "a missing id"),
        ([type_(0x1002)], "0 0x0 13 5", "the ids are not looked at"),
        ([named(b"step", 0x1001)], "0 0x0 14 4"),
    ]),
    ("ids-tiling", stream(SMALL), patched(stream(IDS), 12, 0x1002), None, [
        ([id_(0x1000)], "4 0x1"),
        ([type_(0x1002)], "0 0x0 13 5", "the ids are not looked at"),
    ]),

    # with lent places. BORDERS has three: 56, 860 and 1664
    ("lent-right", BORDERS, stream({0x1000: function(0, 0x1082, "step")}), [56, 860, 1664], [
        ([type_(0x103f)], "0 0x0 8 1", "struct T"),
        ([type_(0x1001)], "0 0x0 8 2", "struct T: itself, 0x103f"),
        ([type_(0x103d)], "0 0x0 4 2", "int*: itself, int"),
        ([type_(0x1083)], "0 0x0 11 1", "struct T[2]: itself; the forward reference and its definition are not opened"),
        ([named(b"go", 0x1082)], "0 0x0 17 4", "void go(struct T): 0x1082, void, 0x1001, 0x103f"),
        ([flags(32), named(b"go", 0x1082)], "0 0x0 7 2", "void go: 0x1082, void"),
        ([flags(0), named(b"go", 0)], "0 0x0 2 0", "go"),
        ([named(b"go", 0x1084)], "8 0x1084"),
        ([id_(0x1000)], "0 0x0 19 4", "void step(struct T): 0x1082, void, 0x1001, 0x103f"),
        ([id_(0x1001)], "0 0x0 21 0", "<missing type 0x1001>"),
        ([type_(0x1084)], "0 0x0 21 0", "<missing type 0x1084>"),
        ([type_(0x80000000)], "6 0x80000000"),
    ]),
    ("lent-more", BORDERS, stream({0x1000: function(0, 0x1082, "step")}), [56, 860, 1664, 0, 0xffffffff], [
        ([type_(0x1083)], "0 0x0 11 1", "struct T[2]; entries behind those needed are not looked at"),
        ([named(b"go", 0x1082)], "0 0x0 17 4", "void go(struct T)"),
        ([id_(0x1000)], "0 0x0 19 4", "void step(struct T)"),
    ]),
    ("lent-wrong", BORDERS, stream({0x1000: function(0, 0x1082, "step")}), [56, 861, 1664], [
        *each("17 0x1"),
        ([type_(0x74)], "17 0x1", "no record is looked up"),
        ([named(b"go", 0)], "17 0x1", "no record is looked up"),
        ([id_(0x1001)], "17 0x1", "before the mark of a missing id"),
        ([type_(0x80000000)], "17 0x1", "before 6"),
        ([pointer_size(5), type_(0x1000)], "2 0x5", "2 before 17"),
        ([flags(0x200), type_(0x1000)], "1 0x200", "1 before 2 and 17"),
        ([id_(0x1000)], "1 0x200"),
        ([named(b"go", 0)], "1 0x200"),
    ]),
    ("lent-short", BORDERS, b"", [56, 860], each("17 0x2")),                               # entry 2 is lacking
    ("lent-wrong-and-short", BORDERS, b"", [56, 861], each("17 0x1")),                     # the first of both
    ("lent-none", BORDERS, b"", [], each("17 0x0")),
    ("lent-none-no-records", stream({}), b"", [], [
        ([type_(0x74)], "0 0x0 3 1", "int; no entry is needed"),
        ([type_(0x1000)], "0 0x0 21 0", "<missing type 0x1000>"),
        ([id_(0x1000)], "0 0x0 21 0", "<missing type 0x1000>: no ids"),
        ([named(b"step", 0)], "0 0x0 4 0", "step"),
        ([named(b"step", 0x1000)], "8 0x1000"),
    ]),
    ("lent-types-header", patched(BORDERS, 4, 55), stream(IDS), [57], each("3 0x0")),      # 3 and 4 before 17
    ("lent-types-tiling", patched(BORDERS, 12, 0x1085), stream(IDS), [57], each("4 0x0")),
    ("lent-ids-header", BORDERS, patched(stream(IDS), 4, 55), [57, 860, 1664], [
        ([id_(0x1000)], "3 0x1", "3 of the ids before 17"),
        ([type_(0x1000)], "17 0x0", "the ids are not looked at"),
        ([named(b"go", 0)], "17 0x0"),
    ]),
    ("lent-ids-tiling", BORDERS, patched(stream(IDS), 12, 0x1002), [57, 860, 1664], [
        ([id_(0x1000)], "4 0x1", "4 of the ids before 17"),
        ([type_(0x1000)], "17 0x0"),
    ]),
    ("lent-bound", DOUBLED, b"", [56], [
        ([flags(16), type_(0x1001)], "0 0x0 2047 3"),
        ([type_(0x100d)], "0 0x0 8388607 16383", "list 13: 2^23 - 1 bytes, 2^14 - 1 openings"),
        ([type_(0x100e)], "0 0x0 16777215 32767", "list 14: 2^24 - 1 bytes, 2^15 - 1 openings"),
        ([type_(0x1010)], "15 0x0", "list 14 and a comma"),
    ]),
    ("lent-bound-wrong", DOUBLED, b"", [57], [
        ([flags(16), type_(0x100e)], "17 0x0"),
        ([type_(0x1010)], "17 0x0", "17 before 15"),
    ]),
]


def lent_bytes(entries):
    """A file of lent places: how many entries, then these. Where nothing is lent there is no file."""
    return {} if entries is None else {"places": u32(len(entries)) + b"".join(map(u32, entries))}


def given_measures(folder):
    """Name, files and lines of a case that was given."""
    files = {part: reading.load(folder, part + ".bin") for part in ("types", "ids", "sheet")}
    return case_name(folder), {**files, **lent_bytes(reading.given_places(folder))}, reading.load(folder, "expected.txt")


def measures_by_hand(name, types, ids, lent, calls):
    """The same of a case of MEASURES."""
    commands = b"".join(b"".join(group) for group, *_ in calls)
    lines = agreed([f"{number} {answer}" for number, (_, answer, *_) in enumerate(calls, 1)], reading.measures(types, ids, commands, lent))
    return name, {"types": types, "ids": ids, "sheet": commands, **lent_bytes(lent)}, lines


def measures(crate, folders):
    write_cases(crate, [given_measures(folder) for folder in folders] + [measures_by_hand(*case) for case in MEASURES])


def main():
    if len(sys.argv) == 3 and sys.argv[1] == "names":
        names(sys.argv[2])
    elif len(sys.argv) > 3 and sys.argv[1] == "sheets":
        sheets(sys.argv[2], sys.argv[3:])
    elif len(sys.argv) > 3 and sys.argv[1] == "places":
        places(sys.argv[2], sys.argv[3:])
    elif len(sys.argv) > 3 and sys.argv[1] == "measures":
        measures(sys.argv[2], sys.argv[3:])
    else:
        sys.exit(__doc__)


main()
