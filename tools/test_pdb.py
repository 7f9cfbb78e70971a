#!/usr/bin/env python3
"""The tests of tools/test-pdb.sh.

    test_pdb.py program COUNT             prints a C++ program with COUNT structs and three functions for each
    test_pdb.py reel                      prints the C++ program of docs/FROM-A-PDB.md
    test_pdb.py test FOLDER PROGRAM DRIVER..
                                          tests the command line PROGRAM, and c/streams.c as each DRIVER, on the .pdb files of FOLDER

What is expected comes from llvm-pdbutil, from tools/msf.py, a reading of LLVM's page on the container, from tools/reading.py, a reading of document 01, and
for the messages from the words in this file."""
import collections
import itertools
import json
import os
import pty
import re
import subprocess
import sys
import time
import zlib
from random import Random

import msf
import reading

ROOT = os.path.join(os.path.dirname(os.path.abspath(__file__)), "..")
GUIDE = os.path.join(ROOT, "docs", "FROM-A-PDB.md")
DEFAULT_FLAGS = 0x17
TEXT_LIMIT = 1 << 20
FUNCTION_KINDS = (0x1601, 0x1602)
ABSENT = -1                                        # the offset of a line for c/streams.c that changes nothing


def program(count):
    yield "namespace loom {"
    yield "template <class T, int N> struct Spool { T threads[N]; int used; };"
    for n in range(count):
        yield f"struct Yarn{n} {{ int number; float weight[{n % 7 + 1}]; Yarn{n // 2}* next; void spin(int); static int count(const Yarn{n}&); }};"
        yield f"void Yarn{n}::spin(int turns) {{ number += turns; }}"
        yield f"int Yarn{n}::count(const Yarn{n}& other) {{ return other.number + {n}; }}"
        yield f"int advance(Yarn{n}* yarn, Spool<Yarn{n // 3}, {n % 5 + 1}>& spool, int (*visit)(const Yarn{n}&)) {{ return visit(*yarn) + spool.used; }}"
    yield "}"
    yield "int start() { return 0; }"


def reel():
    """The first indented part of the guide that starts with `namespace`."""
    with open(GUIDE, encoding="utf-8") as f:
        text = f.read()
    part = re.search(r"\n    namespace(?:\n|.)*?(?=\n\S)", text).group()
    return re.sub(r"^    ", "", part, flags=re.M)


def same(got, expected, what):
    if got != expected:
        sys.exit(f"test-pdb: {what}: got {got!r:.400}, expected {expected!r:.400}")


# Streams, and damaged copies

def answered(data, stream, room):
    """What c/streams.c prints for a call, by tools/msf.py."""
    out = b"\xaa" * room
    try:
        found = msf.read(data, stream, room)
        return f"0 0 {len(found)} {zlib.adler32(found + out[len(found):])}"
    except msf.Damaged as damaged:
        case, place = damaged.args
        return f"{int(case)} {place} 0 {zlib.adler32(bytes(room))}"


def expected_of(data, case):
    stream, room, lent, offset, value = case
    if offset == ABSENT:
        return answered(data[:lent] if lent < len(data) else data, stream, room)
    before = data[offset:offset + 4]
    data[offset:offset + 4] = value.to_bytes(4, "little")
    try:
        return answered(data, stream, room)
    finally:
        data[offset:offset + 4] = before


def driven(driver, path, cases):
    lines = "".join("%d %d %d %d %d\n" % case for case in cases)
    return subprocess.run([driver, path], input=lines, stdout=subprocess.PIPE, check=True, text=True).stdout.splitlines()


def hold(driver, path, data, cases, what):
    got = driven(driver, path, cases)
    same(len(got), len(cases), f"{path}: {what}: the number of answers")
    for case, line in zip(cases, got):
        same(line, expected_of(data, case), f"{path}: {what}: stream, room, length, offset, value {case}")
    return len(cases)


def whole_streams(driver, folder, path, data):
    """Every stream as llvm-pdbutil exports it, in a buffer that fits, is longer and is shorter."""
    sizes = msf.Directory(data).sizes
    cases = []
    for number, size in enumerate(sizes):
        if size == msf.NIL:
            continue
        out = os.path.join(folder, "exported")
        subprocess.run(["llvm-pdbutil", "export", f"--stream={number}", f"--out={out}", path], stdout=subprocess.DEVNULL, check=True)
        same(msf.read(data, number), msf.load(out), f"{path}: stream {number} against llvm-pdbutil")
        cases += [(number, room, len(data), ABSENT, 0) for room in {0, max(size - 1, 0), size, size + 9}]
    cases += [(number, 10, len(data), ABSENT, 0) for number in (len(sizes), 0xFFFFFFFF)]
    return hold(driver, path, data, cases, "whole streams")


def wrong_values(name, value, top):
    """Values for a field that stand for what can go wrong there."""
    beside = {(value + step) % 2**32 for step in (-4, -1, 1, 4, top.block)}
    # the longest directory has as many blocks as a block has numbers
    longest = top.block * top.block // 4
    own = {"BlockSize": {128, 256, 512, 8192, 65536}, "NumDirectoryBytes": {longest, longest + 4, 2 * longest}}
    return (beside | {0, 1, 2, 3, top.blocks - 1, top.blocks, 2**31, 2**32 - 2, msf.NIL} | own.get(name, set())) - {value}


def damaged_fields(data, step):
    """A case for each wrong value of every field; of the blocks of streams only each `step`-th. The field's stream is asked for, the first and the last."""
    top = msf.Superblock(data)
    cases = []
    for at, (offset, name) in enumerate(msf.fields(data)):
        if name.startswith("block of") and at % step:
            continue
        own = re.search(r"stream (\d+)", name)
        asked = {int(own.group(1)) if own else 2, 0, len(msf.Directory(data).sizes) - 1}
        cases += [(stream, 4 * top.block, len(data), offset, value) for value in wrong_values(name, msf.u32(data, offset), top) for stream in asked]
    return cases


def damaged_magic(data):
    whole = [(2, 64, len(data), at, msf.u32(data, at) ^ 0x20) for at in range(29)]
    return whole + [(2, 64, len(data), 28, msf.u32(data, 28) ^ 0x20 << 8 * byte) for byte in (1, 2, 3)]


def cut_lengths(data):
    block = msf.Superblock(data).block
    ends = {end + step for end in range(block, len(data) + 1, max(block, len(data) // 40 // block * block)) for step in (-1, 0, 1)}
    return [(2, 64, lent, ABSENT, 0) for lent in sorted(ends | {0, 1, 31, 32, 55, 56, 57}) if lent <= len(data)]


def containers(folder, driver, paths):
    """Real files, and the same streams laid out in blocks of every size."""
    whole = damaged = 0
    for path in paths:
        data = bytearray(msf.load(path))
        step = 1 if len(data) < 1 << 20 else 97
        whole += whole_streams(driver, folder, path, data)
        damaged += hold(driver, path, data, damaged_fields(data, step) + damaged_magic(data) + cut_lengths(data), "damaged copies")
    return whole, damaged


def laid_out_again(folder, driver, path):
    data = msf.load(path)
    streams = [msf.read(data, number) if size != msf.NIL else None for number, size in enumerate(msf.Directory(data).sizes)]
    streams += [None, b"behind one that is not there"]
    calls = 0
    for block in msf.BLOCK_SIZES:
        again = os.path.join(folder, f"blocks-{block}")
        made = bytearray(msf.make(streams, block))
        with open(again, "wb") as f:
            f.write(made)
        cases = [(number, 1 << 20, len(made), ABSENT, 0) for number in range(len(streams) + 1)]
        calls += hold(driver, again, made, cases + damaged_fields(made, 7), f"blocks of {block}")
    return calls


# Names

class Expected:
    """Both streams of a file as tools/msf.py and tools/reading.py read them."""

    def __init__(self, path, pointer_size=8):
        data = msf.load(path)
        self.pointer_size = pointer_size
        self.types, self.ids = reading.Stream(msf.read(data, 2), 0), reading.Stream(msf.read(data, 4), 1)

    def text(self, flags, write):
        formatter = reading.Formatter(self.types, self.ids, flags, self.pointer_size, TEXT_LIMIT)
        try:
            write(formatter)
            return 0, 0, bytes(formatter.text)
        except reading.Refused as refused:
            return refused.number, refused.detail, None

    def id(self, flags, index):
        return self.text(flags, lambda f: f.id(index))

    def type(self, flags, index):
        return self.text(flags, lambda f: f.type_index(index, reading.Open()))

    def function(self, flags, name, index):
        return self.text(flags, lambda f: f.function(name, index))

    def size(self, index):
        return reading.Formatter(self.types, None, 0, self.pointer_size, 0).size(index)


def kinds(stream):
    """The kind of each record of a stream's bytes."""
    at, found = 56, []
    while at < 56 + msf.u32(stream, 16):
        found.append(int.from_bytes(stream[at + 2:at + 4], "little"))
        at += 2 + int.from_bytes(stream[at:at + 2], "little")
    return found


def run(*words, given=b""):
    return subprocess.run([os.fsencode(word) for word in words], input=given, stdout=subprocess.PIPE, stderr=subprocess.PIPE, check=False)


def printed(*words, given=b""):
    done = run(*words, given=given)
    same((done.returncode, done.stderr), (0, b""), f"status and standard error of {words[1:]}")
    return done.stdout


def by_index(lines):
    return {int(line[:line.index(b"  ")], 16): line[line.index(b"  ") + 2:] for line in lines.split(b"\n")[:-1]}


def compare_texts(got, expected, step, what):
    for index in list(got)[::step]:
        refusal, _, text = expected(index)
        same((refusal, got[index]), (0, text), f"{what} of {index:#x}")
    return len(list(got)[::step])


def names(yokberd, path, pointer_size, step):
    """Texts and sizes of a file against tools/reading.py; of long streams each step-th."""
    expected = Expected(path, pointer_size)
    data = msf.load(path)
    functions = [0x1000 + at for at, kind in enumerate(kinds(msf.read(data, 4))) if kind in FUNCTION_KINDS]
    ids = by_index(printed(yokberd, "ids", path))
    same(list(ids), functions, f"{path}: the functions among the ids")
    every = by_index(printed(yokberd, "ids", path, "--all", "--flags", "none"))
    same(list(every), list(range(expected.ids.first, expected.ids.end)), f"{path}: all ids")
    types = by_index(printed(yokberd, "types", path, "--flags", "SPACE_BEFORE_POINTER"))
    same(list(types), list(range(expected.types.first, expected.types.end)), f"{path}: all types")
    calls = compare_texts(ids, lambda index: expected.id(DEFAULT_FLAGS, index), step, "id")
    calls += compare_texts(every, lambda index: expected.id(0, index), step, "id")
    calls += compare_texts(types, lambda index: expected.type(0x8, index), step, "type")
    sizes = by_index(printed(yokberd, "sizes", path))
    for index in list(sizes)[::step]:
        same(int(sizes[index]), expected.size(index), f"{path}: size of {index:#x}")
    return calls + len(list(sizes)[::step])


def functions_of(yokberd, path):
    """Functions by a name and a type: on the command line and on standard input."""
    expected = Expected(path)
    indexes = range(expected.types.first, expected.types.end)
    lines = b"".join(b"%d  loom::step<int,%d> \r\n\n" % (index, index) for index in indexes)
    got = printed(yokberd, "functions", path, "--index", "-", "--tsv", given=lines).split(b"\n")[:-1]
    for index, line in zip(indexes, got):
        refusal, detail, text = expected.function(DEFAULT_FLAGS, b"loom::step<int,%d>" % index, index)
        same(line, b"0x%x\t%d\t0x%x\t%s" % (index, refusal, detail, text or b""), f"function of {index:#x}")
    same(len(got), len(indexes), "a line for each function")
    one = printed(yokberd, "functions", path, "--index", "0x%x=f<int,int>" % indexes[0], "--index=0=g", "--flags=none")
    texts = [expected.function(0, b"f<int,int>", indexes[0])[2], b"g"]
    same(one, b"0x%x  %s\n0x0  %s\n" % (indexes[0], *texts), "two functions")
    return len(indexes) + 2


def unescaped(text):
    return re.sub(rb"\\(.)", lambda found: {b"t": b"\t", b"n": b"\n", b"r": b"\r", b"\\": b"\\"}[found.group(1)], text)


def forms(yokberd, folder, path):
    """The same answers in every form, from exported streams too, and with indexes that are refused."""
    types, ids = os.path.join(folder, "types.bin"), os.path.join(folder, "ids.bin")
    for number, out in ((2, types), (4, ids)):
        subprocess.run(["llvm-pdbutil", "export", f"--stream={number}", f"--out={out}", path], stdout=subprocess.DEVNULL, check=True)
    plain = by_index(printed(yokberd, "ids", path, "--all"))
    same(by_index(printed(yokberd, "ids", "--types", types, "--ids", ids, "--all")), plain, "exported streams")
    objects = [json.loads(line) for line in printed(yokberd, "ids", path, "--all", "--json").splitlines()]
    same({int(o["index"], 16): o["text"].encode() for o in objects}, plain, "--json")
    columns = [line.split(b"\t") for line in printed(yokberd, "ids", path, "--all", "--tsv").split(b"\n")[:-1]]
    same({int(c[0], 16): unescaped(c[3]) for c in columns}, plain, "--tsv")
    same({(len(c), c[1], c[2]) for c in columns}, {(4, b"0", b"0x0")}, "the columns of --tsv")
    return refused_forms(yokberd, types, ids) + 3 * len(plain)


def refused_forms(yokberd, types, ids):
    words = (yokberd, "ids", "--types", types, "--ids", ids, "--index", "0x1003,0x80001003", "--index=-", "--flags=NO_ARGUMENTS,NAME_ONLY,NO_FUNCTION_RETURN")
    given = b"\n 0x2000 \r\n4099\n\n"
    player = (0x1003, 0, 0, "reel::Player::Player")
    answers = [player, (0x80001003, 6, 0x80001003, ""), (0x2000, 0, 0, "<missing type 0x2000>"), player]
    message = "index 0x80001003 is one of another module"
    lines = "".join(f"{i:#x}  {text if not n else f'refusal {n}: {message}'}\n" for i, n, _, text in answers)
    same(printed(*words, given=given).decode(), lines, "refused, plain")
    same(printed(*words, "--tsv", given=given).decode(), "".join(f"{i:#x}\t{n}\t{d:#x}\t{text}\n" for i, n, d, text in answers), "refused, --tsv")
    objects = [{"index": hex(i), "text": text} if not n else {"index": hex(i), "refusal": n, "detail": hex(d), "message": message} for i, n, d, text in answers]
    same([json.loads(line) for line in printed(*words, "--json", given=given).splitlines()], objects, "refused, --json")
    return 12


def hard_names(yokberd, folder):
    """A name with a tab, a line feed, a quote, a backslash, a control character and a byte that is not UTF-8, which is shown as U+FFFD."""
    name = b"a\tb\nc\rd\\e\"f\x01g\xffh\xe7\xba\xbai"
    shown = name.replace(b"\xff", b"\xef\xbf\xbd")
    record = (20 + len(name) + 1).to_bytes(2, "little") + bytes([0x05, 0x15]) + bytes(16) + b"\4\0" + name + b"\0"
    header = b"".join(n.to_bytes(4, "little") for n in (20040203, 56, 0x1000, 0x1001, len(record)))
    path = os.path.join(folder, "hard.bin")
    with open(path, "wb") as f:
        f.write(header.ljust(56, b"\0") + record)
    same(printed(yokberd, "types", "--types", path), b"0x1000  " + shown + b"\n", "a hard name, plain")
    same(unescaped(printed(yokberd, "types", "--types", path, "--tsv")[:-1]), b"0x1000\t0\t0x0\t" + shown, "a hard name, --tsv")
    same(printed(yokberd, "types", "--types", path, "--tsv").count(b"\t"), 3, "the tabs of --tsv")
    same(json.loads(printed(yokberd, "types", "--types", path, "--json"))["text"], shown.decode(), "a hard name, --json")
    same(printed(yokberd, "sizes", "--types", path, "--json"), b'{"index":"0x1000","size":4}\n', "a size, --json")


def sheets(yokberd, folder, path):
    """The sheet for `names`: docs/REFERENCE.md has the commands."""
    sheet = os.path.join(folder, "sheet.bin")
    same(printed(yokberd, "ids", path, "--index", "0x1004,0x1005", "--flags", "NAME_ONLY", "--sheet", sheet), b"", "--sheet")
    same(msf.load(sheet), bytes.fromhex("0110000000 0208 1204100000 1205100000"), "the bytes of a sheet")
    printed(yokberd, "functions", path, "--index", "0x1004=seek", "--pointer-size", "4", "--sheet", sheet)
    same(msf.load(sheet), bytes.fromhex("0117000000 0204 1304100000") + b"seek".ljust(16, b"\0"), "the bytes of a function's sheet")


# What is said where nothing can be read

def put(folder, name, data):
    path = os.path.join(folder, name)
    with open(path, "wb") as f:
        f.write(data)
    return path


def patched(data, at, value):
    return data[:at] + value.to_bytes(4, "little") + data[at + 4:]


AGAIN = "; copy or build it again"
TOO_LONG = "has 16,777,217 bytes, and at most 16,777,216 are read; link the program with less debug information, or in parts"


def too_long(types):
    return types + bytes(16777217 - len(types))


def unlike_files(folder, path):
    """Files that are no .pdb, or none that is read: each with what is said of it."""
    data = msf.load(path)
    return [
        (os.path.join(folder, "none.pdb"), "there is no such file; see that the path is right"),
        (folder, "it is a directory; name a file in it"),
        (put(folder, "empty.pdb", b""), "it is empty" + AGAIN),
        (put(folder, "text.pdb", b"// no pdb\n"), "it is no .pdb file (its first bytes are not those of one); name the file that the linker wrote"),
        (os.path.join(folder, "reel.exe"), "it is a program and no .pdb file; name the .pdb that was written beside it"),
        (put(folder, "old.pdb", b"Microsoft C/C++ program database 2.00\r\n\x1aJG\0\0" + bytes(2000)),
         "it is a .pdb file of the old form 2.00, which is not read; link the program with a newer linker"),
        (put(folder, "net.pdb", b"BSJB" + bytes(100)), "it is a portable .pdb file of .NET, which has no C++ types; name the .pdb of a native program"),
        (put(folder, "i.bin", msf.read(data, 4)), "it is an exported stream and no .pdb file; give it by --types or --ids"),
        (put(folder, "start.pdb", data[:40]), "it is cut: it has 40 bytes, and the header of a .pdb file has 56" + AGAIN),
        (put(folder, "magic.pdb", data[:30]), "it is cut: it has 30 bytes, and the header of a .pdb file has 56" + AGAIN),
    ]


def damaged_files(folder, path):
    """Files that are damaged or lack something: each with what is said of it."""
    data = msf.load(path)
    blocks, streams = msf.u32(data, 40), [msf.read(data, number) for number in range(5)]
    laid = lambda name, *changed: put(folder, name, msf.make([*changed, *streams[len(changed):]], 4096))
    return [
        (put(folder, "half.pdb", data[:30000]), f"it is cut: its header names {blocks} blocks of 4096 bytes, and it has 30,000 bytes" + AGAIN),
        (put(folder, "size.pdb", patched(data, 32, 5000)), "it is damaged: the block size, at byte 32, is none that a .pdb file has" + AGAIN),
        (put(folder, "map.pdb", patched(data, 52, blocks)),
         "it is damaged: the block that lists the directory's blocks, at byte 52, is outside the file" + AGAIN),
        (laid("no-types.pdb", *streams[:2], None), "it has no type stream; build it with debug information (clang -g -gcodeview, or cl /Zi)"),
        (laid("long.pdb", *streams[:2], too_long(streams[2])), "its type stream " + TOO_LONG),
        (laid("header.pdb", *streams[:2], patched(streams[2], 4, 57)), "it is damaged: the header of the type stream is broken" + AGAIN),
        (laid("tiling.pdb", *streams[:4], patched(streams[4], 16, msf.u32(streams[4], 16) - 4)),
         "it is damaged: the records of the id stream do not fill the bytes that its header names" + AGAIN),
    ]


def wrong_streams(folder, path):
    """Exported streams that are not what they are given as: types and ids, the one that something is said of, and what is said."""
    data = msf.load(path)
    types, ids = put(folder, "t.bin", msf.read(data, 2)), put(folder, "i.bin", msf.read(data, 4))
    cut, long = put(folder, "cut.bin", msf.load(types)[:800]), put(folder, "long.bin", too_long(msf.load(types)))
    byte, none = put(folder, "byte.bin", b"\0"), put(folder, "none.bin", b"")
    export = "export it again: llvm-pdbutil export --stream={} --out=FILE APP.pdb"
    return [
        (ids, types, ids, f"the streams are exchanged: it holds ids; give --types {types} --ids {ids}"),
        (types, types, types, "it is a type stream; give the id stream, stream 4 of the .pdb, by --ids"),
        (ids, ids, ids, "it is an id stream; give the type stream, stream 2 of the .pdb, by --types"),
        (path, ids, path, "it is a .pdb file and no exported stream; name it without --types and --ids"),
        (cut, ids, cut, "it is no whole type stream: the header of the type stream is broken; " + export.format(2)),
        (ids, none, ids, "it is an id stream; give the type stream, stream 2 of the .pdb, by --types"),
        (none, ids, none, "it is no whole type stream: the header of the type stream is broken; " + export.format(2)),
        (types, byte, byte, "it is no whole id stream: the header of the id stream is broken; " + export.format(4)),
        (long, ids, long, "the type stream " + TOO_LONG),
    ]


def file_messages(folder, path):
    """Files that cannot be read: the words, no standard input, the status, and what is said."""
    cases = [(("ids", file), file, said) for file, said in unlike_files(folder, path) + damaged_files(folder, path)]
    cases += [(("ids", "--types", types, "--ids", ids), file, said) for types, ids, file, said in wrong_streams(folder, path)]
    ids = os.path.join(folder, "i.bin")
    cases += [(("types", "--types", ids), ids, "it is an id stream; give the type stream, stream 2 of the .pdb, by --types")]
    return [(words, b"", 1, f"{file}: {said}") for words, file, said in cases]


def use_messages(path):
    """Wrong uses: the words, standard input, the status, and what is said."""
    flags = "NO_FUNCTION_RETURN, NO_MEMBER_FUNCTION_STATIC, SPACE_AFTER_COMMA, SPACE_BEFORE_POINTER, NAME_ONLY, NO_ARGUMENTS, or none"
    no_index = "no index; write it decimal or hexadecimal, as in 4097 or 0x1001"
    a_line = "no index; write one a line, decimal or hexadecimal, as 4097 or 0x1001"
    cases = [
        (("ids", path, "--pointer-size", "3"), b"", "--pointer-size 3: a pointer has 4, 8 or 16 bytes; give the size of the program's machine"),
        (("ids", path, "--flags", "NAMES"), b"", f"--flags NAMES: there is no flag `NAMES`; there are {flags}"),
        (("ids", path, "--names"), b"", "there is no option --names; yokberd --help lists them"),
        (("name", path), b"", "`name` is none of ids, types, sizes and functions; see yokberd --help"),
        (("--json",), b"", "say what you want: ids, types, sizes or functions; see yokberd --help"),
        (("ids",), b"", "name a .pdb file, or give streams by --types and --ids; see yokberd --help"),
        (("ids", path, "0x1001"), b"", "one file at a time: `0x1001` is one too many; indexes are given by --index"),
        (("ids", path, "--types", path), b"", "give a .pdb file, or streams by --types and --ids, not both"),
        (("ids", "--types", path), b"", "ids needs the id stream too: give it by --ids"),
        (("ids", "--ids", path), b"", "the type stream is needed too: give it by --types"),
        (("ids", path, "--index"), b"", "--index needs a value behind it; see yokberd --help"),
        (("ids", path, "--json=1"), b"", "--json takes no value; write --json alone"),
        (("ids", path, "--index", "0x1001,x"), b"", f"--index x: {no_index}"),
        (("ids", path, "--index", "4294967296"), b"", f"--index 4294967296: {no_index}"),
        (("types", path, "--all"), b"", "--all is for `ids` without --index: types and sizes are all given where no index is; leave it out"),
        (("functions", path), b"", "functions needs --index INDEX=NAME, or --index - and lines `INDEX NAME` on standard input"),
        (("functions", path, "--index", "0x1001"), b"", "--index 0x1001: a function is given as INDEX=NAME, as in 0x1001=step"),
        (("ids", path, "--index", "-"), b"0x1001\n\nstep\n0x1002\n", f"standard input, line 3: `step` is {a_line}"),
        (("functions", path, "--index", "-"), b"0x1001 step\n0x1002\n", "standard input, line 2: `0x1002` is no index and name; write a line as `0x1001 step`"),
        (("functions", path, "--index=0x1001=loom::advance_all", "--sheet", os.devnull), b"",
         "`loom::advance_all`: a sheet holds names of at most 16 bytes; leave --sheet out"),
    ]
    return [(words, given, 2, said) for words, given, said in cases]


def messages(yokberd, folder, path):
    """One line on standard error, nothing on standard output, and the status: 1 for files, 2 for wrong uses."""
    cases = file_messages(folder, path) + use_messages(path)
    for words, given, status, said in cases:
        done = run(yokberd, *words, given=given)
        same((done.returncode, done.stdout, done.stderr.decode()), (status, b"", f"yokberd: {said}\n"), f"{words}")
    with open("/dev/full", "wb") as full:
        done = subprocess.run([yokberd, "ids", path], stdout=full, stderr=subprocess.PIPE, check=False)
    same((done.returncode, done.stderr.count(b"\n"), done.stderr[:27]), (1, 1, b"yokberd: standard output: i"), "a full disk")
    return len(cases) + 1


def without_ids(yokberd, folder, path):
    """Document 02, Note 1: where there is no id stream, or one of no bytes, each id is missing; where all ids are asked for, it is said that there are none."""
    data = msf.load(path)
    streams = [msf.read(data, number) for number in range(5)]
    types, none = put(folder, "t.bin", streams[2]), put(folder, "none.bin", b"")
    files = [put(folder, name, msf.make(laid, 512))
             for name, laid in (("no-ids.pdb", streams[:4]), ("absent-ids.pdb", [*streams[:4], None]), ("empty-ids.pdb", [*streams[:4], b""]))]
    for words, file in [((file,), file) for file in files] + [(("--types", types, "--ids", none), none)]:
        said = f"yokberd: {file}: it has no ids, as files of old linkers have none; ask for types, sizes or functions, or link it with a newer linker\n"
        for all_of_them in ((), ("--all",)):
            done = run(yokberd, "ids", *words, *all_of_them)
            same((done.returncode, done.stdout, done.stderr.decode()), (0, b"", said), f"{words}")
        lines = b"0x1001  <missing type 0x1001>\n0x0  <missing type 0x0>\n0x80001001  refusal 6: index 0x80001001 is one of another module\n"
        done = run(yokberd, "ids", *words, "--index", "0x1001,0,0x80001001")
        same((done.returncode, done.stdout, done.stderr), (0, lines, b""), f"{words}")
    return len(files) + 1


def spoiled(random, data):
    damaged = bytearray(data)
    for at in random.choices(range(len(data)), k=random.choice((1, 20, 400))):
        damaged[at] = random.choice((0, 1, 0x10, 0x80, 0xFF, random.randrange(256)))
    return bytes(damaged)


def any_damage(yokberd, folder, path, rounds):
    """Bytes changed anywhere: answers and status 0, or one line and status 1; where the ids are gone, that line and status 0."""
    random, data, statuses = Random(0x7d), msf.load(path), collections.Counter()
    for _ in range(rounds):
        file = put(folder, "any.pdb", spoiled(random, data))
        words = random.choice((("ids", file, "--all"), ("types", file), ("sizes", file), ("functions", file, "--index=0x1005=f")))
        done = run(yokberd, *words)
        said = (done.returncode, done.stderr.count(b"\n"), done.stdout == b"" or done.returncode == 0, done.stderr.startswith(b"yokberd: " + file.encode()))
        gone = done.returncode == 0 and b"it has no ids" in done.stderr and done.stdout == b""
        same(gone or said in ((0, 0, True, False), (1, 1, True, True)), True, f"damage: {done.stderr} and status {done.returncode}")
        statuses[done.returncode] += 1
    same(sorted(statuses), [0, 1], "statuses over any damage")
    return rounds


def partial(yokberd, folder):
    """What a file without ids, or with broken ones, still answers."""
    for name in ("no-ids.pdb", "tiling.pdb"):
        lines = printed(yokberd, "types", os.path.join(folder, name))
        same(lines, printed(yokberd, "types", os.path.join(folder, "reel.pdb")), f"the types of {name}")


def help_and_version(yokberd):
    asked, bare = run(yokberd, "--help"), run(yokberd)
    same((asked.returncode, asked.stderr, asked.stdout), (0, b"", bare.stderr), "--help, and no words")
    same((bare.returncode, bare.stdout), (2, b""), "no words")
    with open(os.path.join(ROOT, "c", "yokberd.h"), encoding="utf-8") as f:
        version = re.search(r'YOKBERD_VERSION "(.*)"', f.read()).group(1)
    same(printed(yokberd, "--version"), f"yokberd {version}\n".encode(), "--version, and that of c/yokberd.h")
    return asked.stdout.decode()


def told_uses(folder, text, what):
    """Runs the commands on lower-case files in the indented parts of a text; those of `yokberd` are held to the lines behind them, with `..` for any."""
    parts = re.findall(r"^ {4}(.*)\n", text, re.M)
    commands = [at for at, line in enumerate(parts) if re.match(r"(?:yokberd|sort|head|llvm-pdbutil) .*[a-z]\.(?:pdb|bin|txt)\b", line)]
    for at in commands:
        done = subprocess.run(["sh", "-c", parts[at]], cwd=folder, stdout=subprocess.PIPE, stderr=subprocess.STDOUT, check=False)
        if "yokberd" in parts[at]:
            told = [line.strip() for line in itertools.takewhile(re.compile(r" *(?:0x|\{|\.\.|yokberd: )").match, parts[at + 1:])]
            same(shown(done.stdout.decode().splitlines(), told), told, f"{what}: {parts[at]}")
    return len(commands)


def shown(lines, told):
    """The lines, with `..` for those that are left out where they are told."""
    if ".." not in told:
        return lines
    before = told.index("..")
    return lines[:before] + [".."] + lines[len(lines) - (len(told) - before - 1):]


def closed_pipe(yokberd, path):
    """A reader that closes after the first line: no message, and no status but 0."""
    with subprocess.Popen([yokberd, "types", path], stdout=subprocess.PIPE, stderr=subprocess.PIPE) as process:
        first = process.stdout.readline()
        process.stdout.close()
        said = process.stderr.read()
    same((first[:8], said, process.returncode), (b"0x1000  ", b"", 0), "a closed pipe")


def terminal_said(yokberd, path, pause):
    """What is said on a terminal where standard output is read after a pause, and slowly if there is one."""
    ours, theirs = pty.openpty()
    with subprocess.Popen([yokberd, "types", path], stdout=subprocess.PIPE, stderr=theirs) as process:
        os.close(theirs)
        time.sleep(pause)
        while process.stdout.read(1 << 12):
            time.sleep(pause / 1000)
    try:
        said = os.read(ours, 1 << 16)
    except OSError:
        said = b""
    os.close(ours)
    return said


def progress(yokberd, path):
    same(terminal_said(yokberd, path, 0), b"", "progress of quick work")
    said = terminal_said(yokberd, path, 1.3)
    if not re.fullmatch(rb"(\r\x1b\[K[\d,]+ of [\d,]+ answered(\r\x1b\[K)?)+", said) or not said.endswith(b"\r\x1b[K"):
        sys.exit(f"test-pdb: progress: {said!r}")


def test(folder, yokberd, *drivers):
    path = lambda name: os.path.join(folder, name)
    small, large = [path("reel.pdb"), path("reel32.pdb"), path("bare.pdb"), path("pages.pdb")], path("large.pdb")
    for driver in drivers:
        files = small + [large] if driver == drivers[0] else small[:1]
        whole, damaged = containers(folder, driver, files)
        again = laid_out_again(folder, driver, small[0])
        name = os.path.basename(driver)
        print(f"test-pdb: {name}: {whole} reads of whole files as llvm-pdbutil has them")
        print(f"test-pdb: {name}: {damaged} reads of damaged copies and {again} in blocks of every size as tools/msf.py has them")
    calls = sum(names(yokberd, file, 4 if file == path("reel32.pdb") else 8, 1) for file in small) + names(yokberd, large, 8, 61)
    calls += functions_of(yokberd, small[0]) + forms(yokberd, folder, small[0])
    hard_names(yokberd, folder)
    sheets(yokberd, folder, small[0])
    print(f"test-pdb: {calls} names, types and sizes of the command line as tools/reading.py has them, in every form")
    print(f"test-pdb: {messages(yokberd, folder, small[0])} messages, each with its status")
    print(f"test-pdb: {without_ids(yokberd, folder, small[0])} ways to have no ids: marks, or a line that says so")
    print(f"test-pdb: {any_damage(yokberd, folder, small[0], 400)} files with any damage: answers, or one message")
    partial(yokberd, folder)
    closed_pipe(yokberd, large)
    progress(yokberd, large)
    uses = told_uses(folder, help_and_version(yokberd), "--help")
    with open(GUIDE, encoding="utf-8") as f:
        steps = told_uses(folder, f.read(), "docs/FROM-A-PDB.md")
    with open(os.path.join(ROOT, "README.md"), encoding="utf-8") as f:
        first = told_uses(ROOT, f.read().partition("\n## ")[0], "README.md")
    same((uses >= 3, steps >= 3, first), (True, True, 1), "uses that were found")
    print(f"test-pdb: a closed pipe, progress, {uses} uses of --help, {steps} of docs/FROM-A-PDB.md and the first of README.md")


if __name__ == "__main__":
    if sys.argv[1:2] == ["program"]:
        print("\n".join(program(int(sys.argv[2]))))
    elif sys.argv[1:2] == ["reel"]:
        print(reel())
    elif sys.argv[1:2] == ["test"] and len(sys.argv) > 4:
        test(*sys.argv[2:])
    else:
        sys.exit(__doc__)
