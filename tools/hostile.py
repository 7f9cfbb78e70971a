#!/usr/bin/env python3
"""Runs `names` on streams that are made to take long, within its limits: 16,384 bytes of each file, texts of 4,096 bytes.

    hostile.py NAMES [CASE..]       NAMES is the program, crates/names/out/names

Each case is a type whose text has as little as can be for as much work as can be. It is asked for once, and then by a sheet of as many commands as a
sheet holds, all the same. The lines are compared with those that stand beside the cases here. The times are CPU times."""
import os
import resource
import subprocess
import sys
import tempfile

sys.dont_write_bytecode = True
from streams import arguments, array, class_, header, modifier, rec, u8, u32

LIMIT = 16_384          # bytes of a file
TEXT = 4096             # bytes of a text
ONE, SHEET = 0.050, 120  # seconds: what one command and a whole sheet may take
HOPELESS = 900          # seconds: a sheet that would take longer is not run
FIRST = 0x1000
NAME_ONLY = 0x10
FILLER = rec(0x1203)    # the shortest record


class Types:
    """Records from FIRST on."""

    def __init__(self):
        self.records = []

    def add(self, record):
        self.records.append(record)
        return FIRST + len(self.records) - 1

    def fill(self, behind):
        """As many of the shortest records as leave room for so many bytes."""
        left = LIMIT - 56 - behind - sum(map(len, self.records))
        self.records += [FILLER] * (left // len(FILLER))

    def lists(self, entry, count):
        """A list of lists of an entry, `count` squared in all."""
        inner = self.add(arguments(*[entry] * count))
        return self.add(arguments(*[inner] * count))

    def bytes(self):
        body = b"".join(self.records)
        data = header(FIRST, FIRST + len(self.records), len(body)) + body
        assert len(data) <= LIMIT
        return data


def lists_bytes(count):
    return 2 * len(arguments(*[0] * count))


def chain(types, length, between=0, unique=None):
    """Modifiers in a row that end in a struct with no name; its text is empty. Each has so many records before it."""
    at = types.add(class_("", 0, unique=unique))
    for _ in range(length):
        types.records += [FILLER] * between
        at = types.add(modifier(at, 0))
    return at


def chains():
    """93 modifiers in a row, opened for each comma of the text. All stand behind as many records as there can be."""
    types = Types()
    types.fill(len(class_("", 0)) + 93 * len(modifier(0)) + lists_bytes(64))
    return types, types.lists(chain(types, 93), 64), "," * 4095


def spaced():
    """The same with 31 records before each modifier, so that no place is near."""
    types = Types()
    return types, types.lists(chain(types, 93, 31), 64), "," * 4095


def uneven():
    """The same at the end of the first quarter, which has nearly all records: behind it are long ones."""
    types = Types()
    behind = len(class_("", 0)) + 93 * len(modifier(0))
    types.records = [FILLER] * ((LIMIT // 4 - 56 - behind) // len(FILLER))
    at = chain(types, 93)
    left = LIMIT - 56 - lists_bytes(64) - sum(map(len, types.records))
    types.records += [rec(0x1203, bytes(left // 12 - len(FILLER)))] * 12
    return types, types.lists(at, 64), "," * 4095


def nested():
    """The same with lists of one entry in place of modifiers, behind as many records as there can be."""
    types = Types()
    types.fill(len(class_("", 0)) + 93 * len(arguments(0)) + lists_bytes(64))
    at = types.add(class_("", 0))
    for _ in range(93):
        at = types.add(arguments(at))
    return types, types.lists(at, 64), "," * 4095


def names():
    """A struct with no name and as long a unique name as there can be, read for each comma."""
    types = Types()
    long = LIMIT - 56 - lists_bytes(64) - len(class_("", 0, unique=""))
    return types, types.lists(types.add(class_("", 0, unique="u" * long)), 64), "," * 4095


def chains_and_names():
    """93 modifiers in a row that end in such a struct."""
    types = Types()
    long = LIMIT - 56 - lists_bytes(64) - len(class_("", 0, unique="")) - 93 * len(modifier(0))
    return types, types.lists(chain(types, 93, unique="u" * long), 64), "," * 4095


def arrays():
    """Arrays of a struct that is declared and never defined, so that each asks all other records for its size: `[]` and a comma."""
    types = Types()
    entry = types.add(array(types.add(class_("", 0, forward=True)), 0))
    outer = types.lists(entry, 36)
    types.fill(0)
    return types, outer, ",".join(["[]"] * 36 * 36)


def lookalikes():
    """The same with structs behind it, whose long names differ from the declared one's in the last byte."""
    types = Types()
    name = "n" * 100
    entry = types.add(array(types.add(class_("", 0, forward=True, unique=name + "0")), 0))
    outer = types.lists(entry, 36)
    other = class_("", 0, unique=name + "1")
    while sum(map(len, types.records)) + len(other) <= LIMIT - 56:
        types.add(other)
    return types, outer, ",".join(["[]"] * 36 * 36)


CASES = [chains, spaced, uneven, nested, names, chains_and_names, arrays, lookalikes]


def run(program, types, sheet):
    """The seconds of CPU that the program takes, and what it prints."""
    with tempfile.TemporaryDirectory() as folder:
        for name, data in (("types.bin", types), ("ids.bin", header(FIRST, FIRST, 0)), ("sheet.bin", sheet)):
            with open(os.path.join(folder, name), "wb") as f:
                f.write(data)
        before = resource.getrusage(resource.RUSAGE_CHILDREN)
        done = subprocess.run([program], cwd=folder, stdout=subprocess.PIPE, check=True)
        after = resource.getrusage(resource.RUSAGE_CHILDREN)
    return after.ru_utime - before.ru_utime + after.ru_stime - before.ru_stime, done.stdout


def sheet_of(index, count):
    return u8(1) + u32(NAME_ONLY) + (u8(0x10) + u32(index)) * count


def asked(program, types, index, text, count):
    seconds, printed = run(program, types.bytes(), sheet_of(index, count))
    expected = "".join(f"{number} 0 0x0 {text}\n" for number in range(1, count + 1))
    if printed != expected.encode():
        sys.exit(f"hostile: a line is not as expected: {printed[:80]}")
    return seconds


def verdict(seconds, most):
    return "reached" if seconds <= most else "NOT reached"


def main():
    program = os.path.abspath(sys.argv[1])
    commands = (LIMIT - 5) // 5
    print(f"| Case | Records | Bytes of the text | One command, ms | {ONE * 1000:.0f} ms | A sheet of {commands:,}, s | {SHEET} s |")
    print("|---|---|---|---|---|---|---|")
    for case in [case for case in CASES if not sys.argv[2:] or case.__name__ in sys.argv[2:]]:
        types, index, text = case()
        assert len(text) <= TEXT
        nothing = min(run(program, types.bytes(), sheet_of(0x74, 1))[0] for _ in range(3))
        one = max(min(asked(program, types, index, text, 1) for _ in range(3)) - nothing, 0)
        cells = [case.__name__, f"{len(types.records):,}", f"{len(text):,}", f"{one * 1000:.1f}", verdict(one, ONE)]
        if one * commands > HOPELESS:
            cells += [f"{one * commands:,.0f} at this rate, not run", "NOT reached"]
        else:
            whole = asked(program, types, index, text, commands)
            cells += [f"{whole:.1f}", verdict(whole, SHEET)]
        print(f"| {' | '.join(cells)} |", flush=True)


if __name__ == "__main__":
    main()
