#!/usr/bin/env python3
"""cases.py CRATE: writes the files data/*.bin and args of the program `test_cases` into its folder CRATE and prints the lines that it must print.

Each case has its records and, beside them, its answers, which were worked out by hand from documents 01 and 02. The script also asks tools/reading.py,
a reading of the document in Python, and stops where that answers otherwise."""
import os
import sys

sys.dont_write_bytecode = True
import reading
from reading import NAME_ONLY, NO_ARGUMENTS, NO_FUNCTION_RETURN, NO_MEMBER_FUNCTION_STATIC, SPACE_AFTER_COMMA, SPACE_BEFORE_POINTER
from streams import BUILD, MALFORMED, SMALL, UNLISTED, arguments, array, class_, enum, enumerate_, function, header, member, method, modifier
from streams import pointer, procedure, rec, stream, string, strings, u8, u16, u32, u64, union

CRATE = sys.argv[1]
OTHER = 0x80000001                                 # an index with bit 31
NONE = 0x2000                                      # an index that no stream here has
GONE = "<missing type 0x2000>"


def row(first, count, make, last):
    """Records in a row: each is made of the next one's index, the last of `last`."""
    return {first + i: make(first + i + 1 if i + 1 < count else last) for i in range(count)}


# Calls: an index, what is expected (a text, a size or a pair of refusal and detail), and what the call is made with

def call(command, index, expected, flags=0, size=8, room=4096, name=""):
    return command, index, expected, flags, size, room, name if isinstance(name, bytes) else name.encode()


def T(index, expected, **how):
    return call(0x10, index, expected, **how)


def S(index, expected, **how):
    return call(0x11, index, expected, **how)


def I(index, expected, **how):
    return call(0x12, index, expected, **how)


def F(name, index, expected, **how):
    return call(0x13, index, expected, name=name, **how)


def ask(types, ids, command, index, flags, size, room, name):
    """The same call to the reading in Python."""
    if command == 0x10:
        return reading.format_type(types, flags, size, room, index)
    if command == 0x11:
        return reading.get_type_size(types, size, index)
    if command == 0x12:
        return reading.format_id(types, ids, flags, size, room, index)
    return reading.format_function(types, flags, size, room, name, index)


def shown(text):
    """A text as `test_cases` prints it: a long one by its length, the sum of its running sums and its start."""
    if len(text) <= 200:
        return text
    total = sums = 0
    for byte in text:
        total += byte
        sums += total
    return b"length %d sum 0x%x start " % (len(text), sums % 2 ** 32) + text[:60]


def case(name, types, ids, *calls):
    """Writes the files of one case and prints its lines. A stream is given as records by index or as bytes; no ids, no file."""
    types = stream(types) if isinstance(types, dict) else types
    ids = stream(ids) if isinstance(ids, dict) else ids
    commands, now = b"", {1: 0, 2: 8, 3: 4096}
    sys.stdout.buffer.write(b"== %s\n" % name.encode())
    for running, (command, index, expected, flags, size, room, called) in enumerate(calls, 1):
        expected = expected.encode("latin-1") if isinstance(expected, str) else expected
        answer = ask(types, ids, command, index, flags, size, room, called)
        right = (*expected, None) if isinstance(expected, tuple) else (0, 0, expected)
        if answer != right:
            sys.exit(f"{name} {running}: by hand {right}, by reading.py {answer}")
        for setting, value in ((1, flags), (2, size), (3, room)):
            if now[setting] != value:
                commands += u8(setting) + u32(value)
                now[setting] = value
        commands += u8(command) + u32(index) + (u8(len(called)) + called if command == 0x13 else b"")
        head = b"%d %d 0x%x" % (running, right[0], right[1])
        value = b"" if right[2] is None else b" " + (shown(right[2]) if isinstance(right[2], bytes) else b"%d" % right[2])
        sys.stdout.buffer.write(head + value + b"\n")
    for ending, data in (("types", types), ("ids", ids), ("calls", commands)):
        if data:
            with open(os.path.join(CRATE, "data", f"{name}-{ending}.bin"), "wb") as f:
                f.write(data)
    NAMES.append(name)


NAMES = []

# The ten cases of document 01.
case("small", SMALL, b"",
     T(0x1002, "void (*)(int)"),
     T(0x1002, "void (*)(int)", room=13),
     T(0x1002, (15, 0), room=12),
     T(0x1004, "char const* const"),
     T(0x1004, "char const * const", flags=SPACE_BEFORE_POINTER),
     T(0x1007, "struct A[5][3]"),
     S(0x1007, 60),
     T(0x1001, "void ()(int"),
     T(0x1008, (12, 0x1008)),
     T(0x1009, GONE),
     F("step", 0x1001, "void step(int)"),
     F("step", 0x1001, "void step", flags=NO_ARGUMENTS),
     F("step", 0x2000, (8, 0x2000)),
     F("", 0, "<name omitted>"),
     F("", 0x74, ""))

# 96 pointers in a row to int. From the second on there are 95: with int 96 open indexes. From the first, int is the 97th.
case("pointers", row(0x1000, 96, pointer, 0x74), b"",
     T(0x1001, "int" + "*" * 95),
     T(0x1000, (13, 0x74)),
     T(0x1002, "int" + " " + "*" * 94, flags=SPACE_BEFORE_POINTER),
     S(0x1000, 8))
# 96 pointers in a ring: with all of them open the next opening is of one that is open, so 12 and not 13.
case("ring", row(0x1000, 96, pointer, 0x1000), b"",
     T(0x1000, (12, 0x1000)),
     T(0x1005, (12, 0x1005)))
# A pointer's target is opened before it is read: with 96 open, one that is missing, unlisted, malformed or has bit 31 gives 13.
ROW96 = {**row(0x1000, 96, pointer, 0x2000), **row(0x1060, 96, pointer, OTHER), **row(0x10c0, 96, pointer, 0x1180),
         **row(0x1120, 96, pointer, 0x1181), 0x1180: MALFORMED, 0x1181: UNLISTED}
case("targets", ROW96, b"",
     T(0x1000, (13, 0x2000)), T(0x1001, GONE),
     T(0x1060, (13, OTHER)), T(0x1061, (6, OTHER)),
     T(0x10c0, (13, 0x1180)), T(0x10c1, (5, 0x1180)),
     T(0x1120, (13, 0x1181)), T(0x1121, (7, 0xa)))
# 94 pointers, a procedure and its list make 96. An entry of the list is written by itself, so it is read before it is opened.
LISTS = {
    **row(0x1000, 94, pointer, 0x105e), 0x105e: procedure(0, 0x105f), 0x105f: arguments(0x2000, 0x2001),
    **row(0x1060, 94, pointer, 0x10be), 0x10be: procedure(0, 0x10bf), 0x10bf: arguments(0x11e0, OTHER),
    **row(0x10c0, 94, pointer, 0x111e), 0x111e: procedure(0, 0x111f), 0x111f: arguments(0x11e1),
    **row(0x1120, 94, pointer, 0x117e), 0x117e: procedure(0, 0x117f), 0x117f: arguments(0x74),
    **row(0x1180, 94, pointer, 0x11de), 0x11de: procedure(0, 0x11df), 0x11df: arguments(0x1181),
    0x11e0: UNLISTED, 0x11e1: MALFORMED,
}
SIGNS94 = "(" + "*" * 94 + ")("
case("entries", LISTS, b"",
     T(0x1000, SIGNS94 + "<missing type 0x2000>,<missing type 0x2001>)"),
     T(0x1060, (6, OTHER)),                        # behind `<unimplemented type kind 0xa>,`
     T(0x1060, (15, 0), room=len(SIGNS94)),
     T(0x10c0, (5, 0x11e1)),
     T(0x1120, (13, 0x74)),
     T(0x1121, "(" + "*" * 93 + ")(int)"),
     T(0x1180, (12, 0x1181)))                      # the list is the 96th, the entry is open: 12 before 13
# 95 pointers and an array are 96; neither levels nor base of an array are opened.
case("bases", {**row(0x1000, 95, pointer, 0x105f), 0x105f: array(0x1060, 24), 0x1060: array(0x1061, 8), 0x1061: class_("A", 4),
               **row(0x1062, 95, pointer, 0x10c1), 0x10c1: array(0x10c2, 8), 0x10c2: pointer(0x74)}, b"",
     T(0x1000, "struct A[3][2]" + "*" * 95),
     T(0x1062, (13, 0x74)),                        # the base is a pointer, which opens its target
     T(0x1063, "int*[1]" + "*" * 94))

# 33 array levels of 4 bytes over int.
case("levels", row(0x1000, 33, lambda element: array(element, 4), 0x74), b"",
     T(0x1001, "int" + "[1]" * 32),
     T(0x1000, (14, 0x1020)),
     T(0x1000, (14, 0x1020), room=0),
     S(0x1000, 4))
# Levels and size steps are two chains: 32 levels over 32 modifiers pass. The base is no level but the first size step.
DEEP = {**row(0x1000, 32, lambda element: array(element, 8), 0x1020), **row(0x1020, 32, lambda target: modifier(target, 0), 0x74),
        **row(0x1040, 32, lambda element: array(element, 8), 0x1060), **row(0x1060, 33, lambda target: modifier(target, 0), 0x74)}
case("levels-and-steps", DEEP, b"",
     T(0x1000, "int" + "[1]" * 31 + "[2]"),
     T(0x1040, (14, 0x1080)),                      # the 33rd size step
     T(0x1041, (14, 0x1080), room=0),
     T(0x1061, "int"), S(0x1060, (14, 0x1080)), S(0x1061, 4))
# The 33rd level is counted from its own record; its element is not read. At the 33rd place what is no array is the base.
ENDS = {**row(0x1000, 33, lambda element: array(element, 4), OTHER), **row(0x1021, 32, lambda element: array(element, 4), OTHER),
        **row(0x1041, 32, lambda element: array(element, 4), 0x2000), **row(0x1061, 32, lambda element: array(element, 4), 0x1082),
        0x1081: array(0x1081, 5), 0x1082: class_("A", 2), 0x1083: array(0x1084, 6), 0x1084: array(0x1083, 7)}
case("level-ends", ENDS, b"",
     T(0x1000, (14, 0x1020)),
     T(0x1021, (6, OTHER)),
     T(0x1041, GONE),
     T(0x1061, "struct A" + "[1]" * 31 + "[2]"),
     T(0x1081, (14, 0x1081)), S(0x1081, 5),        # an array of itself
     T(0x1083, (14, 0x1083)), T(0x1084, (14, 0x1084)), S(0x1083, 6))

# Size chains. Every record that can be read counts, also the last; a primitive does not.
CHAINS = {**row(0x1000, 33, modifier, 0x74), **row(0x1021, 33, lambda target: enum("E", target), 0x74),
          **row(0x1042, 32, modifier, 0x1062), 0x1062: class_("A", 12), **row(0x1063, 32, modifier, 0x1083), 0x1083: rec(0x1203),
          **row(0x1084, 32, modifier, 0x10a4), 0x10a4: arguments(), **row(0x10a5, 32, modifier, 0x10c5), 0x10c5: pointer(0x74, size=4)}
case("steps", CHAINS, b"",
     S(0x1000, (14, 0x1020)), S(0x1001, 4), S(0x1020, 4),
     S(0x1021, (14, 0x1041)), S(0x1022, 4),
     S(0x1042, (14, 0x1062)), S(0x1043, 12),
     S(0x1063, (14, 0x1083)), S(0x1064, 0),        # a kind that is read by name only counts, and has size 0
     S(0x1084, (14, 0x10a4)), S(0x1085, 0),
     S(0x10a5, (14, 0x10c5)), S(0x10a6, 4))
# At the 33rd place, what cannot be read is size 0; a size cycle ends in 14.
UNREAD = {**row(0x1000, 32, modifier, 0x2000), **row(0x1020, 32, modifier, OTHER), **row(0x1040, 32, modifier, 0x10a0),
          **row(0x1060, 32, modifier, 0x10a1), **row(0x1080, 32, modifier, 0x0674), 0x10a0: MALFORMED, 0x10a1: UNLISTED,
          0x10a2: modifier(0x10a2), 0x10a3: enum("E", 0x10a4), 0x10a4: modifier(0x10a5), 0x10a5: modifier(0x10a3), 0x10a6: array(0x10a2, 4)}
case("step-ends", UNREAD, b"",
     S(0x1000, 0), S(0x1020, 0), S(0x1040, 0), S(0x1060, 0), S(0x1080, 16, size=16),
     S(0x10a2, (14, 0x10a2)), S(0x10a3, (14, 0x10a5)), S(0x10a4, (14, 0x10a3)), S(0x10a5, (14, 0x10a4)),
     T(0x10a6, (14, 0x10a2)),                      # the base size comes first,
     T(0x10a2, (12, 0x10a2)),                      # the text alone opens what it goes through
     T(0x10a3, "enum E"))



def scopes(first, last, count=32):
    return row(first, count, lambda scope: function(scope, 0x1001, "f"), last)


# Scopes: 33 function ids in a row.
VOIDS = {0x1000: arguments(), 0x1001: procedure(0, 0x1000)}
case("scopes", VOIDS, scopes(0x1000, 0, count=33),
     I(0x1001, "::".join(["f()"] * 32)),
     I(0x1000, (14, 0x1020)),
     I(0x1000, (14, 0x1020), room=0),              # no byte stands before the innermost scope
     I(0x1001, "::".join(["f"] * 32), flags=NO_ARGUMENTS))
# The 33rd place: read first, so a mark, 6 or 5; a kind that is read by name only counts. A scope that is itself is never opened: 14.
SCOPES = {**scopes(0x1000, 0x2000), **scopes(0x1020, 0x10c1), **scopes(0x1040, OTHER), **scopes(0x1060, 0x10c2), **scopes(0x1080, 0x10c3),
          **scopes(0x10a0, 0x10c4),
          0x10c0: function(0x10c0, 0x1001, "f"), 0x10c1: UNLISTED, 0x10c2: rec(0x1601), 0x10c3: BUILD, 0x10c4: string("s"),
          0x10c5: function(0x10c6, 0x1001, "f"), 0x10c6: function(0x10c5, 0x1001, "g")}
F32 = "::" + "::".join(["f()"] * 32)
F31 = "::" + "::".join(["f()"] * 31)
case("scope-ends", VOIDS, SCOPES,
     I(0x1000, GONE + F32), I(0x1020, "<unimplemented type kind 0xa>" + F32),
     I(0x1040, (6, OTHER)), I(0x1060, (5, 0x10c2)),
     I(0x1080, (14, 0x10c3)), I(0x1081, "<unhandled id scope 0x1603>::" + F31),
     I(0x10a0, (14, 0x10c4)), I(0x10a1, "s" + F31),
     I(0x10c0, (14, 0x10c0)), I(0x10c5, (14, 0x10c5)), I(0x10c6, (14, 0x10c6)))
# Open indexes are counted in each list for itself. The scope's result is a row of pointers and a class: with its function type, 94 pointers make 96.
RESULTS = {0x1000: arguments(), **row(0x1001, 95, pointer, 0x1060), 0x1060: class_("C", 1), 0x1061: procedure(0x1002, 0x1000),
           0x1062: procedure(0x1001, 0x1000), 0x1063: procedure(0, 0x1000)}
case("scope-lists", RESULTS,
     {0x1000: function(0x1001, 0x1063, "f"), 0x1001: function(0, 0x1061, "g"), 0x1002: function(0x1003, 0x1063, "f"),
     0x1003: function(0, 0x1062, "g")},
     I(0x1000, "struct C" + "*" * 94 + " g()::f()"),
     I(0x1002, (13, 0x1060)))

# The buffer's edge.
EDGE_IDS = {0x1000: function(0x1001, 0x1001, "f"), 0x1001: string("ns"), 0x1002: string(""), 0x1003: function(OTHER, 0x1001, "f"), 0x1004: strings()}
case("edges", SMALL, EDGE_IDS,
     T(0x74, "int", room=3), T(0x74, (15, 0), room=2), T(0x74, (15, 0), room=0),
     T(0x1000, "int", room=3), T(0x1000, (15, 0), room=2),
     T(0x1009, GONE, room=21), T(0x1009, (15, 0), room=20), T(NONE, GONE, room=21), T(NONE, (15, 0), room=20),
     T(0x1007, "struct A[5][3]", room=14), T(0x1007, (15, 0), room=13),
     T(0x1008, (12, 0x1008), room=0), T(0x1008, (12, 0x1008), room=1), T(OTHER, (6, OTHER), room=0), T(OTHER, (6, OTHER), room=7),
     F("step", 0x1001, "void step(int)", room=14), F("step", 0x1001, (15, 0), room=13), F("step", 0x1001, (15, 0), room=0),
     F("", 0x74, "", room=0), F("", 0x74, "", room=5), F("a", 0x74, (15, 0), room=0), F("a", 0, "a", room=1),
     F("", 0, "<name omitted>", room=14), F("", 0, (15, 0), room=13), F("step", NONE, (8, NONE), room=0), F("step", NONE, (8, NONE), room=9),
     I(0x1000, "void ns::f(int)", room=15), I(0x1000, (15, 0), room=14), I(0x1000, (15, 0), room=0),
     I(0x1002, "", room=0), I(0x1002, "", room=3), I(0x1003, (6, OTHER), room=5), I(0x1003, (15, 0), room=4),
     I(0x1004, '""', room=2), I(0x1004, (15, 0), room=1), I(OTHER, (6, OTHER), room=0),
     S(0x1007, 60, room=0), T(0x1004, "char const* const", room=17), T(0x1004, (15, 0), room=16),
     T(0x1002, "void (*)(int)", room=14))

# Hostile streams: each procedure has the next one twice among its arguments. All texts would be far longer than any buffer.


def twice(count, wrap=0):
    """Procedures and their lists in turn, from 0x1000; with `wrap` a pointer to each next procedure stands between."""
    step, made = (3 if wrap else 2), {}
    for i in range(count):
        at = 0x1000 + step * i
        below = at + step if i + 1 < count else 0x74
        made[at] = procedure(3, at + 1)
        made[at + 1] = arguments(*[at + 2 if wrap else below] * 2)
        if wrap:
            made[at + 2] = pointer(below)
    return made


# `void ()(` eight bytes for each level; 48 levels have 96 open, so the 49th procedure is the 97th, at byte 384.
case("twice-22", twice(22), b"", T(0x1000, (15, 0), room=8), T(0x1000, (15, 0)), S(0x1000, 8), T(0x1000 + 2 * 21, "void ()(int,int"),
     T(0x1000 + 2 * 20, "void ()(void ()(int,int,void ()(int,int"), F("f", 0x1000, (15, 0)), F("f", 0x1000, (15, 0), room=8))
case("twice-90", twice(90), b"", T(0x1000, (15, 0), room=8), T(0x1000, (13, 0x1060)), T(0x1000, (15, 0), room=48 * 8 - 1),
     T(0x1000, (13, 0x1060), room=48 * 8), F("f", 0x1000, (13, 0x1060)), F("f", 0x1000, (15, 0), room=8), T(0x1060, (15, 0)))
# Through pointers: list, pointer and procedure make three open indexes a level. The first procedure and its list are two, and with the pointer of the
# 32nd list 96 are open. `void ()(` has eight bytes, each `void (*)(` below it nine.
POINTED = 8 + 31 * 9
case("pointed-22", twice(22, wrap=1), b"", T(0x1000, (15, 0), room=8), T(0x1000, (15, 0)), T(0x1000 + 3 * 21, "void ()(int*,int*"),
     T(0x1000 + 3 * 20, "void ()(void (*)(int*,int*),void (*)(int*,int*)"), F("f", 0x1000, (15, 0)), F("f", 0x1000, (15, 0), room=8))
case("pointed-90", twice(90, wrap=1), b"", T(0x1000, (15, 0), room=8), T(0x1000, (13, 0x1060)), T(0x1000, (13, 0x1060), room=POINTED),
     T(0x1000, (15, 0), room=POINTED - 1), F("f", 0x1000, (13, 0x1060)), F("f", 0x1000, (15, 0), room=8))


def thises(count):
    """A class, then pointers to methods, the methods and their lists. The next pointer is this pointer, so an argument, and the list's entry."""
    made = {0x1000: class_("C", 1)}
    for i in range(count):
        at = 0x1001 + 3 * i
        below = at + 3 if i + 1 < count else 0x74
        made.update({at: pointer(at + 1, mode=3), at + 1: method(3, 0x1000, below, at + 2), at + 2: arguments(below)})
    return made


# `void (struct C::*)(` has 19 bytes; 32 levels of pointer, method and list have 96 open, and the 33rd pointer is the 97th.
case("this-22", thises(22), b"", T(0x1001, (15, 0), room=8), T(0x1001, (15, 0)), T(0x1001 + 3 * 21, "void (struct C::*)(int,int)"),
     F("f", 0x1002, (15, 0)), F("f", 0x1002 + 3 * 21, "void f(int,int)"))
case("this-90", thises(90), b"", T(0x1001, (15, 0), room=8), T(0x1001, (13, 0x1061)), T(0x1001, (13, 0x1061), room=32 * 19),
     T(0x1001, (15, 0), room=32 * 19 - 1), F("f", 0x1002, (15, 0), room=8), F("f", 0x1002, (13, 0x1062)))


def thousands(count):
    """Procedures and their lists in turn; a list has the next procedure a thousand times."""
    made = {}
    for i in range(count):
        at = 0x1000 + 2 * i
        made.update({at: procedure(3, at + 1), at + 1: arguments(*[at + 2 if i + 1 < count else 0x74] * 1000)})
    return made


case("thousands", thousands(12), b"", T(0x1000, (15, 0), room=8), T(0x1000, (15, 0)), T(0x1014, (15, 0)),
     T(0x1016, "void ()(" + ",".join(["int"] * 1000)), T(0x1016, (15, 0), room=4006), T(0x1016, (15, 0), flags=SPACE_AFTER_COMMA),
     F("f", 0x1016, "void f(" + ",".join(["int"] * 1000) + ")"), F("f", 0x1000, (15, 0)))
# Lists of a thousand lists, the last without entries: only the commas between them have bytes.
case("commas", {**row(0x1000, 4, lambda below: arguments(*[below] * 1000), 0x1004), 0x1004: arguments()}, b"",
     T(0x1000, (15, 0)), T(0x1000, (15, 0), room=0), T(0x1003, "," * 999), T(0x1003, "," * 999, room=999), T(0x1003, (15, 0), room=998),
     T(0x1004, "", room=0))
# Arrays of a forward reference, each of which asks for its size and so looks through all records behind it. None of them is full.
SCAN = {0x1000: class_("A", 1, forward=True), 0x1001: array(0x1000, 1), 0x1002: arguments(*[0x1001] * 300),
        **{0x1003 + i: class_("A", 2, forward=True) for i in range(1000)}, **{0x13eb + i: rec(0x1203) for i in range(1000)}}
case("scans", SCAN, b"", T(0x1002, ",".join(["struct A[1]"] * 300)), S(0x1000, 1), S(0x13ea, 2))

# Every refusal by every kind of call that can give it.
BAD_TYPES = {
    0x1000: arguments(0x74),
    0x1001: procedure(3, 0x1000),
    0x1002: class_("C", 1),
    0x1003: pointer(0x1002),
    0x1004: method(3, 0x1002, 0x1003, 0x1000),
    0x1005: method(3, 0x1002, 0, 0x74),            # its list is int
    0x1006: MALFORMED,
    0x1007: UNLISTED,
    0x1008: pointer(0x1007),
    0x1009: pointer(0x1009),
    0x100a: arguments(0x1009),
    0x100b: procedure(0, 0x100a),
    0x100c: array(0x100c, 4),
    0x100d: procedure(0x100c, 0x1000),
    0x100e: procedure(OTHER, 0x1000),
    0x100f: procedure(0x1006, 0x1000),
    0x1010: procedure(0x1008, 0x1000),
    0x1011: method(3, 0x1002, 0, 0x1001),          # its list is a procedure
    0x1012: method(3, 0x1002, 0x1007, 0x1000),     # its this pointer is of a kind not listed,
    0x1013: method(3, 0x1002, NONE, 0x1000),       # missing,
    0x1014: method(3, 0x1002, 0x1006, 0x1000),     # malformed,
    0x1015: method(3, 0x1002, OTHER, 0x1000),      # of another module
    0x1016: method(3, 0x1002, 0, NONE),            # its list is missing,
    0x1017: method(3, 0x1002, 0, 0x1007),          # of a kind not listed
    0x1018: procedure(0x101a, 0x1000),
    0x1019: modifier(0x1002),
    **row(0x101a, 96, pointer, 0x74),
}
BAD_IDS = {
    0x1000: function(0, 0x1001, "f"),
    0x1001: rec(0x1601, u32(0)),
    0x1002: function(0, 0x1006, "f"),
    0x1003: function(0, OTHER, "f"),
    0x1004: function(0, 0x1007, "f"),
    0x1005: function(0, NONE, "f"),
    0x1006: function(0, 0x1004, "f"),
    0x1007: member(0x1002, 0x1001, "m"),
    0x1008: member(0x1002, 0x1005, "m"),
    0x1009: function(0, 0x100b, "f"),
    0x100a: function(0x100a, 0x1001, "f"),
    0x100b: function(0, 0x1018, "f"),
    0x100c: member(0x1006, 0x1004, "m"),
    0x100d: member(OTHER, 0x1004, "m"),
    0x100e: member(0x1008, 0x1004, "m"),
    0x100f: member(0x1002, 0x1013, "m"),
    0x1010: member(0x1002, 0x1012, "m"),
    0x1011: member(0x1002, 0x1014, "m"),
    0x1012: member(0x1002, 0x1015, "m"),
    0x1013: member(0x1002, 0x1016, "m"),
    0x1014: member(0x1002, 0x1017, "m"),
    0x1015: member(0x1002, NONE, "m"),
    0x1016: member(0x1002, OTHER, "m"),
    0x1017: member(0x1009, 0x1004, "m"),
    0x1018: member(0x1002, 0x1006, "m"),
    0x1019: function(0x1001, 0x1001, "f"),
    0x101a: function(0, 0x100d, "f"),
    0x101b: strings(0x1006),
    0x101c: strings(0x74, OTHER),
    0x101d: strings(0x1009),
    0x101e: strings(0x1008),
    0x101f: strings(0x101a),
    0x1020: strings(0x100c),
    0x1021: strings(0x1005),
    0x1022: member(0x1002, 0x1007, "m"),
    0x1023: function(0, 0x74, "f"),
    0x1024: member(0x1002, 0, "m"),
    0x1025: member(0x1002, 0x1004, "m"),
    0x1026: function(0, 0, "f"),
    0x1027: strings(0x1001, 0x1001, NONE, 0x1007),
}
case("refusals", BAD_TYPES, BAD_IDS,
     # all is well
     T(0x1003, "struct C*"), S(0x1003, 8), F("f", 0x1001, "void f(int)"), I(0x1000, "void f(int)"), I(0x1025, "void struct C::m(int)"),
     # 1 and 2, also together; a size call takes no flags
     T(0x1003, (1, 64), flags=64), T(0x1003, (1, 0x8000003f), flags=0x8000003f), I(0x1000, (1, 64), flags=64), F("f", 0x1001, (1, 64), flags=64),
     T(0x1003, (1, 64), flags=64, size=5), I(0x1000, (1, 65), flags=65, size=5), F("f", 0x1001, (1, 64), flags=64, size=5),
     S(0x1003, 8, flags=64), S(0x1003, (2, 5), flags=64, size=5),
     T(0x1003, (2, 5), size=5), S(0x1003, (2, 0), size=0), I(0x1000, (2, 32), size=32), F("f", 0x1001, (2, 0xffffffff), size=0xffffffff),
     T(0x1003, (2, 7), size=7, room=0), F("f", 0, (2, 3), size=3), F("f", 0, (1, 128), flags=128), T(0x1003, "C*", flags=NAME_ONLY, size=16),
     # 5
     T(0x1006, (5, 0x1006)), F("f", 0x1006, (5, 0x1006)), F("f", 0x100f, (5, 0x1006)), F("f", 0x1014, (5, 0x1006)), I(0x1001, (5, 0x1001)),
     I(0x1002, (5, 0x1006)), I(0x100c, (5, 0x1006)), I(0x1011, (5, 0x1006)), I(0x1018, (5, 0x1006)), I(0x1019, (5, 0x1001)), I(0x101b, (5, 0x1006)),
     S(0x1006, 0),
     # 6
     T(OTHER, (6, OTHER)), T(0xffffffff, (6, 0xffffffff)), F("f", OTHER, (6, OTHER)), F("f", 0x100e, (6, OTHER)), F("f", 0x1015, (6, OTHER)),
     I(OTHER, (6, OTHER)), I(0x1003, (6, OTHER)), I(0x100d, (6, OTHER)), I(0x1012, (6, OTHER)), I(0x1016, (6, OTHER)), I(0x101c, (6, OTHER)),
     S(OTHER, 0),
     # 7: inside a type, and where no type is written; by itself it is a mark
     T(0x1008, (7, 0xa)), T(0x1017, (7, 0xa)), F("f", 0x1007, (7, 0xa)), F("f", 0x1010, (7, 0xa)), F("f", 0x1012, (7, 0xa)), F("f", 0x1017, (7, 0xa)),
     I(0x1004, (7, 0xa)), I(0x100e, (7, 0xa)), I(0x1010, (7, 0xa)), I(0x1014, (7, 0xa)), I(0x1022, (7, 0xa)), I(0x101e, (7, 0xa)),
     T(0x1007, "<unimplemented type kind 0xa>"), S(0x1007, 0), S(0x1008, 8),
     # 8: only where no type is written
     F("f", NONE, (8, NONE)), F("f", 1, (8, 1)), F("f", 0x1013, (8, NONE)), F("f", 0x1016, (8, NONE)), I(0x1005, (8, NONE)), I(0x1015, (8, NONE)),
     I(0x100f, (8, NONE)), I(0x1013, (8, NONE)), T(NONE, GONE), I(NONE, GONE), S(NONE, 0),
     # 9
     T(0x1005, (9, 0x74)), T(0x1011, (9, 0x1001)), F("f", 0x1005, (9, 0x74)), F("f", 0x1011, (9, 0x1001)), I(0x1008, (9, 0x74)), I(0x1021, (9, 0x74)),
     T(0x1005, "void ()", flags=NO_ARGUMENTS), F("f", 0x1005, "static void f", flags=NO_ARGUMENTS),
     # 10 and 11
     I(0x1006, (10, 0x1004)), I(0x1023, (10, 0x74)), I(0x1026, (10, 0)), I(0x1007, (11, 0x1001)), I(0x1024, (11, 0)), F("f", 0x1000, "f"),
     # 12
     T(0x1009, (12, 0x1009)), F("f", 0x100b, (12, 0x1009)), I(0x1009, (12, 0x1009)), I(0x1017, (12, 0x1009)), I(0x101d, (12, 0x1009)), S(0x1009, 8),
     # 13
     T(0x101a, (13, 0x74)), F("f", 0x1018, (13, 0x1079)), I(0x100b, (13, 0x1079)), I(0x101f, (13, 0x74)),
     # 14
     T(0x100c, (14, 0x100c)), F("f", 0x100d, (14, 0x100c)), I(0x100a, (14, 0x100a)), I(0x101a, (14, 0x100c)), I(0x1020, (14, 0x100c)),
     # 15
     T(0x1003, (15, 0), room=8), F("f", 0x1001, (15, 0), room=10), I(0x1000, (15, 0), room=10), I(0x1000, "void f(int)", room=11),
     I(0x1027, '"void ()(int" "void ()(int" "<missing type 0x2000>" "<unimplemented type kind 0xa>"'))

# 3 and 4, with the order: flags, pointer size, types, then ids where the call is for an id. A function of type 0 looks at the types too.
GOOD = stream({0x1000: arguments(0x74), 0x1001: procedure(3, 0x1000)})
GOOD_IDS = stream({0x1000: function(0, 0x1001, "f")})
HEADER = header(0x1000, 0x1000, 0, header_size=57)
TILING = GOOD[:12] + u32(0x1003) + GOOD[16:]       # one record more is named than there is


def checks(name, types, ids, of_types, of_id):
    """The calls of a pair of streams of which one or both are damaged."""
    case(name, types, ids,
         T(0x74, of_types or "int"), T(0x74, of_types or (15, 0), room=0), S(0x74, of_types or 4), F("f", 0x1001, of_types or "void f(int)"),
         F("f", 0, of_types or "f"), I(0x1000, of_id), I(NONE, of_id), I(0x1000, of_id, room=0),
         T(0x74, (2, 1), size=1), S(0x74, (2, 1), size=1), F("f", 0, (2, 1), size=1), I(0x1000, (2, 1), size=1),
         T(0x74, (1, 64), flags=64, size=1), F("f", 0, (1, 64), flags=64, size=1), I(0x1000, (1, 64), flags=64, size=1), I(0x1000, (1, 64), flags=64),
         S(0x74, of_types or 4, flags=64))


checks("types-header", HEADER, GOOD_IDS, (3, 0), (3, 0))
checks("types-tiling", TILING, GOOD_IDS, (4, 0), (4, 0))
checks("ids-header", GOOD, HEADER, None, (3, 1))
checks("ids-tiling", GOOD, TILING, None, (4, 1))
checks("both-headers", HEADER, HEADER, (3, 0), (3, 0))
checks("tiling-header", TILING, HEADER, (4, 0), (4, 0))
checks("header-tiling", HEADER, TILING, (3, 0), (3, 0))
checks("no-types", b"", GOOD_IDS, (3, 0), (3, 0))
checks("ids-byte", GOOD, b"\0", None, (3, 1))
checks("ids-cut", GOOD, header(0x1000, 0x1000, 0)[:55], None, (3, 1))
checks("no-streams", b"", b"", (3, 0), (3, 0))
checks("tiling-no-ids", TILING, b"", (4, 0), (4, 0))


def absent(name, ids):
    """Document 02, Note 1: where there are no ids, by no bytes or by a header and no records, each index is 6 or missing; the mark has 21 bytes."""
    case(name, GOOD, ids,
         I(0x1000, "<missing type 0x1000>"), I(0, "<missing type 0x0>"), I(0x74, "<missing type 0x74>"), I(0x7fffffff, "<missing type 0x7fffffff>"),
         I(0x80000000, (6, 0x80000000)), I(0x80001000, (6, 0x80001000)), I(0xffffffff, (6, 0xffffffff), room=0),
         I(0x1000, "<missing type 0x1000>", room=21), I(0x1000, (15, 0), room=20), I(0x1000, (15, 0), room=0),
         I(0x1000, "<missing type 0x1000>", flags=0x3f), I(0x1000, (2, 1), size=1), I(0x1000, (1, 0x200), flags=0x200, size=1),
         T(0x1000, "int"), T(0x1002, "<missing type 0x1002>"), F("f", 0x1001, "void f(int)"), S(0x74, 4))


absent("no-ids", b"")
absent("no-id-records", header(0x1000, 0x1000, 0))
absent("no-id-records-from-2000", header(0x2000, 0x2000, 0))
absent("no-id-records-at-the-end", header(0x80000000, 0x80000000, 0))
# Each condition on a type stream, one short of it or one past it. `LIST` has 12 bytes.
LIST = arguments(0x74)


def stands(name, types, expected):
    """A stream that stands or does not: the text of int, of an index that is not there, and a size."""
    case(name, types, b"", T(0x74, expected or "int"), T(0xffff, expected or "<missing type 0xffff>"), S(0x74, expected or 4))


stands("header-whole", header(0x1000, 0x1000, 0), None)
stands("header-cut", header(0x1000, 0x1000, 0)[:55], (3, 0))
stands("header-size", header(0x1000, 0x1000, 0, header_size=55), (3, 0))
stands("header-high", header(0x1000, 0x1000, 0, header_size=0x01000038), (3, 0))
stands("first-low", header(0xfff, 0xfff, 0), (3, 0))
stands("first-high", header(0x80000000, 0x80000000, 0), None)
stands("end-low", header(0x1001, 0x1000, 0), (3, 0))
stands("end-high", header(0x80000001, 0x80000001, 0), (3, 0))
stands("end-top", header(0x1000, 0x80000000, 12) + LIST, (4, 0))
stands("bytes-exact", header(0x1000, 0x1001, 12) + LIST, None)
stands("bytes-past", header(0x1000, 0x1001, 13) + LIST, (3, 0))
stands("bytes-high", header(0x1000, 0x1001, 0x0100000c) + LIST, (3, 0))
stands("length-zero", header(0x1000, 0x1001, 4) + u16(0) + u16(0x1201), (4, 0))
stands("length-one", header(0x1000, 0x1001, 3) + u16(1) + u8(1), (4, 0))
stands("length-two", header(0x1000, 0x1001, 4) + u16(2) + u16(0x1201), None)
stands("length-past", header(0x1000, 0x1001, 12) + u16(11) + LIST[2:], (4, 0))
stands("length-far", header(0x1000, 0x1001, 12) + u16(0x010a) + LIST[2:], (4, 0))
stands("byte-left", header(0x1000, 0x1001, 13) + LIST + u8(0), (4, 0))
stands("half-length", header(0x1000, 0x1002, 13) + LIST + u8(2) + u8(0), (4, 0))
stands("bytes-left", header(0x1000, 0x1001, 14) + LIST + u16(2), (4, 0))
stands("two-records", header(0x1000, 0x1002, 24) + LIST + LIST, None)
stands("too-few", header(0x1000, 0x1002, 12) + LIST, (4, 0))
stands("too-many", header(0x1000, 0x1001, 24) + LIST + LIST, (4, 0))
# A first index that needs all four bytes, and a record whose length needs both of its own.
case("high", stream({0x01001000: pointer(0x01001001), 0x01001001: class_("C" * 300, 1)}, first=0x01001000), b"",
     T(0x01001000, "struct " + "C" * 300 + "*"), T(0x01001002, "<missing type 0x1001002>"), T(0x1000, "<missing type 0x1000>"))

# The order of reading, opening and writing: buffers that end exactly between two of them.
ORDER = {
    0x1000: arguments(0x74),
    0x1001: class_("C", 1),
    0x1002: modifier(OTHER),
    0x1003: modifier(0x1003),
    0x1004: modifier(0x1001),
    0x1005: method(0x74, 0x1001, 0, 0x74),
    0x1006: method(0x74, 0x1001, OTHER, 0x1000),
    0x1007: pointer(OTHER),
    0x1008: method(0x74, 0x1001, 0x1007, 0x1000),
    0x1009: procedure(0, OTHER),
    0x100a: arguments(0x74, OTHER),
    0x100b: procedure(0x74, 0x100a),
    0x100c: procedure(OTHER, 0x1000),
    0x100d: array(OTHER, 4),
    0x100e: array(0x100f, 4),
    **row(0x100f, 33, modifier, 0x74),
    0x1030: method(0x74, 0x1001, 0, OTHER),
    0x1031: method(0x74, 0x1001, 0, 0x1031),       # itself as its list
    0x1032: method(OTHER, 0x1001, 0, 0x1000, attributes=2),
    0x1033: procedure(0x1034, 0x1000, attributes=2),
    0x1034: MALFORMED,
    0x1035: procedure(0x1034, 0x1000),
    0x1036: pointer(0x1035),
    0x1037: pointer(0x1033),
    0x1038: procedure(0x74, OTHER),
    0x1039: pointer(0x1038),
    0x103a: pointer(0x1030, mode=3),
    0x103b: modifier(0x1034),
    0x103c: procedure(0x74, 0x1000, attributes=4),
}
ORDER_IDS = {
    0x1000: function(OTHER, 0x103c, "f"),
    0x1001: member(OTHER, 0x1005, "m"),
    0x1002: member(0x1001, 0x1005, "m"),
    0x1003: member(0x1001, 0x1032, "C"),
    0x1004: function(0x1005, 0x100c, "f"),
    0x1005: string("s"),
    0x1006: strings(0x74, OTHER),
}
case("order", ORDER, ORDER_IDS,
     # a modifier's target is opened and read before `const `
     T(0x1002, (6, OTHER), room=0), T(0x1003, (12, 0x1003), room=0), T(0x103b, (5, 0x1034), room=0), T(0x1004, (15, 0), room=0),
     T(0x1004, "const struct C"),
     # a method's list is opened, read and tested, and the this pointer and its target read, before `(`
     F("f", 0x1005, (9, 0x74), room=12), F("f", 0x1005, (15, 0), room=11), F("f", 0x1006, (6, OTHER), room=5), F("f", 0x1006, (15, 0), room=4),
     F("f", 0x1008, (6, OTHER), room=5), F("f", 0x1008, (15, 0), room=4), F("f", 0x1030, (6, OTHER), room=12), T(0x1005, (9, 0x74), room=6),
     T(0x1005, (15, 0), room=5), F("f", 0x1031, (12, 0x1031)), T(0x1031, (12, 0x1031)), T(0x103a, (6, OTHER), room=17), T(0x103a, (15, 0), room=16),
     # a procedure's `(` is written before its list is read
     F("f", 0x1009, (15, 0), room=1), F("f", 0x1009, (6, OTHER), room=2), T(0x1009, (15, 0), room=2), T(0x1009, (6, OTHER), room=3),
     T(0x1039, (15, 0), room=7), T(0x1039, (6, OTHER), room=8),
     # array levels and the base size come before the first byte of the base
     T(0x100d, (6, OTHER), room=0), T(0x100e, (14, 0x102f), room=0),
     # a result is read, opened and written, then its space
     F("f", 0x100c, (6, OTHER), room=0), F("f", 0x1038, (15, 0), room=3), F("f", 0x1038, (15, 0), room=4), F("f", 0x1038, (6, OTHER), room=6),
     # a comma and its space are written before the next entry is read
     T(0x100a, (15, 0), room=3), T(0x100a, (6, OTHER), room=4), T(0x100a, (15, 0), room=4, flags=SPACE_AFTER_COMMA),
     T(0x100a, (6, OTHER), room=5, flags=SPACE_AFTER_COMMA), F("f", 0x100b, (6, OTHER), room=10), F("f", 0x100b, (15, 0), room=9),
     I(0x1006, (15, 0), room=6), I(0x1006, (6, OTHER), room=7),
     # a function id writes its result before its scope is read, a member id `static ` and its result before its parent
     I(0x1000, (15, 0), room=3), I(0x1000, (6, OTHER), room=4), I(0x1001, (15, 0), room=10), I(0x1001, (6, OTHER), room=11),
     I(0x1002, (9, 0x74), room=22), I(0x1002, (15, 0), room=21), I(0x1004, (6, OTHER), room=0),
     # a constructor's result is not read, and none under NO_FUNCTION_RETURN but below pointers
     F("C", 0x1032, "static C(int)"), T(0x1032, "()(int)"), I(0x1003, "static struct C::C(int)"), F("C", 0x1033, "C(int)"), T(0x1033, "()(int"),
     T(0x1037, "(*)(int)"), F("f", 0x1035, (5, 0x1034)), F("f", 0x1035, "f(int)", flags=NO_FUNCTION_RETURN),
     T(0x1035, "()(int", flags=NO_FUNCTION_RETURN), T(0x1036, (5, 0x1034), flags=NO_FUNCTION_RETURN), F("f", 0x103c, "int f(int)"),
     I(0x1004, "s::f(int)", flags=NO_FUNCTION_RETURN))

# Where the mark of a missing record stands. Arrays of one byte an element.
MARKS = {
    0x1000: pointer(NONE),
    0x1001: modifier(NONE),
    0x1002: pointer(0x1001),
    0x1003: array(NONE, 3),
    0x1004: pointer(0x1003),
    0x1005: pointer(0x1006),
    0x1006: modifier(0x1001),
    0x1007: array(0x1000, 24),
    0x1008: class_("C", 1),
    0x1009: method(3, 0x1008, 0, NONE),
    0x100a: pointer(0x1009, mode=3),
    0x100b: arguments(0x1000, NONE, 0x1001),
    0x100c: procedure(0x1000, 0x100b),
    0x100d: pointer(0x100c),
    0x100e: procedure(3, NONE),
    0x100f: pointer(0x100e),
    0x1010: pointer(0x1000),
    0x1011: pointer(0x1010, mode=1, const=True),
    0x1012: method(3, NONE, 0x1000, 0x1015),       # this pointer to its class, which is missing
    0x1013: method(3, 0x1008, 0x1000, 0x1015),     # this pointer to what is missing
    0x1014: method(3, 0x1008, NONE, 0x1015),
    0x1015: arguments(0x74),
    0x1016: pointer(0x1013, mode=3),
    0x1017: pointer(0x1012, mode=3),
    0x1018: method(3, OTHER, 0x1019, 0x1015),      # this pointer to its class, of another module
    0x1019: pointer(OTHER),
    0x101a: method(3, 0x101c, 0x101b, 0x1015),     # this pointer to its class, of a kind not listed
    0x101b: pointer(0x101c),
    0x101c: UNLISTED,
    0x101d: enum("E", NONE),
    0x101e: array(0x101d, 4),
    0x101f: pointer(1),
    0x1020: modifier(0x1022),
    0x1021: arguments(0x1020, 0x1004),
    0x1022: pointer(NONE),
    0x1023: method(NONE, NONE, 0, 0x1015),
    0x1024: pointer(0x1023, mode=3),
}
case("marks", MARKS,
     {0x1000: function(NONE, 0x100e, "f"), 0x1001: function(0x1002, 0x100e, "f"), 0x1002: UNLISTED, 0x1003: member(NONE, 0x1012, "m"),
      0x1004: member(0x1008, 0x1013, "m"), 0x1005: member(0x101c, 0x1023, "m"), 0x1006: function(0x1007, 0x100e, "f"), 0x1007: function(0, NONE, "g"),
      0x1008: strings(NONE, 0x1000, 0x101c), 0x1009: function(OTHER, 0x100e, "f"), 0x100a: function(0x100b, 0x100e, "f"), 0x100b: rec(0x1605)},
     T(0x1000, GONE), T(0x1001, GONE), T(0x1002, GONE), T(0x1003, GONE), T(0x1004, GONE + "*"), T(0x1005, GONE + " const*"),
     T(0x1006, "const " + GONE), T(0x1007, GONE + "[3]"), T(0x1009, "void ()" + GONE), T(0x100a, "void (struct C::*)" + GONE),
     T(0x100b, GONE + "," + GONE + "," + GONE), T(0x100c, f"{GONE} ()({GONE},{GONE},{GONE}"), T(0x100d, f"{GONE} (*)({GONE},{GONE},{GONE})"),
     T(0x100e, "void ()(" + GONE), T(0x100f, "void (*)(" + GONE + ")"), T(0x1010, GONE), T(0x1011, GONE), T(0x101f, "<missing type 0x1>"),
     T(0x1020, GONE), T(0x1021, f"{GONE},{GONE}*"), T(0x1021, f"{GONE}, {GONE} *", flags=SPACE_AFTER_COMMA | SPACE_BEFORE_POINTER),
     T(0x1024, f"{GONE} ({GONE}::*)(int)"), T(0x1009, "()" + GONE, flags=NO_FUNCTION_RETURN), T(0x1009, "void ()", flags=NO_ARGUMENTS),
     # outside a type it is 8, and a kind not listed 7
     F("f", 0x1009, (8, NONE)), F("f", NONE, (8, NONE)), F("f", 0x101c, (7, 0xa)), F("f", 0x100c, f"{GONE} f({GONE},{GONE},{GONE})"),
     F("f", 0x100e, f"void f({GONE})"),
     # the target of a this pointer is read, unless it is the class by its index
     F("f", 0x1012, "void f(int)"), F("f", 0x1013, (8, NONE)), F("f", 0x1014, (8, NONE)), T(0x1013, "void ()" + GONE), T(0x1014, "void ()" + GONE),
     T(0x1016, "void (struct C::*)" + GONE), T(0x1017, f"void ({GONE}::*)(int)"), F("f", 0x1018, "void f(int)"), F("f", 0x101a, "void f(int)"),
     T(0x1018, "void ()(int)"), F("f", 0x1013, "void f", flags=NO_ARGUMENTS),
     # ids and their scopes
     I(0x1000, f"void {GONE}::f({GONE})"), I(0x1001, f"void <unimplemented type kind 0xa>::f({GONE})"), I(0x1003, f"void {GONE}::m(int)"),
     I(0x1004, (8, NONE)),
     I(0x1005, f"static {GONE} <unimplemented type kind 0xa>::m(int)"), I(0x1006, (8, NONE)),
     I(0x1008, f'"{GONE}" "{GONE}" "<unimplemented type kind 0xa>"'),
     I(0x1009, (6, OTHER)), I(0x100a, (5, 0x100b)), I(0x1002, "<unimplemented type kind 0xa>"), I(0, "<missing type 0x0>"),
     I(0xfff, "<missing type 0xfff>"),
     # below an array's base what is missing only makes its size 0
     T(0x101e, "enum E[]"), S(0x101e, 4), S(0x101d, 0),
     # primitives that are none, and indexes up to the last
     T(0x874, "<missing type 0x874>"), T(0x0f00, "<missing type 0xf00>"), T(1, "<missing type 0x1>"), F("f", 0x874, (8, 0x874)), S(0x874, 0),
     T(0x1025, "<missing type 0x1025>"), T(0x7fffffff, "<missing type 0x7fffffff>"), T(0xffff, "<missing type 0xffff>"),
     T(0x80000000, (6, 0x80000000)), T(0x774, "int*"), T(0x174, "int*"), S(0x774, 8), T(0xfff, "<missing type 0xfff>"))

# The base of an array is neither opened nor tested.
case("array-circles", {
        0x1000: array(0x1001, 8), 0x1001: pointer(0x1000),
        0x1002: array(0x1003, 8), 0x1003: pointer(0x1004), 0x1004: array(0x1003, 8),
        0x1005: array(0x1006, 8), 0x1006: modifier(0x1005), 0x1007: pointer(0x1008), 0x1008: array(0x1007, 8),
        0x1009: arguments(0x100a, 0x100a), 0x100a: array(0x74, 8)}, b"",
     T(0x1000, (12, 0x1000)), T(0x1001, (12, 0x1000)), T(0x1002, (12, 0x1004)), T(0x1003, (12, 0x1004)), T(0x1005, (12, 0x1005)),
     T(0x1007, (12, 0x1008)), T(0x1009, "int[2],int[2]"))

# What an array may be of. A base that cannot be read is refused or leaves its mark; what cannot be read below it only makes its size 0.
case("array-bases", {
        0x1000: MALFORMED, 0x1001: UNLISTED, 0x1002: enum("E", OTHER), 0x1003: enum("E", 0x1000), 0x1004: array(0x1000, 4), 0x1005: array(0x1001, 4),
        0x1006: array(OTHER, 4), 0x1007: array(0x1002, 4), 0x1008: array(0x1003, 4), 0x1009: array(NONE, 4),
        0x100a: array(0x100b, 24), 0x100b: array(3, 8),
        0x100c: rec(0x1203), 0x100d: array(0x100c, 4), 0x100e: arguments(0x74, 0x70), 0x100f: array(0x100e, 4), 0x1010: procedure(3, 0x100e),
        0x1011: array(0x1010, 16), 0x1012: pointer(0x1010, size=4), 0x1013: array(0x1012, 16), 0x1014: array(0x1015, 100), 0x1015: array(0x74, 0),
        0x1016: array(0x0674, 16), 0x1017: pointer(0x1016), 0x1018: array(0x74, 15), **row(0x1019, 32, modifier, 0x1016)}, b"",
     T(0x1004, (5, 0x1000)), T(0x1005, (7, 0xa)), T(0x1006, (6, OTHER)), T(0x1007, "enum E[]"), T(0x1008, "enum E[]"), T(0x1009, GONE),
     T(0x100a, "void[3][]"), T(0x100d, "unhandled type /* 0x1203 */[]"), T(0x100f, "int,char[]"), T(0x1011, "void ()(int,char[2]"),
     T(0x1011, "void ()(int,char[4]", size=4), T(0x1013, "void (*)(int,char)[4]"), T(0x1014, "int[][0]"), T(0x1016, "int*[2]"),
     T(0x1016, "int *[4]", size=4, flags=SPACE_BEFORE_POINTER), T(0x1017, "int*[2]*"), T(0x1018, "int[3]"), S(0x1019, (14, 0x1016)), S(0x101a, 16))

# Sizes of forward references: one key for each record, its unique name if there is one, else its name.
case("forwards", {
        0x1000: class_("A", 1, forward=True),
        0x1001: class_("B", 2, unique="A"),                          # found by 0x1000: its key is A
        0x1002: class_("A", 3, forward=True, unique="u"),
        0x1003: class_("A", 4),                                      # not found by 0x1002, whose key is u
        0x1004: class_("Q", 5, forward=True),
        0x1005: class_("Q", 6, forward=True),                        # no full one
        0x1006: MALFORMED,
        0x1007: rec(0x1505, u16(0) + u16(0) + u32(0) * 3 + u16(99) + b"Q"),      # cut inside its name
        0x1008: UNLISTED,
        0x1009: rec(0x1203, b"Q\0"),
        0x100a: enum("Q", 0x74),
        0x100b: union("Q", 7),
        0x100c: class_("Q", 8),
        0x100d: union("Q", 9, forward=True),                         # nothing behind it: its own size
        0x100e: class_("R", 10, kind=0x1504, forward=True),
        0x100f: union("R", 11, forward=True, unique="R"),
        0x1010: class_("S", 12, kind=0x1519, unique="R"),
        0x1011: class_("V", 13, forward=True, unique=""),
        0x1012: class_("W", 14, unique=""),                          # an empty unique name is a key
        0x1013: enum("E", 0x1004, forward=True),
        0x1014: modifier(0x1002),
        0x1015: array(0x100e, 24),
        0x1016: class_("S", 2 ** 64 - 1),
        0x1017: array(0x1016, 4294967295),
        0x1018: class_("T", 15, forward=True),
        0x1019: class_("t", 16),
        0x101a: class_("T", 17),
        0x101b: array(0x101c, 0), 0x101c: class_("Z", 0), 0x101d: array(0x101e, 40), 0x101e: array(0x1019, 0),
        0x101f: pointer(0x74, size=0), 0x1020: array(0x101f, 8), 0x1021: pointer(0x74, size=63),
    }, b"",
     S(0x1000, 2), S(0x1002, 3), S(0x1003, 4), S(0x1004, 7), S(0x1005, 7), S(0x100d, 9), S(0x100e, 12), S(0x100f, 12), S(0x1011, 14), S(0x1013, 7),
     S(0x1014, 3), T(0x1015, "class R[2]"), S(0x1016, 18446744073709551615), T(0x1017, "struct S[0]"), S(0x1017, 4294967295), S(0x1018, 17),
     T(0x101b, "struct Z[]"), T(0x101d, "struct t[][0]"), S(0x101f, 0), T(0x1020, "int*[]"), S(0x1021, 63), S(0x1006, 0), S(0x1007, 0))

# Sizes by kind.
case("size-kinds", {
        0x1000: arguments(0x74), 0x1001: procedure(3, 0x1000), 0x1002: method(3, 0x1003, 0, 0x1000), 0x1003: class_("C", 40000),
        0x1004: union("U", 12),
        0x1005: enum("E", 0x75), 0x1006: enumerate_("e", u16(5)), 0x1007: enumerate_("e", u16(0x8000) + u8(5)),
        0x1008: enumerate_("e", u16(0x8001) + u16(5)),
        0x1009: enumerate_("e", u16(0x8002) + u16(5)), 0x100a: enumerate_("e", u16(0x8003) + u32(5)), 0x100b: enumerate_("e", u16(0x8004) + u32(5)),
        0x100c: enumerate_("e", u16(0x8009) + u64(5)), 0x100d: enumerate_("e", u16(0x800a) + u64(5)), 0x100e: rec(0x1205),
        0x100f: modifier(0x0620)}, b"",
     S(0x1000, 0), S(0x1001, 8), S(0x1001, 4, size=4), S(0x1002, 16, size=16), S(0x1003, 40000), S(0x1004, 12), S(0x1005, 4), S(0x1006, 2),
     S(0x1007, 1),
     S(0x1008, 2), S(0x1009, 2), S(0x100a, 4), S(0x100b, 4), S(0x100c, 8), S(0x100d, 8), S(0x100e, 0), S(0x100f, 8), S(0x100f, 4, size=4),
     S(0x1010, 0),
     S(0, 0), S(3, 0), S(0x0403, 8), S(0x0100, 16, size=16), S(0x42, 10), S(0x53, 32), S(0x44, 6), S(0x08, 4), S(0x14, 16), S(0x7c, 1), S(0x0800, 0),
     T(0x1006, "enum class e"), T(0x1006, "e", flags=NAME_ONLY), T(0x1004, "union U"), T(0x1004, "U", flags=NAME_ONLY))

# Records cut short: of each kind a whole record, and after it the same without its last byte, its last two, and so on. Every one of these lacks a
# field, a member byte of a pointer, an entry or the closing zero of a name, so it is malformed.
WHOLE = [
    (modifier(0x74), "const int"), (pointer(0x74), "int*"), (pointer(0x74, mode=2), "int::*"), (pointer(0x74, mode=3), "int::*"),
    (procedure(3, 0x74), "void ()(int"), (method(3, 0x74, 0, 0x1000), (9, 0x1000)), (arguments(0x74, 0x70), "int,char"),
    (enumerate_("e", u16(0x8003) + u32(1)), "enum class e"), (array(0x74, 40000), "int[10000]"), (class_("C", 40000), "struct C"),
    (class_("C", 1, kind=0x1504, unique="c"), "class C"), (class_("C", 1, kind=0x1519), "interface C"), (union("U", 1, unique="u"), "union U"),
    (enum("E", 0x74, unique="e"), "enum E"),
]
CUT, CUT_CALLS = {}, []
for whole, text in WHOLE:
    for length in range(len(whole), 3, -1):
        at = 0x1000 + len(CUT)
        CUT[at] = u16(length - 2) + whole[2:length]
        CUT_CALLS.append(T(at, text if length == len(whole) else (5, at)))
case("cut", CUT, b"", *CUT_CALLS)
WHOLE_IDS = [(function(0, 0x1001, "f"), "f()"), (member(0x74, 0x1002, "m"), "static void int::m()"), (strings(0x74, 0x74), '"int" "int"'),
             (string("s"), "s")]
CUT_IDS, CUT_CALLS = {}, []
for whole, text in WHOLE_IDS:
    for length in range(len(whole), 3, -1):
        at = 0x1000 + len(CUT_IDS)
        CUT_IDS[at] = u16(length - 2) + whole[2:length]
        CUT_CALLS.append(I(at, text if length == len(whole) else (5, at)))
case("cut-ids", {0x1000: arguments(), 0x1001: procedure(0, 0x1000), 0x1002: method(3, 0x74, 0, 0x1000)}, CUT_IDS, *CUT_CALLS)

# Size numbers and enumerate values by their leads, pointer modes, and bytes behind a record's fields.


def sized(size):
    return rec(0x1505, u16(0) + u16(0) + u32(0) * 3 + size + b"C\0")


def bytes_of(size):
    return rec(0x1503, u32(0x74) + u32(0x23) + size + b"\0")


case("numbers", {
        0x1000: sized(u16(0)), 0x1001: sized(u16(0x7fff)), 0x1002: sized(u16(0x8002) + u16(0xffff)), 0x1003: sized(u16(0x8004) + u32(0xffffffff)),
        0x1004: sized(u16(0x800a) + u64(2 ** 63 + 5)), 0x1005: sized(u16(0x8000) + u8(1)), 0x1006: sized(u16(0x8001) + u16(1)),
        0x1007: sized(u16(0x8003) + u32(1)), 0x1008: sized(u16(0x8009) + u64(1)), 0x1009: sized(u16(0x8005) + u64(1)), 0x100a: sized(u16(0xffff)),
        0x100b: bytes_of(u16(0x7ffc)), 0x100c: bytes_of(u16(0x8002) + u16(0xfffc)), 0x100d: bytes_of(u16(0x8004) + u32(0xffffffff)),
        0x100e: bytes_of(u16(0x800a) + u64(0xffffffff)), 0x100f: bytes_of(u16(0x800a) + u64(0x100000000)), 0x1010: bytes_of(u16(0x8001) + u16(4)),
        0x1011: enumerate_("e", u16(0x7fff)), 0x1012: enumerate_("e", u16(0x8005) + u64(0)), 0x1013: enumerate_("e", u16(0x800b) + u64(0)),
        0x1014: pointer(0x74, mode=5), 0x1015: pointer(0x74, mode=7), 0x1016: modifier(0x74, 0xfffe),
        0x1017: rec(0x1001, u32(0x74) + u16(1) + b"behind"),
        0x1018: rec(0x1201, u32(1) + u32(0x74) + u32(0x70)), 0x1019: rec(0x1201, u32(0xffffffff) + u32(0x74)), 0x101a: rec(0x1201, u32(0x40000000)),
        0x101b: rec(0x1002, u32(0x74) + u32(0xffffffff & ~(7 << 5))), 0x101c: rec(0x1002, u32(0x74) + u32(0)),
        0x101d: procedure(3, 0x1018, attributes=0xfd),
        0x101e: class_("C", 1, unique="c"), 0x101f: rec(0x1505, u16(0) + u16(0xfd7f) + u32(0) * 3 + u16(6) + b"C\0"),
        # bit 1 alone of the attributes marks a constructor, whose result is not read
        0x1020: procedure(OTHER, 0x1018, attributes=0xff), 0x1021: method(OTHER, 0x1000, 0, 0x1018, attributes=0xff),
        0x1022: method(3, 0x1000, 0, 0x1018, attributes=0xfd),
    }, b"",
     S(0x1000, 0), S(0x1001, 32767), S(0x1002, 65535), S(0x1003, 4294967295), S(0x1004, 9223372036854775813), T(0x1005, (5, 0x1005)),
     T(0x1006, (5, 0x1006)), T(0x1007, (5, 0x1007)), T(0x1008, (5, 0x1008)), T(0x1009, (5, 0x1009)), T(0x100a, (5, 0x100a)), S(0x1005, 0),
     T(0x100b, "int[8191]"), T(0x100c, "int[16383]"), T(0x100d, "int[1073741823]"), T(0x100e, "int[1073741823]"), T(0x100f, (5, 0x100f)),
     T(0x1010, (5, 0x1010)), S(0x100f, 0), S(0x1011, 2), T(0x1012, (5, 0x1012)), T(0x1013, (5, 0x1013)), T(0x1014, (5, 0x1014)),
     T(0x1015, (5, 0x1015)),
     T(0x1016, "int"), T(0x1017, "const int"), T(0x1018, "int"), T(0x1019, (5, 0x1019)), T(0x101a, (5, 0x101a)), T(0x101b, "int* const"),
     S(0x101b, 63),
     T(0x101c, "int*"), S(0x101c, 0), F("f", 0x101d, "void f(int)"), T(0x101e, "struct C"), S(0x101f, 6), T(0x101f, "struct C"),
     F("f", 0x1020, "f(int)"), F("f", 0x1021, "static f(int)"), F("f", 0x1022, "static void f(int)"))

# Document 02, Note 5: each of the sixteen digits by itself, in pairs, and all in a row; decimal digits too.
PAIRS = "1e 2d 3c 4b 5a 69 78 87 96 a5 b4 c3 d2 e1 f0"
case("digits", {
        0x1000: array(0x70, 1234567890), 0x1001: array(0x70, 987654321), 0x1002: array(0x70, 2), 0x1003: array(0x70, 3), 0x1004: array(0x70, 4),
        0x1005: array(0x70, 5), 0x1006: array(0x70, 6), 0x1007: array(0x70, 7), 0x1008: array(0x70, 8), 0x1009: array(0x70, 9), 0x100a: array(0x70, 10),
        0x100b: rec(0x89ab, u16(0)), 0x100c: rec(0xfedc, u16(0))}, {0x1000: string("s")},
     *[I(number, f"<missing type 0x{digit}>") for number, digit in enumerate("0123456789abcdef")],
     *[I(number, f"<missing type 0x{pair}>") for number, pair in zip(range(30, 241, 15), PAIRS.split())],
     T(0x10fedcba, "<missing type 0x10fedcba>"), T(0x23456789, "<missing type 0x23456789>"),
     T(0x100b, "<unimplemented type kind 0x89ab>"), T(0x100c, "<unimplemented type kind 0xfedc>"),
     *[T(0x1000 + number, f"char[{digit}]") for number, digit in enumerate("23456789", 2)],
     T(0x1000, "char[1234567890]"), T(0x1001, "char[987654321]"), T(0x100a, "char[10]"))

# A stream that begins at another index than 0x1000, with bytes behind its records.
case("first", stream({0x1800: pointer(0x1801), 0x1801: class_("C", 1), 0x1802: pointer(0x1000)}, first=0x1800) + b"behind",
     stream({0x3000: string("s"), 0x3001: function(0x3000, 0x1803, "f")}, first=0x3000),
     T(0x1800, "struct C*"), T(0x1802, "<missing type 0x1000>"), T(0x17ff, "<missing type 0x17ff>"), T(0x1803, "<missing type 0x1803>"),
     I(0x3000, "s"), I(0x2fff, "<missing type 0x2fff>"), I(0x3002, "<missing type 0x3002>"), I(0x3001, (8, 0x1803)), T(0x74, "int"))

# The 43 primitives, alone and with an indirection, and every other low byte, which is missing.
KNOWN = [
    (0x00, "<NoType>", 0), (0x03, "void", 0), (0x08, "HRESULT", 4),
    (0x10, "signed char", 1), (0x20, "unsigned char", 1), (0x70, "char", 1), (0x7c, "char8_t", 1), (0x68, "int8_t", 1), (0x69, "uint8_t", 1),
    (0x71, "wchar_t", 2), (0x7a, "char16_t", 2), (0x7b, "char32_t", 4),
    (0x11, "short", 2), (0x21, "unsigned short", 2), (0x72, "int16_t", 2), (0x73, "uint16_t", 2),
    (0x12, "long", 4), (0x22, "unsigned long", 4), (0x74, "int", 4), (0x75, "unsigned int", 4),
    (0x13, "long long", 8), (0x23, "unsigned long long", 8), (0x76, "int64_t", 8), (0x77, "uint64_t", 8),
    (0x14, "int128_t", 16), (0x24, "uint128_t", 16), (0x78, "int128_t", 16), (0x79, "uint128_t", 16),
    (0x46, "float16_t", 2), (0x40, "float", 4), (0x45, "float", 4), (0x44, "float48_t", 6), (0x41, "double", 8), (0x42, "long double", 10),
    (0x43, "long double", 16), (0x50, "complex<float>", 8), (0x51, "complex<double>", 16), (0x52, "complex<long double>", 20),
    (0x53, "complex<long double>", 32), (0x30, "bool", 1), (0x31, "bool16_t", 2), (0x32, "bool32_t", 4), (0x33, "bool64_t", 8),
]
CODES = [code for code, _, _ in KNOWN]
case("primitives", {0x1000: arguments()}, b"",
     *[T(code, name) for code, name, _ in KNOWN], *[S(code, size) for code, _, size in KNOWN],
     *[T(0x600 + code, name + " *", flags=SPACE_BEFORE_POINTER) for code, name, _ in KNOWN], *[S(0x100 + code, 4, size=4) for code in CODES],
     *[T(code, f"<missing type 0x{code:x}>") for code in range(256) if code not in CODES],
     *[T(0x074 + 256 * n, "int*" if n < 8 else f"<missing type 0x{n:x}74>") for n in range(1, 16)])

# Texts: signs, spaces, words and flags.
TEXTS = {
    0x1000: arguments(0x74),
    0x1001: procedure(3, 0x1000),
    0x1002: modifier(0x1001),
    0x1003: pointer(0x1002),
    0x1004: class_("C", 1),
    0x1005: arguments(),
    0x1006: method(0x74, 0x1004, 0, 0x1005),
    0x1007: modifier(0x1006),
    0x1008: pointer(0x1007, mode=3),
    0x1009: class_("T*", 1),
    0x100a: pointer(0x1009),
    0x100b: class_("", 1),
    0x100c: pointer(0x100b),
    0x100d: rec(0x1203),
    0x100e: pointer(0x100d),
    0x100f: modifier(0x1004),
    0x1010: pointer(0x100f),
    0x1011: pointer(0x1010, const=True),
    0x1012: pointer(0x1010, mode=1),
    0x1013: pointer(0x1010, mode=4),
    0x1014: pointer(0x74, mode=2),
    0x1015: method(3, 0x1004, 0x1010, 0x1000),     # this pointer to const C
    0x1016: pointer(0x1004),
    0x1017: method(3, 0x1004, 0x1016, 0x1000),
    0x1018: pointer(0x1015, mode=3),
    0x1019: method(3, 0x1004, 0x1011, 0x1000),     # this pointer to a pointer: an argument
    0x101a: modifier(0x0474),
    0x101b: modifier(0x1010),
    0x101c: pointer(0x101b),
    0x101d: pointer(0x1001),
    0x101e: pointer(0x101d),
    0x101f: modifier(0x101d),
    0x1020: procedure(0x101d, 0x1021),
    0x1021: arguments(0x101d, 0x1012),
    0x1022: procedure(0x1001, 0x1000),             # a bare procedure as result
    0x1023: arguments(0x1006, 0x1022),
    0x1024: procedure(0, 0x1023),
    0x1025: class_("I", 1, kind=0x1519),
    0x1026: enum("E", 0x74),
    0x1027: pointer(0x0674),
    0x1028: method(3, 0x74, 0x0674, 0x1005),       # a primitive pointer is no pointer record
    0x1029: method(0, 0x1004, 0x1016, 0x1005),
    0x102a: procedure(0, 0),
    0x102b: pointer(0),
    0x102c: pointer(0x102d), 0x102d: array(0x74, 12),
    0x102e: modifier(0x102d),
    0x102f: class_("C", 1, kind=0x1504),
    0x1030: rec(0x1205), 0x1031: rec(0x1206), 0x1032: rec(0x1204), 0x1033: rec(0x1207), 0x1034: rec(0x1202),
    0x1035: modifier(0x102f),
    0x1036: pointer(0x1035),
    0x1037: method(3, 0x1004, 0x1036, 0x1000),     # this pointer to const of another class
    0x1038: pointer(0x1016),
    0x1039: method(3, 0x1004, 0x1038, 0x1000),     # this pointer to a pointer to the class
    0x103a: pointer(0x103b), 0x103b: enum("E", 0x1004),
    0x103c: method(3, 0x1004, 0x103a, 0x1000),     # this pointer to an enum over the class
    0x103d: pointer(0x1001, const=True),
    0x103e: pointer(0x103d),
    0x103f: pointer(0x101f),
    0x1040: pointer(0x74, const=True),
    0x1041: pointer(0x1040, mode=1),
    0x1042: pointer(0x1043), 0x1043: modifier(0x1042),
    0x1044: pointer(0x1006, mode=3, const=True), 0x1045: pointer(0x1044),
}
SP = SPACE_BEFORE_POINTER
case("texts", TEXTS, {
        0x1000: function(0x1001, 0x1001, "f"), 0x1001: BUILD, 0x1002: string(""), 0x1003: function(0x1002, 0x1001, ""),
        0x1004: member(0x1004, 0x1015, "m"),
        0x1005: member(0x1004, 0x1006, "m"), 0x1006: member(0, 0x1006, "m"), 0x1007: rec(0x1606), 0x1008: rec(0x1607), 0x1009: rec(0x1203),
        0x100a: member(0x1004, 0x1019, ""), 0x100b: function(0x100c, 0x1001, "f"), 0x100c: function(0x1005, 0x1001, "g")},
     # const below a pointer to a procedure or method has no space before it
     T(0x1003, "void (const*)(int)"), T(0x1003, "void (const *)(int)", flags=SP), T(0x1008, "int (struct Cconst::*)()"),
     T(0x1008, "int (Cconst ::*)()", flags=SP | NAME_ONLY),
     T(0x101d, "void (*)(int)", flags=SP), T(0x101e, "void (**)(int)", flags=SP), T(0x101f, "void (* const)(int)"),
     T(0x101f, "void (* const)(int)", flags=SP),
     # a name that ends in a sign, and a text without bytes
     T(0x100a, "struct T**"), T(0x100a, "struct T**", flags=SP), T(0x100c, " *", flags=SP | NAME_ONLY), T(0x100c, "*", flags=NAME_ONLY),
     T(0x100b, "", flags=NAME_ONLY, room=0),
     T(0x100b, "struct "), T(0x100c, "struct  *", flags=SP),
     # marks and kinds read by name only do not change with the flags
     T(0x100d, "unhandled type /* 0x1203 */"), T(0x100d, "unhandled type /* 0x1203 */", flags=63), T(0x100e, "unhandled type /* 0x1203 */*"),
     T(0x100e, "unhandled type /* 0x1203 */ *", flags=SP), T(NONE, GONE, flags=63), F("f", 0x100d, "f"),
     # signs in a row
     T(0x1010, "struct C const*"), T(0x1010, "struct C const *", flags=SP), T(0x1011, "struct C const** const"),
     T(0x1011, "struct C const ** const", flags=SP),
     T(0x1012, "struct C const*&"), T(0x1013, "struct C const*&&"), T(0x1013, "struct C const *&&", flags=SP), T(0x1014, "int::*"),
     T(0x1014, "int ::*", flags=SP),
     T(0x101a, "int const*"), T(0x101a, "int const *", flags=SP), T(0x101b, "struct C const* const"), T(0x101c, "struct C const* const*"),
     T(0x101c, "struct C const * const *", flags=SP), T(0x1027, "int**"), T(0x1027, "int **", flags=SP), T(0x102c, "int[3]*"),
     T(0x102c, "int[3] *", flags=SP),
     T(0x102e, "const int[3]"), T(0x1003, "void (const*)(int)", flags=NO_FUNCTION_RETURN | NO_ARGUMENTS),
     T(0x103e, "void (* const*)(int)"), T(0x103e, "void (* const *)(int)", flags=SP), T(0x103f, "void (* const*)(int)"),
     T(0x103f, "void (* const *)(int)", flags=SP), T(0x1041, "int* const&"), T(0x1041, "int * const &", flags=SP),
     T(0x1045, "int (struct C::* const*)()"),
     T(0x1045, "int (C::* const *)()", flags=SP | NAME_ONLY),
     # a pointer's modifier's target is opened too
     T(0x1042, (12, 0x1042)), T(0x1043, (12, 0x1043)),
     # kinds read by name only, and their neighbours
     T(0x1030, "unhandled type /* 0x1205 */"), T(0x1031, "unhandled type /* 0x1206 */"), T(0x1032, "<unimplemented type kind 0x1204>"),
     T(0x1033, "<unimplemented type kind 0x1207>"), T(0x1034, "<unimplemented type kind 0x1202>"),
     # methods
     F("m", 0x1037, "void m(class C const*,int)"), F("m", 0x1039, "void m(struct C**,int)"), F("m", 0x103c, "void m(enum E*,int)"),
     F("m", 0x1015, "void m(int) const"), F("m", 0x1017, "void m(int)"), T(0x1015, "void ()(int)"), T(0x1018, "void (struct C::*)(int)"),
     T(0x1018, "void (struct C::*)", flags=NO_ARGUMENTS), F("m", 0x1015, "void m", flags=NO_ARGUMENTS),
     F("m", 0x1019, "void m(struct C const** const,int)"),
     F("m", 0x1019, "m(C const ** const, int)", flags=SP | NAME_ONLY | SPACE_AFTER_COMMA | NO_FUNCTION_RETURN), F("m", 0x1028, "void m(int*)"),
     F("m", 0x1029, "<NoType> m()"), F("m", 0x1006, "static int m()"), F("m", 0x1006, "int m()", flags=NO_MEMBER_FUNCTION_STATIC),
     T(0x1006, "int ()()"),
     # NO_FUNCTION_RETURN acts at bare procedures and methods at any depth, not below pointers
     F("f", 0x1020, "void (*)(int) f(void (*)(int),struct C const*&)"), F("f", 0x1020, "f(void (*)(int),struct C const*&)", flags=NO_FUNCTION_RETURN),
     F("f", 0x1022, "void ()(int f(int)"), F("f", 0x1024, "f(int ()(),void ()(int ()(int)"),
     F("f", 0x1024, "f(()(),()(int)", flags=NO_FUNCTION_RETURN),
     T(0x1022, "void ()(int ()(int"), T(0x1022, "()(int", flags=NO_FUNCTION_RETURN), T(0x1001, "void ()(int", flags=NO_ARGUMENTS),
     # index 0
     T(0x102a, "()(<NoType>"), F("f", 0x102a, "f(<NoType>)"), T(0x102b, "<NoType>*"), T(0, "<NoType>"), F("", 0x102a, "<name omitted>(<NoType>)"),
     F("", 0x1004, ""), F("x", 0x1004, "x"), T(0x1025, "interface I"), T(0x1025, "I", flags=NAME_ONLY), T(0x1026, "enum E"), T(0x102f, "class C"),
     # ids
     I(0x1000, "void <unhandled id scope 0x1603>::::f(int)"), I(0x1001, "<unhandled id scope 0x1603>::"), I(0x1003, "void ::<name omitted>(int)"),
     I(0x1004, "void struct C::m(int) const"), I(0x1004, "C::m(int) const", flags=NO_FUNCTION_RETURN | NAME_ONLY),
     I(0x1005, "static int struct C::m()"),
     I(0x1005, "int C::m", flags=NO_MEMBER_FUNCTION_STATIC | NAME_ONLY | NO_ARGUMENTS), I(0x1006, "static int <NoType>::m()"),
     I(0x1007, "<unhandled id scope 0x1606>::"), I(0x1008, "<unhandled id scope 0x1607>::"), I(0x1009, "<unimplemented type kind 0x1203>"),
     I(0x100a, "void struct C::<name omitted>(struct C const** const,int)"), I(0x100b, "void void static int struct C::m()::g(int)::f(int)"))

# Which strings name an anonymous namespace: `?A0x`, one plus or none, hex digits of a value below 2^32.
ANONYMOUS = "`anonymous namespace'"
STRINGS = [("?A0x1f", True), ("?A0xDEADBEEF", True), ("?A0x+1f", True), ("?A0xffffffff", True), ("?A0x100000000", False),
("?A0x00000000000001", True),
           ("?A0x", False), ("?A0x+", False), ("?A0x++1", False), ("?A0x-1", False), ("?A0x 1", False), ("?A0x1g", False), ("?A0X1", False),
           ("?A0x1 ", False),
           ("A0x1", False), ("x?A0x1", False), ("?A0x+ffffffff", True), ("?A0x0", True), ("?A0x1+", False), ("", False)]
case("strings", {0x1000: arguments(), 0x1001: procedure(0, 0x1000), 0x1002: class_("?A0x1f", 1)},
     {**{0x1000 + i: string(name) for i, (name, _) in enumerate(STRINGS)}, 0x1014: function(0x1000, 0x1001, "?A0x1f"),
     0x1015: strings(0x1002, 0x1002)},
     *[I(0x1000 + i, ANONYMOUS if known else name) for i, (name, known) in enumerate(STRINGS)],
     I(0x1014, ANONYMOUS + "::?A0x1f()"), I(0x1015, '"struct ?A0x1f" "struct ?A0x1f"'), F("?A0x1f", 0x1001, "?A0x1f()"))

# Document 02, Note 2: bytes of a name, and the text in which each maximal ill-formed part is replaced. Table 3-7 of the Unicode Standard says which
# sequences are well-formed; the last row is that of its table 3-11.
R = b"\xef\xbf\xbd"
PARTS = [
    ("63 61 66 E9", b"caf" + R), ("E9 BC", R), ("E2 82", R), ("E2 82 41", R + b"A"), ("E2 28 A1", R + b"(" + R), ("C0 AF", R * 2), ("E0 80 AF", R * 3),
    ("ED A0 80", R * 3), ("F0 80 80 80", R * 4), ("F0 9F 98", R), ("F0 9F 98 41", R + b"A"), ("F4 90 80 80", R * 4), ("F5 80", R * 2), ("80", R),
    ("C3 A9", b"\xc3\xa9"), ("EF BF BD", R), ("F0 90 80 F0 90 80 80", R + b"\xf0\x90\x80\x80"),
    # the ends of each row of table 3-7, and one byte past them
    ("7F", b"\x7f"), ("C1 BF", R * 2), ("C2 80", b"\xc2\x80"), ("DF BF", b"\xdf\xbf"), ("C2 7F", R + b"\x7f"), ("DF C0", R * 2), ("C2", R),
    ("E0 9F BF", R * 3), ("E0 A0 80", b"\xe0\xa0\x80"), ("E0 BF BF", b"\xe0\xbf\xbf"), ("E0 C0 80", R * 3), ("E1 80 80", b"\xe1\x80\x80"),
    ("EC BF BF", b"\xec\xbf\xbf"), ("EC BF C0", R * 2), ("ED 9F BF", b"\xed\x9f\xbf"), ("ED 80 80", b"\xed\x80\x80"), ("ED BF BF", R * 3),
    ("EE 80 80", b"\xee\x80\x80"), ("EF BF BF", b"\xef\xbf\xbf"), ("EE 7F 80", R + b"\x7f" + R), ("F0 8F BF BF", R * 4),
    ("F0 90 80 80", b"\xf0\x90\x80\x80"), ("F0 BF BF BF", b"\xf0\xbf\xbf\xbf"), ("F1 80 80 80", b"\xf1\x80\x80\x80"),
    ("F3 BF BF BF", b"\xf3\xbf\xbf\xbf"), ("F3 BF BF C0", R * 2), ("F3 BF 7F BF", R + b"\x7f" + R), ("F4 80 80 80", b"\xf4\x80\x80\x80"),
    ("F4 8F BF BF", b"\xf4\x8f\xbf\xbf"), ("F5 80 80 80", R * 4), ("FF FE", R * 2), ("BF 80", R * 2),
    # a whole sequence between ill-formed ones, and behind a cut one
    ("E9 C3 A9 E9", R + b"\xc3\xa9" + R), ("F0 9F E2 82 AC", R + b"\xe2\x82\xac"), ("F1 80 C3", R * 2), ("E1 80 E2 80 C3 41", R * 3 + b"A"),
    ("E1 80 E2 F0 91 92 F1 BF 41", R * 4 + b"A"),
]
PARTS = [(bytes.fromhex(name), text) for name, text in PARTS]
case("parts", {0x1000 + i: class_(name, 1) for i, (name, _) in enumerate(PARTS)}, {0x1000 + i: string(name) for i, (name, _) in enumerate(PARTS)},
     *[T(0x1000 + i, text, flags=NAME_ONLY) for i, (_, text) in enumerate(PARTS)], *[I(0x1000 + i, text) for i, (_, text) in enumerate(PARTS)])
# The same behind runs of letters, so that a part stands at each place of eight bytes and at the end.
LETTERS = b"abcdefghijklmnopq"
case("parts-in-runs", {0x1000 + i: class_(LETTERS[:i] + b"\xe9" + LETTERS[i:], 1) for i in range(18)},
     {0x1000 + i: string(LETTERS[:i] + b"\xe2\x82\xac\xe2\x82" + LETTERS[i:]) for i in range(18)},
     *[T(0x1000 + i, LETTERS[:i] + R + LETTERS[i:], flags=NAME_ONLY) for i in range(18)],
     *[I(0x1000 + i, LETTERS[:i] + b"\xe2\x82\xac" + R + LETTERS[i:]) for i in range(18)])
# Every record that has a name, and none other: a forward reference is matched by its bytes, the caller's name stays as it is.
CAFE, TEXT = b"caf\xe9", b"caf" + R
NAMED = {
    0x1000: arguments(0x1003), 0x1001: procedure(3, 0x1000), 0x1002: class_(CAFE, 8, kind=0x1504), 0x1003: class_(CAFE, 8),
    0x1004: class_(CAFE, 8, kind=0x1519), 0x1005: union(CAFE, 8), 0x1006: enum(CAFE, 0x74), 0x1007: enumerate_(CAFE, u16(1)),
    0x1008: pointer(0x1003), 0x1009: method(0x74, 0x1003, 0x1008, 0x1000), 0x100a: array(0x1003, 16),
    # a forward reference, a definition that has its text and not its bytes, one that has its bytes, and the first with a unique name
    0x100b: class_(b"A\xe9", 1, forward=True), 0x100c: class_(b"A\xe8", 2), 0x100d: class_(b"A\xe8", 3, forward=True), 0x100e: class_(b"A" + R, 4),
    0x100f: class_(b"A\xe9", 5), 0x1010: class_(b"B\xe9", 6, forward=True, unique=b"u\xe9"), 0x1011: class_(b"B\xe9", 7, unique=b"u\xe8"),
    0x1012: class_(b"C\xe9", 9, unique=b"u\xe9"),
    # names that end in a sign, in an ill-formed part, and that are all ill-formed
    0x1013: class_(b"\xe9*", 1), 0x1014: pointer(0x1013), 0x1015: class_(b"*\xe9", 1), 0x1016: pointer(0x1015), 0x1017: class_(b"\xff", 1),
    0x1018: class_(b"", 1),
}
NAMED_IDS = {
    0x1000: function(0, 0x1001, CAFE), 0x1001: member(0x1003, 0x1009, CAFE), 0x1002: string(CAFE), 0x1003: function(0x1002, 0x1001, b"\xe9"),
    0x1004: function(0, 0x1001, ""), 0x1005: strings(0x1003, 0x1006), 0x1006: string(b"?A0x1f\xe9"), 0x1007: string(b"?A0x\xe9"), 0x1008: string(b"\xe9?A0x1f"),
    0x1009: string("?A0x1f"),
}
case("raw-names", NAMED, NAMED_IDS,
     T(0x1002, b"class " + TEXT), T(0x1003, b"struct " + TEXT), T(0x1004, b"interface " + TEXT), T(0x1005, b"union " + TEXT), T(0x1006, b"enum " + TEXT),
     T(0x1007, b"enum class " + TEXT), T(0x1002, TEXT, flags=NAME_ONLY), T(0x1005, TEXT, flags=NAME_ONLY), T(0x1008, b"struct " + TEXT + b"*"),
     T(0x100a, b"struct " + TEXT + b"[2]"), T(0x1001, b"void ()(struct " + TEXT),
     I(0x1000, b"void " + TEXT + b"(struct " + TEXT + b")"), I(0x1001, b"int struct " + TEXT + b"::" + TEXT + b"(struct " + TEXT + b")"), I(0x1002, TEXT),
     I(0x1003, b"void " + TEXT + b"::" + R + b"(struct " + TEXT + b")"), I(0x1004, b"void <name omitted>(struct " + TEXT + b")"),
     I(0x1005, b'"struct ' + TEXT + b'" "enum ' + TEXT + b'"'), I(0x1006, b"?A0x1f" + R), I(0x1007, b"?A0x" + R), I(0x1008, R + b"?A0x1f"), I(0x1009, ANONYMOUS),
     # the caller's name
     F(CAFE, 0x1001, b"void " + CAFE + b"(struct " + TEXT + b")"), F(CAFE, 0x1009, b"int " + CAFE + b"(struct " + TEXT + b")"), F(CAFE, 0, CAFE),
     F(CAFE, 0x1003, CAFE), F(b"\xed\xa0\x80", 0, b"\xed\xa0\x80"), F("", 0x1001, b"<name omitted>(struct " + TEXT + b")", flags=NO_FUNCTION_RETURN),
     # sizes of forward references, and their own texts
     S(0x100b, 5), S(0x100c, 2), S(0x100d, 3), S(0x1010, 9), T(0x100b, b"struct A" + R), T(0x1010, b"struct B" + R),
     # signs
     T(0x1014, b"struct " + R + b"**", flags=SP), T(0x1016, b"struct *" + R + b" *", flags=SP),
     # room: a replaced byte takes three
     T(0x1017, R, flags=NAME_ONLY, room=3), T(0x1017, (15, 0), flags=NAME_ONLY, room=2), T(0x1017, (15, 0), flags=NAME_ONLY, room=0),
     T(0x1018, b"", flags=NAME_ONLY, room=0), I(0x1002, TEXT, room=6), I(0x1002, (15, 0), room=5), I(0x1002, (15, 0), room=3), F(CAFE, 0, CAFE, room=4),
     F(CAFE, 0, (15, 0), room=3))
# A long name, all of it ill-formed: three times as long in the text, and a whole one that just fits.
case("raw-long", GOOD, {0x1000: string(b"\xe9" * 1365), 0x1001: string(b"\xc3\xa9" * 2048), 0x1002: string(b"\xe9" * 50000)},
     I(0x1000, R * 1365), I(0x1000, R * 1365, room=4095), I(0x1000, (15, 0), room=4094), I(0x1001, b"\xc3\xa9" * 2048), I(0x1002, (15, 0)))

with open(os.path.join(CRATE, "args"), "w") as f:
    f.write("".join(name + "\n" for name in NAMES))
