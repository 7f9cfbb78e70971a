#!/usr/bin/env python3
"""damaged.py DIR: writes small damaged streams into DIR and prints the lines that `dump_records` must print for them.

Each case has its bytes and, beside them, its line, which was worked out by hand from documents 01 and 02 and cvinfo.h. No line comes from a program."""
import os
import sys

OUT = sys.argv[1]


def u8(n):
    return bytes([n])


def u16(n):
    return n.to_bytes(2, "little")


def u32(n):
    return n.to_bytes(4, "little")


def u64(n):
    return n.to_bytes(8, "little")


def rec(kind, fields=b""):
    return u16(len(fields) + 2) + u16(kind) + fields


def header(first, end, size, header_size=56):
    return u32(20040203) + u32(header_size) + u32(first) + u32(end) + u32(size) + bytes(36)


def stream(records, first=0x1000, **changed):
    body = b"".join(records)
    end = changed.get("end", first + len(records))
    return header(first, end, changed.get("size", len(body)), changed.get("header_size", 56)) + body + changed.get("after", b"")


def case(which, name, data, lines):
    with open(os.path.join(OUT, name), "wb") as f:
        f.write(data)
    print(which, name)
    for line in lines:
        print(line)


def table(which, name, rows):
    case(which, name, stream([rec(kind, fields) for kind, fields, _ in rows]),
         [f"0x{0x1000 + i:x} 0x{kind:x} {line}" for i, (kind, _, line) in enumerate(rows)])


int_list = rec(0x1201, u32(1) + u32(0x74))
int_line = "0x1000 0x1201 arguments 0x74"

# Refusal 3: each condition of the header, one short of it or one past it.
case("types", "empty.bin", b"", ["refused 3 0x0"])
case("types", "one-byte.bin", b"\0", ["refused 3 0x0"])
case("ids", "one-byte.bin", b"\0", ["refused 3 0x1"])
case("types", "header-cut.bin", header(0x1000, 0x1000, 0)[:55], ["refused 3 0x0"])
case("ids", "header-cut.bin", header(0x1000, 0x1000, 0)[:55], ["refused 3 0x1"])
case("types", "header-size.bin", stream([int_list], header_size=57), ["refused 3 0x0"])
case("types", "first-low.bin", stream([], first=0xfff), ["refused 3 0x0"])
case("types", "end-below-first.bin", stream([], first=0x1001, end=0x1000), ["refused 3 0x0"])
case("types", "end-high.bin", stream([int_list], end=0x80000001), ["refused 3 0x0"])
case("types", "bytes-past-end.bin", stream([int_list], size=13), ["refused 3 0x0"])
case("ids", "bytes-past-end.bin", stream([int_list], size=13), ["refused 3 0x1"])
# Refusal 4: an end of 0x80000000 passes the header, and the records do not number so many.
case("types", "end-top.bin", stream([int_list], end=0x80000000), ["refused 4 0x0"])
case("types", "length-zero.bin", stream([u16(0) + u16(0x1201)]), ["refused 4 0x0"])
case("types", "length-one.bin", stream([u16(1) + u8(1)]), ["refused 4 0x0"])
case("types", "record-past-end.bin", stream([u16(11) + int_list[2:]]), ["refused 4 0x0"])
case("types", "two-bytes-left.bin", stream([int_list + u16(2)], end=0x1001), ["refused 4 0x0"])
case("types", "one-byte-left.bin", stream([int_list + u8(0)], end=0x1001), ["refused 4 0x0"])
case("types", "half-a-length.bin", stream([int_list + u8(4)], end=0x1002), ["refused 4 0x0"])
case("types", "too-few.bin", stream([int_list], end=0x1002), ["refused 4 0x0"])
case("types", "too-many.bin", stream([int_list, int_list], end=0x1001), ["refused 4 0x0"])
case("ids", "too-many.bin", stream([int_list, int_list], end=0x1001), ["refused 4 0x1"])
# What looks odd and is whole: ids of no bytes (document 02, Note 1), no record at all, bytes behind the records, a first index above 0x1000.
case("ids", "empty.bin", b"", [])
case("types", "no-records.bin", stream([]), [])
case("types", "bytes-behind.bin", stream([int_list], after=b"behind"), [int_line])
case("types", "first-high.bin", stream([int_list], first=0x2000), ["0x2000 0x1201 arguments 0x74"])

MALFORMED = "malformed"
P = 8 << 13 | 0xc                                  # a plain 64-bit pointer: kind 12, size 8
CLASS = u16(1) + u16(0) + u32(0x1001) + u32(0x1002) + u32(0x1003)
CLASS_UNIQUE = u16(1) + u16(0x280) + u32(0) + u32(0) + u32(0)
UNION = u16(1) + u16(0) + u32(0x1001)
UNION_UNIQUE = u16(1) + u16(0x200) + u32(0x1001)
ENUM = u16(2) + u16(0) + u32(0x74) + u32(0x1001)
ENUM_UNIQUE = u16(2) + u16(0x280) + u32(0x74) + u32(0)
METHOD = u32(3) + u32(0x1000) + u32(0x1003) + u8(0) + u8(2) + u16(1) + u32(0x1004) + u32(8)

table("types", "types.bin", [
    # modifier: 6 bytes; bits 0 to 2 are const, volatile, unaligned
    (0x1001, u32(0x74) + u16(1), "modifier of=0x74 const"),
    (0x1001, u32(0x74) + u8(1), MALFORMED),
    (0x1001, u32(0x74) + u16(7) + b"trailing", "modifier of=0x74 const volatile unaligned"),
    (0x1001, u32(0x74) + u16(2), "modifier of=0x74 volatile"),
    (0x1001, b"", MALFORMED),
    # pointer: 8 bytes; mode in bits 5 to 7, at most 4; modes 2 and 3 have 6 bytes more
    (0x1002, u32(0x74) + u32(P), "pointer to=0x74 mode=pointer size=8"),
    (0x1002, u32(0x74) + u32(P)[:3], MALFORMED),
    (0x1002, u32(0x74) + u32(P | 1 << 5), "pointer to=0x74 mode=reference size=8"),
    (0x1002, u32(0x74) + u32(P | 4 << 5), "pointer to=0x74 mode=rvalue size=8"),
    (0x1002, u32(0x74) + u32(P | 5 << 5), MALFORMED),
    (0x1002, u32(0x74) + u32(P | 7 << 5), MALFORMED),
    (0x1002, u32(0x74) + u32(P | 2 << 5) + u32(0x1005) + u16(1), "pointer to=0x74 mode=member class=0x1005 size=8"),
    (0x1002, u32(0x74) + u32(P | 2 << 5) + u32(0x1005) + u8(1), MALFORMED),
    (0x1002, u32(0x74) + u32(P | 3 << 5), MALFORMED),
    (0x1002, u32(0x74) + u32(P | 3 << 5) + u32(0x1005) + u16(5), "pointer to=0x74 mode=function class=0x1005 size=8"),
    (0x1002, u32(0x74) + u32(63 << 13 | 1 << 10 | 1 << 9 | 0xc), "pointer to=0x74 mode=pointer size=63 const volatile"),
    (0x1002, u32(0x74) + u32(1 << 10), "pointer to=0x74 mode=pointer size=0 const"),
    # procedure: 12 bytes; bit 1 of the byte at 5 marks a constructor
    (0x1008, u32(3) + u8(0) + u8(2) + u16(1) + u32(0x1000), "procedure result=0x3 arguments=0x1000 parameters=1 constructor"),
    (0x1008, u32(3) + u8(2) + u8(4) + u16(1) + u32(0x1000), "procedure result=0x3 arguments=0x1000 parameters=1"),
    (0x1008, u32(3) + u8(0) + u8(2) + u16(1) + u32(0x1000)[:3], MALFORMED),
    # method: 24 bytes, the this adjustment among them
    (0x1009, METHOD, "method result=0x3 class=0x1000 this=0x1003 arguments=0x1004 parameters=1 adjustment=8 constructor"),
    (0x1009, METHOD[:23], MALFORMED),
    (0x1009, METHOD[:20], MALFORMED),
    # argument list: a count and so many entries
    (0x1201, u32(0), "arguments"),
    (0x1201, u32(2) + u32(0x74) + u32(0x1000), "arguments 0x74 0x1000"),
    (0x1201, u32(2) + u32(0x74) + u32(0x1000)[:3], MALFORMED),
    (0x1201, u32(1) + u32(0x74) + u32(0x1000), "arguments 0x74"),
    (0x1201, u32(0)[:3], MALFORMED),
    (0x1201, u32(0xffffffff) + u32(0x74), MALFORMED),
    # enumerate: attributes, a number of any width, a name
    (0x1502, u16(3) + u16(5) + b"a\0", "enumerate bits=5 width=2 name=`a`"),
    (0x1502, u16(3) + u16(0x7fff) + b"\0", "enumerate bits=32767 width=2 name=``"),
    (0x1502, u16(3) + u16(0x8000) + u8(0xff) + b"a\0", "enumerate bits=255 width=1 name=`a`"),
    (0x1502, u16(3) + u16(0x8001) + u16(0xfffe) + b"a\0", "enumerate bits=65534 width=2 name=`a`"),
    (0x1502, u16(3) + u16(0x8002) + u16(0x8000) + b"a\0", "enumerate bits=32768 width=2 name=`a`"),
    (0x1502, u16(3) + u16(0x8003) + u32(1 << 31) + b"a\0", "enumerate bits=2147483648 width=4 name=`a`"),
    (0x1502, u16(3) + u16(0x8004) + u32(65536) + b"a\0", "enumerate bits=65536 width=4 name=`a`"),
    (0x1502, u16(3) + u16(0x8009) + u64(1 << 63) + b"a\0", "enumerate bits=9223372036854775808 width=8 name=`a`"),
    (0x1502, u16(3) + u16(0x800a) + u64(1 << 32) + b"a\0", "enumerate bits=4294967296 width=8 name=`a`"),
    (0x1502, u16(3) + u16(0x8005) + u32(0) + b"a\0", MALFORMED),
    (0x1502, u16(3) + u16(0x800b) + u64(0) + b"a\0", MALFORMED),
    (0x1502, u16(3) + u16(0x8000), MALFORMED),
    (0x1502, u16(3) + u16(0x8003) + u32(0)[:3], MALFORMED),
    (0x1502, u16(3) + u16(5)[:1], MALFORMED),
    (0x1502, u16(3) + u16(5) + b"a", MALFORMED),
    (0x1502, u8(3), MALFORMED),
    # array: element, index type, a size of unsigned width, a name
    (0x1503, u32(0x74) + u32(0x23) + u16(12) + b"\0", "array of=0x74 by=0x23 size=12 name=``"),
    (0x1503, u32(0x74) + u32(0x23) + u16(0x7fff) + b"a\0", "array of=0x74 by=0x23 size=32767 name=`a`"),
    (0x1503, u32(0x74) + u32(0x23) + u16(0x8002) + u16(40000) + b"\0", "array of=0x74 by=0x23 size=40000 name=``"),
    (0x1503, u32(0x74) + u32(0x23) + u16(0x8004) + u32(4294967295) + b"\0", "array of=0x74 by=0x23 size=4294967295 name=``"),
    (0x1503, u32(0x74) + u32(0x23) + u16(0x800a) + u64(4294967295) + b"\0", "array of=0x74 by=0x23 size=4294967295 name=``"),
    (0x1503, u32(0x74) + u32(0x23) + u16(0x800a) + u64(4294967296) + b"\0", MALFORMED),
    (0x1503, u32(0x74) + u32(0x23) + u16(0x8000) + u8(1) + b"\0", MALFORMED),
    (0x1503, u32(0x74) + u32(0x23) + u16(0x8001) + u16(1) + b"\0", MALFORMED),
    (0x1503, u32(0x74) + u32(0x23) + u16(0x8003) + u32(1) + b"\0", MALFORMED),
    (0x1503, u32(0x74) + u32(0x23) + u16(0x8009) + u64(1) + b"\0", MALFORMED),
    (0x1503, u32(0x74) + u32(0x23) + u16(0x8004) + u32(1)[:3], MALFORMED),
    (0x1503, u32(0x74) + u32(0x23) + u16(12), MALFORMED),
    (0x1503, u32(0x74) + u32(0x23)[:3], MALFORMED),
    # class, struct, interface: 16 bytes, a size, a name, with bit 9 a unique name
    (0x1504, CLASS + u16(4) + b"A\0", "class size=4 fields=0x1001 derived=0x1002 shape=0x1003 name=`A`"),
    (0x1505, CLASS_UNIQUE + u16(0) + b"A\0.?AUA\0", "struct size=0 fields=0x0 derived=0x0 shape=0x0 forward name=`A` unique=`.?AUA`"),
    (0x1519, CLASS + u16(0x800a) + u64(2 ** 64 - 1) + b"I\0",
     "interface size=18446744073709551615 fields=0x1001 derived=0x1002 shape=0x1003 name=`I`"),
    (0x1505, CLASS_UNIQUE + u16(0) + b"A\0\0", "struct size=0 fields=0x0 derived=0x0 shape=0x0 forward name=`A` unique=``"),
    (0x1505, CLASS_UNIQUE + u16(0) + b"A\0.?AUA", MALFORMED),
    (0x1505, CLASS_UNIQUE + u16(0) + b"A\0", MALFORMED),
    (0x1505, CLASS + u16(4) + b"A", MALFORMED),
    (0x1505, CLASS + u16(4), MALFORMED),
    (0x1505, CLASS + u16(0x8003) + u32(4) + b"A\0", MALFORMED),
    (0x1505, CLASS + u8(4), MALFORMED),
    (0x1504, CLASS[:15], MALFORMED),
    (0x1505, CLASS + u16(4) + b"\x01\xc3\xa9\n\0", "struct size=4 fields=0x1001 derived=0x1002 shape=0x1003 name=`\\x01\\xc3\\xa9\\x0a`"),
    # union: 8 bytes, a size, names
    (0x1506, UNION + u16(8) + b"U\0", "union size=8 fields=0x1001 name=`U`"),
    (0x1506, UNION_UNIQUE + u16(8) + b"U\0u\0", "union size=8 fields=0x1001 name=`U` unique=`u`"),
    (0x1506, UNION_UNIQUE + u16(8) + b"U\0u", MALFORMED),
    (0x1506, UNION + u16(8) + b"U", MALFORMED),
    (0x1506, UNION[:7], MALFORMED),
    # enum: 12 bytes, names
    (0x1507, ENUM + b"E\0", "enum of=0x74 fields=0x1001 name=`E`"),
    (0x1507, ENUM_UNIQUE + b"E\0e\0", "enum of=0x74 fields=0x0 forward name=`E` unique=`e`"),
    (0x1507, ENUM_UNIQUE + b"E\0e", MALFORMED),
    (0x1507, ENUM + b"E", MALFORMED),
    (0x1507, ENUM[:11], MALFORMED),
    # kinds that are read by name only, and kinds that are not listed, those of the id stream among them
    (0x1203, b"", "unhandled"),
    (0x1205, b"x", "unhandled"),
    (0x1206, b"", "unhandled"),
    (0x000a, u16(0), "unlisted"),
    (0x1601, u32(0) + u32(0) + b"f\0", "unlisted"),
    (0x1603, b"", "unlisted"),
    (0xffff, b"", "unlisted"),
])

table("ids", "ids.bin", [
    (0x1601, u32(0x1000) + u32(0x1001) + b"f\0", "function scope=0x1000 type=0x1001 name=`f`"),
    (0x1601, u32(0) + u32(0x1001) + b"\0", "function scope=0x0 type=0x1001 name=``"),
    (0x1601, u32(0) + u32(0x1001)[:3], MALFORMED),
    (0x1601, u32(0) + u32(0x1001) + b"f", MALFORMED),
    (0x1602, u32(0x1000) + u32(0x1001) + b"m\0", "member parent=0x1000 type=0x1001 name=`m`"),
    (0x1602, u32(0x1000) + u32(0x1001)[:3], MALFORMED),
    (0x1602, u32(0x1000) + u32(0x1001), MALFORMED),
    (0x1604, u32(1) + u32(0x1000), "strings 0x1000"),
    (0x1604, u32(1) + u32(0x1000)[:3], MALFORMED),
    (0x1604, u32(1)[:3], MALFORMED),
    (0x1605, u32(0x1007) + b"s\0", "string list=0x1007 name=`s`"),
    (0x1605, u32(0x1007)[:3], MALFORMED),
    (0x1605, u32(0x1007) + b"s", MALFORMED),
    (0x1603, b"", "unhandled"),
    (0x1606, b"", "unhandled"),
    (0x1607, b"", "unhandled"),
    (0x1608, b"", "unlisted"),
    (0x1001, u32(0x74) + u16(1), "unlisted"),
    (0x1203, b"", "unlisted"),
])
