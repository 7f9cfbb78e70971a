"""Records and streams as bytes, for the scripts that make data files: by cvinfo.h and LLVM's page on the type stream."""


def u8(n):
    return bytes([n])


def u16(n):
    return n.to_bytes(2, "little")


def u32(n):
    return n.to_bytes(4, "little")


def u64(n):
    return n.to_bytes(8, "little")


# Records, by cvinfo.h

def rec(kind, fields=b""):
    return u16(len(fields) + 2) + u16(kind) + fields


def modifier(target, bits=1):
    return rec(0x1001, u32(target) + u16(bits))


def pointer(target, mode=0, const=False, size=8):
    return rec(0x1002, u32(target) + u32(size << 13 | const << 10 | mode << 5 | 0xc) + (u32(0) + u16(0) if mode in (2, 3) else b""))


def procedure(result, arguments, attributes=0):
    return rec(0x1008, u32(result) + u8(0) + u8(attributes) + u16(0) + u32(arguments))


def method(result, owner, this, arguments, attributes=0):
    return rec(0x1009, u32(result) + u32(owner) + u32(this) + u8(0) + u8(attributes) + u16(0) + u32(arguments) + u32(0))


def arguments(*entries):
    return rec(0x1201, u32(len(entries)) + b"".join(map(u32, entries)))


def number(n):
    return u16(n) if n < 0x8000 else u16(0x800a) + u64(n)


def array(element, size):
    return rec(0x1503, u32(element) + u32(0x23) + number(size) + b"\0")


def ended(name):
    """A name and its closing zero; one that is no UTF-8 is given as bytes."""
    return (name if isinstance(name, bytes) else name.encode()) + b"\0"


def names(name, unique):
    return ended(name) + (b"" if unique is None else ended(unique))


def properties(forward, unique):
    return u16((0x80 if forward else 0) | (0 if unique is None else 0x200))


def class_(name, size, kind=0x1505, forward=False, unique=None):
    return rec(kind, u16(0) + properties(forward, unique) + u32(0) * 3 + number(size) + names(name, unique))


def union(name, size, forward=False, unique=None):
    return rec(0x1506, u16(0) + properties(forward, unique) + u32(0) + number(size) + names(name, unique))


def enum(name, target, forward=False, unique=None):
    return rec(0x1507, u16(0) + properties(forward, unique) + u32(target) + u32(0) + names(name, unique))


def enumerate_(name, value):
    return rec(0x1502, u16(3) + value + ended(name))


def function(scope, kind, name):
    return rec(0x1601, u32(scope) + u32(kind) + ended(name))


def member(parent, kind, name):
    return rec(0x1602, u32(parent) + u32(kind) + ended(name))


def strings(*entries):
    return rec(0x1604, u32(len(entries)) + b"".join(map(u32, entries)))


def string(name):
    return rec(0x1605, u32(0) + ended(name))


MALFORMED = rec(0x1505)                            # a struct with no fields
UNLISTED = rec(0x000a, u16(0))                     # kind 0xa is in neither list
BUILD = rec(0x1603)                                # an id of a kind that is read by name only


# Streams

def header(first, end, size, header_size=56):
    return u32(20040203) + u32(header_size) + u32(first) + u32(end) + u32(size) + bytes(36)


def stream(records, first=0x1000):
    """A stream from records by their indexes, which must follow each other."""
    assert list(records) == list(range(first, first + len(records))), [hex(i) for i in records]
    body = b"".join(records.values())
    return header(first, first + len(records), len(body)) + body


# Document 01, "A small stream"
SMALL = {
    0x1000: arguments(0x74),
    0x1001: procedure(3, 0x1000),
    0x1002: pointer(0x1001),
    0x1003: modifier(0x70),
    0x1004: pointer(0x1003, const=True),
    0x1005: class_("A", 4),
    0x1006: array(0x1005, 12),
    0x1007: array(0x1006, 60),
    0x1008: pointer(0x1008),
    0x1009: pointer(0x2000),
}
