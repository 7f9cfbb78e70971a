#!/usr/bin/env python3
"""A reading of documents 01 and 02 in plain Python: streams, records, the four calls, refusals, flags, sizes and measures.

    reading.py sheet DIR          prints the lines of `names` for types.bin, ids.bin and sheet.bin in DIR
    reading.py sheets DIR...      compares those lines with DIR/expected.txt, or with expected-after-NN.txt where Note NN changed them, for each DIR
    reading.py places DIR...      compares the lines of DIR's sheet, whose calls take the places of DIR/places.bin, with those, and the pass that fills
                                  places, over buffers of the lengths that DIR/pass.txt has, with that file
    reading.py measures DIR...    compares the measures of DIR's text commands with DIR/expected.txt; a DIR/places.bin, where there is one, is lent to
                                  each call
    reading.py vectors CRATE      prints what `test_vectors` must print, from the files args and data/*.bin of its folder CRATE
    reading.py ids TYPES IDS      prints each id of a pair of streams with its text under flags 0

It was made from the documents and from the texts of the Rust module that they name; where they leave a choice, it takes that of docs/READINGS.md. Of
document 02 it has Notes 1 to 4. Nothing of the Rattle code or its definitions is used. Expected outputs are made by it, so it is kept simple rather than fast."""
import functools
import os
import sys

sys.setrecursionlimit(20000)

NO_FUNCTION_RETURN, NO_MEMBER_FUNCTION_STATIC, SPACE_AFTER_COMMA, SPACE_BEFORE_POINTER, NAME_ONLY, NO_ARGUMENTS = 1, 2, 4, 8, 16, 32
ALL_FLAGS = 63
OPEN_LIMIT, CHAIN_LIMIT = 96, 32
PLACE_STEP = 64                                    # of type records 0, 64, 128 and on a place is kept
MEASURED = 16777215                                # a measure is refused as the text is with a buffer of so many bytes
NOTES = 5                                          # so many Notes of document 02 are here

# code: name and byte size, by cvinfo.h and the Rust module
PRIMITIVES = {
    0x00: ("<NoType>", 0), 0x03: ("void", 0), 0x08: ("HRESULT", 4),
    0x10: ("signed char", 1), 0x11: ("short", 2), 0x12: ("long", 4), 0x13: ("long long", 8), 0x14: ("int128_t", 16),
    0x20: ("unsigned char", 1), 0x21: ("unsigned short", 2), 0x22: ("unsigned long", 4), 0x23: ("unsigned long long", 8),
    0x24: ("uint128_t", 16),
    0x30: ("bool", 1), 0x31: ("bool16_t", 2), 0x32: ("bool32_t", 4), 0x33: ("bool64_t", 8),
    0x40: ("float", 4), 0x41: ("double", 8), 0x42: ("long double", 10), 0x43: ("long double", 16), 0x44: ("float48_t", 6),
    0x45: ("float", 4), 0x46: ("float16_t", 2),
    0x50: ("complex<float>", 8), 0x51: ("complex<double>", 16), 0x52: ("complex<long double>", 20), 0x53: ("complex<long double>", 32),
    0x68: ("int8_t", 1), 0x69: ("uint8_t", 1),
    0x70: ("char", 1), 0x71: ("wchar_t", 2), 0x72: ("int16_t", 2), 0x73: ("uint16_t", 2), 0x74: ("int", 4), 0x75: ("unsigned int", 4),
    0x76: ("int64_t", 8), 0x77: ("uint64_t", 8), 0x78: ("int128_t", 16), 0x79: ("uint128_t", 16),
    0x7a: ("char16_t", 2), 0x7b: ("char32_t", 4), 0x7c: ("char8_t", 1),
}
assert len(PRIMITIVES) == 43
SIGNS = [b"*", b"&", b"::*", b"::*", b"&&"]       # by pointer mode


class Refused(Exception):
    """A refusal of documents 01 and 02: its number and detail."""

    def __init__(self, number, detail):
        super().__init__(number, detail)
        self.number, self.detail = number, detail


class Malformed(Exception):
    pass


class Record:
    """A decoded record: what it is, and its fields by name."""

    def __init__(self, what, **fields):
        self.what = what
        self.__dict__.update(fields)


class Fields:
    """The fields of one record, taken from its front; past its end it is malformed."""

    def __init__(self, data):
        self.data, self.at = data, 0

    def number(self, width):
        if self.at + width > len(self.data):
            raise Malformed
        self.at += width
        return int.from_bytes(self.data[self.at - width:self.at], "little")

    def size(self):
        """A size number: below 0x8000 itself, else led by its width."""
        lead = self.number(2)
        if lead < 0x8000:
            return lead
        widths = {0x8002: 2, 0x8004: 4, 0x800a: 8}
        if lead not in widths:
            raise Malformed
        return self.number(widths[lead])

    def value_width(self):
        """The width of an enumerate's value; one below 0x8000 has width 2."""
        lead = self.number(2)
        if lead < 0x8000:
            return 2
        widths = {0x8000: 1, 0x8001: 2, 0x8002: 2, 0x8003: 4, 0x8004: 4, 0x8009: 8, 0x800a: 8}
        if lead not in widths:
            raise Malformed
        self.number(widths[lead])
        return widths[lead]

    def name(self):
        stop = self.data.find(b"\0", self.at)
        if stop < 0:
            raise Malformed
        text, self.at = self.data[self.at:stop], stop + 1
        return text

    def entries(self):
        count = self.number(4)
        if self.at + 4 * count > len(self.data):
            raise Malformed
        return [self.number(4) for _ in range(count)]

    def names(self, properties):
        """Name and key: the key, by which records are matched, is the unique name where property bit 9 is set. It stays as it is."""
        name = self.name()
        return shown(name), self.name() if properties >> 9 & 1 else name


# Names in a local code page. UTF-8 writes every scalar value, and no surrogate, as one sequence; what begins none of these sequences is ill-formed.

REPLACEMENT = b"\xef\xbf\xbd"


@functools.cache
def sequences():
    """The sequences of UTF-8 that are longer than a byte, and what they begin with."""
    whole = [chr(scalar).encode() for scalar in range(0x80, 0x110000) if not 0xd800 <= scalar < 0xe000]
    return frozenset(whole), frozenset(sequence[:n] for sequence in whole for n in range(1, len(sequence)))


def part(name):
    """The length of the part that a name begins with, and whether it is well-formed: one sequence, or else the longest beginning of one, or one byte."""
    if name[0] < 0x80:
        return 1, True
    whole, begun = sequences()
    lengths = range(min(4, len(name)), 0, -1)
    return next(((n, True) for n in lengths if name[:n] in whole), None) or (next((n for n in lengths if name[:n] in begun), 1), False)


@functools.lru_cache
def shown(name):
    """A record's name as it is written: each maximal ill-formed part replaced."""
    text, at = [], 0
    while at < len(name):
        length, whole = part(name[at:at + 4])
        text.append(name[at:at + length] if whole else REPLACEMENT)
        at += length
    return b"".join(text)


def modifier(f):
    return Record("modifier", target=f.number(4), const=f.number(2) & 1 == 1)


def pointer(f):
    target, attributes = f.number(4), f.number(4)
    mode = attributes >> 5 & 7
    if mode > 4:
        raise Malformed
    if mode in (2, 3):
        f.number(4)
        f.number(2)
    return Record("pointer", target=target, mode=mode, const=attributes >> 10 & 1 == 1, size=attributes >> 13 & 63)


def procedure(f):
    result, _, attributes, _, arguments = f.number(4), f.number(1), f.number(1), f.number(2), f.number(4)
    return Record("procedure", result=result, constructor=attributes & 2 == 2, arguments=arguments)


def method(f):
    result, owner, this, _, attributes, _, arguments = (f.number(4), f.number(4), f.number(4), f.number(1), f.number(1), f.number(2), f.number(4))
    f.number(4)
    return Record("method", result=result, owner=owner, this=this, constructor=attributes & 2 == 2, arguments=arguments)


def argument_list(f):
    return Record("arguments", entries=f.entries())


def enumerate_(f):
    f.number(2)
    return Record("named", word=b"enum class", size=f.value_width(), name=shown(f.name()))


def array(f):
    element, _, size = f.number(4), f.number(4), f.size()
    f.name()
    if size > 4294967295:
        raise Malformed
    return Record("array", element=element, size=size)


def class_(word):
    def read(f):
        _, properties, _, _, _, size = f.number(2), f.number(2), f.number(4), f.number(4), f.number(4), f.size()
        name, key = f.names(properties)
        return Record("class", word=word, size=size, forward=properties >> 7 & 1 == 1, name=name, key=key)
    return read


def union(f):
    _, properties, _, size = f.number(2), f.number(2), f.number(4), f.size()
    name, key = f.names(properties)
    return Record("class", word=b"union", size=size, forward=properties >> 7 & 1 == 1, name=name, key=key)


def enumeration(f):
    _, properties, target, _ = f.number(2), f.number(2), f.number(4), f.number(4)
    name, _ = f.names(properties)
    return Record("enum", word=b"enum", target=target, name=name)


def function_id(f):
    return Record("function", scope=f.number(4), type=f.number(4), name=shown(f.name()))


def member_id(f):
    return Record("member", parent=f.number(4), type=f.number(4), name=shown(f.name()))


def string_list(f):
    return Record("strings", entries=f.entries())


def string(f):
    f.number(4)
    return Record("string", name=shown(f.name()))


TYPE_KINDS = {
    0x1001: modifier, 0x1002: pointer, 0x1008: procedure, 0x1009: method, 0x1201: argument_list, 0x1502: enumerate_, 0x1503: array,
    0x1504: class_(b"class"), 0x1505: class_(b"struct"), 0x1519: class_(b"interface"), 0x1506: union, 0x1507: enumeration,
}
ID_KINDS = {0x1601: function_id, 0x1602: member_id, 0x1604: string_list, 0x1605: string}
TYPES_UNHANDLED = (0x1203, 0x1205, 0x1206)
IDS_UNHANDLED = (0x1603, 0x1606, 0x1607)


class Stream:
    """A checked stream: 3 for its header, 4 where its records do not tile. `which` is 0 for types and 1 for ids; ids of no bytes are no ids at all.
    `places` are those of the records 0, 64, 128 and on: of their length fields, from the stream's start."""

    def __init__(self, data, which):
        self.which, self.data, self.lent, self.places = which, data, None, []
        if which == 1 and not data:
            self.first, self.end, self.records = 0, 0, []
            return
        if len(data) > 16777216 or len(data) < 56:
            raise Refused(3, which)
        header_size, self.first, self.end, size = (int.from_bytes(data[at:at + 4], "little") for at in (4, 8, 12, 16))
        if header_size != 56 or self.first < 0x1000 or self.end < self.first or self.end > 0x80000000 or size > len(data) - 56:
            raise Refused(3, which)
        self.records, at, self.stop = [], 56, 56 + size
        while at < self.stop:
            if at + 2 > self.stop:
                raise Refused(4, which)
            length = int.from_bytes(data[at:at + 2], "little")
            if length < 2 or at + 2 + length > self.stop:
                raise Refused(4, which)
            if len(self.records) % PLACE_STEP == 0:
                self.places.append(at)
            self.records.append((int.from_bytes(data[at + 2:at + 4], "little"), data[at + 4:at + 2 + length]))
            at += 2 + length
        if len(self.records) != self.end - self.first:
            raise Refused(4, which)

    def lend(self, places):
        """Places that a call was lent, or 17 for the first of those needed that is lacking or not this stream's; what is past them is never looked at."""
        for number, place in enumerate(self.places):
            if number >= len(places) or places[number] != place:
                raise Refused(17, number)
        self.lent = places

    def record(self, number):
        """Kind and fields of a record. With lent places it is looked for in what is behind the last place at or before it, over at most 63 others."""
        if self.lent is None:
            return self.records[number]
        rest = self.data[self.lent[number // PLACE_STEP]:self.stop]
        for _ in range(number % PLACE_STEP):
            rest = rest[2 + int.from_bytes(rest[:2], "little"):]
        return int.from_bytes(rest[2:4], "little"), rest[4:2 + int.from_bytes(rest[:2], "little")]

    def read(self, index):
        """The record of an index, or 6, 8, 7 or 5, in this order."""
        if index >= 0x80000000:
            raise Refused(6, index)
        if self.which == 0 and index < 0x1000:
            if index & 0xff not in PRIMITIVES or index >> 8 > 7:
                raise Refused(8, index)
            name, size = PRIMITIVES[index & 0xff]
            return Record("primitive", name=name.encode(), size=size, indirect=index >> 8 > 0)
        if not self.first <= index < self.end:
            raise Refused(8, index)
        kind, fields = self.record(index - self.first)
        kinds, unhandled = (ID_KINDS, IDS_UNHANDLED) if self.which else (TYPE_KINDS, TYPES_UNHANDLED)
        if kind in unhandled:
            return Record("unhandled", kind=kind)
        if kind not in kinds:
            raise Refused(7, kind)
        try:
            return kinds[kind](Fields(fields))
        except Malformed:
            raise Refused(5, index) from None


class Open:
    """The open indexes of one list; what was opened behind a mark is closed by going back to it."""

    def __init__(self):
        self.items = []

    def open(self, index):
        if index in self.items:
            raise Refused(12, index)
        if len(self.items) == OPEN_LIMIT:
            raise Refused(13, index)
        self.items.append(index)

    def mark(self):
        return len(self.items)

    def back(self, mark):
        del self.items[mark:]


def anonymous(name):
    digits = name[4:]
    if digits[:1] == b"+":
        digits = digits[1:]
    hexadecimal = len(digits) > 0 and all(d in b"0123456789abcdefABCDEF" for d in digits)
    return name[:4] == b"?A0x" and hexadecimal and int(digits, 16) < 2 ** 32


class Formatter:
    """One call: its streams, flags, pointer size, the text so far and how many indexes it opened."""

    def __init__(self, types, ids, flags, pointer_size, room):
        self.types, self.ids, self.flags, self.pointer_size, self.room = types, ids, flags, pointer_size, room
        self.text, self.opened = bytearray(), 0

    def put(self, text):
        fits = self.room - len(self.text)
        self.text += text[:fits]
        if len(text) > fits:
            raise Refused(15, 0)

    def open(self, index, seen):
        """Opens an index in a list. It counts each time, whatever is closed later."""
        seen.open(index)
        self.opened += 1

    def fresh(self, index):
        """A fresh list, in which a function type is opened."""
        seen = Open()
        self.open(index, seen)
        return seen

    def has(self, flag):
        return self.flags & flag != 0

    # Sizes

    def full_size(self, index, record):
        """A class or union's size: of a forward reference that of the first full record behind it with its key."""
        if record.forward:
            for later in range(index + 1, self.types.end):
                try:
                    other = self.types.read(later)
                except Refused:
                    continue
                if other.what == "class" and not other.forward and other.key == record.key:
                    return other.size
        return record.size

    def size(self, index):
        steps = 0
        while True:
            try:
                record = self.types.read(index)
            except Refused:
                return 0
            if record.what == "primitive":
                return self.pointer_size if record.indirect else record.size
            steps += 1
            if steps > CHAIN_LIMIT:
                raise Refused(14, index)
            if record.what in ("enum", "modifier"):
                index = record.target
                continue
            if record.what == "class":
                return self.full_size(index, record)
            if record.what in ("procedure", "method"):
                return self.pointer_size
            if record.what in ("pointer", "array", "named"):
                return record.size
            return 0

    # Types

    def type_index(self, index, seen):
        """An index written by itself: read, then opened."""
        try:
            record = self.types.read(index)
        except Refused as refused:
            if refused.number == 8:
                return self.put(b"<missing type 0x%x>" % index)
            if refused.number == 7:
                return self.put(b"<unimplemented type kind 0x%x>" % refused.detail)
            raise
        mark = seen.mark()
        self.open(index, seen)
        self.type(record, seen)
        seen.back(mark)

    def type(self, record, seen):
        """The text of a type. A missing record inside ends it and leaves its mark."""
        mark = seen.mark()
        try:
            self.type_inside(record, seen)
        except Refused as refused:
            if refused.number != 8:
                raise
            seen.back(mark)
            self.put(b"<missing type 0x%x>" % refused.detail)

    def type_inside(self, record, seen):
        if record.what == "primitive":
            self.primitive(record, False)
        elif record.what in ("class", "enum", "named"):
            self.put((b"" if self.has(NAME_ONLY) else record.word + b" ") + record.name)
        elif record.what == "method":
            if not self.has(NO_FUNCTION_RETURN):
                self.method_result(record, seen)
            self.put(b"()")
            self.method_arguments(record, False, seen)
        elif record.what == "procedure":
            if not self.has(NO_FUNCTION_RETURN):
                self.procedure_result(record, seen)
            self.put(b"()(")
            self.type_index(record.arguments, seen)
        elif record.what == "arguments":
            self.argument_list(record, False, seen)
        elif record.what == "pointer":
            self.pointer(record, False, seen)
        elif record.what == "array":
            self.array(record, seen)
        elif record.what == "modifier":
            self.modifier(record, seen)
        else:
            self.put(b"unhandled type /* 0x%x */" % record.kind)

    def primitive(self, record, const):
        if record.indirect:
            self.put(record.name + (b" const" if const else b"") + (b" *" if self.has(SPACE_BEFORE_POINTER) else b"*"))
        else:
            self.put((b"const " if const else b"") + record.name)

    def modifier(self, record, seen):
        mark = seen.mark()
        self.open(record.target, seen)
        target = self.types.read(record.target)
        if target.what == "pointer":
            self.pointer(target, record.const, seen)
        elif target.what == "primitive":
            self.primitive(target, record.const)
        else:
            if record.const:
                self.put(b"const ")
            self.type(target, seen)
        seen.back(mark)

    def array(self, record, seen):
        """Levels and base size are read first; neither levels nor base are opened."""
        levels, index = [record.size], record.element
        while True:
            element = self.types.read(index)
            if element.what != "array":
                break
            if len(levels) == CHAIN_LIMIT:
                raise Refused(14, index)
            levels.append(element.size)
            index = element.element
        base_size = self.size(index)
        self.type(element, seen)
        for size, below in zip(levels, levels[1:] + [base_size]):
            self.put(b"[%d]" % (size // below) if below else b"[]")

    def comma(self):
        self.put(b",")
        if self.has(SPACE_AFTER_COMMA):
            self.put(b" ")

    def argument_list(self, record, comma_first, seen):
        for number, entry in enumerate(record.entries):
            if number > 0 or comma_first:
                self.comma()
            self.type_index(entry, seen)

    # Functions and methods

    def procedure_result(self, record, seen):
        """Result 0 of a procedure means none."""
        if not record.constructor and record.result != 0:
            self.type_index(record.result, seen)
            self.put(b" ")

    def method_result(self, record, seen):
        if not record.constructor:
            self.type_index(record.result, seen)
            self.put(b" ")

    def this_pointer(self, this, owner):
        """Whether a this pointer leads to its class, and whether that is const."""
        record = self.types.read(this)
        if record.what == "pointer":
            if record.target == owner:
                return True, False
            target = self.types.read(record.target)
            if target.what == "modifier" and target.target == owner:
                return True, target.const
        return False, False

    def method_arguments(self, record, may_be_const, seen):
        if self.has(NO_ARGUMENTS):
            return
        mark = seen.mark()
        self.open(record.arguments, seen)
        entries = self.types.read(record.arguments)
        if entries.what != "arguments":
            raise Refused(9, record.arguments)
        known, const = self.this_pointer(record.this, record.owner) if record.this != 0 else (True, False)
        self.put(b"(")
        if not known:
            self.type_index(record.this, seen)
        self.argument_list(entries, not known, seen)
        self.put(b")")
        if const and may_be_const:
            self.put(b" const")
        seen.back(mark)

    # Pointers

    def pointer(self, record, const, seen):
        """Goes down through pointers and their modifiers. A level: whether the pointer is const, whether its target is, its mode."""
        levels = [[record.const or const, False, record.mode]]
        mark = seen.mark()
        while True:
            index = record.target
            self.open(index, seen)
            target = self.types.read(index)
            if target.what == "modifier":
                levels[-1][1] = target.const
                index = target.target
                self.open(index, seen)
                target = self.types.read(index)
            if target.what != "pointer":
                break
            levels.append([target.const, False, target.mode])
            record = target
        self.pointed(target, levels, seen)
        seen.back(mark)

    def pointed(self, target, levels, seen):
        if target.what == "method":
            self.method_result(target, seen)
            self.put(b"(")
            self.type_index(target.owner, seen)
            self.signs(levels, False, False)
            self.put(b")")
            self.method_arguments(target, False, seen)
        elif target.what == "procedure":
            self.procedure_result(target, seen)
            self.put(b"(")
            self.signs(levels, False, False)
            self.put(b")(")
            self.type_index(target.arguments, seen)
            self.put(b")")
        else:
            start = len(self.text)
            self.type(target, seen)
            self.signs(levels, True, self.text[start:][-1:] in (b"*", b"&"))

    def signs(self, levels, space_first, after_sign):
        """The signs of pointer levels, innermost first; `space_first` allows a space before the first of them."""
        first = True
        for pointer_const, target_const, mode in reversed(levels):
            if target_const:
                if not first or space_first:
                    self.put(b" ")
                self.put(b"const")
                first = after_sign = False
            if self.has(SPACE_BEFORE_POINTER) and not after_sign and (not first or space_first):
                self.put(b" ")
            first = False
            self.put(SIGNS[mode])
            after_sign = True
            if pointer_const:
                self.put(b" const")
                after_sign = False

    # Functions and ids

    def name(self, name):
        self.put(name or b"<name omitted>")

    def procedure_rest(self, record, name, seen):
        self.name(name)
        if not self.has(NO_ARGUMENTS):
            self.put(b"(")
            self.type_index(record.arguments, seen)
            self.put(b")")

    def method_start(self, record, seen):
        if record.this == 0 and not self.has(NO_MEMBER_FUNCTION_STATIC):
            self.put(b"static ")
        if not self.has(NO_FUNCTION_RETURN):
            self.method_result(record, seen)

    def function(self, name, index):
        if index == 0:
            return self.name(name)
        seen = self.fresh(index)
        record = self.types.read(index)
        if record.what == "method":
            self.method_start(record, seen)
            self.name(name)
            self.method_arguments(record, True, seen)
        elif record.what == "procedure":
            if not self.has(NO_FUNCTION_RETURN):
                self.procedure_result(record, seen)
            self.procedure_rest(record, name, seen)
        else:
            self.put(name)

    def id(self, index, before=0):
        """An id; `before` is how many records of its scope chain came before it."""
        try:
            record = self.ids.read(index)
        except Refused as refused:
            if refused.number == 8:
                return self.put(b"<missing type 0x%x>" % index)
            if refused.number == 7:
                return self.put(b"<unimplemented type kind 0x%x>" % refused.detail)
            raise
        if before == CHAIN_LIMIT:
            raise Refused(14, index)
        if record.what == "function":
            self.function_id(record, before)
        elif record.what == "member":
            self.member_id(record)
        elif record.what == "string":
            self.put(b"`anonymous namespace'" if anonymous(record.name) else record.name)
        elif record.what == "strings":
            self.put(b'"')
            for number, entry in enumerate(record.entries):
                if number > 0:
                    self.put(b'" "')
                self.type_index(entry, Open())
            self.put(b'"')
        else:
            self.put(b"<unhandled id scope 0x%x>::" % record.kind)

    def function_id(self, record, before):
        seen = self.fresh(record.type)
        kind = self.types.read(record.type)
        if kind.what != "procedure":
            raise Refused(10, record.type)
        if not self.has(NO_FUNCTION_RETURN):
            self.procedure_result(kind, seen)
        if record.scope != 0:
            self.id(record.scope, before + 1)
            self.put(b"::")
        self.procedure_rest(kind, record.name, seen)

    def member_id(self, record):
        seen = self.fresh(record.type)
        kind = self.types.read(record.type)
        if kind.what != "method":
            raise Refused(11, record.type)
        self.method_start(kind, seen)
        self.type_index(record.parent, seen)
        self.put(b"::")
        self.name(record.name)
        self.method_arguments(kind, True, seen)


# The four calls: (number, detail, text or size), and the three that measure: (number, detail, length of the text and indexes opened). Each may be lent
# places, which are checked behind the streams

def check_size(pointer_size):
    if pointer_size not in (4, 8, 16):
        raise Refused(2, pointer_size)


def check_streams(types, ids, places):
    """Types, ids where the call takes them, then the places."""
    types = Stream(types, 0)
    ids = None if ids is None else Stream(ids, 1)
    if places is not None:
        types.lend(places)
    return types, ids


def text(formatter):
    return bytes(formatter.text)


def measure(formatter):
    return len(formatter.text), formatter.opened


def text_call(types, ids, flags, pointer_size, room, places, write, answer=text):
    try:
        if flags & ~ALL_FLAGS:
            raise Refused(1, flags)
        check_size(pointer_size)
        formatter = Formatter(*check_streams(types, ids, places), flags, pointer_size, room)
        write(formatter)
        return 0, 0, answer(formatter)
    except Refused as refused:
        return refused.number, refused.detail, None


def format_function(types, flags, pointer_size, room, name, index, places=None):
    return text_call(types, None, flags, pointer_size, room, places, lambda f: f.function(name, index))


def format_id(types, ids, flags, pointer_size, room, index, places=None):
    return text_call(types, ids, flags, pointer_size, room, places, lambda f: f.id(index))


def format_type(types, flags, pointer_size, room, index, places=None):
    return text_call(types, None, flags, pointer_size, room, places, lambda f: f.type_index(index, Open()))


def measure_function(types, flags, pointer_size, name, index, places=None):
    return text_call(types, None, flags, pointer_size, MEASURED, places, lambda f: f.function(name, index), measure)


def measure_id(types, ids, flags, pointer_size, index, places=None):
    return text_call(types, ids, flags, pointer_size, MEASURED, places, lambda f: f.id(index), measure)


def measure_type(types, flags, pointer_size, index, places=None):
    return text_call(types, None, flags, pointer_size, MEASURED, places, lambda f: f.type_index(index, Open()), measure)


def get_type_size(types, pointer_size, index, places=None):
    try:
        check_size(pointer_size)
        return 0, 0, Formatter(*check_streams(types, None, places), 0, pointer_size, 0).size(index)
    except Refused as refused:
        return refused.number, refused.detail, None


def fill_places(types, places):
    """The pass: (number, detail, how many entries at the front of the lent list are filled). Those past them stay; a refusal leaves zeros in all."""
    try:
        found = Stream(types, 0).places
        if len(places) < len(found):
            raise Refused(17, len(places))
        places[:len(found)] = found
        return 0, 0, len(found)
    except Refused as refused:
        places[:] = [0] * len(places)
        return refused.number, refused.detail, None


def line(number, answer):
    """A line of `names`: running number, refusal or 0, detail, then text or size; or the two numbers of a measure."""
    refusal, detail, value = answer
    head = b"%d %d 0x%x" % (number, refusal, detail)
    if value is None:
        return head + b"\n"
    if isinstance(value, tuple):
        value = b"%d %d" % value
    return head + b" " + (value if isinstance(value, bytes) else b"%d" % value) + b"\n"


def calls(commands):
    """The calls of a sheet: command, flags, pointer size, index and name. The last may be an unknown or cut command, which has no index."""
    flags, pointer_size, at = 0, 8, 0
    widths = {0x01: 4, 0x02: 1, 0x10: 4, 0x11: 4, 0x12: 4, 0x13: 20}
    while at < len(commands):
        command = commands[at]
        if command not in widths or at + 1 + widths[command] > len(commands):
            yield command, flags, pointer_size, None, b""
            return
        fields = commands[at + 1:at + 1 + widths[command]]
        value = int.from_bytes(fields[:4], "little")
        at += 1 + widths[command]
        if command == 0x01:
            flags = value
        elif command == 0x02:
            pointer_size = value
        else:
            yield command, flags, pointer_size, value, fields[4:].split(b"\0")[0]


def lines(answers):
    return b"".join(line(number, answer) for number, answer in enumerate(answers, 1))


def sheet(types, ids, commands, places=None):
    """The output of `names`, from the bytes of its three files; with places, that of the same calls that take them."""
    types, ids, commands = types[:16384], ids[:16384], commands[:16384]

    def answer(command, flags, pointer_size, index, name):
        if index is None:
            return 16, command, None
        if command == 0x10:
            return format_type(types, flags, pointer_size, 4096, index, places)
        if command == 0x11:
            return get_type_size(types, pointer_size, index, places)
        if command == 0x12:
            return format_id(types, ids, flags, pointer_size, 4096, index, places)
        return format_function(types, flags, pointer_size, 4096, name, index, places)

    return lines(answer(*call) for call in calls(commands))


def measures(types, ids, commands, places=None):
    """A line for each text command of a sheet, with its measure; commands of sizes have none and are not counted."""
    def answer(command, flags, pointer_size, index, name):
        if index is None:
            return 16, command, None
        if command == 0x10:
            return measure_type(types, flags, pointer_size, index, places)
        if command == 0x12:
            return measure_id(types, ids, flags, pointer_size, index, places)
        return measure_function(types, flags, pointer_size, name, index, places)

    return lines(answer(*call) for call in calls(commands) if call[0] != 0x11 or call[3] is None)


def pass_line(types, length):
    """What the pass gives over a buffer of so many entries: that length, refusal or 0, detail, then the entries filled; `zeros` where it was refused."""
    places = [0xaaaaaaaa] * length
    refusal, detail, filled = fill_places(types[:16384], places)
    rest = [b"zeros"] if refusal else [b"%d" % place for place in places[:filled]]
    return b" ".join([b"%d %d 0x%x" % (length, refusal, detail)] + rest) + b"\n"


def passes(types, lengths):
    return b"".join(pass_line(types, length) for length in lengths)


def load(*path):
    with open(os.path.join(*path), "rb") as f:
        return f.read()


def expected(folder):
    """The lines of a case: those of the last Note that changed them and is here."""
    later = [f"expected-after-{note:02}.txt" for note in range(NOTES, 0, -1)]
    return load(folder, next((name for name in later if os.path.exists(os.path.join(folder, name))), "expected.txt"))


def run_sheet(folder, places=None):
    return sheet(load(folder, "types.bin"), load(folder, "ids.bin"), load(folder, "sheet.bin"), places)


def numbers(data):
    """The u32 of a file, little-endian."""
    return [int.from_bytes(data[at:at + 4], "little") for at in range(0, len(data) - 3, 4)]


def lengths(lines):
    """The lengths of the lent buffer that pass.txt has lines for."""
    return [int(told.split()[0]) for told in lines.splitlines()]


def sheet_outputs(folder):
    """What was read and what is expected, for each file of a case."""
    return [(run_sheet(folder), expected(folder))]


def places_outputs(folder):
    told = load(folder, "pass.txt")
    return [(run_sheet(folder, numbers(load(folder, "places.bin"))), expected(folder)), (passes(load(folder, "types.bin"), lengths(told)), told)]


def given_places(folder):
    """The places that the calls of a case are lent, or None."""
    return numbers(load(folder, "places.bin")) if os.path.exists(os.path.join(folder, "places.bin")) else None


def measures_outputs(folder):
    read = measures(load(folder, "types.bin"), load(folder, "ids.bin"), load(folder, "sheet.bin"), given_places(folder))
    return [(read, load(folder, "expected.txt"))]


def compare(folders, what, outputs):
    """Says which folders differ from what is expected of them and where first, and how many do."""
    wrong = 0
    for folder in folders:
        differing = [pair for pair in outputs(folder) if pair[0] != pair[1]]
        wrong += len(differing) > 0
        for got, right in differing:
            pairs = zip(got.split(b"\n"), right.split(b"\n"))
            print(folder, "differs:", next((p for p in pairs if p[0] != p[1]), "in length"))
    print(len(folders), what + ",", wrong, "differ")
    sys.exit(wrong > 0)


def vectors(folder, name):
    """The output of `test_vectors` for one pair of streams."""
    types, ids = load(folder, "data", name + "-types.bin"), load(folder, "data", name + "-ids.bin")
    all_types, all_ids = Stream(types, 0), Stream(ids, 1)
    out = [b"== %s\n" % name.encode()]

    def section(title, stream, call):
        out.append(title + b"\n")
        for index in range(stream.first, stream.end):
            out.append(b"0x%x" % index + line(0, call(index))[1:])

    for flags in (0, NO_FUNCTION_RETURN | NO_ARGUMENTS,
                  NO_MEMBER_FUNCTION_STATIC | SPACE_AFTER_COMMA | SPACE_BEFORE_POINTER | NAME_ONLY, ALL_FLAGS):
        section(b"ids flags 0x%x" % flags, all_ids, lambda index: format_id(types, ids, flags, 8, 4096, index))
        section(b"types flags 0x%x" % flags, all_types, lambda index: format_type(types, flags, 8, 4096, index))
        section(b"functions flags 0x%x" % flags, all_types, lambda index: format_function(types, flags, 8, 4096, b"f", index))
    section(b"sizes", all_types, lambda index: get_type_size(types, 8, index))
    return b"".join(out)


def main():
    mode, rest = sys.argv[1], sys.argv[2:]
    if mode == "sheet":
        sys.stdout.buffer.write(run_sheet(rest[0]))
    elif mode == "sheets":
        compare(rest, "sheets", sheet_outputs)
    elif mode == "places":
        compare(rest, "cases of places", places_outputs)
    elif mode == "measures":
        compare(rest, "cases of measures", measures_outputs)
    elif mode == "vectors":
        for name in load(rest[0], "args").decode().split():
            sys.stdout.buffer.write(vectors(rest[0], name))
    elif mode == "ids":
        types, ids = load(rest[0]), load(rest[1])
        stream = Stream(ids, 1)
        for index in range(stream.first, stream.end):
            sys.stdout.buffer.write(b"0x%x " % index + line(0, format_id(types, ids, 0, 8, 4096, index)))
    else:
        sys.exit(__doc__)


if __name__ == "__main__":
    main()
