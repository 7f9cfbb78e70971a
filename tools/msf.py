#!/usr/bin/env python3
"""The MSF container of .pdb files, read and made as LLVM's page "The MSF File Format" has it. Nothing of the Rattle code or its definitions is used.

    msf.py make FILE BLOCK STREAM..    makes a file in blocks of BLOCK bytes with these files as its streams, from 0 on; `-` is a stream that is not there
    msf.py streams FILE                prints each stream's number and length
    msf.py fields FILE                 prints the offset and the name of each number of the superblock, the block map and the directory

`read` answers as c/yokberd.h says that yokberd_read_stream does: a case of `Case` with its place, or the bytes."""
import enum
import sys

MAGIC = b"Microsoft C/C++ MSF 7.00\r\n\x1aDS\0\0\0"
BLOCK_SIZES = (512, 1024, 2048, 4096, 8192, 16384, 32768)
NIL = 0xFFFFFFFF


class Case(enum.IntEnum):
    """The numbers of c/yokberd.h."""
    READ, SHORT, MAGIC, BLOCK_SIZE, FREE_BLOCK_MAP, CUT, DIRECTORY_SIZE, BLOCK_MAP, DIRECTORY_BLOCK, DIRECTORY, STREAM_BLOCK, NO_STREAM, NO_ROOM = range(13)


class Damaged(Exception):
    """A case and its place."""


def u32(data, at):
    return int.from_bytes(data[at:at + 4], "little")


def ceiling(n, d):
    return -(-n // d)


class Superblock:
    """The first 56 bytes: "At file offset 0 in an MSF file is the MSF SuperBlock"."""

    def __init__(self, data):
        if len(data) < 56:
            raise Damaged(Case.SHORT, len(data))
        for at in range(32):
            if data[at] != MAGIC[at]:
                raise Damaged(Case.MAGIC, at)
        self.block, self.free_map, self.blocks, self.directory_bytes, _, self.block_map = (u32(data, at) for at in range(32, 56, 4))
        if self.block not in BLOCK_SIZES:
            raise Damaged(Case.BLOCK_SIZE, 32)
        if self.free_map not in (1, 2):
            raise Damaged(Case.FREE_BLOCK_MAP, 36)
        if self.blocks * self.block > len(data):
            raise Damaged(Case.CUT, 40)
        self.directory_blocks = ceiling(self.directory_bytes, self.block)
        if self.directory_bytes % 4 or self.directory_bytes == 0 or 4 * self.directory_blocks > self.block:
            raise Damaged(Case.DIRECTORY_SIZE, 44)
        if not self.inside(self.block_map):
            raise Damaged(Case.BLOCK_MAP, 52)

    def inside(self, number):
        return 0 < number < self.blocks


class Directory:
    """The stream directory, put together from its blocks; `place` says where in the file its n-th number stands."""

    def __init__(self, data):
        self.superblock = top = Superblock(data)
        listed = [top.block_map * top.block + 4 * i for i in range(top.directory_blocks)]
        self.test_inside(((at, u32(data, at)) for at in listed), Case.DIRECTORY_BLOCK)
        self.starts = [u32(data, at) * top.block for at in listed]
        joined = b"".join(data[start:start + top.block] for start in self.starts)[:top.directory_bytes]
        self.words = [u32(joined, at) for at in range(0, len(joined), 4)]
        self.count = self.words[0]
        self.sizes = self.words[1:1 + self.count]
        self.lists = self.block_lists()
        self.test_inside(((self.place(at), self.words[at]) for at in range(1 + self.count, len(self.words))), Case.STREAM_BLOCK)

    def test_inside(self, blocks, case):
        """Blocks, each with its place: all of them lie in the file."""
        for at, number in blocks:
            if not self.superblock.inside(number):
                raise Damaged(case, at)

    def place(self, n):
        block, rest = divmod(4 * n, self.superblock.block)
        return self.starts[block] + rest

    def block_lists(self):
        """For each stream its blocks: "This structure occupies exactly NumDirectoryBytes bytes"."""
        lists, at = [], 1 + self.count
        for size in self.sizes:
            length = 0 if size == NIL else ceiling(size, self.superblock.block)
            lists.append(range(at, at + length))
            at += length
        if len(self.sizes) != self.count or at != len(self.words):
            raise Damaged(Case.DIRECTORY, self.place(0))
        return lists


def read(data, number, room=None):
    """The bytes of a stream, or `Damaged`."""
    directory = Directory(data)
    if number >= directory.count:
        raise Damaged(Case.NO_STREAM, directory.place(0))
    size, block = directory.sizes[number], directory.superblock.block
    if size == NIL:
        raise Damaged(Case.NO_STREAM, directory.place(1 + number))
    if room is not None and room < size:
        raise Damaged(Case.NO_ROOM, size)
    starts = [directory.words[at] * block for at in directory.lists[number]]
    return b"".join(data[start:start + block] for start in starts)[:size]


def fields(data):
    """The offset and the name of each number that says where something lies."""
    directory = Directory(data)
    names = ["BlockSize", "FreeBlockMapBlock", "NumBlocks", "NumDirectoryBytes", "Unknown", "BlockMapAddr"]
    found = list(zip(range(32, 56, 4), names))
    top = directory.superblock
    found += [(top.block_map * top.block + 4 * i, f"directory block {i}") for i in range(top.directory_blocks)]
    found += [(directory.place(0), "NumStreams")]
    found += [(directory.place(1 + i), f"size of stream {i}") for i in range(directory.count)]
    found += [(directory.place(at), f"block of stream {i}") for i, blocks in enumerate(directory.lists) for at in blocks]
    return found


def make(streams, block):
    """A file with these streams (None is one that is not there): superblock, two free block maps, the streams' blocks, the directory's, the block map."""
    parts = [[] if stream is None else [stream[at:at + block] for at in range(0, len(stream), block)] for stream in streams]
    words = [len(streams)] + [NIL if stream is None else len(stream) for stream in streams]
    words += range(3, 3 + sum(map(len, parts)))
    joined = b"".join(word.to_bytes(4, "little") for word in words)
    start = 3 + sum(map(len, parts))
    held = ceiling(len(joined), block)
    top = MAGIC + b"".join(n.to_bytes(4, "little") for n in (block, 1, start + held + 1, len(joined), 0, start + held))
    block_map = b"".join(n.to_bytes(4, "little") for n in range(start, start + held))
    in_blocks = [top, b"", b""] + [part for stream in parts for part in stream] + [joined.ljust(held * block, b"\0"), block_map]
    return b"".join(part.ljust(block, b"\0") for part in in_blocks)


def load(path):
    with open(path, "rb") as f:
        return f.read()


def main():
    mode, path, rest = sys.argv[1], sys.argv[2], sys.argv[3:]
    if mode == "make":
        with open(path, "wb") as f:
            f.write(make([None if name == "-" else load(name) for name in rest[1:]], int(rest[0])))
    elif mode == "streams":
        print("\n".join(f"{number} {'none' if size == NIL else size}" for number, size in enumerate(Directory(load(path)).sizes)))
    elif mode == "fields":
        print("\n".join(f"{at} {name}" for at, name in fields(load(path))))
    else:
        sys.exit(__doc__)


if __name__ == "__main__":
    if len(sys.argv) < 3:
        sys.exit(__doc__)
    main()
