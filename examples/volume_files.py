#!/usr/bin/env python3
"""Prints the files of a volume in the profile, a line each, by path: what is its inode, its kind and mode, owners, links, size, a digest of its
bytes or its target or device, and its attributes. Two volumes with the same lines have the same files. It reads the image by itself, and
trusts it: a volume that is damaged may stop it.

  examples/volume_files.py IMAGE
"""
import hashlib
import struct
import sys

BLOCK = 4096
SLOT = 512
CORE = 176
# the blocks of a directory from here on are its index
DATA_END = 0x800000
KINDS = {1: "pipe", 2: "character", 4: "directory", 6: "block", 8: "file", 10: "link", 12: "socket"}


class Volume:
    def __init__(self, path):
        self.image = open(path, "rb")
        head = self.read(0, 512)
        self.agblocks, self.agblklog = struct.unpack_from(">I", head, 84)[0], head[124]
        self.root = struct.unpack_from(">Q", head, 56)[0]

    def read(self, at, count):
        self.image.seek(at)
        return self.image.read(count).ljust(count, b"\0")

    def block(self, address):
        """The bytes at a block address of the whole volume, a group's number above the block in it."""
        group, within = address >> self.agblklog, address & ((1 << self.agblklog) - 1)
        return self.read((group * self.agblocks + within) * BLOCK, BLOCK)

    def slot(self, ino):
        return self.block(ino >> 3)[(ino & 7) * SLOT:(ino & 7) * SLOT + SLOT]


def extent(record):
    """Its offset in the file, address and count in blocks, and whether it is unwritten."""
    high, low = struct.unpack(">QQ", record)
    return (high >> 9) & ((1 << 54) - 1), ((high & 0x1FF) << 43) | (low >> 21), low & 0x1FFFFF, high >> 63


def extents_of(volume, form, fork, count):
    if form == 2:
        return [extent(fork[16 * i:16 * i + 16]) for i in range(count)]
    if form != 3:
        return []
    level, number = struct.unpack_from(">HH", fork)
    room = (len(fork) - 4) // 16
    below = [struct.unpack_from(">Q", fork, 4 + 8 * room + 8 * i)[0] for i in range(number)]
    while level > 0:
        level -= 1
        blocks = [volume.block(address) for address in below]
        if level == 0:
            return [extent(b[72 + 16 * i:88 + 16 * i]) for b in blocks for i in range(struct.unpack_from(">H", b, 6)[0])]
        below = [struct.unpack_from(">Q", b, 72 + 8 * 251 + 8 * i)[0] for b in blocks for i in range(struct.unpack_from(">H", b, 6)[0])]
    return []


class File:
    def __init__(self, volume, ino):
        slot = volume.slot(ino)
        self.volume, self.ino, self.slot = volume, ino, slot
        self.mode, self.form = struct.unpack_from(">H", slot, 2)[0], slot[5]
        self.uid, self.gid, self.nlink = struct.unpack_from(">III", slot, 8)
        self.size, self.nextents, self.anextents = struct.unpack_from(">Q", slot, 56)[0], *struct.unpack_from(">IH", slot, 76)
        self.forkoff, self.aform = slot[82] * 8, slot[83]
        self.fork = slot[CORE:CORE + self.forkoff] if self.forkoff else slot[CORE:]
        self.extents = extents_of(volume, self.form, self.fork, self.nextents)
        self.kind = KINDS.get(self.mode >> 12, "other")

    def data(self):
        """A digest of the bytes: of each block within the size that has any but zeros, with its place."""
        digest = hashlib.sha256()
        for offset, start, count, unwritten in self.extents:
            for i in range(0 if unwritten else count):
                place = (offset + i) * BLOCK
                piece = self.volume.block(start + i)[:max(0, self.size - place)]
                if any(piece):
                    digest.update(place.to_bytes(8, "big") + piece)
        return digest.hexdigest()

    def target(self):
        if self.form == 1:
            return self.fork[:self.size]
        return b"".join(self.volume.block(start + i)[56:] for _, start, count, _ in self.extents for i in range(count))[:self.size]

    def entries(self):
        if self.form == 1:
            yield from short_entries(self.fork)
            return
        for offset, start, count, _ in self.extents:
            for i in range(count):
                if offset + i < DATA_END:
                    yield from block_entries(self.volume.block(start + i))

    def attributes(self):
        if not self.forkoff:
            return []
        fork = self.slot[CORE + self.forkoff:]
        if self.aform == 1:
            return sorted(short_attributes(fork))
        return sorted(a for _, start, _, _ in extents_of(self.volume, self.aform, fork, self.anextents) for a in leaf_attributes(self.volume.block(start)))

    def line(self, path):
        rest = {"file": self.data, "link": lambda: repr(self.target()), "block": lambda: self.fork[:4].hex(), "character": lambda: self.fork[:4].hex()}
        said = rest.get(self.kind, str)()
        size = 0 if self.kind == "directory" else self.size
        return f"{path!r} {self.ino} {self.kind} {self.mode & 0o7777:o} {self.uid} {self.gid} {self.nlink} {size} {said} {self.attributes()}"


def short_entries(fork):
    wide = 8 if fork[1] else 4
    at = 2 + wide
    for _ in range(fork[1] or fork[0]):
        length = fork[at]
        name = fork[at + 3:at + 3 + length]
        place = at + 4 + length
        yield name, int.from_bytes(fork[place:place + wide], "big")
        at = place + wide


def block_entries(block):
    end = BLOCK
    if block[:4] == b"XDB3":
        end = BLOCK - 8 - 8 * struct.unpack_from(">I", block, BLOCK - 8)[0]
    at = 64
    while at < end:
        if block[at:at + 2] == b"\xff\xff":
            at += struct.unpack_from(">H", block, at + 2)[0]
            continue
        ino, length = struct.unpack_from(">QB", block, at)
        yield block[at + 9:at + 9 + length], ino
        at += (12 + length + 7) // 8 * 8


def short_attributes(fork):
    at = 4
    for _ in range(fork[2]):
        name, value, flags = fork[at], fork[at + 1], fork[at + 2]
        yield flags, fork[at + 3:at + 3 + name], fork[at + 3 + name:at + 3 + name + value]
        at += 3 + name + value


def leaf_attributes(block):
    if block[8:10] != b"\x3b\xee":
        return  # a value's own block
    for i in range(struct.unpack_from(">H", block, 56)[0]):
        at, flags = struct.unpack_from(">HB", block, 80 + 8 * i + 4)
        if not flags & 1:
            # the value has blocks of its own
            yield flags & 6, block[at + 9:at + 9 + block[at + 8]], b""
            continue
        value, name = struct.unpack_from(">HB", block, at)
        yield flags & 6, block[at + 3:at + 3 + name], block[at + 3 + name:at + 3 + name + value]


def files_of(volume):
    """Each path with its file, directories before what is in them."""
    waiting = [(b"", volume.root)]
    while waiting:
        path, ino = waiting.pop()
        file = File(volume, ino)
        yield path, file
        if file.kind == "directory":
            waiting += [(path + b"/" + name, below) for name, below in file.entries() if name not in (b".", b"..")]


def main():
    if len(sys.argv) != 2:
        sys.exit(__doc__)
    print("\n".join(sorted(file.line(path) for path, file in files_of(Volume(sys.argv[1])))))


if __name__ == "__main__":
    main()
