#!/usr/bin/env python3
"""Makes a protofile with the files that it takes, and compares a volume that was made of it with them.

  examples/protofile_trees.py make TREE FOLDER     writes FOLDER/proto, and FOLDER/due: what each file is to be
  examples/protofile_trees.py compare FOLDER IMAGE reads each file of the image by the format alone: its kind, mode, owners, size, and its
                                                   bytes, target or device; numbers of inodes have to ascend in the protofile's order
  examples/protofile_trees.py show FOLDER IMAGE    asks xfs_db of xfsprogs for mode, owners, size and bytes of some of them

TREE is small, deep, names, long, links, devices or large.
"""
import hashlib
import json
import os
import re
import subprocess
import sys

from volume_files import Volume, files_of

BLOCK = 4096
# how many files xfs_db is asked for
SHOWN = 60


def digest_of(path):
    """That of volume_files.py: of each block that has any byte but zeros, with its place."""
    digest = hashlib.sha256()
    with open(path, "rb") as source:
        place = 0
        while piece := source.read(BLOCK):
            if any(piece):
                digest.update(place.to_bytes(8, "big") + piece)
            place += BLOCK
    return digest.hexdigest()


class Tree:
    """A protofile that is written token by token."""

    def __init__(self, folder):
        self.folder, self.due, self.path = folder, [], []
        self.digests = {}
        self.proto = open(os.path.join(folder, "proto"), "w")
        self.proto.write("x 0 0\nd--755 0 0\n")
        self.add(None, "directory", 0o755, 0, 0, 0, "")

    def add(self, name, kind, mode, uid, gid, size, says):
        path = "".join("/" + part for part in self.path + ([] if name is None else [name]))
        self.due.append([path, kind, mode, uid, gid, size, says])

    def put(self, name, letter, mode, uid, gid, rest):
        flags = ("u" if mode & 0o4000 else "-") + ("g" if mode & 0o2000 else "-")
        self.proto.write(f"{name} {letter}{flags}{mode & 0o777:03o} {uid} {gid} {rest}\n")

    def open(self, name, mode=0o755, uid=0, gid=0):
        self.put(name, "d", mode, uid, gid, "")
        self.add(name, "directory", mode, uid, gid, 0, "")
        self.path.append(name)

    def close(self):
        self.proto.write("$\n")
        if self.path:
            self.path.pop()

    def file(self, name, source, mode=0o644, uid=0, gid=0):
        if source not in self.digests:
            self.digests[source] = (os.path.getsize(source), digest_of(source))
        self.put(name, "-", mode, uid, gid, source)
        self.add(name, "file", mode, uid, gid, *self.digests[source])

    def link(self, name, target, mode=0o777, uid=0, gid=0):
        self.put(name, "l", mode, uid, gid, target)
        self.add(name, "link", mode, uid, gid, len(target), target)

    def device(self, name, letter, major, minor, mode=0o600, uid=0, gid=0):
        self.put(name, letter, mode, uid, gid, f"{major} {minor}")
        self.add(name, "block" if letter == "b" else "character", mode, uid, gid, 0, f"{major << 18 | minor:08x}")

    def pipe(self, name, mode=0o600, uid=0, gid=0):
        self.put(name, "p", mode, uid, gid, "")
        self.add(name, "pipe", mode, uid, gid, 0, "")

    def end(self):
        self.close()
        self.proto.close()
        with open(os.path.join(self.folder, "due"), "w") as due:
            json.dump(self.due, due)


def source_of(folder, name, data):
    path = os.path.join(folder, name)
    with open(path, "wb") as out:
        out.write(data)
    return path


def small(tree):
    """20,000 files of up to 5,000 bytes in 200 directories."""
    for i in range(20000):
        if i % 100 == 0:
            if i:
                tree.close()
            tree.open(f"d{i // 100}", uid=i // 100, gid=7)
        data = bytes((i + j) % 251 for j in range(i * 37 % 5000))
        tree.file(f"f{i}", source_of(tree.folder, f"f{i}", data), 0o600 | i % 64, i, 20000 - i)
    tree.close()


def deep(tree):
    """200 directories, each in the one before it, with a file in each."""
    source = source_of(tree.folder, "leaf", b"leaf\n")
    for i in range(200):
        tree.open(f"d{i}")
        tree.file("leaf", source, uid=i)
    for i in range(200):
        tree.close()


def names(tree):
    """A directory of 50,000 names."""
    source = source_of(tree.folder, "one", b"x")
    tree.open("many")
    for i in range(50000):
        if i % 10 == 0:
            tree.file(f"file-{i:05}", source)
        else:
            tree.pipe(f"pipe-{i:05}", uid=i)
    tree.close()


def long(tree):
    """Names of 255 bytes."""
    source = source_of(tree.folder, "one", b"x")
    for i in range(300):
        tree.file(f"{i:05}" + "n" * 250, source, gid=i)
    tree.open("d" * 255)
    tree.link("s" * 255, "../" + "d" * 255)
    tree.close()


def links(tree):
    """Symbolic links with targets of 1 to 1,023 bytes: xfsprogs and kernels take no longer one, the format 1,024."""
    for length in (1, 300, 335, 336, 337, 1022, 1023):
        tree.link(f"s{length}", "t" * length, uid=length)


def devices(tree):
    """Devices, pipes, and bits that set user and group."""
    for letter in "bc":
        for major, minor in ((0, 0), (8, 1), (259, 3), (16383, 262143)):
            tree.device(f"{letter}{major}-{minor}", letter, major, minor, 0o660, 0, 6)
    tree.pipe("pipe", 0o622, 1, 4294967295)
    source = source_of(tree.folder, "tool", b"#!/bin/sh\n")
    tree.file("tool", source, 0o6755)
    tree.open("shared", 0o2775, 1000, 1000)
    tree.close()
    tree.file("empty", source_of(tree.folder, "empty", b""))


def large(tree):
    """A file of 3 GB, larger than any of four groups of 4 GB."""
    path = os.path.join(tree.folder, "large")
    with open(path, "wb") as out:
        for place in range(0, 3_000_000_000, 1 << 24):
            out.seek(place + place // 1000 % BLOCK)
            out.write(place.to_bytes(8, "big"))
        out.truncate(3_000_000_000)
    tree.file("large", path)
    tree.file("behind", source_of(tree.folder, "one", b"x"))


TREES = {"small": small, "deep": deep, "names": names, "long": long, "links": links, "devices": devices, "large": large}


def due_of(folder):
    with open(os.path.join(folder, "due")) as due:
        return json.load(due)


def held(file):
    says = {"file": file.data, "link": lambda: file.target().decode(), "block": lambda: file.fork[:4].hex(), "character": lambda: file.fork[:4].hex()}
    size = 0 if file.kind == "directory" else file.size
    return [file.kind, file.mode & 0o7777, file.uid, file.gid, size, says.get(file.kind, str)()]


def compare(folder, image):
    """How many files differ."""
    files = {path.decode(): file for path, file in files_of(Volume(image))}
    wrong, before = 0, 0
    for path, *due in due_of(folder):
        file = files.pop(path, None)
        found = None if file is None else held(file)
        if found != due or file.ino <= before:
            wrong += 1
            if wrong < 10:
                print(f"    {path}: {found}, due {due}")
        before = file.ino if file else before
    for path in files:
        print(f"    {path} was not asked for")
    print(f"    {len(due_of(folder))} files read, {wrong + len(files)} of them otherwise than asked for")
    return wrong + len(files)


def bytes_shown(image, block, size, bmap):
    """A digest of the bytes of a file, whose extents xfs_db printed."""
    digest = hashlib.sha256()
    with open(image, "rb") as volume:
        for offset, address, count in sorted((int(o), block(int(g), int(b)), int(c)) for o, g, b, c in bmap):
            for i in range(count):
                volume.seek((address + i) * BLOCK)
                place = (offset + i) * BLOCK
                piece = volume.read(BLOCK)[:max(0, size - place)]
                if any(piece):
                    digest.update(place.to_bytes(8, "big") + piece)
    return digest.hexdigest()


def show(folder, image):
    """How many of some files xfs_db shows otherwise than they are due."""
    head = subprocess.run(["xfs_db", "-r", "-c", "sb 0", "-c", "print agblocks", image], capture_output=True, text=True, check=True).stdout
    agblocks = int(head.split("=")[1])
    due = [row for row in due_of(folder) if len(row[0]) < 900]
    wrong = 0
    for path, kind, mode, uid, gid, size, says in due[::max(1, len(due) // SHOWN)]:
        said = subprocess.run(["xfs_db", "-r", "-c", f"path {path or '/'}", "-c", "print core.mode core.uid core.gid core.size", "-c", "bmap -d", image],
                              capture_output=True, text=True).stdout
        values = dict(re.findall(r"core\.(\w+) = (\d+)", said))
        shown = [int(values.get("mode", "0"), 8) & 0o7777, int(values.get("uid", -1)), int(values.get("gid", -1))]
        if kind not in ("directory", "block", "character", "pipe"):
            shown.append(int(values.get("size", -1)))
        wanted = [mode, uid, gid] + ([size] if len(shown) == 4 else [])
        if kind == "file" and size:
            extents = re.findall(r"data offset (\d+) startblock \d+ \((\d+)/(\d+)\) count (\d+)", said)
            shown.append(bytes_shown(image, lambda g, b: g * agblocks + b, size, extents))
            wanted.append(says)
        if shown != wanted:
            wrong += 1
            print(f"    {path}: xfs_db shows {shown}, due {wanted}")
    print(f"    {len(due[::max(1, len(due) // SHOWN)])} files shown, {wrong} of them otherwise than asked for")
    return wrong


def main():
    if len(sys.argv) != 4 or sys.argv[1] not in ("make", "compare", "show"):
        sys.exit(__doc__)
    if sys.argv[1] == "make":
        tree = Tree(sys.argv[3])
        TREES[sys.argv[2]](tree)
        tree.end()
    elif (compare if sys.argv[1] == "compare" else show)(sys.argv[2], sys.argv[3]):
        sys.exit(1)


if __name__ == "__main__":
    main()
