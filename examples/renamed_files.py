#!/usr/bin/env python3
"""Damages of names in a volume in the profile that is whole, and what a repair is to leave of its files, by the rules of names alone.

  examples/renamed_files.py places IMAGE               a line for each damage: its name, and from which byte on how many are to be zero
  examples/renamed_files.py compare IMAGE NOW DAMAGE   compares the files of the repaired volume NOW with those that are due

A damage is one of these places, or `inode N`, a file that is lost, or `entry K of directory N`, one of its names, counted from 0, that is.
A file keeps each of its paths of which no name is lost, and its inode, kind, mode, owners, size, bytes or target or device, and attributes.
One that has no name left stands in lost+found under its number. Prints how many files are due in lost+found; and where other files are
there, ends with 1 and prints the first differences."""
import struct
import sys

from volume_files import BLOCK, SLOT, Volume, block_entries, files_of, short_entries

INDEX, FREE = 0x800000, 0x1000000
LOST = b"lost+found"
INDEXES = {b"\x3d\xf1": "index in leaf form", b"\x3e\xbe": "node of an index", b"\x3d\xff": "leaf of an index"}


def linear(volume, address):
    return (address >> volume.agblklog) * volume.agblocks + (address & (1 << volume.agblklog) - 1)


def directory_blocks(directory):
    """Each block of a directory: what it is, its file block and its address."""
    blocks = [(offset + i, start + i) for offset, start, count, _ in directory.extents for i in range(count)]
    for place, address in blocks:
        block = directory.volume.block(address)
        if place >= FREE:
            kind = "free block"
        elif place >= INDEX:
            kind = INDEXES[block[8:10]]
        elif block[:4] == b"XDB3":
            kind = "only block"
        else:
            kind = "data block" if place else "first data block"
        yield kind, place, address


class Tree:
    """All files of a volume by inode, and the entries of each directory, with the file block in which each stands."""

    def __init__(self, path):
        self.volume = Volume(path)
        self.root = self.volume.root
        self.files = {file.ino: file for _, file in files_of(self.volume)}
        self.entries = {ino: list(self.entries_of(file)) for ino, file in self.files.items() if file.kind == "directory"}

    def entries_of(self, directory):
        if directory.form == 1:
            for name, ino in short_entries(directory.fork):
                yield None, name, ino
            return
        for kind, place, address in directory_blocks(directory):
            if "block" in kind and kind != "free block":
                for name, ino in block_entries(self.volume.block(address)):
                    if name not in (b".", b".."):
                        yield place, name, ino

    def places(self):
        """Damages by name, each with the byte at which it begins, how many bytes it has, the directory, and the file block of entries that
        it takes away, or all."""
        def slot(ino):
            return linear(self.volume, ino >> 3) * BLOCK + (ino & 7) * SLOT
        found = {"slot of the root": (slot(self.root), SLOT, self.root, "all")}
        below = [ino for ino in sorted(self.entries) if ino != self.root]
        full = [ino for ino in below if any(target in self.entries for _, _, target in self.entries[ino])] or [ino for ino in below if self.entries[ino]] or below
        if full:
            ino = full[len(full) // 2]
            found[f"slot of directory {ino}"] = (slot(ino), SLOT, ino, "all")
        kinds = {}
        for ino in sorted(self.entries):
            if self.files[ino].form != 1:
                for kind, place, address in directory_blocks(self.files[ino]):
                    kinds.setdefault(kind, []).append((ino, place, address))
        for kind, blocks in sorted(kinds.items()):
            ino, place, address = blocks[len(blocks) // 2]
            lost = "all" if kind == "only block" else place if kind.endswith("data block") else "none"
            found[f"{kind} of directory {ino}"] = (linear(self.volume, address) * BLOCK, BLOCK, ino, lost)
        trees = [ino for ino in sorted(self.entries) if self.files[ino].form == 3]
        if trees:
            fork = self.files[trees[0]].fork
            address = struct.unpack_from(">Q", fork, 4 + 8 * ((len(fork) - 4) // 16))[0]
            found[f"extent tree of directory {trees[0]}"] = (linear(self.volume, address) * BLOCK, BLOCK, trees[0], "all")
        return found

    def due(self, damage):
        """The lines of files that are due behind a damage, whether lost+found is made anew, and how many files are put there."""
        words = damage.split()
        if words[0] in ("inode", "entry"):
            hurt, lost = int(words[-1]), "all" if words[0] == "inode" else "none"
        else:
            _, _, hurt, lost = self.places()[damage]
        gone = {hurt} if words[0] in ("slot", "extent", "inode") and hurt != self.root else set()
        entries = {ino: [(name, target) for at, (place, name, target) in enumerate(listed)
                         if target not in gone and not (ino == hurt and (lost in ("all", place) or words[:2] == ["entry", str(at)]))]
                   for ino, listed in self.entries.items() if ino not in gone}
        named = {target for listed in entries.values() for _, target in listed}
        orphans = sorted(self.files.keys() - named - gone - {self.root})
        fresh = False
        if orphans:
            there = dict(entries[self.root]).get(LOST)
            if there is not None and there not in entries:
                entries[self.root].remove((LOST, there))
                if not any(target == there for listed in entries.values() for _, target in listed):
                    orphans = sorted([*orphans, there])
            fresh = there not in entries
            place = "lost+found" if fresh else there
            taken = {name for name, _ in entries.setdefault(place, [])}
            for ino in orphans:
                name, more = b"%d" % ino, 0
                while name in taken:
                    more += 1
                    name = b"%d.%d" % (ino, more)
                taken.add(name)
                entries[place].append((name, ino))
            if fresh:
                entries[self.root].append((LOST, place))
        return set(self.lines(entries, damage == "slot of the root")), fresh, len(orphans)

    def lines(self, entries, root_anew):
        links = {}
        for ino, listed in entries.items():
            for _, target in listed:
                links[target] = links.get(target, 0) + 1
            links[ino] = links.get(ino, 0) + 0
        waiting = [(b"", self.root)]
        while waiting:
            path, ino = waiting.pop()
            waiting += [(path + b"/" + name, target) for name, target in entries.get(ino, [])]
            if ino == "lost+found":
                continue
            file = self.files[ino]
            file.nlink = 2 + sum(target in entries for _, target in entries[ino]) if ino in entries else links[ino]
            if ino == self.root and root_anew:
                yield f"{path!r} {ino} directory 755 0 0 {file.nlink} 0  []"
                continue
            yield file.line(path)


def main():
    if len(sys.argv) == 3 and sys.argv[1] == "places":
        for name, (at, count, _, _) in Tree(sys.argv[2]).places().items():
            print(f"{at} {count} {name}")
        return 0
    if len(sys.argv) != 5 or sys.argv[1] != "compare":
        sys.exit(__doc__)
    due, fresh, orphans = Tree(sys.argv[2]).due(sys.argv[4])
    print(orphans)
    held, right = set(), True
    for path, file in files_of(Volume(sys.argv[3])):
        if not fresh or path != b"/" + LOST:
            held.add(file.line(path))
        elif (file.kind, file.mode & 0o7777, file.uid, file.gid) != ("directory", 0o700, 0, 0):
            print(f"lost+found is {file.line(path)}")
            right = False
    for more, lines in (("there", held - due), ("due", due - held)):
        for line in sorted(lines)[:2]:
            print(f"{len(lines)} {more}, as {line[:200]}")
    return 0 if right and held == due else 1


if __name__ == "__main__":
    sys.exit(main())
