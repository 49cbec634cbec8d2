"""Small volumes of any files, by the on-disk format alone, with nothing of this project: one is made of its files, or of what is kept of
another one, with the directories, trees and free lists that a repair places anew."""
import struct

from directory_bytes import DATA, FREE, INDEX, build, placed
from volume_bytes import (
    AG, AGBLOCKS, BLOCK, BLOCKS, FS, INOBT, INODES, LOG, ONES, agf, agfl, agi, extent, leaf, rmap, runs_of, slot, superblock)

GROUPS = (0, 1)
LOG_AT = AGBLOCKS + 6
KINDS = (0x41423342, 0x41423343, 0x49414233, 0x46494233, 0x524d4233)


def tree_blocks(count, most, below):
    """How many blocks a packed tree of so many records has, with so many records in a leaf and children in a node."""
    level = max(1, -(-count // most))
    total = level
    while level > 1:
        level = -(-level // below)
        total += level
    return total


def tree_room(length):
    """How many blocks of a group's pool are spared for its trees."""
    return tree_blocks(length, 168, 91) + 2 * tree_blocks((length + 1) // 2, 505, 336) + 2 * tree_blocks(length // 8, 252, 505) + 6


def group_runs(blocks):
    """The runs of blocks, none of them in two groups (the first block of a group is in none)."""
    return runs_of(sorted(blocks))


def runs_for(ask, blocks, left):
    """The runs for so many blocks out of these, at most `left` of them: the lowest single one, or else the longest, and so on."""
    runs = []
    while ask:
        if left == len(runs):
            return None
        free = group_runs(blocks)
        fitting = [start for start, count in free if count >= ask]
        if fitting:
            run = (fitting[0], ask)
        elif free:
            run = max(free, key=lambda run: (run[1], -run[0]))
        else:
            return None
        runs.append(run)
        blocks -= set(range(run[0], sum(run)))
        ask -= run[1]
    return runs


def object_runs(asks, blocks, most):
    """The runs of each ask of one object, or None; they are taken out of the blocks."""
    trial, found = set(blocks), []
    for place, ask in enumerate(asks):
        runs = runs_for(ask, trial, most - sum(map(len, found)) - (len(asks) - 1 - place))
        if runs is None:
            return None
        found.append(runs)
    return found


class Volume:
    """A volume as it is made: `image`; `claims`, the runs of blocks of files with their owners and offset words; `used`, the inodes in
    use; `chunks`, a pair of the first inode and the mask of missing ones for each."""

    def __init__(self, image, chunks):
        self.image, self.chunks, self.claims, self.used = bytearray(image), chunks, [], set()

    def put(self, block, data, at=0):
        self.image[block * BLOCK + at:block * BLOCK + at + len(data)] = data

    def set_slot(self, ino, data):
        """An inode in use has this slot; its number is its place, since all stand in the first group."""
        self.put(ino // 8, data, ino % 8 * 512)
        self.used.add(ino)

    def free(self, first, end):
        """Free slots."""
        for ino in range(first, end):
            self.put(ino // 8, slot(ino, free=True), ino % 8 * 512)

    def system(self):
        self.set_slot(129, slot(129, [(2, 2, 0x8000), (5, 1, 2), (16, 4, 1), (90, 2, 4)]))
        self.set_slot(130, slot(130, [(2, 2, 0x8000), (5, 1, 2), (16, 4, 1)]))

    def pipe(self, ino, links=1):
        self.set_slot(ino, slot(ino, [(2, 2, 0x11a4), (16, 4, links)]))

    def regular(self, ino, runs, links=1):
        """A regular file on these runs."""
        offset, fork, total = 0, b"", sum(count for _, count in runs)
        for start, count in runs:
            fork += extent(offset, start, count)
            self.claims.append((start, count, ino, offset))
            offset += count
        core = [(2, 2, 0x81a4), (5, 1, 2), (16, 4, links), (56, 8, BLOCK * total), (64, 8, total), (76, 4, len(runs))]
        self.set_slot(ino, slot(ino, core, fork))

    def directory(self, ino, parent, entries, links=2, mode=0x41ed, runs=(), attribute=b"", forkoff=0):
        """A directory whose blocks of data, index and free space stand on these runs, three lists of them."""
        room = 8 * forkoff or 336
        short, *parts = build(ino, parent, entries, room)
        core = [(2, 2, mode), (16, 4, links)]
        if forkoff:
            core += [(82, 1, forkoff), (83, 1, 1), (176 + room, 0, attribute)]
        if short:
            self.set_slot(ino, slot(ino, core + [(5, 1, 1), (56, 8, len(short))], short))
            return
        fork, number = b"", 0
        for first, blocks, places in zip((DATA, INDEX, FREE), parts, runs):
            assert len(blocks) == sum(count for _, count in places)
            taken = 0
            for start, count in places:
                fork += extent(first + taken, start, count)
                self.claims.append((start, count, ino, first + taken))
                for i in range(count):
                    self.put(start + i, placed(blocks[taken + i], start + i, ino))
                taken, number = taken + count, number + 1
        blocks = sum(map(len, parts))
        core += [(5, 1, 2), (56, 8, BLOCK * len(parts[0])), (64, 8, blocks), (76, 4, number)]
        self.set_slot(ino, slot(ino, core, fork))

    def clusters(self):
        """The first block of each cluster, with its first inode."""
        return [(first // 8 + 4 * half, first + 32 * half) for first, mask in self.chunks for half in (0, 1) if not mask >> 8 * half & 1]

    def owned(self):
        """All runs but those of trees and free lists, with owner and offset word."""
        fixed = [(0, 1, FS, 0), (AGBLOCKS, 1, FS, 0), (LOG_AT, 512, LOG, 0)]
        return fixed + [(block, 4, INODES, 0) for block, _ in self.clusters()] + self.claims

    def records(self, ag):
        """The records of a group's tree of inodes: each with how many inodes there are, how many are free, and its bytes."""
        found = []
        for first, mask in sorted(chunk for chunk in self.chunks if chunk[0] // (8 * AGBLOCKS) == ag):
            there = [i for i in range(64) if not mask >> i // 4 & 1]
            free = [i for i in there if first + i not in self.used]
            bits = ((1 << 64) - 1) ^ sum(1 << i for i in there if i not in free)
            found.append((len(there), len(free), struct.pack(">IHBBQ", first % (8 * AGBLOCKS), mask, len(there), len(free), bits)))
        return found

    def finish(self, trees, lists):
        """Writes headers, trees and free lists: for each group the blocks of its five trees, each of one block, and of its free list."""
        owned = self.owned()
        for ag in GROUPS:
            base = ag * AGBLOCKS
            inodes = set(trees[ag][2:4])
            owned += [(base + b, 1, INOBT if b in inodes else AG, 0) for b in [*trees[ag], *lists[ag]]]
        taken = [b for start, count, _, _ in owned for b in range(start, start + count)]
        assert len(taken) == len(set(taken)) and max(taken) < BLOCKS
        free = [runs_of([b for b in range(AGBLOCKS) if ag * AGBLOCKS + b not in set(taken)]) for ag in GROUPS]
        records = [self.records(ag) for ag in GROUPS]
        inodes, unused = [[sum(r[i] for r in records[ag]) for ag in GROUPS] for i in (0, 1)]
        counts = (sum(inodes), sum(unused), sum(count for runs in free for _, count in runs) + sum(map(len, lists)))
        for ag in GROUPS:
            base, listed = ag * AGBLOCKS, lists[ag]
            chunks = [r[2] for r in records[ag]]
            starts = [struct.pack(">II", *run) for run in free[ag]]
            sizes = [struct.pack(">II", *run) for run in sorted(free[ag], key=lambda run: (run[1], run[0]))]
            owners = merged([run for run in owned if run[0] // AGBLOCKS == ag])
            each = (starts, sizes, chunks, [r[2] for r in records[ag] if r[1]], [rmap(start - base, *rest) for start, *rest in owners])
            assert max(map(len, each)) <= 168
            longest = max((count for _, count in free[ag]), default=0)
            self.put(base, superblock(counts))
            self.put(base, agf(ag, sum(count for _, count in free[ag]), longest, len(listed), trees[ag]), 512)
            last = struct.unpack_from(">I", chunks[-1])[0] if chunks else ONES
            self.put(base, agi(ag, inodes[ag], unused[ag], last, trees[ag]), 1024)
            self.put(base, agfl(ag, list(listed)), 1536)
            for place, magic, tree in zip(trees[ag], KINDS, each):
                self.put(base + place, leaf(ag, place, magic, tree))
        return self


def merged(runs):
    """The runs in order, neighbours of one owner joined where they go on in its file, or it is none."""
    found = []
    for start, count, owner, word in sorted(runs):
        if found:
            first, before, other, there = found[-1]
            if first + before == start and other == owner and (owner >= 1 << 63 or there + before == word):
                found[-1] = (first, before + count, owner, there)
                continue
        found.append((start, count, owner, word))
    return found


class Rebuilt(Volume):
    """What a repair makes of a damaged volume: what is kept is claimed first, then the pool is fixed, then come a new cluster and the
    directories that are built anew, then trees and free lists. `reserved` are the blocks that nothing is placed on."""

    def __init__(self, image, chunks, reserved):
        super().__init__(image, chunks)
        self.reserved = set(reserved)
        self.pool = self.unspared = None

    def fix_pool(self):
        kept = {b for start, count, _, _ in self.owned() for b in range(start, start + count)}
        self.pool = set(range(BLOCKS)) - kept - self.reserved
        spared = set()
        for ag in GROUPS:
            spared |= set(sorted(b for b in self.pool if b // AGBLOCKS == ag)[-tree_room(AGBLOCKS):])
        self.unspared = self.pool - spared

    def take(self, blocks):
        taken = set(blocks)
        self.pool -= taken
        self.unspared -= taken

    def cluster(self):
        """A new cluster of free inodes, which is one half of a chunk, and its first inode."""
        for pool in (self.unspared, self.pool):
            for block in range(0, BLOCKS, 4):
                within = block % AGBLOCKS
                if 8 <= within < AGBLOCKS // 8 * 8 and set(range(block, block + 4)) <= pool:
                    self.take(range(block, block + 4))
                    self.chunks = self.chunks + [(block // 8 * 64, 0xff00 if block % 8 == 0 else 0x00ff)]
                    self.free(8 * block, 8 * block + 32)
                    return 8 * block
        return None

    def rebuild(self, ino, parent, entries, links=2, mode=0x41ed, attribute=b"", forkoff=0):
        """A directory that is built anew; False where there is no room for it."""
        room = 8 * forkoff or 336
        short, *parts = build(ino, parent, entries, room)
        asks = [len(part) for part in parts if part]
        for pool in (self.unspared, self.pool):
            found = object_runs(asks, pool, room // 16)
            if found is not None:
                break
        if found is None:
            return False
        runs = iter(found)
        self.directory(ino, parent, entries, links, mode, [next(runs) if part else [] for part in parts], attribute, forkoff)
        self.take(b for ask in found for start, count in ask for b in range(start, start + count))
        return True

    def settle(self):
        """Places trees and free lists on the lowest blocks that are left, eleven or all where there are fewer, and writes all headers."""
        lowest = [sorted(b % AGBLOCKS for b in self.pool if b // AGBLOCKS == ag)[:11] for ag in GROUPS]
        assert min(map(len, lowest)) >= 5
        return self.finish([blocks[:5] for blocks in lowest], [blocks[5:] for blocks in lowest])
