#!/usr/bin/env python3
"""Writes the small volume of the tests as image files, by the on-disk format alone, with nothing of this project: V (empty, 2048 blocks
in two groups), W (V with two files of one block), and images that differ from them in a few fields. It prints their bytes
other than zero, and with -t the bytes as the cases of the tools have them (crates/xfs_cases/stdin).

    examples/small-volume.py FOLDER [-q] [-t]
"""
import os
import struct
import sys

from volume_bytes import (
    AG, AGBLOCKS, BLOCK, BLOCKS, FS, INOBT, INODES, LOG, ONES, UUID, agf, agfl, agi, difference, directory, extent, filled, leaf, lines,
    log_blocks, regular, reslot, rmap, runs_of, sealed, slot, spans, superblock)


def volume(files):
    image = bytearray(BLOCK * BLOCKS)

    def put(block, data, at=0):
        image[block * BLOCK + at:block * BLOCK + at + len(data)] = data
    used = 3 + len(files)
    first_free = 24 + len(files)
    spans = [[(12, 4), (first_free, AGBLOCKS - first_free)], [(524, 500)]]
    counts = (64, 64 - used, sum(c for s in spans for _, c in s) + 12)
    free = (1 << 64) - (1 << used)
    records = [struct.pack(">IHBBQ", 128, 0, 64, 64 - used, free)]
    owners = [
        [rmap(0, 1, FS), rmap(1, 2, AG), rmap(3, 2, INOBT), rmap(5, 7, AG), rmap(16, 8, INODES)]
        + [rmap(24 + i, 1, 131 + i) for i in range(len(files))],
        [rmap(0, 1, FS), rmap(1, 2, AG), rmap(3, 2, INOBT), rmap(5, 1, AG), rmap(6, 512, LOG), rmap(518, 6, AG)]]
    for ag in (0, 1):
        base = ag * AGBLOCKS
        runs = [struct.pack(">II", *s) for s in spans[ag]]
        sizes = [struct.pack(">II", *s) for s in sorted(spans[ag], key=lambda s: (s[1], s[0]))]
        inodes = records if ag == 0 else []
        put(base, superblock(counts))
        put(base, agf(ag, sum(c for _, c in spans[ag]), max(c for _, c in spans[ag]), 6), 512)
        put(base, agi(ag, 64 - 64 * ag, (64 - used) * (1 - ag), ONES if ag else 128), 1024)
        put(base, agfl(ag, list(range(518, 524) if ag else range(6, 12))), 1536)
        put(base + 1, leaf(ag, 1, 0x41423342, runs))
        put(base + 2, leaf(ag, 2, 0x41423343, sizes))
        put(base + 3, leaf(ag, 3, 0x49414233, inodes))
        put(base + 4, leaf(ag, 4, 0x46494233, inodes))
        put(base + 5, leaf(ag, 5, 0x524d4233, owners[ag]))
    put(1030, log_blocks(1))
    slots = [directory(128, 128, [(name, 131 + i, 1) for i, name in enumerate(files)]),
             slot(129, [(2, 2, 0x8000), (5, 1, 2), (16, 4, 1), (90, 2, 4)]),
             slot(130, [(2, 2, 0x8000), (5, 1, 2), (16, 4, 1)])]
    slots += [regular(131 + i, 24 + i) for i in range(len(files))]
    slots += [slot(ino, free=True) for ino in range(128 + len(slots), 192)]
    put(16, b"".join(slots))
    return image


# the blocks that read as ones of the trees of inodes and of owners: nothing new is put on them
READING = ({3, 5}, {3, 5})


def rebuilt(image, files=0, reserved=READING, used=None, cycle=None):
    """What a repair makes of a damaged small volume with so many files of one block, all of which are kept: the trees and the free list of
    each group on the lowest blocks of the group that nothing kept has and that are not reserved. With a cycle, the log is blanked."""
    used = 3 + files if used is None else used
    now = bytearray(image)

    def put(block, data, at=0):
        now[block * BLOCK + at:block * BLOCK + at + len(data)] = data
    chunks = [[struct.pack(">IHBBQ", 128, 0, 64, 64 - used, (1 << 64) - (1 << used))], []]
    kept = [set(range(16, 24)) | set(range(24, 24 + files)), set(range(6, 518))]
    owned = [[rmap(16, 8, INODES)] + [rmap(24 + i, 1, 131 + i) for i in range(files)], [rmap(6, 512, LOG)]]
    places, free = [], []
    for ag in (0, 1):
        pool = [b for b in range(1, AGBLOCKS) if b not in kept[ag]]
        new = [b for b in pool if b not in reserved[ag]][:11]
        places.append(new)
        free.append(runs_of([b for b in pool if b not in new]))
    counts = (64, 64 - used, sum(count for runs in free for _, count in runs) + 12)
    for ag in (0, 1):
        base, trees, lists = ag * AGBLOCKS, places[ag][:5], places[ag][5:]
        runs = [struct.pack(">II", *run) for run in free[ag]]
        sizes = [struct.pack(">II", *run) for run in sorted(free[ag], key=lambda run: (run[1], run[0]))]
        space = [rmap(*run, AG) for run in runs_of(sorted([trees[0], trees[1], trees[4]] + lists))]
        inodes = [rmap(*run, INOBT) for run in runs_of(trees[2:4])]
        owners = sorted([rmap(0, 1, FS)] + space + inodes + owned[ag])
        put(base, superblock(counts))
        put(base, agf(ag, sum(count for _, count in free[ag]), max(count for _, count in free[ag]), 6, trees), 512)
        put(base, agi(ag, 64 - 64 * ag, (64 - used) * (1 - ag), ONES if ag else 128, trees), 1024)
        put(base, agfl(ag, lists), 1536)
        for at, magic, records in zip(trees, (0x41423342, 0x41423343, 0x49414233, 0x46494233, 0x524d4233), (runs, sizes, chunks[ag], chunks[ag], owners)):
            put(base + at, leaf(ag, at, magic, records))
    if cycle:
        put(1030, log_blocks(cycle))
    return now


def main():
    folder = sys.argv[1] if len(sys.argv) > 1 else "."
    v, w = volume([]), volume([b"a", b"b"])
    made = {"V": v, "W": w}
    base = {"V": "V", "W": "W"}

    def derive(name, of):
        made[name] = bytearray(made[of])
        base[name] = of
        return made[name]

    x = derive("backup_and_rest", "V")
    x[1024 * BLOCK + 108] ^= 0xff
    x[1024 * BLOCK + 512 + 400] ^= 0x55      # bytes behind that stay
    x = derive("backup_label", "V")
    x[1024 * BLOCK + 108] = 0x41
    x = derive("primary_lost", "V")
    x[0:512] = bytes(512)
    x = derive("both_lost", "primary_lost")
    x[1024 * BLOCK:1024 * BLOCK + 512] = bytes(512)
    x = derive("shared_blocks", "V")
    x[0:512] = superblock((64, 61, 1516), changed={212: (4, 7)})
    x = derive("dirty_log", "V")
    reslot(x, 128, [(112, 8, 0x0000000700000010)])
    reslot(x, 129, [(112, 8, (1 << 64) - 1)])
    x[1030 * BLOCK + 521] = 0
    x = derive("block_twice", "W")
    reslot(x, 132, [(176, 16, extent(0, 24, 1))])
    x = derive("other_producers", "W")
    backup = {100: (2, 0xb4b5), 126: (1, 1), 56: (8, b"\xff" * 8), 64: (8, b"\xff" * 8), 72: (8, b"\xff" * 8)}
    x[0:512] = superblock((64, 59, 1514), changed={100: (2, 0xb4b5), 204: (4, 0)})
    x[1024 * BLOCK:1024 * BLOCK + 512] = superblock((0, 0, 77), changed=backup)
    attr = bytes.fromhex("000f0100") + bytes([7, 1, 4]) + b"selinux" + b"x"
    assert len(attr) == 15
    reslot(x, 131, [(82, 1, 24), (83, 1, 1), (176 + 8 * 24, 0, attr)])
    reslot(x, 132, [(56, 8, 0)])
    x[1030 * BLOCK:1542 * BLOCK] = log_blocks(3)
    x = derive("three_links", "V")
    reslot(x, 128, [(16, 4, 3)])
    x = derive("refused_file", "W")
    reslot(x, 131, [(120, 8, 2)])
    os.makedirs(folder, exist_ok=True)
    for name, image in made.items():
        with open(os.path.join(folder, name), "wb") as f:
            f.write(image)
    with open(os.path.join(folder, "cut_short"), "wb") as f:
        f.write(v[:2047 * BLOCK])
    if "-q" in sys.argv:
        return
    for name, image in made.items():
        if base[name] == name:
            print(f"== {name}")
            free = [(16 + (ino - 128) // 8, ino % 8) for ino in range(131 if name == "V" else 133, 192)]
            for block, at, text in spans(image):
                if (block, at // 512) in free:
                    continue
                print(block, at, text)
        else:
            print(f"== {name}, from {base[name]}")
            found = difference(made[base[name]], image)
            for block, at, text in found[:16]:
                print("  ", block, at, text)
            if len(found) > 16:
                print("  ", len(found) - 16, "more")


def base_image():
    """What the tests make by loops: free slots, and lists of all ones in the headers."""
    image = bytearray(BLOCK * BLOCKS)
    for ino in range(128, 192):
        image[ino * 512:ino * 512 + 512] = slot(ino, free=True)
    for block in (0, 1024):
        at = block * BLOCK
        image[at + 1064:at + 1320] = b"\xff" * 256
        image[at + 1596:at + 2048] = b"\xff" * 452
    return image


def tables_of_volumes():
    v, w = volume([]), volume([b"a", b"b"])
    print("== VOLUME")
    lines(base_image(), v)
    print("== FILES")
    lines(v, w)
    folder = sys.argv[1]
    for name in ("shared_blocks", "dirty_log", "block_twice", "other_producers", "three_links", "refused_file"):
        print("==", name)
        image = open(os.path.join(folder, name), "rb").read()
        lines(w if name in ("block_twice", "other_producers", "refused_file") else v, image, skip=range(1031, 1542))
    x = bytearray(v)
    x[512 + 52:512 + 56] = (5).to_bytes(4, "big")
    x[512:1024] = sealed(x[512:1024], 216)
    print("== count_written")
    lines(v, x)


def tables_of_a_vast_volume():
    length, held = 263000, 336
    x = bytearray(2 * BLOCK)
    fields = {
        0: (4, 0x58465342), 4: (4, 4096), 8: (8, length + 1024), 32: (16, UUID), 48: (8, 1 << 19 | 6), 56: (8, 8 * held),
        64: (8, 8 * held + 1), 72: (8, 8 * held + 2), 84: (4, length), 88: (4, 2), 96: (4, 512), 100: (2, 0xb4a5), 102: (2, 512), 104: (2, 512), 106: (2, 8),
        120: (1, 12), 121: (1, 9), 122: (1, 9), 123: (1, 3), 124: (1, 19), 180: (4, 8), 212: (4, 3), 216: (4, 3), 228: (4, 4)}
    x[0:512] = sealed(filled(512, [(at, w, v) for at, (w, v) in fields.items()]), 224)
    x[512:1024] = sealed(filled(512, [
        (0, 4, 0x58414746), (4, 4, 1), (12, 4, length), (16, 4, 1), (20, 4, 1), (24, 4, 1), (28, 4, 1), (32, 4, 1),
        (36, 4, 1), (64, 16, UUID)]), 216)
    x[1024:1536] = sealed(filled(512, [
        (0, 4, 0x58414749), (4, 4, 1), (12, 4, length), (20, 4, 2), (24, 4, 2), (296, 16, UUID), (328, 4, 1), (332, 4, 1)]), 312)
    x[4096:] = leaf(0, 1, 0x524d4233, [rmap(held, 4 * 65537, INODES)])
    print("== a cluster too many")
    lines(bytes(2 * BLOCK), x)


def tables_of_findings():
    """Images in which one law alone is broken, most of them in one object."""
    v, w = volume([]), volume([b"a", b"b"])

    def told(name, of, *parts):
        x = bytearray(of)
        for block, at, data in parts:
            x[block * BLOCK + at:block * BLOCK + at + len(data)] = data
        print("==", name)
        lines(of, x)

    def inode(of, ino, *fields):
        x = bytearray(of)
        reslot(x, ino, fields)
        return ino // 8, ino % 8 * 512, bytes(x[ino * 512:ino * 512 + 512])
    pairs = lambda *runs: [struct.pack(">II", *run) for run in runs]
    owners = [rmap(0, 1, FS), rmap(1, 2, AG), rmap(3, 2, INOBT), rmap(5, 7, AG), rmap(16, 8, INODES)]
    chunk = lambda freecount: [struct.pack(">IHBBQ", 128, 0, 64, freecount, 0xfffffffffffffff8)]
    told("law 2, by start", v, (1, 0, leaf(0, 1, 0x41423342, pairs((12, 4), (24, 999)))))
    told("law 2, by length", v, (2, 0, leaf(0, 2, 0x41423343, pairs((12, 4)))))
    told("law 3, another owner", v, (5, 0, leaf(0, 5, 0x524d4233, owners[:4] + [rmap(16, 8, INOBT)])))
    told("law 3, no owner", v, (5, 0, leaf(0, 5, 0x524d4233, owners[:3] + owners[4:])))
    told("law 3, another inode", w, (5, 0, leaf(0, 5, 0x524d4233, owners + [rmap(24, 1, 131), rmap(25, 1, 131, 5 << 61 | 1)])))
    told("law 4", v, (3, 0, leaf(0, 3, 0x49414233, chunk(60))))
    told("law 4, free inodes", v, (4, 0, leaf(0, 4, 0x46494233, [])))
    told("law 5, a group", v, (1024, 1024, agi(1, 64, 0, ONES)))
    told("law 5, the superblock", v, (0, 0, superblock((65, 61, 1516))))
    told("law 6", v, (0, 0, superblock((64, 61, 1517))), (0, 512, agf(0, 1005, 1000, 6)), (0, 1536, agfl(0, [6, 6, 8, 9, 10, 11])),
         (1, 0, leaf(0, 1, 0x41423342, pairs((7, 1), (12, 4), (24, 1000)))), (2, 0, leaf(0, 2, 0x41423343, pairs((7, 1), (12, 4), (24, 1000)))),
         (5, 0, leaf(0, 5, 0x524d4233, owners[:3] + [rmap(5, 2, AG), rmap(8, 4, AG)] + owners[4:])))
    told("law 7, 1", w, inode(w, 128, (183, 2, 97)))
    told("law 7, 2", w, inode(w, 128, (185, 1, 0x2f)))
    told("law 7, 3", w, inode(w, 128, (187, 4, 140)))
    told("law 7, 4", w, inode(w, 128, (186, 1, 2)))
    told("law 8, 3", v, (16, 0, slot(128, [(2, 2, 0x8000), (5, 1, 2), (16, 4, 1)])))
    told("law 8, 4", w, inode(w, 128, (196, 4, 131)))
    told("law 9, the system's", v, inode(v, 130, (16, 4, 0)))
    told("law 10, a chain", w, (0, 1024, sealed(filled(512, [(0, 512, bytes(w[1024:1536])), (60, 4, 131)]), 312)))
    told("law 10, a number", v, inode(v, 128, (112, 8, 0x0000000700000010)))


def full_group(v):
    """A file of two extents stands on all blocks of the first group but those of its trees and one of its free list."""
    x = bytearray(v)
    for ag in (0, 1):
        x[ag * AGBLOCKS * BLOCK:ag * AGBLOCKS * BLOCK + 512] = superblock((64, 60, 507))
    x[512:2048] = agf(0, 0, 0, 1) + agi(0, 64, 60, 128) + agfl(0, [6])
    chunk = [struct.pack(">IHBBQ", 128, 0, 64, 60, 0xfffffffffffffff0)]
    owners = [rmap(0, 1, FS), rmap(1, 2, AG), rmap(3, 2, INOBT), rmap(5, 2, AG), rmap(7, 9, 131), rmap(16, 8, INODES), rmap(24, 1000, 131, 9)]
    trees = [(0x41423342, []), (0x41423343, []), (0x49414233, chunk), (0x46494233, chunk), (0x524d4233, owners)]
    x[BLOCK:6 * BLOCK] = b"".join(leaf(0, 1 + i, *tree) for i, tree in enumerate(trees))
    x[16 * BLOCK:16 * BLOCK + 512] = directory(128, 128, [(b"a", 131, 1)])
    x[131 * 512:132 * 512] = slot(131, [(2, 2, 0x81a4), (5, 1, 2), (16, 4, 1), (56, 8, BLOCK * 1009), (64, 8, 1009), (76, 4, 2)],
                                  extent(0, 7, 9) + extent(9, 24, 1000))
    return x


def hidden(v):
    """A file of four blocks whose bytes are a cluster of inodes 192 to 223 in use."""
    x = bytearray(v)
    for ag in (0, 1):
        x[ag * AGBLOCKS * BLOCK:ag * AGBLOCKS * BLOCK + 512] = superblock((64, 60, 1512))
    x[512:1536] = agf(0, 1000, 996, 6) + agi(0, 64, 60, 128)
    runs = [struct.pack(">II", *run) for run in ((12, 4), (28, 996))]
    chunk = [struct.pack(">IHBBQ", 128, 0, 64, 60, 0xfffffffffffffff0)]
    owners = [rmap(0, 1, FS), rmap(1, 2, AG), rmap(3, 2, INOBT), rmap(5, 7, AG), rmap(16, 8, INODES), rmap(24, 4, 131)]
    trees = [(0x41423342, runs), (0x41423343, runs), (0x49414233, chunk), (0x46494233, chunk), (0x524d4233, owners)]
    x[BLOCK:6 * BLOCK] = b"".join(leaf(0, 1 + i, *tree) for i, tree in enumerate(trees))
    x[16 * BLOCK:16 * BLOCK + 512] = directory(128, 128, [(b"a", 131, 1)])
    x[131 * 512:132 * 512] = slot(131, [(2, 2, 0x81a4), (5, 1, 2), (16, 4, 1), (56, 8, 4 * BLOCK), (64, 8, 4), (76, 4, 1)], extent(0, 24, 4))
    x[24 * BLOCK:28 * BLOCK] = b"".join(regular(ino, 30) for ino in range(192, 224))
    return x


def tables_of_rebuilds():
    """What a repair leaves of each damaged volume, over what was damaged."""
    v, w = volume([]), volume([b"a", b"b"])

    def changed(of, *parts):
        x = bytearray(of)
        for block, at, data in parts:
            x[block * BLOCK + at:block * BLOCK + at + len(data)] = data
        return x

    def told(name, was, now):
        blocks = sum(was[b:b + BLOCK] != now[b:b + BLOCK] for b in range(0, len(now), BLOCK))
        print("==", name, "blocks", blocks)
        lines(was, now, skip=range(1031, 1542))
    zero = bytes(4)
    for name, block, at, reserved in (
            ("part 0", 0, 0, READING), ("part 1", 0, 512, READING), ("part 2", 1024, 1024, READING), ("part 3", 0, 1536, READING),
            ("part 4", 1, 0, READING), ("part 5", 2, 0, READING), ("part 6", 3, 0, ({5}, {3, 5})), ("part 7", 4, 0, READING),
            ("part 8", 5, 0, ({3}, {3, 5})), ("part 9", 16, 612, READING)):
        x = changed(v, (block, at, zero))
        if name == "part 9":
            told(name, x, rebuilt(changed(x, (16, 612, v[16 * BLOCK + 612:16 * BLOCK + 616])), reserved=reserved))
            continue
        told(name, x, rebuilt(x, reserved=reserved))
    x = changed(v, (0, 512, zero), (1024, 108, b"A"))
    told("part 1 and a backup", x, rebuilt(x))
    told("row 4", changed(v, (0, 0, bytes(512))), rebuilt(changed(v, (0, 0, bytes(512)))))
    x = changed(w, (3, 0, bytes(BLOCK)))
    told("row 9", x, rebuilt(x, 2, ({5}, {3, 5})))
    moved = bytearray(w[3 * BLOCK:4 * BLOCK])
    moved[16:24] = (8 * 12).to_bytes(8, "big")
    x = changed(w, (3, 0, bytes(BLOCK)), (12, 0, sealed(moved, 52)))
    told("a tree that reads", x, rebuilt(x, 2, ({5, 12}, {3, 5})))
    x = bytearray(v)
    reslot(x, 128, [(112, 8, 0x0000000700000010)])
    reslot(x, 129, [(112, 8, (1 << 64) - 1)])
    x[1030 * BLOCK + 521] = 0
    told("row 7", x, rebuilt(x, cycle=8))
    told("other cases of the log", v, rebuilt(v, cycle=8))
    told("any law of the empty volume", v, rebuilt(v))
    told("any law of the volume of two files", w, rebuilt(w, 2))
    for name, image in (("a full group", full_group(v)), ("hidden", hidden(v))):
        print("==", name)
        lines(v, image)


main()
if "-t" in sys.argv:
    tables_of_volumes()
    tables_of_findings()
    tables_of_a_vast_volume()
    tables_of_rebuilds()
