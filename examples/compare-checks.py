#!/usr/bin/env python3
"""Changes one number of a volume's metadata after another, makes its object's checksum right again, and compares what
`xfs xfs_repair -n` and `xfs_repair -n` of xfsprogs say: clean or damaged. Works on a copy of the image, which it removes; each
change is put back before the next.

    examples/compare-checks.py IMAGE COUNT [SEED]

Needs xfsprogs and ./xfs. Prints each object and byte at which the two disagree, with what both said of the first such change, and at
last how often they agreed."""
import collections
import os
import random
import subprocess
import sys
import tempfile

PROGRAM = os.path.join(os.path.dirname(os.path.abspath(__file__)), "..", "xfs")
# the objects of an image: by the first four bytes, or by bytes 8 and 9, their names and where their checksums stand
WHOLE = {b"AB3B": ("bno", 52), b"AB3C": ("cnt", 52), b"IAB3": ("inobt", 52), b"FIB3": ("finobt", 52), b"RMB3": ("rmapbt", 52),
         b"BMA3": ("bmapbt", 64), b"XDB3": ("directory block", 4), b"XDD3": ("directory data", 4), b"XDF3": ("directory free", 4),
         b"XSLM": ("symlink", 12)}
INDEX = {b"\x3d\xf1": ("directory leaf", 12), b"\x3d\xff": ("directory leaf", 12), b"\x3e\xbe": ("index node", 12),
         b"\x3b\xee": ("attribute leaf", 12)}
HEADS = [("superblock", 224), ("AGF", 216), ("AGI", 312), ("AGFL", 32)]
NOISE = ("Phase", "        -", "Cannot get", "Repair may", "the image", "No modify", "Only one AG")


def remainder(byte):
    for _ in range(8):
        byte = byte >> 1 ^ (0x82F63B78 if byte & 1 else 0)
    return byte


TABLE = [remainder(byte) for byte in range(256)]


def checksum(data, at):
    """The CRC-32C of an object, as its four bytes at `at` are to be; they count as zeros."""
    crc = 0xFFFFFFFF
    for place, byte in enumerate(data):
        crc = TABLE[(crc ^ (0 if at <= place < at + 4 else byte)) & 255] ^ crc >> 8
    return (crc ^ 0xFFFFFFFF).to_bytes(4, "little")


def slots(image, base):
    """The inodes of a block, by the type of their files and the format of their data."""
    for at in range(base, base + 4096, 512):
        if image[at:at + 2] == b"IN" and checksum(image[at:at + 512], 100) == image[at + 100:at + 104]:
            yield f"inode of type {image[at + 2] >> 4}, format {image[at + 5]}", at, 512, 100


def objects(image):
    """Each object whose checksum is right: its name, first byte, length, and where its checksum stands in it."""
    agblocks, agcount = (int.from_bytes(image[at:at + 4], "big") for at in (84, 88))
    for ag in range(agcount):
        for number, (name, at) in enumerate(HEADS):
            name = f"backup {name}" if ag and not number else name
            yield name, 4096 * ag * agblocks + 512 * number, 512, at
    for base in range(0, len(image) - 4095, 4096):
        kind = WHOLE.get(image[base:base + 4]) or INDEX.get(image[base + 8:base + 10])
        if kind and checksum(image[base:base + 4096], kind[1]) == image[base + kind[1]:base + kind[1] + 4]:
            yield kind[0], base, 4096, kind[1]
        elif image[base:base + 2] == b"IN":
            yield from slots(image, base)


def changed(rand, data, at):
    """An object with a number of 1 to 8 bytes changed and its checksum made right: the number's offset and width, its values, the bytes."""
    used = [place for place, byte in enumerate(data) if byte]
    width = rand.choice([1, 1, 2, 4, 8])
    place = rand.choice(used if rand.random() < 0.5 else range(len(data))) // width * width
    old = int.from_bytes(data[place:place + width], "big")
    news = [old ^ 1 << rand.randrange(8 * width), old + 1, old - 1, 0, rand.getrandbits(8 * width), (1 << 8 * width) - 1]
    new = rand.choice(news) % (1 << 8 * width)
    if new == old or place < at + 4 and at < place + width:
        return None
    made = bytearray(data)
    made[place:place + width] = new.to_bytes(width, "big")
    made[at:at + 4] = checksum(made, at)
    return place, width, old, new, made


def said(words):
    run = subprocess.run(words, capture_output=True, check=False)
    return run.returncode, (run.stdout + run.stderr).decode(errors="replace")


def compare(path):
    """What both say of an image: whether each calls it clean, and their lines."""
    _, mine = said([PROGRAM, "xfs_repair", "-n", path])
    status, other = said(["xfs_repair", "-n", "-f", path])
    lines = [line for line in other.splitlines() if line and not line.startswith(NOISE)]
    return mine.strip() == "clean", status == 0, mine.strip(), " / ".join(lines[:2])


def main():
    path, count = sys.argv[1], int(sys.argv[2])
    rand = random.Random(int(sys.argv[3]) if len(sys.argv) > 3 else 1)
    with open(path, "rb") as file:
        image = file.read()
    by_name = collections.defaultdict(list)
    for name, *rest in objects(image):
        by_name[name].append(rest)
    agreed, differ = collections.Counter(), {}
    with tempfile.NamedTemporaryFile() as copy:
        subprocess.run(["cp", "--sparse=always", path, copy.name], check=True)
        for _ in range(count):
            name = rand.choice(sorted(by_name))
            base, length, at = rand.choice(by_name[name])
            change = changed(rand, image[base:base + length], at)
            if not change:
                continue
            place, width, old, new, made = change
            with open(copy.name, "r+b", buffering=0) as disk:
                disk.seek(base)
                disk.write(made)
                mine, other, ours, theirs = compare(copy.name)
                disk.seek(base)
                disk.write(image[base:base + length])
            if mine == other:
                agreed["clean" if mine else "not clean"] += 1
            else:
                differ.setdefault((mine, name, place), []).append(f"{old:#x} made {new:#x} ({width}): {ours}; xfsprogs: {theirs or 'clean'}")
    for (_, name, place), changes in sorted(differ.items()):
        print(f"{len(changes)} {name}, byte {place}: {changes[0]}")
    print(f"agreed: {dict(agreed)}; disagreed: {sum(map(len, differ.values()))}")


if __name__ == "__main__":
    main()
