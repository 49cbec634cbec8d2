#!/usr/bin/env python3
"""Compares what `xfs xfs_db` and xfs_db of xfsprogs print of an image: the superblock and headers of each group, the root
blocks of their five trees, and up to twenty inodes, field by field. The two write some values in other forms (null, times,
flags as single bits, the bytes of a checksum, texts with zero bytes behind them); each is brought to one number or text before it is compared.

    examples/compare-debuggers.py IMAGE

Needs xfsprogs and ./xfs. Prints how many fields are equal and each that is not; ends with 1 where one is not."""
import os
import re
import subprocess
import sys

from xfsprogs import ENV, FLAGS, RENAMED, number, seconds

TOP = os.path.join(os.path.dirname(os.path.abspath(__file__)), "..")


def lines_of(program, image, *commands):
    words = [program] if program == "xfs_db" else [os.path.join(TOP, "xfs"), "xfs_db"]
    for command in commands:
        words += ["-c", command]
    run = subprocess.run(words + ["-r", image], capture_output=True, text=True, env=ENV, check=False)
    return run.stdout.splitlines()


def swapped(checksum):
    """A checksum as its four bytes stand in the block, which is how xfsprogs prints it, as the little-endian number that it is."""
    return int.from_bytes(checksum.to_bytes(4, "big"), "little")


def ours(image, *commands):
    """The fields as this project prints them: numbers, texts, or lists of numbers."""
    found = {}
    for line in lines_of("xfs", image, *commands, "print"):
        name, _, value = line.partition(" = ")
        if value.startswith('"'):
            found[name] = value.strip('"')
        elif "," in value:
            found[name] = [int(part) for part in value.split(",")]
            if name.startswith("keys") and len(found[name]) == 6:
                # xfsprogs leaves out the unwritten bit that a kernel may write into a reverse-mapping key
                found[name] = [part & ~(1 << 61) if place in (2, 5) else part for place, part in enumerate(found[name])]
        elif re.fullmatch(r"[0-9a-f]{8}-.*", value):
            found[name] = value
        else:
            found[name] = (number(value), "correct" in value) if name == "crc" else number(value)
    return found


def row(parts, kind):
    """The numbers of a record or key: the bits of a reverse-mapping record stand in its offset word."""
    values = [int(part, 0) for part in parts.split(",")]
    if kind == "recs" and len(values) == 7:
        start, count, owner, offset, unwritten, attribute, tree = values
        return [start, count, owner % 2**64, offset | attribute << 63 | tree << 62 | unwritten << 61]
    if kind == "keys" and len(values) == 10:
        return [part for half in (values[:5], values[5:])
                for part in (half[0], half[1] % 2**64, half[2] | half[3] << 63 | half[4] << 62)]
    return values


def theirs(image, *commands):
    """The fields as xfsprogs prints them, by name: numbers, texts, or lists of numbers; None is null."""
    found, kind, bits, turned = {}, None, {}, False
    for line in lines_of("xfs_db", image, *commands, "print"):
        items = re.findall(r"(\d+):(\[[^\]]*\]|\S+)", line) if kind else []
        name, equals, value = line.partition(" = ")
        if equals:
            kind = None
            table = re.fullmatch(r"(\w+)\[([\d-]+)\]", name)
            if table and table.group(1) in ("recs", "keys", "ptrs", "bno", "unlinked"):
                kind, turned = table.group(1), value.startswith("[blockcount,startblock]")
                items = re.findall(r"(\d+):(\[[^\]]*\]|\S+)", value)
        if kind:
            for index, item in items:
                text = item.strip("[]")
                if item == "null":
                    found[f"{kind}[{index}]"] = None
                else:
                    numbers = row(text, kind) if item.startswith("[") else int(text, 0)
                    found[f"{kind}[{index}]"] = numbers[::-1] if turned else numbers
            continue
        if not equals or name.startswith(("u3.", "a.")):
            continue
        name = name.split(".", 1)[1] if name.startswith(("core.", "v3.")) else name
        name = RENAMED.get(name, name)
        if name.endswith(".sec"):
            found[name[:-4]] = seconds(value)
        elif name.endswith(".nsec"):
            found[name[:-5]] |= int(value)
        elif name in FLAGS:
            bits[name] = int(value)
        elif value == "null":
            found[name] = None
        elif value.startswith('"'):
            found[name] = value.strip('"').replace("\\000", "")
        elif re.fullmatch(r"[0-9a-f]{8}-.*", value):
            found[name] = value
        elif re.match(r"-?\d", value):
            found[name] = (swapped(number(value)), "correct" in value) if name == "crc" else number(value)
    if bits:
        found["flags"] = sum(bits[name] << place for place, name in enumerate(FLAGS))
    return found


def same(mine, other):
    if other is None:
        return mine in (2**32 - 1, 2**64 - 1)
    if isinstance(mine, list) and not isinstance(other, list):
        return mine == [other]
    if isinstance(other, list) and not isinstance(mine, list):
        return [mine] == other
    return mine == other


def main():
    image = sys.argv[1]
    groups = theirs(image, "sb 0")["agcount"]
    places = []
    for ag in range(groups):
        places += [(f"sb {ag}",), (f"agf {ag}",), (f"agi {ag}",), (f"agfl {ag}",)]
        places += [(f"agf {ag}", f"addr {root}") for root in ("bnoroot", "cntroot", "rmaproot")]
        places += [(f"agi {ag}", f"addr {root}") for root in ("root", "free_root")]
    inodes = []
    for ag in range(groups):
        for line in lines_of("xfs_db", image, f"agi {ag}", "addr root", "print recs"):
            for item in re.findall(r"\d+:\[([^\]]*)\]", line):
                start, _, _, _, free = [int(part, 0) for part in item.split(",")]
                first = ag << (theirs(image, "sb 0")["agblklog"] + 3) | start
                inodes += [first + slot for slot in range(64) if not free >> slot & 1]
    places += [(f"inode {ino}",) for ino in inodes[:20]]
    equal, wrong = 0, 0
    for place in places:
        mine, other = ours(image, *place), theirs(image, *place)
        if place[0].startswith("agi") and len(place) == 1:
            for bucket in range(64):
                other.setdefault(f"unlinked[{bucket}]", None)
        if not mine:
            print(f"{' '.join(place)}: nothing is printed")
            wrong += 1
        for name, value in mine.items():
            if name not in other:
                print(f"{' '.join(place)}: {name} is not printed by xfsprogs")
                wrong += 1
            elif same(value, other[name]):
                equal += 1
            else:
                print(f"{' '.join(place)}: {name} is {value}, of xfsprogs {other[name]}")
                wrong += 1
    print(f"{len(places)} objects: {equal} fields are equal, {wrong} are not")
    return 1 if wrong else 0


if __name__ == "__main__":
    sys.exit(main())
