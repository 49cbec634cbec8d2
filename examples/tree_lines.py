#!/usr/bin/env python3
"""Writes what xfs_db of xfsprogs prints of the trees of an image: into NAMES the lines that name them, into RECORDS their records.

    tree_lines.py IMAGE NAMES RECORDS"""
import re
import subprocess
import sys

image, names, records = sys.argv[1:]


def ask(*commands):
    words = ["xfs_db", "-r"]
    for command in commands:
        words += ["-c", command]
    return subprocess.run(words + [image], capture_output=True, text=True, check=True).stdout


def field(text, name):
    return re.search(rf"^{re.escape(name)} = (\S+)", text, re.M).group(1)


def body(text, name):
    """What stands behind an array's name, up to the next field."""
    found = re.search(rf"^{name}\[[0-9-]+\] = (.*(?:\n\d+:.*)*)", text, re.M)
    return found.group(1) if found else ""


def items(text, name):
    return [part.split(",") for part in re.findall(r"\d+:\[([^\]]*)\]", body(text, name))]


def leaves(first, kind, to_block):
    """The texts of the leaves, from the left."""
    text = ask(*first, "print")
    if int(field(text, "level")) > 0:
        steps = list(first) + ["addr ptrs[1]"] * int(field(text, "level"))
        text = ask(*steps, "print")
    while True:
        yield text
        right = field(text, "rightsib")
        if right == "null":
            return
        text = ask(f"fsblock {to_block(int(right))}", f"type {kind}", "print")


sb = ask("sb 0", "print")
log = int(field(sb, "agblklog"))
agblocks = int(field(sb, "agblocks"))
with open(names, "w") as told, open(records, "w") as found:
    print(image, file=told)
    for ag in range(int(field(sb, "agcount"))):
        agf, agi = ask(f"agf {ag}", "print"), ask(f"agi {ag}", "print")
        for name, head, root, level, kind in [
            ("bno", agf, "bnoroot", "bnolevel", "bnobt"),
            ("cnt", agf, "cntroot", "cntlevel", "cntbt"),
            ("rmap", agf, "rmaproot", "rmaplevel", "rmapbt"),
            ("ino", agi, "root", "level", "inobt"),
            ("fino", agi, "free_root", "free_level", "finobt"),
        ]:
            line = f"{name} {ag} {field(head, level)} {ag * agblocks + int(field(head, root))}"
            print(line, file=told)
            print("tree", line, file=found)
            part = "agf" if head is agf else "agi"
            for text in leaves([f"{part} {ag}", f"addr {root}"], kind, lambda b: ag << log | b):
                for r in items(text, "recs"):
                    if name == "rmap":
                        start, count, owner, offset, unwritten, fork, tree = (int(n) for n in r)
                        word = offset | fork << 63 | tree << 62 | unwritten << 61
                        r = [start, count, owner % 2**64, word]
                    elif name in ("ino", "fino"):
                        r = [int(n, 0) for n in r]
                    print(",".join(str(n) for n in r), file=found)
    inodes = []
    for ag in range(int(field(sb, "agcount"))):
        for text in leaves([f"agi {ag}", "addr root"], "inobt", lambda b: ag << log | b):
            for startino, hole, _, _, free in items(text, "recs"):
                for i in range(64):
                    if not (int(hole, 0) >> i // 4 & 1 or int(free, 0) >> i & 1):
                        inodes.append((ag << log + 3) + int(startino) + i)
    for at in range(0, len(inodes), 500):
        chunk = inodes[at : at + 500]
        commands = [c for ino in chunk for c in (f"inode {ino}", "print core.format")]
        formats = re.findall(r"core.format = (\d)", ask(*commands))
        for ino, form in zip(chunk, formats):
            if form != "3":
                continue
            text = ask(f"inode {ino}", "print")
            levels = int(field(text, "u3.bmbt.level"))
            keys = [k for (k,) in items(text, r"u3\.bmbt\.keys")]
            ptrs = re.findall(r"(?:\d+:)?(\d+)", body(text, r"u3\.bmbt\.ptrs"))
            line = f"bmbt {ino} {levels} " + " ".join(f"{k}:{p}" for k, p in zip(keys, ptrs))
            print(line, file=told)
            print("tree", line, file=found)
            first = [f"inode {ino}"] + ["addr u3.bmbt.ptrs[1]"] + ["addr ptrs[1]"] * (levels - 1)
            text = ask(*first, "print")
            while True:
                for r in items(text, "recs"):
                    print(",".join(r), file=found)
                right = field(text, "rightsib")
                if right == "null":
                    break
                text = ask(f"fsblock {right}", "type bmapbtd", "print")
