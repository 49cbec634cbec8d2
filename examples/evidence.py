#!/usr/bin/env python3
"""Compares the lists that evidence.sh gathers of an image with what xfs_db of xfsprogs prints: the clusters and the inodes in use by
the inode trees, each file's core, extents, attributes, target and device, how many blocks its tree of extents has, each directory's
parent, and its entries in order. All directories are to be whole, and no file without its attributes.

    evidence.py LISTS IMAGE

In a group of which a cluster was found by its bytes, those clusters alone are due that have an inode in use. Prints how many items
of each list there are and how many are not equal, with the first of these; ends with 1 where one is not."""
import itertools
import re
import subprocess
import sys

from xfsprogs import ENV, FLAGS, RENAMED, number, seconds

CORE = ["mode", "format", "uid", "gid", "nlink", "size", "nblocks", "extsize", "nextents", "anextents", "forkoff", "aformat", "gen",
        "atime", "mtime", "ctime", "crtime", "flags", "flags2", "changecount"]
FTYPES = {"regular": 1, "directory": 2, "chardev": 3, "blkdev": 4, "fifo": 5, "socket": 6, "symlink": 7}
ESCAPES = {bytes([97 + place]): bytes([7 + place]) for place in range(7)}  # bytes 7 to 13, as xfs_db writes them
KINDS = ["cluster", "file", "extent", "tree", "attribute", "target", "dir", "entry"]


def debug(image, commands):
    """What xfs_db prints for these lines of input, in bytes."""
    run = subprocess.run(["xfs_db", "-r", image], input="\n".join(commands).encode() + b"\n", capture_output=True, env=ENV, check=False)
    return run.stdout


def plain(text):
    """The bytes of a text between quotes, with its escapes."""
    return re.sub(rb"\\([0-7]{3}|.)", lambda it: bytes([int(it[1], 8)]) if len(it[1]) == 3 else ESCAPES.get(it[1], it[1]), text)


def superblock(image):
    found = dict(line.split(" = ") for line in debug(image, ["sb 0", "print agcount agblocks agblklog"]).decode().splitlines())
    return {name: int(value) for name, value in found.items()}


def chunks_of(image, path):
    """The records of the inode tree to whose block these commands go: first inode in the group, mask of holes, mask of free inodes."""
    said = debug(image, [*path, "print level", "print recs", "print ptrs"]).decode()
    if "level = 0" not in said:
        children = re.findall(r"(\d+):\d+", said.split("ptrs[", 1)[1])
        return [chunk for child in children for chunk in chunks_of(image, [*path, f"addr ptrs[{child}]"])]
    rows = [[int(part, 0) for part in item.split(",")] for item in re.findall(r"\d+:\[([^\]]*)\]", said)]
    return [(start, holes, free) for start, holes, _, _, free in rows]


def clusters_and_inodes(image, sb):
    """The first blocks of the clusters of all chunks, each with its group and whether it has an inode in use, and these inodes."""
    clusters, inodes = [], []
    for ag in range(sb["agcount"]):
        for start, holes, free in chunks_of(image, [f"agi {ag}", "addr root"]):
            used = [slot for slot in range(64) if not free >> slot & 1 and not holes >> slot // 4 & 1]
            for half in (0, 1):
                if not holes >> 8 * half & 1:
                    clusters.append((ag * sb["agblocks"] + start // 8 + 4 * half, ag, any(slot // 32 == half for slot in used)))
            inodes += [(ag << sb["agblklog"] + 3 | start) + slot for slot in used]
    return clusters, inodes


def core_of(lines):
    """The fields of an inode's core, as numbers."""
    found, bits = {}, 0
    for line in lines:
        name, equals, value = line.partition(" = ")
        if not equals or not name.startswith(("core.", "v3.")):
            continue
        name = name.split(".", 1)[1]
        name = RENAMED.get(name, name)
        if name.endswith(".sec"):
            found[name[:-4]] = seconds(value)
        elif name.endswith(".nsec"):
            found[name[:-5]] |= int(value)
        elif name in FLAGS:
            bits |= int(value) << FLAGS.index(name)
        elif name in CORE:
            found[name] = number(value)
    found["flags"] = bits
    return found


def extents_of(text, fork, sb):
    found = []
    for offset, group, block, count, flag in re.findall(rf"^{fork} offset (\d+) startblock \d+ \((\d+)/(\d+)\) count (\d+) flag (\d+)$", text, re.M):
        found.append((int(offset), int(group) << sb["agblklog"] | int(block), int(count), int(flag)))
    return found


def attributes_of(text):
    """The attributes that `print` shows of a short form, or of the entries and names of a leaf: flags, name and value."""
    found = {}
    form = rb'(?:a\.sfattr\.list|nvlist)\[(\d+)\]\.(root|secure|name|value) = (?:"((?:[^"\\]|\\.)*)"|(\d+))'
    for index, field, quoted, digits in re.findall(form, text):
        found.setdefault(int(index), {})[field] = int(digits) if digits else plain(quoted)
    for index, root, secure, local in re.findall(rb"(\d+):\[0x[0-9a-f]+,\d+,\d,(\d),(\d),(\d)\]", text):
        found[int(index)].update({b"root": int(root), b"secure": int(secure), b"local": int(local)})
    bits = [b"local", b"root", b"secure"]
    return [(sum(it.get(bit, 0) << place for place, bit in enumerate(bits)), it[b"name"], it.get(b"value", b""))
            for _, it in sorted(found.items())]


def entries_of(said):
    """The entries that `ls` prints: inode, type and name, the name by its length."""
    found, at = [], 0
    while True:
        row = re.compile(rb"\d+ +(\d+) +(\w+) +0x[0-9a-f]+ +(\d+) ").match(said, at)
        if not row:
            return found
        end = row.end() + int(row[3])
        found.append((int(row[1]), FTYPES.get(row[2].decode(), 0), said[row.end():end]))
        if not said.startswith(b" (good)\n", end):
            raise ValueError(said[at:end + 20])
        at = end + len(b" (good)\n")


def target_of(image, core, extents, size, sb):
    """The target of a symbolic link: in its slot, or else in its one block, behind the header of 56 bytes."""
    quoted = re.search(rb'^u3\.symlink = "((?:[^"\\]|\\.)*)"', core, re.M)
    if quoted:
        return plain(quoted[1])
    start = extents[0][1]
    block = (start >> sb["agblklog"]) * sb["agblocks"] + (start & (1 << sb["agblklog"]) - 1)
    with open(image, "rb") as raw:
        raw.seek(4096 * block + 56)
        return raw.read(size)


def add_inode(lists, image, sb, said):
    """Adds to the lists what xfs_db printed of one inode."""
    core, rest = said.split(b"@bmap", 1)
    maps, rest = rest.split(b"@leaf", 1)
    leaf, listed = rest.split(b"@list", 1)
    ino, core = int(core.split(None, 1)[0]), core.split(None, 1)[1]
    text = core.decode("latin-1")
    fields = core_of(text.splitlines())
    device = re.search(r"^u3\.dev = (\S+)$", text, re.M)
    fields["device"] = int(device[1], 0) if device else 0
    lists["file"].append((ino, fields))
    extents = {fork: extents_of(maps.decode(), fork, sb) for fork in ("data", "attr")}
    lists["extent"] += [(ino, fork, *it) for fork in ("data", "attr") for it in extents[fork]]
    blocks = fields["nblocks"] - sum(it[2] for fork in extents.values() for it in fork)
    lists["tree"] += [(ino, place) for place in range(blocks)]
    lists["attribute"] += [(ino, *it) for it in attributes_of(core if fields["aformat"] == 1 else leaf)]
    if fields["mode"] >> 12 == 10:
        lists["target"].append((ino, target_of(image, core, extents["data"], fields["size"], sb)))
    if fields["mode"] >> 12 == 4:
        entries = entries_of(listed.lstrip(b"\n "))
        lists["dir"].append((ino, next((it[0] for it in entries if it[2] == b".."), None), 1))
        lists["entry"] += [(ino, *it) for it in entries if it[2] not in (b".", b"..")]


def theirs(image, scanned):
    """The lists by xfs_db; some clusters were found by their bytes."""
    sb = superblock(image)
    clusters, inodes = clusters_and_inodes(image, sb)
    groups = {block // sb["agblocks"] for block in scanned}
    lists = {kind: [] for kind in KINDS}
    lists["cluster"] = [(block, int(ag not in groups)) for block, ag, used in clusters if used or ag not in groups]
    commands = []
    for ino in inodes:
        commands += [f"inode {ino}", f"echo @core {ino}", "print", "echo @bmap", "bmap -d", "bmap -a", "echo @leaf", "ablock 0",
                     "print entries", "print nvlist", f"inode {ino}", "echo @list", "ls"]
    for said in debug(image, commands).split(b"@core ")[1:]:
        add_inode(lists, image, sb, said)
    return lists


def ours(path):
    """The lists that were gathered, and the other lines."""
    lists, rest = {kind: [] for kind in KINDS}, []
    with open(path, encoding="ascii") as it:
        for line in it:
            kind, *words = line.rstrip("\n").split(" ")
            if kind == "file":
                fields = (word.split("=") for word in words[1:])
                lists[kind].append((int(words[0]), {name: int(value) for name, value in fields}))
            elif kind in ("cluster", "dir"):
                lists[kind].append(tuple(int(word) for word in words))
            elif kind == "tree":
                ino = int(words[0])
                lists[kind].append((ino, lists[kind][-1][1] + 1 if lists[kind] and lists[kind][-1][0] == ino else 0))
            elif kind == "extent":
                lists[kind].append((int(words[0]), words[1], *(int(word) for word in words[2:])))
            elif kind == "attribute":
                lists[kind].append((int(words[0]), int(words[1]), bytes.fromhex(words[2]), bytes.fromhex(words[3])))
            elif kind == "target":
                lists[kind].append((int(words[0]), bytes.fromhex(words[1])))
            elif kind == "entry":
                lists[kind].append((*(int(word) for word in words[:3]), bytes.fromhex(words[3])))
            else:
                rest.append(line.rstrip("\n"))
    return lists, rest


def main():
    path, image = sys.argv[1:]
    mine, rest = ours(path)
    other = theirs(image, [block for block, recorded in mine["cluster"] if not recorded])
    wrong = sum(line.startswith(("bare", "refused", "no geometry")) for line in rest)
    for kind in KINDS:
        held, due = mine[kind], other[kind]
        differ = [(a, b) for a, b in itertools.zip_longest(held, due) if a != b]
        print(f"  {kind}: {len(held)} listed, {len(due)} by xfs_db, {len(differ)} not equal")
        for a, b in differ[:3]:
            print(f"    {a}\n    xfs_db: {b}")
        wrong += len(differ)
    for line in rest:
        print(f"  {line}")
    return 1 if wrong else 0


if __name__ == "__main__":
    sys.exit(main())
