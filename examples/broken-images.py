#!/usr/bin/env python3
"""Breaks one thing after another in a copy of each image and repairs it: the fields that check-images.sh breaks, by xfs_db of xfsprogs, with
their checksums, and the headers and the roots of the trees of each group, which are zeroed. Each must be found, repaired and clean then,
also by xfs_repair of xfsprogs, with every file as it was, or, where a file or a name is lost, with those that are due (renamed_files.py).
A manifest that lies beside an image, NAME.json.gz, must agree with what is read of it (manifest.py).

A volume whose log is not clean is repaired with -L first; one that is not supported is left out, and so is a field that the volume does not
have. Prints a line for each damage that goes otherwise, with -v for each, and a count for each image; ends with 1 where one does.
Needs xfsprogs, zstd where an image is packed by it, and ./xfs.

  examples/broken-images.py [-v] [IMAGE|IMAGE.zst ..]

Without an image it takes three that mkfs.xfs of xfsprogs makes, with directories of every form.
"""
import os
import subprocess
import sys
import tempfile
import time

from manifest import differences
from renamed_files import Tree
from volume_files import BLOCK, Volume, files_of

TOP = os.path.dirname(os.path.dirname(os.path.realpath(__file__)))
# a value no field of a tree, a header or an inode has
WRONG = "0x11111111"
TREES = {"bnoroot": "agf", "cntroot": "agf", "rmaproot": "agf", "root": "agi", "free_root": "agi"}


def said_by(*words):
    """What a command prints, and its status."""
    ran = subprocess.run(words, stdout=subprocess.PIPE, stderr=subprocess.STDOUT, text=True, errors="replace")
    return ran.stdout.strip(), ran.returncode


def ours(*words):
    return said_by(f"{TOP}/xfs", "xfs_repair", *words)[0].splitlines()[-1]


def number(image, place, field):
    """A field of an object, as xfs_db of xfsprogs has it."""
    said = said_by("xfs_db", "-r", *[w for c in place.split(";") for w in ("-c", c)], "-c", f"print {field}", image)[0]
    try:
        return int(said.rpartition("= ")[2].split(":")[0].split(" ")[0], 0)
    except ValueError:
        return None


class Damage:
    """A field that is written, or bytes that are zeroed; what is lost by it, in the words of renamed_files.py; and whether it is to be found."""

    def __init__(self, name, place, lost=None, found=True):
        self.name, self.place, self.lost, self.found = name, place, lost, found

    def do(self, image):
        """Why it could not be done, or nothing."""
        if isinstance(self.place[0], int):
            at, count = self.place
            with open(image, "r+b") as held:
                held.seek(at)
                held.write(bytes(count))
            return None
        find, field, value = self.place
        if number(image, find, field) == value:
            value += 1
        commands = [*find.split(";"), f"write -d {field} {value}"]
        said = said_by("xfs_db", "-x", *[w for c in commands for w in ("-c", c)], image)[0].splitlines()
        return None if any(line.startswith(f"{field} = ") for line in said) else said[-1:] or "nothing is written"


def leaf_of(image, place):
    """The commands that go to the first leaf of the tree at whose root these are."""
    while number(image, place, "level"):
        place += ";addr ptrs[1]"
    return place


def group_fields(image, ag):
    """The fields of a group: of its headers, of the roots of its trees, and of a first record."""
    yield from ((f"agf {ag}", field, value) for field, value in {
        "magicnum": WRONG, "versionnum": 2, "length": 77, "freeblks": 5, "longest": 1, "btreeblks": 9, "bnoroot": 0, "rmaproot": 9, "flcount": 200}.items())
    yield from ((f"agi {ag}", field, value) for field, value in {
        "magicnum": WRONG, "seqno": 9999, "count": 1, "freecount": 9, "unlinked[7]": 9}.items())
    yield f"agfl {ag}", "magicnum", WRONG
    roots = {tree: f"{head} {ag};addr {tree}" for tree, head in TREES.items()}
    yield from ((place, "magic", WRONG) for place in roots.values())
    yield roots["cntroot"], "numrecs", 0
    yield roots["free_root"], "level", 7
    yield leaf_of(image, roots["root"]), "recs[1].freecount", 3
    yield leaf_of(image, roots["rmaproot"]), "recs[1].owner", 7


def file_fields(tree, groups):
    """The fields of inodes: of a file of one extent, a link, a short directory, and directories of each form."""
    beyond = groups << tree.volume.agblklog + 3
    files = sorted(tree.files.values(), key=lambda file: file.ino)

    def first(test):
        return next((file.ino for file in files if test(file)), None)
    # a file with attributes in a block of their own would lose these alone by another number of blocks
    if ino := first(lambda f: f.kind == "file" and f.form == 2 and f.nextents == 1 and f.nlink == 1 and f.size > 0 and not f.anextents):
        for field, value in {"core.mode": 0, "core.nblocks": 77, "core.format": 3, "core.nextents": 2}.items():
            yield (f"inode {ino}", field, value), f"inode {ino}", True
        yield (f"inode {ino}", "core.nlinkv2", 5), None, True
        yield (f"inode {ino}", "core.size", 123456789), None, False
        yield (f"inode {ino}", "next_unlinked", 5), None, False
    if ino := first(lambda f: f.kind == "link" and f.form == 1):
        yield (f"inode {ino}", "core.size", 400), f"inode {ino}", True
    if ino := first(lambda f: f.kind == "directory" and f.form == 1 and f.ino != tree.root and tree.entries[f.ino]):
        wide = "i8" if tree.files[ino].fork[1] else "i4"
        other = first(lambda f: f.kind != "directory")
        yield (f"inode {ino}", "core.nlinkv2", tree.files[ino].nlink + 1), None, True
        yield (f"inode {ino}", f"u3.sfdir3.hdr.parent.{wide}", other or beyond), None, True
        yield (f"inode {ino}", f"u3.sfdir3.list[0].inumber.{wide}", beyond), f"entry 0 of directory {ino}", True
    large = [f for f in files if f.kind == "directory" and f.form != 1]
    for at in {0, len(large) // 2, len(large) - 1} if large else ():
        ino = large[at].ino
        yield (f"inode {ino}", "core.size", large[at].size + BLOCK), None, True
        yield (f"inode {ino}", "core.nlinkv2", 65000), None, True


def damages_of(image, tree):
    groups, length = (number(image, "sb 0", field) for field in ("agcount", "agblocks"))
    for ag in sorted({0, groups - 1}):
        for place in group_fields(image, ag):
            yield Damage(" ".join(map(str, place)), place)
    for place in (("sb 0", "icount", 1), ("sb 0", "ifree", 1000000), ("sb 0", "fdblocks", 7), (f"sb {groups - 1}", "agcount", 9), ("sb 1", "dblocks", 9)):
        yield Damage(" ".join(map(str, place)), place)
    yield Damage("label of a backup", (f"sb {groups - 1}", "fname", '"other"'), found=False)
    for place, lost, found in file_fields(tree, groups):
        yield Damage(" ".join(map(str, place)), place, lost, found)
    for ag in range(groups):
        start = ag * length * BLOCK
        for root, head in TREES.items():
            yield Damage(f"{root} of group {ag} zeroed", (start + BLOCK * number(image, f"{head} {ag}", root), BLOCK))
        for head, at, count in ("agf", 512, 512), ("agi", 1024, 512), ("agfl", 1536, 512), ("all headers but the superblock", 512, 1536):
            yield Damage(f"{head} of group {ag} zeroed", (start + at, count))


class Trial:
    """A volume, and what came of the damages to copies of it."""

    def __init__(self, image, work):
        self.image, self.broken = image, f"{work}/broken.img"
        self.tree = Tree(image)
        self.lines = {file.line(path) for path, file in files_of(Volume(image))}
        self.done = self.without = self.wrong = 0

    def wrong_files(self, lost):
        """What is wrong with the files of the repaired copy."""
        due, fresh = (self.lines, False) if lost is None else self.tree.due(lost)[:2]
        held = {file.line(path) for path, file in files_of(Volume(self.broken)) if not fresh or path != b"/lost+found"}
        if held != due:
            yield f"files differ: {len(held - due)} more, {len(due - held)} fewer, as {min(due - held or held - due)[:120]}"

    def wrong_of(self, damage, said):
        """What is wrong behind a repair."""
        again = ours(self.broken)
        if again != "clean":
            yield f"then {again}"
        theirs, status = said_by("xfs_repair", "-n", self.broken)
        if status:
            yield f"xfs_repair of xfsprogs ends with {status}: " + "; ".join(line for line in theirs.splitlines() if "would" in line or "bad" in line)[:200]
        yield from self.wrong_files(damage.lost)

    def run(self, damage):
        """A line about it, and whether all went as it should."""
        said_by("cp", "--sparse=always", self.image, self.broken)
        why = damage.do(self.broken)
        if why:
            self.without += 1
            return f"not there: {why[0] if isinstance(why, list) else why}", True
        self.done += 1
        found, said = ours("-n", self.broken), ours(self.broken)
        wrong = []
        if (found == "clean") == damage.found:
            wrong.append("it should have been found" if damage.found else "it is not judged elsewhere")
        if said.startswith("repaired:"):
            wrong += self.wrong_of(damage, said)
        elif said != "clean" or damage.found:
            wrong.append("it was not repaired")
        self.wrong += bool(wrong)
        return "; ".join([found, said, *wrong]), not wrong


def unpacked(path, work):
    """A copy of the image, as it stands once its log is clean; or None where it is not supported."""
    image = f"{work}/volume.img"
    said_by(*(["zstd", "-dqf", "--sparse", path, "-o", image] if path.endswith(".zst") else ["cp", "--sparse=always", path, image]))
    os.chmod(image, 0o600)
    said = ours(image)
    if said == "xfs: dirty log":
        said = ours("-L", image)
    return image if said == "clean" or said.startswith("repaired:") else print(f"{os.path.basename(path)}: {said}, left out")


def made(work):
    """The paths of three volumes of mkfs.xfs."""
    subprocess.run(["bash", "-euc", f". {TOP}/examples/volumes.sh; three_volumes 5000"], env={**os.environ, "work": work}, check=True)
    return [f"{work}/{name}.img" for name in ("largest", "groups", "attributes")]


def main():
    verbose, failed = sys.argv[1:2] == ["-v"], 0
    with tempfile.TemporaryDirectory() as work:
        for path in sys.argv[1 + verbose:] or made(work):
            name, began = os.path.basename(path).split(".")[0], time.monotonic()
            image = unpacked(path, work)
            if image is None:
                continue
            manifest = f"{os.path.dirname(path)}/{name}.json.gz"
            for line in differences(image, manifest)[1][:3] if os.path.exists(manifest) else ():
                print(f"{name}: {line}")
                failed = 1
            trial = Trial(image, work)
            for damage in list(damages_of(image, trial.tree)):
                line, right = trial.run(damage)
                if verbose or not right:
                    print(f"{name}: {damage.name:48} {line}", flush=True)
            print(f"{name}: {trial.done} damages, {trial.wrong} wrong, {trial.without} not there, {time.monotonic() - began:.0f} s", flush=True)
            failed = failed or trial.wrong
    return 1 if failed else 0


if __name__ == "__main__":
    sys.exit(main())
