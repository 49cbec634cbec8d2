#!/usr/bin/env python3
"""Prints the cases of repairs in which names or directories change, as crates/xfs_cases/stdin has them: each damaged volume, what is said of
it, and what is to be left of it, computed by the on-disk format and the rules of a repair alone, with nothing of this project.

    examples/renamed-volumes.py [FOLDER]     writes the volumes before and after as image files too
"""
import os
import sys

from directory_bytes import FOLDER, PIPE, REGULAR, build, entry, placed
from rebuilt_volumes import Rebuilt, Volume
from volume_bytes import AGBLOCKS, BLOCK, BLOCKS, differing, extent, log_blocks, sealed, slot

FIRST_TREES = [(1, 2, 3, 4, 5)] * 2
FIRST_LISTS = [range(6, 12), range(518, 524)]
# the blocks of the first trees of inodes and of owners, which read: nothing new is placed on them
READING = [3, 5, AGBLOCKS + 3, AGBLOCKS + 5]
WHOLE = [(128, 0)]
ZEROS = bytes(BLOCK * BLOCKS)


def names(first, count, ino):
    """Names `n00000` and so on of so many pipes."""
    return [(b"n%05d" % (first + i), ino + i, PIPE) for i in range(count)]


def numbers(inodes, ftype=PIPE):
    """Entries of lost+found."""
    return [(b"%d" % ino, ino, ftype) for ino in inodes]


def begun(chunks, root, *, pipes=(), links=2, runs=(), image=ZEROS):
    """A volume with free slots, the root, both system inodes and pipes."""
    made = Volume(image, list(chunks))
    for block, first in made.clusters():
        made.free(first, first + 32)
    made.directory(128, 128, root, links, runs=runs)
    made.system()
    for ino in pipes:
        made.pipe(ino)
    made.put(1030, LOG_BLANK)
    return made


def after(damaged, chunks, reserved=(), kept=(), claims=()):
    """A volume that is rebuilt round these inodes and blocks of what is damaged, the system's inodes among them."""
    now = Rebuilt(damaged, list(chunks), [*READING, *reserved])
    now.used |= {128, 129, 130, *kept}
    now.claims += claims
    return now


def changed(image, *parts):
    x = bytearray(image)
    for block, at, data in parts:
        x[block * BLOCK + at:block * BLOCK + at + len(data)] = data
    return x


class Words:
    """Lines of what a disk holds, each with what it does to an image."""

    def __init__(self):
        self.lines, self.steps = [], []

    def apply(self, image):
        for step in self.steps:
            step(image)
        return image

    def add(self, line, step):
        self.lines.append(line)
        self.steps.append(step)
        return self

    def bytes(self, block, at, data):
        def step(image):
            image[block * BLOCK + at:block * BLOCK + at + len(data)] = data
        return self.add(f"bytes {block} {at} {data.hex() if any(data) else f'00*{len(data)}'}", step)

    def differing(self, old, new):
        """The bytes in which two images differ."""
        for line in differing(old, new):
            _, block, at, digits = line.split()
            self.bytes(int(block), int(at), bytes.fromhex(digits))
        return self

    def copy(self, to, block):
        def step(image):
            image[to * BLOCK:to * BLOCK + BLOCK] = image[block * BLOCK:block * BLOCK + BLOCK]
        return self.add(f"copy {to} {block}", step)

    def slots(self, first, end):
        def step(image):
            for ino in range(8 * first, 8 * end):
                image[ino * 512:ino * 512 + 512] = slot(ino, free=True)
        return self.add(f"slots {first} {end}", step)

    def pipes(self, first, end):
        def step(image):
            for ino in range(first, end):
                image[ino * 512:ino * 512 + 512] = slot(ino, [(2, 2, 0x11a4), (16, 4, 1)])
        return self.add(f"pipes {first} {end}", step)

    def entries(self, block, at, number, ino, count):
        def step(image):
            for i in range(count):
                place = at + 24 * i
                image[block * BLOCK + place:block * BLOCK + place + 24] = entry(b"n%05d" % (number + i), ino + i, PIPE, place)
        return self.add(f"entries {block} {at} {number} {ino} {count}", step)

    def listed(self, places, ino, count):
        """The entries of a directory of pipes in these data blocks, 166 in the first and 168 in each of the others."""
        number = 0
        for i, block in enumerate(places):
            here = min(count - number, 168 if i else 166)
            self.entries(block, 64 if i else 96, number, ino + number, here)
            number += here
        return self

    def given(self, name):
        """The lines of a definition."""
        return self.add(f"with {name}", DEFINED[name].apply)


# the definitions of the cases by their names
DEFINED = {}


def define(name, note, words):
    DEFINED[name] = words
    print("\n".join([f"# {line}" for line in note] + [f"define {name}", *words.lines]) + "\n")


def small(files):
    """The empty volume, or that of two files."""
    root = [(name, 131 + i, REGULAR) for i, name in enumerate(files)]
    made = begun(WHOLE, root)
    for i in range(len(files)):
        made.regular(131 + i, [(24 + i, 1)])
    return made.finish(FIRST_TREES, FIRST_LISTS)


LOG_BLANK = log_blocks(1)
EMPTY, FILES = [small(files).image for files in ([], [b"a", b"b"])]
# the claims of both files
BOTH = [(24, 1, 131, 0), (25, 1, 132, 0)]
LOST = b"lost+found"
ADVICE = "; usually xfs_repair without -n mends it"


def anew(damaged, kept, claims, chunks=WHOLE, reserved=()):
    """The volume with trees and free lists anew, and nothing else."""
    now = after(damaged, chunks, reserved, kept, claims)
    now.fix_pool()
    return now.settle()


# definitions that stand beside other cases
DEFINED["rebuilt"] = Words().differing(EMPTY, anew(EMPTY, (), ()).image)
DEFINED["rebuilt_files"] = Words().differing(FILES, anew(FILES, (131, 132), BOTH).image)


def told(name, note, damaged, finding, said, now=None, *, given="volume", words=None, then=None, found=None):
    """Prints a case: the volume, what is found, what a repair says, and what is then held; `words` and `then` are lines that make many
    bytes of the two, and `found` is the finding in words, where these are asked for."""
    words, then = words or Words(), then or Words()
    start = words.apply(bytearray(FILES if "files" in given else EMPTY))
    told_of = [f"err xfs: {found}"] if found else []
    lines = [f"case {name}", f"zeros {BLOCKS}", f"with {given}", *words.lines, *(f"# {line}" for line in note), *Words().differing(start, damaged).lines,
             f"run xfs_repair|{'-nv' if found else '-n'}|V", *told_of, f"out {finding}", "code 1", f"run xfs_repair|{'-v|-v|' if found else ''}V", *told_of]
    if now is None:
        lines += [f"err xfs: {said}", "code 1"]
    else:
        blocks = sum(damaged[b:b + BLOCK] != now[b:b + BLOCK] for b in range(0, len(now), BLOCK))
        lines += [f"out repaired: blocks={blocks} {said}", "run xfs_repair|V", "out clean", "then", *then.lines]
        lines += Words().differing(then.apply(bytearray(damaged)), now).lines
    print("\n".join(lines) + "\n")
    save(name, damaged, now or damaged)


def save(name, before, after_it):
    if len(sys.argv) > 1:
        for kind, image in (("before", before), ("after", after_it)):
            with open(os.path.join(sys.argv[1], f"{name.replace(' ', '-').replace(',', '')}.{kind}"), "wb") as f:
                f.write(image)


def reslotted(image, ino, *fields):
    """The image with fields of an inode's slot changed, sealed."""
    s = bytearray(image[ino * 512:ino * 512 + 512])
    for at, width, value in fields:
        data = value if isinstance(value, bytes) else value.to_bytes(width, "big")
        s[at:at + len(data)] = data
    return changed(image, (ino // 8, ino % 8 * 512, sealed(s, 100)))


def two_files_rebuilt(damaged, root, lost=(), links=(1, 1), reading=None):
    """The volume of two files rebuilt: the links that each has then, none where it is not kept; what the root names, and the files that a
    new lost+found has, which is inode 133. The blocks that read as ones of trees of inodes and of owners are told where they are others."""
    kept = [131 + i for i in (0, 1) if links[i]]
    now = after(damaged, WHOLE, (), kept, [claim for claim in BOTH if claim[2] in kept])
    now.reserved = set(reading or READING)
    for i in (0, 1):
        if not links[i]:
            now.free(131 + i, 132 + i)
        elif links[i] != 1:
            changed_slot = reslotted(now.image, 131 + i, (16, 4, links[i]))
            now.put((131 + i) // 8, changed_slot[(131 + i) * 512:(132 + i) * 512], (131 + i) % 8 * 512)
    now.fix_pool()
    now.rebuild(128, 128, root + ([(LOST, 133, FOLDER)] if lost else []), 3 if lost else 2)
    if lost:
        now.rebuild(133, 128, numbers(lost, REGULAR), mode=0x41c0)
    return now.settle()


def of_two_files(name, note, damaged, finding, root, lost=(), links=(1, 1), found=None):
    """A case of the volume of two files."""
    now = two_files_rebuilt(damaged, root, lost, links)
    said = f"kept={len(now.used)} cleared={links.count(0)} orphans={len(lost)}"
    told(name, note, damaged, finding, said, now.image, given="volume files", then=Words().given("rebuilt_files"), found=found)


def cases_of_two_files():
    a, b = [(name, 131 + i, REGULAR) for i, name in enumerate((b"a", b"b"))]
    of_two_files("a file whose name can't be one is put into a new lost+found", ["The root's second entry has a slash for a name."],
                 reslotted(FILES, 128, (194, 1, b"/")), "damaged: law 7 at 128, held 2, due 0", [a], [132])
    of_two_files("a root that is lost is made anew, and all files are put into lost+found", ["The root's slot is all zeros."],
                 changed(FILES, (16, 0, bytes(512))), "damaged: part 9 at 128", [], [131, 132])


def cases_of_stops():
    """A repair that puts a file into lost+found and is stopped: behind all blocks that nothing kept stands on, and behind one more, the first
    block of the first group, whose new trees are then those that read."""
    entries, lost = [(b"a", 131, REGULAR)], [132]
    damaged = reslotted(FILES, 128, (194, 1, b"/"))
    whole = two_files_rebuilt(damaged, entries, lost).image
    written = [b for b in range(BLOCKS) if damaged[b * BLOCK:b * BLOCK + BLOCK] != whole[b * BLOCK:b * BLOCK + BLOCK]]
    written.sort(key=lambda block: (block in (0, 16, AGBLOCKS), block))
    for count, name, reading in (
            (10, "behind all fresh blocks goes on where it was", READING),
            (11, "behind the first block in place places anew beside what it wrote", [4, 7, AGBLOCKS + 3, AGBLOCKS + 5])):
        partly = changed(damaged, *((b, 0, whole[b * BLOCK:b * BLOCK + BLOCK]) for b in written[:count]))
        now = two_files_rebuilt(partly, entries, lost, reading=reading).image
        blocks = sum(partly[b:b + BLOCK] != now[b:b + BLOCK] for b in range(0, len(now), BLOCK))
        then = Words().given("rebuilt_files")
        print("\n".join([
            f"case a repair that is stopped {name}", f"zeros {BLOCKS}", "with volume files", "# The root's second entry has a slash for a name.",
            *Words().differing(FILES, damaged).lines, f"halt {count}", "run xfs_repair|V", f"err xfs: write fault after {count} blocks", "code 1", "restart",
            "run xfs_repair|V", f"out repaired: blocks={blocks} kept=6 cleared=0 orphans=1", "run xfs_repair|V", "out clean", "then", *then.lines,
            *Words().differing(then.apply(bytearray(damaged)), now).lines]) + "\n")
        save(f"a repair that is stopped {name}", partly, now)


def cases_of_other_chapters():
    """Cases that stand beside others of their kind: a block of two files, and findings in words."""
    a, b = [(name, 131 + i, REGULAR) for i, name in enumerate((b"a", b"b"))]
    twice = reslotted(FILES, 132, (176, 16, extent(0, 24, 1)))
    of_two_files("a block of two files is found, and the first of them keeps it", ["The second file's block is that of the first."], twice,
                 "damaged: law 1 at 24, held 2, due 1", [a], links=(1, 0))
    of_two_files("-v says of law 1 what is held and what is due", [], twice, "damaged: law 1 at 24, held 2, due 1", [a], links=(1, 0),
                 found=f"owners of block 24: held 2, due 1{ADVICE}")
    directory = "directory inode 128 "
    for number, field, root, lost, says in (
            (1, (183, 2, 97), [], [131, 132], "has another index or other free space than its entries say"),
            (2, (185, 1, b"/"), [b], [131], "has a name that can't be one, or one name twice"),
            (3, (187, 4, 140), [b], [131], "names an inode that is not in use, or one of the system's"),
            (4, (186, 1, 2), [a, b], [], "states another type than an inode of its has")):
        of_two_files(f"-v says of law 7 what is held and what is due, {number}", [], reslotted(FILES, 128, field),
                     f"damaged: law 7 at 128, held {number}, due 0", root, lost, found=directory + says + ADVICE)
    of_two_files("-v says of law 8 what is held and what is due, 4", [], reslotted(FILES, 128, (196, 4, 131)),
                 "damaged: law 8 at 132, held 4, due 0", [a, (b"b", 131, REGULAR)], [132], (2, 1), f"inode 132 is in use, and nothing names it{ADVICE}")


def directory_of_pipes(count, runs, file_runs, forkoff=0, trees=None, lists=None):
    """A volume whose root has a directory `d`, 131, of so many pipes from 132 on, and behind them a file `a`."""
    last = 132 + count
    chunks = [(128 + 64 * i, 0) for i in range((last - 128) // 64 + 1)]
    made = begun(chunks, [(b"d", 131, FOLDER), (b"a", last, REGULAR)], pipes=range(132, last), links=3)
    made.directory(131, 128, names(0, count, 132), runs=runs, attribute=ATTRIBUTE if forkoff else b"", forkoff=forkoff)
    made.regular(last, file_runs)
    return made.finish(trees or FIRST_TREES, lists or FIRST_LISTS)


# an attribute `selinux` of the value `x`, as a fork in short form
ATTRIBUTE = bytes.fromhex("000f0100070104") + b"selinuxx"


def words_of_pipes(made, count, data):
    """The lines that make many bytes of such a volume: free slots, pipes and the directory's entries."""
    end = 16 + 8 * len(made.chunks)
    return Words().slots(24, end).pipes(132, 132 + count).listed(data, 132, count)


def rebuilt_pipes(made, damaged, count, replaced, claims, reserved=(), **more):
    """The volume with its directory of pipes built anew with all its names; `replaced` are the blocks that it had."""
    last = 132 + count
    now = after(damaged, made.chunks, [*replaced, *reserved], range(128, last + 1), claims)
    now.fix_pool()
    if not now.rebuild(131, 128, names(0, count, 132), **more):
        return None, []
    places = [b for start, number, ino, offset in now.claims if ino == 131 and offset < 0x800000 for b in range(start, start + number)]
    return now.settle(), places


LEAF_FORM = [(72, 3)], [(75, 1)], []


def index_at(made, place):
    """The lines that write the index of its directory of 400 names to another block."""
    x = changed(made.image, (place, 0, placed(build(131, 128, names(0, 400, 132))[2][0], place, 131)))
    return Words().differing(changed(made.image, (place, 0, bytes(BLOCK))), x)


def cases_of_leaf_form():
    """A directory of 400 names: its data at 72 to 74, its index at 75, and a file at 76."""
    made = directory_of_pipes(400, LEAF_FORM, [(76, 1)])
    words = words_of_pipes(made, 400, [72, 73, 74])
    define("leaf_form", ["What makes of the volume one with a directory `d`, 131, of 400 pipes from 132 on in leaf form, and a file `a`, 532, of one block."],
           words.differing(words.apply(bytearray(EMPTY)), made.image))
    for place in (1, 6):
        define(f"index_at_{place}", [f"The index of this directory in block {place}."], index_at(made, place))
    leaf_form = {"given": "volume", "words": Words().given("leaf_form")}
    said = "kept=405 cleared=0 orphans=0"
    damaged = changed(made.image, (75, 0, bytes(BLOCK)))
    now, places = rebuilt_pipes(made, damaged, 400, range(72, 76), [(76, 1, 532, 0)])
    without = {"given": "volume", "words": Words().given("leaf_form").bytes(75, 0, bytes(BLOCK))}
    told("a directory whose index is lost is built anew with all its names", [], damaged, "damaged: law 7 at 131, held 1, due 0", said, now.image,
         **without, then=Words().given("index_at_1").listed(places, 132, 400))
    scattered = [(8, 8), (76, 2), (80, 1), (83, 1), (86, 1), (89, 1)]
    rest = [(1544, 1), (1547, 1), (1550, 1), (1553, 495)]
    for count, where, index in ((932, "blocks of two runs", 6), (910, "blocks that are spared for trees too", 6), (907, "a run that is not spared", 1)):
        runs = [*scattered, (92, count), *rest]
        total = sum(number for _, number in runs)
        fork, claims = b"", []
        for start, number in runs:
            offset = sum(claim[1] for claim in claims)
            fork += extent(offset, start, number)
            claims.append((start, number, 532, offset))
        x = reslotted(damaged, 532, (56, 8, BLOCK * total), (64, 8, total), (76, 4, len(runs)), (176, 0, fork))
        now, places = rebuilt_pipes(made, x, 400, range(72, 76), claims)
        told(f"a directory that is built anew finds {where}",
             [f"The file states {total} blocks in {len(runs)} runs, which leave few others."], x,
             "damaged: law 1 at 8, held 2, due 1", said, now.image, **without, then=Words().given(f"index_at_{index}").listed(places, 132, 400))
    last_names_lost(made, leaf_form)


def last_names_lost(made, leaf_form):
    damaged = changed(made.image, (74, 0, bytes(BLOCK)))
    now = after(damaged, made.chunks, range(72, 76), range(128, 534), [(76, 1, 532, 0)])
    now.fix_pool()
    now.rebuild(128, 128, [(b"d", 131, FOLDER), (b"a", 532, REGULAR), (LOST, 533, FOLDER)], 4)
    now.rebuild(131, 128, names(0, 334, 132))
    data = [b for start, count, ino, offset in now.claims if ino == 131 and offset < 0x800000 for b in range(start, start + count)]
    now.rebuild(533, 128, numbers(range(466, 532)), mode=0x41c0)
    leaf_form["words"].bytes(74, 0, bytes(BLOCK))
    told("a directory of which a data block is lost keeps the other names", ["The last of its data blocks is all zeros."], damaged,
         "damaged: law 7 at 131, held 1, due 0", "kept=406 cleared=0 orphans=66", now.settle().image, **leaf_form,
         then=Words().listed(data, 132, 334))


def case_of_node_form():
    """A directory of 505 names: its data at 80 to 83, its index at 84 to 86, its free block at 87, and a file at 88."""
    made = directory_of_pipes(505, ([(80, 4)], [(84, 3)], [(87, 1)]), [(88, 1)])
    damaged = changed(made.image, (87, 0, bytes(BLOCK)))
    now, places = rebuilt_pipes(made, damaged, 505, range(80, 88), [(88, 1, 637, 0)])
    then = Words()
    for i, place in enumerate([b for start, count, ino, _ in now.claims if ino == 131 for b in range(start, start + count)][:7]):
        then.copy(place, 80 + i)
    told("a directory whose free block is lost is built anew with all its names", ["A directory of 505 pipes in node form, its free block all zeros."],
         damaged, "damaged: law 7 at 131, held 1, due 0", "kept=510 cleared=0 orphans=0", now.image,
         words=words_of_pipes(made, 505, [80, 81, 82, 83]), then=then)


def case_without_room_for_a_directory():
    """The same directory of 400 names, with an attribute that leaves room for three runs, and a file on all blocks but those of the trees,
    no two of which that could be taken are neighbours."""
    trees = [(1, 3, 2, 5, 4)] * 2
    made = directory_of_pipes(400, LEAF_FORM, [(6, 10), (76, 948), (AGBLOCKS + 518, 506)], 6, trees, [[], []])
    damaged = changed(made.image, (75, 0, bytes(BLOCK)))
    claims = [claim for claim in made.claims if claim[2] == 532]
    now = after(damaged, made.chunks, [*range(72, 76), 2, AGBLOCKS + 2, 4, AGBLOCKS + 4], range(128, 533), claims)
    now.reserved -= {3, 5, AGBLOCKS + 3, AGBLOCKS + 5}
    now.fix_pool()
    assert sorted(now.pool) == [1, 3, 5, AGBLOCKS + 1, AGBLOCKS + 3, AGBLOCKS + 5]
    assert not now.rebuild(131, 128, names(0, 400, 132), attribute=ATTRIBUTE, forkoff=6)
    told("where a directory finds no room that is told, and the volume stays as it was",
         ["A directory of 400 pipes with an attribute, its index all zeros; a file has all other blocks but those of the trees."], damaged,
         "damaged: law 7 at 131, held 1, due 0", "no room: directory 131", words=words_of_pipes(made, 400, [72, 73, 74]))


def cases_of_one_block():
    """A directory `d`, 131, of 30 pipes from 132 on, in one block, 24."""
    made = begun(WHOLE, [(b"d", 131, FOLDER)], pipes=range(132, 162), links=3)
    made.directory(131, 128, names(0, 30, 132), runs=([(24, 1)], [], []))
    made.finish(FIRST_TREES, FIRST_LISTS)
    words = Words().pipes(132, 162).entries(24, 96, 0, 132, 30)
    lost = numbers(range(132, 162))
    for name, note, damage in (
            ("a directory whose one block is lost is empty then, and what it named is in lost+found", "its one block all zeros", (24, 0, bytes(BLOCK))),
            ("the number of a cycle that no log has does not count in a block that is given up",
             "in whose one block other bytes stand for the log sequence number, of cycle 2^31, under the checksum that it had", (24, 16, b"\x80" + bytes(7)))):
        damaged = changed(made.image, damage)
        now = after(damaged, WHOLE, [24], range(128, 163))
        now.fix_pool()
        now.rebuild(128, 128, [(b"d", 131, FOLDER), (LOST, 162, FOLDER)], 4)
        now.rebuild(131, 128, [])
        now.rebuild(162, 128, lost, mode=0x41c0)
        told(name, [f"A directory of 30 pipes, {note}."], damaged, "damaged: law 7 at 131, held 1, due 0", "kept=35 cleared=0 orphans=30", now.settle().image,
             words=words)
    damaged = changed(made.image, (16, 1536, bytes(512)))
    now = after(damaged, WHOLE, (), range(128, 162))
    now.fix_pool()
    now.rebuild(128, 128, [(LOST, 131, FOLDER)], 3)
    now.rebuild(131, 128, lost, mode=0x41c0)
    told("a directory whose slot is lost has no name then, and lost+found its number", ["The same directory, its slot all zeros."], damaged,
         "damaged: part 9 at 131", "kept=34 cleared=0 orphans=30", now.settle().image, words=words)


def of_short_forms(name, note, root, directories, pipes, finding, wanted, orphans, links=2):
    """A case of the small volume with directories in short form, none of which is damaged: `directories` has for each its number, parent,
    names and links; `wanted` has what is rebuilt, in the same form."""
    made = begun(WHOLE, root, pipes=pipes, links=links)
    for ino, parent, entries, count in directories:
        made.directory(ino, parent, entries, count)
    made.finish(FIRST_TREES, FIRST_LISTS)
    now = after(made.image, WHOLE, (), made.used)
    now.fix_pool()
    for ino, parent, entries, count in wanted:
        now.rebuild(ino, parent, entries, count, 0x41c0 if ino not in made.used else 0x41ed)
    told(name, note, made.image, finding, f"kept={len(now.used)} cleared=0 orphans={orphans}", now.settle().image, then=Words().given("rebuilt"))


def cases_of_short_forms():
    x, y, lost = [(name, 132 if name == b"x" else 131, FOLDER) for name in (b"x", b"y")] + [(LOST, 133, FOLDER)]
    of_short_forms("of directories that name each other the first is put into lost+found", ["Directories 131 and 132, which name each other as `x` and `y`."],
                   [], [(131, 132, [x], 3), (132, 131, [y], 3)], (), "damaged: law 8 at 131, held 3, due 0",
                   [(128, 128, [lost], 3), (131, 133, [x], 3), (132, 131, [], 2), (133, 128, numbers([131], FOLDER), 3)], 1)
    folders = [(b"p", 131, FOLDER), (b"q", 132, FOLDER)]
    of_short_forms("a directory that two name stays where it is found first", ["Directories 131 and 132, which both name 133."], folders,
                   [(131, 128, [(b"x", 133, FOLDER)], 3), (132, 128, [(b"y", 133, FOLDER)], 3), (133, 131, [], 2)], (),
                   "damaged: law 8 at 133, held 1, due 0", [(132, 128, [], 2)], 0, links=4)
    of_short_forms("a directory that states another parent states the right one then", ["Directory 131, which states 140 for its parent."],
                   folders[:1], [(131, 140, [], 2)], (), "damaged: law 8 at 131, held 2, due 0", [(131, 128, [], 2)], 0, links=3)
    of_short_forms("a number that is a name in lost+found already gets another one", ["Lost+found, 131, names 141 as `140`; 140 has no name."],
                   [(LOST, 131, FOLDER)], [(131, 128, [(b"140", 141, PIPE)], 2)], (140, 141), "damaged: law 8 at 140, held 4, due 0",
                   [(131, 128, [(b"140", 141, PIPE), (b"140.1", 140, PIPE)], 2)], 1, links=3)
    of_short_forms("a lost+found that is no directory makes way for one", ["A pipe, 131, has the name lost+found; pipe 132 has none."],
                   [(b"a", 134, PIPE), (LOST, 131, PIPE)], [], (131, 132, 134), "damaged: law 8 at 132, held 4, due 0",
                   [(128, 128, [(b"a", 134, PIPE), (LOST, 133, FOLDER)], 3), (133, 128, numbers([131, 132]), 2)], 2)


def cases_of_new_clusters():
    """All 32 inodes of the one cluster are in use, and the root names all pipes but the last."""
    half = [(128, 0xff00)]
    letters = [(bytes([65 + i]), 131 + i, PIPE) for i in range(28)]
    made = begun(half, letters, pipes=range(131, 160), image=EMPTY)
    made.finish(FIRST_TREES, FIRST_LISTS)
    now = after(made.image, half, (), range(128, 160))
    now.fix_pool()
    ino = now.cluster()
    now.rebuild(128, 128, letters + [(LOST, ino, FOLDER)], 3)
    now.rebuild(ino, 128, numbers([159]), mode=0x41c0)
    told("where no inode is free lost+found takes the first of a new cluster", ["A half chunk, all 32 inodes of which are in use; the last has no name."],
         made.image, "damaged: law 8 at 159, held 4, due 0", "kept=33 cleared=0 orphans=1", now.settle().image, words=Words().pipes(131, 160),
         then=Words().slots(8, 12))
    letters[0] = (b"A", 131, REGULAR)
    for free, name, note in (
            (range(518, 524), "a new cluster stands on blocks that are spared for trees where there are no others", "of which four can be one in the second"),
            ([518, 519, 521, 522, 523], "where a new cluster finds no room that is told, and the volume stays as it was", "of which no four can be one")):
        made = begun(half, letters, pipes=range(132, 160), image=EMPTY)
        made.regular(131, [(8, 1), (12, 4), (20, 1004), *([] if 520 in free else [(AGBLOCKS + 520, 1)]), (AGBLOCKS + 524, 500)])
        made.finish(FIRST_TREES, [[6, 7, 9, 10, 11], free])
        now = after(made.image, half, (), range(128, 160), made.claims)
        now.fix_pool()
        ino = now.cluster()
        finding, words = "damaged: law 8 at 159, held 4, due 0", Words().pipes(132, 160)
        note = [f"The same, and a file has all blocks but those of trees and free lists, {note}."]
        if ino is None:
            told(name, note, made.image, finding, "no room: lost+found", words=words)
            continue
        now.rebuild(128, 128, letters + [(LOST, ino, FOLDER)], 3)
        now.rebuild(ino, 128, numbers([159]), mode=0x41c0)
        told(name, note, made.image, finding, "kept=33 cleared=0 orphans=1", now.settle().image, words=words, then=Words().slots(ino // 8, ino // 8 + 4))


def main():
    cases_of_two_files()
    cases_of_stops()
    cases_of_short_forms()
    cases_of_one_block()
    cases_of_leaf_form()
    case_of_node_form()
    cases_of_new_clusters()
    case_without_room_for_a_directory()
    cases_of_other_chapters()


if __name__ == "__main__":
    main()
