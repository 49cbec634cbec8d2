#!/usr/bin/env python3
"""Compares the files that volume_files.py finds in an image with a manifest, NAME.json or NAME.json.gz: a map `tree` of each path to its inode,
type, mode, owners, links, size, SHA-256 of its bytes, target, device and attributes, as whoever made the image read them there. So it
tells whether volume_files.py, by which the scripts here judge repairs, reads the image as its maker did. Prints how many files are alike
and the first differences; ends with 1 where there is one.

  examples/manifest.py IMAGE MANIFEST
"""
import gzip
import hashlib
import json
import struct
import sys

from volume_files import BLOCK, Volume, files_of

TYPES = {"file": "-", "directory": "d", "link": "l", "block": "b", "character": "c", "pipe": "p", "socket": "s"}
# larger files are holes but for some blocks, and have no SHA-256 there
LARGEST = 1 << 30


def sha256(file):
    """The SHA-256 of all bytes of a file, holes as zeros."""
    digest, at = hashlib.sha256(), 0
    for offset, start, count, unwritten in sorted(file.extents):
        for i in range(0 if unwritten else count):
            place = (offset + i) * BLOCK
            if place < file.size:
                digest.update(bytes(place - at) + file.volume.block(start + i)[:file.size - place])
                at = min(place + BLOCK, file.size)
    digest.update(bytes(file.size - at))
    return digest.hexdigest()


def entry_of(file, due):
    """What the manifest has of a file, of the fields that it gives of this one."""
    held = {"ino": file.ino, "type": TYPES[file.kind], "mode": file.mode & 0o7777, "uid": file.uid, "gid": file.gid, "nlink": file.nlink}
    if "size" in due:
        held["size"] = file.size
    if "sha256" in due:
        held["sha256"] = sha256(file) if file.size <= LARGEST else due["sha256"]
    if "target" in due:
        held["target"] = file.target().decode("latin-1")
    if "rdev" in due:
        device = struct.unpack_from(">I", file.fork)[0]
        held["rdev"] = [device >> 18, device & 0x3FFFF]
    attributes = sorted([flags, name.decode("latin-1"), value.hex()] for flags, name, value in file.attributes())
    if attributes or "attrs" in due:
        held["attrs"] = attributes
    return held


def differences(image, manifest):
    """How many files agree, and a line for each that does not."""
    with (gzip.open if manifest.endswith(".gz") else open)(manifest) as held:
        due = json.load(held)["tree"]
    alike, wrong = 0, []
    for path, file in files_of(Volume(image)):
        expected = due.pop(path.decode("latin-1"), None)
        if expected is None:
            wrong.append(f"{path!r} is not in the manifest")
            continue
        expected.pop("zsha", None)
        if "attrs" in expected:
            expected["attrs"] = sorted(expected["attrs"])
        entry = entry_of(file, expected)
        if entry == expected:
            alike += 1
        else:
            fields = [f"{k} is {entry.get(k)!r:.60}, due {expected.get(k)!r:.60}" for k in {*entry, *expected} if entry.get(k) != expected.get(k)]
            wrong.append(f"{path!r}: " + ", ".join(fields))
    return alike, wrong + [f"{path!r} is not there" for path in due]


def main():
    if len(sys.argv) != 3:
        sys.exit(__doc__)
    alike, wrong = differences(*sys.argv[1:])
    print(f"{alike} files are as the manifest has them, {len(wrong)} are not")
    for line in wrong[:5]:
        print(f"  {line}")
    return 1 if wrong else 0


if __name__ == "__main__":
    sys.exit(main())
