#!/usr/bin/env python3
"""Compares the files that kept.sh says are kept of a broken copy with the inodes in use of the whole image, as xfs_db of xfsprogs
lists them, and with the tree of paths beside the image, where there is one. Ends with 1 where they are not the same, or where
something is made anew.

    kept.py LISTS IMAGE"""
import gzip
import json
import os
import sys

from evidence import clusters_and_inodes, superblock


def main():
    path, image = sys.argv[1:]
    with open(path, encoding="ascii") as it:
        rows = [line.split() for line in it]
    held = [int(row[1]) for row in rows if row[0] == "file"]
    fresh = [int(row[1]) for row in rows if row[0] == "fresh"]
    asked = [" ".join(row[1:]) for row in rows if row[0] == "asked"]
    other = [" ".join(row) for row in rows if row[0] not in ("file", "fresh", "asked", "cluster", "slot")]
    _, inodes = clusters_and_inodes(image, superblock(image))
    missing = sorted(set(inodes) - set(held))
    more = sorted(set(held) - set(inodes))
    print(f"  {len(held)} files kept, {len(inodes)} in use by xfs_db, {len(missing)} missing, {len(more)} more, {len(fresh)} anew; "
          f"{sum(row[0] == 'slot' for row in rows)} slots change; asked: {', '.join(asked + other)}")
    wrong = bool(missing or more or fresh or other)
    tree = image.removesuffix(".img") + ".json.gz"
    if os.path.exists(tree):
        with gzip.open(tree) as it:
            named = {entry["ino"] for entry in json.load(it)["tree"].values()}
        print(f"  {len(named)} inodes of the tree of paths, {len(named - set(held))} of them not kept")
        wrong = wrong or bool(named - set(held))
    return 1 if wrong else 0


if __name__ == "__main__":
    sys.exit(main())
