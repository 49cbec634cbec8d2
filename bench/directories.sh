#!/usr/bin/env bash
# Measures xfs_dirbuild and xfs_dirindex: a directory of a million names, built and checked, in names a second,
# with the most memory that the program took. The program that is measured lies in dir_speed/, each file with
# .txt behind its name, and is proved in a copy of the crates, which is removed.
set -eu
. "$(dirname "$0")/crates.sh"
take_program dir_speed xfs_word xfs_disk xfs_collections xfs_dirdata xfs_dirindex xfs_dirbuild
prove_program dir_speed
for turn in 1 2 3; do
  python3 - crates/dir_speed/out/dir_speed <<'PY'
import resource, subprocess, sys

names, data, index, free, sound, building, checking = subprocess.run(sys.argv[1:], capture_output=True, text=True, check=True).stdout.split()
memory = resource.getrusage(resource.RUSAGE_CHILDREN).ru_maxrss
assert sound == "true"
print(f"{names} names in {data} data, {index} index and {free} free blocks")
print(f"building {int(building) / 1e6:.0f} ms, {int(names) * 1e9 / int(building):.0f} names a second")
print(f"checking {int(checking) / 1e6:.0f} ms, {int(names) * 1e9 / int(checking):.0f} names a second")
print(f"at most {memory / 1024:.0f} MiB of memory")
PY
done
