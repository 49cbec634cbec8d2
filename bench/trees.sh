#!/usr/bin/env bash
# Measures xfs_tree and xfs_treebuild: a million numbers packed into a tree, and the tree read from a disk in memory, beside a
# plain C program (trees.c) that packs and reads the same blocks with the same checksums, eight bytes a step
# as crc32c of xfs_word. Both must give the same bytes and numbers. The program that is measured lies in
# tree_speed/, each file with .txt behind its name, and is proved in a copy of the crates, which is removed.
set -eu
. "$(dirname "$0")/crates.sh"
gcc -O2 -Wall -Wextra -o plain "$top/bench/trees.c"
take_program tree_speed xfs_word xfs_disk xfs_memory xfs_collections xfs_geom xfs_tree xfs_treebuild
prove_program tree_speed
for turn in 1 2 3; do
  ours=$(crates/tree_speed/out/tree_speed)
  plain=$(./plain)
  awk -v ours="$ours" -v plain="$plain" 'BEGIN {
    split(ours, o, " "); split(plain, p, " ")
    for (i = 1; i <= 4; i++) if (o[i] != p[i]) { print "the two differ: " ours ", " plain; exit 1 }
    printf "%d records in %d blocks\n", o[3], o[2]
    printf "packing %.1f ms, plain C %.1f ms, %.2f times as long\n", o[5] / 1e6, p[5] / 1e6, o[5] / p[5]
    printf "reading %.1f ms, plain C %.1f ms, %.2f times as long\n", o[6] / 1e6, p[6] / 1e6, o[6] / p[6]
  }'
done
