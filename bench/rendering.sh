#!/usr/bin/env bash
# Measures xfs_place and xfs_render together: a volume of 512 groups of 131,072 blocks, and one of two groups of 2,097,152 blocks with
# the blocks of a million files in the first, each with a record of its own in the tree of owners and a free block behind it. Prints how
# long placing and rendering took, in seconds, how many blocks are planned, and the peak memory of the program. Needs GNU time. The
# program that is measured lies in rendering_speed/, each file with .txt behind its name.
set -eu
. "$(dirname "$0")/crates.sh"
take_program rendering_speed xfs_word xfs_disk xfs_collections xfs_geom xfs_tree xfs_kinds xfs_volume xfs_place xfs_render
prove_program rendering_speed
for only in '' one; do
  for turn in 1 2 3; do
    /usr/bin/time -f '%M' -o "$work/spent" crates/rendering_speed/out/rendering_speed $only > "$work/line"
    awk -v kib="$(tail -1 "$work/spent")" '{
      printf "%d groups, %d records of owners in the first, %d blocks: placed in %.2f s, rendered in %.2f s, %.0f MiB\n",
        $1, $2, $3, $4 / 1e9, $5 / 1e9, kib / 1024
    }' "$work/line"
  done
done
