#!/usr/bin/env bash
# Measures xfs_place: a million runs of an object and the trees of all groups placed, once in 512 groups of 131,072 blocks
# and once in one group of two million, where a free block stands between each two runs; and a run of 18 million blocks that stands in
# 6,000 pieces, which are all free runs there and of which no two have the same length: in seconds, with the peak memory of the program.
# Needs GNU time. The program that is measured lies in placing_speed/, each file with .txt behind its name.
set -eu
. "$(dirname "$0")/crates.sh"
take_program placing_speed xfs_geom xfs_volume xfs_place
prove_program placing_speed
for only in '' one lengths; do
  for turn in 1 2 3; do
    /usr/bin/time -f '%M' -o "$work/spent" crates/placing_speed/out/placing_speed $only > "$work/line"
    awk -v kib="$(tail -1 "$work/spent")" '{
      printf "%d groups, %d runs, %d records of owners in the first: %.2f s, %.0f MiB\n", $1, $2, $3, $4 / 1e9, kib / 1024
    }' "$work/line"
  done
done
