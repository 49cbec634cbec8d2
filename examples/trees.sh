#!/usr/bin/env bash
# Reads every tree of an image by the kinds of xfs_kinds, packs its records anew in memory and reads them
# back, and compares each with what xfs_db of xfsprogs prints. Works in a copy of the repository, which it
# removes.
#
#   examples/trees.sh IMAGE..
set -eu
images=()
for image in "$@"; do images+=("$(realpath "$image")"); done
kept=
. "$(dirname "$0")/../bench/crates.sh"
take_program tree_print xfs_word xfs_disk xfs_files xfs_collections xfs_geom xfs_tree xfs_treebuild xfs_kinds
for image in "${images[@]}"; do
  python3 "$top/examples/tree_lines.py" "$image" "$work/names" "$work/due"
  try_program tree_print < "$work/names"
  grep -E '^(tree |[0-9]+,)' "$work/try.log" > "$work/found" || { tail -20 "$work/try.log"; exit 1; }
  if cmp -s "$work/found" "$work/due"; then
    echo "$image: $(grep -c '^tree' "$work/due") trees, $(grep -vc '^tree' "$work/due") records, all equal"
  else
    echo "$image: they differ"
    diff "$work/found" "$work/due" | head -10
    exit 1
  fi
done
