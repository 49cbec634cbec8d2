#!/usr/bin/env bash
# Checks every directory of an image that has blocks, by the form in which it stands, with each address of its
# index raised by one as a second try that has to be refused; then builds a directory of the same entries and
# checks that. Works in a copy of the repository, which it removes.
#
#   examples/directories.sh IMAGE..
set -eu
images=()
for image in "$@"; do images+=("$(realpath "$image")"); done
kept=
. "$(dirname "$0")/../bench/crates.sh"
take_program dir_print xfs_word xfs_disk xfs_files xfs_collections xfs_dirdata xfs_dirindex xfs_dirbuild
for image in "${images[@]}"; do
  python3 "$top/examples/directory_lines.py" "$image" > "$work/names"
  try_program dir_print < "$work/names"
  grep '^dir ' "$work/try.log" > "$work/found" || { tail -20 "$work/try.log"; exit 1; }
  echo "$image: $(grep -c '^dir ' "$work/found") of $(($(wc -l < "$work/names") - 1)) directories with blocks"
  awk '{ key = $3 ", with another address " $5 ", built anew " $6; count[key]++; names[key] += $4 } END { for (k in count) print "  " k ": " count[k] " directories, " names[k] " names" }' "$work/found" | sort
done
