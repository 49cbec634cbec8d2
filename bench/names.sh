#!/usr/bin/env bash
# Measures xfs_links and xfs_names: a million files in a hundred thousand directories are connected, the names that they are
# to have are found, and the directories that are not whole are built anew. Prints the seconds of each call and the most memory that
# the program holds, files and entries included. The program lies in names_speed/, each file with .txt behind its name, and is proved
# in a copy of the crates, which is removed; what tests the conditions of the calls is taken from the crate of tests.
set -eu
. "$(dirname "$0")/crates.sh"
take_program names_speed xfs_disk xfs_dirdata xfs_volume xfs_naming xfs_links xfs_names itoa
for part in links/listed names/ordered; do
  cp "$top/crates/xfs_volume_tests/src/$part.rt" crates/names_speed/src/
  cp -r "$top/crates/xfs_volume_tests/proofs/$part" crates/names_speed/proofs/
done
find crates/names_speed/proofs -name '*.antt' -exec sed -i 's/xfs_volume_tests\.proofs\.\(links\|names\)\./names_speed.proofs./' {} \;
touch crates/names_speed/proofs/Lib.antt
prove_program names_speed
for turn in 1 2 3; do
  /usr/bin/time -f %M -o memory crates/names_speed/out/names_speed > told
  awk -v memory="$(cat memory)" '{
    printf "%d files, %d entries: %d stay, %d parents, %d orphans\n", $1, $2, $3, $4, $5
    printf "connecting %.2f s, names %.2f s, %d directories built %.2f s, at most %.0f MB\n", $6 / 1e9, ($7 - $6) / 1e9, $8, $9 / 1e9, memory / 1024
  }' told
done
