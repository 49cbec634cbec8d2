#!/usr/bin/env bash
# Measures xfs_naming: the names of a million files in a hundred thousand directories checked, in milliseconds, and the time
# and the peak memory of the program that makes them and checks them. Needs GNU time. The program lies in naming_speed/,
# each file with .txt behind its name; it takes the test of catalogs, with its proof, from the tests of xfs_naming, and is
# proved in a copy of the crates, which is removed.
set -eu
. "$(dirname "$0")/crates.sh"
take_program naming_speed xfs_attr xfs_disk xfs_dirdata xfs_volume xfs_naming
cp crates/xfs_naming/src/tests/catalogs.rt crates/naming_speed/src/
cp -r crates/xfs_naming/proofs/tests/catalogs crates/naming_speed/proofs/
cp crates/xfs_naming/proofs/Cataloged.antt crates/naming_speed/proofs/
echo 'pub mod Cataloged' > crates/naming_speed/proofs/Lib.antt
find crates/naming_speed/proofs -name '*.antt' -exec sed -i \
  's/xfs_naming\.proofs\.tests\.catalogs/naming_speed.proofs.catalogs/; s/xfs_naming\.proofs\.Cataloged/naming_speed.proofs.Cataloged/' {} \;
prove_program naming_speed
for turn in 1 2 3; do
  /usr/bin/time -f '%U %M' -o spent crates/naming_speed/out/naming_speed > line
  awk -v spent="$(tail -1 spent)" '{
    split(spent, s, " ")
    printf "%d files, %d entries, lawful %s: %.0f ms; the program %.2f s of a processor, %.0f MiB\n", $1, $2, $3, $4 / 1e6, s[1], s[2] / 1024
  }' line
done
