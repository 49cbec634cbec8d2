#!/usr/bin/env bash
# Measures xfs_claims: which of 1,000,000 files with 4,000,000 runs in 31,250 clusters are kept, in random order, and
# with the claims of every tenth file met by another's. Prints the seconds of `keep` alone, and the peak memory of the
# whole program, of which the claims themselves are a part. Needs GNU time. The program that is measured lies in
# claim_speed/, each file with .txt behind its name; that the claims are sound it finds out by the function of the tests.
# It is proved in a copy of the crates, which is removed.
set -eu
. "$(dirname "$0")/crates.sh"
take_program claim_speed xfs_disk xfs_collections xfs_geom xfs_volume xfs_claims
sound=crates/xfs_volume_tests
sed 's/pub(super) fn/pub fn/' "$top/$sound/src/claims/sound.rt" > crates/claim_speed/src/sound.rt
cp -r "$top/$sound/proofs/claims/sound" crates/claim_speed/proofs/
find crates/claim_speed/proofs/sound -name '*.antt' -exec sed -i 's/Rattle.xfs_volume_tests.proofs.claims.sound/Rattle.claim_speed.proofs.sound/' {} \;
prove_program claim_speed
for turn in 1 2 3; do
  /usr/bin/time -f '%M' -o memory crates/claim_speed/out/claim_speed > told
  awk -v memory="$(tail -1 memory)" '{
    printf "%d of %d files and %d of %d clusters kept, %d runs: %.2f s, %.0f MiB\n", $3, $2, $5, $4, $1, $6 / 1e9, memory / 1024
  }' told
done
