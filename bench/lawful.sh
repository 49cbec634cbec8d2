#!/usr/bin/env bash
# Measures xfs_laws: the verdict on a volume with a million files in a hundred thousand directories and four million runs, as
# one call: in seconds, and in memory beyond the catalog's own. Needs GNU time. The program that is measured lies in
# lawful_speed/, and takes its files and names from naming_speed/, each file with .txt behind its name; it is proved in a copy
# of the crates, which is removed.
set -eu
. "$(dirname "$0")/crates.sh"
take_program lawful_speed xfs_word xfs_disk xfs_geom xfs_heads xfs_log xfs_attr xfs_dirdata xfs_volume xfs_laws
cp "$top/bench/naming_speed/src/made.rt.txt" crates/lawful_speed/src/made.rt
prove_program lawful_speed
for turn in 1 2 3; do
  /usr/bin/time -f '%M' -o catalog crates/lawful_speed/out/lawful_speed only > /dev/null
  judged=$(/usr/bin/time -f '%M' -o all crates/lawful_speed/out/lawful_speed)
  awk -v judged="$judged" -v catalog="$(cat catalog)" -v all="$(cat all)" 'BEGIN {
    split(judged, j, " ")
    if (j[3] != "0") { print "the volume is not lawful: " judged; exit 1 }
    printf "%d files: %.2f s, at most %d MiB of memory, of which the catalog has %d MiB\n", j[1], j[2] / 1e9, all / 1024, catalog / 1024
  }'
done
