#!/usr/bin/env bash
# Zeroes the inode tree and the reverse-mapping tree of one group in copies of images, group after group, and compares the files that
# are then kept with the inodes in use of the whole image, as xfs_db of xfsprogs lists them; where NAME.json.gz stands beside NAME.img,
# with the tree of paths that the image was made with, also with the inodes of that tree. Without an image it makes a volume of 5,500
# files, with directories of every form. Works in a copy of the repository, which it removes.
#
#   examples/kept.sh [IMAGE..]
set -eu
images=()
for image in "$@"; do images+=("$(realpath "$image")"); done
kept=
. "$(dirname "$0")/../bench/crates.sh"
. "$top/examples/volumes.sh"
take_program kept_lists xfs_disk xfs_files xfs_log xfs_collections xfs_geom xfs_volume xfs_render xfs_rounds xfs_scan xfs_salvage xfs_request
if [ "${#images[@]}" = 0 ]; then
  protofile 5000 > "$work/proto"
  make_image "$work/volume.img" 400M "$work/proto"
  images=("$work/volume.img")
fi
for image in "${images[@]}"; do
  groups=$(xfs_db -r -c 'sb 0' -c 'print agcount' "$image" | sed 's/.* //')
  for ((ag = 0; ag < groups; ag++)); do
    broken="$work/$(basename "$image").$ag"
    cp --sparse=always "$image" "$broken"
    zeroed "$broken" -c "agi $ag" -c 'addr root'
    zeroed "$broken" -c "agf $ag" -c 'addr rmaproot'
    printf '%s\n' "$broken" "$broken.lists"
  done
done > "$work/pairs"
try_program kept_lists < "$work/pairs"
failed=0
for image in "${images[@]}"; do
  for lists in "$work/$(basename "$image")".*.lists; do
    ag=${lists%.lists}
    echo "$(basename "$image"), both trees of group ${ag##*.} zeroed"
    python3 "$top/examples/kept.py" "$lists" "$image" || failed=1
  done
done
exit "$failed"
