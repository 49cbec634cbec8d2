#!/usr/bin/env bash
# Gathers the evidence of images, and compares its lists with what xfs_db of xfsprogs prints: clusters, files with their extents,
# attributes and targets, directories, and entries in order. Without an image it makes a volume of 5,500 files, with directories of
# every form, and compares it twice: as it is, and with the inode tree and the reverse-mapping tree of one group zeroed, where the
# clusters of that group are found by their bytes. Works in a copy of the repository, which it removes.
#
#   examples/evidence.sh [IMAGE..]
set -eu
images=()
for image in "$@"; do images+=("$(realpath "$image")"); done
kept=
. "$(dirname "$0")/../bench/crates.sh"
. "$top/examples/volumes.sh"
take_program evidence_lists xfs_word xfs_disk xfs_files xfs_collections xfs_geom xfs_dirdata xfs_attr xfs_volume xfs_heads xfs_image xfs_scan
failed=0
compare() { # NAME IMAGE WHOLE: the lists of IMAGE beside xfs_db's of WHOLE
  printf '%s\n' "$2" "$work/lists" | try_program evidence_lists
  echo "$1"
  python3 "$top/examples/evidence.py" "$work/lists" "$3" || failed=1
}
if [ "${#images[@]}" = 0 ]; then
  protofile 5000 > "$work/proto"
  make_image "$work/volume.img" 400M "$work/proto"
  compare 'a volume of mkfs.xfs' "$work/volume.img" "$work/volume.img"
  cp --sparse=always "$work/volume.img" "$work/broken.img"
  zeroed "$work/broken.img" -c 'agi 1' -c 'addr root'
  zeroed "$work/broken.img" -c 'agf 1' -c 'addr rmaproot'
  compare 'two trees of group 1 zeroed, beside the whole volume' "$work/broken.img" "$work/volume.img"
fi
for image in ${images[@]+"${images[@]}"}; do compare "$image" "$image" "$image"; done
exit "$failed"
