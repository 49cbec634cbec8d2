#!/usr/bin/env bash
# Makes volumes with the files of protofiles by `xfs mkfs.xfs -p`: 20,000 small files in 400 MiB with 4 groups and in 1 GiB with 16; a
# tree 200 deep; a directory of 50,000 names; names of 255 bytes; symbolic links of up to 1,023 bytes; devices and pipes; and a file of 3 GB
# in 4 GiB with 4 groups. Of each `xfs xfs_repair -n` must say `clean` and xfs_repair -n of xfsprogs end with 0; each file, read by the format alone, must have
# the mode, owners, size, and bytes, target or device that were asked for, and so xfs_db of xfsprogs must show some of them.
# The names of trees can be given, to try just these. Needs xfsprogs and ./xfs; the large file needs 8 GiB of disk and much memory.
#
#   examples/protofiles.sh [small|deep|names|long|links|devices|large]..
set -eu
top=$(cd "$(dirname "$0")/.." && pwd)
. "$top/examples/judge.sh"
try() { # TREE SIZE GROUPS
  local tree=$1 size=$2 groups=$3 image=$work/image
  if [ "${#asked[@]}" -gt 0 ] && [[ " ${asked[*]} " != *" $tree "* ]]; then return; fi
  echo "$tree, $size, $groups groups"
  if [ ! -e "$work/$tree" ]; then
    mkdir "$work/$tree"
    "$top/examples/protofile_trees.py" make "$tree" "$work/$tree"
  fi
  rm -f "$image"
  truncate -s "$size" "$image"
  judge mkfs.xfs /usr/bin/env time -f '%e s, %M KiB' "$top/xfs" mkfs.xfs -d "agcount=$groups" -p "$work/$tree/proto" "$image"
  judge 'xfs_repair -n' "$top/xfs" xfs_repair -n "$image"
  judge 'xfsprogs: repair' xfs_repair -n -f "$image"
  judge 'files' "$top/examples/protofile_trees.py" compare "$work/$tree" "$image"
  judge 'xfsprogs: files' "$top/examples/protofile_trees.py" show "$work/$tree" "$image"
}
asked=("$@")
try small 400M 4
try small 1G 16
try deep 400M 4
try names 400M 4
try long 400M 4
try links 400M 4
try devices 400M 4
rm -rf "$work/small"
try large 4G 4
exit "$failed"
