#!/usr/bin/env bash
# Makes volumes by `xfs mkfs.xfs` in sparse files, of 64 MiB, 300 MiB, 1 GiB and 16 GiB with 2, 4, 16 and 64 groups, and lets
# xfsprogs judge them: its xfs_repair -n must accept each, and its xfs_db must print of the superblock, headers, roots of trees and
# inodes what ours does. `xfs xfs_repair -n` must call each clean. Needs xfsprogs and ./xfs.
#
#   examples/make-volumes.sh
set -eu
top=$(cd "$(dirname "$0")/.." && pwd)
. "$top/examples/judge.sh"
for row in '64M 2 small' '300M 4 three-hundred' '1G 16 one-gigabyte' '16G 64 sixteen'; do
  read -r size groups label <<< "$row"
  image=$work/$label.img
  truncate -s "$size" "$image"
  echo "$size, $groups groups, $(du -k --apparent-size "$image" | cut -f1) KiB"
  judge mkfs.xfs "$top/xfs" mkfs.xfs -d "agcount=$groups" -L "${label:0:12}" \
    -m uuid=0f1e2d3c-4b5a-4697-8877-665544332211 "$image"
  judge 'xfs_repair -n' "$top/xfs" xfs_repair -n "$image"
  judge 'xfsprogs: repair' xfs_repair -n -f "$image"
  judge 'xfsprogs: label' xfs_admin -l "$image"
  judge 'xfsprogs: fields' "$top/examples/compare-debuggers.py" "$image"
  echo "  $(du -k "$image" | cut -f1) KiB written"
  rm "$image"
done
exit "$failed"
