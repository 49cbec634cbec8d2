#!/usr/bin/env bash
# Measures `xfs xfs_repair` on an image of 1 GB of the real mkfs.xfs, beside `xfs_repair -n` of xfsprogs:
# time and peak memory, of a clean image and of one whose last backup disagrees. Needs xfsprogs, GNU time and ./xfs.
set -eu
top=$(cd "$(dirname "$0")/.." && pwd)
work=$(mktemp -d)
trap 'rm -rf "$work"' EXIT
image=$work/volume.img
truncate -s 1G "$image"
mkfs.xfs -q -f -m crc=1,finobt=1,rmapbt=1,reflink=0,bigtime=0,inobtcount=0 -i size=512,sparse=1,nrext64=0 -s size=512 "$image"
agblocks=$(xfs_db -r -c 'sb 0' -c 'print agblocks' "$image" | sed 's/.*= //')
measure() { # NAME COMMAND..: the best of five runs, in milliseconds, and the peak memory
  local name=$1 turn start
  shift
  for turn in 1 2 3 4 5; do
    start=$EPOCHREALTIME
    /usr/bin/time -f '%M' -o "$work/memory" "$@" > "$work/out" 2>&1 || true
    awk -v start="$start" -v end="$EPOCHREALTIME" -v memory="$(tail -1 "$work/memory")" 'BEGIN { printf "%.1f ms, %d KiB\n", (end - start) * 1000, memory }'
  done | sort -n | head -1 | sed "s|^|$name: |"
  tail -1 "$work/out"
}
measure 'xfs xfs_repair, clean' "$top/xfs" xfs_repair "$image"
measure 'xfsprogs xfs_repair -n, clean' xfs_repair -n -f "$image"
printf Q | dd of="$image" bs=1 seek=$((3 * agblocks * 4096 + 108)) conv=notrunc status=none
"$top/xfs" xfs_repair "$image"
measure 'xfs xfs_repair, after a repair' "$top/xfs" xfs_repair "$image"
