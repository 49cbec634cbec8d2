#!/usr/bin/env bash
# Measures the election of the geometry from the backups of images whose block 0 is zeros, beside `dd bs=1M` of the same file to nothing:
# 16 GB of holes, and 4 GB of which 3.6 are data. Time of the best of five runs in turn, peak memory, and the ratio of the times. A session
# of `xfs_db` elects and reads no block but the one that it prints, so what is measured is an election and no more. Needs xfsprogs, GNU
# time, 4 GB of free disk and ./xfs.
set -eu
top=$(cd "$(dirname "$0")/.." && pwd)
work=$(mktemp -d)
trap 'rm -rf "$work"' EXIT
. "$top/examples/volumes.sh"

# data in each group, behind what mkfs.xfs puts at its start
fill() { # GROUPS
  local ag
  for ((ag = 0; ag < $1; ag++)); do
    yes data | dd of="$work/volume.img" bs=1M seek=$((1024 * ag + 64)) count=900 iflag=fullblock conv=notrunc status=none || true
  done
}
measure() { # COMMAND..: milliseconds and KiB of one run
  local start=$EPOCHREALTIME
  /usr/bin/time -f '%M' -o "$work/memory" "$@" > "$work/out" 2>&1 || true
  awk -v start="$start" -v end="$EPOCHREALTIME" -v memory="$(tail -1 "$work/memory")" 'BEGIN { printf "%.0f %d\n", (end - start) * 1000, memory }'
}
beside() { # NAME: our election and dd of the same file
  local turn
  dd if=/dev/zero of="$work/volume.img" bs=4096 count=1 conv=notrunc status=none
  : > "$work/ours"
  : > "$work/theirs"
  for turn in 1 2 3 4 5; do
    measure "$top/xfs" xfs_db -r -c 'sb 0' -c 'print blocksize' "$work/volume.img" >> "$work/ours"
    cp "$work/out" "$work/said"
    measure dd if="$work/volume.img" of=/dev/null bs=1M >> "$work/theirs"
  done
  sort -n "$work/ours" | head -1 > "$work/best"
  sort -n "$work/theirs" | head -1 >> "$work/best"
  echo "$1: $(cat "$work/said")"
  awk 'NR == 1 { ours = $1; memory = $2 } NR == 2 { printf "  %d ms, %d KiB; dd %d ms; the election takes %.2f of it\n", ours, memory, $1, ours / $1 }' "$work/best"
}
make_image "$work/volume.img" 16G ""
beside "16 GB of holes"
make_image "$work/volume.img" 4G ""
fill 4
beside "4 GB of data"
