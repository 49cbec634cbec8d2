#!/usr/bin/env bash
# Measures `xfs xfs_repair` beside `xfs_repair` of xfsprogs on copies of damaged volumes of 20,000 and 100,000 files, or of so many as are
# asked: wall time, time of the processors and peak memory, the best of five runs in turn, each on a fresh copy, and the three ratios.
# Four damages: the root of the inode tree of a group; all headers of a group; the roots of all trees of all groups; and the
# counters of the superblock. Then, on a volume with all files in one directory, a data block in the middle of it: its names are
# lost, and what they named goes to lost+found. Needs xfsprogs, GNU time and ./xfs.
#
#   bench/salvaging.sh [-w WORKERS] [FILES ..]
set -eu
workers=()
if [ "${1-}" = -w ]; then
  workers=(-w "$2")
  shift 2
fi
top=$(cd "$(dirname "$0")/.." && pwd)
work=$(mktemp -d)
trap 'rm -rf "$work"' EXIT
. "$top/examples/volumes.sh"

# empty files, all in one directory
wide() { # COUNT
  : > "$work/none"
  printf 'x 0 0\nd--755 0 0\nnames d--755 0 0\n'
  awk -v count="$1" -v file="$work/none" 'BEGIN { for (i = 0; i < count; i++) printf "file%06d ---644 0 0 %s\n", i, file }'
  printf '$\n$\n'
}
number() { xfs_db -r -c "$1" -c "print $2" "$work/volume.img" | sed 's/.*= //'; }
blank() { dd if=/dev/zero of="$work/damaged.img" bs=512 seek="$1" count="$2" conv=notrunc status=none; } # SECTOR COUNT
groups_do() { # FUNCTION: for each group
  local ag
  for ((ag = 0; ag < groups; ag++)); do "$1" "$ag"; done
}
inode_root() { blank $((8 * ($1 * length + $(number "agi $1" root)))) 8; }
headers() { blank $((8 * $1 * length + 1)) 3; }
roots() {
  local tree
  for tree in bnoroot cntroot rmaproot; do blank $((8 * ($1 * length + $(number "agf $1" "$tree")))) 8; done
  for tree in root free_root; do blank $((8 * ($1 * length + $(number "agi $1" "$tree")))) 8; done
}
middle() { zeroed "$work/damaged.img" -c 'path /names' -c "dblock $((count / 168 / 2))"; }
counters() { dd if=/dev/zero of="$work/damaged.img" bs=1 seek=128 count=24 conv=notrunc status=none; }
measure() { # COMMAND..: seconds, seconds of the processors and KiB of one run on a fresh copy, whatever its status is
  cp --sparse=always "$work/damaged.img" "$work/copy.img"
  /usr/bin/time -f '%e %U %S %M' -o "$work/time" "$@" "$work/copy.img" > "$work/out" 2>&1 || true
  tail -1 "$work/time" | awk '{ print $1, $2 + $3, $4 }'
}
beside() { # NAME: our repair and the other's of the damaged volume
  local turn
  : > "$work/ours"
  : > "$work/theirs"
  for turn in 1 2 3 4 5; do
    measure "$top/xfs" xfs_repair "${workers[@]}" >> "$work/ours"
    cp "$work/out" "$work/said"
    measure xfs_repair -f >> "$work/theirs"
  done
  echo "$1: $(cat "$work/said")"
  paste -d ' ' "$work/ours" "$work/theirs" | awk -f "$top/bench/beside.awk"
}
[ $# -gt 0 ] || set -- 20000 100000
for count in "$@"; do
  many "$count" > "$work/proto"
  make_image "$work/volume.img" "$((count / 100 + 300))M" "$work/proto"
  groups=$(number 'sb 0' agcount)
  length=$(number 'sb 0' agblocks)
  for damage in 'inode_root 1' 'headers 1' 'groups_do roots' counters; do
    cp --sparse=always "$work/volume.img" "$work/damaged.img"
    $damage
    beside "$count files, $damage"
  done
  wide "$count" > "$work/proto"
  make_image "$work/damaged.img" "$((count / 500 + 300))M" "$work/proto"
  middle
  beside "$count names in one directory, a data block"
done
