#!/usr/bin/env bash
# Checks and repairs copies of each image with 1, 2, 3, 7 and 64 workers: as it is, and with each of three damages (the headers of group 1,
# the root of the inode tree of group 0, the root of the tree of owners of group 1). Text, status and image have to be the same whatever
# the number is. None of these damages takes a name, so no inode is made anew, whose times would differ. Needs xfsprogs,
# zstd where an image is packed by it, and ./xfs.
#
#   examples/workers.sh IMAGE|IMAGE.zst ..
set -eu
top=$(cd "$(dirname "$0")/.." && pwd)
. "$top/examples/judge.sh"
. "$top/examples/volumes.sh"
number() { xfs_db -r -c "$1" -c "print $2" "$work/volume.img" 2> /dev/null | sed 's/.*= //'; }
blank() { dd if=/dev/zero of="$work/damaged.img" bs=512 seek="$1" count="$2" conv=notrunc status=none; } # SECTOR COUNT
nothing() { :; }
headers() { blank $((8 * $(number 'sb 0' agblocks) + 1)) 3; }
inode_root() { blank $((8 * $(number 'agi 0' root))) 8; }
owner_root() { blank $((8 * ($(number 'sb 0' agblocks) + $(number 'agf 1' rmaproot)))) 8; }
same() { # NAME OPTION..
  local name=$1 workers status wrong=
  shift
  for workers in 1 2 3 7 64; do
    cp --sparse=always "$work/damaged.img" "$work/copy.img"
    status=0
    "$top/xfs" xfs_repair "$@" -w "$workers" "$work/copy.img" > "$work/said" 2>&1 || status=$?
    echo "status $status" >> "$work/said"
    if [ "$workers" = 1 ]; then
      cp "$work/said" "$work/first.said"
      mv "$work/copy.img" "$work/first.img"
    else
      cmp -s "$work/said" "$work/first.said" || wrong="$wrong; $workers workers say $(head -1 "$work/said")"
      cmp -s "$work/copy.img" "$work/first.img" || wrong="$wrong; $workers workers leave another image"
    fi
  done
  printf '%-52s %s%s\n' "$name" "$(head -1 "$work/first.said")" "$wrong"
  [ -z "$wrong" ] || failed=1
}
for image in "$@"; do
  unpack "$image"
  name=$(basename "$image" .zst)
  for damage in nothing headers inode_root owner_root; do
    cp --sparse=always "$work/volume.img" "$work/damaged.img"
    $damage
    same "${name%.img}, $damage, -n" -n
    same "${name%.img}, $damage"
  done
done
exit "$failed"
