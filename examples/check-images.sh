#!/usr/bin/env bash
# Checks images that mkfs.xfs of xfsprogs makes, by `xfs xfs_repair -n`: each must be clean; then, one after another, some
# dozens of fields are broken by xfs_db of xfsprogs in a copy. Each must be found and then repaired: all files are then as they were, but
# for those that are lost by it. Prints what is found of each, and what comes of its repair. Needs xfsprogs and ./xfs.
#
#   examples/check-images.sh
set -eu
top=$(cd "$(dirname "$0")/.." && pwd)
work=$(mktemp -d)
trap 'rm -rf "$work"' EXIT
failed=0

. "$top/examples/volumes.sh"
. "$top/examples/salvaged.sh"
expect() { # NAME PATTERN IMAGE
  local said
  said=$("$top/xfs" xfs_repair -n "$3" 2>&1) || true
  if [[ $said == $2 ]]; then printf '%-58s %s\n' "$1" "$said"; else
    printf '%-58s %s, due is %s\n' "$1" "$said" "$2"
    failed=1
  fi
}
broken() { # FIND FIELD VALUE PATTERN [LOST]: the field is written in a copy, with its checksum; FIND is commands with ; between
  local finds=() find
  cp --sparse=always "$work/volume.img" "$work/broken.img"
  while IFS= read -r find; do finds+=(-c "$find"); done <<< "${1//;/$'\n'}"
  xfs_db -x "${finds[@]}" -c "write -d $2 $3" "$work/broken.img" > "$work/db.log" 2>&1 || true
  if cmp -s "$work/volume.img" "$work/broken.img"; then echo "$1, $2: xfs_db wrote nothing: $(tail -1 "$work/db.log")"; failed=1; return; fi
  expect "$1: $2 = $3" "$4" "$work/broken.img"
  salvaged "  repaired" "$work/broken.img" "$work/volume.lines" "${@:5}"
}

protofile 5000 > "$work/proto"
make_image "$work/empty.img" 300M ''
expect 'an empty volume' clean "$work/empty.img"
make_image "$work/many.img" 2G '' -d agcount=16
expect 'an empty volume of 16 groups' clean "$work/many.img"
make_image "$work/volume.img" 400M "$work/proto"
expect 'thousands of files, directories of every form' clean "$work/volume.img"

"$top/examples/volume_files.py" "$work/volume.img" > "$work/volume.lines"

inode_of() { xfs_db -r -c "path $1" -c 'print v3.inumber' "$work/volume.img" | sed 's/.*= //'; }
file=$(inode_of /bytes)
link=$(inode_of /short)
short=$(inode_of /names3)
block=$(inode_of /names24)
leaf=$(inode_of /names400)
node=$(inode_of /names5000)

for ag in 0 3; do
  broken "agf $ag" magicnum 0x11111111 "damaged: part 1 at $ag"
  broken "agf $ag" versionnum 2 "damaged: part 1 at $ag"
  broken "agf $ag" length 77 "damaged: part 1 at $ag"
  broken "agf $ag" freeblks 5 "damaged: law 5 at $((8 * ag)), held 5, due *"
  broken "agf $ag" longest 1 "damaged: law 5 at $((8 * ag + 1)), held 1, due *"
  broken "agf $ag" btreeblks 9 "damaged: law 5 at $((8 * ag + 2)), held 9, due *"
  broken "agf $ag" bnoroot 0 "damaged: part 1 at $ag"
  broken "agf $ag" rmaproot 9 "damaged: part 8 at $ag"
  broken "agf $ag" flcount 200 "damaged: part 1 at $ag"
  broken "agi $ag" magicnum 0x11111111 "damaged: part 2 at $ag"
  broken "agi $ag" seqno 9 "damaged: part 2 at $ag"
  broken "agi $ag" count 1 "damaged: law 5 at $((8 * ag + 4)), held 1, due *"
  broken "agi $ag" freecount 9 "damaged: law 5 at $((8 * ag + 5)), held 9, due *"
  broken "agi $ag" 'unlinked[7]' 9 "damaged: law 10 at $((1 + 64 * ag + 7)), held 9, due 4294967295"
  broken "agfl $ag" magicnum 0x11111111 "damaged: part 3 at $ag"
  broken "agf $ag;addr bnoroot" magic 0x11111111 "damaged: part 4 at $ag"
  broken "agf $ag;addr cntroot" magic 0x11111111 "damaged: part 5 at $ag"
  broken "agf $ag;addr cntroot" numrecs 0 "damaged: law 2 at $((2 * ag + 1)), held *"
  broken "agi $ag;addr root" magic 0x11111111 "damaged: part 6 at $ag"
  broken "agi $ag;addr root" 'recs[1].freecount' 3 "damaged: law 4 at $((2 * ag)), held *"
  broken "agi $ag;addr free_root" level 1 "damaged: part 7 at $ag"
  broken "agf $ag;addr rmaproot" 'recs[1].owner' 7 "damaged: law 3 at *"
done
broken 'sb 0' icount 1 'damaged: law 5 at 32, held 1, due *'
broken 'sb 0' ifree 1000000 'damaged: law 5 at 33, held 1000000, due *'
broken 'sb 0' fdblocks 7 'damaged: law 5 at 34, held 7, due *'
broken 'sb 2' agcount 9 'damaged: part 10 at 2'
broken 'sb 3' dblocks 9 'damaged: part 10 at 3'
broken "inode $file" core.mode 0 'damaged: law 2 at *' "inode $file"
broken "inode $file" core.nlinkv2 5 "damaged: law 9 at $file, held 5, due 1"
broken "inode $file" core.nblocks 77 "damaged: part 9 at $file" "inode $file"
broken "inode $file" core.format 3 "damaged: part 9 at $file" "inode $file"
broken "inode $file" core.nextents 2 "damaged: part 9 at $file" "inode $file"
broken "inode $link" core.size 400 "damaged: part 9 at $link" "inode $link"
broken "inode $short" core.nlinkv2 3 "damaged: law 9 at $short, held 3, due 2"
broken "inode $short" 'u3.sfdir3.hdr.parent.i4' 150 'damaged: law 8 at *'
broken "inode $short" 'u3.sfdir3.list[0].inumber.i4' 999999 "damaged: law 7 at $short, held 3, due 0" "entry 0 of directory $short"
broken "inode $block" 'core.size' 8192 "damaged: law 7 at $block, held 1, due 0"
broken "inode $leaf" 'core.size' 8192 "damaged: law 7 at $leaf, held 1, due 0"
broken "inode $node" 'core.nlinkv2' 7 "damaged: law 9 at $node, held 7, due 2"
# what is not judged: the label of a backup, a size past a file's blocks, a stray pointer of the unlinked
broken 'sb 2' fname '"other"' clean
broken "inode $file" core.size 123456789 clean
broken "inode $file" next_unlinked 5 clean
exit "$failed"
