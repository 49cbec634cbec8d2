#!/usr/bin/env bash
# Damages names and directories, one after another in a copy of a volume, and repairs it: the slot of the root and of a directory in the
# middle, and each kind of block of a directory. Each must be clean then, also by xfs_repair of xfsprogs, with each file at its paths, or
# in lost+found where it has none left, with its bytes and attributes (renamed_files.py); and where the kernel mounts the volume, it must
# mount what is left of it, with as many files. So for each image, or for three that mkfs.xfs of xfsprogs makes, with directories of every
# form. A volume whose log is not clean is repaired with -L first. What finds no room in the blocks that are free must be left as it was; that is
# counted. Needs xfsprogs, zstd where an image is packed by it, and ./xfs; mounts as root, where a loop device can be had.
#
#   examples/renamed-images.sh [IMAGE|IMAGE.zst ..]
set -eu
top=$(cd "$(dirname "$0")/.." && pwd)
. "$top/examples/loop.sh"
. "$top/examples/volumes.sh"
mkdir "$work/mnt"
failed=0 damages=0 repaired=0 full=0 wrong=0 faults= mounts= seen=

mounted() { # IMAGE: whether the kernel mounts it and unmounts it; $seen is the number of paths in it then, or why not
  local status=0
  [ "$(id -u)" = 0 ] || { seen='this needs root'; return 1; }
  loop=$(losetup -f --show "$1" 2> /dev/null) || { loop=; seen='no loop device can be had'; return 1; }
  if mount -t xfs -o nouuid "$loop" "$work/mnt" 2> "$work/why"; then
    seen=$(find "$work/mnt" -mindepth 1 -printf '.' 2> "$work/why" | wc -c)
    if [ -s "$work/why" ]; then seen=$(head -1 "$work/why"); status=1; fi
    umount "$work/mnt"
  else
    seen=$(head -1 "$work/why")
    status=1
  fi
  losetup -d "$loop"
  loop=
  return $status
}
fault() { faults="$faults; $1"; }
mount_repaired() { # IMAGE: what is wrong once the kernel has mounted a repaired volume
  local said
  cp --sparse=always "$1" "$work/mounted.img"
  mounted "$work/mounted.img" || { fault "not mounted: $seen"; return; }
  [ "$seen" = "$("$top/examples/volume_files.py" "$1" | grep -vc "^b'' ")" ] || fault "mounted, it has $seen paths"
  said=$("$top/xfs" xfs_repair -n "$work/mounted.img" 2>&1) || true
  [ "$said" = clean ] || fault "behind the mount it is $said"
}
look_at_repaired() { # IMAGE DAMAGE LINE: what is wrong with a repaired volume
  local said theirs=0 orphans
  said=$("$top/xfs" xfs_repair "$1" 2>&1) || true
  [ "$said" = clean ] || fault "then $said"
  xfs_repair -n "$1" > "$work/theirs.log" 2>&1 || theirs=$?
  [ "$theirs" = 0 ] || fault "xfs_repair of xfsprogs ends with $theirs: $(grep -m 1 -E 'would|bad|error' "$work/theirs.log")"
  "$top/examples/renamed_files.py" compare "$work/volume.img" "$1" "$2" > "$work/compared" 2>&1 ||
    fault "files differ: $(sed -n 2,5p "$work/compared" | tr '\n' ';')"
  orphans=$(head -1 "$work/compared")
  [[ $3 == *" orphans=$orphans" ]] || fault "$orphans files are due in lost+found"
  if [ -n "$mounts" ]; then mount_repaired "$1"; fi
}
lost() { # NAME FROM COUNT: bytes of the volume are zero in a copy, which is repaired
  local said
  damages=$((damages + 1))
  faults=
  cp --sparse=always "$work/volume.img" "$work/lost.img"
  dd if=/dev/zero of="$work/lost.img" bs=512 seek="$(($2 / 512))" count="$(($3 / 512))" conv=notrunc status=none
  cp --sparse=always "$work/lost.img" "$work/before.img"
  said=$("$top/xfs" xfs_repair "$work/lost.img" 2>&1) || true
  case $said in
  repaired:*)
    look_at_repaired "$work/lost.img" "$1" "$said"
    [ -n "$faults" ] || repaired=$((repaired + 1))
    ;;
  'xfs: no room: '*) if cmp -s "$work/before.img" "$work/lost.img"; then full=$((full + 1)); else fault 'the image was written'; fi ;;
  *) fault 'it was not repaired' ;;
  esac
  printf '%-62s %s\n' "$image: $1" "$said$faults"
  [ -z "$faults" ] || { wrong=$((wrong + 1)); failed=1; }
}
rename_each() { # IMAGE
  local said at count name
  image=$(basename "$1" .zst)
  unpack "$1"
  said=$("$top/xfs" xfs_repair "$work/volume.img" 2>&1) || true
  if [ "$said" = 'xfs: dirty log' ]; then said=$("$top/xfs" xfs_repair -L "$work/volume.img" 2>&1) || true; fi
  case $said in
  clean | repaired:*) ;;
  *) echo "$image: $said, left out"; return ;;
  esac
  mounts=
  cp --sparse=always "$work/volume.img" "$work/mounted.img"
  if mounted "$work/mounted.img"; then mounts=yes; else echo "$image: not mounted, nor are its repairs: $seen"; fi
  "$top/examples/renamed_files.py" places "$work/volume.img" > "$work/places"
  while read -r at count name <&3; do lost "$name" "$at" "$count"; done 3< "$work/places"
}

if [ $# -gt 0 ]; then
  for image in "$@"; do rename_each "$image"; done
else
  three_volumes 20000
  for image in largest groups attributes; do rename_each "$work/$image.img"; done
fi
echo "$damages damages: $repaired repaired, $full without room, $wrong wrong"
exit "$failed"
