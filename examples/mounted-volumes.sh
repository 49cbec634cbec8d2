#!/usr/bin/env bash
# Makes volumes of several sizes without -l, and has the machine's kernel mount each, fill it with files of many sizes until it is full, take a third of
# them away and unmount it. Then both this project's xfs_repair and that of xfsprogs are to call it clean. Where this is not run as root, no loop device
# can be had, or the kernel has no XFS, the script says so, and both tools check the empty volumes.
# Needs ./xfs and xfsprogs. Prints a line for each volume; ends with 1 where one goes otherwise.
#
#   examples/mounted-volumes.sh [MEBIBYTES..]
set -eu
top=$(cd "$(dirname "$0")/.." && pwd)
xfs=$top/xfs
PATH=$PATH:/usr/sbin:/sbin
. "$top/examples/loop.sh"
mkdir "$work/mnt"
failed=0
mounts=

can_mount() { # whether the kernel mounts a volume of xfsprogs here
  [ "$(id -u)" = 0 ] || { echo 'not mounted: this needs root'; return 1; }
  truncate -s 300M "$work/probe"
  mkfs.xfs -q -f "$work/probe"
  loop=$(losetup -f --show "$work/probe") || { loop=; echo 'not mounted: no loop device can be had'; return 1; }
  mount -t xfs "$loop" "$work/mnt" 2> "$work/why" || { echo "not mounted: $(cat "$work/why")"; losetup -d "$loop"; loop=; return 1; }
  umount "$work/mnt"
  losetup -d "$loop"
  loop=
  rm "$work/probe"
}
fill() { # FOLDER: folders of files of many sizes until there is no room, then every third file is removed
  local folder=0 file
  while mkdir "$1/d$folder" 2> /dev/null; do
    for ((file = 0; file < 60; file++)); do
      head -c $((file * file * file * 17 + file)) /dev/zero > "$1/d$folder/file-$file" 2> /dev/null || break 2
    done
    ln -s "d$folder/file-7" "$1/link-$folder" 2> /dev/null || break
    folder=$((folder + 1))
  done
  sync -f "$1"
  find "$1" -type f -name '*[147]' -delete
}
both_clean() { # IMAGE: what both tools say of it, where that is not that it is clean
  local said
  said=$("$xfs" xfs_repair -n "$1" 2>&1) || { echo "$said"; return 1; }
  [ "$said" = clean ] || { echo "$said"; return 1; }
  xfs_repair -n "$1" > "$work/theirs" 2>&1 || { echo "xfs_repair of xfsprogs: $(tail -n 1 "$work/theirs")"; return 1; }
}

if can_mount; then mounts=yes; fi
for size in ${*:-64 128 300 1024 5000}; do
  image=$work/volume.img
  rm -f "$image"
  truncate -s "${size}M" "$image"
  "$xfs" mkfs.xfs "$image" > "$work/made"
  done='made'
  if [ -n "$mounts" ]; then
    loop=$(losetup -f --show "$image")
    if ! mount -t xfs "$loop" "$work/mnt" 2> "$work/why"; then
      echo "$size MiB: $(cat "$work/why")"
      failed=1
      losetup -d "$loop"
      loop=
      continue
    fi
    fill "$work/mnt"
    done="mounted, filled with $(find "$work/mnt" -mindepth 1 | wc -l) files"
    umount "$work/mnt"
    losetup -d "$loop"
    loop=
  fi
  if said=$(both_clean "$image"); then
    echo "$size MiB, log of $(sed -n 's/.*log=[0-9]*+\([0-9]*\) .*/\1/p' "$work/made") blocks: $done, clean by both tools"
  else
    echo "$size MiB, $done: $said"
    failed=1
  fi
done
exit $failed
