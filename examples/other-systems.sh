#!/usr/bin/env bash
# Makes other file systems, swap space and partition tables by the tools that belong to them, and has mkfs.xfs refuse to write over each:
# `has a volume`, and every byte is as it was. With -f it makes its volume there, which is clean.
# Needs ./xfs. What it tries of e2fsprogs, btrfs-progs, squashfs-tools, util-linux and fdisk is what is installed; it says what is not. Prints a line
# for each trial; ends with 1 where one goes otherwise.
#
#   examples/other-systems.sh
set -eu
top=$(cd "$(dirname "$0")/.." && pwd)
xfs=$top/xfs
PATH=$PATH:/usr/sbin:/sbin
work=$(mktemp -d)
trap 'rm -rf "$work"' EXIT
cd "$work"
mkdir folder
head -c 100000 /dev/urandom > folder/bytes
failed=0

try() { # NAME TOOL COMMAND..: what the command makes in the file `disk` is kept without -f, and written over with it
  local name=$1 tool=$2 said
  shift 2
  if ! command -v "$tool" > /dev/null; then echo "$name: not tried, $tool is not installed"; return; fi
  rm -f disk kept
  truncate -s 300M disk
  if ! "$@" > made 2>&1; then echo "$name: not made: $(tail -n 1 made)"; failed=1; return; fi
  truncate -s 300M disk
  cp --sparse=always disk kept
  said=$("$xfs" mkfs.xfs disk 2>&1) && said="$said (0)"
  if [ "$said" != 'xfs: has a volume' ] || ! cmp -s disk kept; then echo "$name: $said"; failed=1; return; fi
  said=$("$xfs" mkfs.xfs -f disk 2>&1 && "$xfs" xfs_repair -n disk 2>&1)
  case $said in
  'made: '*clean) echo "$name: has a volume, as it was; with -f made, and clean" ;;
  *) echo "$name, with -f: $said"; failed=1 ;;
  esac
}

try ext2 mkfs.ext2 mkfs.ext2 -q -F disk
try ext4 mkfs.ext4 mkfs.ext4 -q -F disk
try btrfs mkfs.btrfs mkfs.btrfs -q -f disk
try swap mkswap mkswap disk
try squashfs mksquashfs mksquashfs folder disk -noappend -quiet
try 'a partition table' sfdisk sh -c 'echo 2048,,L | sfdisk -q disk'
try 'a partition table by GUIDs' sfdisk sh -c 'printf "label: gpt\n2048,,L\n" | sfdisk -q disk'
try 'XFS of xfsprogs' mkfs.xfs mkfs.xfs -q -f disk
exit $failed
