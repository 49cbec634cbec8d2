#!/usr/bin/env bash
# Tries what the program does around its top call: links with a tool's name, installing into a folder, an image that can't be
# opened, and one that is in use. What mounts is tried where this is run as root and a loop device can be had.
# Needs ./xfs. Prints a line for each trial; ends with 1 where one goes otherwise.
#
#   examples/try-program.sh
set -eu
top=$(cd "$(dirname "$0")/.." && pwd)
. "$top/examples/loop.sh"
failed=0

trial() { # NAME STATUS PATTERN COMMAND..: the lines that a command prints, with / between them, and its status
  local name=$1 status=$2 pattern=$3 said got=0
  shift 3
  said=$("$@" 2>&1 < /dev/null) || got=$?
  said=${said//$'\n'/ \/ }
  if [[ $got = "$status" && $said == $pattern ]]; then printf '%-58s %s\n' "$name" "$said"; else
    printf '%-58s %s (%s), due is %s (%s)\n' "$name" "$said" "$got" "$pattern" "$status"
    failed=1
  fi
}
unchanged() { # NAME FILE: it holds what it held when it was kept
  if cmp -s "$2" "$work/kept"; then printf '%-58s as it was\n' "$1"; else echo "$1: written"; failed=1; fi
}

mkdir "$work/mnt" "$work/links"
truncate -s 128M "$work/volume.img"
for tool in xfs_repair mkfs.xfs xfs_db; do ln -s "$top/xfs" "$work/links/$tool"; done

trial 'a link named mkfs.xfs' 0 'made: blocks=32768 *' "$work/links/mkfs.xfs" -l size=8m "$work/volume.img"
trial 'a link named xfs_repair' 0 clean "$work/links/xfs_repair" "$work/volume.img"
trial 'a link named xfs_db' 0 'agcount = 4' "$work/links/xfs_db" -c 'sb 0' -c 'print agcount' "$work/volume.img"
trial 'by a name without a slash' 0 clean env PATH="$work/links" xfs_repair "$work/volume.img"
trial 'the tool named twice' 1 'xfs: usage: word 2' "$work/links/xfs_repair" xfs_repair "$work/volume.img"
trial 'named xfs, with a tool' 0 clean "$top/xfs" xfs_repair "$work/volume.img"
trial 'named xfs, without one' 1 'xfs: usage: word 0' "$top/xfs" "$work/volume.img"
trial 'its version' 0 'xfs version *' "$top/xfs" --version
trial 'the version of a link' 0 'mkfs.xfs version *' "$work/links/mkfs.xfs" -V
trial 'its help' 0 'xfs TOOL *' sh -c "'$top/xfs' --help 2>&1 | head -n 1"
trial 'the help of a link' 0 'xfs xfs_db *' sh -c "'$work/links/xfs_db' --help 2>&1 | head -n 1"
trial 'help beside an image' 1 'xfs: usage: word 1' "$work/links/xfs_repair" --help "$work/volume.img"

trial 'no such file' 1 "xfs: $work/none: No such file or directory* / xfs: read fault: 1" "$top/xfs" xfs_repair "$work/none"
trial 'no such file, to be made' 1 "xfs: $work/none: No such file or directory* / xfs: read fault: 1" "$top/xfs" mkfs.xfs "$work/none"
trial 'a directory' 1 "xfs: $work/mnt: *is a directory* / xfs: read fault: 1" "$top/xfs" xfs_repair -n "$work/mnt"
trial 'a directory, to be written' 1 "xfs: $work/mnt: *is a directory* / xfs: read fault: 1" "$top/xfs" mkfs.xfs -f "$work/mnt"
cp --sparse=always "$work/volume.img" "$work/short.img"
for bytes in 134213632 67108864 512 0; do
  truncate -s "$bytes" "$work/short.img"
  trial "cut to $bytes bytes: xfs_repair" 1 'xfs: no geometry' "$top/xfs" xfs_repair "$work/short.img"
  trial "cut to $bytes bytes: xfs_db" 1 'xfs: no geometry' "$top/xfs" xfs_db -x -c 'agf 0' -c 'write freeblks 5' "$work/short.img"
done
trial 'an empty file, to be made' 1 'xfs: too small: *' "$top/xfs" mkfs.xfs -f "$work/short.img"
trial 'a device without blocks' 1 'xfs: no geometry' "$top/xfs" xfs_repair /dev/null
mkfifo "$work/pipe"
trial 'a pipe' 1 "xfs: $work/pipe: seek on unseekable file / xfs: read fault: 1" timeout 10 "$top/xfs" xfs_repair -n "$work/pipe"
trial 'a pipe, to be written' 1 "xfs: $work/pipe: seek on unseekable file / xfs: read fault: 1" timeout 10 "$top/xfs" mkfs.xfs -f "$work/pipe"
"$top/xfs" xfs_db -x -c 'agf 0' -c 'write freeblks 5' "$work/volume.img" > /dev/null
for streams in '<&-' '2>&-'; do trial "without a stream, $streams" 1 'damaged: law 5 at 0, *' sh -c "'$top/xfs' xfs_repair -n '$work/volume.img' $streams"; done
for streams in '>&-' '> /dev/full' '> /dev/full 2>&1'; do trial "a line that can't be written, $streams" 1 '' sh -c "'$top/xfs' xfs_repair -n '$work/volume.img' $streams"; done
trial 'a repair whose line can not be written' 1 '' sh -c "'$top/xfs' xfs_repair '$work/volume.img' >&-"
trial 'is a repair' 0 clean "$top/xfs" xfs_repair "$work/volume.img"
if [ "$(id -u)" = 0 ]; then
  nobody=(setpriv --reuid=65534 --regid=65534 --clear-groups)
  cp "$top/xfs" "$work/links/xfs"
  chmod 755 "$work"
  cp --sparse=always "$work/volume.img" "$work/denied.img"
  chmod 0 "$work/denied.img"
  trial 'a file that may not be read' 1 "xfs: $work/denied.img: Permission denied* / xfs: read fault: 1" "${nobody[@]}" "$work/links/xfs" xfs_repair "$work/denied.img"
  chmod 444 "$work/denied.img"
  trial 'a file that may only be read' 1 'xfs: write fault after 0 blocks' "${nobody[@]}" "$work/links/xfs" mkfs.xfs -f "$work/denied.img"
  trial 'as it was' 0 clean "${nobody[@]}" "$work/links/xfs" xfs_repair -n "$work/denied.img"
fi
trial 'words that are refused name no file' 1 'xfs: usage: word 1' "$top/xfs" xfs_repair -q "$work/none"

installed() { make -s -C "$top" -o xfs "$1" DESTDIR="$work/dest" PREFIX=/usr > "$work/make.log" 2>&1; }
trial 'installed' 0 '' installed install
trial 'the installed xfs_repair' 0 clean "$work/dest/usr/sbin/xfs_repair" "$work/volume.img"
trial 'its links' 0 'xfs / xfs / xfs' readlink "$work/dest/usr/sbin/xfs_repair" "$work/dest/usr/sbin/mkfs.xfs" "$work/dest/usr/sbin/xfs_db"
trial 'its pages' 0 'mkfs.xfs.8 / xfs_db.8 / xfs_repair.8' ls "$work/dest/usr/share/man/man8"
trial 'installed once more' 0 '' installed install
trial 'uninstalled' 0 '' installed uninstall
trial 'no file is left' 0 '' find "$work/dest" ! -type d
touch "$work/dest/usr/sbin/xfs_db"
trial 'another program of that name is not replaced' 2 '' installed install
trial 'nor taken away' 0 "$work/dest/usr/sbin/xfs_db" sh -c "make -s -C '$top' uninstall DESTDIR='$work/dest' PREFIX=/usr; find '$work/dest' ! -type d"

in_use() { # NAME IMAGE STATUS ANSWER: a mounted image is refused by what writes, and read by what reads
  trial "$1: xfs_repair" 1 "xfs: in use: $2" "$top/xfs" xfs_repair "$2"
  trial "$1: xfs_repair -e -w 2" 1 "xfs: in use: $2" "$top/xfs" xfs_repair -e -w 2 "$2"
  trial "$1: mkfs.xfs -f" 1 "xfs: in use: $2" "$top/xfs" mkfs.xfs -f "$2"
  trial "$1: xfs_db -x" 1 "xfs: in use: $2" "$top/xfs" xfs_db -x -c 'agf 0' -c 'write freeblks 5' "$2"
  trial "$1: xfs_repair -n goes on" "$3" "$4" "$top/xfs" xfs_repair -n "$2"
  trial "$1: xfs_db goes on" 0 'agcount = 4' "$top/xfs" xfs_db -c 'sb 0' -c 'print agcount' "$2"
  trial "$1: xfs_db -r -x goes on" 0 'agcount = 4' "$top/xfs" xfs_db -r -x -c 'sb 0' -c 'print agcount' "$2"
}

if [ "$(id -u)" != 0 ] || ! loop=$(losetup -f --show "$work/volume.img"); then
  loop=
  echo 'not tried: what is mounted, which needs root and a loop device'
  exit $failed
fi
trial 'a loop device that is not mounted' 0 clean "$top/xfs" xfs_repair "$loop"
trial 'the image that it stands on' 0 clean "$top/xfs" xfs_repair "$work/volume.img"
mount -o ro,norecovery "$loop" "$work/mnt"
cp --sparse=always "$work/volume.img" "$work/kept"
ln "$work/volume.img" "$work/second.img"
ln -s volume.img "$work/third.img"
in_use 'a mounted device' "$loop" 0 clean
in_use 'an image that is mounted' "$work/volume.img" 0 clean
in_use 'by another name' "$work/second.img" 0 clean
in_use 'by a link' "$work/third.img" 0 clean
unchanged 'the image' "$work/volume.img"
umount "$work/mnt"
trial 'unmounted' 0 clean "$top/xfs" xfs_repair "$work/volume.img"
exit $failed
