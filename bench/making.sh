#!/usr/bin/env bash
# Measures `xfs mkfs.xfs` beside mkfs.xfs of xfsprogs over sparse files of 1 GiB and 16 GiB, each new, and with 20,000 files of a protofile
# in 400 MiB: wall time, time of the processors and peak memory, the best of five runs in turn, and the three ratios. Needs xfsprogs, GNU
# time and ./xfs.
#
#   bench/making.sh
set -eu
top=$(cd "$(dirname "$0")/.." && pwd)
work=$(mktemp -d)
trap 'rm -rf "$work"' EXIT
. "$top/examples/volumes.sh"
measure() { # COMMAND..: seconds, seconds of the processors and KiB of one run
  /usr/bin/time -f '%e %U %S %M' -o "$work/time" "$@" > "$work/out" 2>&1
  tail -1 "$work/time" | awk '{ print $1, $2 + $3, $4 }'
}
fresh() { rm -f "$work/image"; truncate -s "$1" "$work/image"; }
many 20000 > "$work/proto"
for row in '1G 4' '16G 64' "400M 4 -p $work/proto"; do
  read -r size groups proto <<< "$row"
  : > "$work/ours"
  : > "$work/theirs"
  for turn in 1 2 3 4 5; do
    fresh "$size"
    measure "$top/xfs" mkfs.xfs -q -d "agcount=$groups" $proto "$work/image" >> "$work/ours"
    fresh "$size"
    measure mkfs.xfs -q -f -K -d "agcount=$groups" -m crc=1,finobt=1,rmapbt=1,reflink=0,bigtime=0,inobtcount=0 \
      -i size=512,sparse=1,nrext64=0 -s size=512 $proto "$work/image" >> "$work/theirs"
  done
  echo "$size, $groups groups${proto:+, 20,000 files}"
  paste -d ' ' "$work/ours" "$work/theirs" | awk -f "$top/bench/beside.awk"
done
