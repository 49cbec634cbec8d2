#!/usr/bin/env bash
# Measures `xfs xfs_repair -n` beside `xfs_repair -n` of xfsprogs on each image: wall time, time of the processors and peak
# memory, the best of five runs in turn, and the three ratios. Needs xfsprogs, GNU time and ./xfs.
#
#   bench/checking.sh [-w WORKERS] IMAGE..
set -eu
workers=()
if [ "${1-}" = -w ]; then
  workers=(-w "$2")
  shift 2
fi
top=$(cd "$(dirname "$0")/.." && pwd)
work=$(mktemp -d)
trap 'rm -rf "$work"' EXIT
measure() { # COMMAND..: seconds, seconds of the processors and KiB of one run, whatever its status is; the clock of GNU time is too coarse
  local TIMEFORMAT='%3R %3U %3S'
  { time /usr/bin/time -f '%M' -o "$work/memory" "$@" > "$work/out" 2>&1 || true; } 2> "$work/time"
  awk -v memory="$(tail -1 "$work/memory")" '{ print $1, $2 + $3, memory }' "$work/time"
}
for image in "$@"; do
  cat "$image" > /dev/null
  : > "$work/ours"
  : > "$work/theirs"
  for turn in 1 2 3 4 5; do
    measure "$top/xfs" xfs_repair -n "${workers[@]}" "$image" >> "$work/ours"
    cp "$work/out" "$work/said"
    measure xfs_repair -n -f "$image" >> "$work/theirs"
  done
  echo "$(basename "$image"): $(cat "$work/said")"
  paste -d ' ' "$work/ours" "$work/theirs" | awk -f "$top/bench/beside.awk"
done
