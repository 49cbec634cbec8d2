# Sourced by scripts that damage copies of a volume and repair them; they set "$top", "$work" and failed=0. Needs xfsprogs.
# A repair has to leave a clean volume, one that xfs_repair of xfsprogs finds nothing in, with all files as they were, or, where a file or a
# name is lost, with those that are due then; or it says that an inode is not supported, and leaves the image as it is.
salvaged() { # NAME IMAGE LINES [LOST]: LINES is what volume_files.py printed of the volume before it was damaged, LOST a damage of renamed_files.py
  local said again theirs=0 wrong=
  cp --sparse=always "$2" "$work/before.img"
  said=$("$top/xfs" xfs_repair "$2" 2>&1) || true
  # a log that is not clean is dropped
  if [ "$said" = 'xfs: dirty log' ]; then said=$("$top/xfs" xfs_repair -L "$2" 2>&1) || true; fi
  case $said in
  repaired:*)
    again=$("$top/xfs" xfs_repair "$2" 2>&1) || true
    [ "$again" = clean ] || wrong="$wrong; then $again"
    xfs_repair -n "$2" > "$work/theirs.log" 2>&1 || theirs=$?
    [ "$theirs" = 0 ] || wrong="$wrong; xfs_repair of xfsprogs ends with $theirs: $(grep -m 1 -E 'would|bad|error' "$work/theirs.log")"
    if [ $# -gt 3 ]; then
      "$top/examples/renamed_files.py" compare "$work/volume.img" "$2" "$4" > "$work/compared" 2>&1 || wrong="$wrong; files differ: $(sed -n 2p "$work/compared")"
    else
      "$top/examples/volume_files.py" "$2" > "$work/now.lines" 2>&1 || true
      cmp -s "$work/now.lines" "$3" || wrong="$wrong; files differ: $(diff "$3" "$work/now.lines" | sed -n 2p)"
    fi
    ;;
  'xfs: unsupported: inode '* | clean) cmp -s "$work/before.img" "$2" || wrong='; the image was written' ;;
  *) wrong='; it was not repaired, and is told otherwise' ;;
  esac
  printf '%-58s %s\n' "$1" "$said$wrong"
  [ -z "$wrong" ] || failed=1
}
