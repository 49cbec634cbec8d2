# Sourced by scripts that mount: a folder for what they make, $work, and at most one loop device, $loop; both are given up at the end.
work=$(mktemp -d)
loop=
leave() {
  if mountpoint -q "$work/mnt"; then umount "$work/mnt"; fi
  if [ -n "$loop" ]; then losetup -d "$loop"; fi
  rm -rf "$work"
}
trap leave EXIT
