# For scripts that have mkfs.xfs of xfsprogs make volumes in the profile, or break such volumes; they set "$work", a folder of their own.

# a protofile of directories of every form: short, one block, with one index block, with a tree of them; files of some
# sizes, links with short and long targets, devices, pipes
protofile() { # COUNT: the names in the largest directory
  head -c 10000 /dev/urandom > "$work/bytes"
  : > "$work/empty"
  printf 'x 0 0\nd--755 0 0\n'
  printf 'bytes ---644 3 4 %s\nempty ---600 0 0 %s\n' "$work/bytes" "$work/empty"
  printf 'short l--777 0 0 bytes\nlong l--777 0 0 %s\n' "$(printf 'd/%.0s' $(seq 1 160))"
  printf 'pipe p--600 0 0\nblock b--600 0 0 8 1\ncharacter c--600 0 0 5 1\nset -ug755 1 1 %s\n' "$work/empty"
  local count name file
  for count in 0 3 24 60 400 "$1"; do
    printf 'names%d d--755 0 0\n' "$count"
    for ((name = 0; name < count; name++)); do
      if ((name % 50)); then file=$work/empty; else file=$work/bytes; fi
      printf 'file-%06d-of-a-directory ---644 0 0 %s\n' "$name" "$file"
    done
    printf '$\n'
  done
  printf 'deep d--755 0 0\n'
  for name in 1 2 3 4 5 6 7 8; do printf 'd%d d--755 0 0\n' "$name"; done
  for name in 1 2 3 4 5 6 7 8; do printf '$\n'; done
  printf '$\n$\n'
}
make_image() { # IMAGE SIZE PROTOFILE OPTION..
  local image=$1 size=$2 proto=$3
  shift 3
  rm -f "$image"
  truncate -s "$size" "$image"
  mkfs.xfs -q -f -m crc=1,finobt=1,rmapbt=1,reflink=0,bigtime=0,inobtcount=0 -i size=512,sparse=1,nrext64=0 -s size=512 \
    ${proto:+-p "$proto"} "$@" "$image" > /dev/null
}
# "$work/volume.img" is an image then, which may be packed by zstd
unpack() { # IMAGE|IMAGE.zst
  case $1 in
  *.zst) zstd -dqf --sparse "$1" -o "$work/volume.img" ;;
  *) cp --sparse=always "$1" "$work/volume.img" ;;
  esac
  chmod u+w "$work/volume.img"
}
zeroed() { # IMAGE COMMAND..: its block to which xfs_db goes by these commands
  local image=$1 block
  shift
  block=$(xfs_db -r "$@" -c daddr "$image" | sed 's/.* //')
  dd if=/dev/zero of="$image" bs=512 seek="$block" count=8 conv=notrunc status=none
}
# gives each path two attributes, the second too long to stand in its inode
attributes() { # IMAGE PATH..
  local image=$1 path inode
  shift
  for path in "$@"; do
    inode=$(xfs_db -r -c "path $path" -c 'print v3.inumber' "$image" | sed 's/.*= //')
    xfs_db -x -c "inode $inode" -c 'attr_set -v 20 few' -c 'attr_set -v 300 many' "$image" > /dev/null
  done
}
# largest.img has a directory of many names, groups.img 16 groups, attributes.img two groups and attributes of both forms
three_volumes() { # COUNT: the names in the largest directory
  protofile "$1" > "$work/proto"
  make_image "$work/largest.img" 600M "$work/proto"
  protofile 2000 > "$work/proto"
  make_image "$work/groups.img" 2G "$work/proto" -d agcount=16
  protofile 700 > "$work/proto"
  make_image "$work/attributes.img" 300M "$work/proto" -d agcount=2
  attributes "$work/attributes.img" / /bytes /names3 /names24 /names60 /names400 /names700 /deep /deep/d1
}
# a protofile of files of some blocks, 100 in a directory; their bytes stand in $work
many() { # COUNT
  head -c 3000 /dev/urandom > "$work/few"
  head -c 9000 /dev/urandom > "$work/more"
  awk -v count="$1" -v work="$work" 'BEGIN {
    print "x 0 0\nd--755 0 0"
    for (file = 0; file < count; file++) {
      if (file % 100 == 0) printf "directory%d d--755 0 0\n", file / 100
      printf "file%d ---644 0 0 %s/%s\n", file, work, file % 10 ? "few" : "more"
      if (file % 100 == 99) print "$"
    }
    print "$"
  }'
}
