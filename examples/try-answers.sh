#!/usr/bin/env bash
# Brings about every answer of README's table with the program itself, on volumes of its own and of mkfs.xfs of xfsprogs, and compares line
# and status. What the system refuses only now and then is refused by strace; what needs a volume past the limits is played by
# xfs_cases in memory (an inode too many, a group, a directory and lost+found without room), what needs a mounted device is tried by
# try-program.sh (`in use`).
# Needs xfsprogs, strace and ./xfs. Prints a line for each answer; ends with 1 where one is another.
#
#   examples/try-answers.sh
set -eu
top=$(cd "$(dirname "$0")/.." && pwd)
xfs=$top/xfs
work=$(mktemp -d)
trap 'rm -rf "$work"' EXIT
cd "$work"
failed=0

answer() { # STATUS PATTERN COMMAND..: what a command prints, with / between its lines, and its status
  local status=$1 pattern=$2 said got=0
  shift 2
  said=$("$@" 2>&1 < /dev/null) || got=$?
  said=${said//$'\n'/ \/ }
  if [[ $got = "$status" && $said == $pattern ]]; then printf '%-62s %s\n' "$said" "$got"; else
    printf '%s (%s), due is %s (%s): %s\n' "$said" "$got" "$pattern" "$status" "$*"
    failed=1
  fi
}
refusing() { # CALL WHICH ERROR COMMAND..: a command of which the system refuses a call, from the WHICH-th on
  local call=$1 which=$2 error=$3
  shift 3
  strace -qqq -f -o /dev/null -e trace="$call" -e inject="$call:error=$error:when=$which+" "$@"
}
volume() { # FILE: a volume of 128 MiB
  rm -f "$1"; truncate -s 128M "$1"; "$xfs" mkfs.xfs -q -l size=8m "$1"
}
zeros() { # FILE BLOCK BYTE COUNT: zeros in a block
  dd if=/dev/zero of="$1" bs=1 seek=$(($2 * 4096 + $3)) count="$4" conv=notrunc status=none
}

# mkfs.xfs
truncate -s 128M new.img
answer 0 'made: blocks=32768 groups=4 log=16390+2048 root=128 uuid=*' "$xfs" mkfs.xfs -l size=8m new.img
answer 1 'xfs: has a volume' "$xfs" mkfs.xfs new.img
answer 0 '' "$xfs" mkfs.xfs -fq new.img
answer 1 'xfs: bad option: word 2 item 2' "$xfs" mkfs.xfs -d agcount=2,what=3 new.img
answer 1 'xfs: too small: 1' "$xfs" mkfs.xfs -f -d size=1g new.img
answer 1 'xfs: too small: 2' "$xfs" mkfs.xfs -f -d agcount=500 new.img
answer 1 'xfs: too small: 3' "$xfs" mkfs.xfs -f -l size=4k new.img
printf 'x 0 0 d--755 0 0 a ---644 0 0 none $\n' > lacks.proto
printf 'x 0 0 d--755 0 0\na ---644 0 0 lacks.proto\n$\n' > one.proto
printf 'x 0 0 d--755 0 0\na ---648 0 0 none\n$\n' > bad.proto
answer 1 'xfs: no file: line 0' "$xfs" mkfs.xfs -f -p none new.img
answer 1 'xfs: no file: line 1' "$xfs" mkfs.xfs -f -p lacks.proto new.img
answer 1 'xfs: bad protofile: line 2 reason 2' "$xfs" mkfs.xfs -f -p bad.proto new.img
answer 1 'xfs: library fault' "$xfs" mkfs.xfs -f -p . new.img
answer 0 'made: blocks=32768 *' "$xfs" mkfs.xfs -f -p one.proto new.img
answer 0 clean "$xfs" xfs_repair -n new.img
answer 0 'made: blocks=32768 * / generated: files=3 directories=1 / damaged: block=3 / repaired: blocks=* kept=7 cleared=0 orphans=0' "$xfs" mkfs.xfs -f -l size=8m -G 3 new.img
answer 0 'generated: files=1 directories=1 / damaged: block=3 / repaired: blocks=* kept=5 cleared=0 orphans=0' "$xfs" mkfs.xfs -fq -G 1 new.img
answer 0 clean "$xfs" xfs_repair -n new.img
answer 1 'xfs: usage: word 1' "$xfs" mkfs.xfs -Z new.img

# xfs_repair
volume v.img
answer 0 clean "$xfs" xfs_repair v.img
zeros v.img 8192 0 1
answer 1 'damaged: part 10 at 1' "$xfs" xfs_repair -n v.img
cp v.img again.img
answer 0 'repaired: backups=1' "$xfs" xfs_repair v.img
answer 4 'repaired: backups=1' "$xfs" xfs_repair -e again.img
zeros v.img 0 512 4
answer 1 'damaged: part 1 at 0' "$xfs" xfs_repair -n v.img
answer 0 'repaired: blocks=* kept=3 cleared=0 orphans=0' "$xfs" xfs_repair v.img
answer 0 clean "$xfs" xfs_repair v.img
# an inode in use that no entry names
"$xfs" xfs_db -x -c 'inode 131' -c 'write mode 0x8000' -c 'write format 2' v.img > /dev/null
answer 1 'damaged: law 4 at 0, held *, due *' "$xfs" xfs_repair -n v.img
answer 0 'repaired: blocks=* kept=5 cleared=0 orphans=1' "$xfs" xfs_repair v.img
answer 0 clean "$xfs" xfs_repair v.img
volume v.img
"$xfs" xfs_db -x -c 'agf 0' -c 'write freeblks 5' v.img > /dev/null
answer 1 'damaged: law 5 at 0, held 5, due *' "$xfs" xfs_repair -n v.img
answer 1 'xfs: freeblks of the AGF of group 0: held 5, due *; usually * / damaged: law 5 at 0, held 5, due *' "$xfs" xfs_repair -nv v.img
answer 0 'xfs: freeblks of the AGF of group 0: held 5, due *; usually * / repaired: blocks=* kept=3 cleared=0 orphans=0' "$xfs" xfs_repair -v -v v.img
volume v.img
zeros v.img 16390 0 512
answer 2 'xfs: dirty log' "$xfs" xfs_repair v.img
answer 0 'repaired: blocks=* kept=3 cleared=0 orphans=0' "$xfs" xfs_repair -L v.img
answer 0 clean "$xfs" xfs_repair v.img
truncate -s 128M zeros.img
answer 1 'xfs: no geometry' "$xfs" xfs_repair zeros.img
truncate -s 400M theirs.img
mkfs.xfs -q -f theirs.img
answer 1 'xfs: unsupported: word * bits 0x*' "$xfs" xfs_repair theirs.img
mkfs.xfs -q -f -m crc=1,finobt=1,rmapbt=1,reflink=0,bigtime=0,inobtcount=0 -i size=512,sparse=1,nrext64=0 -s size=512 theirs.img
xfs_db -x -c 'inode 128' -c 'attr_set -v 3500 long' theirs.img > /dev/null
answer 1 'xfs: unsupported: inode 128 feature 2' "$xfs" xfs_repair theirs.img

# what the system refuses
volume v.img
answer 1 'xfs: none.img: No such file or directory* / xfs: read fault: 1' "$xfs" xfs_repair none.img
answer 1 'xfs: read fault: 1' refusing read 20 EIO "$xfs" xfs_repair v.img
zeros v.img 8192 0 1
answer 1 'xfs: write fault after 0 blocks' refusing fsync 1 EIO "$xfs" xfs_repair v.img
answer 1 'xfs: no random numbers' refusing getrandom 1 ENOSYS "$xfs" xfs_repair v.img
limit=2000 # KiB: the least with which the program begins
until bash -c "ulimit -v $limit; '$xfs' mkfs.xfs" 2>&1 | grep -q '^xfs: usage' || ((limit > 100000)); do limit=$((limit + 50)); done
# (what is read ahead of a file stands on the stack, which has to be there)
answer 1 'xfs: no memory' bash -c "ulimit -v $((limit + 700)); '$xfs' xfs_repair v.img"
answer 1 'xfs: usage: word 0' "$xfs" mount v.img
answer 1 '' bash -c "'$xfs' xfs_repair v.img > /dev/full"

# xfs_db
answer 0 '' "$xfs" xfs_db v.img
answer 1 'xfs: input fault' bash -c "'$xfs' xfs_db v.img < /"
answer 1 'xfs: input too long' bash -c "head -c 1048577 /dev/zero | '$xfs' xfs_db v.img"
exit $failed
