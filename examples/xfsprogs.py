"""How xfs_db of xfsprogs writes what it prints."""
import calendar
import os
import re
import time

# the environment in which it is run, so that times are those of one zone
ENV = dict(os.environ, TZ="UTC", LC_ALL="C")
# fields of an inode that have another name there
RENAMED = {"nlinkv2": "nlink", "naextents": "anextents", "change_count": "changecount", "inumber": "ino"}
# the flags of an inode, each a field of its own there, from bit 0 on
FLAGS = ["realtime", "prealloc", "newrtbm", "immutable", "append", "sync", "noatime", "nodump", "rtinherit", "projinherit",
         "nosymlinks", "extsz", "extszinherit", "nodefrag", "filestream"]


def number(text):
    """The number of a value in decimal, hexadecimal or octal, without what stands in brackets behind it."""
    word = text.split(" ")[0]
    if word.startswith("0x"):
        return int(word, 16)
    if re.fullmatch(r"0[0-7]+", word):
        return int(word, 8)
    return int(word)


def seconds(text):
    """The seconds of a time, as they stand in the upper half of its eight bytes."""
    return (calendar.timegm(time.strptime(text.strip(), "%a %b %d %H:%M:%S %Y")) % 2**32) << 32
