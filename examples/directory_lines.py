#!/usr/bin/env python3
"""Prints the directories of an image that have blocks, read by the format alone: a line for each, with its size and where its blocks
stand.

    directory_lines.py IMAGE"""
import sys

image = open(sys.argv[1], "rb").read()
big = lambda at, n: int.from_bytes(image[at : at + n], "big")
agblocks, agcount, log = big(84, 4), big(88, 4), big(124, 1)


def place(fsblock):
    return (fsblock >> log) * agblocks + (fsblock & (1 << log) - 1)


def extents(at, count):
    for k in range(count):
        number = big(at + 16 * k, 16)
        yield number >> 73 & (1 << 54) - 1, number >> 21 & (1 << 52) - 1, number & (1 << 21) - 1


def below(block):
    at = 4096 * place(block)
    count = big(at + 6, 2)
    if big(at + 4, 2) == 0:
        yield from extents(at + 72, count)
        return
    for k in range(count):
        yield from below(big(at + 72 + 8 * ((4096 - 72) // 16) + 8 * k, 8))


def fork(at):
    if image[at + 5] == 2:
        yield from extents(at + 176, big(at + 76, 4))
        return
    most = ((8 * image[at + 82] or 336) - 4) // 16
    for k in range(big(at + 178, 2)):
        yield from below(big(at + 180 + 8 * most + 8 * k, 8))


print(sys.argv[1])
for ag in range(agcount):
    for slot in range(8 * agblocks):
        at = 4096 * ag * agblocks + 512 * slot
        if at + 512 > len(image) or image[at : at + 2] != b"IN" or big(at + 2, 2) & 0xF000 != 0x4000 or image[at + 5] not in (2, 3):
            continue
        ino = (ag << log + 3) + slot
        if big(at + 152, 8) != ino:
            continue
        blocks = [f"{first + k}:{place(start) + k}" for first, start, count in fork(at) for k in range(count)]
        print(ino, big(at + 56, 8), *blocks)
