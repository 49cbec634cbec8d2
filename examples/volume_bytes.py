"""Bytes of XFS volumes by the on-disk format alone, with nothing of this project: sealed objects of the small volumes of the tests, and where
two images differ."""
import struct

BLOCK, BLOCKS, AGBLOCKS = 4096, 2048, 1024
UUID = bytes.fromhex("00112233445566778899aabbccddeeff")
ONES = 0xffffffff
FS, LOG, AG, INOBT, INODES = [(1 << 64) - n for n in (3, 4, 5, 6, 7)]
TABLE = []
for n in range(256):
    for _ in range(8):
        n = (n >> 1) ^ (0x82F63B78 if n & 1 else 0)
    TABLE.append(n)


def crc32c(data):
    c = ONES
    for b in data:
        c = TABLE[(c ^ b) & 255] ^ (c >> 8)
    return c ^ ONES


assert crc32c(b"123456789") == 0xe3069283


def sealed(obj, at):
    obj = bytearray(obj)
    obj[at:at + 4] = bytes(4)
    obj[at:at + 4] = struct.pack("<I", crc32c(obj))
    return bytes(obj)


def filled(size, fields):
    obj = bytearray(size)
    for at, width, value in fields:
        obj[at:at + (len(value) if isinstance(value, bytes) else width)] = (
            value if isinstance(value, bytes) else value.to_bytes(width, "big"))
    return bytes(obj)


def superblock(counts, **other):
    icount, ifree, fdblocks = counts
    fields = {
        0: (4, 0x58465342), 4: (4, 4096), 8: (8, BLOCKS), 32: (16, UUID), 48: (8, 1030), 56: (8, 128), 64: (8, 129), 72: (8, 130),
        80: (4, 1), 84: (4, AGBLOCKS), 88: (4, 2), 96: (4, 512), 100: (2, 0xb4a5), 102: (2, 512), 104: (2, 512), 106: (2, 8),
        120: (1, 12), 121: (1, 9), 122: (1, 9), 123: (1, 3), 124: (1, 10), 127: (1, 25), 128: (8, icount), 136: (8, ifree),
        144: (8, fdblocks), 180: (4, 8), 196: (4, 1), 200: (4, 0x18a), 204: (4, 0x18a), 212: (4, 3), 216: (4, 3), 228: (4, 4)}
    for at, value in other.get("changed", {}).items():
        fields[at] = value
    return sealed(filled(512, [(at, w, v) for at, (w, v) in fields.items()]), 224)


def agf(ag, freeblks, longest, flcount, trees=(1, 2, 3, 4, 5)):
    bno, cnt, _, _, owners = trees
    return sealed(filled(512, [
        (0, 4, 0x58414746), (4, 4, 1), (8, 4, ag), (12, 4, AGBLOCKS), (16, 4, bno), (20, 4, cnt), (24, 4, owners), (28, 4, 1), (32, 4, 1),
        (36, 4, 1), (40, 4, 0), (44, 4, flcount - 1 if flcount else 118), (48, 4, flcount), (52, 4, freeblks), (56, 4, longest), (60, 4, 0),
        (64, 16, UUID), (80, 4, 1)]), 216)


def agi(ag, count, freecount, newino, trees=(1, 2, 3, 4, 5)):
    return sealed(filled(512, [
        (0, 4, 0x58414749), (4, 4, 1), (8, 4, ag), (12, 4, AGBLOCKS), (16, 4, count), (20, 4, trees[2]), (24, 4, 1), (28, 4, freecount),
        (32, 4, newino), (36, 4, ONES), (40, 256, b"\xff" * 256), (296, 16, UUID), (328, 4, trees[3]), (332, 4, 1)]), 312)


def agfl(ag, entries):
    return sealed(filled(512, [
        (0, 4, 0x5841464c), (4, 4, ag), (8, 16, UUID),
        (36, 476, b"".join(struct.pack(">I", e) for e in entries + [ONES] * (119 - len(entries))))]), 32)


def leaf(ag, agbno, magic, records):
    return sealed(filled(BLOCK, [
        (0, 4, magic), (4, 2, 0), (6, 2, len(records)), (8, 4, ONES), (12, 4, ONES), (16, 8, 8 * (ag * AGBLOCKS + agbno)),
        (32, 16, UUID), (48, 4, ag), (56, 0, b"".join(records))]), 52)


def rmap(start, count, owner, offset=0):
    return struct.pack(">IIQQ", start, count, owner, offset)


def slot(ino, core=(), fork=b"", free=False):
    fields = [(0, 2, b"IN"), (4, 1, 3), (92, 4, GENERATION), (96, 4, ONES), (152, 8, ino), (160, 16, UUID)]
    if not free:
        fields += [(83, 1, 2)] + [(at, 8, TIME) for at in (32, 40, 48, 144)] + list(core) + [(176, 0, fork)]
    return sealed(filled(512, fields), 100)


GENERATION, TIME = 0, 0


def directory(ino, parent, entries):
    offset, body = 96, b""
    for name, target, ftype in entries:
        body += struct.pack(">BH", len(name), offset) + name + struct.pack(">BI", ftype, target)
        offset += (8 + 1 + len(name) + 1 + 2 + 7) // 8 * 8
    fork = struct.pack(">BBI", len(entries), 0, parent) + body
    return slot(ino, [(2, 2, 0x41ed), (5, 1, 1), (16, 4, 2), (56, 8, len(fork))], fork)


def extent(offset, start, count):
    word = offset << 73 | start << 21 | count
    return word.to_bytes(16, "big")


def regular(ino, place, size=4096, more=(), more_fork=b""):
    fork = extent(0, place, 1)
    return slot(ino, [(2, 2, 0x81a4), (5, 1, 2), (16, 4, 1), (56, 8, size), (64, 8, 1), (76, 4, 1)] + list(more), fork)


def log_blocks(cycle, ahead=2):
    header = filled(512, [
        (0, 4, 0xfeedbabe), (4, 4, cycle), (8, 4, 2), (12, 4, 512), (16, 8, cycle << 32), (24, 8, cycle << 32), (36, 4, ONES),
        (40, 4, 1), (44, 4, 0xb0c0d0d0), (300, 4, 1), (304, 16, UUID), (320, 4, 32768)])
    record = filled(512, [(0, 4, cycle), (4, 4, 8), (8, 0, bytes.fromhex("aa200000 6e55"))])
    rest = filled(512, [(0, 4, cycle - 1)])
    return header + record + rest * (512 * 8 - 2)


def runs_of(blocks):
    """(first block, how many) of ascending blocks."""
    runs = []
    for block in blocks:
        if runs and block == sum(runs[-1]):
            runs[-1] = (runs[-1][0], runs[-1][1] + 1)
        else:
            runs.append((block, 1))
    return runs


def spans(image, unit=16):
    """(block, offset, hexadecimal text) of the runs of bytes other than zero; gaps of fewer than `unit` zeros are kept."""
    for block in range(len(image) // BLOCK):
        data = image[block * BLOCK:(block + 1) * BLOCK]
        if not any(data):
            continue
        at = 0
        while at < BLOCK:
            if data[at] == 0:
                at += 1
                continue
            end = at
            last = at
            while end < BLOCK and end - last <= unit:
                if data[end]:
                    last = end
                end += 1
            yield block, at, bytes(data[at:last + 1]).hex()
            at = last + 1


def reslot(image, ino, fields):
    at = ino * 512  # AG 0 alone
    s = bytearray(image[at:at + 512])
    for offset, width, value in fields:
        data = value if isinstance(value, bytes) else value.to_bytes(width, "big")
        s[offset:offset + len(data)] = data
    image[at:at + 512] = sealed(s, 100)


def difference(old, new):
    """The runs of bytes in which two images differ, neighbours within 4 joined."""
    found = []
    for block in range(len(new) // BLOCK):
        a, b = old[block * BLOCK:(block + 1) * BLOCK], new[block * BLOCK:(block + 1) * BLOCK]
        if a == b:
            continue
        places = [i for i in range(BLOCK) if a[i] != b[i]]
        start = last = places[0]
        for p in places[1:] + [None]:
            if p is not None and p - last <= 4:
                last = p
                continue
            found.append((block, start, bytes(b[start:last + 1]).hex()))
            if p is not None:
                start = last = p
    return found


def differing(old, new, skip=()):
    """Lines `bytes BLOCK OFFSET DIGITS`: what is to be written over `old` so that it is `new`."""
    found = []
    for block in range(len(new) // BLOCK):
        a, b = old[block * BLOCK:(block + 1) * BLOCK], new[block * BLOCK:(block + 1) * BLOCK]
        if a == b or block in skip:
            continue
        words = [i for i in range(0, BLOCK, 4) if a[i:i + 4] != b[i:i + 4]]
        runs = []
        for w in words:
            if runs and w - runs[-1][1] <= 8 and w + 4 - runs[-1][0] <= 64:
                runs[-1][1] = w + 4
            else:
                runs.append([w, w + 4])
        for start, end in runs:
            found.append(f"bytes {block} {start} {bytes(b[start:end]).hex()}")
    return found


def lines(old, new, skip=()):
    for line in differing(old, new, skip):
        print(line)
