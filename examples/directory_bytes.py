"""Bytes of XFS directories by the on-disk format alone, with nothing of this project: a directory of given entries in the first form that
fits, short, one block, leaf or node."""
import struct

from volume_bytes import BLOCK, UUID, filled, sealed

# where the blocks of data, of the index and of free space stand in a directory, in file blocks
DATA, INDEX, FREE = 0, 0x800000, 0x1000000
PIPE, FOLDER, REGULAR = 5, 2, 1


def rolled(word, by):
    return (word << by | word >> 32 - by) & 0xffffffff


def hash_of(name):
    word, rest = 0, name
    while len(rest) >= 4:
        word = rest[0] << 21 ^ rest[1] << 14 ^ rest[2] << 7 ^ rest[3] ^ rolled(word, 28)
        rest = rest[4:]
    for place, byte in enumerate(reversed(rest)):
        word = (rolled(word, 7 * len(rest)) if place == 0 else word) ^ byte << 7 * place
    return word


assert [hash_of(name) for name in (b"a", b"..", b"abcd", b"lost+found")] == [0x61, 0x172e, 0x0c38b1e4, 0x021aa60c]


def room_of(name):
    return (8 + 1 + len(name) + 1 + 2 + 7) // 8 * 8


def short_form(entries, parent, room):
    """The short form, where it fits that room, else None."""
    if 6 + sum(8 + len(name) for name, _, _ in entries) > room:
        return None
    offset, body = 96, b""
    for name, target, ftype in entries:
        body += struct.pack(">BH", len(name), offset) + name + struct.pack(">BI", ftype, target)
        offset += room_of(name)
    return struct.pack(">BBI", len(entries), 0, parent) + body if offset + 8 * (len(entries) + 2) + 8 <= BLOCK else None


def entry(name, target, ftype, tag):
    fill = bytes(room_of(name) - (8 + 1 + len(name) + 1 + 2))
    return struct.pack(">QB", target, len(name)) + name + bytes([ftype]) + fill + struct.pack(">H", tag)


def spread(entries, end):
    """The entries shared out over data blocks that end there: for each block its bytes behind the header, where what is unused begins,
    and the pairs of hash and address of the index."""
    blocks, pairs, place, body = [], [], 64, b""
    for name, target, ftype in entries:
        if place + room_of(name) > end:
            blocks.append((body, place))
            place, body = 64, b""
        pairs.append((hash_of(name), (len(blocks) * BLOCK + place) // 8))
        body += entry(name, target, ftype, place)
        place += room_of(name)
    return blocks + [(body, place)], pairs


def data_block(magic, body, place, end, tail=b""):
    """A data block without place and owner, whose unused span is what stands between its entries and the end."""
    fields = [(0, 4, magic), (64, 0, body), (end, 0, tail)]
    if place < end:
        fields += [(48, 0, struct.pack(">HH", place, end - place)), (place, 0, struct.pack(">HH", 0xffff, end - place)), (end - 2, 2, place)]
    return filled(BLOCK, fields)


def shares(items, most):
    """Cut into as few parts as hold so many each; their sizes differ by at most one, the larger ones first."""
    count = -(-len(items) // most)
    size, more = divmod(len(items), count)
    ends = [size * i + min(i, more) for i in range(count + 1)]
    return [items[a:b] for a, b in zip(ends, ends[1:])]


def index_block(magic, pairs, level=0, siblings=(0, 0), tail=b""):
    words = b"".join(struct.pack(">II", *pair) for pair in pairs)
    return filled(BLOCK, [(0, 4, siblings[0]), (4, 4, siblings[1]), (8, 2, magic), (56, 2, len(pairs)), (58, 2, level), (64, 0, words),
                          (BLOCK - len(tail), 0, tail)])


def tree_of(pairs):
    """The blocks of a tree of at most one node over leaves, the root first."""
    leaves = shares(pairs, 504)
    if len(leaves) == 1:
        return [index_block(0x3dff, pairs)]
    at = [INDEX + 1 + i for i in range(len(leaves))]
    beside = list(zip(at[1:] + [0], [0] + at[:-1]))
    assert len(leaves) <= 504
    node = index_block(0x3ebe, [(leaf[-1][0], place) for leaf, place in zip(leaves, at)], 1)
    return [node] + [index_block(0x3dff, leaf, 0, siblings) for leaf, siblings in zip(leaves, beside)]


def build(ino, parent, entries, room=336):
    """A directory in the first form that fits: its short form, or None, and its blocks of data, index and free space, without places."""
    short = short_form(entries, parent, room)
    if short:
        return short, [], [], []
    listed = [(b".", ino, FOLDER), (b"..", parent, FOLDER)] + entries
    end = BLOCK - 8 - 8 * len(listed)
    blocks, pairs = spread(listed, end) if end > 64 else ([None, None], [])
    if len(blocks) == 1:
        (body, place), = blocks
        tail = b"".join(struct.pack(">II", *pair) for pair in sorted(pairs)) + struct.pack(">II", len(pairs), 0)
        return None, [data_block(0x58444233, body, place, end, tail)], [], []
    blocks, pairs = spread(listed, BLOCK)
    data = [data_block(0x58444433, body, place, BLOCK) for body, place in blocks]
    longest = [struct.pack(">H", BLOCK - place) for _, place in blocks]
    if 64 + 8 * len(pairs) + 2 * len(data) + 4 <= BLOCK:
        tail = b"".join(longest) + struct.pack(">I", len(data))
        return None, data, [index_block(0x3df1, sorted(pairs), tail=tail)], []
    free = filled(BLOCK, [(0, 4, 0x58444633), (52, 4, len(data)), (56, 4, len(data)), (64, 0, b"".join(longest))])
    return None, data, tree_of(sorted(pairs)), [free]


def placed(block, place, ino):
    """A block of a directory with its own address, identifier and owner, sealed."""
    if block[8:10] in (b"\x3d\xf1", b"\x3d\xff", b"\x3e\xbe"):
        return sealed(filled(BLOCK, [(0, 0, block), (16, 8, 8 * place), (32, 16, UUID), (48, 8, ino)]), 12)
    return sealed(filled(BLOCK, [(0, 0, block), (8, 8, 8 * place), (24, 16, UUID), (40, 8, ino)]), 4)
