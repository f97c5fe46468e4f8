"""Large compound files ([MS-CFB], version 3 or 4), for bench/compound: compound_file.py KIND [SIZE] > FILE

stream SIZE      one stream `Workbook` of so many bytes, its sectors one after the other
backwards SIZE   the same, each sector before the one that it follows
entries COUNT    so many streams of one byte in the root, in a balanced tree
right COUNT      the same in one chain of right siblings
version4 SIZE    as stream, with sectors of 4,096 bytes
"""

import struct
import sys
from pathlib import Path

sys.path.append(str(Path(__file__).parent.parent / "tools"))
from cfb import END, FAT, FREE, NONE, entry_bytes, padded  # noqa: E402

DIFAT = 0xFFFFFFFC


def stream_bytes(size):
    return (b"0123456789abcdef" * (size // 16 + 1))[:size]


def balanced(first, last):
    """The root of a balanced tree over the numbers first to last, and (left, right) of each."""
    links = {}

    def root_of(first, last):
        if first > last:
            return NONE
        middle = (first + last) // 2
        links[middle] = (root_of(first, middle - 1), root_of(middle + 1, last))
        return middle

    return root_of(first, last), links


def compound_file(entries, large, mini, shift, backwards=False):
    """A file of these directory entries; entry 1 may be the one large stream, the others lie in the mini stream."""
    sector = 1 << shift
    table, body = [], []

    def put(data, turned=False):
        data = padded(data, sector)
        count, first = len(data) // sector, len(table)
        pieces = [data[i : i + sector] for i in range(0, len(data), sector)]
        if turned:
            table.extend([END] + [first + i for i in range(count - 1)])
            body.extend(reversed(pieces))
            return first + count - 1
        table.extend([first + i + 1 for i in range(count - 1)] + [END])
        body.extend(pieces)
        return first

    start = put(large, backwards) if large else END
    mini_start = put(mini) if mini else END
    mini_count = -(-len(mini) // 64)
    mini_fat = put(struct.pack(f"<{mini_count}I", *[END] * mini_count)) if mini else END
    listed = entries(start, mini_start)
    directory = put(b"".join(listed))
    fats = difats = 0
    per_fat, per_difat = sector // 4, sector // 4 - 1
    while True:
        need = -(-(len(table) + fats + difats) // per_fat)
        more = max(0, -(-(need - 109) // per_difat))
        if (need, more) == (fats, difats):
            break
        fats, difats = need, more
    first_fat, first_difat = len(table), len(table) + fats
    table.extend([FAT] * fats + [DIFAT] * difats)
    table.extend([FREE] * (fats * per_fat - len(table)))
    body.append(struct.pack(f"<{len(table)}I", *table))
    numbers = [first_fat + i for i in range(fats)]
    for i in range(difats):
        block = numbers[109 + i * per_difat : 109 + (i + 1) * per_difat]
        block += [FREE] * (per_difat - len(block))
        block.append(first_difat + i + 1 if i + 1 < difats else END)
        body.append(struct.pack(f"<{len(block)}I", *block))
    header = bytes.fromhex("D0CF11E0A1B11AE1") + bytes(16)
    header += struct.pack("<HHHHH6x", 0x3E, 3 if shift == 9 else 4, 0xFFFE, shift, 6)
    header += struct.pack("<IIIII", 0, fats, directory, 0, 0x1000)
    header += struct.pack("<IIII", mini_fat, -(-mini_count * 4 // sector), first_difat if difats else END, difats)
    header += struct.pack("<109I", *numbers[:109], *[FREE] * (109 - len(numbers[:109])))
    return padded(header, sector) + b"".join(body)


def one_stream(size, shift=9, backwards=False):
    def entries(start, mini_start):
        root = entry_bytes("Root Entry", 5, 1, NONE, NONE, END, 0)
        return [root, entry_bytes("Workbook", 2, NONE, NONE, NONE, start, size)]

    return compound_file(entries, stream_bytes(size), b"", shift, backwards)


def many_entries(count, chain=False):
    root, links = (1, {i: (NONE, i + 1 if i < count else NONE) for i in range(1, count + 1)}) if chain else balanced(1, count)

    def entries(start, mini_start):
        yield entry_bytes("Root Entry", 5, root, NONE, NONE, mini_start, 64 * count)
        for i in range(1, count + 1):
            yield entry_bytes(f"s{i:07}", 2, NONE, *links[i], i - 1, 1)

    return compound_file(entries, b"", bytes(64 * count), 9)


KINDS = {
    "stream": one_stream,
    "backwards": lambda size: one_stream(size, backwards=True),
    "version4": lambda size: one_stream(size, shift=12),
    "entries": many_entries,
    "right": lambda count: many_entries(count, chain=True),
}

if __name__ == "__main__":
    sys.setrecursionlimit(10000)
    sys.stdout.buffer.write(KINDS[sys.argv[1]](int(sys.argv[2])))
