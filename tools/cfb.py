"""Compound files ([MS-CFB], version 3), as few bytes as they need: for tests and samples."""

import struct

SECTOR, MINI, CUTOFF = 512, 64, 4096
FREE, END, FAT, DIFAT = 0xFFFFFFFF, 0xFFFFFFFE, 0xFFFFFFFD, 0xFFFFFFFC
NONE = 0xFFFFFFFF


def padded(data, size):
    return data + bytes(-len(data) % size)


def chain(first, count):
    """The entries of a table for a chain of so many sectors."""
    return [first + i + 1 for i in range(count - 1)] + [END] if count else []


def compound_file(children):
    """The bytes of a compound file whose root has these streams (bytes) and storages (dicts)."""
    entries, mini, small, large = [], b"", [], []

    def add(name, kind, child=NONE, start=END, size=0):
        entries.append([name, kind, child, NONE, NONE, start, size])
        return len(entries) - 1

    def fill(children):
        """Adds the entries of a storage, and gives its tree's root: a chain to the right, in order."""
        nonlocal mini
        places = []
        for name in sorted(children, key=lambda n: (len(n), n.upper())):
            data = children[name]
            if isinstance(data, dict):
                place = add(name, 1)
                entries[place][2] = fill(data)
            elif len(data) < CUTOFF:
                place = add(name, 2, start=len(mini) // MINI if data else END, size=len(data))
                small.extend(chain(len(mini) // MINI, -(-len(data) // MINI)))
                mini += padded(data, MINI)
            else:
                place = add(name, 2, size=len(data))
                large.append((place, data))
            places.append(place)
        for one, other in zip(places, places[1:]):
            entries[one][4] = other
        return places[0] if places else NONE

    root = add("Root Entry", 5)
    entries[root][2] = fill(children)
    while len(entries) % 4:
        add("", 0)

    # the parts after the header, each from a sector on: directory, small table, small sectors, streams
    body, table = b"", []

    def put(data):
        nonlocal body
        first = len(table)
        table.extend(chain(first, -(-len(data) // SECTOR)))
        body += padded(data, SECTOR)
        return first if data else END

    small_bytes = struct.pack(f"<{len(small)}I", *small)
    small_bytes += b"\xff" * (-len(small_bytes) % SECTOR)
    directory = put(bytes(128 * len(entries)))
    small_table = put(small_bytes)
    entries[root][5], entries[root][6] = put(mini), len(mini)
    for place, data in large:
        entries[place][5] = put(data)

    # the sectors of the table itself: the header lists 109 of them, each sector more of the list 127
    count, lists = 1, 0
    while len(table) + count + lists > count * SECTOR // 4:
        count += 1
        lists = -(-max(count - 109, 0) // 127)
    first_fat = len(table)
    first_list = first_fat + count
    table.extend([FAT] * count + [DIFAT] * lists)
    table.extend([FREE] * (count * SECTOR // 4 - len(table)))
    body += struct.pack(f"<{len(table)}I", *table)
    fats = [first_fat + i for i in range(count)]
    for number in range(lists):
        part = fats[109 + 127 * number :][:127]
        after = first_list + number + 1 if number + 1 < lists else END
        body += struct.pack("<128I", *part, *[FREE] * (127 - len(part)), after)

    listed = b"".join(entry_bytes(*entry) for entry in entries)
    body = body[: directory * SECTOR] + listed + body[directory * SECTOR + len(listed) :]
    header = bytes.fromhex("D0CF11E0A1B11AE1") + bytes(16)
    header += struct.pack("<HHHHH6x", 0x3E, 3, 0xFFFE, 9, 6)
    header += struct.pack("<IIIIIII", 0, count, directory, 0, CUTOFF, small_table, len(small_bytes) // SECTOR)
    header += struct.pack("<II", first_list if lists else END, lists)
    header += struct.pack("<109I", *fats[:109], *[FREE] * (109 - count))
    return header + body


def entry_bytes(name, kind, child, left, right, start, size):
    text = name.encode("utf-16-le") + b"\0\0" if name else b""
    entry = text.ljust(64, b"\0") + struct.pack("<HBB", len(text), kind, 1)
    entry += struct.pack("<III", left, right, child) + bytes(36)
    return entry + struct.pack("<IQ", start if kind else 0, size)
