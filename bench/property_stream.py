#!/usr/bin/env python3
"""Writes a document stream ([MS-OLEPS]) of about so many bytes, whose custom properties are made to cost time:

    bench/property_stream.py KIND BYTES

    entries      entries of one number, over a text of half the bytes
    valueless    two names of a third of the bytes each that differ in their last letter, and entries of one that have no value
    numbers      numbers of one name, over a text of half the bytes
    names        names of one number
    prefixes     1,000 long names that differ in their last letters
    properties   names and values, each of its own
    shared       names over one text of all the bytes, ten for each 1,000,000: what is written grows by the square"""

import struct
import sys

CUSTOM = bytes.fromhex("05d5cdd59c2e1b10939708002b2cf9ae")


def text(length):
    """A value: bytes in the page (VT_LPSTR)."""
    return struct.pack("<II", 0x1E, length) + b"x" * length


def stream(names, entries, values):
    """The names by their numbers, and the entries by number and place in the values."""
    head = 8 + 8 * (len(entries) + 2)
    page = head + len(values)
    places = [(1, page), (0, page + 8)] + [(number, head + place) for number, place in entries]
    body = [struct.pack("<II", *place) for place in places]
    body += [values, struct.pack("<II", 2, 1252), struct.pack("<I", len(names))]
    body += [struct.pack("<II", number, len(name)) + name for number, name in names]
    section = b"".join([struct.pack("<I", len(places)), *body])
    header = b"\xfe\xff" + bytes(22) + struct.pack("<I", 1) + CUSTOM + struct.pack("<I", 48)
    return header + struct.pack("<I", len(section) + 4) + section


def made(kind, size):
    half, third = size // 2, size // 3
    if kind == "entries":
        return stream([(2, b"A")], [(2, 0)] * (half // 8), text(half))
    if kind == "valueless":
        names = [(2, b"n" * third + b"A"), (3, b"n" * third + b"B")]
        return stream(names, [(2, 9)] * (third // 8) + [(3, 0)], text(1) + bytes(8))
    if kind == "numbers":
        numbers = range(2, 2 + half // 17)
        return stream([(n, b"A") for n in numbers], [(n, 0) for n in numbers], text(half))
    if kind == "names":
        return stream([(2, b"%08d" % n) for n in range(size // 16)], [(2, 0)], text(8))
    if kind == "prefixes":
        names = [(n, b"n" * (size // 1000 - 20) + b"%04d" % n) for n in range(2, 1002)]
        return stream(names, [(n, 0) for n in range(2, 1002)], text(8))
    if kind == "properties":
        numbers = range(2, 2 + size // 40)
        return stream([(n, b"%08d" % n) for n in numbers], [(n, 16 * (n - 2)) for n in numbers], text(8) * len(numbers))
    if kind == "shared":
        numbers = range(2, 2 + size // 100_000)
        return stream([(n, b"%04d" % n) for n in numbers], [(n, 0) for n in numbers], text(size))
    sys.exit(__doc__)


if __name__ == "__main__":
    if len(sys.argv) != 3:
        sys.exit(__doc__)
    sys.stdout.buffer.write(made(sys.argv[1], int(sys.argv[2])))
