#!/usr/bin/env python3
"""Writes a workbook stream of 430 sheets that all name one part of 720,000 cells (10,085,614 bytes). Its canonical stream
would have each part by itself, 4,334,410,762 bytes."""

import struct
import sys

SHEETS, CELLS = 430, 720_000


def main():
    bof = bytes.fromhex("0908040000060500")
    part_bof = bytes.fromhex("0908040000061000")
    eof = bytes.fromhex("0A000000")
    offset = len(bof) + SHEETS * 13 + len(eof)
    sheet = struct.pack("<HHIBBBBB", 0x85, 9, offset, 0, 0, 1, 0, 0x41)
    cells = b"".join(struct.pack("<HHHHHI", 0x27E, 10, i % 65536, i // 65536, 0, 6) for i in range(CELLS))
    sys.stdout.buffer.write(bof + SHEETS * sheet + eof + part_bof + cells + eof)


if __name__ == "__main__":
    main()
