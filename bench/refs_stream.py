#!/usr/bin/env python3
"""Writes a workbook stream of one sheet whose formulas cite 13,000 different cells each, as many as fit into a formula.

    python3 bench/refs_stream.py 100 > /tmp/refs.xls-stream
    bench/run /tmp/refs.xls-stream crates/xls_dump/out/xls_dump refs
"""
import os
import struct
import sys

sys.path.insert(0, os.path.join(os.path.dirname(os.path.realpath(__file__)), "..", "tools"))
sys.dont_write_bytecode = True

from biff import record  # noqa: E402

CELLS = 13_000


def tokens():
    """SUMs of at most 255 operands, which are the cells and the SUMs before."""
    cells = b"".join(struct.pack("<BHH", 0x24, n // 200, 0xC000 + n % 200) for n in range(CELLS))
    sums, left = b"", CELLS
    while left > 1:
        count = min(left, 255)
        sums += struct.pack("<BBH", 0x22, count, 4)
        left -= count - 1
    return cells + sums


def formula(row):
    rgce = tokens()
    return record(0x0006, struct.pack("<HHH", row, 0, 0) + bytes(14) + struct.pack("<H", len(rgce)) + rgce)


def main():
    bof, eof = record(0x0809, struct.pack("<HH", 0x0600, 5)), record(0x000A, b"")
    offset = len(bof) + 13 + len(eof)
    sheet = record(0x0085, struct.pack("<IBBBB", offset, 0, 0, 1, 0) + b"A")
    out = sys.stdout.buffer
    out.write(bof + sheet + eof + record(0x0809, struct.pack("<HH", 0x0600, 16)))
    for row in range(int(sys.argv[1])):
        out.write(formula(row))
    out.write(eof)


if __name__ == "__main__":
    main()
