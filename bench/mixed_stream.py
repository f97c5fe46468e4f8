#!/usr/bin/env python3
"""Writes a workbook stream of one sheet of 65,536 rows of 20 mixed cells.

    python3 bench/mixed_stream.py > /tmp/mixed.xls-stream
    bench/run /tmp/mixed.xls-stream

With `open` after it the stream lists a second sheet whose part is missing. The first sheet is then
read whole before that fault is answered, so the time is that of opening alone.
"""
import os
import struct
import sys

sys.path.insert(0, os.path.join(os.path.dirname(os.path.realpath(__file__)), "..", "tools"))
sys.dont_write_bytecode = True

from biff import record  # noqa: E402

ROWS, STRINGS = 65_536, 1_000


def cell(typ, row, column, xf, body):
    return record(typ, struct.pack("<HHH", row, column, xf) + body)


def rk(n):
    return struct.pack("<I", n << 2 | 2)


def text(units):
    return struct.pack("<HB", len(units), 0) + units.encode()


def globals_of(offset, missing):
    strings = struct.pack("<II", STRINGS, STRINGS) + b"".join(text(f"shared {i}") for i in range(STRINGS))
    assert len(strings) < 65_536
    dates = struct.pack("<HH", 0, 14)
    parts = [record(0x0809, bytes.fromhex("00060500")), record(0x00E0, bytes(20)), record(0x00E0, dates + bytes(16)),
             record(0x00FC, strings), record(0x0085, struct.pack("<I", offset) + b"\0\0\1\0A")]
    if missing:
        parts.append(record(0x0085, struct.pack("<I", 0x7FFF_FFFF) + b"\0\0\1\0B"))
    return b"".join(parts) + record(0x000A)


def row_of(row):
    yield from (cell(0x0203, row, column, column // 3, struct.pack("<d", row + column / 7)) for column in range(4))
    four = b"".join(struct.pack("<H", 0) + rk(row + column) for column in range(4))
    yield record(0x00BD, struct.pack("<HH", row, 4) + four + struct.pack("<H", 7))
    yield from (cell(0x027E, row, column, 0, rk(row * column)) for column in range(8, 12))
    yield from (cell(0x00FD, row, column, 0, struct.pack("<I", (row + column) % STRINGS)) for column in range(12, 16))
    yield cell(0x0205, row, 16, 0, bytes([row % 2, 0]))
    yield cell(0x0205, row, 17, 0, bytes([0x07, 1]))
    yield from (cell(0x0204, row, column, 0, text(f"cell {row}")) for column in (18, 19))


def main():
    missing = sys.argv[1:] == ["open"]
    first = globals_of(len(globals_of(0, missing)), missing)
    cells = b"".join(part for row in range(ROWS) for part in row_of(row))
    sys.stdout.buffer.write(first + record(0x0809, bytes.fromhex("00061000")) + cells + record(0x000A))


if __name__ == "__main__":
    main()
