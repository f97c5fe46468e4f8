#!/usr/bin/env python3
"""Writes a workbook stream of one sheet of Number records: 65,536 rows of 4 columns.

    python3 bench/number_stream.py > /tmp/numbers.xls-stream
    bench/run /tmp/numbers.xls-stream
"""
import os
import struct
import sys

sys.path.insert(0, os.path.join(os.path.dirname(os.path.realpath(__file__)), "..", "tools"))
sys.dont_write_bytecode = True

from biff import record  # noqa: E402

ROWS, COLUMNS = 65_536, 4


def main():
    bof = record(0x0809, bytes.fromhex("00060500"))
    eof = record(0x000A, b"")
    offset = len(bof) + 4 + 9 + len(eof)
    sheet = record(0x0085, struct.pack("<I", offset) + b"\0\0" + b"\1\0A")
    out = [bof, sheet, eof, record(0x0809, bytes.fromhex("00061000"))]
    for row in range(ROWS):
        for column in range(COLUMNS):
            value = row + column / 4
            out.append(record(0x0203, struct.pack("<HHHd", row, column, 0, value)))
    out.append(eof)
    sys.stdout.buffer.write(b"".join(out))


if __name__ == "__main__":
    main()
