#!/usr/bin/env python3
"""Writes a stream whose string table has so many strings, cut into bodies of so many bytes.

    python3 bench/string_stream.py 200000 8224 > /tmp/strings.xls-stream
    bench/run /tmp/strings.xls-stream crates/example_calls/out/example_calls strings
"""
import os
import struct
import sys

sys.path.insert(0, os.path.join(os.path.dirname(os.path.realpath(__file__)), "..", "tools"))
sys.dont_write_bytecode = True

from biff import record  # noqa: E402


def bodies(strings, room):
    """The bodies of the table. One that goes on inside a string begins with the flags of its units."""
    body = struct.pack("<II", strings, strings)
    for i in range(strings):
        units = f"string number {i}".encode()
        head = struct.pack("<HB", len(units), 0)
        if len(body) + len(head) > room:
            yield body
            body = b""
        body += head
        while units:
            if len(body) == room:
                yield body
                body = b"\0"
            fits = room - len(body)
            body += units[:fits]
            units = units[fits:]
    yield body


def main():
    strings, room = int(sys.argv[1]), int(sys.argv[2])
    first, *others = bodies(strings, room)
    out = [record(0x0809, bytes.fromhex("00060500")), record(0x00FC, first)]
    out += [record(0x003C, body) for body in others]
    out.append(record(0x000A, b""))
    sys.stdout.buffer.write(b"".join(out))


if __name__ == "__main__":
    main()
