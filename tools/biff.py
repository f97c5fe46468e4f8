"""Records of a workbook's stream, [MS-XLS] 2.1.4: a type, a length, a body."""

import struct


def record(typ, body=b""):
    """The bytes of a record."""
    return struct.pack("<HH", typ, len(body)) + body
