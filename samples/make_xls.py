#!/usr/bin/python3
"""Writes samples/ledger.xls: the stream of ledger.xls-stream in a compound file, with the two property
streams and the directory of a macro project, which stands in ledger.macro-directory as a file has it: compressed."""

import os
import struct
import sys
import uuid

TOP = os.path.dirname(os.path.dirname(os.path.realpath(__file__)))
sys.path.insert(0, f"{TOP}/tools")
sys.dont_write_bytecode = True

from cfb import compound_file  # noqa: E402

SUMMARY = "F29F85E0-4FF9-1068-AB91-08002B27B3D9"
DOCUMENT_SUMMARY = "D5CDD502-2E9C-101B-9397-08002B2CF9AE"


def read(name):
    with open(f"{TOP}/{name}", "rb") as file:
        return file.read()


def property_stream(fmtid, texts):
    """A property set ([MS-OLEPS]) with texts in page 1252, by their identifiers."""
    values = {1: struct.pack("<IHH", 2, 1252, 0)}
    for number, text in texts.items():
        data = text.encode("cp1252") + b"\0"
        values[number] = struct.pack("<II", 30, len(data)) + data + bytes(-len(data) % 4)
    places, body, at = b"", b"", 8 + 8 * len(values)
    for number, value in values.items():
        places += struct.pack("<II", number, at + len(body))
        body += value
    section = struct.pack("<II", at + len(body), len(values)) + places + body
    head = struct.pack("<HHI16xI", 0xFFFE, 0, 0x20006, 1)
    return head + uuid.UUID(fmtid).bytes_le + struct.pack("<I", 48) + section


streams = {
    "Workbook": read("samples/ledger.xls-stream"),
    "\x05SummaryInformation": property_stream(SUMMARY, {2: "Ledger", 4: "Anna"}),
    "\x05DocumentSummaryInformation": property_stream(DOCUMENT_SUMMARY, {15: "Ålesund AS"}),
    "_VBA_PROJECT_CUR": {"VBA": {"dir": read("samples/ledger.macro-directory")}},
}
with open(f"{TOP}/samples/ledger.xls", "wb") as file:
    file.write(compound_file(streams))
