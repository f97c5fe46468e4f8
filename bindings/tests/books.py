"""Workbooks for the tests of the bindings: `make(folder)` writes them, with the samples and the stored streams of this repository."""

import glob
import json
import os
import struct
import sys

TOP = os.path.dirname(os.path.dirname(os.path.dirname(os.path.realpath(__file__))))
sys.path.insert(0, f"{TOP}/tools")

from cfb import compound_file  # noqa: E402

INFINITY, NOT_A_NUMBER = float("inf"), float("nan")


def record(typ, body=b""):
    return struct.pack("<HH", typ, len(body)) + body


def cell(typ, row, column, body, xf=0):
    return record(typ, struct.pack("<HHH", row, column, xf) + body)


def number(row, column, value, xf=0):
    return cell(0x0203, row, column, struct.pack("<d", value), xf)


def rk(row, column, bits, xf=0):
    return cell(0x027E, row, column, struct.pack("<I", bits & 0xFFFFFFFF), xf)


def whole(row, column, value, xf=0):
    return rk(row, column, value << 2 | 2, xf)


def rk_double(value, is_hundredth):
    return struct.unpack("<Q", struct.pack("<d", value))[0] >> 32 & 0xFFFFFFFC | is_hundredth


def row_of_wholes(row, column, values):
    body = struct.pack("<HH", row, column)
    body += b"".join(struct.pack("<HI", 0, value << 2 & 0xFFFFFFFF | 2) for value in values)
    return record(0x00BD, body + struct.pack("<H", column + len(values) - 1))


def label(row, column, text, xf=0):
    units = text.encode("utf-16-le")
    return cell(0x0204, row, column, struct.pack("<HB", len(units) // 2, 1) + units, xf)


def blank(row, column, xf=0):
    return cell(0x0201, row, column, b"", xf)


def shared(row, column, index):
    return cell(0x00FD, row, column, struct.pack("<I", index))


def truth_or_error(row, column, value, is_error):
    return cell(0x0205, row, column, bytes([value, is_error]))


def formula(row, column, value, rgce=b"\x1e\x01\x00", xf=0):
    return cell(0x0006, row, column, value + struct.pack("<HIH", 0, 0, len(rgce)) + rgce, xf)


def string(text):
    units = text.encode("utf-16-le")
    return record(0x0207, struct.pack("<HB", len(units) // 2, 1) + units)


def merges(*regions):
    return record(0x00E5, struct.pack("<H", len(regions)) + b"".join(struct.pack("<HHHH", *region) for region in regions))


def string_table(texts):
    body = struct.pack("<II", len(texts), len(texts))
    for text in texts:
        units = text.encode("utf-16-le", "surrogatepass")
        body += struct.pack("<HB", len(units) // 2, 1) + units
    return record(0x00FC, body)


def name(text, rgce):
    return record(0x0018, bytes(3) + struct.pack("<BH", len(text), len(rgce)) + bytes(8) + b"\0" + text.encode("latin-1") + rgce)


def formats(*pairs):
    """XF records, the first a plain one, with the formats of their own that they show."""
    found = record(0x00E0, struct.pack("<HH", 0, 0) + bytes(16))
    for number, text in pairs:
        if text:
            found = record(0x041E, struct.pack("<HHB", number, len(text), 0) + text.encode("latin-1")) + found
    return found + b"".join(record(0x00E0, struct.pack("<HH", 0, number) + bytes(16)) for number, _ in pairs)


def stream(sheets, globals=b"", version=0x0600):
    """A stream of these sheets: (name, visibility, kind, records)."""

    def bof(kind):
        return record(0x0809, struct.pack("<HHHHII", version, kind, 0, 0, 0, 0))

    def name_bytes(text):
        if version < 0x0600:
            return struct.pack("<B", len(text)) + text.encode("cp1252")
        units = text.encode("utf-16-le")
        return struct.pack("<BB", len(units) // 2, 1) + units

    begin = bof(5) + globals
    parts = [bof(0x10) + b"".join(items) + record(0x000A) for _, _, _, items in sheets]
    names = [name_bytes(text) for text, _, _, _ in sheets]
    at = len(begin) + sum(10 + len(text) for text in names) + 4
    lines = b""
    for (_, state, kind, _), text, part in zip(sheets, names, parts):
        lines += record(0x0085, struct.pack("<IBB", at, state, kind) + text)
        at += len(part)
    return begin + lines + record(0x000A) + b"".join(parts)


def plain(*items, globals=b""):
    return stream([("A", 0, 0, items)], globals)


# ---- the books

DAYS = [0.0, 0.25, 0.9999999999, 1.0, 1.5, 58.999999999, 59.0, 59.9999999999, 60.0, 60.75, 60.9999999999, 61.0, 366.0, 1461.123456, 43831.0,
        43831.75, 45351.5732060185, 2958465.0, 2958465.9999, 2958466.0, 3e6, 1e300, -1.0, -0.5, -0.0, INFINITY, NOT_A_NUMBER]
# Near the middle of two milliseconds, and there.
DAYS += [day + (count + 0.5) / 86_400_000 for day in (1, 100, 43831) for count in (0, 1, 2, 1_000_000, 86_399_999)]
DAYS += [0.5 / 86_400_000, 1.5 / 86_400_000, 2 + 2.0**-20, 3 - 2.0**-21, 43831 + 675 * 2.0**-17, 43831 + 27 * 2.0**-11, 4096 + 2.0**-40]


def numbers():
    yield from (whole(row, 0, value) for row, value in enumerate([0, 1, -1, 2**29 - 1, -(2**29)]))
    yield from (rk(row, 0, value << 2 | 3) for row, value in enumerate([0, 1, -1, 12345, 100, -250], 5))
    yield from (rk(row, 0, rk_double(value, 0)) for row, value in enumerate([1.5, -2.25, 1e300, 0.0, 3.0], 11))
    yield from (rk(row, 0, rk_double(value, 1)) for row, value in enumerate([1.5, 1e300, 3.0, 0.1], 16))
    values = [0.0, -0.0, 1.0, 4.5, 1 / 3, 1e16, 123456789012.0, 2.0**53, 2.0**53 + 2, 1e22, 5e-324, 1.7976931348623157e308, 0.1 + 0.2]
    yield from (number(row, 0, value) for row, value in enumerate([*values, INFINITY, -INFINITY, NOT_A_NUMBER], 20))
    yield row_of_wholes(40, 3, [5, -6, 7, 8])


TEXTS = ["one", "Café €", "日本語 \U0001F600", "line\nline\ttab\r\\", "", " ", "NA", "#N/A", "12", "1e3", "True", "TRUE"]
TEXTS += ["nul\0inside", "x" * 3000]


def values():
    yield from (shared(row, 0, row) for row in range(len(TEXTS) + 2))
    yield from (label(row, 1, text) for row, text in enumerate(TEXTS))
    yield from (truth_or_error(row, 2, row % 2, 0) for row in range(4))
    yield from (truth_or_error(row, 3, code, 1) for row, code in enumerate([0x00, 0x07, 0x0F, 0x17, 0x1D, 0x24, 0x2A, 0x2B]))
    yield formula(20, 0, struct.pack("<d", 12.5), b"\x1f" + struct.pack("<d", 12.5))
    yield formula(20, 1, b"\0\0\0\0\0\0\xff\xff", b"\x17\x01\0a")
    yield string("of a formula")
    yield formula(20, 2, b"\1\0\1\0\0\0\xff\xff")
    yield formula(20, 3, b"\2\0\x07\0\0\0\xff\xff")
    yield formula(20, 4, b"\3\0\0\0\0\0\xff\xff")
    yield formula(21, 0, struct.pack("<d", 1.0), b"\x1e\x01\x00\x42\x01\x66\x00")
    yield merges((0, 0, 0, 3), (5, 9, 1, 2))
    yield merges((7, 7, 7, 7))


def moments(globals=b""):
    """Each day as a date, a time, a duration and a plain number, by built-in formats and by formats of their own."""
    shown = formats((14, ""), (22, ""), (46, ""), (164, "yyyy\\-mm\\-dd hh:mm:ss.000"), (165, "[h]:mm"), (166, "0.00"))
    items = [number(row, column, day, column) for row, day in enumerate(DAYS) for column in range(7)]
    return plain(*items, globals=globals + shown)


def shown():
    """Cells under codes of their own, of which Excel shows another text than they hold; on a second sheet others in the same places.

    XF 1 has `#,##0.00`, XF 2 `0%`, XF 3 `yyyy\\-mm\\-dd`, XF 4 `[h]:mm`, XF 5 `"<"@">"`, XF 0 no code.
    """
    codes = formats((164, "#,##0.00"), (165, "0%"), (166, "yyyy\\-mm\\-dd"), (167, "[h]:mm"), (168, '"<"@">"'))
    first = [number(0, 0, 1234.5, 1), number(0, 1, 0.125, 2), number(0, 2, 45351.75, 3), number(0, 3, 1.25, 4), label(0, 4, "a", 5),
             truth_or_error(0, 5, 0x2A, 1), blank(0, 6, 1),
             number(1, 0, -1234567.891, 1), number(1, 1, -0.125, 2), whole(1, 2, 60, 3), number(1, 3, 0.5, 4), label(1, 4, "é", 5),
             truth_or_error(1, 5, 1, 0),
             whole(3, 0, 7), number(3, 1, 0.1), label(3, 2, "NA"), number(3, 3, 1e21), number(3, 4, 2.5, 5)]
    second = [number(0, 0, 0.5, 2), label(0, 1, "b")]
    return stream([("First", 0, 0, first), ("Second", 0, 0, second)], codes)


def mixed_columns():
    """Columns of one kind, and with blanks, errors, texts and truths between, for pandas."""
    heads = ["a", "a", "", "7", "b", "c", "d", "e", "f", "g", "h", "i"]
    yield from (label(0, column, text) for column, text in enumerate(heads) if text)
    for row in range(1, 40):
        yield whole(row, 0, row)
        yield number(row, 1, row / 3)
        if row % 3:
            yield whole(row, 2, row)
        yield truth_or_error(row, 3, row % 2, 0)
        if row % 4:
            yield truth_or_error(row, 4, row % 2, 0)
        yield number(row, 5, 40000 + row / 7, 1)
        if row % 5:
            yield number(row, 6, 40000 + row, 1)
        yield number(row, 7, row / 7, 2)
        yield label(row, 8, ["NA", "x", "null", "y"][row % 4])
        yield label(row, 9, str(row))
        yield (whole(row, 10, row), label(row, 10, "t"), truth_or_error(row, 10, 1, 0), truth_or_error(row, 10, 0x2A, 1))[row % 4]
        yield truth_or_error(row, 11, 0x07, 1) if row % 6 == 0 else number(row, 11, row / 2)


# ---- what stands beside the values


def units(text):
    """A flags byte that says two bytes a unit, and the units."""
    return b"\1" + text.encode("utf-16-le")


def font(name, height=200, bits=0, colour=0x7FFF, weight=400, script=0, underline=0):
    body = struct.pack("<HHHHHBxxxB", height, bits, colour, weight, script, underline, len(name))
    return record(0x0031, body + units(name))


def xf(font=0, number_format=0, bits=1, alignment=0x20, turn=0, indent=0, lines=0, colours=0, fill=0):
    """An XF, by the fields of [MS-XLS]: one of a locked cell, below in its cell, without lines and fill."""
    body = struct.pack("<HHHBBBxIIH", font, number_format, bits, alignment, turn, indent, lines, colours, fill)
    return record(0x00E0, body)


def row_info(row, bits, height=255):
    return record(0x0208, struct.pack("<HHHHIHH", row, 0, 0, height, 0, bits | 0x100, 0))


def column_info(first, last, bits, width=2048):
    return record(0x007D, struct.pack("<HHHHHH", first, last, width, 0, bits, 0))


def comment(row, column, identifier, author, text, bits=0):
    """An object, its text, and its Note."""
    found = record(0x005D, struct.pack("<HHHH", 0x15, 0x12, 0x19, identifier) + bytes(14))
    found += record(0x01B6, bytes(10) + struct.pack("<HH", len(text), 16) + bytes(4)) + record(0x003C, units(text)) + record(0x003C, bytes(16))
    return found + record(0x001C, struct.pack("<HHHHH", row, column, bits, identifier, len(author)) + units(author))


URL = bytes.fromhex("e0c9ea79f9bace118c8200aa004ba90b")


def link(first_row, first_column, last_row, last_column, flags, body):
    return record(0x01B8, struct.pack("<HHHH16xII", first_row, last_row, first_column, last_column, 2, flags) + body)


def link_string(text):
    data = (text + "\0").encode("utf-16-le")
    return struct.pack("<I", len(data) // 2) + data


def link_tip(first_row, first_column, last_row, last_column, text):
    place = struct.pack("<HHHHH", 0x0800, first_row, last_row, first_column, last_column)
    return record(0x0800, place + (text + "\0").encode("utf-16-le"))


def other_book(path, *sheets):
    texts = b"".join(struct.pack("<H", len(text)) + units(text) for text in (path, *sheets))
    return record(0x01AE, struct.pack("<H", len(sheets)) + texts)


def other_name(text):
    return record(0x0023, bytes(6) + bytes([len(text)]) + units(text) + bytes(2))


def beside_values():
    """Two sheets with something of all that stands beside values. The tests have what is wanted of it.

    The globals: fonts Arial 10 and Arial 12.5 bold, struck out and red; a code `0.00 "kg"`; three XFs. Another workbook with two sheets and a
    name, a program, an added function; an ExternName of three bytes.
    """
    globals = font("Arial") + font("Arial", 250, 0x8, 10, 700)
    globals += record(0x041E, struct.pack("<HH", 164, 9) + units('0.00 "kg"'))
    globals += xf()
    # (of the second font, wrapped and in the middle, a thin black line on the left and a double automatic one from corner to corner)
    globals += xf(1, 164, 0, 0x1A, 45, 3, 0x40080001, 6 << 21 | 64 << 14)
    # (filled with yellow)
    globals += xf(fill=13 | 64 << 7, colours=1 << 26)
    globals += other_book("\1\1Cold\3led.xls", "Jan", "Feb") + other_name("Rate") + record(0x0023, bytes(3))
    globals += other_book("Excel\3[b.xls]S") + record(0x01AE, struct.pack("<HH", 1, 0x3A01)) + other_name("EDATE")
    globals += record(0x0017, struct.pack("<H", 1) + struct.pack("<HHH", 0, 1, 1))
    data = [row_info(0, 0), row_info(1, 0), row_info(2, 0x20), row_info(3, 0), row_info(9, 0, 0), record(0x0208, b"\5\0\0"),
            column_info(1, 1, 1), column_info(7, 8, 0, 0)]
    data += [label(0, column, text) for column, text in enumerate(["id", "name", "sum", "out"])]
    for row, text in enumerate("abc", 1):
        data += [whole(row, 0, row, 1 if row == 3 else 0), label(row, 1, text), whole(row, 2, 10 * row)]
    data += [formula(1, 3, struct.pack("<d", 2.5), b"\x5a\0\0\1\0\2\0"), blank(4, 0, 2), blank(4, 1, 77)]
    data += [comment(1, 0, 1, "Ann", "hello\nthere", 2), comment(3, 2, 2, "Bö", "日本"), record(0x001C, b"\6\0\7")]
    address = "http://a.example/é\0".encode("utf-16-le")
    data += [link(3, 2, 4, 3, 0x17, link_string("here") + URL + struct.pack("<I", len(address)) + address), link_tip(3, 2, 4, 3, "look"),
             link(0, 0, 0, 0, 8, link_string("Other!A1")), link(5, 6, 5, 6, 8, b"\xff")]
    other = [whole(0, 0, 7), comment(0, 0, 1, "", "x")]
    return stream([("Data", 0, 0, data), ("Other", 0, 0, other)], globals)


def beside():
    """Cases of what stands beside the values: the book's name, its stream, a topic, and what `xls TOPIC` writes of it.

    The lines are those of a model that shares no code with the reader.
    """
    with open(f"{TOP}/bindings/tests/beside.jsonl", encoding="utf-8") as file:
        for case in map(json.loads, file):
            yield f"beside_{case['name']}", bytes.fromhex(case["input"]), case["topic"], case["output"]


def sheets():
    yield "Plain", 0, 0, [whole(0, 0, 1)]
    yield "Hidden", 1, 0, [whole(0, 0, 2)]
    yield "Very", 2, 1, []
    yield "日本", 0, 6, [whole(3, 2, 4), merges((0, 1, 0, 1))]
    yield "Twice", 0, 0, [whole(0, 0, 5), whole(0, 1, 5)]
    yield "Chart", 0, 2, []
    yield "Twice", 1, 0, [whole(9, 9, 6)]
    yield "Café", 0, 0, [label(0, 0, "b")]


def chart_first():
    """Sheets that pandas doesn't count stand before and between worksheets."""
    yield "Chart", 0, 2, []
    yield "First", 0, 0, [label(0, 0, "a"), whole(1, 0, 1)]
    yield "Macro", 0, 1, [whole(0, 0, 7)]
    yield "Module", 0, 6, []
    yield "Second", 1, 0, [label(0, 0, "b"), whole(1, 0, 2), whole(2, 0, 3)]


def out_of_order():
    cells = [(5, 5, 1), (0, 9, 2), (5, 5, 3), (2, 0, 4), (0, 0, 5), (5, 4, 6), (2, 0, 7), (9, 1, 8)]
    yield from (whole(*each) for each in cells)
    yield formula(3, 3, struct.pack("<d", 1.0))
    yield formula(1, 1, struct.pack("<d", 2.0), b"\x1e\x02\x00")


def old_label(row, column, text):
    return cell(0x0204, row, column, struct.pack("<H", len(text)) + text.encode("cp1252"))


def books():
    """The name and the bytes of each book."""
    table = string_table(TEXTS)
    three = b"\x3a\0\0\1\0\2\0"  # (a cell of the first sheet that ExternSheet names)
    inner = record(0x01AE, struct.pack("<HH", 1, 0x0401)) + record(0x0017, struct.pack("<HHHH", 1, 0, 0, 0))
    yield "numbers", compound_file({"Workbook": plain(*numbers())})
    yield "values", compound_file({"Workbook": plain(*values(), globals=table)})
    yield "names", plain(globals=inner + name("Total", three) + name("Gone", b"\x3c" + bytes(6)) + name("\x06", b"") + name("Total", three))
    yield "dates_1900", moments()
    yield "dates_1904", moments(record(0x0022, b"\1\0"))
    yield "shown", compound_file({"Workbook": shown()})
    yield "beside", compound_file({"Workbook": beside_values()})
    yield "columns", stream([("A", 0, 0, list(mixed_columns()))], formats((14, ""), (46, "")))
    yield "sheets", stream(list(sheets()))
    yield "chart_first", stream(list(chart_first()))
    yield "order", plain(*out_of_order())
    yield "no_sheets", stream([])
    yield "no_cells", plain()
    yield "far", plain(whole(0, 0, 1), whole(65_535, 3, 2))
    yield "one_far", plain(whole(300, 200, 1))
    old = record(0x0042, struct.pack("<H", 1252))
    yield "old", compound_file({"Book": stream([("Naïve", 0, 0, [old_label(0, 0, "naïve €"), number(1, 0, 2.5)])], old, 0x0500)})
    yield "many_rows", compound_file({"Workbook": plain(*(whole(row, column, row * column) for row in range(3000) for column in range(5)))})
    yield "many_texts", plain(*(label(row, 0, f"text {row} é") for row in range(3000)))
    words = ["", "a", "NA", "seven b", "eight by", "nine byte", "é", "sixteen bytes ab", "same eigXX", "same eigYY", "a\0", "a\0\0"]
    yield "repeated", plain(*(label(row, column, words[row * (column + 1) % len(words)]) for row in range(6000) for column in range(2)))


def damaged(ledger):
    """Files that are no workbook, and damaged ones; `ledger` is a compound file."""
    yield "empty", b""
    yield "zip", b"PK\3\4" + bytes(60)
    yield "html", b"<html><body>1</body></html>"
    yield "words", b"no workbook at all"
    yield "no_workbook", compound_file({"Other": b"x"})
    yield "password", plain(globals=record(0x002F, b"\1\0" + bytes(52)))
    yield "obfuscated", plain(globals=record(0x002F, bytes(6)))
    yield "page", plain(globals=record(0x0042, struct.pack("<H", 932)))
    yield "short_number", plain(record(0x0203, bytes(9)))
    yield "odd_error", plain(truth_or_error(0, 0, 0x55, 1))
    yield "cut_string", plain(globals=record(0x00FC, struct.pack("<IIHB", 1, 1, 5, 0) + b"ab"))
    yield "cut_runs", plain(globals=record(0x00FC, struct.pack("<IIHBH", 1, 1, 1, 8, 3) + b"a"))
    yield "no_part", stream([("A", 0, 0, [])])[:-8]
    yield "cut_record", plain(whole(0, 0, 1))[:-9]
    yield "cut_header", plain(whole(0, 0, 1)) + b"\1\2"
    yield "shift", ledger[:30] + b"\7\0" + ledger[32:]
    yield "mini_shift", ledger[:32] + b"\7\0" + ledger[34:]
    yield "signature", ledger[:7] + b"\0" + ledger[8:]
    for length in (8, 100, 511, 512, 600, 1100, 2000, 3000, 4000, len(ledger) - 1):
        yield f"cut_{length}", ledger[:length]
    # Bytes of the file's tables and of its directory, turned one by one.
    for at in (48, 60, 68, 76, *range(512, 700, 37), *range(1024, 1400, 41)):
        yield f"turned_{at}", ledger[:at] + bytes([ledger[at] ^ 0x5A]) + ledger[at + 1 :]


def hostile():
    """A stream of 2.9 MB whose cells show 13 GB of text: one string of 65,535 letters, and 200,000 cells that show it."""
    pieces = [struct.pack("<IIHB", 200_000, 1, 65_535, 0) + b"x" * 8_000]
    while sum(map(len, pieces)) < 65_535 + 11 + len(pieces) - 1:
        missing = 65_535 + 11 + len(pieces) - 1 - sum(map(len, pieces))
        pieces.append(b"\0" + b"x" * min(8_000, missing))
    table = record(0x00FC, pieces[0]) + b"".join(record(0x003C, piece) for piece in pieces[1:])
    return plain(*(shared(row, column, 0) for row in range(50_000) for column in range(4)), globals=table)


def hostile_comments():
    """A stream of 300 KB whose 20,000 comments have 1.3 GB of text: one of 65,535 letters, which all of them show."""
    found = record(0x005D, struct.pack("<HHHH", 0x15, 0x12, 0x19, 1) + bytes(14))
    found += record(0x01B6, bytes(10) + struct.pack("<H", 65_535) + bytes(6))
    found += b"".join(record(0x003C, b"\0" + b"x" * count) for count in [8_000] * 8 + [1_535])
    return plain(found, *(record(0x001C, struct.pack("<HHHH", row, 0, 0, 1)) for row in range(20_000)))


def stored():
    """The samples and the stored streams of this repository, by name."""
    for path in sorted(glob.glob(f"{TOP}/samples/ledger*.xls*") + glob.glob(f"{TOP}/samples/three*") + glob.glob(f"{TOP}/crates/*/stdin")):
        with open(path, "rb") as file:
            data = file.read()
        if data[:2] in (b"\x09\x08", b"\xd0\xcf"):
            yield os.path.relpath(path, TOP).replace("/", "_").replace(".", "_"), data


def make(folder):
    """Writes all books, and answers their names."""
    found = {**dict(stored()), **dict(books()), **{text: data for text, data, _, _ in beside()}}
    found.update(damaged(found["samples_ledger_xls"]))
    for text, data in found.items():
        with open(f"{folder}/{text}.xls", "wb") as file:
            file.write(data)
    return list(found)
