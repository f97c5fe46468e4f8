"""Writes into NAME.found what is read of each NAME.xls of a folder: the lines of `xls dump --exact` with numbers by their bits and the
kinds of `xls dump`, or the numbers of the fault.

    exact.py FOLDER
"""

import glob
import struct
import sys

import gaflwened
from gaflwened import _raw

ESCAPES = str.maketrans({"\\": "\\\\", "\n": "\\n", "\r": "\\r", "\t": "\\t"})
WORDS = {_raw.NUMBER: "float", _raw.DATE_TIME: "date", _raw.DURATION: "span"}


def bits(number):
    return f"0x{struct.unpack('<Q', struct.pack('<d', number))[0]:016x}"


def fields_of(cell, raw):
    """The kind and the text of a value; the numbers of dates are those of the array."""
    _, _, kind, _, value, _ = raw
    if kind in WORDS:
        if kind == _raw.NUMBER and bits(cell.value) != f"0x{value:016x}":
            raise AssertionError(f"{cell} and not {value:x}")
        return WORDS[kind], f"0x{value:016x}"
    if isinstance(cell.value, bool):
        return "bool", str(cell.value).lower()
    if isinstance(cell.value, int):
        return "int", str(cell.value)
    if isinstance(cell.value, gaflwened.CellError):
        return "error", str(cell.value)
    return "text", cell.value


def lines_of(book):
    yield "dates", 1904 if book.is_1904 else 1900
    for name in book.names:
        yield ("name", *name)
    for sheet in book.sheets:
        yield "sheet", sheet.name, sheet.kind, sheet.visibility
        for cell, raw in zip(sheet.cells(), sheet._raw_cells()):
            yield ("cell", cell.row, cell.column, *fields_of(cell, raw))
        for formula in sheet.formulas:
            if formula.text:
                yield ("formula", *formula)
        for region in sheet.merged_regions:
            yield ("merge", *region)


def read(path):
    try:
        return lines_of(gaflwened.open_workbook(path, few_functions=True))
    except gaflwened.Error as error:
        return [("fault", int(error.code), error.part, error.table, error.first, error.second, error.third)]


def main(folder):
    for path in sorted(glob.glob(f"{folder}/*.xls")):
        with open(f"{path[:-4]}.found", "w", encoding="utf-8", newline="\n") as file:
            for line in read(path):
                file.write("\t".join(str(field).translate(ESCAPES) for field in line) + "\n")


if __name__ == "__main__":
    main(sys.argv[1])
