"""Writes what workbooks hold: `python -m gaflwened book.xls`.

The lines are those of `xls dump`, their fields separated by tabs: the year that dates count from, the defined names, and of each sheet its
cells, formulas and merged regions. Rows and columns count from 0, numbers stand as Python writes them. Of several files each begins with a
line `file` and its name.
"""

from __future__ import annotations

import datetime
import io
import os
import sys
from typing import Any, Iterator

from . import Error, Value, Workbook, __version__, open_workbook

ESCAPES = str.maketrans({"\\": "\\\\", "\n": "\\n", "\r": "\\r", "\t": "\\t"})


def shortened(text: str) -> str:
    """A time without the zeros that end its fraction."""
    return text.rstrip("0").rstrip(".") if "." in text else text


def duration(value: datetime.timedelta) -> str:
    """A duration in hours, minutes and seconds."""
    seconds, fraction = divmod(abs(value), datetime.timedelta(seconds=1))
    sign = "-" if value < datetime.timedelta() else ""
    return shortened(f"{sign}{seconds // 3600:02}:{seconds // 60 % 60:02}:{seconds % 60:02}.{fraction.microseconds:06}")


def fields_of(value: Value) -> tuple[str, str]:
    """The kind of a value and its text."""
    if isinstance(value, bool):
        return "bool", str(value).lower()
    if isinstance(value, int):
        return "int", str(value)
    if isinstance(value, float):
        return "float", repr(value)
    if isinstance(value, str):
        return "text", value
    if isinstance(value, datetime.timedelta):
        return "span", duration(value)
    if isinstance(value, datetime.datetime):
        return "date", value.date().isoformat() if value.time() == datetime.time() else shortened(value.isoformat())
    if isinstance(value, datetime.time):
        return "date", shortened(value.isoformat())
    return "error", str(value)


def lines_of(book: Workbook) -> Iterator[tuple[Any, ...]]:
    """The fields of each line."""
    yield "dates", 1904 if book.is_1904 else 1900
    for name in book.names:
        yield ("name", *name)
    for sheet in book.sheets:
        yield "sheet", sheet.name, sheet.kind, sheet.visibility
        for row, column, value in sheet.cells():
            yield ("cell", row, column, *fields_of(value))
        for formula in sheet.formulas:
            if formula.text:
                yield ("formula", *formula)
        for region in sheet.merged_regions:
            yield ("merge", *region)


def main(words: list[str]) -> int:
    """Writes the lines of each file; answers 1 where one is refused."""
    if words == ["--version"]:
        print("gaflwened", __version__)
        return 0
    if not words or words[0].startswith("-"):
        print((__doc__ or "").strip(), file=sys.stderr)
        return 2
    if isinstance(sys.stdout, io.TextIOWrapper):
        sys.stdout.reconfigure(encoding="utf-8", newline="\n")
    status = 0
    for word in words:
        try:
            book = open_workbook(word)
        except (OSError, Error, MemoryError) as error:
            print(f"gaflwened: {word}: {error or 'out of memory'}", file=sys.stderr)
            status = 1
            continue
        if len(words) > 1:
            print("file", word.translate(ESCAPES), sep="\t")
        for line in lines_of(book):
            print("\t".join(str(field).translate(ESCAPES) for field in line))
    return status


if __name__ == "__main__":
    try:
        sys.exit(main(sys.argv[1:]))
    except BrokenPipeError:
        # The reader stopped early: what is still to be written goes nowhere.
        os.dup2(os.open(os.devnull, os.O_WRONLY), sys.stdout.fileno())
        sys.exit(4)
