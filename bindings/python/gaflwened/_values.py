"""What cells hold, and the texts that the library writes of numbers of days."""

from __future__ import annotations

import datetime
import enum
import re
from typing import NamedTuple, Optional, Union

KINDS = ("worksheet", "dialog", "macro", "chart", "vba")
VISIBILITIES = ("visible", "hidden", "veryhidden")
# No .xls names a row or a column from this one on.
PLACES = 65_536
REFERENCE = re.compile(r"\$?([A-Za-z]{1,4})\$?([1-9][0-9]{0,8})", re.ASCII)

MILLISECONDS = 86_400_000  # of a day


class CellError(enum.Enum):
    """An error value of a cell; `str` is its text."""

    NULL = "#NULL!"
    DIV_0 = "#DIV/0!"
    VALUE = "#VALUE!"
    REF = "#REF!"
    NAME = "#NAME?"
    NUM = "#NUM!"
    NA = "#N/A"
    GETTING_DATA = "#DATA!"

    def __str__(self) -> str:
        return str(self.value)


ERRORS = {
    0x00: CellError.NULL, 0x07: CellError.DIV_0, 0x0F: CellError.VALUE, 0x17: CellError.REF,
    0x1D: CellError.NAME, 0x24: CellError.NUM, 0x2A: CellError.NA, 0x2B: CellError.GETTING_DATA,
}

Value = Union[None, int, float, str, bool, datetime.datetime, datetime.time, datetime.timedelta, CellError]


class Cell(NamedTuple):
    """A cell: its row and column, from 0, and its value."""

    row: int
    column: int
    value: Value


class Formula(NamedTuple):
    """A formula: its row and column, from 0, and its text without `=`, in which rows count from 1."""

    row: int
    column: int
    text: str


class Region(NamedTuple):
    """A merged region: its first and its last row and column, from 0, both included."""

    first_row: int
    first_column: int
    last_row: int
    last_column: int


class DefinedName(NamedTuple):
    """A defined name and the text of its formula."""

    name: str
    formula: str


def place_of(reference: str) -> tuple[int, int]:
    """The row and the column, from 0, of a reference such as `B7` or `$B$7`; KeyError of any other text."""
    found = REFERENCE.fullmatch(reference)
    if found is None:
        raise KeyError(f"{reference!r} is no cell: one is asked for as 'B7' or '$B$7'")
    column = 0
    for letter in found[1].upper():
        column = column * 26 + ord(letter) - ord("A") + 1
    row = int(found[2])
    if row > PLACES or column > PLACES:
        raise KeyError(f"no sheet has a cell {reference!r}: rows and columns end at {PLACES}")
    return row - 1, column - 1


def moment_of(text: str) -> Union[datetime.datetime, datetime.time, None]:
    """The date, or the time of day, of a text that the library writes of a number of days; None of what datetime doesn't have."""
    date, mark, time = text.partition("T")
    if not mark and ":" in date:
        date, time = "", date
    if time:
        clock, _, fraction = time.partition(".")
        hour, minute, second = map(int, clock.split(":"))
        of_day = datetime.time(hour, minute, second, int(fraction.ljust(6, "0")))
        if not date:
            return of_day
    else:
        of_day = datetime.time()
    parts = date.split("-")
    if [len(part) for part in parts] != [4, 2, 2] or date == "1900-02-29":
        return None
    return datetime.datetime.combine(datetime.date(*map(int, parts)), of_day)


def duration_of(text: str) -> Optional[datetime.timedelta]:
    """The duration of a text that the library writes of a number of days; None of a number."""
    clock, _, fraction = text.lstrip("-").partition(".")
    if ":" not in clock:
        return None
    hours, minutes, seconds = map(int, clock.split(":"))
    found = datetime.timedelta(hours=hours, minutes=minutes, seconds=seconds, microseconds=int(fraction.ljust(6, "0")))
    return -found if text.startswith("-") else found


def span_of(days: float) -> Optional[datetime.timedelta]:
    """A number of days of at least 0 and less than 2 to the 22nd, to the nearest millisecond; None near the middle of two.

    The part of a day is exact here, and its milliseconds are less than 1e-7 from the exact ones. So where they aren't near the middle they
    are rounded as the library rounds them.
    """
    whole = int(days)
    milliseconds = (days - whole) * MILLISECONDS
    if 0.499999 < milliseconds % 1.0 < 0.500001:
        return None
    return datetime.timedelta(whole, 0, 0, round(milliseconds))
