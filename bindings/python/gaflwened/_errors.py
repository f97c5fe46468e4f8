"""Why a workbook is refused."""

from __future__ import annotations

import enum
from typing import Union


class FaultCode(enum.IntEnum):
    """What is wrong with a file. The numbers are those of include/gaflwened.h, which says what belongs to each."""

    NO_SUCH_SHEET = 3
    OBFUSCATED = 4
    TOO_LARGE = 16
    TOO_MANY_CELLS = 17
    CODE_PAGE = 18
    PASSWORD = 19
    LENGTH = 20
    UNRECOGNIZED = 21
    END_OF_STREAM = 22
    STRING_CUT = 23
    FILE_KIND = 48
    NO_WORKBOOK = 49
    SIGNATURE = 64
    HEADER_CUT = 65
    SECTOR_SHIFT = 66
    MINI_SHIFT = 67
    LOOP = 68
    LEAVES = 69
    BEGINS_OUTSIDE = 70
    CHAIN_SHORT = 71
    SECTOR_CUT = 72
    FAT_CUT = 73
    NO_ROOT = 80
    ENTRY_MISSING = 81
    ENTRY_TWICE = 82
    ENTRY_KIND = 83
    ENTRY_NAME = 84

    @classmethod
    def of(cls, number: int) -> Union[FaultCode, int]:
        """The code of this number, or the number where there is none."""
        try:
            return cls(number)
        except ValueError:
            return number


class Error(Exception):
    """The first thing that is wrong with a file: `str` tells it as a sentence.

    code      what is wrong
    part      where the code says so, the number of a part of the stream, the kind of the file, or a chain of the compound file
    table     where the code says so, 1 the DIFAT, 2 the FAT, 3 the mini FAT
    first, second, third    the numbers that belong to the code, 0 where it names none
    """

    def __init__(self, text: str, code: Union[FaultCode, int], part: int = 0, table: int = 0, first: int = 0, second: int = 0,
                 third: int = 0):
        super().__init__(text, code, part, table, first, second, third)
        self.text = text
        self.code = code
        self.part = part
        self.table = table
        self.first = first
        self.second = second
        self.third = third

    def __str__(self) -> str:
        return self.text


class SheetNotFound(KeyError, IndexError, ValueError):
    """No sheet has this name or index, which is `wanted`. It is a LookupError, and a ValueError as pandas raises it."""

    def __init__(self, wanted: Union[str, int]):
        super().__init__(wanted)
        self.wanted = wanted

    def __str__(self) -> str:
        if isinstance(self.wanted, str):
            return f"Worksheet '{self.wanted}' not found"
        return f"Sheet index {self.wanted} out of range"
