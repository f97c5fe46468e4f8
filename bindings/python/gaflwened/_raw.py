"""The calls of include/gaflwened.h, over the shared object that stands beside this file."""

from __future__ import annotations

import contextlib
import ctypes
import mmap
import os
import struct
from typing import Any, Callable, Iterator, NamedTuple, Union

from ._errors import Error, FaultCode

Buffer = Union[bytearray, mmap.mmap]
# What is read from alone may also come out of a pickle.
Array = Union[bytes, Buffer, memoryview]

OK, OUT_OF_MEMORY, TOO_SHORT = 0, 1, 2
# Which sheets are read.
ALL_SHEETS, ONE_SHEET, NO_CONTENT = 0, 1, 2

# Kinds of cells.
NUMBER, DATE_TIME, DURATION, BOOLEAN, ERROR, TEXT, DATE_TEXT, DURATION_TEXT, WHOLE_NUMBER = range(1, 10)

SHEET = struct.Struct("=8Q2I")
NAME = struct.Struct("=4Q")
CELL = struct.Struct("=4I2Q")
CELL_NUMBER = struct.Struct("=16xd8x")
CELL_COLUMN = struct.Struct("=4xI24x")
FORMULA = struct.Struct("=2I2Q")
REGION = struct.Struct("=4I")
# What stands beside the values.
DAMAGE = struct.Struct("=3Q4I")
HIDDEN_RUN = struct.Struct("=4I")
STYLE = struct.Struct("=4Q22I")
CELL_STYLE = struct.Struct("=2I2H")
COMMENT = struct.Struct("=2I4Q2I")
LINK = struct.Struct("=4I8Q2I")
BOOK = struct.Struct("=4Q2I")
OUTSIDE = struct.Struct("=2I6Q")

# Buffers of more bytes are mapped, so that no time goes into bytes that are written over.
MAPPED = 1 << 20
# Each buffer has more bytes than its items: its pointer is never null, and the last text may be looked at in whole words.
SLACK = 16


def _fields(*groups: tuple[str, Any]) -> list[tuple[str, Any]]:
    return [(name, kind) for names, kind in groups for name in names.split()]


class Fault(ctypes.Structure):
    _fields_ = _fields(("code part table reserved", ctypes.c_uint32), ("first second third", ctypes.c_uint64))


class Options(ctypes.Structure):
    _fields_ = _fields(("max_bytes max_cells sheet", ctypes.c_uint64), ("which", ctypes.c_uint32), ("code_page all_functions", ctypes.c_uint16))


class Sizes(ctypes.Structure):
    _fields_ = _fields(("sheets names cells formulas regions text_bytes", ctypes.c_uint64), ("is_1904 reserved", ctypes.c_uint32))


class TableSizes(ctypes.Structure):
    _fields_ = _fields(("items damages text_bytes", ctypes.c_uint64))


class Counts(NamedTuple):
    """How many there are of each in the arrays of `Content`."""

    sheets: int
    names: int
    cells: int
    formulas: int
    regions: int
    text_bytes: int


class Content(NamedTuple):
    """What a stream holds: arrays of the structs of the header, and the texts. Each has some bytes more."""

    sheets: Array
    names: Array
    cells: Array
    formulas: Array
    regions: Array
    texts: Array
    counts: Counts
    is_1904: bool


class Table(NamedTuple):
    """What a call reads that stands beside the values: structs of items and of damaged records, the texts of both, and their lengths."""

    items: Array
    damages: Array
    texts: Array
    counts: tuple[int, int, int]

    def fields(self, item: struct.Struct) -> Iterator[tuple[Any, ...]]:
        """The fields of each item."""
        return item.iter_unpack(memoryview(self.items)[: self.counts[0] * item.size])

    def damage_fields(self) -> Iterator[tuple[Any, ...]]:
        """The fields of each damaged record."""
        return DAMAGE.iter_unpack(memoryview(self.damages)[: self.counts[1] * DAMAGE.size])

    def text(self, offset: int, length: int) -> str:
        """The text of so many bytes from an offset on."""
        return str(memoryview(self.texts)[offset : offset + length], "utf-8")


# The calls that read one, the structs of their items, and whether they have arrays of damaged records and of texts.
CALLS = {
    "hidden": (HIDDEN_RUN, True, True),
    "styles": (STYLE, True, True),
    "style_of": (CELL_STYLE, False, False),
    "comments": (COMMENT, True, True),
    "links": (LINK, True, True),
    "books": (BOOK, True, True),
    "outside_of": (OUTSIDE, False, True),
}


def _library() -> ctypes.CDLL:
    path = os.path.join(os.path.dirname(os.path.realpath(__file__)), "libgaflwened.so")
    if not os.path.exists(path):
        raise ImportError(f"gaflwened: {path} isn't there: `pip install bindings/python` makes it")
    library = ctypes.CDLL(path)
    pointer, size, number = ctypes.c_void_p, ctypes.c_size_t, ctypes.c_uint32
    array = [pointer, size]
    library.gaflwened_version.argtypes = []
    library.gaflwened_stream.argtypes = [*array, *array, pointer, pointer]
    library.gaflwened_read.argtypes = [*array, pointer, *array * 6, pointer, pointer]
    library.gaflwened_shown.argtypes = [*array, pointer, *array * 2, pointer, pointer]
    library.gaflwened_fault_text.argtypes = [pointer, *array, pointer]
    library.gaflwened_serial.argtypes = [ctypes.c_uint64, number, number, *array, pointer]
    for name, (_, *others) in CALLS.items():
        getattr(library, f"gaflwened_{name}").argtypes = [*array, pointer, *array * (1 + sum(others)), pointer, pointer]
    for name in ("version", "stream", "read", "shown", "fault_text", "serial", *CALLS):
        getattr(library, f"gaflwened_{name}").restype = number
    return library


_LIBRARY = _library()


def _buffer(size: int) -> Buffer:
    """A buffer of so many bytes and some more."""
    size += SLACK
    if size < MAPPED:
        return bytearray(size)
    try:
        buffer = mmap.mmap(-1, size, mmap.MAP_PRIVATE | mmap.MAP_ANONYMOUS)
    except (OSError, OverflowError):
        raise MemoryError from None
    if hasattr(mmap, "MADV_HUGEPAGE"):
        # (large pages, so that less time goes into its first use)
        with contextlib.suppress(OSError):
            buffer.madvise(mmap.MADV_HUGEPAGE)
    return buffer


def _shortened(buffer: Buffer, size: int) -> Buffer:
    """The buffer with so many bytes and some more."""
    size += SLACK
    if isinstance(buffer, bytearray):
        del buffer[size:]
    else:
        buffer.resize(size)
    return buffer


def _address(buffer: Union[bytes, Buffer]) -> Union[int, ctypes.c_char_p]:
    """Where a buffer's bytes are. The buffer must be kept while that is used."""
    return ctypes.c_char_p(buffer) if isinstance(buffer, bytes) else ctypes.addressof(ctypes.c_char.from_buffer(buffer))


def _text(call: Callable[[Any, int, Any], Any]) -> str:
    """The text that a call writes, where there is room for it."""
    length = 400
    while True:
        out, size = ctypes.create_string_buffer(length), ctypes.c_uint64()
        code = call(out, length, ctypes.byref(size))
        if code == OK:
            return out.raw[: size.value].decode("utf-8")
        if code != TOO_SHORT:
            raise MemoryError
        length = size.value


def fault_text(fault: Fault) -> str:
    """The sentence that tells a fault."""
    return _text(lambda out, length, size: _LIBRARY.gaflwened_fault_text(ctypes.byref(fault), out, length, size))


def serial(bits: int, is_1904: bool, is_duration: bool) -> str:
    """The text of a number of days, a double by its bits, to the nearest millisecond."""
    return _text(lambda out, length, size: _LIBRARY.gaflwened_serial(bits, is_1904, is_duration, out, length, size))


def _refusal(fault: Fault) -> Exception:
    if fault.code == OUT_OF_MEMORY:
        return MemoryError()
    numbers = fault.part, fault.table, fault.first, fault.second, fault.third
    return Error(fault_text(fault), FaultCode.of(fault.code), *numbers)


def file_bytes(path: Union[str, os.PathLike[Any]]) -> tuple[Union[bytes, Buffer], int]:
    """The bytes of a file: a buffer, and how many of its bytes they are."""
    with open(path, "rb") as file:
        buffer = _buffer(os.fstat(file.fileno()).st_size)
        length = file.readinto(buffer)
        if length < len(buffer):
            return buffer, length
        # (no regular file, or one that grows)
        data = bytes(buffer) + file.read()
        return data, len(data)


def stream(file: Union[bytes, Buffer], length: int) -> tuple[Union[bytes, Buffer], int]:
    """The workbook's stream of a file: a buffer, which may be that of the file, and how many of its bytes are the stream."""
    given, size, fault = _address(file), ctypes.c_uint64(), Fault()
    out, capacity = _buffer(0), 0
    while True:
        code = _LIBRARY.gaflwened_stream(given, length, _address(out), capacity, ctypes.byref(size), ctypes.byref(fault))
        if code == OK:
            return out, size.value
        if code != TOO_SHORT:
            raise _refusal(fault)
        if size.value == length:
            return file, length
        out, capacity = _buffer(size.value), size.value


WIDTHS = [SHEET.size, NAME.size, CELL.size, FORMULA.size, REGION.size, 1]


def _likely(length: int) -> list[int]:
    """Lengths of arrays that are enough for most streams of so many bytes. What isn't filled costs nothing but addresses."""
    return [64, 256, 64 + length // 8, 64 + length // 64, 1024, 4096 + length]


def _filled(call: Callable[..., Any], stream: Union[bytes, Buffer], length: int, options: Options, wanted: dict[str, int],
            likely: list[int], kind: Callable[[], Any] = Sizes) -> tuple[list[Buffer], Any]:
    """The arrays that a call fills, and how long they are: a struct of the kind.

    `wanted` are the names of their lengths and the bytes of an item; arrays of `likely` lengths are tried first.
    """
    widths = list(wanted.values())
    try:
        counts = likely
        buffers = [_buffer(count * width) for count, width in zip(counts, widths)]
    except MemoryError:
        # The first call fills nothing then, and says how much is needed.
        counts = [0] * len(widths)
        buffers = [_buffer(0) for _ in widths]
    while True:
        sizes, fault = kind(), Fault()
        arrays = [word for buffer, count in zip(buffers, counts) for word in (_address(buffer), count)]
        places = ctypes.byref(options), *arrays, ctypes.byref(sizes), ctypes.byref(fault)
        code = call(_address(stream), length, *places)
        if code not in (OK, TOO_SHORT):
            raise _refusal(fault)
        counts = [getattr(sizes, name) for name in wanted]
        lengths = [count * width for count, width in zip(counts, widths)]
        if code == OK:
            return list(map(_shortened, buffers, lengths)), sizes
        buffers = list(map(_buffer, lengths))


def read(stream: Union[bytes, Buffer], length: int, options: Options) -> Content:
    """What the first bytes of a buffer hold as a workbook's stream."""
    wanted = dict(zip(Counts._fields, WIDTHS))
    buffers, sizes = _filled(_LIBRARY.gaflwened_read, stream, length, options, wanted, _likely(length))
    sheets, names, cells, formulas, regions, texts = buffers
    counts = Counts(*(getattr(sizes, name) for name in wanted))
    return Content(sheets, names, cells, formulas, regions, texts, counts, bool(sizes.is_1904))


def shown(stream: Union[bytes, Buffer], length: int, options: Options, cells: int) -> Content:
    """What Excel shows of the cells of the sheet at `options.sheet`, of which there are so many: a sheet of texts alone, without a name."""
    wanted = {"cells": CELL.size, "text_bytes": 1}
    buffers, sizes = _filled(_LIBRARY.gaflwened_shown, stream, length, options, wanted, [cells, 64 + 16 * cells])
    counts = Counts(1, 0, sizes.cells, 0, 0, sizes.text_bytes)
    sheet = SHEET.pack(0, 0, 0, sizes.cells, 0, 0, 0, 0, 0, 0)
    return Content(sheet, b"", buffers[0], b"", b"", buffers[1], counts, bool(sizes.is_1904))


def table(name: str, stream: Union[bytes, Buffer], length: int, options: Options, likely: int = 64) -> Table:
    """What a call of `CALLS` reads, of the sheet at `options.sheet` where it reads one; there are likely so many items."""
    item, has_damages, has_texts = CALLS[name]
    widths = {"items": (item.size, likely, True), "damages": (DAMAGE.size, 16, has_damages), "text_bytes": (1, 4096, has_texts)}
    wanted = {word: width for word, (width, _, is_there) in widths.items() if is_there}
    lengths = [count for _, count, is_there in widths.values() if is_there]
    buffers, sizes = _filled(getattr(_LIBRARY, f"gaflwened_{name}"), stream, length, options, wanted, lengths, TableSizes)
    found = dict(zip(wanted, buffers))
    items, damages, texts = (found.get(word, b"") for word in widths)
    return Table(items, damages, texts, (sizes.items, sizes.damages, sizes.text_bytes))
