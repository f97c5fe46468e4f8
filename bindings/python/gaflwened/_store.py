"""The arrays of what a workbook holds, and the values that they tell."""

from __future__ import annotations

import datetime
import mmap
import pickle
import struct
import sys
from typing import TYPE_CHECKING, Any, Iterator, NamedTuple, Optional, Union

from . import _raw
from ._values import ERRORS, Value, duration_of, moment_of, span_of

if TYPE_CHECKING:
    from numpy.typing import NDArray

CELL = _raw.CELL.size
# Where the byte of a cell's kind stands in its struct.
KIND_BYTE = 8 if sys.byteorder == "little" else 11
# The first day that is reckoned here and not by the library, the one after the last, and the date of day 0, by whether days count from 1904.
# (Day 60 of the 1900 system is 1900-02-29, which the calendar lacks.)
RECKONED = {
    False: (61.0, 2_958_465.0, datetime.datetime(1899, 12, 30)),
    True: (1.0, 2_957_003.0, datetime.datetime(1904, 1, 1)),
}
LONGEST = 100_000.0  # of the durations that are


class Source(NamedTuple):
    """What a workbook was read from: a buffer, how many of its bytes are the stream, and the bytes of the options."""

    stream: _raw.Array
    length: int
    options: bytes

    def given(self, number: int) -> tuple[Union[bytes, _raw.Buffer], int, _raw.Options]:
        """What a call is given that reads the workbook's sheet with this index: the stream, its length and the options."""
        options = _raw.Options.from_buffer_copy(self.options)
        if options.which != _raw.ONE_SHEET:
            # (else the index is that of the sheet which was asked for)
            options.sheet = number
        stream = self.stream
        if not isinstance(stream, (bytes, bytearray, mmap.mmap)):
            # (out of a pickle)
            stream = bytes(stream)
        # (the buffers of a pickle may be given by anyone)
        return stream, min(self.length, len(stream)), options

    def shown(self, number: int, cells: int) -> _raw.Content:
        """What Excel shows of the cells of the workbook's sheet with this index, of which there are so many."""
        return _raw.shown(*self.given(number), cells)


class Store:
    """What a workbook and its sheets share. It knows neither, so that each goes with its last reference.

    Where it is of what Excel shows of a sheet, or of the cells of one that can be seen, it has no source.
    """

    def __init__(self, arrays: _raw.Content, source: Optional[Source] = None):
        self._arrays: Optional[_raw.Content] = arrays
        self._source = source
        self._shown: dict[int, Store] = {}
        self._tables: dict[tuple[str, int], _raw.Table] = {}
        self.is_1904 = arrays.is_1904
        self._lent: Union[str, bytes, None] = None
        self._moments: tuple[dict[int, Value], dict[int, Value]] = ({}, {})

    @property
    def arrays(self) -> _raw.Content:
        """The arrays; ValueError where the workbook is closed."""
        if self._arrays is None:
            raise ValueError("the workbook is closed")
        return self._arrays

    @property
    def is_closed(self) -> bool:
        return self._arrays is None

    def close(self) -> None:
        self._arrays = self._lent = self._source = None
        self._shown = {}
        self._tables = {}
        self._moments = ({}, {})

    def __reduce_ex__(self, protocol: Any) -> tuple[Any, ...]:
        *buffers, counts, is_1904 = self.arrays
        source = self._source
        if source is not None:
            buffers.append(source.stream)
        # (protocol 5 takes them without a copy; no view stands between, since one that is in use may not be in a cycle that is collected)
        given = [pickle.PickleBuffer(buffer) if protocol >= 5 else memoryview(buffer).tobytes() for buffer in buffers]
        fields = *given[:6], counts, is_1904
        return restored, fields if source is None else (*fields, given[6], source.length, source.options)

    # ---- what Excel shows

    def shown(self, number: int, cells: int) -> Store:
        """What Excel shows of the cells of the sheet with this index, of which there are so many: a store with a sheet of texts.

        It is kept, so that the next call finds it.
        """
        self.arrays  # (ValueError where it is closed)
        found = self._shown.get(number)
        if found is None:
            content = NO_CELLS if self._source is None or cells == 0 else self._source.shown(number, cells)
            found = self._shown[number] = Store(content)
        return found

    # ---- what stands beside the values

    def table(self, name: str, number: int = 0, likely: int = 64) -> _raw.Table:
        """What a call of `_raw.CALLS` reads, of the sheet with this index where it reads one. It is kept, so that the next call finds it."""
        self.arrays  # (ValueError where it is closed)
        found = self._tables.get((name, number))
        if found is None:
            found = NO_TABLE if self._source is None else _raw.table(name, *self._source.given(number), likely)
            self._tables[name, number] = found
        return found

    # ---- texts

    def view(self) -> memoryview:
        """All texts in UTF-8."""
        return memoryview(self.arrays.texts)[: self.arrays.counts.text_bytes].toreadonly()

    def lent(self) -> Union[str, bytes]:
        """All texts, as a text where all is ASCII: then offsets in bytes are offsets in characters."""
        found = self._lent
        if found is None:
            try:
                found = str(self.view(), "ascii")
            except UnicodeDecodeError:
                found = bytes(self.view())
            self._lent = found
        return found

    def text(self, offset: int, length: int) -> str:
        """The text of so many bytes from an offset on."""
        found = self.lent()[offset : offset + length]
        return found if isinstance(found, str) else found.decode("utf-8")

    def texts(self, offsets: list[int], lengths: list[int]) -> list[str]:
        """The texts of so many bytes from offsets on."""
        texts = self.lent()
        if isinstance(texts, str):
            return [texts[offset : offset + length] for offset, length in zip(offsets, lengths)]
        return [texts[offset : offset + length].decode("utf-8") for offset, length in zip(offsets, lengths)]

    def words(self) -> NDArray[Any]:
        """The eight bytes from each offset of the texts on, and eight offsets more."""
        import numpy

        view = memoryview(self.arrays.texts).toreadonly()
        return numpy.ndarray(self.arrays.counts.text_bytes + 9, "<u8", view, strides=(1,))

    # ---- cells

    def items(self, item: struct.Struct, buffer: _raw.Array, count: int, first: int = 0) -> Iterator[tuple[Any, ...]]:
        """The structs of an array from one on, as tuples."""
        return item.iter_unpack(memoryview(buffer)[first * item.size : (first + count) * item.size])

    def cells(self, first: int, count: int) -> memoryview:
        """The bytes of so many cells from one on."""
        return memoryview(self.arrays.cells)[first * CELL : (first + count) * CELL]

    def moment(self, bits: int, number: float, is_duration: bool) -> Value:
        """The date, time or duration of a number of days, or the number where it is none."""
        known = self._moments[is_duration]
        found = known.get(bits)
        if found is None:
            found = known[bits] = self.reckoned(bits, number, is_duration)
        return found

    def moments(self, all_bits: list[int], numbers: list[float], is_duration: bool) -> list[Value]:
        """The same of several numbers."""
        known = self._moments[is_duration]
        try:
            return list(map(known.__getitem__, all_bits))
        except KeyError:
            for bits, number in zip(all_bits, numbers):
                if bits not in known:
                    known[bits] = self.reckoned(bits, number, is_duration)
            return list(map(known.__getitem__, all_bits))

    def reckoned(self, bits: int, number: float, is_duration: bool) -> Value:
        """The same. The library writes it, and what it writes of most numbers is plain."""
        first, end, epoch = (0.0, LONGEST, None) if is_duration else RECKONED[self.is_1904]
        if first <= number < end:
            span = span_of(number)
            if span is not None:
                return span if epoch is None else epoch + span
        text = _raw.serial(bits, self.is_1904, is_duration)
        found = duration_of(text) if is_duration else moment_of(text)
        return number if found is None else found

    def value(self, kind: int, bits: int, length: int, number: float) -> Value:
        """The value of a cell by the fields of its struct, and by the number that its bits are."""
        if kind == _raw.TEXT:
            return self.text(bits, length)
        if kind == _raw.NUMBER:
            return number
        if kind == _raw.WHOLE_NUMBER:
            return int(number)
        if kind == _raw.DATE_TIME:
            return self.moment(bits, number, False)
        if kind == _raw.BOOLEAN:
            return bits != 0
        if kind == _raw.ERROR:
            return ERRORS[bits]
        if kind == _raw.DURATION:
            return self.moment(bits, number, True)
        return None if kind == 0 else self.text(bits, length)

    def values(self, cells: memoryview, first: int = 0, step: int = 1) -> list[Value]:
        """The values of one cell and of each so many after it."""
        kinds = cells[CELL * first + KIND_BYTE :: CELL * step].tobytes()
        if not kinds:
            return []
        numbers: list[Any] = cells.cast("d")[4 * first + 2 :: 4 * step].tolist()
        kind = kinds[0]
        is_one_kind = kinds.count(kind) == len(kinds)
        if is_one_kind and kind == _raw.NUMBER:
            return numbers
        if is_one_kind and kind == _raw.WHOLE_NUMBER:
            return list(map(int, numbers))
        fields = cells.cast("Q")
        bits: list[int] = fields[4 * first + 2 :: 4 * step].tolist()
        if is_one_kind and kind in (_raw.DATE_TIME, _raw.DURATION):
            return self.moments(bits, numbers, kind == _raw.DURATION)
        if is_one_kind and kind == _raw.BOOLEAN:
            return list(map(bool, bits))
        if is_one_kind and kind == _raw.ERROR:
            return list(map(ERRORS.__getitem__, bits))
        lengths: list[int] = fields[4 * first + 3 :: 4 * step].tolist()
        if is_one_kind and kind == _raw.TEXT:
            return list(self.texts(bits, lengths))
        return self.mixed(kinds, bits, lengths, numbers)

    def mixed(self, kinds: bytes, all_bits: list[int], lengths: list[int], numbers: list[float]) -> list[Value]:
        """The values of cells of several kinds, the frequent ones first."""
        number_kind, text_kind, whole_kind, date_kind = _raw.NUMBER, _raw.TEXT, _raw.WHOLE_NUMBER, _raw.DATE_TIME
        text, known, other = self.text, self._moments[False], self.value
        texts = self.lent()
        ascii_texts = texts if isinstance(texts, str) else None
        found: list[Value] = []
        append = found.append
        for kind, bits, length, number in zip(kinds, all_bits, lengths, numbers):
            if kind == number_kind:
                append(number)
            elif kind == text_kind:
                append(text(bits, length) if ascii_texts is None else ascii_texts[bits : bits + length])
            elif kind == whole_kind:
                append(int(number))
            elif kind == date_kind and bits in known:
                append(known[bits])
            else:
                append(other(kind, bits, length, number))
        return found


# (no library is asked what is shown of no cells)
NO_CELLS = _raw.Content(bytes(_raw.SHEET.size), b"", b"", b"", b"", b"", _raw.Counts(1, 0, 0, 0, 0, 0), False)
NO_TABLE = _raw.Table(b"", b"", b"", (0, 0, 0))


def restored(*fields: Any) -> Store:
    """The store of the buffers that a pickle holds."""
    return Store(_raw.Content(*fields[:8]), Source(*fields[8:]) if fields[8:] else None)
