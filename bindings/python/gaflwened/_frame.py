"""Cells as arrays of numpy, and sheets as DataFrames of pandas."""

from __future__ import annotations

import operator
from typing import TYPE_CHECKING, Any, Iterator, Optional

try:
    import numpy
    import pandas
except ImportError as error:
    raise ImportError(f"gaflwened makes DataFrames with numpy and pandas ({error}): pip install numpy pandas") from error
from pandas.errors import EmptyDataError
from pandas.io.parsers import TextParser

from . import _raw
from ._array import cells_of
from ._beside import HiddenRun
from ._book import Sheet, Workbook, open_workbook
from ._errors import SheetNotFound
from ._store import RECKONED, Store
from ._values import ERRORS, PLACES, CellError, Value

if TYPE_CHECKING:
    from numpy.typing import NDArray

# The texts that pandas takes for no value, by its documents.
NO_VALUE = frozenset(
    ["", "#N/A", "#N/A N/A", "#NA", "-1.#IND", "-1.#QNAN", "-NaN", "-nan", "1.#IND", "1.#QNAN", "<NA>", "N/A", "NA", "NULL", "NaN", "n/a",
     "nan", "null"]
)
if pandas.__version__.split(".")[0] != "1":
    NO_VALUE |= {"None"}
LONGEST = max(map(len, NO_VALUE))
# The texts that pandas takes for truth values.
TRUTHS = frozenset(["True", "TRUE", "true", "False", "FALSE", "false"])

DAY = 86_400_000  # milliseconds
# Dates and durations of pandas are 64 bits of nanoseconds: these days are well inside.
LAST_DAY, LONGEST_DURATION = 130_000.0, 100_000.0

# How many texts are looked at to see whether they are repeated.
SAMPLE = 4096
MULTIPLIER = numpy.uint64(0x9E37_79B9_7F4A_7C15)
# The first bytes of a word, by how many.
MASKS = numpy.array([(1 << 8 * count) - 1 for count in range(9)], numpy.uint64)


# ---- columns


class Column:
    """The cells of one column from a row on, and how many rows there are."""

    def __init__(self, store: Store, cells: NDArray[Any], first: int, height: int):
        self.store = store
        self.cells = cells
        self.first = first
        self.height = height
        self.kind = numpy.ascontiguousarray(cells["kind"])
        self.kinds = numpy.flatnonzero(numpy.bincount(self.kind)).tolist()

    def is_full(self) -> bool:
        return len(self.cells) == self.height

    def filled(self, values: Any, dtype: Any, blank: Any) -> NDArray[Any]:
        """The values, one a cell, and a blank in the rows without a cell."""
        found: NDArray[Any]
        if self.is_full():
            found = values.astype(dtype, copy=False)
            return found
        found = numpy.full(self.height, blank, dtype)
        found[self.cells["row"] - self.first] = values
        return found

    def values(self) -> NDArray[Any]:
        """What pandas has as the column: numbers, dates or truth values where it is made of these alone, and else objects."""
        found = None
        if set(self.kinds) <= {_raw.NUMBER, _raw.WHOLE_NUMBER, _raw.ERROR}:
            found = self.numbers()
        elif self.kinds == [_raw.BOOLEAN] and self.is_full():
            found = self.cells["value"] != 0
        elif self.kinds == [_raw.DATE_TIME]:
            found = self.dates()
        elif self.kinds == [_raw.DURATION]:
            found = self.durations()
        return self.inferred() if found is None else found

    def numbers(self) -> NDArray[Any]:
        """Whole numbers where all are whole and no row is without one, else doubles; an error is no number."""
        found = self.cells["number"].copy()
        if _raw.ERROR in self.kinds:
            found[self.kind == _raw.ERROR] = numpy.nan
        elif self.is_full() and len(found) and is_whole(found).all():
            return found.astype(numpy.int64)
        return self.filled(found, numpy.float64, numpy.nan)

    def dates(self) -> Optional[NDArray[Any]]:
        """The dates; None where there is a time of day alone, or a number that is no date of pandas."""
        days = self.cells["number"]
        if not ((days >= 1) & (days < LAST_DAY)).all():
            return None
        found = milliseconds_of(self.cells, self.store.is_1904, False)
        if self.store.is_1904:
            found += since_1970("1904-01-01")
        else:
            # Day 60 is 1900-02-29, which the calendar lacks.
            odd = found // DAY == 60
            found += numpy.where(found < 60 * DAY, since_1970("1899-12-31"), since_1970("1899-12-30"))
            if odd.any():
                values = found.view("M8[ms]").astype(object)
                values[odd] = days[odd]
                return self.filled(values, object, numpy.nan)
        return self.filled((found * 1_000_000).view("M8[ns]"), "M8[ns]", numpy.datetime64("NaT"))

    def durations(self) -> Optional[NDArray[Any]]:
        """The durations; None where there is a number that is none of pandas."""
        if not (numpy.abs(self.cells["number"]) < LONGEST_DURATION).all():
            return None
        found = milliseconds_of(self.cells, self.store.is_1904, True)
        return self.filled((found * 1_000_000).view("m8[ns]"), "m8[ns]", numpy.timedelta64("NaT"))

    def texts(self) -> NDArray[Any]:
        """The texts of a column that has no other cells, those for no value as NaN."""
        found, lengths, which = distinct(self.store, self.cells)
        for at in numpy.flatnonzero(lengths <= LONGEST).tolist():
            if found[at] in NO_VALUE:
                found[at] = numpy.nan
        return self.filled(found if which is None else found[which], object, numpy.nan)

    def inferred(self) -> NDArray[Any]:
        """A column with texts, or of several kinds, as `pandas.read_excel` has it."""
        if self.kinds == [_raw.TEXT]:
            values = self.texts()
            first = next((value for value in values if type(value) is str), None)
            if first is not None and first not in TRUTHS and not is_number(first):
                return values
        column: NDArray[Any] = parsed([[value] for value in self.objects()], header=None)[0].to_numpy()
        return column

    def objects(self) -> list[Any]:
        """The values as pandas' own readers give them: a blank as an empty text, an error as NaN, whole numbers as such."""
        found = [""] * self.height
        fields = (self.cells[name].tolist() for name in ("kind", "value", "length", "number"))
        value = self.store.value
        for row, *held in zip((self.cells["row"] - self.first).tolist(), *fields):
            found[row] = given(value(*held))
        return found


def repeated(store: Store, offsets: NDArray[Any], lengths: NDArray[Any]) -> tuple[Any, Any]:
    """Of short texts that stand there again and again: the places of the different ones, and which of them each text is. Nothing of others.

    So a text that many cells show is made once.
    """
    if len(lengths) < SAMPLE or lengths.max() > 16:
        return None, None
    words = store.words()
    first = words[offsets] & MASKS[numpy.minimum(lengths, 8)]
    second = words[offsets + 8] & MASKS[numpy.maximum(lengths - 8, 0)]
    keys = (first * MULTIPLIER ^ second) * MULTIPLIER ^ lengths.view(numpy.uint64)
    if len(numpy.unique(keys[:SAMPLE])) > SAMPLE // 2:
        return None, None
    which, _ = pandas.factorize(keys)
    places = numpy.empty(which.max() + 1, numpy.int64)
    places[which[::-1]] = numpy.arange(len(which))[::-1]
    # (different texts could have one key)
    same = all((part[places][which] == part).all() for part in (first, second, lengths))
    return (places, which) if same else (None, None)


def distinct(store: Store, cells: NDArray[Any]) -> tuple[NDArray[Any], NDArray[Any], Any]:
    """The texts of cells, their lengths in bytes, and which of them each cell shows; None where it is one a cell."""
    offsets, lengths = (cells[name].astype(numpy.int64) for name in ("value", "length"))
    places, which = repeated(store, offsets, lengths)
    if which is not None:
        offsets, lengths = offsets[places], lengths[places]
    found = numpy.empty(len(offsets), object)
    found[:] = store.texts(offsets.tolist(), lengths.tolist())
    return found, lengths, which


def given(value: Value) -> Any:
    """A value as pandas' own readers give it."""
    if value is None:
        return ""
    if type(value) is float and value == value // 1 and abs(value) < 2.0**63:
        return int(value)
    return numpy.nan if type(value) is CellError else value


def is_whole(numbers: NDArray[Any]) -> NDArray[Any]:
    """Which numbers are whole and fit into 64 bits."""
    found: NDArray[Any] = (numpy.abs(numbers) < 2.0**63) & (numbers == numpy.floor(numbers))
    return found


def is_number(text: str) -> bool:
    """Whether pandas may take a text for a number."""
    try:
        pandas.to_numeric([text])
    except (ValueError, TypeError):
        return False
    return True


def since_1970(moment: Any) -> int:
    """The milliseconds of a date."""
    return int(numpy.datetime64(moment, "ms").astype(numpy.int64))


def milliseconds_of(cells: NDArray[Any], is_1904: bool, is_duration: bool) -> NDArray[Any]:
    """The nearest milliseconds of the cells' numbers of days, which are those that the library says.

    The part of a day is exact here, and its milliseconds are less than 1e-7 from the exact ones. So where they aren't in the middle of two
    they are rounded as the exact ones are, and else the library is asked.
    """
    found: NDArray[Any]
    days = cells["number"]
    whole = numpy.floor(days)
    parts = (days - whole) * DAY
    found = whole.astype(numpy.int64) * DAY + numpy.rint(parts).astype(numpy.int64)
    for at in numpy.flatnonzero(numpy.abs(parts - numpy.floor(parts) - 0.5) < 1e-6).tolist():
        text = _raw.serial(int(cells["value"][at]), is_1904, is_duration)
        lower = int(whole[at]) * DAY + int(parts[at])
        # (of two that follow one another the last digit says which it is)
        fraction = int(text.partition(".")[2].ljust(3, "0")) * (-1 if text.startswith("-") else 1)
        found[at] = lower if lower % 10 == fraction % 10 else lower + 1
    return found


def width_of(sheet: Sheet) -> int:
    """How many columns a sheet has."""
    if sheet._width is None and sheet._cells:
        sheet._width = int(cells_of(sheet)["column"].max()) + 1
    return sheet.ncols


# The words for kinds of cells, and which of them each kind has (of a blank, which no sheet lists, none).
WORDS = ["int", "float", "date", "span", "text", "bool", "error"]
WORD_OF = numpy.array([-1, 1, 2, 3, 5, 6, 4, 4, 4, 0], numpy.int8)


def moments(store: Store, cells: NDArray[Any], is_duration: bool) -> NDArray[Any]:
    """The dates or durations of cells, as `Store.moment` has them."""
    days = cells["number"]
    first, end, epoch = (0.0, LONGEST_DURATION, None) if is_duration else RECKONED[store.is_1904]
    plain = (days >= first) & (days < end)
    found = numpy.empty(len(cells), object)
    milliseconds = milliseconds_of(cells[plain], store.is_1904, is_duration)
    unit = "m8[ms]" if epoch is None else "M8[ms]"
    found[plain] = (milliseconds + (0 if epoch is None else since_1970(epoch))).view(unit).astype(object)
    for at in numpy.flatnonzero(~plain).tolist():
        found[at] = store.moment(int(cells["value"][at]), float(days[at]), is_duration)
    return found


def objects_of(store: Store, cells: NDArray[Any], kind: int) -> NDArray[Any]:
    """The values of cells that are all of one kind."""
    found: NDArray[Any]
    if kind == _raw.NUMBER:
        found = cells["number"].astype(object)
    elif kind == _raw.WHOLE_NUMBER:
        found = cells["number"].astype(numpy.int64).astype(object)
    elif kind == _raw.BOOLEAN:
        found = (cells["value"] != 0).astype(object)
    elif kind in (_raw.DATE_TIME, _raw.DURATION):
        found = moments(store, cells, kind == _raw.DURATION)
    elif kind == _raw.ERROR:
        found = numpy.array([ERRORS.get(code) for code in range(256)], object)[cells["value"].astype(numpy.intp)]
    else:
        texts, _, which = distinct(store, cells)
        found = texts if which is None else texts[which]
    return found


def long_of(sheet: Sheet) -> pandas.DataFrame:
    """The cells, a line for each."""
    cells = cells_of(sheet)
    kinds = numpy.ascontiguousarray(cells["kind"])
    values = numpy.empty(len(cells), object)
    for kind in numpy.flatnonzero(numpy.bincount(kinds)).tolist():
        which = kinds == kind
        values[which] = objects_of(sheet._store, cells[which], kind)
    places = {name: cells[name].astype(numpy.int64) for name in ("row", "column")}
    kind_words = pandas.Categorical.from_codes(WORD_OF[kinds], WORDS)
    return pandas.DataFrame({**places, "kind": kind_words, "value": pandas.Series(values, dtype=object)}, copy=False)


def columns_of(sheet: Sheet, first: int, last: int) -> Iterator[NDArray[Any]]:
    """Each column of a sheet, from a row to before another."""
    cells, height, width = cells_of(sheet), last - first, width_of(sheet)
    cells = cells[sheet._place(first, 0) : sheet._place(last, 0)]
    if len(cells) == height * width:
        for column in range(width):
            yield Column(sheet._store, cells[column::width], first, height).values()
        return
    order = numpy.argsort(cells["column"].astype(numpy.uint16), kind="stable")
    ends = numpy.cumsum(numpy.bincount(cells["column"], minlength=width))
    begin = 0
    for end in ends.tolist():
        yield Column(sheet._store, cells[order[begin:end]], first, height).values()
        begin = end


# ---- frames


def parsed(rows: list[list[Any]], **options: Any) -> pandas.DataFrame:
    """The frame that pandas makes of rows."""
    try:
        return TextParser(rows, skip_blank_lines=False, **options).read(nrows=options.get("nrows"))
    except EmptyDataError:
        return pandas.DataFrame()


def columns_by_letters(columns: Any) -> Any:
    """The columns that words such as `A:C,E` stand for, by their indexes from 0; anything else as it is."""
    if not isinstance(columns, str):
        return columns

    def index(letters: str) -> int:
        found = 0
        for letter in letters.strip().upper():
            if not "A" <= letter <= "Z":
                raise ValueError(f"Invalid column name: {letters}")
            found = found * 26 + ord(letter) - ord("A") + 1
        return found - 1

    found: list[int] = []
    for word in columns.split(","):
        first, _, last = word.partition(":")
        found += range(index(first), index(last or first) + 1)
    return found


def is_plain(number: Any) -> bool:
    """Whether it is none, or a number of rows."""
    return number is None or type(number) is int and number >= 0


# The arguments of pandas that its own parser is asked for, and what it takes them for without being asked.
ARGUMENTS = {
    "names": None, "index_col": None, "usecols": None, "dtype": None, "converters": None, "true_values": None, "false_values": None,
    "na_values": None, "keep_default_na": True, "na_filter": True, "parse_dates": False, "thousands": None, "decimal": ".",
    "comment": None, "skipfooter": 0,
}


def of_texts(options: dict[str, Any]) -> dict[str, Any]:
    """The options by which pandas' parser leaves texts as they are, and takes the empty one and those of na_values alone for no value."""
    words = options.get("na_values", [])
    if isinstance(words, dict):
        raise TypeError("with as_shown the na_values are those of all columns, and no dict")
    found = {**options, "keep_default_na": False, "na_values": ["", *(words if pandas.api.types.is_list_like(words) else [words])]}
    if "converters" not in found:
        found.setdefault("dtype", str)
    return found


def seen(cells: NDArray[Any], name: str, runs: tuple[HiddenRun, ...]) -> tuple[NDArray[Any], NDArray[Any]]:
    """Which cells stand in a row, or a column, that isn't in these runs, and its index among those that aren't."""
    is_seen = numpy.ones(PLACES, bool)
    for first, last, _ in runs:
        is_seen[first : last + 1] = False
    indexes = numpy.cumsum(is_seen, dtype=numpy.uint32) - 1
    return is_seen[cells[name]], indexes[cells[name]].astype(numpy.uint32)


def without_hidden(sheet: Sheet, hidden: Sheet) -> Sheet:
    """A sheet as it is without the rows and columns of another that can't be seen: what stands behind them moves up."""
    cells = cells_of(sheet)
    (in_rows, rows), (in_columns, columns) = seen(cells, "row", hidden.hidden_rows), seen(cells, "column", hidden.hidden_columns)
    which = in_rows & in_columns
    found = cells[which]
    found["row"], found["column"] = rows[which], columns[which]
    arrays, count = sheet._store.arrays, len(found)
    counts = _raw.Counts(1, 0, count, 0, 0, arrays.counts.text_bytes)
    fields = _raw.SHEET.pack(*sheet._name, 0, count, 0, 0, 0, 0, sheet._kind, sheet._visibility)
    return Sheet(Store(_raw.Content(fields, b"", found.tobytes(), b"", b"", arrays.texts, counts, arrays.is_1904)), 0)


def frame_of(sheet: Sheet, header: Any = 0, skiprows: Any = None, nrows: Any = None, as_shown: bool = False, skip_hidden: bool = False,
             **options: Any) -> pandas.DataFrame:
    """The sheet as a DataFrame, the same that pandas makes of its rows."""
    for name in options:
        if name not in ARGUMENTS:
            raise TypeError(f"unexpected argument {name!r}")
    options = {name: value for name, value in options.items() if value is not ARGUMENTS[name]}
    whole = sheet
    if as_shown:
        sheet = sheet._as_shown()
    if skip_hidden:
        sheet = without_hidden(sheet, whole)
    if as_shown:
        return frame_by_rows(sheet, header=header, skiprows=skiprows, nrows=nrows, **of_texts(options))
    if options or not (is_plain(header) and is_plain(skiprows) and is_plain(nrows)):
        return frame_by_rows(sheet, header=header, skiprows=skiprows, nrows=nrows, **options)
    at = skiprows or 0
    first = at if header is None else at + header + 1
    last = sheet.nrows if nrows is None else min(first + nrows, sheet.nrows)
    if first >= last:
        return frame_by_rows(sheet, header=header, skiprows=skiprows, nrows=nrows)
    row = first if header is None else first - 1
    heads = [given(sheet[row, column]) for column in range(width_of(sheet))]
    frame = pandas.DataFrame(dict(enumerate(columns_of(sheet, first, last))), copy=False)
    frame.columns = parsed([heads], header=None if header is None else 0).columns
    return frame


def frame_by_rows(sheet: Sheet, header: Any, usecols: Any = None, index_col: Any = None, **options: Any) -> pandas.DataFrame:
    """The frame that pandas' own parser makes of the rows; it knows all options."""
    rows = [[given(value) for value in row] for row in sheet.rows()]
    if not rows:
        return pandas.DataFrame()
    if isinstance(index_col, (list, tuple)):
        # (an index of several columns leaves out what is above: so merged cells read)
        for above, row in zip(rows[first_row(header) :], rows[first_row(header) + 1 :]):
            for column in index_col:
                row[column] = above[column] if row[column] == "" else row[column]
    return parsed(rows, header=header, usecols=columns_by_letters(usecols), index_col=index_col, **options)


def first_row(header: Any) -> int:
    """The first row below the header."""
    return 0 if header is None else int(header if isinstance(header, int) else max(header)) + 1


def sheet_of(book: Workbook, wanted: Any) -> Sheet:
    """The sheet of a name, or of an index among the worksheets, as pandas counts them."""
    if isinstance(wanted, str):
        return book[wanted]
    try:
        return book.worksheets[operator.index(wanted)]
    except IndexError:
        raise SheetNotFound(wanted) from None
    except TypeError:
        raise TypeError(f"sheet_name is a name, an index, a list of these or None, and not {wanted!r}") from None


def read_excel(io: Any, sheet_name: Any, **options: Any) -> Any:
    """The frames of the sheets that are asked for."""
    if isinstance(io, Workbook):
        book = io
    elif isinstance(io, (bytes, bytearray, memoryview)):
        book = Workbook.from_bytes(io)
    else:
        book = open_workbook(io)
    if sheet_name is None:
        return {sheet.name: frame_of(sheet, **options) for sheet in book.worksheets}
    if isinstance(sheet_name, (list, tuple)):
        return {name: frame_of(sheet_of(book, name), **options) for name in dict.fromkeys(sheet_name)}
    return frame_of(sheet_of(book, sheet_name), **options)
