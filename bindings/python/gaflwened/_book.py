"""A workbook and its sheets."""

from __future__ import annotations

import functools
import operator
import os
from typing import TYPE_CHECKING, Any, BinaryIO, Iterator, Optional, Union, cast, overload

from . import _beside, _raw
from ._beside import CellStyle, Citation, Comment, Damage, HiddenRun, Link, OtherBook, Style
from ._errors import SheetNotFound
from ._store import CELL, Source, Store
from ._values import KINDS, PLACES, VISIBILITIES, Cell, DefinedName, Formula, Region, Value, place_of

if TYPE_CHECKING:
    import pandas
    from numpy.typing import NDArray

# What open_workbook takes.
File = Union[str, os.PathLike[Any], BinaryIO]
# How many cells are looked at together.
TOGETHER = 4096
FEW = 8  # rows, of which columns aren't made
MOST = (1 << 64) - 1
# (Cell._make, without its look at how many fields there are)
AS_CELL = functools.partial(tuple.__new__, Cell)


class Workbook:
    """What a workbook holds. `open_workbook` and `Workbook.from_bytes` make one; it keeps no file open.

    It has its sheets as a sequence and by their names: `book[0]`, `book["Data"]`, `len(book)`, `for sheet in book`. It may be pickled, and so
    be handed to another process. Its memory is given back with the last reference to it, to its sheets and to what `to_numpy` and `texts`
    gave; or, where none has what these gave, by `close`, which the end of a `with` calls. The workbook's stream is a part of it, about as
    large as the file: from it `Sheet.shown` and what stands beside the values (`Sheet.style`, `Sheet.comments`, `other_books`, ..) are read
    when they are asked for first.
    """

    def __init__(self, store: Store):
        self._store = store
        self._sheets = tuple(Sheet(store, number) for number in range(store.arrays.counts.sheets))

    @classmethod
    def from_bytes(cls, file: Any, *, code_page: Optional[int] = None, sheet: Union[None, int, str] = None, content: bool = True,
                   few_functions: bool = False, max_bytes: Optional[int] = None, max_cells: Optional[int] = None) -> Workbook:
        """Reads the workbook of a file's bytes: a compound file, or a workbook's stream alone.

        The bytes are all those of an object with the buffer protocol: bytes, a bytearray, a memoryview or an array of any type. The options
        and the errors are those of `open_workbook`; TypeError where it has no buffer.
        """
        options = Options(code_page, sheet, content, few_functions, max_bytes, max_cells)
        data = file if isinstance(file, bytes) else memoryview(file).tobytes()
        return options.read(_raw.stream(data, len(data)))

    @property
    def sheets(self) -> tuple[Sheet, ...]:
        """The sheets in the order of the workbook."""
        return self._sheets

    @property
    def sheet_names(self) -> list[str]:
        """The names of the sheets in the order of the workbook."""
        return [sheet.name for sheet in self._sheets]

    @property
    def worksheets(self) -> tuple[Sheet, ...]:
        """The sheets that pandas counts: all but those of charts, macros and VBA."""
        return tuple(sheet for sheet in self._sheets if sheet.kind in ("worksheet", "dialog"))

    @property
    def names(self) -> tuple[DefinedName, ...]:
        """The defined names in the order of the workbook. Two sheets may each have one of the same name."""
        text, arrays = self._store.text, self._store.arrays
        items = self._store.items(_raw.NAME, arrays.names, arrays.counts.names)
        return tuple(DefinedName(text(a, b), text(c, d)) for a, b, c, d in items)

    @property
    def is_1904(self) -> bool:
        """Whether days count from 1904-01-01. Else they count from 1899-12-31."""
        return self._store.arrays.is_1904

    @property
    def styles(self) -> tuple[Style, ...]:
        """How the cells look, one for each format of cells that the workbook has; `Sheet.to_numpy` has indexes into it."""
        return tuple(_beside.styles(self._store.table("styles")))

    @property
    def other_books(self) -> tuple[OtherBook, ...]:
        """The other workbooks and programs that this one refers to, in the order of the file; `Sheet.outside` has what formulas cite of them."""
        return _beside.books(self._store.table("books"))[0]

    @property
    def added_functions(self) -> tuple[str, ...]:
        """The names of the functions of add-ins that formulas call, in the order of the file."""
        return _beside.books(self._store.table("books"))[1]

    @property
    def damaged(self) -> tuple[Damage, ...]:
        """The damaged records of fonts, formats of cells and other workbooks, in the order of the file; `Sheet.damaged` has those of sheets."""
        return _beside.damages(self._store.table("styles"), self._store.table("books"))

    @property
    def texts(self) -> memoryview:
        """All texts in UTF-8, as bytes that can't be written. The arrays of `Sheet.to_numpy` have offsets into it."""
        return self._store.view()

    def close(self) -> None:
        """Gives the memory back; it and its sheets then answer nothing but ValueError. What `to_numpy` and `texts` gave stays as it is."""
        self._store.close()

    @property
    def closed(self) -> bool:
        """Whether `close` was called."""
        return self._store.is_closed

    def __enter__(self) -> Workbook:
        self._store.arrays  # (ValueError where it is closed)
        return self

    def __exit__(self, *_: object) -> None:
        self.close()

    def __getitem__(self, wanted: Union[str, int]) -> Sheet:
        """The last sheet of a name, spelled in the same case, or the sheet of an index, from 0 or, below 0, from the end.

        SheetNotFound where there is none.
        """
        if isinstance(wanted, str):
            for sheet in reversed(self._sheets):
                if sheet.name == wanted:
                    return sheet
            raise SheetNotFound(wanted)
        try:
            return self._sheets[operator.index(wanted)]
        except IndexError:
            raise SheetNotFound(wanted) from None
        except TypeError:
            raise TypeError(f"a sheet is asked for by its name or its index, and not by {wanted!r}") from None

    def __contains__(self, name: object) -> bool:
        return any(sheet is name or sheet.name == name for sheet in self._sheets)

    def __iter__(self) -> Iterator[Sheet]:
        return iter(self._sheets)

    def __len__(self) -> int:
        return len(self._sheets)

    def __reduce__(self) -> tuple[Any, ...]:
        return Workbook, (self._store,)

    def __repr__(self) -> str:
        if self.closed:
            return "<gaflwened.Workbook, closed>"
        return f"<gaflwened.Workbook of {', '.join(map(repr, self.sheet_names)) or 'no sheets'}>"


class Sheet:
    """A sheet of a workbook. Several sheets of one name all show the content of the last of them.

    It is a sequence of its rows: `sheet[0]` and `sheet[-1]` are the first and the last, `sheet[2:5]` three of them, `len(sheet)` how many
    there are, `for row in sheet` and `list(sheet)` all of them. `sheet[2, 1]` and `sheet["B3"]` are the value of one cell. A sheet may be
    pickled; its whole workbook goes with it. All but its number is refused with ValueError once the workbook is closed.
    """

    def __init__(self, store: Store, number: int):
        self._store = store
        self._number = number
        fields = _raw.SHEET.unpack_from(store.arrays.sheets, number * _raw.SHEET.size)
        self._name = fields[:2]
        self._first_cell, self._cells, self._first_formula, self._formulas, self._first_region, self._regions = fields[2:8]
        self._kind, self._visibility = fields[8:]
        self._width: Optional[int] = None

    @property
    def name(self) -> str:
        """The name."""
        return self._store.text(*self._name)

    @property
    def number(self) -> int:
        """The index of the sheet in its workbook, from 0."""
        return self._number

    @property
    def kind(self) -> str:
        """'worksheet', 'dialog', 'macro', 'chart' or 'vba'."""
        return KINDS[self._kind]

    @property
    def visibility(self) -> str:
        """'visible', 'hidden' or 'veryhidden'."""
        return VISIBILITIES[self._visibility]

    def _raw_cells(self) -> Iterator[tuple[Any, ...]]:
        """The fields of each cell's struct."""
        return self._store.items(_raw.CELL, self._store.arrays.cells, self._cells, self._first_cell)

    def _raw_cell(self, index: int) -> tuple[int, int, int, int, int, int, float]:
        """The fields of a cell's struct, and the number that its bits are."""
        place = self._store.arrays.cells, (self._first_cell + index) * CELL
        row, column, kind, form, bits, length = _raw.CELL.unpack_from(*place)
        return row, column, kind, form, bits, length, _raw.CELL_NUMBER.unpack_from(*place)[0]

    @property
    def nrows(self) -> int:
        """One more than the last row with a cell, 0 where there is none."""
        return self._raw_cell(self._cells - 1)[0] + 1 if self._cells else 0

    @property
    def ncols(self) -> int:
        """One more than the last column with a cell, 0 where there is none."""
        if self._width is None:
            columns = self._store.cells(self._first_cell, self._cells).cast("I")[1::8]
            self._width = max(columns.tolist(), default=-1) + 1
        return self._width

    def _parts(self) -> Iterator[tuple[list[int], list[int], list[Value]]]:
        """The rows, the columns and the values of cells, so many together."""
        for first in range(0, self._cells, TOGETHER):
            cells = self._store.cells(self._first_cell + first, min(TOGETHER, self._cells - first))
            words = cells.cast("I")
            yield words[0::8].tolist(), words[1::8].tolist(), self._store.values(cells)

    def cells(self) -> Iterator[Cell]:
        """The cells that the file has, by row and then by column, each position once."""
        for part in self._parts():
            yield from map(AS_CELL, zip(*part))

    def rows(self) -> Iterator[list[Value]]:
        """The rows from row 0 to the last with a cell, `nrows` lists of `ncols` values each, None where no cell stands.

        They are made while one goes through them: `list(sheet)` has all.
        """
        return self._rows(0, self.nrows)

    def _rows(self, first: int, last: int) -> Iterator[list[Value]]:
        """The rows from one to before another."""
        width, end = self.ncols, self._place(first, 0)
        # (a sheet of Excel has at most 256 columns, so that more rows stay little)
        together = max(TOGETHER // max(width, 1), 64 if width <= 256 else 1)
        for row in range(first, last, together):
            height = min(together, last - row)
            begin, end = end, self._place(row + height, 0)
            cells = self._store.cells(self._first_cell + begin, end - begin)
            # (cells stand at different places in order, so these are all places where they are as many)
            is_full = end - begin == height * width
            if is_full and height < FEW:
                values = self._store.values(cells)
                yield from (values[at : at + width] for at in range(0, len(values), width))
            elif is_full:
                columns = [self._store.values(cells, column, width) for column in range(width)]
                yield from map(list, zip(*columns))
            else:
                rows: list[list[Value]] = [[None] * width for _ in range(height)]
                words = cells.cast("I")
                for at, column, value in zip(words[0::8].tolist(), words[1::8].tolist(), self._store.values(cells)):
                    rows[at - row][column] = value
                yield from rows

    def to_dict(self) -> dict[tuple[int, int], Value]:
        """The values of the cells by row and column, from 0."""
        found: dict[tuple[int, int], Value] = {}
        for rows, columns, values in self._parts():
            found.update(zip(zip(rows, columns), values))
        return found

    def _place(self, row: int, column: int) -> int:
        """How many cells stand before a row and a column."""
        cells, item, size = self._store.arrays.cells, _raw.CELL, CELL
        begin, end = 0, self._cells
        while begin < end:
            middle = (begin + end) // 2
            if item.unpack_from(cells, (self._first_cell + middle) * size)[:2] < (row, column):
                begin = middle + 1
            else:
                end = middle
        return begin

    def _index(self, wanted: Any, end: int, what: str) -> int:
        """An index from 0; where it is below 0 it counts from the end."""
        try:
            found = operator.index(wanted)
        except TypeError:
            raise TypeError(f"a {what} is asked for by its index, and not by {wanted!r}") from None
        if 0 <= found < end:
            return found
        count = self.nrows if what == "row" else self.ncols
        if -count <= found < 0:
            return found + count
        why = f"no .xls has more than {end}" if found >= end > count else f"the sheet {self.name!r} has {count}"
        raise IndexError(f"{what} {wanted} is out of range: {why} {what}s")

    @overload
    def __getitem__(self, place: int) -> list[Value]: ...

    @overload
    def __getitem__(self, place: slice) -> list[list[Value]]: ...

    @overload
    def __getitem__(self, place: Union[str, tuple[int, int]]) -> Value: ...

    def __getitem__(self, place: Union[int, slice, str, tuple[int, int]]) -> Any:
        """A row, several rows, or the value of a cell.

        sheet[row]            the row as a list of `ncols` values
        sheet[first:last]     a list of rows, as of any slice
        sheet[row, column]    the value of the cell, None where no cell stands
        sheet["B3"]           the same by its reference, also as "$B$3"

        Rows and columns count from 0, and below 0 from the last. IndexError for a row that the sheet doesn't have and, of one cell, for a place
        that no .xls has (65,536 and more); KeyError for a text that is no reference to a cell.
        """
        if isinstance(place, slice):
            return self._slice(place)
        if isinstance(place, str):
            return self._cell(*place_of(place))
        if not isinstance(place, tuple):
            row = self._index(place, self.nrows, "row")
            return next(self._rows(row, row + 1))
        if len(place) != 2:
            raise TypeError(f"a cell is asked for by its row and its column, and not by {place!r}")
        return self._cell(self._index(place[0], PLACES, "row"), self._index(place[1], PLACES, "column"))

    def _slice(self, wanted: slice) -> list[list[Value]]:
        rows = range(self.nrows)[wanted]
        if not rows:
            return []
        first = min(rows[0], rows[-1])
        if abs(rows.step) == 1:
            return list(self._rows(first, first + len(rows)))[:: rows.step]
        return [next(self._rows(row, row + 1)) for row in rows]

    def _cell(self, row: int, column: int) -> Value:
        """The value of the cell at a row and a column; None where none stands."""
        at = self._place(row, column)
        if at < self._cells:
            found_row, found_column, kind, _, bits, length, number = self._raw_cell(at)
            if (found_row, found_column) == (row, column):
                return self._store.value(kind, bits, length, number)
        return None

    def _as_shown(self) -> Sheet:
        """What Excel shows of the cells, as a sheet of texts in the same places."""
        return Sheet(self._store.shown(self._number, self._cells), 0)

    def shown(self, row: int, column: int) -> Optional[str]:
        """What Excel shows of the cell at a row and a column, in a column of any width; None where no cell stands.

        It is the text that the number format of the cell makes of its value, in the English of the United States: `1,234.50` or `13%`. The
        first call for a sheet makes the texts of all its cells, which are kept until the workbook is closed. Rows and columns count as in
        `sheet[row, column]`. IndexError for a place that no .xls has, MemoryError.
        """
        place = self._index(row, PLACES, "row"), self._index(column, PLACES, "column")
        found = self._as_shown()._cell(*place)
        return found if isinstance(found, str) else None

    def shown_rows(self) -> Iterator[list[Optional[str]]]:
        """The rows with what Excel shows, `nrows` lists of `ncols` texts each, None where no cell stands. They are as of `shown`."""
        return cast("Iterator[list[Optional[str]]]", self._as_shown().rows())

    # ---- what stands beside the values, which is read when it is asked for

    def _table(self, name: str) -> _raw.Table:
        """What a call of `_raw.CALLS` reads of this sheet."""
        return self._store.table(name, self._number, self._cells if name == "style_of" else 64)

    @property
    def hidden_rows(self) -> tuple[HiddenRun, ...]:
        """The rows that can't be seen, as runs `(first, last, why)` from 0, the last included; `why` is 'hidden', 'filtered' or 'flat'.

        Runs ascend, and each is as long as it can be for one reason.
        """
        return _beside.hidden_runs(self._table("hidden"), False)

    @property
    def hidden_columns(self) -> tuple[HiddenRun, ...]:
        """The columns that can't be seen, as `hidden_rows` has the rows."""
        return _beside.hidden_runs(self._table("hidden"), True)

    def style(self, row: int, column: int) -> Optional[Style]:
        """How the cell at a row and a column looks: `style.strike`, `style.fill`, `style.format`, .. None where the file has no cell.

        A blank cell looks like something too. The first call reads which style each cell of the sheet has (12 bytes a cell), which is kept
        until the workbook is closed. Rows and columns count as in `sheet[row, column]`. IndexError for a place that no .xls has,
        MemoryError.
        """
        place = self._index(row, PLACES, "row"), self._index(column, PLACES, "column")
        index = _beside.style_index(self._table("style_of"), *place)
        return None if index is None else _beside.style_at(self._store.table("styles"), index)

    def styles(self) -> Iterator[CellStyle]:
        """How the cells look, by row and then by column, blank cells too: `(row, column, style)` each. Cells of one style share it."""
        return _beside.cell_styles(self._table("style_of"), self._store.table("styles"))

    @property
    def comments(self) -> dict[tuple[int, int], Comment]:
        """The comments by row and column from 0, in the order of the file; of several for one cell the last."""
        return _beside.comments(self._table("comments"))

    @property
    def links(self) -> tuple[Link, ...]:
        """The hyperlinks in the order of the file. Formulas with HYPERLINK aren't among them."""
        return _beside.links(self._table("links"))

    @property
    def outside(self) -> tuple[Citation, ...]:
        """What formulas cite of other workbooks, in the order of the file; of each formula from left to right, each once."""
        return _beside.citations(self._table("outside_of"))

    @property
    def damaged(self) -> tuple[Damage, ...]:
        """The damaged records of what is hidden, of comments and of hyperlinks, in the order of the file."""
        return _beside.damages(*(self._table(name) for name in ("hidden", "comments", "links")))

    def __iter__(self) -> Iterator[list[Value]]:
        return self.rows()

    def __len__(self) -> int:
        return self.nrows

    @property
    def formulas(self) -> tuple[Formula, ...]:
        """The formulas, by row and then by column. One that can't be spelled says so; the text of a shared formula is empty."""
        text = self._store.text
        items = self._store.items(_raw.FORMULA, self._store.arrays.formulas, self._formulas, self._first_formula)
        return tuple(Formula(row, column, text(offset, length)) for row, column, offset, length in items)

    @property
    def merged_regions(self) -> tuple[Region, ...]:
        """The merged regions in the order of the file."""
        items = self._store.items(_raw.REGION, self._store.arrays.regions, self._regions, self._first_region)
        return tuple(Region(*fields) for fields in items)

    def to_numpy(self) -> NDArray[Any]:
        """The cells as one structured array of shape (cells,), without a copy and never to be written: by row and then by column.

        row, column    from 0
        kind           1 number, 2 date or time, 3 duration, 4 truth value, 5 error, 6 text, 9 whole number in short form
        form           how the file has the number: 0 a double, 1 a whole number, 2 hundredths, 3 a double over 100
        number         of kinds 1, 2, 3 and 9: the number, of days for 2 and 3
        value          the same 64 bits as a whole number: of 4 it is 0 or 1, of 5 the error's code, of 6 an offset into `Workbook.texts`
        length         of a text: its bytes
        style          which style, an index into `Workbook.styles`; a plain style where it is past the end. It is no field of the dtype:
                       `cells["style"]` makes it when it is asked for, of all cells or of those that were chosen

        ImportError where numpy isn't there.
        """
        from . import _array

        found: NDArray[Any] = _array.with_style(self)
        return found

    def to_long(self) -> pandas.DataFrame:
        """The cells as a DataFrame of pandas of shape (cells, 4), a line for each that the file has, by row and then by column.

        row, column    from 0 (int64)
        kind           int, float, date, span, text, bool or error, as in the lines of `xls dump` (a category)
        value          the value as `cells` gives it: int, float, datetime or time, timedelta, str, bool, CellError (objects)

        ImportError where numpy or pandas isn't there.
        """
        from . import _frame

        return _frame.long_of(self)

    def to_dataframe(self, header: Any = 0, **options: Any) -> pandas.DataFrame:
        """The sheet as a DataFrame of pandas of shape (nrows - header - 1, ncols), whose columns are named by row `header`.

        None instead of a row: all `nrows` rows, and the columns are named by numbers.

        The options are those of `pandas.read_excel`, as far as they are of one sheet, and `as_shown`: `gaflwened.read_excel` names them.
        TypeError of any other; ImportError where numpy or pandas isn't there.
        """
        from . import _frame

        return _frame.frame_of(self, header=header, **options)

    def __reduce__(self) -> tuple[Any, ...]:
        return Sheet, (self._store, self._number)

    def __repr__(self) -> str:
        if self._store.is_closed:
            return f"<gaflwened.Sheet {self._number} of a closed workbook>"
        return f"<gaflwened.Sheet {self.name!r} of {self._cells} cells>"


def _whole(name: str, value: Any, least: int, most: int, what: str) -> int:
    """A whole number that an option is."""
    try:
        if isinstance(value, bool):
            raise TypeError
        found = operator.index(value)
    except TypeError:
        raise TypeError(f"{name} is {what}, and not {value!r}") from None
    if not least <= found <= most:
        raise ValueError(f"{name} is {what}, and not {value!r}")
    return found


class Options:
    """The options of `open_workbook`, looked at."""

    def __init__(self, code_page: Optional[int], sheet: Union[None, int, str], content: bool, few_functions: bool, max_bytes: Optional[int],
                 max_cells: Optional[int]):
        page = 0 if code_page is None else _whole("code_page", code_page, 1, 65_535, "the number of a code page, at most 65535")
        most = [0 if value is None else _whole(name, value, 1, MOST, "a number from 1 on, of 64 bits")
                for name, value in (("max_bytes", max_bytes), ("max_cells", max_cells))]
        if sheet is not None and not content:
            raise ValueError("with content=False all sheets are told, so that `sheet` chooses none")
        if sheet is not None and not isinstance(sheet, str):
            sheet = _whole("sheet", sheet, 0, MOST, "a name, or an index from 0")
        self.sheet = sheet
        self.raw = _raw.Options(*most, 0, _raw.ALL_SHEETS if content else _raw.NO_CONTENT, page, not few_functions)

    def read(self, stream: tuple[Union[bytes, _raw.Buffer], int]) -> Workbook:
        """The workbook of a stream."""
        number = self.sheet
        if isinstance(number, str):
            self.raw.which = _raw.NO_CONTENT
            number = Workbook(Store(_raw.read(*stream, self.raw)))[number].number
        if number is not None:
            self.raw.which, self.raw.sheet = _raw.ONE_SHEET, number
        return Workbook(Store(_raw.read(*stream, self.raw), Source(*stream, bytes(self.raw))))


def _file_bytes(file: Any) -> bytes:
    """What an open file has, from its beginning where it can go there."""
    can_seek = file.seekable() if hasattr(file, "seekable") else hasattr(file, "seek")
    if can_seek:
        file.seek(0)
    data = file.read()
    if isinstance(data, str) or data is None:
        raise TypeError(f"the file gives {type(data).__name__} and not bytes: open it with mode 'rb'")
    return data if isinstance(data, bytes) else memoryview(data).tobytes()


def open_workbook(path: File, *, code_page: Optional[int] = None, sheet: Union[None, int, str] = None, content: bool = True,
                  few_functions: bool = False, max_bytes: Optional[int] = None, max_cells: Optional[int] = None) -> Workbook:
    """Reads the workbook of a file, by its path or from an open file.

    An open file gives bytes (mode 'rb'). It is read from its beginning where it can seek, else from where it stands, and is left open.

    code_page       read texts of single bytes by this page and not by the one that the file names: 1200, 1252, 28591 or 65001
    sheet           read this sheet alone, by its index from 0 or by its name; the workbook has no other then
    content         False: read of each sheet its name, kind and visibility alone
    few_functions   True: formulas have the names of the first 72 functions alone, as in `xls dump --exact`
    max_bytes       how many bytes the workbook's stream may have, 268,435,456 without it
    max_cells       how many cells the records of one sheet may give, 33,554,432 without it

    OSError where the file can't be read; Error, with the first thing that is wrong with it; SheetNotFound where no sheet has the name;
    MemoryError; ValueError and TypeError of options that mean nothing.
    """
    options = Options(code_page, sheet, content, few_functions, max_bytes, max_cells)
    if hasattr(path, "read"):
        data = _file_bytes(path)
        return options.read(_raw.stream(data, len(data)))
    if isinstance(path, (bytes, bytearray, memoryview)):
        raise TypeError("open_workbook takes a path or an open file; Workbook.from_bytes takes the bytes of one")
    # (the file's bytes are given back before the arrays are made)
    return options.read(_raw.stream(*_raw.file_bytes(path)))
