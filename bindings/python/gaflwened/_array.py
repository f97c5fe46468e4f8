"""The cells of a sheet as an array of numpy."""

from __future__ import annotations

from typing import TYPE_CHECKING, Any, Optional

import numpy

from . import _raw

if TYPE_CHECKING:
    from ._book import Sheet

# The struct of a cell; its value is there twice, as bits and as a number.
CELL = numpy.dtype({
    "names": ["row", "column", "kind", "form", "value", "number", "length"],
    "formats": ["<u4", "<u4", "<u4", "<u4", "<u8", "<f8", "<u8"],
    "offsets": [0, 4, 8, 12, 16, 16, 24],
    "itemsize": _raw.CELL.size,
})
CELL_STYLE = numpy.dtype([("row", "<u4"), ("column", "<u4"), ("style", "<u2"), ("reserved", "<u2")])
NO_STYLE = 65_535

Array: Any = numpy.ndarray


class Cells(Array):  # type: ignore[misc]
    """The cells of a sheet, or some of them, and `cells["style"]`, which is made when it is asked for."""

    _sheet: Optional[Sheet]

    def __array_finalize__(self, other: Any) -> None:
        self._sheet = getattr(other, "_sheet", None)

    def __getitem__(self, key: Any) -> Any:
        if isinstance(key, str) and key == "style" and self._sheet is not None:
            return style_of(self, self._sheet._table("style_of"))
        found = super().__getitem__(key)
        # (a field is an array like others)
        return found.view(Array) if isinstance(found, Cells) and found.dtype != CELL else found


def places_of(cells: Any) -> Any:
    """The row and the column of each cell in one number."""
    return cells["row"].astype(numpy.uint64) << numpy.uint64(32) | cells["column"]


def style_of(cells: Any, table: _raw.Table) -> Any:
    """Which style each cell has; NO_STYLE where the table has none for it."""
    styles = numpy.frombuffer(table.items, CELL_STYLE, table.counts[0])
    known, wanted = places_of(styles), places_of(cells)
    # (those of the table ascend)
    at = numpy.searchsorted(known, wanted)
    is_there = at < len(known)
    is_there[is_there] = known[at[is_there]] == wanted[is_there]
    found = numpy.full(cells.shape, NO_STYLE, numpy.uint16)
    found[is_there] = styles["style"][at[is_there]]
    return found


def cells_of(sheet: Sheet) -> Any:
    """The cells of a sheet without a copy, never to be written, as an array of numpy alone."""
    # (frombuffer keeps the view that can't be written; numpy.ndarray would keep what is below it)
    view = memoryview(sheet._store.arrays.cells).toreadonly()
    return numpy.frombuffer(view, CELL, sheet._cells, sheet._first_cell * CELL.itemsize)


def with_style(sheet: Sheet) -> Any:
    """The same, and `style`."""
    found = cells_of(sheet).view(Cells)
    found._sheet = sheet
    return found
