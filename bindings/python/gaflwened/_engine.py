"""An engine of `pandas.read_excel`."""

from __future__ import annotations

from typing import Any, Optional

try:
    import pandas
except ImportError as error:
    raise ImportError(f"register_pandas wants pandas ({error}): pip install numpy pandas") from error

from ._book import Sheet, Workbook, open_workbook
from ._frame import given

NAME = "gaflwened"


def reader_of(base: Any) -> Any:
    """The class of the engine, over pandas' own `BaseExcelReader`."""

    class Reader(base):  # type: ignore[misc]
        """Reads for `pandas.read_excel(.., engine="gaflwened")`."""

        book: Workbook

        @property
        def _workbook_class(self) -> Any:
            return Workbook

        def load_workbook(self, filepath_or_buffer: Any, engine_kwargs: Optional[dict[str, Any]] = None) -> Workbook:
            # (pandas 2.1 and later hand on engine_kwargs: the options of open_workbook)
            return open_workbook(filepath_or_buffer, **(engine_kwargs or {}))

        def close(self) -> None:
            # The workbook goes with its last reference: one that pandas was given is its owner's to close.
            self.handles.close()

        @property
        def sheet_names(self) -> list[str]:
            return [sheet.name for sheet in self.book.worksheets]

        def get_sheet_by_name(self, name: str) -> Sheet:
            self.raise_if_bad_sheet_by_name(name)
            return next(sheet for sheet in reversed(self.book.worksheets) if sheet.name == name)

        def get_sheet_by_index(self, index: int) -> Sheet:
            self.raise_if_bad_sheet_by_index(index)
            return self.book.worksheets[index]

        def get_sheet_data(self, sheet: Sheet, *arguments: Any) -> list[list[Any]]:
            # pandas 1.5 gives convert_float and how many rows it needs (None: all), 2 and later the rows alone.
            is_converted = len(arguments) < 2 or arguments[0]
            wanted = arguments[-1] if arguments else None
            rows = sheet.rows() if wanted is None else sheet[: max(wanted, 0)]
            if is_converted:
                return [[given(value) for value in row] for row in rows]
            return [[float(value) if type(value) is int or type(value) is float else given(value) for value in row] for row in rows]

    return Reader


def register() -> None:
    """Puts the engine among those of pandas."""
    try:
        from pandas.io.excel._base import BaseExcelReader, ExcelFile

        engines, wanted = ExcelFile._engines, ("raise_if_bad_sheet_by_name", "raise_if_bad_sheet_by_index", "parse")
        if not isinstance(engines, dict) or not all(hasattr(BaseExcelReader, name) for name in wanted):
            raise AttributeError("they have another form")
    except (ImportError, AttributeError) as error:
        text = f"pandas {pandas.__version__} takes no engine from outside ({error}); gaflwened.read_excel reads without one"
        raise ImportError(text) from error
    if NAME not in engines:
        engines[NAME] = reader_of(BaseExcelReader)
