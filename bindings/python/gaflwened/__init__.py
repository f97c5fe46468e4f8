"""A reader of old Excel workbooks (`.xls`, Excel 5 to 2003).

    import gaflwened

    with gaflwened.open_workbook("book.xls") as book:
        for row in book["Data"]:
            print(row)

With pandas: `gaflwened.read_excel("book.xls", sheet_name="Data")`, or `book["Data"].to_dataframe()`; with numpy: `book["Data"].to_numpy()`.

What reads is a proved library: of every file, also a damaged or a hostile one, it answers what the file holds or the first thing that is
wrong with it.
"""

from __future__ import annotations

from typing import Any

from ._beside import Border, CellStyle, Citation, Comment, Damage, Diagonal, Fill, HiddenRun, Link, OtherBook, Style
from ._book import Sheet, Workbook, open_workbook
from ._errors import Error, FaultCode, SheetNotFound
from ._values import Cell, CellError, DefinedName, Formula, Region, Value
from ._version import __version__

__all__ = [
    "Border", "Cell", "CellError", "CellStyle", "Citation", "Comment", "Damage", "DefinedName", "Diagonal", "Error", "FaultCode", "Fill",
    "Formula", "HiddenRun", "Link", "OtherBook", "Region", "Sheet", "SheetNotFound", "Style", "Value", "Workbook", "__version__", "open_workbook",
    "read_excel", "register_pandas",
]


def read_excel(io: Any, sheet_name: Any = 0, *, header: Any = 0, names: Any = None, index_col: Any = None, usecols: Any = None,
               dtype: Any = None, converters: Any = None, true_values: Any = None, false_values: Any = None, skiprows: Any = None,
               nrows: Any = None, na_values: Any = None, keep_default_na: bool = True, na_filter: bool = True, parse_dates: Any = False,
               thousands: Any = None, decimal: str = ".", comment: Any = None, skipfooter: int = 0,
               as_shown: bool = False, skip_hidden: bool = False) -> Any:
    """Reads sheets of a workbook into DataFrames, with the arguments of `pandas.read_excel` (but for `engine` and `storage_options`).

    io            a path, an open file (read from its beginning where it can seek), the bytes of a file, or a Workbook
    sheet_name    a name, an index from 0 among the worksheets (sheets of charts, macros and VBA don't count), a list of these, or None for all
                  worksheets; of a list or None the answer is a dict
    header, names, index_col, usecols, dtype, converters, true_values, false_values, skiprows, nrows, na_values, keep_default_na,
    na_filter, parse_dates, thousands, decimal, comment, skipfooter    as of pandas
    as_shown      True: each cell is the text that Excel shows, as of `Sheet.shown`, an error too; NaN where no cell stands or the text is
                  empty, or one of na_values (no dict), whatever keep_default_na is. dtype is str then, unless dtype or converters are given
    skip_hidden   True: as if the sheet had no rows and columns that can't be seen (`Sheet.hidden_rows`, `hidden_columns`); so header,
                  skiprows, usecols and the like count what is left

    Without as_shown an error value is NaN, a duration is a timedelta, and what a date can't be stays a number. SheetNotFound where no sheet
    has the name or index, ImportError where numpy or pandas isn't there, and what `open_workbook` raises.
    """
    from . import _frame

    return _frame.read_excel(
        io, sheet_name, header=header, names=names, index_col=index_col, usecols=usecols, dtype=dtype, converters=converters,
        true_values=true_values, false_values=false_values, skiprows=skiprows, nrows=nrows, na_values=na_values,
        keep_default_na=keep_default_na, na_filter=na_filter, parse_dates=parse_dates, thousands=thousands, decimal=decimal,
        comment=comment, skipfooter=skipfooter, as_shown=as_shown, skip_hidden=skip_hidden,
    )


def register_pandas() -> None:
    """Makes `pandas.read_excel(.., engine="gaflwened")` read with this package, and `pandas.ExcelFile` too; again, it does nothing.

    For pandas 1.5 and 2. `engine_kwargs` (pandas 2.1) are the options of `open_workbook`. ImportError where pandas isn't there, or takes no
    engine from outside.
    """
    from . import _engine

    _engine.register()
