"""What stands beside the values of a workbook: hidden rows and columns, how cells look, comments, hyperlinks, other workbooks."""

from __future__ import annotations

from typing import Any, Iterator, NamedTuple, Optional

from . import _raw

NOT_KNOWN, AUTO, NONE = 0xFFFF_FFFF, 0xFFFF_FFFF, 0xFFFF_FFFE

WHY = {1: "hidden", 2: "filtered", 4: "flat"}
LINK_KINDS = ("url", "file", "unc", "place")
ACROSS = ("general", "left", "center", "right", "fill", "justify", "centerContinuous", "distributed")
DOWN = ("top", "center", "bottom", "justify", "distributed")
LINES = ("", "thin", "medium", "dashed", "dotted", "thick", "double", "hair", "mediumDashed", "dashDot", "mediumDashDot", "dashDotDot",
         "mediumDashDotDot", "slantDashDot")
DIAGONALS = ("", "down", "up", "cross")
RECORDS = {
    0x0017: "ExternSheet", 0x001C: "Note", 0x0023: "ExternName", 0x0031: "Font", 0x007D: "ColInfo", 0x00E0: "XF", 0x01AE: "SupBook",
    0x01B8: "HLink", 0x0208: "Row", 0x0225: "DefaultRowHeight",
}
# The marks of a style.
BOLD, ITALIC, STRIKE, UNDERLINE, DOUBLE, SUPERSCRIPT, SUBSCRIPT, UNLOCKED, CONCEALED, WRAP, SHRINK = (1 << bit for bit in range(11))
# What an item of gaflwened_books is.
BOOK, PROGRAM, BOOK_SHEET, _, FUNCTION = range(5)


class HiddenRun(NamedTuple):
    """Rows or columns from one to another, from 0 and both included, that can't be seen.

    why    'hidden'; 'filtered', rows that are hidden in the area of a filter that hides some, by it or by hand; 'flat', not hidden, but of
           height or width 0
    """

    first: int
    last: int
    why: str


class Border(NamedTuple):
    """A line of a border.

    line      'thin', 'medium', 'dashed', 'dotted', 'thick', 'double', 'hair', 'mediumDashed', 'dashDot', 'mediumDashDot', 'dashDotDot',
              'mediumDashDotDot' or 'slantDashDot'; '14' and '15' have no name
    colour    '#rrggbb' or 'auto'
    """

    line: str
    colour: str


class Diagonal(NamedTuple):
    """A line from corner to corner.

    which           'down' (from the upper left), 'up' (from the lower left) or 'cross'
    line, colour    as of a Border
    """

    which: str
    line: str
    colour: str


class Fill(NamedTuple):
    """What a cell is filled with.

    pattern    its number; 1 is one colour alone
    colour     that of the pattern: '#rrggbb' or 'auto'
    ground     the colour behind it; None where the pattern is 1
    """

    pattern: int
    colour: str
    ground: Optional[str]


class Style(NamedTuple):
    """How a cell looks.

    font             the name of the font; empty where the workbook doesn't have the font
    size             of the font, in points; None where the workbook doesn't have the font
    colour           of the text: '#rrggbb' or 'auto'
    bold, italic, strike, superscript, subscript    marks of the text
    underline        'single', 'double', or empty
    format           the code of the number format, '#,##0.00'; empty of a few that hang on the language of Excel
    unlocked         the cell may be edited in a protected sheet
    concealed        its formula isn't shown there
    fill             a Fill; None where there is none
    across           'general', 'left', 'center', 'right', 'fill', 'justify', 'centerContinuous' or 'distributed'
    down             'top', 'center', 'bottom', 'justify' or 'distributed'; '5' to '7' have no meaning
    wrap             the text goes on in further lines
    shrink           the text is made as small as the cell
    indent           how far the text is indented, in steps, 0 to 15
    turn             degrees: 0 to 90 counter-clockwise; above 90 clockwise by so many less 90; 255 letters below each other
    left, right, top, bottom    a Border each; None where there is none
    diagonal         a Diagonal; None where there is none
    """

    font: str = ""
    size: Optional[float] = None
    colour: str = "auto"
    bold: bool = False
    italic: bool = False
    strike: bool = False
    underline: str = ""
    superscript: bool = False
    subscript: bool = False
    format: str = ""
    unlocked: bool = False
    concealed: bool = False
    fill: Optional[Fill] = None
    across: str = "general"
    down: str = "bottom"
    wrap: bool = False
    shrink: bool = False
    indent: int = 0
    turn: int = 0
    left: Optional[Border] = None
    right: Optional[Border] = None
    top: Optional[Border] = None
    bottom: Optional[Border] = None
    diagonal: Optional[Diagonal] = None


class CellStyle(NamedTuple):
    """How a cell looks, and its row and column, from 0."""

    row: int
    column: int
    style: Style


class Comment(NamedTuple):
    """The comment of a cell.

    author     who wrote it; empty before Excel 97
    text       its text
    visible    it is always shown, and not only when the cell is pointed at
    """

    author: str
    text: str
    visible: bool


class Link(NamedTuple):
    """A hyperlink of the cells from a first to a last row and column, from 0 and both included.

    kind      'url', 'file', 'unc' (a file whose path begins with two backslashes) or 'place' (in this workbook)
    target    the URL or the path; empty of a 'place'
    place     a place in the target, such as 'Sheet2!A1'
    shown     the text that is shown for it
    tip       the text that is shown when it is pointed at
    """

    first_row: int
    first_column: int
    last_row: int
    last_column: int
    kind: str
    target: str
    place: str
    shown: str
    tip: str


class OtherBook(NamedTuple):
    """Another workbook, or a program, that a workbook refers to.

    kind      'book', or 'dde' for a program that gives data
    path      of a workbook its path, of a program its name
    topic     of a program its topic, else empty
    sheets    the names of its sheets, as far as they are known
    names     its names that formulas cite
    """

    kind: str
    path: str
    topic: str
    sheets: tuple[str, ...]
    names: tuple[str, ...]


class Citation(NamedTuple):
    """What a formula, by its row and column from 0, cites of another workbook or of a program.

    book     the path or the name of the program, as in OtherBook
    sheet    the sheet, or 'First:Last'; empty where a name is cited, or where the sheet isn't there
    name     the name that is cited, else empty
    """

    row: int
    column: int
    book: str
    sheet: str
    name: str


class Damage(NamedTuple):
    """A record that is damaged. What it would say isn't told; all else is.

    record         its name in [MS-XLS]: 'Row', 'HLink'
    offset         where its header begins in the workbook's stream
    row, column    its cell, from 0; None where it isn't known
    why            what is wrong, as a sentence
    """

    record: str
    offset: int
    row: Optional[int]
    column: Optional[int]
    why: str


def hidden_runs(table: _raw.Table, is_column: bool) -> tuple[HiddenRun, ...]:
    """The runs of rows, or those of columns."""
    fields = table.fields(_raw.HIDDEN_RUN)
    return tuple(HiddenRun(first, last, WHY[why]) for first, last, why, of_column in fields if bool(of_column) is is_column)


def colour(number: int) -> str:
    """A colour that is there."""
    return "auto" if number == AUTO else f"#{number:06x}"


def word(words: tuple[str, ...], number: int) -> str:
    """The word of a number, or its digits where it has none."""
    return words[number] if number < len(words) else str(number)


def border(line: int, of_line: int) -> Optional[Border]:
    """A line, if there is one."""
    return Border(word(LINES, line), colour(of_line)) if line else None


def style_of(table: _raw.Table, fields: tuple[Any, ...]) -> Style:
    """A style by the fields of its struct."""
    font, format_code, numbers, lines = fields[:2], fields[2:4], fields[4:14], fields[14:24]
    size, marks, of_text, pattern, of_fill, of_ground, across, down, indent, turn = numbers
    borders = [border(*lines[at : at + 2]) for at in range(0, 10, 2)]
    which, diagonal = fields[24], borders[4]
    fill = Fill(pattern, colour(of_fill), None if of_ground == NONE else colour(of_ground)) if pattern else None
    return Style(
        font=table.text(*font), size=None if size == NOT_KNOWN else size / 20, colour=colour(of_text),
        bold=bool(marks & BOLD), italic=bool(marks & ITALIC), strike=bool(marks & STRIKE),
        underline="double" if marks & DOUBLE else "single" if marks & UNDERLINE else "",
        superscript=bool(marks & SUPERSCRIPT), subscript=bool(marks & SUBSCRIPT),
        format=table.text(*format_code), unlocked=bool(marks & UNLOCKED), concealed=bool(marks & CONCEALED), fill=fill,
        across=ACROSS[across], down=word(DOWN, down), wrap=bool(marks & WRAP), shrink=bool(marks & SHRINK), indent=indent, turn=turn,
        left=borders[0], right=borders[1], top=borders[2], bottom=borders[3],
        diagonal=Diagonal(DIAGONALS[which], *diagonal) if which and diagonal else None,
    )


def styles(table: _raw.Table) -> Iterator[Style]:
    """All styles."""
    return (style_of(table, fields) for fields in table.fields(_raw.STYLE))


def style_at(table: _raw.Table, index: int) -> Style:
    """The style of an index; a plain one where the workbook doesn't have it."""
    return style_of(table, _raw.STYLE.unpack_from(table.items, index * _raw.STYLE.size)) if index < table.counts[0] else Style()


def cell_styles(cells: _raw.Table, table: _raw.Table) -> Iterator[CellStyle]:
    """How each cell looks; cells of one style share it."""
    known: dict[int, Style] = {}
    for row, column, index, _ in cells.fields(_raw.CELL_STYLE):
        style = known.get(index)
        if style is None:
            style = known[index] = style_at(table, index)
        yield CellStyle(row, column, style)


def style_index(table: _raw.Table, row: int, column: int) -> Optional[int]:
    """Which style the cell at a row and a column has; None where none stands."""
    begin, end = 0, table.counts[0]
    while begin < end:
        middle = (begin + end) // 2
        *place, index, _ = _raw.CELL_STYLE.unpack_from(table.items, middle * _raw.CELL_STYLE.size)
        if place == [row, column]:
            return int(index)
        if place < [row, column]:
            begin = middle + 1
        else:
            end = middle
    return None


def comment_items(table: _raw.Table) -> Iterator[tuple[tuple[int, int], Comment]]:
    """The row and the column of each comment, and the comment, in the order of the file."""
    text = table.text
    for row, column, a, b, c, d, visible, _ in table.fields(_raw.COMMENT):
        yield (row, column), Comment(text(a, b), text(c, d), bool(visible))


def comments(table: _raw.Table) -> dict[tuple[int, int], Comment]:
    """The comments by row and column, of several for one cell the last."""
    return dict(comment_items(table))


def links(table: _raw.Table) -> tuple[Link, ...]:
    """The hyperlinks in the order of the file."""
    def link(row: int, column: int, last_row: int, last_column: int, *fields: int) -> Link:
        texts = (table.text(*fields[at : at + 2]) for at in range(0, 8, 2))
        return Link(row, column, last_row, last_column, LINK_KINDS[fields[8]], *texts)

    return tuple(link(*fields) for fields in table.fields(_raw.LINK))


def books(table: _raw.Table) -> tuple[tuple[OtherBook, ...], tuple[str, ...]]:
    """The other workbooks and programs, and the added functions, in the order of the file."""
    found: list[tuple[str, str, str]] = []
    behind: list[tuple[list[str], list[str]]] = []
    functions = []
    for *spans, kind, _ in table.fields(_raw.BOOK):
        text = table.text(*spans[:2])
        if kind == FUNCTION:
            functions.append(text)
        elif kind in (BOOK, PROGRAM):
            found.append(("book" if kind == BOOK else "dde", text, table.text(*spans[2:])))
            behind.append(([], []))
        else:
            # (a sheet or a name stands behind its workbook)
            behind[-1][kind != BOOK_SHEET].append(text)
    return tuple(OtherBook(*of, tuple(sheets), tuple(names)) for of, (sheets, names) in zip(found, behind)), tuple(functions)


def citations(table: _raw.Table) -> tuple[Citation, ...]:
    """What formulas cite of other workbooks."""
    text, fields = table.text, table.fields(_raw.OUTSIDE)
    return tuple(Citation(row, column, text(a, b), text(c, d), text(e, f)) for row, column, a, b, c, d, e, f in fields)


def damages(*tables: _raw.Table) -> tuple[Damage, ...]:
    """The damaged records of some tables, in the order of the file."""
    def known(number: int) -> Optional[int]:
        return None if number == NOT_KNOWN else number

    found = [Damage(RECORDS[record], offset, known(row), known(column), table.text(begin, length))
             for table in tables for offset, begin, length, row, column, record, _ in table.damage_fields()]
    return tuple(sorted(found, key=lambda damage: damage.offset))
