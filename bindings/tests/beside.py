"""Writes into NAME.TOPIC.found the lines of `xls TOPIC` for each NAME.xls of a folder with a file NAME.TOPIC beside it, of the topics hidden,
styles, comments, links and books: those that the package tells, in the globals and in each sheet the damaged ones behind the others.

    beside.py FOLDER
"""

import os
import sys

import gaflwened

ESCAPES = str.maketrans({"\\": "\\\\", "\n": "\\n", "\r": "\\r", "\t": "\\t"})
RECORDS = {
    "hidden": ("Row", "ColInfo", "DefaultRowHeight"), "styles": ("Font", "XF"), "comments": ("Note",), "links": ("HLink",),
    "books": ("SupBook", "ExternName", "ExternSheet"),
}


def size_of(points):
    """A size as `xls styles` writes it."""
    return "" if points is None else f"{points:g}"


def words(*found):
    return " ".join(word for word in found if word)


def line_of(side, line):
    return line and ":".join((side, *line))


def style_fields(style):
    marks = [name for name in ("bold", "italic", "strike") if getattr(style, name)]
    marks.append({"single": "underline"}.get(style.underline, style.underline))
    marks += [name for name in ("superscript", "subscript", "unlocked", "concealed") if getattr(style, name)]
    fill = style.fill and (style.fill.colour if style.fill.pattern == 1 else " ".join(map(str, style.fill)))
    alignment = words(style.across if style.across != "general" else "", style.down if style.down.isalpha() and style.down != "bottom" else "",
                      style.wrap and "wrap", style.shrink and "shrink", style.indent and f"indent:{style.indent}",
                      style.turn and f"turn:{style.turn}")
    borders = words(*(line_of(side, getattr(style, side)) for side in ("left", "right", "top", "bottom")),
                    style.diagonal and ":".join(style.diagonal))
    return words(*marks), style.format, style.font, size_of(style.size), style.colour, fill or "", alignment, borders


def damaged(topic, damages):
    for record, *fields in damages:
        if record in RECORDS[topic]:
            yield ("damaged", record, *("" if field is None else field for field in fields))


def globals_of(topic, book):
    if topic == "books":
        for other in book.other_books:
            yield "book", other.kind, other.path, other.topic
            yield from (("book_sheet", name) for name in other.sheets)
            yield from (("book_name", name) for name in other.names)
        yield from (("function", name) for name in book.added_functions)
    yield from damaged(topic, book.damaged)


def lines_of_sheet(topic, sheet):
    if topic == "hidden":
        yield from (("rows", *run) for run in sheet.hidden_rows)
        yield from (("columns", *run) for run in sheet.hidden_columns)
    elif topic == "styles":
        yield from (("style", row, column, *style_fields(style)) for row, column, style in sheet.styles())
    elif topic == "comments":
        # (of several of one cell the package has the last)
        table = sheet._table("comments")
        assert sheet.comments == dict(gaflwened._beside.comment_items(table))
        for (row, column), comment in gaflwened._beside.comment_items(table):
            yield "comment", row, column, "visible" if comment.visible else "hidden", comment.author, comment.text
    elif topic == "links":
        yield from (("link", *link) for link in sheet.links)
    else:
        yield from (("outside", *cited) for cited in sheet.outside)
    yield from damaged(topic, sheet.damaged)


def lines_of(topic, book):
    yield from globals_of(topic, book)
    for sheet in book:
        yield "sheet", sheet.name, sheet.kind, sheet.visibility
        yield from lines_of_sheet(topic, sheet)


def main(folder):
    for entry in sorted(os.listdir(folder)):
        name, _, topic = entry.rpartition(".")
        if topic not in RECORDS or not os.path.exists(f"{folder}/{name}.xls"):
            continue
        # (the cells needn't be read)
        book = gaflwened.open_workbook(f"{folder}/{name}.xls", content=False)
        with open(f"{folder}/{entry}.found", "w", encoding="utf-8", newline="\n") as file:
            for line in lines_of(topic, book):
                file.write("\t".join(str(field).translate(ESCAPES) for field in line) + "\n")


if __name__ == "__main__":
    main(sys.argv[1])
