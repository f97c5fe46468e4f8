"""Tests of the Python package, beside the values that exact.py compares: `test_python.py FOLDER` with the books of books.py in it.

What wants numpy or pandas is left out where it isn't there.
"""

import array
import contextlib
import copy
import datetime
import gc
import glob
import importlib.metadata
import inspect
import io
import multiprocessing
import os
import pickle
import subprocess
import sys
import unittest
import weakref

import gaflwened
from gaflwened import CellError, FaultCode, _raw
from gaflwened._values import duration_of, moment_of

try:
    import numpy
    import pandas
except ImportError:
    numpy = pandas = None

FOLDER = sys.argv.pop()
LEDGER = f"{FOLDER}/samples_ledger_xls.xls"
DAY = datetime.datetime(2020, 1, 1)


def book(name):
    return gaflwened.open_workbook(f"{FOLDER}/{name}.xls")


@contextlib.contextmanager
def as_if(module, name, value):
    """A name of a module with another value."""
    kept = getattr(module, name)
    setattr(module, name, value)
    try:
        yield
    finally:
        setattr(module, name, kept)


def readable():
    """Each book that is read, with its name."""
    for path in sorted(glob.glob(f"{FOLDER}/*.xls")):
        try:
            yield path, gaflwened.open_workbook(path)
        except gaflwened.Error:
            pass


class Reading(unittest.TestCase):
    def test_sample(self):
        read = book("samples_ledger_xls")
        self.assertEqual(read.sheet_names, ["Data", "Log", "Old"])
        self.assertEqual([sheet.visibility for sheet in read], ["visible", "visible", "hidden"])
        self.assertEqual(read.names, (("Total", "Data!$B$2"),))
        self.assertFalse(read.is_1904)
        sheet = read["Data"]
        self.assertEqual(list(sheet.rows()), [["Item", "Café €", None], ["Sum", 4.5, None], [2, 2.5, DAY]])
        self.assertEqual(sheet.to_dict()[2, 2], DAY)
        self.assertEqual(sheet.formulas, ((1, 1, "SUM(A3:B3)"),))
        self.assertEqual(sheet.merged_regions, ((0, 1, 0, 2),))
        self.assertEqual((sheet.nrows, sheet.ncols, sheet[1, 0], sheet[7, 7]), (3, 3, "Sum", None))
        self.assertEqual(read["Log"][1, 0], CellError.NA)
        self.assertEqual(str(CellError.NA), "#N/A")
        self.assertEqual((list(read["Old"].rows()), read["Old"].nrows, read["Old"].ncols), ([], 0, 0))
        self.assertIs(type(sheet[2, 0]), int)
        self.assertIs(type(sheet[2, 1]), float)

    def test_sheets_by_name_and_index(self):
        read = book("sheets")
        self.assertEqual(len(read), len(read.sheets))
        self.assertEqual([sheet.number for sheet in read], list(range(len(read))))
        self.assertEqual([sheet.name for sheet in read.worksheets], ["Plain", "Hidden", "Twice", "Twice", "Café"])
        self.assertIn("Hidden", read)
        self.assertNotIn("hidden", read)
        self.assertEqual(read["Twice"].visibility, "hidden")
        self.assertEqual([sheet.to_dict() for sheet in read if sheet.name == "Twice"], [{(9, 9): 6}] * 2)
        self.assertEqual(read[-1].name, "Café")
        for wanted in ("hidden", 99):
            with self.assertRaises(gaflwened.SheetNotFound) as caught:
                read[wanted]
            self.assertEqual(caught.exception.wanted, wanted)
            for kind in (LookupError, KeyError, IndexError, ValueError):
                self.assertIsInstance(caught.exception, kind)
            self.assertEqual(pickle.loads(pickle.dumps(caught.exception)).wanted, wanted)
        with self.assertRaisesRegex(TypeError, "by its name or its index"):
            read[1.5]

    def test_ways_to_give_a_file(self):
        with open(LEDGER, "rb") as file:
            data = file.read()
        words = array.array("I", data)
        self.assertEqual(len(words) * 4, len(data))
        for given in (data, bytearray(data), memoryview(data), words, memoryview(words), memoryview(data[::-1])[::-1]):
            self.assertEqual(gaflwened.Workbook.from_bytes(given).sheet_names, ["Data", "Log", "Old"])
        self.assertEqual(gaflwened.open_workbook(io.BytesIO(data))["Data"][1, 1], 4.5)
        with self.assertRaises(TypeError):
            gaflwened.Workbook.from_bytes("text")
        with self.assertRaisesRegex(TypeError, "Workbook.from_bytes takes the bytes"):
            gaflwened.open_workbook(data)

    def test_open_files(self):
        """One is read from its beginning where it can go there, else from where it stands, and stays open."""
        with open(LEDGER, "rb") as file:
            file.seek(100)
            for _ in range(2):
                self.assertEqual(gaflwened.open_workbook(file).sheet_names, ["Data", "Log", "Old"])
            self.assertFalse(file.closed)
        with subprocess.Popen(["cat", LEDGER], stdout=subprocess.PIPE) as process:
            self.assertEqual(gaflwened.open_workbook(process.stdout).sheet_names, ["Data", "Log", "Old"])
        with open(LEDGER, encoding="latin-1") as file, self.assertRaisesRegex(TypeError, "mode 'rb'"):
            gaflwened.open_workbook(file)

    def test_rows_are_a_sequence(self):
        sheet = book("samples_ledger_xls")["Data"]
        rows = [["Item", "Café €", None], ["Sum", 4.5, None], [2, 2.5, DAY]]
        self.assertEqual((list(sheet), len(sheet), list(reversed(sheet))), (rows, 3, rows[::-1]))
        self.assertEqual([sheet[at] for at in (0, 2, -1, -3)], [rows[at] for at in (0, 2, -1, -3)])
        for wanted in (slice(1, 3), slice(None), slice(None, None, -1), slice(-2, None), slice(0, 9, 2), slice(5, 9), slice(2, 0, -1)):
            self.assertEqual(sheet[wanted], rows[wanted], wanted)
        self.assertEqual([sheet[text] for text in ("A1", "b2", "$C$3", "Z99", "IV65536")], ["Item", 4.5, DAY, None, None])
        self.assertEqual([sheet[place] for place in ((-1, -1), (-3, 0), (7, 7), (2, -2))], [DAY, "Item", None, 2.5])
        for wanted in (3, -4, 10**30, (-4, 0), (0, -4)):
            with self.assertRaisesRegex(IndexError, "(row|column) .* is out of range: the sheet 'Data' has 3 (row|column)s"):
                sheet[wanted]
        for wanted in ((65_536, 0), (0, 65_536)):
            with self.assertRaisesRegex(IndexError, "65536 is out of range: no .xls has more than 65536 (row|column)s"):
                sheet[wanted]
        for wanted in ("", "A", "1", "A0", "A1:B2", "Data", "A65537", "ZZZZ1", "A-1", " A1", "\u00c41", "A\u0661"):
            with self.assertRaises(KeyError):
                sheet[wanted]
        for wanted in (1.5, None, (1,), (1, 2, 3), (1, None), ("A", 1)):
            with self.assertRaisesRegex(TypeError, "is asked for by"):
                sheet[wanted]
        empty = book("no_cells")[0]
        self.assertEqual((list(empty), len(empty), empty[:], empty["A1"]), ([], 0, [], None))
        with self.assertRaises(IndexError):
            empty[0]
        for path, read in readable():
            for sheet in read:
                if sheet.nrows * sheet.ncols < 1_000_000:
                    rows = list(sheet.rows())
                    for at in {0, len(sheet) // 2, len(sheet) - 1} & set(range(len(sheet))):
                        self.assertEqual(repr([sheet[at], sheet[at - len(sheet)]]), repr([rows[at]] * 2), path)
                    self.assertEqual(repr(sheet[3:-3]), repr(rows[3:-3]), path)

    def test_goes_with_its_last_reference(self):
        """Without a collector: a workbook and its sheets don't refer to one another."""
        gc.collect()
        gc.disable()
        try:
            read = book("many_rows")
            sheet = read[0]
            self.assertEqual((len(list(sheet)), len(sheet.to_dict()), sheet.formulas, read.names), (3000, 15_000, (), ()))
            of_book, of_sheet, of_store = weakref.ref(read), weakref.ref(sheet), weakref.ref(read._store)
            del read
            self.assertIsNone(of_book())
            self.assertEqual((len(sheet), of_store() is sheet._store), (3000, True))
            del sheet
            self.assertEqual((of_sheet(), of_store()), (None, None))
        finally:
            gc.enable()

    def test_in_a_cycle(self):
        """A collector that finds a cycle with a workbook in it, and with iterators that haven't ended, collects it."""

        def unpickled():
            buffers = []
            data = pickle.dumps(book("many_rows"), 5, buffer_callback=buffers.append)
            return pickle.loads(data, buffers=buffers)

        for mapped in (_raw.MAPPED, 0):
            for make in (lambda: book("many_rows"), unpickled):
                with as_if(_raw, "MAPPED", mapped):
                    read = make()
                ring = [read, read[0].rows(), read[0].cells(), read[0].to_numpy() if numpy else read.texts]
                ring += [next(ring[1]), next(ring[2]), ring]
                dead = weakref.ref(read._store)
                del read, ring
                gc.collect()
                self.assertIsNone(dead())

    def test_close(self):
        with book("samples_ledger_xls") as read:
            sheet, texts = read["Data"], read.texts
            self.assertFalse(read.closed)
        self.assertTrue(read.closed)
        self.assertIn("closed", repr(read) + repr(sheet))
        self.assertIn("Item", str(texts, "utf-8"))
        asked = [lambda: read.names, lambda: read["Data"], lambda: read.texts, lambda: read.is_1904, lambda: sheet.name, lambda: sheet[0, 0],
                 lambda: sheet[0], lambda: list(sheet), lambda: sheet.to_dict(), lambda: sheet.formulas, lambda: pickle.dumps(read),
                 read.__enter__]
        for ask in asked:
            with self.assertRaisesRegex(ValueError, "the workbook is closed"):
                ask()
        read.close()
        with self.assertRaises(ZeroDivisionError), book("samples_ledger_xls") as read:
            raise ZeroDivisionError
        self.assertTrue(read.closed)

    def test_pickles(self):
        """Also where the arrays are mapped, as those of large workbooks are."""
        for mapped in (_raw.MAPPED, 0):
            with as_if(_raw, "MAPPED", mapped):
                for path, read in readable():
                    if len(read.texts) > 1_000_000:
                        continue
                    for protocol in (2, pickle.HIGHEST_PROTOCOL):
                        again = pickle.loads(pickle.dumps(read, protocol))
                        self.assertEqual((again.names, again.sheet_names, again.is_1904), (read.names, read.sheet_names, read.is_1904))
                        for sheet, other in zip(read, again):
                            self.assertEqual(repr(list(sheet.cells())), repr(list(other.cells())), path)
                            self.assertEqual((sheet.formulas, sheet.merged_regions), (other.formulas, other.merged_regions))
        read = book("sheets")
        sheet, again = pickle.loads(pickle.dumps([read[4], read]))
        self.assertEqual((sheet.number, sheet.to_dict(), again[4].to_dict()), (4, {(9, 9): 6}, {(9, 9): 6}))
        self.assertIs(sheet._store, again._store)
        self.assertEqual(copy.deepcopy(read)[0].to_dict(), copy.copy(read)[0].to_dict())
        buffers = []
        data = pickle.dumps(read, 5, buffer_callback=buffers.append)
        self.assertEqual(len(buffers), 7)
        self.assertEqual(pickle.loads(data, buffers=buffers)[0].to_dict(), {(0, 0): 1})

    def test_shown(self):
        """The texts are by the rules of Excel's number formats; books.py has the codes."""
        first = ["1,234.50", "13%", "2024-02-29", "30:00", "<a>", "#N/A"]
        second = ["-1,234,567.89", "-13%", "1900-02-29", "12:00", "<é>", "TRUE"]
        # (a code that has a section for texts alone shows a number as General does)
        rows = [first, second, [None] * 6, ["7", "0.1", "NA", "1E+21", "2.5", None]]
        read = book("shown")
        sheet = read["First"]
        self.assertEqual(list(sheet.shown_rows()), rows)
        self.assertEqual([sheet.shown(*place) for place in ((0, 0), (1, 4), (-1, 0), (-4, -1), (2, 0), (0, 6), (65_535, 9))],
                         ["1,234.50", "<é>", "7", "#N/A", None, None, None])
        self.assertEqual(sheet[0, 1], 0.125)
        self.assertEqual(list(read["Second"].shown_rows()), [["50%", "b"]])
        for options in ({"sheet": 1}, {"sheet": "Second"}):
            one = gaflwened.open_workbook(f"{FOLDER}/shown.xls", **options)
            self.assertEqual(list(one[0].shown_rows()), [["50%", "b"]])
            self.assertEqual(pickle.loads(pickle.dumps(one))[0].shown(0, 0), "50%")
        for wanted in ((0, 65_536), (65_536, 0), (-5, 0)):
            with self.assertRaises(IndexError):
                sheet.shown(*wanted)
        with self.assertRaises(TypeError):
            sheet.shown("A", 1)
        bare = gaflwened.open_workbook(f"{FOLDER}/shown.xls", content=False)
        self.assertEqual((bare[0].shown(0, 0), list(bare[0].shown_rows())), (None, []))
        read.close()
        for ask in (lambda: sheet.shown(0, 0), lambda: list(sheet.shown_rows())):
            with self.assertRaisesRegex(ValueError, "the workbook is closed"):
                ask()

    def test_shown_in_the_places_of_the_cells(self):
        """Also out of pickles, and where the arrays are mapped."""
        for path, read in readable():
            for sheet in read:
                cells = list(sheet._as_shown().cells())
                self.assertEqual([cell[:2] for cell in cells], [cell[:2] for cell in sheet.cells()], path)
                self.assertEqual({type(cell.value) for cell in cells} - {str}, set())
                for shown, (row, column, value) in zip(cells[:50], sheet.cells()):
                    self.assertEqual(sheet.shown(row, column), shown.value)
        wanted = list(book("shown")[0].shown_rows())
        for mapped in (_raw.MAPPED, 0):
            with as_if(_raw, "MAPPED", mapped):
                read = book("shown")
                with open(f"{FOLDER}/shown.xls", "rb") as file:
                    other = gaflwened.Workbook.from_bytes(file.read())
                for protocol in (2, pickle.HIGHEST_PROTOCOL):
                    self.assertEqual(list(pickle.loads(pickle.dumps(read, protocol))[0].shown_rows()), wanted)
                buffers = []
                data = pickle.dumps(read, 5, buffer_callback=buffers.append)
                for given in (buffers, [bytes(buffer) for buffer in buffers], [memoryview(bytes(buffer)) for buffer in buffers]):
                    self.assertEqual(list(pickle.loads(data, buffers=given)[0].shown_rows()), wanted)
                for again in (read, other, copy.deepcopy(read)):
                    self.assertEqual(list(again[0].shown_rows()), wanted)

    def test_hidden(self):
        """books.py says what the book has that these tests of what stands beside the values read."""
        read = book("beside")
        sheet = read["Data"]
        self.assertEqual(sheet.hidden_rows, ((2, 2, "hidden"), (9, 9, "flat")))
        self.assertEqual(sheet.hidden_columns, ((1, 1, "hidden"), (7, 8, "flat")))
        self.assertEqual(sheet.hidden_rows[0].why, "hidden")
        self.assertEqual((read["Other"].hidden_rows, read["Other"].hidden_columns), ((), ()))
        other = book("samples_ledger_xls")
        self.assertEqual((other.other_books, other.added_functions, other.damaged), ((), (), ()))
        for sheet in other:
            nothing = sheet.hidden_rows, sheet.hidden_columns, sheet.links, sheet.outside, sheet.damaged
            self.assertEqual((nothing, sheet.comments, sheet.style(9, 9)), (((),) * 5, {}, None))

    def test_styles(self):
        read = book("beside")
        sheet = read["Data"]
        plain = gaflwened.Style(font="Arial", size=10.0, format="General")
        self.assertEqual(sheet.style(0, 0), plain)
        style = sheet.style(3, 0)
        wanted = plain._replace(size=12.5, colour="#ff0000", bold=True, strike=True, format='0.00 "kg"', unlocked=True, across="center",
                                down="center", wrap=True, indent=3, turn=45, left=gaflwened.Border("thin", "#000000"),
                                diagonal=gaflwened.Diagonal("down", "double", "auto"))
        self.assertEqual(style, wanted)
        self.assertIs(style.strike, True)
        # (a cell without a value, and one of an XF that isn't there)
        self.assertEqual(sheet.style(4, 0), plain._replace(fill=gaflwened.Fill(1, "#ffff00", None)))
        self.assertEqual((sheet[4, 0] if sheet.nrows > 4 else None, sheet.style(4, 1)), (None, gaflwened.Style()))
        self.assertEqual([sheet.style(*place) for place in ((4, 2), (9, 9), (65_535, 0))], [None] * 3)
        self.assertEqual((sheet.style(-1, 0), sheet.style(0, -1)), (style, plain))
        self.assertEqual(read.styles, (plain, wanted, sheet.style(4, 0)))
        cells = list(sheet.styles())
        self.assertEqual(len(cells), 16)
        self.assertEqual([cell[:2] for cell in cells if cell.style.strike], [(3, 0)])
        self.assertIs(cells[0].style, cells[1].style)
        for wrong in ((0, 65_536), (-5, 0)):
            with self.assertRaises(IndexError):
                sheet.style(*wrong)
        with self.assertRaises(TypeError):
            sheet.style("A", 1)

    def test_comments_and_links(self):
        sheet = book("beside")["Data"]
        wanted = {(1, 0): gaflwened.Comment("Ann", "hello\nthere", True), (3, 2): gaflwened.Comment("Bö", "日本", False)}
        self.assertEqual(sheet.comments, wanted)
        sheet.comments.clear()
        self.assertEqual(sheet.comments[1, 0].text, "hello\nthere")
        url = gaflwened.Link(3, 2, 4, 3, "url", "http://a.example/é", "", "here", "look")
        self.assertEqual(sheet.links, (url, gaflwened.Link(0, 0, 0, 0, "place", "", "Other!A1", "", "")))

    def test_other_books(self):
        read = book("beside")
        first = gaflwened.OtherBook("book", "C:\\old\\led.xls", "", ("Jan", "Feb"), ("Rate",))
        self.assertEqual(read.other_books, (first, ("dde", "Excel", "[b.xls]S", (), ())))
        self.assertEqual(read.added_functions, ("EDATE",))
        self.assertEqual(read["Data"].outside, ((1, 3, "C:\\old\\led.xls", "Feb", ""),))
        self.assertEqual(read["Other"].outside, ())

    def test_damaged(self):
        read = book("beside")
        sheet = read["Data"]
        stream, length = read._store._source.stream, read._store._source.length
        numbers = {"Row": 0x0208, "Note": 0x001C, "HLink": 0x01B8, "ExternName": 0x0023}
        for damage in sheet.damaged + read.damaged:
            found = int.from_bytes(bytes(stream[damage.offset : damage.offset + 2]), "little")
            self.assertEqual((found, damage.offset < length), (numbers[damage.record], True))
        self.assertEqual([(damage.record, *damage[2:]) for damage in sheet.damaged],
                         [("Row", 5, None, "shorter than 16 bytes: 3"), ("Note", None, None, "shorter than 8 bytes: 3"),
                          ("HLink", 5, 6, "it ends in its place")])
        self.assertEqual([(damage.record, *damage[2:]) for damage in read.damaged], [("ExternName", None, None, "shorter than 7 bytes: 3")])
        self.assertEqual(read["Other"].damaged, ())

    def test_beside_in_all_ways(self):
        """Of one sheet alone, without the cells, out of pickles and where arrays are mapped it is the same; a closed workbook has none."""

        def all_of(sheet, read):
            return (sheet.hidden_rows, sheet.hidden_columns, sheet.comments, sheet.links, sheet.outside, sheet.damaged, list(sheet.styles()),
                    sheet.style(3, 0), read.styles, read.other_books, read.added_functions, read.damaged)

        path = f"{FOLDER}/beside.xls"
        wanted = [all_of(sheet, book("beside")) for sheet in book("beside")]
        self.assertNotEqual(*wanted)
        for mapped in (_raw.MAPPED, 0):
            with as_if(_raw, "MAPPED", mapped):
                bare = gaflwened.open_workbook(path, content=False)
                for read in (book("beside"), bare, copy.deepcopy(bare), pickle.loads(pickle.dumps(bare, 2)), pickle.loads(pickle.dumps(bare))):
                    self.assertEqual([all_of(sheet, read) for sheet in read], wanted)
                buffers = []
                data = pickle.dumps(book("beside"), 5, buffer_callback=buffers.append)
                for given in (buffers, [memoryview(bytes(buffer)) for buffer in buffers]):
                    self.assertEqual([all_of(sheet, again) for again in [pickle.loads(data, buffers=given)] for sheet in again], wanted)
                for number, name in enumerate(["Data", "Other"]):
                    for chosen in (number, name):
                        one = gaflwened.open_workbook(path, sheet=chosen)
                        self.assertEqual(all_of(one[0], one), wanted[number])
        read = book("beside")
        sheet = read[0]
        sheet.comments
        read.close()
        for ask in (lambda: sheet.hidden_rows, lambda: sheet.comments, lambda: sheet.style(0, 0), lambda: list(sheet.styles()),
                    lambda: sheet.damaged, lambda: read.other_books, lambda: read.styles, lambda: read.damaged):
            with self.assertRaisesRegex(ValueError, "the workbook is closed"):
                ask()

    def test_other_processes(self):
        with multiprocessing.get_context("fork").Pool(1) as pool, as_if(_raw, "MAPPED", 0):
            for name in ("samples_ledger_xls", "many_texts"):
                read = pool.apply(gaflwened.open_workbook, (f"{FOLDER}/{name}.xls",))
                self.assertEqual(read.sheet_names, book(name).sheet_names)
                self.assertEqual(pool.apply(list, (book(name)[0],)), list(read[0]))

    def test_version(self):
        self.assertEqual(gaflwened.__version__, importlib.metadata.version("gaflwened"))
        self.assertEqual(gaflwened.__version__, os.environ.get("GAFLWENED_VERSION", gaflwened.__version__))
        done = subprocess.run([sys.executable, "-m", "gaflwened", "--version"], stdout=subprocess.PIPE, check=True, text=True)
        self.assertEqual(done.stdout, f"gaflwened {gaflwened.__version__}\n")

    def test_rows_dict_and_cells_agree(self):
        for path, read in readable():
            for sheet in read:
                cells = list(sheet.cells())
                places = [cell[:2] for cell in cells]
                self.assertEqual(places, sorted(set(places)), path)
                shown = {cell[:2]: repr(cell.value) for cell in cells}
                self.assertEqual(shown, {place: repr(value) for place, value in sheet.to_dict().items()})
                if sheet.nrows * sheet.ncols < 1_000_000:
                    rows = list(sheet.rows())
                    self.assertEqual({len(row) for row in rows} - {sheet.ncols}, set())
                    of_rows = {(r, c): repr(value) for r, row in enumerate(rows) for c, value in enumerate(row) if value is not None}
                    self.assertEqual(of_rows, shown, path)
                for cell in cells[:50]:
                    self.assertEqual(repr(sheet[cell.row, cell.column]), repr(cell.value))

    def test_options(self):
        one = gaflwened.open_workbook(LEDGER, sheet=1)
        self.assertEqual((one.sheet_names, one[0][0, 0]), (["Log"], "xSum"))
        bare = gaflwened.open_workbook(LEDGER, content=False)
        self.assertEqual((len(bare), list(bare["Data"].cells()), bare["Data"].formulas), (3, [], ()))
        few, all_functions = (gaflwened.open_workbook(f"{FOLDER}/values.xls", few_functions=few) for few in (True, False))
        self.assertIn("iftab 66", few[0].formulas[-1].text)
        self.assertNotIn("iftab", all_functions[0].formulas[-1].text)
        with self.assertRaises(gaflwened.Error) as caught:
            gaflwened.open_workbook(LEDGER, max_cells=3)
        self.assertEqual((caught.exception.code, caught.exception.first), (FaultCode.TOO_MANY_CELLS, 3))
        with self.assertRaises(gaflwened.Error) as caught:
            gaflwened.open_workbook(LEDGER, sheet=3)
        self.assertEqual((caught.exception.code, caught.exception.first), (FaultCode.NO_SUCH_SHEET, 3))
        self.assertEqual(len(gaflwened.open_workbook(f"{FOLDER}/page.xls", code_page=1252)), 1)
        self.assertEqual(gaflwened.open_workbook(LEDGER, sheet="Log")[0].to_dict(), one[0].to_dict())
        self.assertEqual(gaflwened.open_workbook(f"{FOLDER}/sheets.xls", sheet="Twice").sheets[0].to_dict(), {(9, 9): 6})
        with self.assertRaises(gaflwened.SheetNotFound):
            gaflwened.open_workbook(LEDGER, sheet="log")
        self.assertEqual(len(gaflwened.open_workbook(LEDGER, max_cells=2**64 - 1, max_bytes=2**64 - 1)), 3)

    def test_options_are_looked_at(self):
        with open(LEDGER, "rb") as file:
            data = file.read()
        wrong = [({"code_page": 66_788}, ValueError, "code_page"), ({"code_page": -1}, ValueError, "code_page"),
                 ({"code_page": "1252"}, TypeError, "code_page"), ({"sheet": -1}, ValueError, "sheet"), ({"sheet": 1.0}, TypeError, "sheet"),
                 ({"sheet": True}, TypeError, "sheet"), ({"max_cells": 0}, ValueError, "max_cells"), ({"max_bytes": 2**64}, ValueError, "max_bytes"),
                 ({"max_bytes": 1e9}, TypeError, "max_bytes"), ({"sheet": 0, "content": False}, ValueError, "content=False"),
                 ({"no_such_option": 1}, TypeError, "no_such_option")]
        for options, kind, text in wrong:
            for read, given in (gaflwened.open_workbook, LEDGER), (gaflwened.Workbook.from_bytes, data):
                with self.assertRaisesRegex(kind, text):
                    read(given, **options)
        for read in (gaflwened.open_workbook, gaflwened.Workbook.from_bytes):
            self.assertIn("code_page", inspect.signature(read).parameters)

    def test_refusals(self):
        with self.assertRaises(OSError):
            gaflwened.open_workbook(f"{FOLDER}/no such file")
        for name, code, part in ("zip", FaultCode.FILE_KIND, 2), ("password", FaultCode.PASSWORD, 0), ("page", FaultCode.CODE_PAGE, 0):
            with self.assertRaises(gaflwened.Error) as caught:
                book(name)
            error = caught.exception
            self.assertEqual((error.code, error.part), (code, part))
            self.assertEqual(str(error), error.text)
            self.assertTrue(error.text)
            self.assertEqual(pickle.loads(pickle.dumps(error)).args, error.args)

    def test_dates(self):
        self.assertEqual(moment_of("2024-02-29T13:45:30.25"), datetime.datetime(2024, 2, 29, 13, 45, 30, 250_000))
        self.assertEqual(moment_of("2024-02-29"), datetime.datetime(2024, 2, 29))
        self.assertEqual(moment_of("13:45:30.007"), datetime.time(13, 45, 30, 7_000))
        self.assertIsNone(moment_of("1900-02-29T12:00:00"))
        for text in ("-1", "1e300", "12.5", "0x7ff0000000000000"):
            self.assertIsNone(moment_of(text))
            self.assertIsNone(duration_of(text))
        self.assertEqual(duration_of("30:00:00"), datetime.timedelta(hours=30))
        self.assertEqual(duration_of("-1:30:00.5"), -datetime.timedelta(hours=1, minutes=30, seconds=0.5))
        column = [book("dates_1900")[0][row, 1] for row in range(16)]
        self.assertEqual(column[1], datetime.time(6))
        self.assertEqual(column[3], datetime.datetime(1900, 1, 1))
        self.assertEqual(column[8:12], [60.0, 60.75, datetime.datetime(1900, 3, 1), datetime.datetime(1900, 3, 1)])
        self.assertEqual(column[15], datetime.datetime(2020, 1, 1, 18))
        self.assertEqual(book("dates_1904")[0][15, 1], datetime.datetime(2024, 1, 2, 18))

    def test_dates_are_those_of_the_library(self):
        """Also those that aren't made from its text."""
        for name in ("dates_1900", "dates_1904"):
            read, reckoned = book(name), 0
            for _, _, kind, _, bits, _ in read[0]._raw_cells():
                if kind in (_raw.DATE_TIME, _raw.DURATION):
                    is_duration = kind == _raw.DURATION
                    number = _raw.CELL_NUMBER.unpack(bytes(16) + bits.to_bytes(8, sys.byteorder) + bytes(8))[0]
                    text = _raw.serial(bits, read.is_1904, is_duration)
                    wanted = duration_of(text) if is_duration else moment_of(text)
                    self.assertEqual(repr(read._store.reckoned(bits, number, is_duration)), repr(number if wanted is None else wanted), text)
                    reckoned += wanted is not None
            self.assertGreater(reckoned, 50)

    def test_main(self):
        done = subprocess.run([sys.executable, "-m", "gaflwened", LEDGER], stdout=subprocess.PIPE, check=True)
        lines = done.stdout.decode("utf-8").splitlines()
        self.assertIn("cell\t2\t2\tdate\t2020-01-01", lines)
        self.assertIn("formula\t1\t1\tSUM(A3:B3)", lines)
        done = subprocess.run([sys.executable, "-m", "gaflwened", f"{FOLDER}/zip.xls"], stdout=subprocess.PIPE, stderr=subprocess.PIPE)
        self.assertEqual((done.returncode, done.stdout), (1, b""))
        self.assertIn(b"zip.xls: ", done.stderr)

    def test_without_pandas(self):
        """All else is there, and what wants it says so."""
        script = "import sys; sys.modules['pandas'] = sys.modules['numpy'] = None; import gaflwened; book = gaflwened.open_workbook(sys.argv[1])\n"
        script += "assert book[0][1, 1] == 4.5\n"
        script += "for call in (book[0].to_long, book[0].to_dataframe, gaflwened.register_pandas, lambda: gaflwened.read_excel(book)):\n"
        script += "    try: call()\n    except ImportError as error: assert 'pip install' in str(error), error\n    else: assert False, call\n"
        done = subprocess.run([sys.executable, "-c", script, LEDGER], stderr=subprocess.PIPE)
        self.assertEqual((done.returncode, done.stderr), (0, b""))

    def test_little_memory(self):
        """Each call ends, by MemoryError where memory runs out."""
        script = "import gaflwened, resource, sys; resource.setrlimit(resource.RLIMIT_AS, (int(sys.argv[2]),) * 2)\n"
        script += "def sheet(**options): return gaflwened.open_workbook(sys.argv[1], **options)[0]\n"
        script += "try: print(%s)\nexcept MemoryError: sys.exit(7)"
        hostile, comments = os.environ.get("GAFLWENED_HOSTILE"), os.environ.get("GAFLWENED_HOSTILE_COMMENTS")
        calls = [("sheet().shown(0, 0)", f"{FOLDER}/many_texts.xls", {0, 7}), ("sheet().shown(0, 0)", hostile, {0, 7}),
                 ("len(list(sheet(content=False).styles()))", hostile, {0, 7}), ("len(sheet().comments)", f"{FOLDER}/beside.xls", {0}),
                 ("len(sheet().comments)", comments, {7})]
        ends = set()
        for call, path, wanted in calls:
            for limit in (40_000_000, 60_000_000, 80_000_000, 200_000_000):
                if path:
                    words = [sys.executable, "-c", script % call, path, str(limit)]
                    done = subprocess.run(words, stdout=subprocess.PIPE, stderr=subprocess.PIPE)
                    self.assertIn(done.returncode, wanted, done.stderr)
                    ends.add(done.returncode)
        self.assertIn(0, ends)


@unittest.skipIf(numpy is None, "numpy and pandas aren't there")
class Frames(unittest.TestCase):
    def test_array_is_the_cells(self):
        for path, read in readable():
            texts = bytes(read.texts)
            for sheet in read:
                array = sheet.to_numpy()
                self.assertEqual(len(array), sum(1 for _ in sheet.cells()), path)
                self.assertFalse(array.flags.writeable or array.flags.owndata)
                with self.assertRaises(ValueError):
                    array.flags.writeable = True
                for item, cell in zip(array[:2000], sheet.cells()):
                    self.assertEqual((item["row"], item["column"]), cell[:2])
                    if item["kind"] == _raw.TEXT:
                        begin, length = int(item["value"]), int(item["length"])
                        self.assertEqual(texts[begin : begin + length].decode("utf-8"), cell.value)

    def test_frame_is_that_of_pandas_parser(self):
        """The columns that are made of arrays are those that pandas' own parser makes of the rows."""
        from gaflwened import _frame

        for path, read in readable():
            for sheet in read:
                if sheet.nrows * sheet.ncols > 1_000_000:
                    continue
                for options in ({"header": 0}, {"header": None}, {"header": 2}, {"header": 0, "skiprows": 1}, {"header": 0, "nrows": 3}):
                    if sheet.nrows < 3 and options != {"header": 0}:
                        continue
                    ours = sheet.to_dataframe(**options)
                    theirs = _frame.frame_by_rows(sheet, **{"skiprows": None, "nrows": None, **options})
                    pandas.testing.assert_frame_equal(ours, theirs, obj=f"{path} {sheet.name} {options}")

    def test_milliseconds_are_those_of_the_library(self):
        from gaflwened import _frame

        def clock_of(text, is_duration):
            if is_duration:
                return duration_of(text)
            moment = moment_of(text.replace("1900-02-29", "1900-03-01"))
            return moment - datetime.datetime.combine(moment.date(), datetime.time())

        for name in ("dates_1900", "dates_1904"):
            read = book(name)
            cells = read[0].to_numpy()
            for kind, is_duration, least in (_raw.DATE_TIME, False, 1), (_raw.DURATION, True, -9):
                found = cells[(cells["kind"] == kind) & (cells["number"] < 100_000) & (cells["number"] >= least)]
                for item, milliseconds in zip(found, _frame.milliseconds_of(found, read.is_1904, is_duration).tolist()):
                    text = _raw.serial(int(item["value"]), read.is_1904, is_duration)
                    clock = datetime.timedelta(milliseconds=milliseconds)
                    self.assertEqual(clock_of(text, is_duration), clock if is_duration else clock % datetime.timedelta(days=1), text)

    def test_columns(self):
        frame = gaflwened.read_excel(f"{FOLDER}/columns.xls")
        self.assertEqual(list(frame.columns), ["a", "a.1", "Unnamed: 2", "7", "b", "c", "d", "e", "f", "g", "h", "i"])
        kinds = [str(kind) for kind in frame.dtypes]
        self.assertEqual(kinds[:4], ["int64", "float64", "float64", "bool"])
        self.assertEqual(kinds[5:10], ["datetime64[ns]", "datetime64[ns]", "timedelta64[ns]", "object", "int64"])
        self.assertEqual(frame["f"][0], "x")
        self.assertTrue(pandas.isna(frame["f"][3]))

    def test_arguments(self):
        path = f"{FOLDER}/columns.xls"
        self.assertEqual(list(gaflwened.read_excel(path, usecols="A,D:E").columns), ["a", "7", "b"])
        self.assertEqual(list(gaflwened.read_excel(path, usecols=["b", "c"]).columns), ["b", "c"])
        self.assertEqual(gaflwened.read_excel(path, index_col=0).index.tolist(), list(range(1, 40)))
        self.assertEqual(str(gaflwened.read_excel(path, dtype={"a": "float32"}).dtypes["a"]), "float32")
        self.assertEqual(gaflwened.read_excel(path, names=list("ABCDEFGHIJKL")).shape, (39, 12))
        self.assertEqual(gaflwened.read_excel(path, skiprows=[1, 2])["a"].tolist(), list(range(3, 40)))
        self.assertEqual(gaflwened.read_excel(path, keep_default_na=False)["f"][3], "NA")
        self.assertEqual(gaflwened.read_excel(path, na_values=["x"])["f"].notna().sum(), 10)
        self.assertEqual(gaflwened.read_excel(path, skipfooter=30).shape, (9, 12))
        self.assertEqual(gaflwened.read_excel(path, nrows=4).shape, (4, 12))
        self.assertEqual(gaflwened.read_excel(path, index_col=[0, 2]).index.tolist()[1:3], [(2, 2), (3, 2)])
        with self.assertRaises(TypeError):
            gaflwened.read_excel(path, no_such_argument=1)

    def test_as_shown(self):
        path, nan = f"{FOLDER}/shown.xls", numpy.nan
        frame = gaflwened.read_excel(path, header=None, as_shown=True)
        rows = [["1,234.50", "13%", "2024-02-29", "30:00", "<a>", "#N/A"], ["-1,234,567.89", "-13%", "1900-02-29", "12:00", "<é>", "TRUE"],
                [nan] * 6, ["7", "0.1", "NA", "1E+21", "2.5", nan]]
        pandas.testing.assert_frame_equal(frame, pandas.DataFrame(rows, dtype=object))
        frame = gaflwened.read_excel(path, as_shown=True, usecols=["1,234.50", "13%"], na_values="7")
        self.assertEqual(list(frame.columns), ["1,234.50", "13%"])
        self.assertEqual(frame["13%"].tolist()[::2], ["-13%", "0.1"])
        self.assertEqual(frame["1,234.50"].isna().tolist(), [False, True, True])
        frames = gaflwened.read_excel(path, None, header=None, as_shown=True)
        self.assertEqual(frames["Second"].to_numpy().tolist(), [["50%", "b"]])
        self.assertEqual(book("shown")["Second"].to_dataframe(header=None, as_shown=True).to_numpy().tolist(), [["50%", "b"]])
        self.assertEqual(gaflwened.read_excel(path, header=None, as_shown=True, dtype={0: object}, skipfooter=3).shape, (1, 6))
        self.assertTrue(gaflwened.read_excel(f"{FOLDER}/no_cells.xls", as_shown=True).empty)
        with self.assertRaisesRegex(TypeError, "no dict"):
            gaflwened.read_excel(path, as_shown=True, na_values={0: ["7"]})

    def test_skip_hidden(self):
        """Row 2 and column 1 of the book can't be seen."""
        path = f"{FOLDER}/beside.xls"
        whole = gaflwened.read_excel(path)
        self.assertEqual((list(whole.columns), whole["sum"].tolist()), (["id", "name", "sum", "out"], [10, 20, 30]))
        seen = gaflwened.read_excel(path, skip_hidden=True)
        wanted = pandas.DataFrame({"id": [1, 3], "sum": [10, 30], "out": [2.5, numpy.nan]})
        pandas.testing.assert_frame_equal(seen, wanted)
        pandas.testing.assert_frame_equal(book("beside")["Data"].to_dataframe(skip_hidden=True), wanted)
        some = gaflwened.read_excel(path, skip_hidden=True, usecols="A:B", skiprows=[1])
        pandas.testing.assert_frame_equal(some, wanted[["id", "sum"]][1:].reset_index(drop=True))
        bare = gaflwened.read_excel(path, None, skip_hidden=True, header=None)
        self.assertEqual((bare["Data"].shape, bare["Other"].to_numpy().tolist()), ((3, 3), [[7]]))
        shown = gaflwened.read_excel(path, skip_hidden=True, as_shown=True, header=None)
        rows = [["id", "sum", "out"], ["1", "10", "2.5"], ["3.00 kg", "30", numpy.nan]]
        pandas.testing.assert_frame_equal(shown, pandas.DataFrame(rows, dtype=object))
        for other, read in readable():
            for sheet in read:
                if not sheet.hidden_rows + sheet.hidden_columns and sheet.nrows * sheet.ncols < 100_000:
                    for options in ({}, {"as_shown": True}):
                        ours, theirs = sheet.to_dataframe(skip_hidden=True, **options), sheet.to_dataframe(**options)
                        pandas.testing.assert_frame_equal(ours, theirs, obj=other)

    def test_styles_of_an_array(self):
        read = book("beside")
        cells, styles = read["Data"].to_numpy(), read.styles
        wanted = [0] * 11 + [1, 0, 0]
        self.assertEqual((cells["style"].tolist(), cells["style"].dtype), (wanted, numpy.uint16))
        self.assertIs(type(cells["row"]), numpy.ndarray)
        self.assertEqual([styles[style].strike for style in cells[cells["number"] == 3]["style"]], [True])
        self.assertEqual((cells[::-2]["style"].tolist(), cells[:0]["style"].tolist()), (wanted[::-2], []))
        self.assertEqual(cells.reshape(2, 7)["style"].tolist(), [wanted[:7], wanted[7:]])
        again = pickle.loads(pickle.dumps(cells))
        self.assertEqual(again.tobytes(), cells.tobytes())
        read.close()
        with self.assertRaisesRegex(ValueError, "the workbook is closed"):
            cells["style"]
        for path, read in readable():
            every = read.styles
            for sheet in read:
                cells, styles = sheet.to_numpy(), {cell[:2]: cell.style for cell in sheet.styles()}
                for row, column, index in zip(cells["row"][:2000].tolist(), cells["column"].tolist(), cells["style"].tolist()):
                    self.assertEqual(every[index] if index < len(every) else gaflwened.Style(), styles[row, column], path)

    def test_arrays_outlive_their_workbook(self):
        with as_if(_raw, "MAPPED", 0), book("many_rows") as read:
            cells = read[0].to_numpy()
        self.assertTrue(read.closed)
        self.assertEqual(cells["number"].sum(), sum(row * column for row in range(3000) for column in range(5)))
        with self.assertRaisesRegex(ValueError, "closed"):
            read[0].to_numpy()
        self.assertEqual(book("many_rows")[0][numpy.int64(2)], [0, 2, 4, 6, 8])

    def test_long(self):
        words = {int: "int", float: "float", datetime.datetime: "date", datetime.time: "date", datetime.timedelta: "span", str: "text",
                 bool: "bool", CellError: "error"}
        for path, read in readable():
            for sheet in read:
                table = sheet.to_long()
                self.assertEqual(list(table.columns), ["row", "column", "kind", "value"])
                self.assertEqual([str(kind) for kind in table.dtypes], ["int64", "int64", "category", "object"], path)
                cells = list(sheet.cells())
                self.assertEqual(list(zip(table["row"], table["column"])), [cell[:2] for cell in cells])
                found = list(table["value"])
                self.assertEqual([repr(value) for value in found], [repr(cell.value) for cell in cells], path)
                for word, cell in zip(table["kind"], cells):
                    if type(cell.value) is not float or word == "float":
                        self.assertEqual(word, words[type(cell.value)], path)

    def test_sheets_are_counted_as_pandas_does(self):
        path = f"{FOLDER}/chart_first.xls"
        self.assertEqual(gaflwened.read_excel(path)["a"].tolist(), [1])
        self.assertEqual(gaflwened.read_excel(path, 1)["b"].tolist(), [2, 3])
        self.assertEqual(gaflwened.read_excel(path, -1)["b"].tolist(), [2, 3])
        self.assertEqual(list(gaflwened.read_excel(path, None)), ["First", "Second"])
        self.assertEqual(list(gaflwened.read_excel(path, [1, "First"])), [1, "First"])
        self.assertEqual(gaflwened.read_excel(path, "Macro", header=None).shape, (1, 1))
        for wanted in (2, -3, "second"):
            with self.assertRaises(ValueError):
                gaflwened.read_excel(path, wanted)
        with self.assertRaisesRegex(TypeError, "sheet_name"):
            gaflwened.read_excel(path, 1.5)

    def test_engine(self):
        gaflwened.register_pandas()
        gaflwened.register_pandas()
        path = f"{FOLDER}/chart_first.xls"
        for name in ("columns", "values", "samples_ledger_xls", "dates_1900"):
            ours = gaflwened.read_excel(f"{FOLDER}/{name}.xls")
            pandas.testing.assert_frame_equal(ours, pandas.read_excel(f"{FOLDER}/{name}.xls", engine="gaflwened"), obj=name)
        self.assertEqual(pandas.read_excel(path, sheet_name=1, engine="gaflwened")["b"].tolist(), [2, 3])
        self.assertEqual(pandas.read_excel(path, sheet_name="Second", nrows=1, engine="gaflwened")["b"].tolist(), [2])
        self.assertEqual(list(pandas.read_excel(path, sheet_name=None, engine="gaflwened")), ["First", "Second"])
        with pandas.ExcelFile(path, engine="gaflwened") as file:
            self.assertEqual(file.sheet_names, ["First", "Second"])
        with open(path, "rb") as file:
            file.seek(7)
            self.assertEqual(pandas.read_excel(file, engine="gaflwened").shape, (1, 1))
        with open(path, "rb") as file:
            self.assertEqual(pandas.read_excel(io.BytesIO(file.read()), engine="gaflwened").shape, (1, 1))
        read = book("chart_first")
        self.assertEqual(pandas.read_excel(read, engine="gaflwened").shape, (1, 1))
        self.assertFalse(read.closed)
        for wanted in (2, "Chart"):
            with self.assertRaisesRegex(ValueError, "Worksheet"):
                pandas.read_excel(path, sheet_name=wanted, engine="gaflwened")
        with self.assertRaises(gaflwened.Error):
            pandas.read_excel(f"{FOLDER}/zip.xls", engine="gaflwened")

    def test_engine_over_either_form_of_pandas(self):
        """The calls of pandas 1.5 and those of 2.1 and later, which the pandas that is here may not make."""
        from gaflwened import _engine

        class Base:
            def __init__(self, *load):
                with open(LEDGER, "rb") as file:
                    self.handles, self.book = io.BytesIO(), self.load_workbook(file, *load)

            def raise_if_bad_sheet_by_name(self, name):
                pass

            def raise_if_bad_sheet_by_index(self, index):
                pass

        reader = _engine.reader_of(Base)
        for load, calls in ((), [(True, None), (True, 2), (False, 2)]), (({},), [(None,), (2,), ()]), (({"sheet": "Data"},), [(3,)]):
            made = reader(*load)
            self.assertEqual(made.sheet_names, ["Data", "Log", "Old"][: 1 if load and load[0] else 3])
            for sheet in made.get_sheet_by_name("Data"), made.get_sheet_by_index(0):
                for call in calls:
                    rows = made.get_sheet_data(sheet, *call)
                    wanted = [["Item", "Café €", ""], ["Sum", 4.5, ""], [2, 2.5, DAY]][: call[-1] if call else None]
                    self.assertEqual(rows, wanted)
            self.assertEqual([type(made.get_sheet_data(sheet, *call)[2][0]) for call in ((True, None), (False, None))], [int, float])
            made.close()
        with self.assertRaises(TypeError):
            reader({"no_such_option": 1})

    def test_pandas_that_takes_no_engine(self):
        from pandas.io.excel import _base

        with as_if(_base.ExcelFile, "_engines", ()), self.assertRaisesRegex(ImportError, "takes no engine from outside"):
            gaflwened.register_pandas()

    def test_sheets(self):
        self.assertEqual(list(gaflwened.read_excel(LEDGER, sheet_name=None)), ["Data", "Log", "Old"])
        self.assertEqual(list(gaflwened.read_excel(LEDGER, sheet_name=[0, "Log"])), [0, "Log"])
        self.assertEqual(gaflwened.read_excel(LEDGER, "Data", header=None).shape, (3, 3))
        self.assertTrue(gaflwened.read_excel(LEDGER, "Old").empty)
        with open(LEDGER, "rb") as file:
            self.assertEqual(gaflwened.read_excel(file.read())["Item"].tolist(), ["Sum", 2])
        with self.assertRaises(gaflwened.SheetNotFound):
            gaflwened.read_excel(LEDGER, "data")


if __name__ == "__main__":
    unittest.main()
