//! A sheet: its cells, rows, formulas and merged regions.

use std::fmt;

use crate::beside::{hidden_runs, Comments, Damages, HiddenRun, Links, Outside};
use crate::raw;
use crate::{CellErrorType, CellStyles, Data, Error, ExcelDateTime, Style, Workbook};

/// A sheet of a workbook. Several sheets of one name all show the content of the last of them.
#[derive(Clone, Copy)]
pub struct Sheet<'a> {
    book: &'a Workbook,
    /// The index among the sheets of `book`.
    index: usize,
    sheet: &'a raw::Sheet,
}

/// What kind of sheet it is.
#[derive(Clone, Copy, Debug, PartialEq, Eq, Hash)]
pub enum SheetType {
    /// A worksheet.
    WorkSheet,
    /// A dialog.
    DialogSheet,
    /// A sheet of macros in the language of Excel 4.
    MacroSheet,
    /// A chart that is a sheet by itself.
    ChartSheet,
    /// A module of Visual Basic.
    Vba,
}

/// Whether a sheet is shown.
#[derive(Clone, Copy, Debug, PartialEq, Eq, Hash)]
pub enum SheetVisible {
    /// It is shown.
    Visible,
    /// It is hidden.
    Hidden,
    /// It is hidden, and no menu of Excel shows it.
    VeryHidden,
}

/// A cell: its row and column, from 0, and what it holds.
#[derive(Clone, Copy, Debug, PartialEq)]
pub struct Cell<'a> {
    /// The row, from 0.
    pub row: u32,
    /// The column, from 0.
    pub column: u32,
    /// What it holds.
    pub value: Data<'a>,
}

/// A formula: its row and column, from 0, and its text without `=`.
#[derive(Clone, Copy, Debug, PartialEq, Eq)]
pub struct Formula<'a> {
    /// The row, from 0.
    pub row: u32,
    /// The column, from 0.
    pub column: u32,
    /// The text, in which numbers stand as in `xls dump`, and rows count from 1.
    pub text: &'a str,
}

/// A rectangle of cells: its first and its last row and column, from 0, both included.
#[derive(Clone, Copy, Debug, PartialEq, Eq, Hash)]
pub struct Dimensions {
    /// The first row and column.
    pub start: (u32, u32),
    /// The last row and column.
    pub end: (u32, u32),
}

/// The slice of `items` that begins at `first` and has `count` of them.
fn part<T>(items: &[T], first: u64, count: u64) -> &[T] {
    let first = first as usize;
    &items[first..first + count as usize]
}

impl<'a> Sheet<'a> {
    pub(crate) fn new(book: &'a Workbook, index: usize, sheet: &'a raw::Sheet) -> Self {
        Sheet { book, index, sheet }
    }

    /// The name.
    pub fn name(&self) -> &'a str {
        self.book.text(self.sheet.name)
    }

    /// What kind of sheet it is.
    pub fn kind(&self) -> SheetType {
        match self.sheet.kind {
            0 => SheetType::WorkSheet,
            1 => SheetType::DialogSheet,
            2 => SheetType::MacroSheet,
            3 => SheetType::ChartSheet,
            _ => SheetType::Vba,
        }
    }

    /// Whether it is shown.
    pub fn visible(&self) -> SheetVisible {
        match self.sheet.visibility {
            0 => SheetVisible::Visible,
            1 => SheetVisible::Hidden,
            _ => SheetVisible::VeryHidden,
        }
    }

    fn raw_cells(&self) -> &'a [raw::Cell] {
        part(&self.book.cells, self.sheet.first_cell, self.sheet.cells)
    }

    /// The cells that the file has, by row and then by column, each position once.
    pub fn cells(&self) -> impl DoubleEndedIterator<Item = Cell<'a>> + ExactSizeIterator + Clone + 'a {
        let book = self.book;
        self.raw_cells().iter().map(move |cell| Cell { row: cell.row, column: cell.column, value: data(book, cell) })
    }

    /// What the cell at a row and a column holds, counted from 0; `Empty` where none stands.
    pub fn get(&self, row: u32, column: u32) -> Data<'a> {
        let cells = self.raw_cells();
        match cells.binary_search_by_key(&(row, column), |cell| (cell.row, cell.column)) {
            Ok(at) => data(self.book, &cells[at]),
            Err(_) => Data::Empty,
        }
    }

    /// The smallest rectangle that holds all cells. None of a sheet without cells.
    pub fn dimensions(&self) -> Option<Dimensions> {
        let cells = self.raw_cells();
        let (first, last) = (cells.first()?, cells.last()?);
        let columns = cells.iter().map(|cell| cell.column);
        let (left, right) = columns.fold((u32::MAX, 0), |(a, b), c| (a.min(c), b.max(c)));
        Some(Dimensions { start: (first.row, left), end: (last.row, right) })
    }

    /// The rows of that rectangle, one after the other, rows without cells included.
    pub fn rows(&self) -> Rows<'a> {
        let dimensions = self.dimensions();
        Rows {
            book: self.book,
            cells: self.raw_cells(),
            next: dimensions.map_or(0, |d| d.start.0),
            left: dimensions.map_or(0, |d| (d.end.0 - d.start.0) as usize + 1),
            columns: dimensions.map_or((0, 0), |d| (d.start.1, (d.end.1 - d.start.1) as usize + 1)),
        }
    }

    /// What Excel shows of the cells: of each the text that its number format makes of what it holds, in a column of any width, in the
    /// English of the United States.
    ///
    /// Each call makes the texts of all cells anew, and what it answers owns them.
    ///
    /// # Errors
    ///
    /// [`Error::OutOfMemory`].
    pub fn shown(&self) -> Result<Shown, Error> {
        if self.sheet.cells == 0 {
            return Ok(Shown { cells: Vec::new(), texts: String::new() });
        }
        let count = self.sheet.cells;
        let raw::Shown { cells, texts } = self.book.of_sheet(self.index, |stream, options| raw::shown(stream, options, count))?;
        Ok(Shown { cells, texts: String::from_utf8(texts).expect("the library writes UTF-8") })
    }

    /// The formulas, by row and then by column. The text of a formula that can't be spelled says so, and that of a shared formula is empty.
    pub fn formulas(&self) -> impl DoubleEndedIterator<Item = Formula<'a>> + ExactSizeIterator + Clone + 'a {
        let book = self.book;
        let formulas = part(&book.formulas, self.sheet.first_formula, self.sheet.formulas);
        formulas.iter().map(move |formula| Formula { row: formula.row, column: formula.column, text: book.text(formula.text) })
    }

    /// The merged regions in the order of the file.
    pub fn merged_regions(&self) -> impl DoubleEndedIterator<Item = Dimensions> + ExactSizeIterator + Clone + 'a {
        let regions = part(&self.book.regions, self.sheet.first_region, self.sheet.regions);
        regions
            .iter()
            .map(|region| Dimensions { start: (region.first_row, region.first_column), end: (region.last_row, region.last_column) })
    }
}

/// What stands beside the values. It is read when it is asked for, whether or not the cells were. What is damaged there refuses nothing:
/// [`Sheet::damaged`] tells it.
impl Sheet<'_> {
    fn hidden(&self, is_column: bool) -> Result<Vec<HiddenRun>, Error> {
        Ok(hidden_runs(&self.book.of_sheet(self.index, raw::beside::hidden)?, is_column))
    }

    /// The rows that can't be seen, from 0: runs that ascend, each as long as it can be for one reason. Each call reads them anew.
    ///
    /// # Errors
    ///
    /// [`Error::OutOfMemory`].
    pub fn hidden_rows(&self) -> Result<Vec<HiddenRun>, Error> {
        self.hidden(false)
    }

    /// The columns that can't be seen, likewise.
    ///
    /// # Errors
    ///
    /// [`Error::OutOfMemory`].
    pub fn hidden_columns(&self) -> Result<Vec<HiddenRun>, Error> {
        self.hidden(true)
    }

    /// How the cells look, those of blank cells too.
    ///
    /// The first call reads the styles of the workbook and which style each cell of this sheet has (12 bytes a cell). The workbook keeps both.
    ///
    /// # Errors
    ///
    /// [`Error::OutOfMemory`].
    pub fn styles(&self) -> Result<CellStyles, Error> {
        let styles = self.book.styles()?;
        Ok(CellStyles::new(styles, self.book.cell_styles(self.index, self.sheet.cells)?))
    }

    /// How the cell at a row and a column looks, counted from 0; None where the file has no cell. It is that of [`Sheet::styles`].
    ///
    /// ```
    /// # fn main() -> Result<(), gaflwened::Error> {
    /// # let path = concat!(env!("CARGO_MANIFEST_DIR"), "/../../samples/ledger.xls");
    /// let book = gaflwened::Workbook::open(path)?;
    /// let sheet = book.sheet("Data")?;
    /// let struck = sheet.style(1, 1)?.map_or(false, |style| style.strike());
    /// assert!(!struck);
    /// assert!(sheet.style(9, 9)?.is_none());
    /// # Ok(())
    /// # }
    /// ```
    ///
    /// # Errors
    ///
    /// [`Error::OutOfMemory`].
    pub fn style(&self, row: u32, column: u32) -> Result<Option<Style>, Error> {
        Ok(self.styles()?.get(row, column))
    }

    /// The comments in the order of the file. Each call reads them anew, and what it answers owns them.
    ///
    /// # Errors
    ///
    /// [`Error::OutOfMemory`].
    pub fn comments(&self) -> Result<Comments, Error> {
        Ok(Comments::new(self.book.of_sheet(self.index, raw::beside::comments)?))
    }

    /// The hyperlinks in the order of the file, likewise. Formulas with HYPERLINK aren't among them.
    ///
    /// # Errors
    ///
    /// [`Error::OutOfMemory`].
    pub fn links(&self) -> Result<Links, Error> {
        Ok(Links::new(self.book.of_sheet(self.index, raw::beside::links)?))
    }

    /// The formulas that cite another workbook or a program, likewise: what each cites from left to right, each once.
    ///
    /// # Errors
    ///
    /// [`Error::OutOfMemory`].
    pub fn outside(&self) -> Result<Outside, Error> {
        Ok(Outside::new(self.book.of_sheet(self.index, raw::beside::outside)?))
    }

    /// The damaged records of what is hidden, of comments and of hyperlinks, in the order of the file. Those that are of no sheet are in
    /// [`Workbook::damaged`].
    ///
    /// # Errors
    ///
    /// [`Error::OutOfMemory`].
    pub fn damaged(&self) -> Result<Damages, Error> {
        let mut found = Damages::default();
        found.add(&self.book.of_sheet(self.index, raw::beside::hidden)?)?;
        found.add(&self.book.of_sheet(self.index, raw::beside::comments)?)?;
        found.add(&self.book.of_sheet(self.index, raw::beside::links)?)?;
        Ok(found.in_order())
    }
}

impl fmt::Debug for Sheet<'_> {
    fn fmt(&self, f: &mut fmt::Formatter<'_>) -> fmt::Result {
        f.debug_struct("Sheet")
            .field("name", &self.name())
            .field("kind", &self.kind())
            .field("visible", &self.visible())
            .field("cells", &self.sheet.cells)
            .finish_non_exhaustive()
    }
}

/// What Excel shows of the cells of a sheet. [`Sheet::shown`] makes it.
///
/// ```
/// # fn main() -> Result<(), gaflwened::Error> {
/// # let path = concat!(env!("CARGO_MANIFEST_DIR"), "/../../samples/ledger.xls");
/// let book = gaflwened::Workbook::open(path)?;
/// let shown = book.sheet("Data")?.shown()?;
/// assert_eq!(shown.get(1, 1), Some("4.5"));
/// assert_eq!(shown.get(9, 9), None);
/// # Ok(())
/// # }
/// ```
#[derive(Clone)]
pub struct Shown {
    cells: Vec<raw::Cell>,
    texts: String,
}

/// The text that Excel shows of a cell, and the cell's row and column, from 0.
#[derive(Clone, Copy, Debug, PartialEq, Eq)]
pub struct ShownCell<'a> {
    /// The row, from 0.
    pub row: u32,
    /// The column, from 0.
    pub column: u32,
    /// The text.
    pub text: &'a str,
}

impl Shown {
    fn text(&self, cell: &raw::Cell) -> &str {
        let begin = cell.value as usize;
        &self.texts[begin..begin + cell.length as usize]
    }

    /// The text of the cell at a row and a column, counted from 0; None where none stands.
    pub fn get(&self, row: u32, column: u32) -> Option<&str> {
        let found = self.cells.binary_search_by_key(&(row, column), |cell| (cell.row, cell.column));
        found.ok().map(|at| self.text(&self.cells[at]))
    }

    /// The texts of the cells, which are those of [`Sheet::cells`] in the same order.
    pub fn cells(&self) -> impl DoubleEndedIterator<Item = ShownCell<'_>> + ExactSizeIterator + Clone {
        self.cells.iter().map(|cell| ShownCell { row: cell.row, column: cell.column, text: self.text(cell) })
    }
}

impl fmt::Debug for Shown {
    fn fmt(&self, f: &mut fmt::Formatter<'_>) -> fmt::Result {
        f.debug_list().entries(self.cells()).finish()
    }
}

/// What a cell holds.
fn data<'a>(book: &'a Workbook, cell: &raw::Cell) -> Data<'a> {
    let text = || book.text(raw::Span { offset: cell.value, length: cell.length });
    let number = f64::from_bits(cell.value);
    match cell.kind {
        1 => Data::Float(number),
        2 => Data::DateTime(ExcelDateTime::new(number, false, book.is_1904())),
        3 => Data::DateTime(ExcelDateTime::new(number, true, book.is_1904())),
        4 => Data::Bool(cell.value != 0),
        5 => Data::Error(error(cell.value)),
        6 => Data::String(text()),
        7 => Data::DateTimeIso(text()),
        8 => Data::DurationIso(text()),
        9 => Data::Int(number as i64),
        _ => Data::Empty,
    }
}

/// The error value of a code.
fn error(code: u64) -> CellErrorType {
    match code {
        0x00 => CellErrorType::Null,
        0x07 => CellErrorType::Div0,
        0x0F => CellErrorType::Value,
        0x17 => CellErrorType::Ref,
        0x1D => CellErrorType::Name,
        0x24 => CellErrorType::Num,
        0x2A => CellErrorType::NA,
        _ => CellErrorType::GettingData,
    }
}

/// The rows of a sheet.
#[derive(Clone)]
pub struct Rows<'a> {
    book: &'a Workbook,
    /// The cells of the rows that are left.
    cells: &'a [raw::Cell],
    next: u32,
    left: usize,
    /// The first column, and how many there are.
    columns: (u32, usize),
}

impl<'a> Iterator for Rows<'a> {
    type Item = Row<'a>;

    fn next(&mut self) -> Option<Row<'a>> {
        self.left = self.left.checked_sub(1)?;
        let number = self.next;
        let count = self.cells.iter().take_while(|cell| cell.row == number).count();
        let (cells, rest) = self.cells.split_at(count);
        self.cells = rest;
        self.next += 1;
        Some(Row { book: self.book, number, cells, columns: self.columns })
    }

    fn size_hint(&self) -> (usize, Option<usize>) {
        (self.left, Some(self.left))
    }
}

impl ExactSizeIterator for Rows<'_> {}

/// A row of a sheet, without a copy: from the first column that holds something in any row to the last.
#[derive(Clone, Copy)]
pub struct Row<'a> {
    book: &'a Workbook,
    number: u32,
    cells: &'a [raw::Cell],
    columns: (u32, usize),
}

impl<'a> Row<'a> {
    /// The number of the row in the sheet, from 0.
    pub fn number(&self) -> u32 {
        self.number
    }

    /// The number of columns, which all rows of a sheet have.
    pub fn len(&self) -> usize {
        self.columns.1
    }

    /// Whether there is no column, which isn't so of a row that [`Sheet::rows`] gives.
    pub fn is_empty(&self) -> bool {
        self.len() == 0
    }

    /// What the column of this index holds, the first column of the row being 0; `Empty` where no cell stands.
    pub fn get(&self, index: usize) -> Data<'a> {
        let column = u32::try_from(index).ok().and_then(|index| self.columns.0.checked_add(index));
        let found = column.and_then(|column| self.cells.binary_search_by_key(&column, |cell| cell.column).ok());
        found.map_or(Data::Empty, |at| data(self.book, &self.cells[at]))
    }

    /// What each column holds.
    pub fn iter(&self) -> RowValues<'a> {
        RowValues { book: self.book, cells: self.cells, next: self.columns.0, left: self.columns.1 }
    }
}

impl<'a> IntoIterator for Row<'a> {
    type Item = Data<'a>;
    type IntoIter = RowValues<'a>;

    fn into_iter(self) -> RowValues<'a> {
        self.iter()
    }
}

impl<'a> IntoIterator for &Row<'a> {
    type Item = Data<'a>;
    type IntoIter = RowValues<'a>;

    fn into_iter(self) -> RowValues<'a> {
        self.iter()
    }
}

/// The list of what the columns hold.
impl fmt::Debug for Row<'_> {
    fn fmt(&self, f: &mut fmt::Formatter<'_>) -> fmt::Result {
        f.debug_list().entries(self).finish()
    }
}

/// What the columns of a row hold, one after the other.
#[derive(Clone)]
pub struct RowValues<'a> {
    book: &'a Workbook,
    /// The cells of the columns that are left.
    cells: &'a [raw::Cell],
    next: u32,
    left: usize,
}

impl<'a> Iterator for RowValues<'a> {
    type Item = Data<'a>;

    fn next(&mut self) -> Option<Data<'a>> {
        self.left = self.left.checked_sub(1)?;
        let column = self.next;
        self.next = column.wrapping_add(1);
        match self.cells.split_first() {
            Some((cell, rest)) if cell.column == column => {
                self.cells = rest;
                Some(data(self.book, cell))
            }
            _ => Some(Data::Empty),
        }
    }

    fn size_hint(&self) -> (usize, Option<usize>) {
        (self.left, Some(self.left))
    }
}

impl ExactSizeIterator for RowValues<'_> {}
