//! A workbook, its sheets and its defined names.

use std::fmt;
use std::path::Path;
use std::sync::Arc;

use crate::beside::{Damages, OtherBooks};
use crate::raw;
use crate::raw::beside::{CellStyle, Table};
use crate::sheet::Sheet;
use crate::style::Kept;
use crate::Error;

/// Which sheets' cells, formulas and merged regions are read.
#[derive(Clone, Copy, Debug, Default, PartialEq, Eq)]
pub enum Which {
    /// Those of all sheets.
    #[default]
    All,
    /// Those of the sheet with this index, from 0; the workbook then has that sheet alone.
    One(usize),
    /// None: of all sheets the names, kinds and visibilities.
    NoContent,
}

/// How a workbook is read. The default is that of [`Workbook::open`].
///
/// ```no_run
/// # fn main() -> Result<(), gaflwened::Error> {
/// let options = gaflwened::Options { code_page: Some(1252), ..Default::default() };
/// let book = options.open("mac.xls")?;
/// # Ok(())
/// # }
/// ```
#[derive(Clone, Copy, Debug, Default, PartialEq, Eq)]
pub struct Options {
    /// The code page of texts of single bytes, in place of the one that the file names: 1200, 1252, 28591 or 65001.
    pub code_page: Option<u16>,
    /// How many bytes the workbook's stream may have, where it isn't 268,435,456. A 0 is taken for that too.
    pub max_bytes: Option<u64>,
    /// How many cells the records of one sheet may give, where it isn't 33,554,432. A 0 is taken for that too.
    pub max_cells: Option<u64>,
    /// Which sheets are read.
    pub which: Which,
    /// Formulas have the names of the first 72 functions alone, as in `xls dump --exact`.
    pub few_functions: bool,
}

impl Options {
    /// Reads the workbook of a file.
    ///
    /// # Errors
    ///
    /// [`Error::Io`] where the file can't be read, [`Error::Fault`] with the first thing that is wrong with it, [`Error::OutOfMemory`].
    pub fn open(&self, path: impl AsRef<Path>) -> Result<Workbook, Error> {
        let file = raw::read_file(path.as_ref())?;
        match raw::stream(&file)? {
            None => self.read(file),
            Some(stream) => {
                // The file's bytes are given back before the arrays are made.
                drop(file);
                self.read(stream)
            }
        }
    }

    /// Reads the workbook of a file's bytes: a compound file, or a workbook's stream alone. Nothing of them is lent.
    ///
    /// # Errors
    ///
    /// [`Error::Fault`] with the first thing that is wrong with the file, [`Error::OutOfMemory`].
    pub fn from_bytes(&self, file: &[u8]) -> Result<Workbook, Error> {
        match raw::stream(file)? {
            None => self.read(raw::copy(file)?),
            Some(stream) => self.read(stream),
        }
    }

    /// The workbook of a stream.
    fn read(&self, stream: Vec<u8>) -> Result<Workbook, Error> {
        let options = self.raw();
        let content = raw::read(&stream, &options)?;
        let texts = String::from_utf8(content.texts).expect("the library writes UTF-8");
        let mut cell_styles = Vec::new();
        raw::reserve(&mut cell_styles, content.sheets.len())?;
        cell_styles.resize_with(content.sheets.len(), Kept::default);
        Ok(Workbook {
            stream,
            options,
            styles: Kept::default(),
            cell_styles,
            sheets: content.sheets,
            names: content.names,
            cells: content.cells,
            formulas: content.formulas,
            regions: content.regions,
            texts,
            is_1904: content.is_1904,
        })
    }

    fn raw(&self) -> raw::Options {
        let (which, sheet) = match self.which {
            Which::All => (0, 0),
            Which::One(sheet) => (1, sheet as u64),
            Which::NoContent => (2, 0),
        };
        raw::Options {
            max_bytes: self.max_bytes.unwrap_or(0),
            max_cells: self.max_cells.unwrap_or(0),
            sheet,
            which,
            code_page: self.code_page.unwrap_or(0),
            all_functions: u16::from(!self.few_functions),
        }
    }
}

/// What a workbook holds. It owns all texts, and lends them.
///
/// It keeps the workbook's stream too, which takes about as much memory as the file. [`Sheet::shown`] reads it again, and so does each call
/// for what stands beside the values: [`Workbook::other_books`], [`Sheet::hidden_rows`], [`Sheet::style`], [`Sheet::comments`] and others.
pub struct Workbook {
    stream: Vec<u8>,
    options: raw::Options,
    styles: Kept<Table<raw::beside::Style>>,
    /// Of each sheet which style each of its cells has.
    cell_styles: Vec<Kept<Vec<CellStyle>>>,
    pub(crate) sheets: Vec<raw::Sheet>,
    names: Vec<raw::Name>,
    pub(crate) cells: Vec<raw::Cell>,
    pub(crate) formulas: Vec<raw::Formula>,
    pub(crate) regions: Vec<raw::Region>,
    texts: String,
    is_1904: bool,
}

impl Workbook {
    /// Reads the workbook of a file.
    ///
    /// # Errors
    ///
    /// [`Error::Io`] where the file can't be read, [`Error::Fault`] with the first thing that is wrong with it, [`Error::OutOfMemory`].
    pub fn open(path: impl AsRef<Path>) -> Result<Workbook, Error> {
        Options::default().open(path)
    }

    /// Reads the workbook of a file's bytes: a compound file, or a workbook's stream alone. Nothing of them is lent.
    ///
    /// # Errors
    ///
    /// [`Error::Fault`] with the first thing that is wrong with the file, [`Error::OutOfMemory`].
    pub fn from_bytes(file: &[u8]) -> Result<Workbook, Error> {
        Options::default().from_bytes(file)
    }

    /// The sheets in the order of the workbook.
    pub fn sheets(&self) -> impl DoubleEndedIterator<Item = Sheet<'_>> + ExactSizeIterator + Clone {
        self.sheets.iter().enumerate().map(|(index, sheet)| Sheet::new(self, index, sheet))
    }

    /// The last sheet of this name, spelled in the same case.
    ///
    /// # Errors
    ///
    /// [`Error::SheetNotFound`] where no sheet has the name.
    pub fn sheet(&self, name: &str) -> Result<Sheet<'_>, Error> {
        let found = self.sheets().rfind(|sheet| sheet.name() == name);
        found.ok_or_else(|| Error::SheetNotFound(name.to_owned()))
    }

    /// The defined names with the texts of their formulas, in the order of the workbook.
    pub fn names(&self) -> impl DoubleEndedIterator<Item = (&str, &str)> + ExactSizeIterator + Clone {
        self.names.iter().map(|name| (self.text(name.name), self.text(name.formula)))
    }

    /// Whether days count from 1904-01-01. Else they count from 1899-12-31.
    pub fn is_1904(&self) -> bool {
        self.is_1904
    }

    /// The other workbooks, the programs and the added functions that it refers to. Each call reads them anew, whichever sheets were read.
    ///
    /// # Errors
    ///
    /// [`Error::OutOfMemory`].
    pub fn other_books(&self) -> Result<OtherBooks, Error> {
        Ok(OtherBooks::new(raw::beside::books(&self.stream, &self.options)?))
    }

    /// The damaged records that are of no sheet: those of fonts, of cell formats, and of other workbooks. Those of a sheet are in
    /// [`Sheet::damaged`].
    ///
    /// # Errors
    ///
    /// [`Error::OutOfMemory`].
    pub fn damaged(&self) -> Result<Damages, Error> {
        let mut found = Damages::default();
        found.add(&*self.styles()?)?;
        found.add(&raw::beside::books(&self.stream, &self.options)?)?;
        Ok(found.in_order())
    }

    /// The styles, which are read once and kept.
    pub(crate) fn styles(&self) -> Result<Arc<Table<raw::beside::Style>>, raw::Fault> {
        self.styles.get(|| raw::beside::styles(&self.stream, &self.options))
    }

    /// Which style each cell of the sheet of an index has, of which there are likely so many; they are read once and kept.
    pub(crate) fn cell_styles(&self, index: usize, cells: u64) -> Result<Arc<Vec<CellStyle>>, raw::Fault> {
        self.cell_styles[index].get(|| self.of_sheet(index, |stream, options| raw::beside::cell_styles(stream, options, cells)))
    }

    /// What a call reads of the sheet of an index.
    pub(crate) fn of_sheet<T>(&self, index: usize, read: impl FnOnce(&[u8], &raw::Options) -> T) -> T {
        const ONE_SHEET: u32 = 1;
        // Where one sheet alone was read, the options have its index in the file.
        let sheet = if self.options.which == ONE_SHEET { self.options.sheet } else { index as u64 };
        read(&self.stream, &raw::Options { sheet, ..self.options })
    }

    pub(crate) fn text(&self, span: raw::Span) -> &str {
        span.of(&self.texts)
    }
}

impl fmt::Debug for Workbook {
    fn fmt(&self, f: &mut fmt::Formatter<'_>) -> fmt::Result {
        f.debug_struct("Workbook")
            .field("sheets", &self.sheets().map(|sheet| sheet.name()).collect::<Vec<_>>())
            .field("cells", &self.cells.len())
            .finish_non_exhaustive()
    }
}
