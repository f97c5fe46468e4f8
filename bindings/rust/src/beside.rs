//! What stands beside the values of a sheet and of a workbook: hidden rows and columns, comments, hyperlinks, other workbooks.

use std::fmt;

use crate::raw;
use crate::raw::beside::Table;
use crate::Dimensions;

/// Rows or columns one after another that can't be seen, for one reason.
#[derive(Clone, Copy, Debug, PartialEq, Eq, Hash)]
pub struct HiddenRun {
    /// The first of them, from 0.
    pub first: u32,
    /// The last of them.
    pub last: u32,
    /// Why they can't be seen.
    pub why: Why,
}

/// Why rows or columns can't be seen.
#[derive(Clone, Copy, Debug, PartialEq, Eq, Hash)]
pub enum Why {
    /// They are hidden.
    Hidden,
    /// Rows that are hidden in the area of a filter that hides some, by it or by hand.
    Filtered,
    /// They aren't hidden, but their height or width is 0.
    Flat,
}

/// The word of `xls hidden`.
impl fmt::Display for Why {
    fn fmt(&self, f: &mut fmt::Formatter<'_>) -> fmt::Result {
        f.pad(match self {
            Why::Hidden => "hidden",
            Why::Filtered => "filtered",
            Why::Flat => "flat",
        })
    }
}

/// The runs of rows, or those of columns.
pub(crate) fn hidden_runs(found: &Table<raw::beside::HiddenRun>, is_column: bool) -> Vec<HiddenRun> {
    let runs = found.items.iter().filter(|run| (run.is_column != 0) == is_column);
    let why = |number| match number {
        1 => Why::Hidden,
        2 => Why::Filtered,
        _ => Why::Flat,
    };
    runs.map(|run| HiddenRun { first: run.first, last: run.last, why: why(run.why) }).collect()
}

/// Lists over arrays of the library, which lend their items.
macro_rules! lists {
    ($($(#[doc = $about:literal])+ $list:ident of $item:ident by $raw:ident;)+) => {
        $(
            $(#[doc = $about])+
            #[derive(Clone)]
            pub struct $list(Table<raw::beside::$raw>);

            impl $list {
                pub(crate) fn new(found: Table<raw::beside::$raw>) -> Self {
                    $list(found)
                }

                /// Each of them, in the order of the file.
                pub fn iter(&self) -> impl DoubleEndedIterator<Item = $item<'_>> + ExactSizeIterator + Clone {
                    self.0.items.iter().map(|item| $item::new(item, &self.0.texts))
                }

                /// How many there are.
                pub fn len(&self) -> usize {
                    self.0.items.len()
                }

                /// Whether there is none.
                pub fn is_empty(&self) -> bool {
                    self.0.items.is_empty()
                }
            }

            impl fmt::Debug for $list {
                fn fmt(&self, f: &mut fmt::Formatter<'_>) -> fmt::Result {
                    f.debug_list().entries(self.iter()).finish()
                }
            }
        )+
    };
}

lists! {
    /// The comments of a sheet. [`Sheet::comments`](crate::Sheet::comments) reads them.
    Comments of Comment by Comment;
    /// The hyperlinks of a sheet. [`Sheet::links`](crate::Sheet::links) reads them.
    Links of Link by Link;
    /// The formulas of a sheet that cite another workbook or a program. [`Sheet::outside`](crate::Sheet::outside) reads them.
    Outside of Citation by Outside;
}

/// The comment of a cell.
#[derive(Clone, Copy, Debug, PartialEq, Eq, Hash)]
pub struct Comment<'a> {
    /// The row of the cell, from 0.
    pub row: u32,
    /// The column of the cell, from 0.
    pub column: u32,
    /// Whether it is always shown, and not only when the cell is pointed at.
    pub visible: bool,
    /// Who wrote it; empty before BIFF8.
    pub author: &'a str,
    /// Its text.
    pub text: &'a str,
}

impl<'a> Comment<'a> {
    fn new(raw: &raw::beside::Comment, texts: &'a str) -> Self {
        let (author, text) = (raw.author.of(texts), raw.words.of(texts));
        Comment { row: raw.row, column: raw.column, visible: raw.visible != 0, author, text }
    }
}

impl Comments {
    /// The comment of the cell at a row and a column, counted from 0; of several the last.
    pub fn get(&self, row: u32, column: u32) -> Option<Comment<'_>> {
        self.iter().rfind(|comment| (comment.row, comment.column) == (row, column))
    }
}

/// Where a hyperlink leads.
#[derive(Clone, Copy, Debug, PartialEq, Eq, Hash)]
pub enum LinkKind {
    /// To a URL.
    Url,
    /// To a file.
    File,
    /// To a file whose path begins with two backslashes.
    Unc,
    /// To a place in this workbook.
    Place,
}

/// The word of `xls links`.
impl fmt::Display for LinkKind {
    fn fmt(&self, f: &mut fmt::Formatter<'_>) -> fmt::Result {
        f.pad(match self {
            LinkKind::Url => "url",
            LinkKind::File => "file",
            LinkKind::Unc => "unc",
            LinkKind::Place => "place",
        })
    }
}

/// A hyperlink.
#[derive(Clone, Copy, Debug, PartialEq, Eq, Hash)]
pub struct Link<'a> {
    /// The cells that have it.
    pub cells: Dimensions,
    /// Where it leads.
    pub kind: LinkKind,
    /// The URL or the path; empty where it leads to a place in this workbook.
    pub target: &'a str,
    /// A place in the target, such as `Sheet2!A1`.
    pub place: &'a str,
    /// The text that is shown for it.
    pub shown: &'a str,
    /// The text that is shown when it is pointed at.
    pub tip: &'a str,
}

impl<'a> Link<'a> {
    fn new(raw: &raw::beside::Link, texts: &'a str) -> Self {
        Link {
            cells: Dimensions { start: (raw.first_row, raw.first_column), end: (raw.last_row, raw.last_column) },
            kind: match raw.kind {
                0 => LinkKind::Url,
                1 => LinkKind::File,
                2 => LinkKind::Unc,
                _ => LinkKind::Place,
            },
            target: raw.target.of(texts),
            place: raw.place.of(texts),
            shown: raw.shown.of(texts),
            tip: raw.tip.of(texts),
        }
    }
}

/// What a formula cites of another workbook or of a program.
#[derive(Clone, Copy, Debug, PartialEq, Eq, Hash)]
pub struct Citation<'a> {
    /// The row of the formula, from 0.
    pub row: u32,
    /// The column of the formula, from 0.
    pub column: u32,
    /// The path of the workbook, or the name of the program, as [`OtherBook::path`] has it.
    pub book: &'a str,
    /// The sheet, or `First:Last`; empty where a name is cited, or where the sheet isn't there.
    pub sheet: &'a str,
    /// The name that is cited, else empty.
    pub name: &'a str,
}

impl<'a> Citation<'a> {
    fn new(raw: &raw::beside::Outside, texts: &'a str) -> Self {
        let (book, sheet, name) = (raw.book.of(texts), raw.sheet.of(texts), raw.name.of(texts));
        Citation { row: raw.row, column: raw.column, book, sheet, name }
    }
}

/// The other workbooks, programs and added functions that a workbook refers to. [`Workbook::other_books`](crate::Workbook::other_books)
/// reads them; [`Sheet::outside`](crate::Sheet::outside) has the formulas that cite them.
#[derive(Clone)]
pub struct OtherBooks(Table<raw::beside::Book>);

/// Another workbook, or a program, that a workbook refers to.
#[derive(Clone, Copy)]
pub struct OtherBook<'a> {
    book: &'a raw::beside::Book,
    /// Its sheets, and then its names.
    behind: &'a [raw::beside::Book],
    texts: &'a str,
}

/// What is referred to.
#[derive(Clone, Copy, Debug, PartialEq, Eq, Hash)]
pub enum OtherBookKind {
    /// Another workbook.
    Book,
    /// A program that gives data (DDE).
    Program,
}

const WORKBOOK: u32 = 0;
const PROGRAM: u32 = 1;
const SHEET: u32 = 2;
const NAME: u32 = 3;
const FUNCTION: u32 = 4;

/// The texts of the items of a kind.
fn texts_of<'a>(items: &'a [raw::beside::Book], kind: u32, texts: &'a str) -> impl DoubleEndedIterator<Item = &'a str> + Clone + 'a {
    items.iter().filter(move |item| item.kind == kind).map(move |item| item.path.of(texts))
}

impl OtherBooks {
    pub(crate) fn new(found: Table<raw::beside::Book>) -> Self {
        OtherBooks(found)
    }

    /// The workbooks and programs, in the order of the file.
    pub fn books(&self) -> impl DoubleEndedIterator<Item = OtherBook<'_>> + Clone {
        let Table { items, texts, .. } = &self.0;
        let places = items.iter().enumerate().filter(|(_, item)| matches!(item.kind, WORKBOOK | PROGRAM));
        places.map(move |(at, book)| {
            let behind = &items[at + 1..];
            let count = behind.iter().take_while(|item| matches!(item.kind, SHEET | NAME)).count();
            OtherBook { book, behind: &behind[..count], texts }
        })
    }

    /// The names of the added functions, as of an add-in.
    pub fn functions(&self) -> impl DoubleEndedIterator<Item = &str> + Clone {
        texts_of(&self.0.items, FUNCTION, &self.0.texts)
    }
}

impl fmt::Debug for OtherBooks {
    fn fmt(&self, f: &mut fmt::Formatter<'_>) -> fmt::Result {
        let functions: Vec<&str> = self.functions().collect();
        let books: Vec<OtherBook<'_>> = self.books().collect();
        f.debug_struct("OtherBooks").field("books", &books).field("functions", &functions).finish()
    }
}

impl<'a> OtherBook<'a> {
    /// What it is.
    pub fn kind(&self) -> OtherBookKind {
        match self.book.kind {
            PROGRAM => OtherBookKind::Program,
            _ => OtherBookKind::Book,
        }
    }

    /// Its path; of a program its name.
    pub fn path(&self) -> &'a str {
        self.book.path.of(self.texts)
    }

    /// The topic of a program; else empty.
    pub fn topic(&self) -> &'a str {
        self.book.topic.of(self.texts)
    }

    /// The names of its sheets, as far as they are known.
    pub fn sheets(&self) -> impl DoubleEndedIterator<Item = &'a str> + Clone + 'a {
        texts_of(self.behind, SHEET, self.texts)
    }

    /// Its names that formulas cite.
    pub fn names(&self) -> impl DoubleEndedIterator<Item = &'a str> + Clone + 'a {
        texts_of(self.behind, NAME, self.texts)
    }
}

impl fmt::Debug for OtherBook<'_> {
    fn fmt(&self, f: &mut fmt::Formatter<'_>) -> fmt::Result {
        f.debug_struct("OtherBook")
            .field("kind", &self.kind())
            .field("path", &self.path())
            .field("topic", &self.topic())
            .field("sheets", &self.sheets().collect::<Vec<_>>())
            .field("names", &self.names().collect::<Vec<_>>())
            .finish()
    }
}

/// Records that are damaged. What they would say isn't told; all else is. [`Sheet::damaged`](crate::Sheet::damaged) and
/// [`Workbook::damaged`](crate::Workbook::damaged) read them.
#[derive(Clone, Default)]
pub struct Damages {
    damages: Vec<raw::beside::Damage>,
    texts: String,
}

/// A record that is damaged.
#[derive(Clone, Copy, Debug, PartialEq, Eq, Hash)]
pub struct Damage<'a> {
    /// The record's name in [MS-XLS], such as `Row` or `HLink`.
    pub record: &'static str,
    /// Where the header of the record begins in the workbook's stream.
    pub offset: u64,
    /// The row of its cell, from 0, where it is known.
    pub row: Option<u32>,
    /// The column of its cell, from 0, where it is known.
    pub column: Option<u32>,
    /// What is wrong, as a sentence.
    pub why: &'a str,
}

/// The name of a record.
fn record_name(number: u32) -> &'static str {
    match number {
        0x0017 => "ExternSheet",
        0x001C => "Note",
        0x0023 => "ExternName",
        0x0031 => "Font",
        0x007D => "ColInfo",
        0x00E0 => "XF",
        0x01AE => "SupBook",
        0x01B8 => "HLink",
        0x0208 => "Row",
        0x0225 => "DefaultRowHeight",
        _ => "?",
    }
}

impl Damages {
    /// Those of a table behind the others.
    pub(crate) fn add<T>(&mut self, found: &Table<T>) -> Result<(), raw::Fault> {
        raw::reserve(&mut self.damages, found.damages.len())?;
        raw::reserve_text(&mut self.texts, found.damages.iter().map(|damage| damage.why.length).sum())?;
        for damage in &found.damages {
            let why = raw::Span { offset: self.texts.len() as u64, length: damage.why.length };
            self.texts.push_str(damage.why.of(&found.texts));
            self.damages.push(raw::beside::Damage { why, ..*damage });
        }
        Ok(())
    }

    /// In the order of the file.
    pub(crate) fn in_order(mut self) -> Self {
        self.damages.sort_unstable_by_key(|damage| damage.offset);
        self
    }

    /// Each of them.
    pub fn iter(&self) -> impl DoubleEndedIterator<Item = Damage<'_>> + ExactSizeIterator + Clone {
        let known = |number| if number == u32::MAX { None } else { Some(number) };
        self.damages.iter().map(move |damage| Damage {
            record: record_name(damage.record),
            offset: damage.offset,
            row: known(damage.row),
            column: known(damage.column),
            why: damage.why.of(&self.texts),
        })
    }

    /// How many there are.
    pub fn len(&self) -> usize {
        self.damages.len()
    }

    /// Whether there is none.
    pub fn is_empty(&self) -> bool {
        self.damages.is_empty()
    }
}

impl fmt::Debug for Damages {
    fn fmt(&self, f: &mut fmt::Formatter<'_>) -> fmt::Result {
        f.debug_list().entries(self.iter()).finish()
    }
}
