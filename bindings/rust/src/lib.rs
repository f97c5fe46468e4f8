//! A reader of old Excel workbooks (`.xls`, Excel 5 to 2003).
//!
//! What reads is a proved library: of every file, also a damaged or a hostile one, it answers what the file holds or the first thing that
//! is wrong with it, and memory that runs out is an answer too. This crate calls it and lends what it answered.
//!
//! ```
//! # fn main() -> Result<(), gaflwened::Error> {
//! # let path = concat!(env!("CARGO_MANIFEST_DIR"), "/../../samples/ledger.xls");
//! let book = gaflwened::Workbook::open(path)?;
//! let sheet = book.sheet("Data")?;
//! for row in sheet.rows() {
//!     println!("{row:?}: {}", row.get(0));
//! }
//! assert_eq!(sheet.get(1, 0), "Sum");
//! assert_eq!(sheet.get(1, 1), 4.5);
//! # Ok(())
//! # }
//! ```
#![deny(missing_docs)]
#![deny(unsafe_code)]

mod beside;
mod book;
mod data;
mod date;
mod error;
#[allow(missing_docs)]
mod raw;
mod sheet;
mod style;

pub use beside::{
    Citation, Comment, Comments, Damage, Damages, HiddenRun, Link, LinkKind, Links, OtherBook, OtherBookKind, OtherBooks, Outside, Why,
};
pub use book::{Options, Which, Workbook};
pub use data::{CellErrorType, Data};
pub use date::ExcelDateTime;
pub use error::{Error, Fault, FaultCode};
pub use sheet::{Cell, Dimensions, Formula, Row, RowValues, Rows, Sheet, SheetType, SheetVisible, Shown, ShownCell};
pub use style::{Across, Border, CellStyle, CellStyles, Colour, Diagonals, Down, Fill, Line, Style, Underline};
