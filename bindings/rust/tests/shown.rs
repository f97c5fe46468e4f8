//! What Excel shows of cells. The book `shown.xls` in the folder GAFLWENED_BOOKS, which `tools/test_bindings` makes, has each code that is
//! named here; without that folder the ledger alone is read. The texts are by the rules of Excel's number formats.

use std::path::PathBuf;
use std::{env, fs};

use gaflwened::{Options, Sheet, Which, Workbook};

const LEDGER: &str = concat!(env!("CARGO_MANIFEST_DIR"), "/../../samples/ledger.xls");

/// The path of a book, where the folder is there.
fn book(name: &str) -> Option<PathBuf> {
    env::var_os("GAFLWENED_BOOKS").map(|folder| PathBuf::from(folder).join(name))
}

/// The texts of the cells, which stand in the places of those of the sheet.
fn texts(sheet: Sheet<'_>) -> Vec<String> {
    let shown = sheet.shown().unwrap();
    assert_eq!(shown.cells().len(), sheet.cells().len());
    for (shown_cell, cell) in shown.cells().zip(sheet.cells()) {
        assert_eq!((shown_cell.row, shown_cell.column), (cell.row, cell.column));
        assert_eq!(shown.get(cell.row, cell.column), Some(shown_cell.text));
    }
    shown.cells().map(|cell| cell.text.to_owned()).collect()
}

#[test]
fn the_ledger() {
    let book = Workbook::open(LEDGER).unwrap();
    let shown = book.sheet("Data").unwrap().shown().unwrap();
    assert_eq!(shown.get(1, 0), Some("Sum"));
    assert_eq!(shown.get(1, 1), Some("4.5"));
    assert_eq!((shown.get(1, 2), shown.get(9, 9)), (None, None));
    assert_eq!(texts(book.sheet("Log").unwrap())[1], "#N/A");
    assert_eq!(book.sheet("Old").unwrap().shown().unwrap().cells().len(), 0);
}

const FIRST: [&str; 6] = ["1,234.50", "13%", "2024-02-29", "30:00", "<a>", "#N/A"];
const SECOND: [&str; 6] = ["-1,234,567.89", "-13%", "1900-02-29", "12:00", "<é>", "TRUE"];
// (a code that has a section for texts alone shows a number as General does)
const FOURTH: [&str; 5] = ["7", "0.1", "NA", "1E+21", "2.5"];

#[test]
fn codes() {
    let path = match book("shown.xls") {
        Some(path) => path,
        None => return,
    };
    let read = Workbook::open(&path).unwrap();
    let first = read.sheets().next().unwrap();
    assert_eq!(texts(first), [&FIRST[..], &SECOND[..], &FOURTH[..]].concat());
    let shown = first.shown().unwrap();
    assert_eq!((shown.get(0, 6), shown.get(2, 0)), (None, None));
    assert_eq!(format!("{:?}", shown.cells().next().unwrap()), r#"ShownCell { row: 0, column: 0, text: "1,234.50" }"#);
    drop(read);
    assert_eq!(shown.get(1, 4), Some("<é>"));
}

/// The index is that of the sheet in the file, whichever sheets are read.
#[test]
fn one_sheet_of_several() {
    let path = match book("shown.xls") {
        Some(path) => path,
        None => return,
    };
    assert_eq!(texts(Workbook::open(&path).unwrap().sheet("Second").unwrap()), ["50%", "b"]);
    let one = Options { which: Which::One(1), ..Options::default() }.open(&path).unwrap();
    assert_eq!(texts(one.sheets().next().unwrap()), ["50%", "b"]);
    let none = Options { which: Which::NoContent, ..Options::default() }.open(&path).unwrap();
    assert!(none.sheets().all(|sheet| texts(sheet).is_empty()));
}

/// Sheets of every book, from its file and from its bytes, of a compound file and of a stream alone.
#[test]
fn every_book() {
    let folder = match book(".") {
        Some(folder) => folder,
        None => return,
    };
    let mut cells = 0;
    for entry in fs::read_dir(folder).unwrap() {
        let path = entry.unwrap().path();
        if path.extension() != Some("xls".as_ref()) {
            continue;
        }
        if let Ok(read) = Workbook::open(&path) {
            let again = Workbook::from_bytes(&fs::read(&path).unwrap()).unwrap();
            for (sheet, other) in read.sheets().zip(again.sheets()) {
                let found = texts(sheet);
                assert_eq!(found, texts(other));
                cells += found.len();
            }
        }
    }
    assert_ne!(cells, 0);
}
