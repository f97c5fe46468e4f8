//! The calls over samples/ledger.xls, whose content the README shows.

use std::error::Error as _;
use std::fs;

use gaflwened::{CellErrorType, Data, Error, ExcelDateTime, FaultCode, Options, SheetType, SheetVisible, Which, Workbook};

const LEDGER: &str = concat!(env!("CARGO_MANIFEST_DIR"), "/../../samples/ledger.xls");

fn ledger() -> Workbook {
    Workbook::open(LEDGER).unwrap()
}

#[test]
fn sheets_in_order() {
    let book = ledger();
    let names: Vec<&str> = book.sheets().map(|sheet| sheet.name()).collect();
    assert_eq!(names, ["Data", "Log", "Old"]);
    assert!(book.sheets().all(|sheet| sheet.kind() == SheetType::WorkSheet));
    let visible: Vec<SheetVisible> = book.sheets().map(|sheet| sheet.visible()).collect();
    assert_eq!(visible, [SheetVisible::Visible, SheetVisible::Visible, SheetVisible::Hidden]);
    assert_eq!(book.names().collect::<Vec<_>>(), [("Total", "Data!$B$2")]);
    assert!(!book.is_1904());
}

#[test]
fn cells_and_rows() {
    let book = ledger();
    let sheet = book.sheet("Data").unwrap();
    let day = Data::DateTime(ExcelDateTime::new(43831.0, false, false));
    let values: Vec<Data<'_>> = sheet.cells().map(|cell| cell.value).collect();
    let text = Data::String;
    let all = [text("Item"), text("Café €"), text("Sum"), Data::Float(4.5), Data::Int(2), Data::Float(2.5), day];
    assert_eq!(values, all);
    let rows: Vec<Vec<Data<'_>>> = sheet.rows().map(|row| row.iter().collect()).collect();
    assert_eq!(rows[0], [text("Item"), text("Café €"), Data::Empty]);
    assert_eq!(rows[1], [text("Sum"), Data::Float(4.5), Data::Empty]);
    assert_eq!(rows[2], [Data::Int(2), Data::Float(2.5), day]);
    assert_eq!(format!("{:?}", sheet.rows().nth(1).unwrap()), r#"[String("Sum"), Float(4.5), Empty]"#);
    assert_eq!(sheet.get(1, 1), 4.5);
    assert_eq!(sheet.get(9, 9), Data::Empty);
    let dimensions = sheet.dimensions().unwrap();
    assert_eq!((dimensions.start, dimensions.end), ((0, 0), (2, 2)));
    assert_eq!(book.sheet("Log").unwrap().get(1, 0), Data::Error(CellErrorType::NA));
    assert!(book.sheet("Old").unwrap().dimensions().is_none());
}

#[test]
fn formulas_and_regions() {
    let book = ledger();
    let sheet = book.sheet("Data").unwrap();
    let formulas: Vec<_> = sheet.formulas().map(|formula| (formula.row, formula.column, formula.text)).collect();
    assert_eq!(formulas, [(1, 1, "SUM(A3:B3)")]);
    let regions: Vec<_> = sheet.merged_regions().map(|region| (region.start, region.end)).collect();
    assert_eq!(regions, [((0, 1), (0, 2))]);
}

#[test]
fn texts_of_values() {
    let shown: Vec<String> = ledger().sheet("Data").unwrap().cells().map(|cell| cell.value.to_string()).collect();
    assert_eq!(shown, ["Item", "Café €", "Sum", "4.5", "2", "2.5", "43831"]);
    assert_eq!(format!("{:>6}|{:<6}|", Data::Bool(true), Data::Error(CellErrorType::Div0)), "  true|#DIV/0!|");
    assert_eq!(Data::Empty.to_string(), "");
}

#[test]
fn dates() {
    let moment = |days, is_1904| ExcelDateTime::new(days, false, is_1904);
    assert_eq!(moment(43831.75, false).to_text(), "2020-01-01T18:00:00");
    assert_eq!(moment(43831.75, false).to_ymd_hms_milli(), Some((2020, 1, 1, 18, 0, 0, 0)));
    assert_eq!(moment(0.25, false).to_ymd_hms_milli(), Some((1899, 12, 31, 6, 0, 0, 0)));
    assert_eq!(moment(60.0, false).to_text(), "1900-02-29");
    assert_eq!(moment(1.5, true).to_ymd_hms_milli(), Some((1904, 1, 2, 12, 0, 0, 0)));
    assert_eq!(moment(-1.0, false).to_ymd_hms_milli(), None);
    assert_eq!(moment(1.0 + 1.5 / 86_400_000.0, false).to_text(), "1900-01-01T00:00:00.002");
    assert_eq!(moment(1.0 + 250.0 / 86_400_000.0, false).to_ymd_hms_milli(), Some((1900, 1, 1, 0, 0, 0, 250)));
    assert_eq!(ExcelDateTime::new(1.25, true, false).to_text(), "30:00:00");
    assert_eq!(ExcelDateTime::new(1.25, true, false).to_ymd_hms_milli(), None);
}

#[test]
fn options() {
    let one = Options { which: Which::One(1), ..Options::default() }.open(LEDGER).unwrap();
    assert_eq!(one.sheets().map(|sheet| sheet.name()).collect::<Vec<_>>(), ["Log"]);
    assert_eq!(one.sheet("Log").unwrap().cells().len(), 2);
    let bare = Options { which: Which::NoContent, ..Options::default() }.open(LEDGER).unwrap();
    assert_eq!(bare.sheets().map(|sheet| sheet.cells().len()).sum::<usize>(), 0);
    assert_eq!(bare.sheets().len(), 3);
    let options = Options { max_cells: Some(3), ..Options::default() };
    match options.open(LEDGER) {
        Err(Error::Fault(fault)) => {
            assert_eq!((fault.code, fault.first), (FaultCode::TooManyCells, 3));
            assert_eq!(fault.to_string(), "Sheet with more than 3 cells");
        }
        other => panic!("{other:?}"),
    }
}

#[test]
fn refusals() {
    let error = Workbook::open("no such file").unwrap_err();
    assert!(matches!(error, Error::Io(_)) && error.source().is_some());
    let file = fs::read(LEDGER).unwrap();
    match Workbook::from_bytes(&file[..600]) {
        Err(Error::Fault(fault)) => assert!(!fault.to_string().is_empty()),
        other => panic!("{other:?}"),
    }
    match Workbook::from_bytes(b"PK\x03\x04") {
        Err(Error::Fault(fault)) => assert_eq!((fault.code, fault.part), (FaultCode::FileKind, 2)),
        other => panic!("{other:?}"),
    }
    match Workbook::from_bytes(b"") {
        Err(Error::Fault(fault)) => assert_eq!((fault.code, fault.part), (FaultCode::FileKind, 1)),
        other => panic!("{other:?}"),
    }
    let error = ledger().sheet("data").unwrap_err();
    assert_eq!(error.to_string(), "Worksheet 'data' not found");
    match (Options { which: Which::One(3), ..Options::default() }).open(LEDGER) {
        Err(Error::Fault(fault)) => assert_eq!((fault.code, fault.first), (FaultCode::NoSuchSheet, 3)),
        other => panic!("{other:?}"),
    }
}

#[test]
fn a_cut_file_is_never_taken_for_a_whole_one() {
    let file = fs::read(LEDGER).unwrap();
    for length in (0..file.len()).step_by(3) {
        match Workbook::from_bytes(&file[..length]) {
            Err(Error::Fault(fault)) => assert!(!fault.to_string().is_empty()),
            other => panic!("{length}: {other:?}"),
        }
    }
}
