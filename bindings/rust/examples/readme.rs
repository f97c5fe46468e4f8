//! The examples of calamine's README, line by line. Each line of calamine's stands in a comment above what takes its place.
//!
//!     cargo run --example readme -- book.xls SHEET

// use calamine::{open_workbook, Data, Error, RangeDeserializerBuilder, Reader, Xlsx};
use gaflwened::{Data, Error, Workbook};

fn rows(path: &str, name: &str) -> Result<(), Error> {
    // let mut excel: Xlsx<_> = open_workbook("file.xlsx").unwrap();
    let excel = Workbook::open(path)?;
    // if let Ok(r) = excel.worksheet_range("Sheet1") {
    if let Ok(r) = excel.sheet(name) {
        // for row in r.rows() {
        for row in r.rows() {
            // println!("row={:?}, row[0]={:?}", row, row[0]);
            println!("row={:?}, row[0]={:?}", row, row.get(0));
        }
    }
    Ok(())
}

fn first_record(path: &str, name: &str) -> Result<(), Error> {
    // let mut workbook: Xlsx<_> = open_workbook(path)?;
    let workbook = Workbook::open(path)?;
    // let range = workbook.worksheet_range("Sheet1")?;
    let range = workbook.sheet(name)?;
    // let mut iter = RangeDeserializerBuilder::new().from_range(&range)?;
    let mut iter = range.rows().skip(1);
    // if let Some(result) = iter.next() {
    if let Some(result) = iter.next() {
        // let (label, value): (String, f64) = result?;
        let (label, value) = (result.get(0), result.get(1).as_f64());
        // assert_eq!(label, "celsius"); assert_eq!(value, 22.2222);
        println!("{label}: {value:?}");
    }
    Ok(())
}

fn statistics(path: &str, name: &str) -> Result<(), Error> {
    // let mut workbook: Xlsx<_> = open_workbook(path).expect("Cannot open file");
    let workbook = Workbook::open(path)?;
    // if let Ok(range) = workbook.worksheet_range("Sheet1") {
    if let Ok(range) = workbook.sheet(name) {
        // let total_cells = range.get_size().0 * range.get_size().1;
        let total_cells: usize = range.rows().map(|row| row.len()).sum();
        // let non_empty_cells: usize = range.used_cells().count();
        let non_empty_cells = range.cells().len();
        println!("Found {total_cells} cells in '{name}', including {non_empty_cells} non empty cells");
        // assert_eq!(non_empty_cells, range.rows()
        //     .flat_map(|r| r.iter().filter(|&c| c != &Data::Empty)).count());
        assert_eq!(non_empty_cells, range.rows().flat_map(|r| r.iter().filter(|c| c != &Data::Empty)).count());
    }
    // if let Ok(Some(vba)) = workbook.vba_project() { .. }
    // (Macro projects aren't read here: `xls vba` lists them.)

    // for name in workbook.defined_names() {
    for name in workbook.names() {
        // println!("name: {}, formula: {}", name.0, name.1);
        println!("name: {}, formula: {}", name.0, name.1);
    }
    // let sheets = workbook.sheet_names().to_owned();
    // for s in sheets {
    for s in workbook.sheets() {
        // println!("found {} formula in '{}'",
        //     workbook.worksheet_formula(&s).expect("error while getting formula")
        //         .rows().flat_map(|r| r.iter().filter(|f| !f.is_empty())).count(), s);
        println!("found {} formula in '{}'", s.formulas().filter(|f| !f.text.is_empty()).count(), s.name());
    }
    Ok(())
}

fn main() -> Result<(), Error> {
    let mut words = std::env::args().skip(1);
    let path = words.next().unwrap_or_else(|| concat!(env!("CARGO_MANIFEST_DIR"), "/../../samples/ledger.xls").to_owned());
    let sheet = words.next().unwrap_or_else(|| "Data".to_owned());
    rows(&path, &sheet)?;
    first_record(&path, &sheet)?;
    statistics(&path, &sheet)
}
