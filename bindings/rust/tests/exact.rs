//! What is read of the files in the folder GAFLWENED_BOOKS, beside what stands in NAME.exact for each: the lines of `xls dump --exact` with
//! numbers by their bits and the kinds of `xls dump`, or the numbers of the fault. `tools/test_bindings` makes that folder; without it
//! nothing is tested.

use std::fmt::Write;
use std::path::Path;
use std::{env, fs};

use gaflwened::{Data, Error, Options, Sheet, SheetType, SheetVisible, Workbook};

fn escaped(text: &str) -> String {
    text.replace('\\', "\\\\").replace('\n', "\\n").replace('\r', "\\r").replace('\t', "\\t")
}

fn fields(value: &Data<'_>) -> String {
    let bits = |number: f64| format!("0x{:016x}", number.to_bits());
    match value {
        Data::Int(number) => format!("int\t{number}"),
        Data::Float(number) => format!("float\t{}", bits(*number)),
        Data::DateTime(moment) if moment.is_duration() => format!("span\t{}", bits(moment.as_f64())),
        Data::DateTime(moment) => format!("date\t{}", bits(moment.as_f64())),
        Data::String(text) => format!("text\t{}", escaped(text)),
        Data::Bool(truth) => format!("bool\t{truth}"),
        Data::Error(error) => format!("error\t{error}"),
        other => panic!("{other:?}"),
    }
}

fn put_sheet(out: &mut String, sheet: Sheet<'_>) {
    let kind = match sheet.kind() {
        SheetType::WorkSheet => "worksheet",
        SheetType::DialogSheet => "dialog",
        SheetType::MacroSheet => "macro",
        SheetType::ChartSheet => "chart",
        SheetType::Vba => "vba",
    };
    let visible = match sheet.visible() {
        SheetVisible::Visible => "visible",
        SheetVisible::Hidden => "hidden",
        SheetVisible::VeryHidden => "veryhidden",
    };
    writeln!(out, "sheet\t{}\t{kind}\t{visible}", escaped(sheet.name())).unwrap();
    for cell in sheet.cells() {
        writeln!(out, "cell\t{}\t{}\t{}", cell.row, cell.column, fields(&cell.value)).unwrap();
        assert_eq!(format!("{:?}", sheet.get(cell.row, cell.column)), format!("{:?}", cell.value));
    }
    for formula in sheet.formulas().filter(|formula| !formula.text.is_empty()) {
        writeln!(out, "formula\t{}\t{}\t{}", formula.row, formula.column, escaped(formula.text)).unwrap();
    }
    for region in sheet.merged_regions() {
        let ((top, left), (bottom, right)) = (region.start, region.end);
        writeln!(out, "merge\t{top}\t{left}\t{bottom}\t{right}").unwrap();
    }
}

fn lines(book: &Workbook) -> String {
    let mut out = format!("dates\t{}\n", if book.is_1904() { 1904 } else { 1900 });
    for (name, formula) in book.names() {
        writeln!(out, "name\t{}\t{}", escaped(name), escaped(formula)).unwrap();
    }
    for sheet in book.sheets() {
        put_sheet(&mut out, sheet);
    }
    out
}

/// The rows hold exactly the cells, each in its place.
fn rows_hold_the_cells(sheet: Sheet<'_>) {
    if sheet.cells().len() == 0 {
        assert_eq!(sheet.rows().count(), 0);
        assert_eq!(sheet.dimensions(), None);
        return;
    }
    let dimensions = sheet.dimensions().unwrap();
    let (top, left) = dimensions.start;
    if (dimensions.end.0 - top) as u64 * (dimensions.end.1 - left) as u64 > 10_000_000 {
        return;
    }
    let mut cells = sheet.cells();
    for (at, row) in sheet.rows().enumerate() {
        assert_eq!(row.number() as usize, top as usize + at);
        assert_eq!(row.iter().len(), row.len());
        for (index, value) in row.iter().enumerate() {
            assert_eq!(format!("{:?}", row.get(index)), format!("{value:?}"));
            if !value.is_empty() {
                let cell = cells.next().unwrap();
                assert_eq!((cell.row, cell.column), (row.number(), left + index as u32));
                assert_eq!(fields(&cell.value), fields(&value));
            }
        }
        assert!(row.get(row.len()).is_empty());
    }
    assert!(cells.next().is_none());
}

fn compare(book: &Path, wanted: &Path) {
    let options = Options { few_functions: true, ..Options::default() };
    let found = match options.open(book) {
        Ok(read) => {
            read.sheets().for_each(rows_hold_the_cells);
            lines(&read)
        }
        Err(Error::Fault(fault)) => {
            let (code, part, table) = (fault.code.number(), fault.part, fault.table);
            format!("fault\t{code}\t{part}\t{table}\t{}\t{}\t{}\n", fault.first, fault.second, fault.third)
        }
        Err(error) => panic!("{}: {error}", book.display()),
    };
    let wanted = fs::read_to_string(wanted).unwrap();
    for (found, wanted) in found.lines().zip(wanted.lines()) {
        assert_eq!(found, wanted, "{}", book.display());
    }
    assert_eq!(found.lines().count(), wanted.lines().count(), "{}", book.display());
}

#[test]
fn reads_what_xls_reads() {
    let folder = match env::var_os("GAFLWENED_BOOKS") {
        Some(folder) => folder,
        None => return,
    };
    let mut count = 0;
    for entry in fs::read_dir(folder).unwrap() {
        let book = entry.unwrap().path();
        let wanted = book.with_extension("exact");
        if book.extension() == Some("xls".as_ref()) && wanted.exists() {
            compare(&book, &wanted);
            count += 1;
        }
    }
    assert_ne!(count, 0);
}
