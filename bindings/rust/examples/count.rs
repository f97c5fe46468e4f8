//! Prints the name of each sheet and how many cells it has.
//!
//!     cargo run --release --example count -- book.xls

fn main() -> Result<(), Box<dyn std::error::Error>> {
    let path = std::env::args_os().nth(1).ok_or("the word is an .xls file")?;
    for sheet in gaflwened::Workbook::open(path)?.sheets() {
        println!("{}: {}", sheet.name(), sheet.cells().len());
    }
    Ok(())
}
