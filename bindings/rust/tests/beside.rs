//! What stands beside the values. Of each NAME.xls in the folder GAFLWENED_BOOKS with a file NAME.TOPIC beside it, the lines of `xls TOPIC`
//! are written again; the book `beside.xls` has something of each kind. `tools/test_bindings` makes that folder; without it nothing is
//! tested but that the ledger has nothing.

use std::fmt::Write;
use std::path::{Path, PathBuf};
use std::{env, fs};

use gaflwened::{
    Across, Border, Colour, Damage, Damages, Diagonals, Down, Fill, HiddenRun, Line, LinkKind, Options, OtherBookKind, Sheet, SheetType,
    SheetVisible, Style, Underline, Which, Why, Workbook,
};

const LEDGER: &str = concat!(env!("CARGO_MANIFEST_DIR"), "/../../samples/ledger.xls");

fn folder() -> Option<PathBuf> {
    env::var_os("GAFLWENED_BOOKS").map(PathBuf::from)
}

// ---- lines

fn escaped(text: &str) -> String {
    text.replace('\\', "\\\\").replace('\n', "\\n").replace('\r', "\\r").replace('\t', "\\t")
}

fn put_sheet(out: &mut String, sheet: Sheet<'_>) {
    let kind = match sheet.kind() {
        SheetType::WorkSheet => "worksheet",
        SheetType::DialogSheet => "dialog",
        SheetType::MacroSheet => "macro",
        SheetType::ChartSheet => "chart",
        SheetType::Vba => "vba",
    };
    let visible = match sheet.visible() {
        SheetVisible::Visible => "visible",
        SheetVisible::Hidden => "hidden",
        SheetVisible::VeryHidden => "veryhidden",
    };
    writeln!(out, "sheet\t{}\t{kind}\t{visible}", escaped(sheet.name())).unwrap();
}

/// The lines of the damaged records of a topic.
fn put_damages(out: &mut String, topic: &str, damages: &Damages) {
    let records: &[&str] = match topic {
        "hidden" => &["Row", "ColInfo", "DefaultRowHeight"],
        "styles" => &["Font", "XF"],
        "comments" => &["Note"],
        "links" => &["HLink"],
        _ => &["SupBook", "ExternName", "ExternSheet"],
    };
    let place = |number: Option<u32>| number.map_or(String::new(), |number| number.to_string());
    for Damage { record, offset, row, column, why } in damages.iter().filter(|damage| records.contains(&damage.record)) {
        writeln!(out, "damaged\t{record}\t{offset}\t{}\t{}\t{}", place(row), place(column), escaped(why)).unwrap();
    }
}

fn put_hidden(out: &mut String, sheet: Sheet<'_>) {
    for (word, runs) in [("rows", sheet.hidden_rows().unwrap()), ("columns", sheet.hidden_columns().unwrap())] {
        for HiddenRun { first, last, why } in runs {
            writeln!(out, "{word}\t{first}\t{last}\t{why}").unwrap();
        }
    }
}

/// Words, but those of what isn't so.
fn words<const N: usize>(words: [(bool, String); N]) -> String {
    let found: Vec<String> = words.into_iter().filter(|(is, _)| *is).map(|(_, word)| word).collect();
    found.join(" ")
}

fn marks(style: &Style) -> String {
    let underline = style.underline();
    words([
        (style.bold(), "bold".into()),
        (style.italic(), "italic".into()),
        (style.strike(), "strike".into()),
        (underline == Underline::Single, "underline".into()),
        (underline == Underline::Double, "double".into()),
        (style.superscript(), "superscript".into()),
        (style.subscript(), "subscript".into()),
        (style.unlocked(), "unlocked".into()),
        (style.concealed(), "concealed".into()),
    ])
}

fn fill(style: &Style) -> String {
    match style.fill() {
        None => String::new(),
        Some(Fill { pattern: 1, colour, ground: None }) => colour.to_string(),
        Some(Fill { pattern, colour, ground }) => format!("{pattern} {colour} {}", ground.unwrap()),
    }
}

fn alignment(style: &Style) -> String {
    let (across, down) = (style.across(), style.down());
    words([
        (across != Across::General, across.to_string()),
        (!matches!(down, Down::Bottom | Down::Other(_)), down.to_string()),
        (style.wrap(), "wrap".into()),
        (style.shrink(), "shrink".into()),
        (style.indent() != 0, format!("indent:{}", style.indent())),
        (style.turn() != 0, format!("turn:{}", style.turn())),
    ])
}

fn borders(style: &Style) -> String {
    let side = |name: &str, line: Option<Border>| match line {
        Some(Border { line, colour }) => (true, format!("{name}:{line}:{colour}")),
        None => (false, String::new()),
    };
    let (which, diagonal) = style.diagonal().map_or((String::new(), None), |(which, line)| (which.to_string(), Some(line)));
    words([
        side("left", style.left()),
        side("right", style.right()),
        side("top", style.top()),
        side("bottom", style.bottom()),
        side(&which, diagonal),
    ])
}

fn put_styles(out: &mut String, sheet: Sheet<'_>) {
    let styles = sheet.styles().unwrap();
    for (at, cell) in styles.iter().enumerate() {
        let (row, column, style) = (cell.row, cell.column, &cell.style);
        let size = style.size().map_or(String::new(), |size| size.to_string());
        let (format, font, colour) = (escaped(style.format()), escaped(style.font()), style.colour());
        let (marks, fill, alignment, borders) = (marks(style), fill(style), alignment(style), borders(style));
        writeln!(out, "style\t{row}\t{column}\t{marks}\t{format}\t{font}\t{size}\t{colour}\t{fill}\t{alignment}\t{borders}").unwrap();
        if at < 100 {
            assert_eq!(format!("{:?}", sheet.style(row, column).unwrap().unwrap()), format!("{style:?}"));
        }
    }
}

fn put_comments(out: &mut String, sheet: Sheet<'_>) {
    for comment in sheet.comments().unwrap().iter() {
        let visible = if comment.visible { "visible" } else { "hidden" };
        let (author, text) = (escaped(comment.author), escaped(comment.text));
        writeln!(out, "comment\t{}\t{}\t{visible}\t{author}\t{text}", comment.row, comment.column).unwrap();
    }
}

fn put_links(out: &mut String, sheet: Sheet<'_>) {
    for link in sheet.links().unwrap().iter() {
        let ((top, left), (bottom, right)) = (link.cells.start, link.cells.end);
        let texts = [link.target, link.place, link.shown, link.tip].map(escaped).join("\t");
        writeln!(out, "link\t{top}\t{left}\t{bottom}\t{right}\t{}\t{texts}", link.kind).unwrap();
    }
}

fn put_outside(out: &mut String, sheet: Sheet<'_>) {
    for cited in sheet.outside().unwrap().iter() {
        let texts = [cited.book, cited.sheet, cited.name].map(escaped).join("\t");
        writeln!(out, "outside\t{}\t{}\t{texts}", cited.row, cited.column).unwrap();
    }
}

fn put_books(out: &mut String, book: &Workbook) {
    let others = book.other_books().unwrap();
    for other in others.books() {
        let kind = if other.kind() == OtherBookKind::Book { "book" } else { "dde" };
        writeln!(out, "book\t{kind}\t{}\t{}", escaped(other.path()), escaped(other.topic())).unwrap();
        other.sheets().for_each(|name| writeln!(out, "book_sheet\t{}", escaped(name)).unwrap());
        other.names().for_each(|name| writeln!(out, "book_name\t{}", escaped(name)).unwrap());
    }
    others.functions().for_each(|name| writeln!(out, "function\t{}", escaped(name)).unwrap());
}

fn lines(topic: &str, book: &Workbook) -> String {
    let mut out = String::new();
    if topic == "books" {
        put_books(&mut out, book);
    }
    if topic == "books" || topic == "styles" {
        put_damages(&mut out, topic, &book.damaged().unwrap());
    }
    for sheet in book.sheets() {
        put_sheet(&mut out, sheet);
        match topic {
            "hidden" => put_hidden(&mut out, sheet),
            "styles" => put_styles(&mut out, sheet),
            "comments" => put_comments(&mut out, sheet),
            "links" => put_links(&mut out, sheet),
            _ => put_outside(&mut out, sheet),
        }
        put_damages(&mut out, topic, &sheet.damaged().unwrap());
    }
    out
}

/// Added functions stand behind the workbooks here, and where their records are in the lines.
fn functions_last(text: &str) -> Vec<&str> {
    let mut lines: Vec<&str> = text.lines().collect();
    let globals = lines.iter().take_while(|line| !line.starts_with("sheet\t")).count();
    let rank = |line: &&str| ["function\t", "damaged\t"].iter().position(|word| line.starts_with(word)).map_or(0, |at| at + 1);
    lines[..globals].sort_by_key(rank);
    lines
}

fn compare(topic: &str, path: &Path, book: &Workbook) {
    let wanted = fs::read_to_string(path.with_extension(topic)).unwrap();
    let found = lines(topic, book);
    assert_eq!(functions_last(&found), functions_last(&wanted), "{topic} of {}", path.display());
}

#[test]
fn what_xls_tells() {
    let folder = match folder() {
        Some(folder) => folder,
        None => return,
    };
    let mut count = 0;
    for entry in fs::read_dir(folder).unwrap() {
        let path = entry.unwrap().path();
        let topics: Vec<&str> =
            ["hidden", "styles", "comments", "links", "books"].into_iter().filter(|topic| path.with_extension(topic).exists()).collect();
        if path.extension() != Some("xls".as_ref()) || topics.is_empty() {
            continue;
        }
        // The cells needn't be read.
        let read = Workbook::open(&path).unwrap();
        let bare = Options { which: Which::NoContent, ..Options::default() }.open(&path).unwrap();
        for topic in topics {
            compare(topic, &path, &read);
            compare(topic, &path, &bare);
            count += 1;
        }
    }
    assert_ne!(count, 0);
}

// ---- the calls

fn beside(which: Which) -> Option<Workbook> {
    folder().map(|folder| Options { which, ..Options::default() }.open(folder.join("beside.xls")).unwrap())
}

#[test]
fn the_ledger_has_nothing() {
    let book = Workbook::open(LEDGER).unwrap();
    assert_eq!((book.other_books().unwrap().books().count(), book.damaged().unwrap().len()), (0, 0));
    for sheet in book.sheets() {
        assert!(sheet.hidden_rows().unwrap().is_empty() && sheet.hidden_columns().unwrap().is_empty());
        assert!(sheet.comments().unwrap().is_empty() && sheet.links().unwrap().is_empty() && sheet.outside().unwrap().is_empty());
        assert!(sheet.damaged().unwrap().is_empty());
        assert!(sheet.style(9, 9).unwrap().is_none());
    }
}

#[test]
fn hidden_rows_and_columns() {
    let book = match beside(Which::All) {
        Some(book) => book,
        None => return,
    };
    let sheet = book.sheet("Data").unwrap();
    let run = |first, last, why| HiddenRun { first, last, why };
    assert_eq!(sheet.hidden_rows().unwrap(), [run(2, 2, Why::Hidden), run(9, 9, Why::Flat)]);
    assert_eq!(sheet.hidden_columns().unwrap(), [run(1, 1, Why::Hidden), run(7, 8, Why::Flat)]);
    assert!(book.sheet("Other").unwrap().hidden_rows().unwrap().is_empty());
}

#[test]
fn styles() {
    let book = match beside(Which::All) {
        Some(book) => book,
        None => return,
    };
    let sheet = book.sheet("Data").unwrap();
    let plain = sheet.style(0, 0).unwrap().unwrap();
    assert_eq!((plain.font(), plain.size(), plain.format(), plain.colour()), ("Arial", Some(10.0), "General", Colour::Auto));
    assert!(!plain.bold() && !plain.strike() && !plain.unlocked() && !plain.wrap() && plain.fill().is_none() && plain.left().is_none());
    assert_eq!((plain.across(), plain.down(), plain.indent(), plain.turn()), (Across::General, Down::Bottom, 0, 0));
    let style = sheet.style(3, 0).unwrap().unwrap();
    assert!(style.strike() && style.bold() && style.unlocked() && style.wrap());
    assert!(!style.italic() && !style.superscript() && !style.subscript() && !style.concealed() && !style.shrink());
    assert_eq!((style.size(), style.format(), style.colour()), (Some(12.5), "0.00 \"kg\"", Colour::Rgb(255, 0, 0)));
    assert_eq!((style.across(), style.down(), style.indent(), style.turn()), (Across::Center, Down::Center, 3, 45));
    assert_eq!(style.underline(), Underline::None);
    assert_eq!(style.left(), Some(Border { line: Line::Thin, colour: Colour::Rgb(0, 0, 0) }));
    assert_eq!((style.right(), style.top(), style.bottom()), (None, None, None));
    assert_eq!(style.diagonal(), Some((Diagonals::Down, Border { line: Line::Double, colour: Colour::Auto })));
    let filled = sheet.style(4, 0).unwrap().unwrap();
    assert_eq!(filled.fill(), Some(Fill { pattern: 1, colour: Colour::Rgb(255, 255, 0), ground: None }));
    // (the cell has no value, and the next one an XF that isn't there)
    assert!(sheet.get(4, 0).is_empty());
    let unknown = sheet.style(4, 1).unwrap().unwrap();
    assert_eq!((unknown.font(), unknown.size(), unknown.format(), unknown.down()), ("", None, "", Down::Bottom));
    assert!(sheet.style(4, 2).unwrap().is_none());
    assert_eq!(sheet.styles().unwrap().iter().len(), 16);
    let texts = (Colour::Rgb(1, 2, 255).to_string(), Line::MediumDashDotDot.to_string(), format!("{:?}", filled.fill().unwrap().colour));
    assert_eq!(texts, ("#0102ff".into(), "mediumDashDotDot".into(), "Rgb(255, 255, 0)".into()));
    // It outlives its workbook.
    drop(book);
    assert_eq!(style.font(), "Arial");
}

#[test]
fn comments_and_links() {
    let book = match beside(Which::All) {
        Some(book) => book,
        None => return,
    };
    let sheet = book.sheet("Data").unwrap();
    let comments = sheet.comments().unwrap();
    let comment = comments.get(1, 0).unwrap();
    assert_eq!((comment.author, comment.text, comment.visible), ("Ann", "hello\nthere", true));
    let other = comments.iter().last().unwrap();
    assert_eq!((other.row, other.column, other.author, other.text, other.visible), (3, 2, "Bö", "日本", false));
    assert!(comments.get(0, 0).is_none());
    assert_eq!(comments.len(), 2);
    let links = sheet.links().unwrap();
    let found: Vec<_> = links.iter().map(|link| (link.cells.start, link.cells.end, link.kind, link.target, link.place)).collect();
    let wanted = [((3, 2), (4, 3), LinkKind::Url, "http://a.example/é", ""), ((0, 0), (0, 0), LinkKind::Place, "", "Other!A1")];
    assert_eq!(found, wanted);
    assert_eq!(links.iter().map(|link| (link.shown, link.tip)).collect::<Vec<_>>(), [("here", "look"), ("", "")]);
}

#[test]
fn other_books() {
    let book = match beside(Which::NoContent) {
        Some(book) => book,
        None => return,
    };
    let others = book.other_books().unwrap();
    let found: Vec<_> = others.books().map(|other| (other.kind(), other.path(), other.topic())).collect();
    assert_eq!(found, [(OtherBookKind::Book, "C:\\old\\led.xls", ""), (OtherBookKind::Program, "Excel", "[b.xls]S")]);
    let first = others.books().next().unwrap();
    assert_eq!((first.sheets().collect::<Vec<_>>(), first.names().collect::<Vec<_>>()), (vec!["Jan", "Feb"], vec!["Rate"]));
    assert_eq!(others.functions().collect::<Vec<_>>(), ["EDATE"]);
    let outside = book.sheet("Data").unwrap().outside().unwrap();
    let cited: Vec<_> = outside.iter().map(|cited| (cited.row, cited.column, cited.book, cited.sheet, cited.name)).collect();
    assert_eq!(cited, [(1, 3, "C:\\old\\led.xls", "Feb", "")]);
}

#[test]
fn damaged() {
    let book = match beside(Which::All) {
        Some(book) => book,
        None => return,
    };
    let damaged = book.sheet("Data").unwrap().damaged().unwrap();
    let found: Vec<_> = damaged.iter().map(|damage| (damage.record, damage.row, damage.column, damage.why)).collect();
    let wanted = [
        ("Row", Some(5), None, "shorter than 16 bytes: 3"),
        ("Note", None, None, "shorter than 8 bytes: 3"),
        ("HLink", Some(5), Some(6), "it ends in its place"),
    ];
    assert_eq!(found, wanted);
    let of_book = book.damaged().unwrap();
    let found: Vec<_> = of_book.iter().map(|damage| (damage.record, damage.row, damage.why)).collect();
    assert_eq!(found, [("ExternName", None, "shorter than 7 bytes: 3")]);
    assert!(book.sheet("Other").unwrap().damaged().unwrap().is_empty());
}

/// The index is that of the sheet in the file, whichever sheets are read.
#[test]
fn one_sheet_of_several() {
    let one = match beside(Which::One(1)) {
        Some(book) => book,
        None => return,
    };
    let sheet = one.sheets().next().unwrap();
    assert_eq!(sheet.comments().unwrap().get(0, 0).unwrap().text, "x");
    assert!(sheet.damaged().unwrap().is_empty() && sheet.hidden_rows().unwrap().is_empty());
    assert_eq!(sheet.style(0, 0).unwrap().unwrap().font(), "Arial");
    assert!(sheet.style(3, 0).unwrap().is_none());
}

#[test]
fn of_several_threads() {
    let book = match beside(Which::All) {
        Some(book) => book,
        None => return,
    };
    std::thread::scope(|scope| {
        for _ in 0..4 {
            scope.spawn(|| assert!(book.sheet("Data").unwrap().style(3, 0).unwrap().unwrap().strike()));
        }
    });
}
