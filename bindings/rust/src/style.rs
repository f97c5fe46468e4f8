//! How cells look.

use std::fmt;
use std::sync::{Arc, Mutex, PoisonError};

use crate::raw;
use crate::raw::beside::Table;

/// What is read when it is asked for first, and then kept.
pub(crate) struct Kept<T>(Mutex<Option<Arc<T>>>);

impl<T> Default for Kept<T> {
    fn default() -> Self {
        Kept(Mutex::new(None))
    }
}

impl<T> Kept<T> {
    pub(crate) fn get(&self, read: impl FnOnce() -> Result<T, raw::Fault>) -> Result<Arc<T>, raw::Fault> {
        let mut kept = self.0.lock().unwrap_or_else(PoisonError::into_inner);
        if let Some(found) = &*kept {
            return Ok(Arc::clone(found));
        }
        let found = Arc::new(read()?);
        *kept = Some(Arc::clone(&found));
        Ok(found)
    }
}

/// A colour.
#[derive(Clone, Copy, Debug, PartialEq, Eq, Hash)]
pub enum Colour {
    /// That of the window: of a text black as a rule, of a ground white.
    Auto,
    /// Red, green and blue.
    Rgb(u8, u8, u8),
}

const NONE: u32 = 0xFFFF_FFFE;
const AUTO: u32 = 0xFFFF_FFFF;

impl Colour {
    /// The colour of a number in the library's arrays; None where there is nothing that has one.
    fn of(number: u32) -> Option<Colour> {
        match number {
            NONE => None,
            AUTO => Some(Colour::Auto),
            number => Some(Colour::Rgb((number >> 16) as u8, (number >> 8) as u8, number as u8)),
        }
    }
}

/// `#rrggbb` or `auto`.
impl fmt::Display for Colour {
    fn fmt(&self, f: &mut fmt::Formatter<'_>) -> fmt::Result {
        match self {
            Colour::Auto => f.pad("auto"),
            Colour::Rgb(red, green, blue) => f.pad(&format!("#{red:02x}{green:02x}{blue:02x}")),
        }
    }
}

/// Enums of numbers, each with the word that `xls styles` writes for it.
macro_rules! words {
    ($(#[doc = $about:literal] $enum:ident { $($(#[doc = $text:literal])+ $name:ident = $number:literal $word:literal,)+ })+) => {
        $(
            #[doc = $about]
            #[derive(Clone, Copy, Debug, PartialEq, Eq, Hash)]
            #[non_exhaustive]
            pub enum $enum {
                $($(#[doc = $text])+ $name,)+
                /// Another number, which has no meaning.
                Other(u32),
            }

            impl $enum {
                fn of(number: u32) -> $enum {
                    match number {
                        $($number => $enum::$name,)+
                        number => $enum::Other(number),
                    }
                }
            }

            /// The word of `xls styles`, or the number that has no meaning.
            impl fmt::Display for $enum {
                fn fmt(&self, f: &mut fmt::Formatter<'_>) -> fmt::Result {
                    match self {
                        $($enum::$name => f.pad($word),)+
                        $enum::Other(number) => number.fmt(f),
                    }
                }
            }
        )+
    };
}

words! {
    /// Where a text stands in its cell, across.
    Across {
        /// Texts on the left, numbers on the right.
        General = 0 "general",
        /// On the left.
        Left = 1 "left",
        /// In the middle.
        Center = 2 "center",
        /// On the right.
        Right = 3 "right",
        /// Again and again, as often as there is room.
        Fill = 4 "fill",
        /// On both sides.
        Justify = 5 "justify",
        /// In the middle of this cell and the empty ones behind it.
        CenterContinuous = 6 "centerContinuous",
        /// On both sides, the last line too.
        Distributed = 7 "distributed",
    }
    /// Where a text stands in its cell, down.
    Down {
        /// Above.
        Top = 0 "top",
        /// In the middle.
        Center = 1 "center",
        /// Below.
        Bottom = 2 "bottom",
        /// Above and below.
        Justify = 3 "justify",
        /// Above and below, the last line too.
        Distributed = 4 "distributed",
    }
    /// The kind of a line of a border.
    Line {
        /// Thin.
        Thin = 1 "thin",
        /// Medium.
        Medium = 2 "medium",
        /// Dashes.
        Dashed = 3 "dashed",
        /// Dots.
        Dotted = 4 "dotted",
        /// Thick.
        Thick = 5 "thick",
        /// Two thin ones.
        Double = 6 "double",
        /// As thin as can be.
        Hair = 7 "hair",
        /// Medium dashes.
        MediumDashed = 8 "mediumDashed",
        /// A dash and a dot.
        DashDot = 9 "dashDot",
        /// A medium dash and a dot.
        MediumDashDot = 10 "mediumDashDot",
        /// A dash and two dots.
        DashDotDot = 11 "dashDotDot",
        /// A medium dash and two dots.
        MediumDashDotDot = 12 "mediumDashDotDot",
        /// A slanted dash and a dot.
        SlantDashDot = 13 "slantDashDot",
    }
    /// Which diagonals of a cell have a line.
    Diagonals {
        /// The one from the upper left to the lower right.
        Down = 1 "down",
        /// The one from the lower left to the upper right.
        Up = 2 "up",
        /// Both.
        Cross = 3 "cross",
    }
}

/// How a text is underlined.
#[derive(Clone, Copy, Debug, PartialEq, Eq, Hash)]
pub enum Underline {
    /// Not at all.
    None,
    /// Once.
    Single,
    /// Twice.
    Double,
}

/// A line of a border.
#[derive(Clone, Copy, Debug, PartialEq, Eq, Hash)]
pub struct Border {
    /// Its kind.
    pub line: Line,
    /// Its colour.
    pub colour: Colour,
}

/// What a cell is filled with.
#[derive(Clone, Copy, Debug, PartialEq, Eq, Hash)]
pub struct Fill {
    /// The number of the pattern, from 1; 1 is one colour alone.
    pub pattern: u8,
    /// The colour of the pattern.
    pub colour: Colour,
    /// The colour behind it; None where the pattern is 1.
    pub ground: Option<Colour>,
}

/// How the cells of a sheet look. [`Sheet::styles`](crate::Sheet::styles) reads it.
#[derive(Clone)]
pub struct CellStyles {
    styles: Arc<Table<raw::beside::Style>>,
    cells: Arc<Vec<raw::beside::CellStyle>>,
}

/// How a cell looks, and its row and column, from 0.
#[derive(Clone, Debug)]
pub struct CellStyle {
    /// The row, from 0.
    pub row: u32,
    /// The column, from 0.
    pub column: u32,
    /// How it looks.
    pub style: Style,
}

impl CellStyles {
    pub(crate) fn new(styles: Arc<Table<raw::beside::Style>>, cells: Arc<Vec<raw::beside::CellStyle>>) -> Self {
        CellStyles { styles, cells }
    }

    fn style(&self, index: u16) -> Style {
        Style::new(Arc::clone(&self.styles), index)
    }

    /// How the cell at a row and a column looks, counted from 0; None where the file has none.
    pub fn get(&self, row: u32, column: u32) -> Option<Style> {
        let found = self.cells.binary_search_by_key(&(row, column), |cell| (cell.row, cell.column));
        found.ok().map(|at| self.style(self.cells[at].style))
    }

    /// Each cell that the file has, by row and then by column, blank ones too.
    pub fn iter(&self) -> impl DoubleEndedIterator<Item = CellStyle> + ExactSizeIterator + Clone + '_ {
        self.cells.iter().map(|cell| CellStyle { row: cell.row, column: cell.column, style: self.style(cell.style) })
    }
}

impl fmt::Debug for CellStyles {
    fn fmt(&self, f: &mut fmt::Formatter<'_>) -> fmt::Result {
        f.debug_list().entries(self.iter()).finish()
    }
}

/// How a cell looks. [`Sheet::style`](crate::Sheet::style) gives it.
///
/// It owns what it tells, and is cheap to clone.
#[derive(Clone)]
pub struct Style {
    styles: Arc<Table<raw::beside::Style>>,
    style: raw::beside::Style,
}

const BOLD: u32 = 0x0001;
const ITALIC: u32 = 0x0002;
const STRIKE: u32 = 0x0004;
const UNDERLINE: u32 = 0x0008;
const DOUBLE: u32 = 0x0010;
const SUPERSCRIPT: u32 = 0x0020;
const SUBSCRIPT: u32 = 0x0040;
const UNLOCKED: u32 = 0x0080;
const CONCEALED: u32 = 0x0100;
const WRAP: u32 = 0x0200;
const SHRINK: u32 = 0x0400;
const NOT_KNOWN: u32 = 0xFFFF_FFFF;

/// In the place of one that the workbook doesn't have.
const NO_STYLE: raw::beside::Style = {
    const NO_TEXT: raw::Span = raw::Span { offset: 0, length: 0 };
    const NO_BORDER: raw::beside::Border = raw::beside::Border { line: 0, colour: NONE };
    raw::beside::Style {
        font: NO_TEXT,
        format: NO_TEXT,
        size: NOT_KNOWN,
        marks: 0,
        colour: AUTO,
        pattern: 0,
        fill: NONE,
        ground: NONE,
        across: 0,
        down: 2,
        indent: 0,
        turn: 0,
        left: NO_BORDER,
        right: NO_BORDER,
        top: NO_BORDER,
        bottom: NO_BORDER,
        diagonal: NO_BORDER,
        diagonals: 0,
        reserved: 0,
    }
};

fn border(raw: raw::beside::Border) -> Option<Border> {
    Colour::of(raw.colour).map(|colour| Border { line: Line::of(raw.line), colour })
}

impl Style {
    /// The style of an index.
    pub(crate) fn new(styles: Arc<Table<raw::beside::Style>>, index: u16) -> Style {
        let style = styles.items.get(usize::from(index)).copied().unwrap_or(NO_STYLE);
        Style { styles, style }
    }

    fn text(&self, span: raw::Span) -> &str {
        span.of(&self.styles.texts)
    }

    fn has(&self, mark: u32) -> bool {
        self.style.marks & mark != 0
    }

    /// The name of the font; empty where the workbook doesn't have the font.
    pub fn font(&self) -> &str {
        self.text(self.style.font)
    }

    /// The size of the font in points; None where the workbook doesn't have the font.
    pub fn size(&self) -> Option<f64> {
        match self.style.size {
            NOT_KNOWN => None,
            twentieths => Some(f64::from(twentieths) / 20.0),
        }
    }

    /// The colour of the text.
    pub fn colour(&self) -> Colour {
        Colour::of(self.style.colour).unwrap_or(Colour::Auto)
    }

    /// Whether the text is bold.
    pub fn bold(&self) -> bool {
        self.has(BOLD)
    }

    /// Whether it is italic.
    pub fn italic(&self) -> bool {
        self.has(ITALIC)
    }

    /// Whether it is struck out.
    pub fn strike(&self) -> bool {
        self.has(STRIKE)
    }

    /// How it is underlined.
    pub fn underline(&self) -> Underline {
        if self.has(DOUBLE) {
            Underline::Double
        } else if self.has(UNDERLINE) {
            Underline::Single
        } else {
            Underline::None
        }
    }

    /// Whether it stands above the line.
    pub fn superscript(&self) -> bool {
        self.has(SUPERSCRIPT)
    }

    /// Whether it stands below the line.
    pub fn subscript(&self) -> bool {
        self.has(SUBSCRIPT)
    }

    /// Whether the cell may be edited in a protected sheet.
    pub fn unlocked(&self) -> bool {
        self.has(UNLOCKED)
    }

    /// Whether the formula of the cell isn't shown in a protected sheet.
    pub fn concealed(&self) -> bool {
        self.has(CONCEALED)
    }

    /// The code of the number format, `#,##0.00`; empty of a few that hang on the language of Excel.
    pub fn format(&self) -> &str {
        self.text(self.style.format)
    }

    /// What the cell is filled with; None where it isn't.
    pub fn fill(&self) -> Option<Fill> {
        let ground = Colour::of(self.style.ground);
        Colour::of(self.style.fill).map(|colour| Fill { pattern: self.style.pattern as u8, colour, ground })
    }

    /// Where the text stands, across.
    pub fn across(&self) -> Across {
        Across::of(self.style.across)
    }

    /// Where the text stands, down.
    pub fn down(&self) -> Down {
        Down::of(self.style.down)
    }

    /// Whether the text goes on in further lines.
    pub fn wrap(&self) -> bool {
        self.has(WRAP)
    }

    /// Whether the text is made as small as the cell.
    pub fn shrink(&self) -> bool {
        self.has(SHRINK)
    }

    /// How far the text is indented, in steps.
    pub fn indent(&self) -> u8 {
        self.style.indent as u8
    }

    /// How the text is turned: by 0 to 90 degrees counter-clockwise; above 90 by so many less 90 clockwise; 255 says letters below
    /// each other.
    pub fn turn(&self) -> u8 {
        self.style.turn as u8
    }

    /// The line on the left; None where there is none.
    pub fn left(&self) -> Option<Border> {
        border(self.style.left)
    }

    /// The line on the right.
    pub fn right(&self) -> Option<Border> {
        border(self.style.right)
    }

    /// The line above.
    pub fn top(&self) -> Option<Border> {
        border(self.style.top)
    }

    /// The line below.
    pub fn bottom(&self) -> Option<Border> {
        border(self.style.bottom)
    }

    /// The lines from corner to corner; None where there is none.
    pub fn diagonal(&self) -> Option<(Diagonals, Border)> {
        match self.style.diagonals {
            0 => None,
            which => border(self.style.diagonal).map(|line| (Diagonals::of(which), line)),
        }
    }
}

/// All that it tells, but what the cell doesn't have.
impl fmt::Debug for Style {
    fn fmt(&self, f: &mut fmt::Formatter<'_>) -> fmt::Result {
        let marks = [
            ("bold", self.bold()),
            ("italic", self.italic()),
            ("strike", self.strike()),
            ("superscript", self.superscript()),
            ("subscript", self.subscript()),
            ("unlocked", self.unlocked()),
            ("concealed", self.concealed()),
            ("wrap", self.wrap()),
            ("shrink", self.shrink()),
        ];
        let borders = [("left", self.left()), ("right", self.right()), ("top", self.top()), ("bottom", self.bottom())];
        let mut out = f.debug_struct("Style");
        out.field("font", &self.font()).field("size", &self.size()).field("colour", &self.colour()).field("format", &self.format());
        for (name, _) in marks.iter().filter(|(_, is)| *is) {
            out.field(name, &true);
        }
        if self.underline() != Underline::None {
            out.field("underline", &self.underline());
        }
        if let Some(fill) = self.fill() {
            out.field("fill", &fill);
        }
        out.field("across", &self.across()).field("down", &self.down()).field("indent", &self.indent()).field("turn", &self.turn());
        for (name, line) in borders.iter().filter_map(|(name, line)| line.map(|line| (name, line))) {
            out.field(name, &line);
        }
        if let Some(diagonal) = self.diagonal() {
            out.field("diagonal", &diagonal);
        }
        out.finish()
    }
}
