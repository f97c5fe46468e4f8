//! The calls for what stands beside the values.

use super::{room, Fault, Options, Span, OK, TOO_SHORT};

#[repr(C)]
#[derive(Clone, Copy, Debug, Default)]
pub struct Counts {
    pub items: u64,
    pub damages: u64,
    pub text_bytes: u64,
}

#[repr(C)]
#[derive(Clone, Copy, Debug)]
pub struct Damage {
    pub offset: u64,
    pub why: Span,
    pub row: u32,
    pub column: u32,
    pub record: u32,
    pub reserved: u32,
}

#[repr(C)]
#[derive(Clone, Copy, Debug)]
pub struct HiddenRun {
    pub first: u32,
    pub last: u32,
    pub why: u32,
    pub is_column: u32,
}

#[repr(C)]
#[derive(Clone, Copy, Debug)]
pub struct Border {
    pub line: u32,
    pub colour: u32,
}

#[repr(C)]
#[derive(Clone, Copy, Debug)]
pub struct Style {
    pub font: Span,
    pub format: Span,
    pub size: u32,
    pub marks: u32,
    pub colour: u32,
    pub pattern: u32,
    pub fill: u32,
    pub ground: u32,
    pub across: u32,
    pub down: u32,
    pub indent: u32,
    pub turn: u32,
    pub left: Border,
    pub right: Border,
    pub top: Border,
    pub bottom: Border,
    pub diagonal: Border,
    pub diagonals: u32,
    pub reserved: u32,
}

#[repr(C)]
#[derive(Clone, Copy, Debug)]
pub struct CellStyle {
    pub row: u32,
    pub column: u32,
    pub style: u16,
    pub reserved: u16,
}

#[repr(C)]
#[derive(Clone, Copy, Debug)]
pub struct Comment {
    pub row: u32,
    pub column: u32,
    pub author: Span,
    pub words: Span,
    pub visible: u32,
    pub reserved: u32,
}

#[repr(C)]
#[derive(Clone, Copy, Debug)]
pub struct Link {
    pub first_row: u32,
    pub first_column: u32,
    pub last_row: u32,
    pub last_column: u32,
    pub target: Span,
    pub place: Span,
    pub shown: Span,
    pub tip: Span,
    pub kind: u32,
    pub reserved: u32,
}

#[repr(C)]
#[derive(Clone, Copy, Debug)]
pub struct Book {
    pub path: Span,
    pub topic: Span,
    pub kind: u32,
    pub reserved: u32,
}

#[repr(C)]
#[derive(Clone, Copy, Debug)]
pub struct Outside {
    pub row: u32,
    pub column: u32,
    pub book: Span,
    pub sheet: Span,
    pub name: Span,
}

/// A call that fills an array of items, one of damaged records and one of the texts of both.
type Call<T> =
    unsafe extern "C" fn(*const u8, usize, &Options, *mut T, usize, *mut Damage, usize, *mut u8, usize, &mut Counts, &mut Fault) -> u32;

mod c {
    use super::{Book, CellStyle, Comment, Counts, Damage, Fault, HiddenRun, Link, Options, Outside, Style};

    macro_rules! calls {
        ($($name:ident($item:ty);)+) => {
            extern "C" {
                $(pub fn $name(
                    stream: *const u8,
                    stream_length: usize,
                    options: &Options,
                    items: *mut $item,
                    items_length: usize,
                    damages: *mut Damage,
                    damages_length: usize,
                    texts: *mut u8,
                    texts_length: usize,
                    counts: &mut Counts,
                    fault: &mut Fault,
                ) -> u32;)+
            }
        };
    }

    calls! {
        gaflwened_hidden(HiddenRun);
        gaflwened_styles(Style);
        gaflwened_comments(Comment);
        gaflwened_links(Link);
        gaflwened_books(Book);
    }

    extern "C" {
        pub fn gaflwened_style_of(
            stream: *const u8,
            stream_length: usize,
            options: &Options,
            cells: *mut CellStyle,
            cells_length: usize,
            counts: &mut Counts,
            fault: &mut Fault,
        ) -> u32;
        pub fn gaflwened_outside_of(
            stream: *const u8,
            stream_length: usize,
            options: &Options,
            outside: *mut Outside,
            outside_length: usize,
            texts: *mut u8,
            texts_length: usize,
            counts: &mut Counts,
            fault: &mut Fault,
        ) -> u32;
    }
}

/// `gaflwened_style_of` as a call that has arrays for damaged records and texts too.
unsafe extern "C" fn style_of(
    stream: *const u8,
    stream_length: usize,
    options: &Options,
    cells: *mut CellStyle,
    cells_length: usize,
    _: *mut Damage,
    _: usize,
    _: *mut u8,
    _: usize,
    counts: &mut Counts,
    fault: &mut Fault,
) -> u32 {
    c::gaflwened_style_of(stream, stream_length, options, cells, cells_length, counts, fault)
}

/// `gaflwened_outside_of` likewise.
unsafe extern "C" fn outside_of(
    stream: *const u8,
    stream_length: usize,
    options: &Options,
    outside: *mut Outside,
    outside_length: usize,
    _: *mut Damage,
    _: usize,
    texts: *mut u8,
    texts_length: usize,
    counts: &mut Counts,
    fault: &mut Fault,
) -> u32 {
    c::gaflwened_outside_of(stream, stream_length, options, outside, outside_length, texts, texts_length, counts, fault)
}

/// What a call reads: items, damaged records, and the texts of both.
#[derive(Clone)]
pub struct Table<T> {
    pub items: Vec<T>,
    pub damages: Vec<Damage>,
    pub texts: String,
}

/// The arrays of a table, as far as they are filled.
struct Arrays<T> {
    items: Vec<T>,
    damages: Vec<Damage>,
    texts: Vec<u8>,
}

impl<T> Arrays<T> {
    /// Empty arrays with room for so many items.
    fn with_room(counts: &Counts) -> Result<Arrays<T>, Fault> {
        Ok(Arrays { items: room(counts.items)?, damages: room(counts.damages)?, texts: room(counts.text_bytes)? })
    }

    /// Has the arrays filled as far as they have room: what the call answers, and how much there is.
    fn fill(&mut self, call: Call<T>, stream: &[u8], options: &Options) -> Result<(u32, Counts), Fault> {
        let (mut counts, mut fault) = (Counts::default(), Fault::default());
        // SAFETY: each array has room for as many items as are handed over with it, and nothing of it is read; no pointer is null, each
        // is aligned for its type, and no two arrays overlap.
        let code = unsafe {
            call(
                stream.as_ptr(),
                stream.len(),
                options,
                self.items.as_mut_ptr(),
                self.items.capacity(),
                self.damages.as_mut_ptr(),
                self.damages.capacity(),
                self.texts.as_mut_ptr(),
                self.texts.capacity(),
                &mut counts,
                &mut fault,
            )
        };
        match code {
            OK | TOO_SHORT => Ok((code, counts)),
            _ => Err(fault),
        }
    }

    /// The arrays with as many items as were filled, and no room for more.
    ///
    /// # Safety
    ///
    /// [`Arrays::fill`] answered `OK` and these counts.
    unsafe fn filled(mut self, counts: &Counts) -> Table<T> {
        self.items.set_len(counts.items as usize);
        self.damages.set_len(counts.damages as usize);
        self.texts.set_len(counts.text_bytes as usize);
        self.items.shrink_to_fit();
        self.damages.shrink_to_fit();
        self.texts.shrink_to_fit();
        let texts = String::from_utf8(self.texts).expect("the library writes UTF-8");
        Table { items: self.items, damages: self.damages, texts }
    }
}

/// As much as most sheets have.
const LITTLE: Counts = Counts { items: 64, damages: 16, text_bytes: 4096 };

/// What a call reads of a stream, of which there is likely so much.
fn read<T>(call: Call<T>, stream: &[u8], options: &Options, likely: &Counts) -> Result<Table<T>, Fault> {
    // Where there isn't so much room, the first call fills nothing and says how much is needed.
    let mut arrays = Arrays::with_room(likely).or_else(|_| Arrays::with_room(&Counts::default()))?;
    loop {
        let (code, counts) = arrays.fill(call, stream, options)?;
        if code == OK {
            // SAFETY: the answer says that the arrays are filled so far.
            return Ok(unsafe { arrays.filled(&counts) });
        }
        drop(arrays);
        arrays = Arrays::with_room(&counts)?;
    }
}

/// The rows and columns that can't be seen of the sheet at `options.sheet`.
pub fn hidden(stream: &[u8], options: &Options) -> Result<Table<HiddenRun>, Fault> {
    read(c::gaflwened_hidden, stream, options, &LITTLE)
}

/// The styles of a workbook.
pub fn styles(stream: &[u8], options: &Options) -> Result<Table<Style>, Fault> {
    read(c::gaflwened_styles, stream, options, &LITTLE)
}

/// Which style each cell of the sheet at `options.sheet` has, of which there are likely so many.
pub fn cell_styles(stream: &[u8], options: &Options, cells: u64) -> Result<Vec<CellStyle>, Fault> {
    let likely = Counts { items: cells, ..Counts::default() };
    Ok(read(style_of, stream, options, &likely)?.items)
}

/// The comments of the sheet at `options.sheet`.
pub fn comments(stream: &[u8], options: &Options) -> Result<Table<Comment>, Fault> {
    read(c::gaflwened_comments, stream, options, &LITTLE)
}

/// Its hyperlinks.
pub fn links(stream: &[u8], options: &Options) -> Result<Table<Link>, Fault> {
    read(c::gaflwened_links, stream, options, &LITTLE)
}

/// The other workbooks, programs and added functions that a workbook refers to.
pub fn books(stream: &[u8], options: &Options) -> Result<Table<Book>, Fault> {
    read(c::gaflwened_books, stream, options, &LITTLE)
}

/// The formulas of the sheet at `options.sheet` that cite another workbook or a program.
pub fn outside(stream: &[u8], options: &Options) -> Result<Table<Outside>, Fault> {
    read(outside_of, stream, options, &LITTLE)
}
