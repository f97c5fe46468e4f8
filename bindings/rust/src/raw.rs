//! The calls of include/gaflwened.h. This is the one module with `unsafe`: what it hands on is safe.
#![allow(unsafe_code)]

use std::fs::File;
use std::io::{self, Read};
use std::path::Path;

pub mod beside;

/// A fault: its code, and what belongs to it.
#[repr(C)]
#[derive(Clone, Copy, Debug, Default, PartialEq, Eq)]
pub struct Fault {
    pub code: u32,
    pub part: u32,
    pub table: u32,
    pub reserved: u32,
    pub first: u64,
    pub second: u64,
    pub third: u64,
}

#[repr(C)]
#[derive(Clone, Copy, Debug, Default)]
pub struct Options {
    pub max_bytes: u64,
    pub max_cells: u64,
    pub sheet: u64,
    pub which: u32,
    pub code_page: u16,
    pub all_functions: u16,
}

#[repr(C)]
#[derive(Clone, Copy, Debug, Default)]
pub struct Sizes {
    pub sheets: u64,
    pub names: u64,
    pub cells: u64,
    pub formulas: u64,
    pub regions: u64,
    pub text_bytes: u64,
    pub is_1904: u32,
    pub reserved: u32,
}

#[repr(C)]
#[derive(Clone, Copy, Debug)]
pub struct Span {
    pub offset: u64,
    pub length: u64,
}

impl Span {
    /// The text in these texts.
    pub fn of(self, texts: &str) -> &str {
        let begin = self.offset as usize;
        &texts[begin..begin + self.length as usize]
    }
}

#[repr(C)]
#[derive(Clone, Copy, Debug)]
pub struct Sheet {
    pub name: Span,
    pub first_cell: u64,
    pub cells: u64,
    pub first_formula: u64,
    pub formulas: u64,
    pub first_region: u64,
    pub regions: u64,
    pub kind: u32,
    pub visibility: u32,
}

#[repr(C)]
#[derive(Clone, Copy, Debug)]
pub struct Name {
    pub name: Span,
    pub formula: Span,
}

#[repr(C)]
#[derive(Clone, Copy, Debug)]
pub struct Cell {
    pub row: u32,
    pub column: u32,
    pub kind: u32,
    pub form: u32,
    pub value: u64,
    pub length: u64,
}

#[repr(C)]
#[derive(Clone, Copy, Debug)]
pub struct Formula {
    pub row: u32,
    pub column: u32,
    pub text: Span,
}

#[repr(C)]
#[derive(Clone, Copy, Debug)]
pub struct Region {
    pub first_row: u32,
    pub first_column: u32,
    pub last_row: u32,
    pub last_column: u32,
}

/// What a stream holds.
pub struct Content {
    pub sheets: Vec<Sheet>,
    pub names: Vec<Name>,
    pub cells: Vec<Cell>,
    pub formulas: Vec<Formula>,
    pub regions: Vec<Region>,
    pub texts: Vec<u8>,
    pub is_1904: bool,
}

const OK: u32 = 0;
const OUT_OF_MEMORY: u32 = 1;
const TOO_SHORT: u32 = 2;

const MEMORY: Fault = Fault { code: OUT_OF_MEMORY, part: 0, table: 0, reserved: 0, first: 0, second: 0, third: 0 };

mod c {
    use super::{Cell, Fault, Formula, Name, Options, Region, Sheet, Sizes};

    extern "C" {
        pub fn gaflwened_stream(
            file: *const u8,
            file_length: usize,
            out: *mut u8,
            out_length: usize,
            size: &mut u64,
            fault: &mut Fault,
        ) -> u32;
        pub fn gaflwened_read(
            stream: *const u8,
            stream_length: usize,
            options: &Options,
            sheets: *mut Sheet,
            sheets_length: usize,
            names: *mut Name,
            names_length: usize,
            cells: *mut Cell,
            cells_length: usize,
            formulas: *mut Formula,
            formulas_length: usize,
            regions: *mut Region,
            regions_length: usize,
            texts: *mut u8,
            texts_length: usize,
            sizes: &mut Sizes,
            fault: &mut Fault,
        ) -> u32;
        pub fn gaflwened_shown(
            stream: *const u8,
            stream_length: usize,
            options: &Options,
            cells: *mut Cell,
            cells_length: usize,
            texts: *mut u8,
            texts_length: usize,
            sizes: &mut Sizes,
            fault: &mut Fault,
        ) -> u32;
        pub fn gaflwened_fault_text(fault: &Fault, out: *mut u8, out_length: usize, size: &mut u64) -> u32;
        pub fn gaflwened_serial(bits: u64, is_1904: u32, is_duration: u32, out: *mut u8, out_length: usize, size: &mut u64) -> u32;
    }
}

/// Asks for large pages where an array is long, so that less time goes into its first use.
#[cfg(target_os = "linux")]
fn ask_for_large_pages(data: *mut u8, bytes: usize) {
    const PAGE: usize = 2 << 20;
    const HUGE_PAGE: i32 = 14;
    extern "C" {
        fn madvise(address: *mut u8, length: usize, advice: i32) -> i32;
    }
    let skipped = data.align_offset(PAGE);
    let whole = bytes.saturating_sub(skipped) / PAGE * PAGE;
    if whole != 0 {
        // SAFETY: these pages lie inside the array, and the advice changes no byte of them. (Whether it is taken makes no difference.)
        unsafe { madvise(data.wrapping_add(skipped), whole, HUGE_PAGE) };
    }
}

#[cfg(not(target_os = "linux"))]
fn ask_for_large_pages(_: *mut u8, _: usize) {}

/// An empty array with room for so many items, or the fault that memory ran out.
fn room<T>(length: u64) -> Result<Vec<T>, Fault> {
    let length = usize::try_from(length).map_err(|_| MEMORY)?;
    let mut items: Vec<T> = Vec::new();
    items.try_reserve_exact(length).map_err(|_| MEMORY)?;
    ask_for_large_pages(items.as_mut_ptr().cast(), items.capacity() * std::mem::size_of::<T>());
    Ok(items)
}

/// Makes room for so many items more.
pub fn reserve<T>(items: &mut Vec<T>, more: usize) -> Result<(), Fault> {
    items.try_reserve(more).map_err(|_| MEMORY)
}

/// Makes room for so many bytes of text more.
pub fn reserve_text(text: &mut String, more: u64) -> Result<(), Fault> {
    let more = usize::try_from(more).map_err(|_| MEMORY)?;
    text.try_reserve(more).map_err(|_| MEMORY)
}

/// A copy of some bytes.
pub fn copy(bytes: &[u8]) -> Result<Vec<u8>, Fault> {
    let mut copy = room(bytes.len() as u64)?;
    copy.extend_from_slice(bytes);
    Ok(copy)
}

/// The bytes of a file.
pub fn read_file(path: &Path) -> io::Result<Vec<u8>> {
    let mut file = File::open(path)?;
    let length = file.metadata()?.len();
    let mut bytes = room(length.saturating_add(32)).map_err(|_| io::ErrorKind::OutOfMemory)?;
    file.read_to_end(&mut bytes)?;
    Ok(bytes)
}

/// The workbook's stream of a file into an empty array, as far as it has room: what the call answers, and how long the stream is.
fn fill_stream(file: &[u8], out: &mut Vec<u8>) -> Result<(u32, u64), Fault> {
    let (mut size, mut fault) = (0, Fault::default());
    // SAFETY: both arrays have the lengths that are handed over with them (`out` the room that it has, of which nothing is read), their
    // pointers aren't null, and they overlap nothing.
    let code = unsafe {
        let (data, length) = (out.as_mut_ptr(), out.capacity());
        c::gaflwened_stream(file.as_ptr(), file.len(), data, length, &mut size, &mut fault)
    };
    match code {
        OK | TOO_SHORT => Ok((code, size)),
        _ => Err(fault),
    }
}

/// The workbook's stream of a file; None where it is the whole file.
pub fn stream(file: &[u8]) -> Result<Option<Vec<u8>>, Fault> {
    let (_, size) = fill_stream(file, &mut Vec::new())?;
    if size == file.len() as u64 {
        return Ok(None);
    }
    let mut out = room(size)?;
    let (code, size) = fill_stream(file, &mut out)?;
    assert_eq!(code, OK, "the stream is as long as the library said");
    // SAFETY: the answer says that `out` begins with `size` bytes of the stream, so there was room for them.
    unsafe { out.set_len(size as usize) };
    Ok(Some(out))
}

impl Sizes {
    /// Room that is enough for most streams of so many bytes. What isn't filled costs nothing but addresses.
    fn likely(stream: &[u8]) -> Sizes {
        let bytes = stream.len() as u64;
        Sizes {
            sheets: 64,
            names: 256,
            cells: 64 + bytes / 8,
            formulas: 64 + bytes / 64,
            regions: 1024,
            text_bytes: 4096 + bytes,
            ..Sizes::default()
        }
    }
}

impl Content {
    /// Empty arrays with room for so many items.
    fn with_room(sizes: &Sizes) -> Result<Content, Fault> {
        Ok(Content {
            sheets: room(sizes.sheets)?,
            names: room(sizes.names)?,
            cells: room(sizes.cells)?,
            formulas: room(sizes.formulas)?,
            regions: room(sizes.regions)?,
            texts: room(sizes.text_bytes)?,
            is_1904: false,
        })
    }

    /// Has the arrays filled as far as they have room: what the call answers, and how much the stream holds.
    fn fill(&mut self, stream: &[u8], options: &Options) -> Result<(u32, Sizes), Fault> {
        let (mut sizes, mut fault) = (Sizes::default(), Fault::default());
        // SAFETY: each array has room for as many items as are handed over with it, and nothing of it is read; no pointer is null, each
        // is aligned for its type, and no two arrays overlap.
        let code = unsafe {
            c::gaflwened_read(
                stream.as_ptr(),
                stream.len(),
                options,
                self.sheets.as_mut_ptr(),
                self.sheets.capacity(),
                self.names.as_mut_ptr(),
                self.names.capacity(),
                self.cells.as_mut_ptr(),
                self.cells.capacity(),
                self.formulas.as_mut_ptr(),
                self.formulas.capacity(),
                self.regions.as_mut_ptr(),
                self.regions.capacity(),
                self.texts.as_mut_ptr(),
                self.texts.capacity(),
                &mut sizes,
                &mut fault,
            )
        };
        match code {
            OK | TOO_SHORT => Ok((code, sizes)),
            _ => Err(fault),
        }
    }

    /// The arrays with as many items as were filled, and no room for more.
    ///
    /// # Safety
    ///
    /// [`Content::fill`] answered `OK` and these sizes.
    unsafe fn filled(mut self, sizes: &Sizes) -> Content {
        self.sheets.set_len(sizes.sheets as usize);
        self.names.set_len(sizes.names as usize);
        self.cells.set_len(sizes.cells as usize);
        self.formulas.set_len(sizes.formulas as usize);
        self.regions.set_len(sizes.regions as usize);
        self.texts.set_len(sizes.text_bytes as usize);
        self.sheets.shrink_to_fit();
        self.names.shrink_to_fit();
        self.cells.shrink_to_fit();
        self.formulas.shrink_to_fit();
        self.regions.shrink_to_fit();
        self.texts.shrink_to_fit();
        self.is_1904 = sizes.is_1904 != 0;
        self
    }
}

/// What a stream holds.
pub fn read(stream: &[u8], options: &Options) -> Result<Content, Fault> {
    // Where there isn't so much room, the first call fills nothing and says how much is needed.
    let likely = Content::with_room(&Sizes::likely(stream));
    let mut content = likely.or_else(|_| Content::with_room(&Sizes::default()))?;
    loop {
        let (code, sizes) = content.fill(stream, options)?;
        if code == OK {
            // SAFETY: the answer says that the arrays are filled so far.
            return Ok(unsafe { content.filled(&sizes) });
        }
        drop(content);
        content = Content::with_room(&sizes)?;
    }
}

/// The texts that Excel shows of a sheet's cells: a cell cites its own in `texts`.
pub struct Shown {
    pub cells: Vec<Cell>,
    pub texts: Vec<u8>,
}

impl Shown {
    /// Empty arrays with room for so many cells and bytes.
    fn with_room(cells: u64, text_bytes: u64) -> Result<Shown, Fault> {
        Ok(Shown { cells: room(cells)?, texts: room(text_bytes)? })
    }

    /// Has the arrays filled as far as they have room: what the call answers, and how much there is.
    fn fill(&mut self, stream: &[u8], options: &Options) -> Result<(u32, Sizes), Fault> {
        let (mut sizes, mut fault) = (Sizes::default(), Fault::default());
        // SAFETY: both arrays have room for as many items as are handed over with them, and nothing of them is read; no pointer is null,
        // each is aligned for its type, and nothing overlaps.
        let code = unsafe {
            c::gaflwened_shown(
                stream.as_ptr(),
                stream.len(),
                options,
                self.cells.as_mut_ptr(),
                self.cells.capacity(),
                self.texts.as_mut_ptr(),
                self.texts.capacity(),
                &mut sizes,
                &mut fault,
            )
        };
        match code {
            OK | TOO_SHORT => Ok((code, sizes)),
            _ => Err(fault),
        }
    }

    /// The arrays with as many items as were filled, and no room for more.
    ///
    /// # Safety
    ///
    /// [`Shown::fill`] answered `OK` and these sizes.
    unsafe fn filled(mut self, sizes: &Sizes) -> Shown {
        self.cells.set_len(sizes.cells as usize);
        self.texts.set_len(sizes.text_bytes as usize);
        self.cells.shrink_to_fit();
        self.texts.shrink_to_fit();
        self
    }
}

/// What Excel shows of the cells of the sheet at `options.sheet`, of which there are likely so many.
pub fn shown(stream: &[u8], options: &Options, cells: u64) -> Result<Shown, Fault> {
    // (as in `read`)
    let likely = Shown::with_room(cells, cells.saturating_mul(16));
    let mut shown = likely.or_else(|_| Shown::with_room(0, 0))?;
    loop {
        let (code, sizes) = shown.fill(stream, options)?;
        if code == OK {
            // SAFETY: the answer says that the arrays are filled so far.
            return Ok(unsafe { shown.filled(&sizes) });
        }
        drop(shown);
        shown = Shown::with_room(sizes.cells, sizes.text_bytes)?;
    }
}

/// The text that a call writes into `out` where there is room for it.
fn text(call: impl Fn(*mut u8, usize, &mut u64) -> u32) -> String {
    let mut out = vec![0; 400];
    loop {
        let mut size = 0;
        let code = call(out.as_mut_ptr(), out.len(), &mut size);
        let size = size as usize;
        match code {
            OK => return String::from_utf8_lossy(&out[..size]).into_owned(),
            TOO_SHORT => out.resize(size, 0),
            _ => return String::from("Out of memory"),
        }
    }
}

/// The sentence that tells a fault.
pub fn fault_text(fault: &Fault) -> String {
    text(|out, length, size| {
        // SAFETY: `out` has so many bytes, isn't null, and overlaps nothing.
        unsafe { c::gaflwened_fault_text(fault, out, length, size) }
    })
}

/// The text of a number of days as a date, a time or a duration.
pub fn serial(days: f64, is_1904: bool, is_duration: bool) -> String {
    text(|out, length, size| {
        let (is_1904, is_duration) = (u32::from(is_1904), u32::from(is_duration));
        // SAFETY: `out` has so many bytes, isn't null, and overlaps nothing.
        unsafe { c::gaflwened_serial(days.to_bits(), is_1904, is_duration, out, length, size) }
    })
}
