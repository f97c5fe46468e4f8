//! Why a workbook is refused.

use std::{error, fmt, io};

use crate::raw;

/// Why a call has no answer.
#[derive(Debug)]
#[non_exhaustive]
pub enum Error {
    /// The file can't be read.
    Io(io::Error),
    /// The file is refused: the first thing that is wrong with it.
    Fault(Fault),
    /// Memory ran out.
    OutOfMemory,
    /// No sheet has this name.
    SheetNotFound(String),
}

/// The first thing that is wrong with a file. Its `Display` tells it as a sentence.
#[derive(Clone, Copy, PartialEq, Eq)]
#[non_exhaustive]
pub struct Fault {
    /// What is wrong.
    pub code: FaultCode,
    /// Where a code says so: the number of the part of the stream, the kind of file, or the chain of the compound file.
    pub part: u32,
    /// Where a code says so: 1 the DIFAT, 2 the FAT, 3 the mini FAT.
    pub table: u32,
    /// The numbers that belong to the code, 0 where it names none.
    pub first: u64,
    /// See `first`.
    pub second: u64,
    /// See `first`.
    pub third: u64,
}

macro_rules! codes {
    ($($(#[doc = $text:literal])+ $name:ident = $number:literal,)+) => {
        /// What is wrong with a file. The numbers are those of `include/gaflwened.h`.
        #[derive(Clone, Copy, Debug, PartialEq, Eq, Hash)]
        #[non_exhaustive]
        pub enum FaultCode {
            $($(#[doc = $text])+ $name,)+
            /// A number that this version doesn't know.
            Other(u32),
        }

        impl FaultCode {
            fn of(number: u32) -> FaultCode {
                match number {
                    $($number => FaultCode::$name,)+
                    number => FaultCode::Other(number),
                }
            }

            /// The number of the code.
            pub fn number(self) -> u32 {
                match self {
                    $(FaultCode::$name => $number,)+
                    FaultCode::Other(number) => number,
                }
            }
        }
    };
}

codes! {
    /// The sheet of index `first`, which the options ask for, isn't there.
    NoSuchSheet = 3,
    /// The records are obfuscated with a password (XOR).
    Obfuscated = 4,
    /// The stream has more bytes than `first`, the limit.
    TooLarge = 16,
    /// A sheet has more cells than `first`, the limit.
    TooManyCells = 17,
    /// Code page `first` isn't read.
    CodePage = 18,
    /// The workbook is encrypted.
    Password = 19,
    /// The part `part` needs `first` bytes at least, and has `second`.
    Length = 20,
    /// The byte `first` of the part `part` has no meaning.
    Unrecognized = 21,
    /// The stream ends inside the part `part`.
    EndOfStream = 22,
    /// A string of the string table ends inside its runs or its extension.
    StringCut = 23,
    /// The file is neither a compound file nor a workbook's stream; `part` says what it is.
    FileKind = 48,
    /// The compound file has no stream `Workbook` or `Book`.
    NoWorkbook = 49,
    /// The compound file has another signature.
    Signature = 64,
    /// The file ends within its header, after `first` bytes.
    HeaderCut = 65,
    /// The sector shift is `first`.
    SectorShift = 66,
    /// The mini sector shift is `first`.
    MiniShift = 67,
    /// The chain from sector `first` of the table `table` comes back to itself.
    Loop = 68,
    /// After sector `first` of the table comes `second`, which the file doesn't have.
    Leaves = 69,
    /// A chain of the table begins with `second`, which the file doesn't have.
    BeginsOutside = 70,
    /// The chain from sector `first` has `third` bytes, and `second` are needed.
    ChainShort = 71,
    /// Of sector `first` of the table `third` bytes are there, and `second` are needed.
    SectorCut = 72,
    /// Of sector `first` of the FAT `third` bytes are there, and `second` are needed.
    FatCut = 73,
    /// The directory has no root entry.
    NoRoot = 80,
    /// The directory has no entry `first`, to which another leads.
    EntryMissing = 81,
    /// Two ways lead to the directory entry `first`.
    EntryTwice = 82,
    /// The directory entry `first` has the unknown type `second`.
    EntryKind = 83,
    /// The name of the directory entry `first` takes `second` bytes, which no name does.
    EntryName = 84,
}

const OUT_OF_MEMORY: u32 = 1;

impl From<raw::Fault> for Error {
    fn from(fault: raw::Fault) -> Self {
        if fault.code == OUT_OF_MEMORY {
            return Error::OutOfMemory;
        }
        let raw::Fault { code, part, table, first, second, third, .. } = fault;
        Error::Fault(Fault { code: FaultCode::of(code), part, table, first, second, third })
    }
}

impl From<io::Error> for Error {
    fn from(error: io::Error) -> Self {
        match error.kind() {
            io::ErrorKind::OutOfMemory => Error::OutOfMemory,
            _ => Error::Io(error),
        }
    }
}

impl fmt::Display for Fault {
    fn fmt(&self, f: &mut fmt::Formatter<'_>) -> fmt::Result {
        let Fault { code, part, table, first, second, third } = *self;
        let fault = raw::Fault { code: code.number(), part, table, reserved: 0, first, second, third };
        f.pad(&raw::fault_text(&fault))
    }
}

/// The fields, and after them the sentence.
impl fmt::Debug for Fault {
    fn fmt(&self, f: &mut fmt::Formatter<'_>) -> fmt::Result {
        f.debug_struct("Fault")
            .field("code", &self.code)
            .field("part", &self.part)
            .field("table", &self.table)
            .field("first", &self.first)
            .field("second", &self.second)
            .field("third", &self.third)
            .field("text", &self.to_string())
            .finish()
    }
}

impl fmt::Display for Error {
    fn fmt(&self, f: &mut fmt::Formatter<'_>) -> fmt::Result {
        match self {
            Error::Io(error) => error.fmt(f),
            Error::Fault(fault) => fault.fmt(f),
            Error::OutOfMemory => f.pad("Out of memory"),
            Error::SheetNotFound(name) => write!(f, "Worksheet '{name}' not found"),
        }
    }
}

impl error::Error for Fault {}

impl error::Error for Error {
    fn source(&self) -> Option<&(dyn error::Error + 'static)> {
        match self {
            Error::Io(error) => Some(error),
            _ => None,
        }
    }
}
