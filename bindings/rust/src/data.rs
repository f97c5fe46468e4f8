//! What a cell holds.

use std::fmt;

use crate::date::ExcelDateTime;

/// What a cell holds, with the variants of calamine's `Data`. A text is lent by the workbook.
#[derive(Clone, Copy, Debug, Default, PartialEq)]
pub enum Data<'a> {
    /// A whole number that the file has in its short form.
    Int(i64),
    /// Any other number.
    Float(f64),
    /// A text.
    String(&'a str),
    /// A truth value.
    Bool(bool),
    /// A date, a time of day, or a duration, by the format of its cell.
    DateTime(ExcelDateTime),
    /// A date as text. No `.xls` file has one: it stands here for code that matches over calamine's variants.
    DateTimeIso(&'a str),
    /// A duration as text. No `.xls` file has one either.
    DurationIso(&'a str),
    /// An error value, such as `#N/A`.
    Error(CellErrorType),
    /// Nothing.
    #[default]
    Empty,
}

impl<'a> Data<'a> {
    /// Whether the cell holds nothing.
    pub fn is_empty(&self) -> bool {
        matches!(self, Data::Empty)
    }

    /// The text, of a text alone.
    pub fn get_string(&self) -> Option<&'a str> {
        match self {
            Data::String(text) => Some(text),
            _ => None,
        }
    }

    /// The whole number, of an `Int` alone.
    pub fn get_int(&self) -> Option<i64> {
        match self {
            Data::Int(number) => Some(*number),
            _ => None,
        }
    }

    /// The number, of a `Float` alone.
    pub fn get_float(&self) -> Option<f64> {
        match self {
            Data::Float(number) => Some(*number),
            _ => None,
        }
    }

    /// The truth value, of a `Bool` alone.
    pub fn get_bool(&self) -> Option<bool> {
        match self {
            Data::Bool(truth) => Some(*truth),
            _ => None,
        }
    }

    /// The date, the time or the duration, of a `DateTime` alone.
    pub fn get_datetime(&self) -> Option<ExcelDateTime> {
        match self {
            Data::DateTime(moment) => Some(*moment),
            _ => None,
        }
    }

    /// The error value, of an `Error` alone.
    pub fn get_error(&self) -> Option<CellErrorType> {
        match self {
            Data::Error(error) => Some(*error),
            _ => None,
        }
    }

    /// The number of an `Int`, a `Float` or a `DateTime`.
    pub fn as_f64(&self) -> Option<f64> {
        match self {
            Data::Int(number) => Some(*number as f64),
            Data::Float(number) => Some(*number),
            Data::DateTime(moment) => Some(moment.as_f64()),
            _ => None,
        }
    }
}

/// The text that calamine writes: a number in decimal, a date as its number of days, nothing for `Empty`.
impl fmt::Display for Data<'_> {
    fn fmt(&self, f: &mut fmt::Formatter<'_>) -> fmt::Result {
        match self {
            Data::Int(number) => number.fmt(f),
            Data::Float(number) => number.fmt(f),
            Data::String(text) | Data::DateTimeIso(text) | Data::DurationIso(text) => text.fmt(f),
            Data::Bool(truth) => truth.fmt(f),
            Data::DateTime(moment) => moment.fmt(f),
            Data::Error(error) => error.fmt(f),
            Data::Empty => Ok(()),
        }
    }
}

impl PartialEq<str> for Data<'_> {
    fn eq(&self, other: &str) -> bool {
        self.get_string() == Some(other)
    }
}

impl PartialEq<&str> for Data<'_> {
    fn eq(&self, other: &&str) -> bool {
        self.get_string() == Some(*other)
    }
}

impl PartialEq<f64> for Data<'_> {
    fn eq(&self, other: &f64) -> bool {
        self.get_float() == Some(*other)
    }
}

impl PartialEq<i64> for Data<'_> {
    fn eq(&self, other: &i64) -> bool {
        self.get_int() == Some(*other)
    }
}

impl PartialEq<bool> for Data<'_> {
    fn eq(&self, other: &bool) -> bool {
        self.get_bool() == Some(*other)
    }
}

/// An error value of a cell.
#[derive(Clone, Copy, Debug, PartialEq, Eq, Hash)]
pub enum CellErrorType {
    /// `#DIV/0!`
    Div0,
    /// `#N/A`
    NA,
    /// `#NAME?`
    Name,
    /// `#NULL!`
    Null,
    /// `#NUM!`
    Num,
    /// `#REF!`
    Ref,
    /// `#VALUE!`
    Value,
    /// `#DATA!`
    GettingData,
}

impl fmt::Display for CellErrorType {
    fn fmt(&self, f: &mut fmt::Formatter<'_>) -> fmt::Result {
        f.pad(match self {
            CellErrorType::Div0 => "#DIV/0!",
            CellErrorType::NA => "#N/A",
            CellErrorType::Name => "#NAME?",
            CellErrorType::Null => "#NULL!",
            CellErrorType::Num => "#NUM!",
            CellErrorType::Ref => "#REF!",
            CellErrorType::Value => "#VALUE!",
            CellErrorType::GettingData => "#DATA!",
        })
    }
}
