//! Dates, times of day and durations.

use std::fmt;

use crate::raw;

/// A number of days that a cell shows as a date, a time of day or a duration.
#[derive(Clone, Copy, Debug, PartialEq, PartialOrd)]
pub struct ExcelDateTime {
    value: f64,
    is_duration: bool,
    is_1904: bool,
}

impl ExcelDateTime {
    /// A number of days: since 1904-01-01, or since 1899-12-31 with a day 1900-02-29, or the days of a duration.
    pub fn new(value: f64, is_duration: bool, is_1904: bool) -> Self {
        ExcelDateTime { value, is_duration, is_1904 }
    }

    /// The number of days.
    pub fn as_f64(&self) -> f64 {
        self.value
    }

    /// Whether it is a duration.
    pub fn is_duration(&self) -> bool {
        self.is_duration
    }

    /// Whether it is a date or a time of day.
    pub fn is_datetime(&self) -> bool {
        !self.is_duration
    }

    /// The text to the nearest millisecond: `2024-02-29T13:45:30.25`, at midnight the day alone, below one day the time alone; of a
    /// duration `30:00:00` or `-1:30:00.5`. A number that is no date (below 0, or after 9999-12-31) is a number here too.
    pub fn to_text(&self) -> String {
        raw::serial(self.value, self.is_1904, self.is_duration)
    }

    /// Year, month, day, hour, minute, second and millisecond, to the nearest millisecond. A time of day alone has the date
    /// 1899-12-31, or 1904-01-01. None of a duration, and of a number that is no date.
    pub fn to_ymd_hms_milli(&self) -> Option<(u16, u8, u8, u8, u8, u8, u16)> {
        if self.is_duration {
            return None;
        }
        let text = self.to_text();
        let (date, time) = match text.split_once('T') {
            Some((date, time)) => (date, time),
            None if text.contains(':') => ("", text.as_str()),
            None => (text.as_str(), "00:00:00"),
        };
        let (year, month, day) = match date {
            "" if self.is_1904 => (1904, 1, 1),
            "" => (1899, 12, 31),
            date => {
                let (year, rest) = date.split_once('-').filter(|(year, _)| year.len() == 4)?;
                let (month, day) = rest.split_once('-')?;
                (year.parse().ok()?, month.parse().ok()?, day.parse().ok()?)
            }
        };
        let (hour, rest) = time.split_once(':')?;
        let (minute, rest) = rest.split_once(':')?;
        let (second, fraction) = rest.split_once('.').unwrap_or((rest, "0"));
        let milli = format!("{fraction:0<3}").parse().ok()?;
        Some((year, month, day, hour.parse().ok()?, minute.parse().ok()?, second.parse().ok()?, milli))
    }
}

/// The number of days, as calamine writes it.
impl fmt::Display for ExcelDateTime {
    fn fmt(&self, f: &mut fmt::Formatter<'_>) -> fmt::Result {
        self.value.fmt(f)
    }
}
