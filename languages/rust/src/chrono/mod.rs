//! chrono's names over the dates of this crate: a program that says `use proved_calendar::chrono::NaiveDate` for
//! `use chrono::NaiveDate` runs on proved calls.
//!
//! ```
//! use proved_calendar::chrono::{Datelike, Months, NaiveDate, TimeDelta, Utc, Weekday};
//! let leap_day = NaiveDate::from_ymd_opt(2024, 2, 29).unwrap();
//! assert_eq!((leap_day + Months::new(12)).to_string(), "2025-02-28");
//! assert_eq!((leap_day + TimeDelta::days(1)).weekday(), Weekday::Fri);
//! let meeting = leap_day.and_hms_opt(9, 30, 0).unwrap();
//! assert_eq!(meeting.format("%a %d %b, %-I:%M %p").to_string(), "Thu 29 Feb, 9:30 AM");
//! assert_eq!(format!("{:?}", meeting.and_local_timezone(Utc).unwrap()), "2024-02-29T09:30:00Z");
//! ```
//!
//! The proved library answers what a date, its fields, a move, a distance, a week and the text of a value are. The rest is
//! plain Rust, and is tested only: durations, patterns, reading of texts, rounding, offsets and zones.

mod date;
mod date_iter;
mod date_time;
mod delta;
pub mod format;
mod iso_week;
mod month;
pub mod offset;
mod round;
mod time;
mod traits;
mod week;
mod weekday;
mod zoned;

use core::error::Error;
use core::fmt;

pub use date::{Days, NaiveDate};
pub use date_iter::{NaiveDateDaysIterator, NaiveDateWeeksIterator};
pub use date_time::NaiveDateTime;
pub use delta::{OutOfRangeError, TimeDelta};
pub use format::{ParseError, ParseResult};
pub use iso_week::IsoWeek;
pub use month::{Month, Months, ParseMonthError};
pub use offset::{FixedOffset, LocalResult, MappedLocalTime, Offset, TimeZone, Utc};
pub use round::{DurationRound, RoundingError, SubsecRound};
pub use time::NaiveTime;
pub use traits::{Datelike, Timelike};
pub use week::NaiveWeek;
pub use weekday::{ParseWeekdayError, Weekday};
pub use zoned::{DateTime, SecondsFormat};

/// The older name of [`TimeDelta`].
pub type Duration = TimeDelta;

/// The first date.
#[deprecated(note = "use `NaiveDate::MIN`")]
pub const MIN_DATE: NaiveDate = NaiveDate::MIN;

/// The last date.
#[deprecated(note = "use `NaiveDate::MAX`")]
pub const MAX_DATE: NaiveDate = NaiveDate::MAX;

/// The first instant.
#[deprecated(note = "use `DateTime::MIN_UTC`")]
pub const MIN_DATETIME: DateTime<Utc> = DateTime::MIN_UTC;

/// The last instant.
#[deprecated(note = "use `DateTime::MAX_UTC`")]
pub const MAX_DATETIME: DateTime<Utc> = DateTime::MAX_UTC;

/// The types with no time zone.
pub mod naive {
    pub use super::{
        Days, IsoWeek, NaiveDate, NaiveDateDaysIterator, NaiveDateTime, NaiveDateWeeksIterator,
        NaiveTime, NaiveWeek,
    };
    #[allow(deprecated)]
    pub use super::{MAX_DATE, MIN_DATE};

    /// The first date-time.
    #[deprecated(note = "use `NaiveDateTime::MIN`")]
    pub const MIN_DATETIME: NaiveDateTime = NaiveDateTime::MIN;

    /// The last date-time.
    #[deprecated(note = "use `NaiveDateTime::MAX`")]
    pub const MAX_DATETIME: NaiveDateTime = NaiveDateTime::MAX;
}

/// What a program that uses dates mostly wants: `use proved_calendar::chrono::prelude::*;`.
pub mod prelude {
    pub use super::{
        DateTime, Datelike, FixedOffset, LocalResult, Month, NaiveDate, NaiveDateTime, NaiveTime,
        Offset, SecondsFormat, SubsecRound, TimeZone, Timelike, Utc, Weekday,
    };
}

/// A number is none of a weekday's or a month's, or a value has no like in the rest of this crate.
///
/// ```
/// use proved_calendar::chrono::Month;
/// assert!(Month::try_from(13).is_err());
/// ```
#[derive(Clone, Copy, PartialEq, Eq, Hash)]
pub struct OutOfRange(());

impl OutOfRange {
    const fn new() -> OutOfRange {
        OutOfRange(())
    }
}

impl fmt::Display for OutOfRange {
    fn fmt(&self, f: &mut fmt::Formatter<'_>) -> fmt::Result {
        f.write_str("out of range")
    }
}

impl fmt::Debug for OutOfRange {
    fn fmt(&self, f: &mut fmt::Formatter<'_>) -> fmt::Result {
        f.write_str("out of range")
    }
}

impl Error for OutOfRange {}
