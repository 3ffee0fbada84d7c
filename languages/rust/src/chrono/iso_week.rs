//! Weeks of ISO 8601.

use core::fmt;

use super::format::write_year;

/// A week of ISO 8601, with the year that it belongs to. Weeks are compared by year, then by number.
///
/// ```
/// use proved_calendar::chrono::{Datelike, NaiveDate};
/// let week = NaiveDate::from_ymd_opt(2024, 12, 30).unwrap().iso_week();
/// assert_eq!((week.year(), week.week()), (2025, 1));
/// assert_eq!(format!("{week:?}"), "2025-W01");
/// ```
#[derive(Clone, Copy, PartialEq, Eq, PartialOrd, Ord, Hash)]
pub struct IsoWeek {
    year: i32,
    week: u32,
}

impl IsoWeek {
    /// The week of a date.
    pub(super) fn of(date: crate::Date) -> IsoWeek {
        IsoWeek {
            year: date.iso_year(),
            week: date.iso_week(),
        }
    }

    /// The year of the week: that of its Thursday.
    #[must_use]
    pub const fn year(&self) -> i32 {
        self.year
    }

    /// The number of the week in its year, from 1 to 53.
    #[must_use]
    pub const fn week(&self) -> u32 {
        self.week
    }

    /// The same from 0 to 52.
    #[must_use]
    pub const fn week0(&self) -> u32 {
        self.week - 1
    }
}

impl fmt::Debug for IsoWeek {
    fn fmt(&self, f: &mut fmt::Formatter<'_>) -> fmt::Result {
        write_year(f, self.year)?;
        write!(f, "-W{:02}", self.week)
    }
}
