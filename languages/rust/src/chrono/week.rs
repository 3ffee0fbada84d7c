//! Weeks that begin on any weekday.

use core::hash::{Hash, Hasher};
use core::ops::RangeInclusive;

use super::{Datelike, NaiveDate, Weekday};
use crate::WeekdaySet;

/// The week of a date, where weeks begin on a weekday of one's choice. Weeks are equal if they have the same days.
///
/// ```
/// use proved_calendar::chrono::{NaiveDate, Weekday};
/// let week = NaiveDate::from_ymd_opt(2024, 2, 29).unwrap().week(Weekday::Mon);
/// assert_eq!(week.first_day().to_string(), "2024-02-26");
/// assert_eq!(NaiveDate::MIN.week(Weekday::Fri).checked_first_day(), None);
/// ```
#[derive(Clone, Copy, Debug)]
pub struct NaiveWeek {
    date: NaiveDate,
    start: Weekday,
}

impl NaiveWeek {
    /// The week of a date.
    pub(super) const fn new(date: NaiveDate, start: Weekday) -> NaiveWeek {
        NaiveWeek { date, start }
    }

    /// The first day.
    ///
    /// # Panics
    ///
    /// If it is out of range.
    #[must_use]
    pub fn first_day(&self) -> NaiveDate {
        self.checked_first_day()
            .expect("the first day of the week is out of range")
    }

    /// The first day; `None` if it is out of range.
    #[must_use]
    pub fn checked_first_day(&self) -> Option<NaiveDate> {
        self.date
            .0
            .week_first_day(self.start.counted())
            .map(NaiveDate)
    }

    /// The last day.
    ///
    /// # Panics
    ///
    /// If it is out of range.
    #[must_use]
    pub fn last_day(&self) -> NaiveDate {
        self.checked_last_day()
            .expect("the last day of the week is out of range")
    }

    /// The last day; `None` if it is out of range.
    #[must_use]
    pub fn checked_last_day(&self) -> Option<NaiveDate> {
        let last = WeekdaySet::from([self.start.pred().counted()]);
        self.date.0.first_on(last).map(NaiveDate)
    }

    /// All seven days.
    ///
    /// # Panics
    ///
    /// If one of them is out of range.
    #[must_use]
    pub fn days(&self) -> RangeInclusive<NaiveDate> {
        self.checked_days()
            .expect("the days of the week are out of range")
    }

    /// All seven days; `None` if one of them is out of range.
    #[must_use]
    pub fn checked_days(&self) -> Option<RangeInclusive<NaiveDate>> {
        Some(self.checked_first_day()?..=self.checked_last_day()?)
    }

    /// The day number of the first day, which may be out of range.
    fn first_number(&self) -> i32 {
        let passed = self.date.weekday().days_since(self.start);
        self.date.num_days_from_ce() - passed as i32
    }
}

impl PartialEq for NaiveWeek {
    fn eq(&self, other: &NaiveWeek) -> bool {
        self.first_number() == other.first_number()
    }
}

impl Eq for NaiveWeek {}

impl Hash for NaiveWeek {
    fn hash<H: Hasher>(&self, state: &mut H) {
        self.first_number().hash(state);
    }
}
