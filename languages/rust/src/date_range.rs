//! Dates in a row.

use core::iter::FusedIterator;
use core::ops::{Range, RangeInclusive};

use crate::Date;

/// The dates of a range, day by day, from both ends.
///
/// ```
/// use proved_calendar::{Date, DateRange};
/// let day = |number| Date::from_ymd(2024, 2, number).unwrap();
/// let dates: Vec<String> = DateRange::from(day(28)..=day(29)).map(|it| it.to_string()).collect();
/// assert_eq!(dates, ["2024-02-28", "2024-02-29"]);
/// assert_eq!(DateRange::from(day(1)..day(29)).step_by(7).count(), 4);
/// ```
#[derive(Clone, Debug, PartialEq, Eq)]
#[must_use = "an iterator does nothing until it is asked"]
pub struct DateRange {
    /// The number of the next date.
    next: i32,
    /// The number behind that of the last date; not below the next one.
    end: i32,
}

impl DateRange {
    /// The dates with numbers from the first to the one before the end.
    fn between(next: i32, end: i32) -> DateRange {
        DateRange {
            next,
            end: end.max(next),
        }
    }

    /// Whether the date is still to come.
    ///
    /// ```
    /// use proved_calendar::{Date, DateRange};
    /// let all = DateRange::from(Date::MIN..=Date::MAX);
    /// assert!(all.contains(Date::UNIX_EPOCH));
    /// assert!(!DateRange::from(Date::MIN..Date::UNIX_EPOCH).contains(Date::UNIX_EPOCH));
    /// ```
    #[must_use]
    pub fn contains(&self, date: Date) -> bool {
        (self.next..self.end).contains(&date.number())
    }
}

impl From<Range<Date>> for DateRange {
    fn from(dates: Range<Date>) -> DateRange {
        DateRange::between(dates.start.number(), dates.end.number())
    }
}

impl From<RangeInclusive<Date>> for DateRange {
    fn from(dates: RangeInclusive<Date>) -> DateRange {
        let behind = i32::from(!dates.is_empty());
        let (first, last) = dates.into_inner();
        DateRange::between(first.number(), last.number() + behind)
    }
}

impl Iterator for DateRange {
    type Item = Date;

    fn next(&mut self) -> Option<Date> {
        self.nth(0)
    }

    fn nth(&mut self, passed: usize) -> Option<Date> {
        let passed = passed.min(self.len());
        self.next += passed as i32;
        let found = (self.next < self.end).then_some(self.next)?;
        self.next += 1;
        Date::from_number(found)
    }

    fn size_hint(&self) -> (usize, Option<usize>) {
        let days = (self.end - self.next) as usize;
        (days, Some(days))
    }

    fn count(self) -> usize {
        self.len()
    }

    fn last(mut self) -> Option<Date> {
        self.next_back()
    }
}

impl DoubleEndedIterator for DateRange {
    fn next_back(&mut self) -> Option<Date> {
        if self.next == self.end {
            return None;
        }
        self.end -= 1;
        Date::from_number(self.end)
    }
}

impl ExactSizeIterator for DateRange {}

impl FusedIterator for DateRange {}
