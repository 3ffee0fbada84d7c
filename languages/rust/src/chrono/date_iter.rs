//! Dates in a row.

use core::iter::FusedIterator;

use super::NaiveDate;
use crate::Date;

/// What both iterators are: they step so many days from a day number, and the number behind the last date means the
/// end. Both step back from the date that they would return next.
macro_rules! iterator {
    ($(#[$about:meta])* $name:ident, $days:literal) => {
        $(#[$about])*
        #[derive(Clone, Copy, Debug, PartialEq, Eq, PartialOrd, Ord, Hash)]
        #[must_use = "an iterator does nothing until it is asked"]
        pub struct $name {
            next: Option<NaiveDate>,
        }

        impl From<NaiveDate> for $name {
            fn from(date: NaiveDate) -> $name {
                $name { next: Some(date) }
            }
        }

        impl DoubleEndedIterator for $name {
            fn next_back(&mut self) -> Option<NaiveDate> {
                let date = self.next?;
                self.next = Some(date.moved(-$days)?);
                Some(date)
            }
        }

        impl ExactSizeIterator for $name {}

        impl FusedIterator for $name {}
    };
}

iterator!(
    /// The dates from one on, day by day, up to [`NaiveDate::MAX`]; [`NaiveDate::iter_days`] makes it.
    ///
    /// ```
    /// use proved_calendar::chrono::NaiveDate;
    /// let mut days = NaiveDate::from_ymd_opt(2024, 2, 28).unwrap().iter_days();
    /// assert_eq!(days.nth(2), NaiveDate::from_ymd_opt(2024, 3, 1));
    /// ```
    NaiveDateDaysIterator,
    1
);

impl Iterator for NaiveDateDaysIterator {
    type Item = NaiveDate;

    fn next(&mut self) -> Option<NaiveDate> {
        let date = self.next?;
        self.next = date.moved(1);
        Some(date)
    }

    fn size_hint(&self) -> (usize, Option<usize>) {
        let left = self
            .next
            .map_or(0, |date| (Date::MAX - date.0) as usize + 1);
        (left, Some(left))
    }
}

iterator!(
    /// The dates from one on, week by week; [`NaiveDate::iter_weeks`] makes it. It leaves out a date that has no date a
    /// week later.
    ///
    /// ```
    /// use proved_calendar::chrono::NaiveDate;
    /// let mut weeks = NaiveDate::from_ymd_opt(2024, 2, 28).unwrap().iter_weeks();
    /// assert_eq!(weeks.nth(1), NaiveDate::from_ymd_opt(2024, 3, 6));
    /// ```
    NaiveDateWeeksIterator,
    7
);

impl Iterator for NaiveDateWeeksIterator {
    type Item = NaiveDate;

    fn next(&mut self) -> Option<NaiveDate> {
        let date = self.next?;
        self.next = Some(date.moved(7)?);
        Some(date)
    }

    fn size_hint(&self) -> (usize, Option<usize>) {
        let left = self
            .next
            .map_or(0, |date| (Date::MAX - date.0) as usize / 7);
        (left, Some(left))
    }
}
