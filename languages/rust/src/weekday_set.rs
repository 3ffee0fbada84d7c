//! Sets of weekdays.

use core::fmt;
use core::iter::FusedIterator;

use crate::calls::{calendar_days_until, NONE};
use crate::Weekday;

/// A set of weekdays.
///
/// ```
/// use proved_calendar::{Weekday, WeekdaySet};
/// let weekend = WeekdaySet::from([Weekday::Sun, Weekday::Sat]);
/// assert!(weekend.iter().eq([Weekday::Sat, Weekday::Sun]));
/// assert_eq!(format!("{weekend:?}"), "{Sat, Sun}");
/// ```
#[derive(Clone, Copy, Default, PartialEq, Eq, Hash)]
pub struct WeekdaySet {
    /// 1 for Monday, 2 for Tuesday, and so on up to 64 for Sunday.
    pub(crate) members: u8,
}

impl WeekdaySet {
    /// Whether the weekday is in the set.
    ///
    /// ```
    /// use proved_calendar::{Weekday, WeekdaySet};
    /// assert!(WeekdaySet::from([Weekday::Mon]).contains(Weekday::Mon));
    /// assert!(!WeekdaySet::default().contains(Weekday::Mon));
    /// ```
    #[must_use]
    pub const fn contains(self, weekday: Weekday) -> bool {
        self.members >> (weekday.number() - 1) & 1 == 1
    }

    /// The days from a weekday on to the first one in the set, 0 to 6; `None` if the set is empty.
    ///
    /// ```
    /// use proved_calendar::{Weekday, WeekdaySet};
    /// assert_eq!(WeekdaySet::from([Weekday::Mon]).days_until(Weekday::Sun), Some(1));
    /// assert_eq!(WeekdaySet::default().days_until(Weekday::Sun), None);
    /// ```
    #[must_use]
    pub fn days_until(self, from: Weekday) -> Option<u32> {
        let days = calendar_days_until(self.members, from.number());
        (days != NONE).then_some(days as u32)
    }

    /// How many weekdays are in the set.
    ///
    /// ```
    /// use proved_calendar::{Weekday, WeekdaySet};
    /// assert_eq!(WeekdaySet::from(Weekday::ALL).len(), 7);
    /// ```
    #[must_use]
    pub const fn len(self) -> usize {
        self.members.count_ones() as usize
    }

    /// Whether no weekday is in the set.
    ///
    /// ```
    /// assert!(proved_calendar::WeekdaySet::default().is_empty());
    /// ```
    #[must_use]
    pub const fn is_empty(self) -> bool {
        self.members == 0
    }

    /// The weekdays of the set, from Monday on.
    ///
    /// ```
    /// use proved_calendar::{Weekday, WeekdaySet};
    /// let set = WeekdaySet::from([Weekday::Sun, Weekday::Mon, Weekday::Thu]);
    /// assert_eq!(set.iter().next_back(), Some(Weekday::Sun));
    /// assert!(set.iter().eq([Weekday::Mon, Weekday::Thu, Weekday::Sun]));
    /// ```
    pub const fn iter(self) -> Weekdays {
        Weekdays { rest: self }
    }
}

impl fmt::Debug for WeekdaySet {
    fn fmt(&self, f: &mut fmt::Formatter<'_>) -> fmt::Result {
        f.debug_set().entries(self.iter()).finish()
    }
}

impl Extend<Weekday> for WeekdaySet {
    fn extend<I: IntoIterator<Item = Weekday>>(&mut self, weekdays: I) {
        for it in weekdays {
            self.members |= 1 << (it.number() - 1);
        }
    }
}

impl FromIterator<Weekday> for WeekdaySet {
    fn from_iter<I: IntoIterator<Item = Weekday>>(weekdays: I) -> WeekdaySet {
        let mut set = WeekdaySet::default();
        set.extend(weekdays);
        set
    }
}

impl<const N: usize> From<[Weekday; N]> for WeekdaySet {
    fn from(weekdays: [Weekday; N]) -> WeekdaySet {
        weekdays.into_iter().collect()
    }
}

impl IntoIterator for WeekdaySet {
    type Item = Weekday;
    type IntoIter = Weekdays;

    fn into_iter(self) -> Weekdays {
        self.iter()
    }
}

/// The weekdays of a set, from Monday on; [`WeekdaySet::iter`] makes it.
///
/// ```
/// use proved_calendar::{Weekday, WeekdaySet};
/// let set = WeekdaySet::from([Weekday::Sun, Weekday::Tue]);
/// let names: Vec<String> = set.into_iter().map(|it| it.to_string()).collect();
/// assert_eq!(names, ["Tue", "Sun"]);
/// ```
#[derive(Clone, Debug)]
#[must_use = "an iterator does nothing until it is asked"]
pub struct Weekdays {
    rest: WeekdaySet,
}

impl Weekdays {
    /// Takes the weekday with a number out of the rest.
    fn take_out(&mut self, number: u32) -> Option<Weekday> {
        let found = Weekday::from_number(number)?;
        self.rest.members &= !(1 << (number - 1));
        Some(found)
    }
}

impl Iterator for Weekdays {
    type Item = Weekday;

    fn next(&mut self) -> Option<Weekday> {
        self.take_out(self.rest.members.trailing_zeros() + 1)
    }

    fn size_hint(&self) -> (usize, Option<usize>) {
        (self.rest.len(), Some(self.rest.len()))
    }
}

impl DoubleEndedIterator for Weekdays {
    fn next_back(&mut self) -> Option<Weekday> {
        self.take_out(u8::BITS - self.rest.members.leading_zeros())
    }
}

impl ExactSizeIterator for Weekdays {}

impl FusedIterator for Weekdays {}
