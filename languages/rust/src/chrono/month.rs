//! Months by name, and numbers of months.

use core::error::Error;
use core::fmt;
use core::str::FromStr;

use super::OutOfRange;
use crate::calls::{calendar_days_in_month, NONE};

/// A month of the year.
///
/// It is read from its whole name or the first three letters of that, in upper or lower case.
///
/// ```
/// use proved_calendar::chrono::Month;
/// assert_eq!("feb".parse(), Ok(Month::February));
/// assert_eq!(Month::February.num_days(2024), Some(29));
/// ```
#[derive(Clone, Copy, Debug, PartialEq, Eq, PartialOrd, Ord, Hash)]
pub enum Month {
    /// January, 1.
    January = 0,
    /// February, 2.
    February = 1,
    /// March, 3.
    March = 2,
    /// April, 4.
    April = 3,
    /// May, 5.
    May = 4,
    /// June, 6.
    June = 5,
    /// July, 7.
    July = 6,
    /// August, 8.
    August = 7,
    /// September, 9.
    September = 8,
    /// October, 10.
    October = 9,
    /// November, 11.
    November = 10,
    /// December, 12.
    December = 11,
}

const ALL: [Month; 12] = [
    Month::January,
    Month::February,
    Month::March,
    Month::April,
    Month::May,
    Month::June,
    Month::July,
    Month::August,
    Month::September,
    Month::October,
    Month::November,
    Month::December,
];

/// The whole names, from January on.
pub(super) const NAMES: [&str; 12] = [
    "January",
    "February",
    "March",
    "April",
    "May",
    "June",
    "July",
    "August",
    "September",
    "October",
    "November",
    "December",
];

impl Month {
    /// The next month; January after December.
    #[must_use]
    pub const fn succ(&self) -> Month {
        ALL[(*self as usize + 1) % 12]
    }

    /// The month before; December before January.
    #[must_use]
    pub const fn pred(&self) -> Month {
        ALL[(*self as usize + 11) % 12]
    }

    /// The number, from 1 for January to 12.
    #[must_use]
    pub const fn number_from_month(&self) -> u32 {
        *self as u32 + 1
    }

    /// The whole name.
    #[must_use]
    pub const fn name(&self) -> &'static str {
        NAMES[*self as usize]
    }

    /// How many days the month has in a year; `None` if the year has no dates.
    #[must_use]
    pub fn num_days(&self, year: i32) -> Option<u8> {
        let days = calendar_days_in_month(year, self.number_from_month());
        (days != NONE).then_some(days as u8)
    }

    /// The month with a number from 1 for January to 12; `None` for any other number.
    #[must_use]
    pub fn from_u32(number: u32) -> Option<Month> {
        ALL.get((number as usize).checked_sub(1)?).copied()
    }

    /// The same for a `u64`.
    #[must_use]
    pub fn from_u64(number: u64) -> Option<Month> {
        Month::from_u32(u32::try_from(number).ok()?)
    }

    /// The same for an `i64`.
    #[must_use]
    pub fn from_i64(number: i64) -> Option<Month> {
        Month::from_u32(u32::try_from(number).ok()?)
    }
}

/// The month with a number from 1 for January to 12.
impl TryFrom<u8> for Month {
    type Error = OutOfRange;

    fn try_from(number: u8) -> Result<Month, OutOfRange> {
        Month::from_u32(u32::from(number)).ok_or(OutOfRange::new())
    }
}

impl FromStr for Month {
    type Err = ParseMonthError;

    fn from_str(text: &str) -> Result<Month, ParseMonthError> {
        let is_named =
            |it: &&str| text.eq_ignore_ascii_case(it) || text.eq_ignore_ascii_case(&it[..3]);
        let place = NAMES.iter().position(is_named);
        place.map(|it| ALL[it]).ok_or(ParseMonthError(()))
    }
}

/// The text is no name of a month.
///
/// ```
/// use proved_calendar::chrono::Month;
/// assert!("febr".parse::<Month>().is_err());
/// ```
#[derive(Clone, PartialEq, Eq)]
pub struct ParseMonthError(());

impl fmt::Debug for ParseMonthError {
    fn fmt(&self, f: &mut fmt::Formatter<'_>) -> fmt::Result {
        f.write_str("ParseMonthError { .. }")
    }
}

impl fmt::Display for ParseMonthError {
    fn fmt(&self, f: &mut fmt::Formatter<'_>) -> fmt::Result {
        f.write_str("no name of a month")
    }
}

impl Error for ParseMonthError {}

/// A number of months, by which dates move.
///
/// ```
/// use proved_calendar::chrono::{Months, NaiveDate};
/// let last = NaiveDate::from_ymd_opt(2024, 1, 31).unwrap();
/// assert_eq!((last + Months::new(1)).to_string(), "2024-02-29");
/// ```
#[derive(Clone, Copy, Debug, PartialEq, Eq, PartialOrd, Ord, Hash)]
pub struct Months(pub(super) u32);

impl Months {
    /// So many months.
    #[must_use]
    pub const fn new(number: u32) -> Months {
        Months(number)
    }

    /// The number of months.
    #[must_use]
    pub const fn as_u32(&self) -> u32 {
        self.0
    }
}
