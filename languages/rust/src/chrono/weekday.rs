//! Weekdays, numbered as chrono numbers them.

use core::error::Error;
use core::fmt;
use core::str::FromStr;

use super::OutOfRange;

/// A day of the week. As a number it counts from 0 for Monday.
///
/// It prints as its first three letters. It is read from those or from its whole name, in upper or lower case.
///
/// ```
/// use proved_calendar::chrono::Weekday;
/// assert_eq!("thursday".parse(), Ok(Weekday::Thu));
/// assert_eq!(Weekday::Thu.succ().number_from_monday(), 5);
/// ```
#[derive(Clone, Copy, Debug, PartialEq, Eq, Hash)]
pub enum Weekday {
    /// Monday.
    Mon = 0,
    /// Tuesday.
    Tue = 1,
    /// Wednesday.
    Wed = 2,
    /// Thursday.
    Thu = 3,
    /// Friday.
    Fri = 4,
    /// Saturday.
    Sat = 5,
    /// Sunday.
    Sun = 6,
}

const ALL: [Weekday; 7] = [
    Weekday::Mon,
    Weekday::Tue,
    Weekday::Wed,
    Weekday::Thu,
    Weekday::Fri,
    Weekday::Sat,
    Weekday::Sun,
];

impl Weekday {
    /// The weekday that lies so many days after Monday.
    const fn after_monday(days: u32) -> Weekday {
        ALL[days as usize % 7]
    }

    /// The next weekday; Monday after Sunday.
    #[must_use]
    pub const fn succ(&self) -> Weekday {
        Weekday::after_monday(*self as u32 + 1)
    }

    /// The weekday before; Sunday before Monday.
    #[must_use]
    pub const fn pred(&self) -> Weekday {
        Weekday::after_monday(*self as u32 + 6)
    }

    /// The number, from 1 for Monday to 7 (ISO 8601).
    #[must_use]
    pub const fn number_from_monday(&self) -> u32 {
        *self as u32 + 1
    }

    /// The number, from 1 for Sunday to 7.
    #[must_use]
    pub const fn number_from_sunday(&self) -> u32 {
        self.num_days_from_sunday() + 1
    }

    /// The days since Monday, from 0 to 6.
    #[must_use]
    pub const fn num_days_from_monday(&self) -> u32 {
        *self as u32
    }

    /// The days since Sunday, from 0 to 6.
    #[must_use]
    pub const fn num_days_from_sunday(&self) -> u32 {
        (*self as u32 + 1) % 7
    }

    /// The days from the last such weekday as `other` to this one, from 0 to 6.
    #[must_use]
    pub const fn days_since(&self, other: Weekday) -> u32 {
        (*self as u32 + 7 - other as u32) % 7
    }

    /// The weekday that lies `number` days after Monday; `None` from 7 on.
    #[must_use]
    pub fn from_u32(number: u32) -> Option<Weekday> {
        ALL.get(number as usize).copied()
    }

    /// The same for a `u64`.
    #[must_use]
    pub fn from_u64(number: u64) -> Option<Weekday> {
        Weekday::from_u32(u32::try_from(number).ok()?)
    }

    /// The same for an `i64`; `None` for a negative number too.
    #[must_use]
    pub fn from_i64(number: i64) -> Option<Weekday> {
        Weekday::from_u32(u32::try_from(number).ok()?)
    }

    /// The whole name.
    pub(super) const fn name(self) -> &'static str {
        self.counted().name()
    }

    /// The same weekday, as the rest of this crate has it.
    pub(super) const fn counted(self) -> crate::Weekday {
        crate::Weekday::ALL[self as usize]
    }
}

impl From<crate::Weekday> for Weekday {
    fn from(weekday: crate::Weekday) -> Weekday {
        Weekday::after_monday(weekday.number() - 1)
    }
}

impl From<Weekday> for crate::Weekday {
    fn from(weekday: Weekday) -> crate::Weekday {
        weekday.counted()
    }
}

/// The weekday that lies so many days after Monday.
impl TryFrom<u8> for Weekday {
    type Error = OutOfRange;

    fn try_from(number: u8) -> Result<Weekday, OutOfRange> {
        Weekday::from_u32(u32::from(number)).ok_or(OutOfRange::new())
    }
}

impl fmt::Display for Weekday {
    fn fmt(&self, f: &mut fmt::Formatter<'_>) -> fmt::Result {
        fmt::Display::fmt(&self.counted(), f)
    }
}

impl FromStr for Weekday {
    type Err = ParseWeekdayError;

    fn from_str(text: &str) -> Result<Weekday, ParseWeekdayError> {
        let found = text.parse::<crate::Weekday>();
        found.map(Weekday::from).map_err(|_| ParseWeekdayError(()))
    }
}

/// The text is no name of a weekday.
///
/// ```
/// use proved_calendar::chrono::Weekday;
/// assert!("thurs".parse::<Weekday>().is_err());
/// ```
#[derive(Clone, PartialEq, Eq)]
pub struct ParseWeekdayError(());

impl fmt::Debug for ParseWeekdayError {
    fn fmt(&self, f: &mut fmt::Formatter<'_>) -> fmt::Result {
        f.write_str("ParseWeekdayError { .. }")
    }
}

impl fmt::Display for ParseWeekdayError {
    fn fmt(&self, f: &mut fmt::Formatter<'_>) -> fmt::Result {
        f.write_str("no name of a weekday")
    }
}

impl Error for ParseWeekdayError {}
