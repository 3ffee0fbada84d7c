//! Weekdays.

use core::fmt;
use core::str::FromStr;

use crate::ParseError;

/// The names in English, from Monday on.
const NAMES: [&str; 7] = [
    "Monday",
    "Tuesday",
    "Wednesday",
    "Thursday",
    "Friday",
    "Saturday",
    "Sunday",
];

/// A day of the week, from 1 for Monday to 7 for Sunday (ISO 8601).
///
/// Printed is the name's first three letters. A text that is read is these or the whole name, in large or small
/// letters.
///
/// ```
/// use proved_calendar::Weekday;
/// assert_eq!(Weekday::Thu.to_string(), "Thu");
/// assert_eq!("thursday".parse(), Ok(Weekday::Thu));
/// ```
#[derive(Clone, Copy, Debug, PartialEq, Eq, PartialOrd, Ord, Hash)]
pub enum Weekday {
    /// Monday, 1.
    Mon = 1,
    /// Tuesday, 2.
    Tue = 2,
    /// Wednesday, 3.
    Wed = 3,
    /// Thursday, 4.
    Thu = 4,
    /// Friday, 5.
    Fri = 5,
    /// Saturday, 6.
    Sat = 6,
    /// Sunday, 7.
    Sun = 7,
}

impl Weekday {
    /// All weekdays, from Monday on.
    ///
    /// ```
    /// use proved_calendar::Weekday;
    /// assert_eq!(Weekday::ALL[6], Weekday::Sun);
    /// ```
    pub const ALL: [Weekday; 7] = [
        Weekday::Mon,
        Weekday::Tue,
        Weekday::Wed,
        Weekday::Thu,
        Weekday::Fri,
        Weekday::Sat,
        Weekday::Sun,
    ];

    /// The weekday with a number from 1 for Monday to 7; `None` for any other number.
    ///
    /// ```
    /// use proved_calendar::Weekday;
    /// assert_eq!(Weekday::from_number(4), Some(Weekday::Thu));
    /// assert_eq!(Weekday::from_number(0), None);
    /// ```
    #[must_use]
    pub fn from_number(number: u32) -> Option<Weekday> {
        Weekday::ALL.get((number as usize).checked_sub(1)?).copied()
    }

    /// The number, from 1 for Monday to 7.
    ///
    /// ```
    /// assert_eq!(proved_calendar::Weekday::Sun.number(), 7);
    /// ```
    #[must_use]
    pub const fn number(self) -> u32 {
        self as u32
    }

    /// The whole name.
    ///
    /// ```
    /// assert_eq!(proved_calendar::Weekday::Sun.name(), "Sunday");
    /// ```
    #[must_use]
    pub const fn name(self) -> &'static str {
        NAMES[self as usize - 1]
    }
}

impl fmt::Display for Weekday {
    fn fmt(&self, f: &mut fmt::Formatter<'_>) -> fmt::Result {
        f.pad(&self.name()[..3])
    }
}

impl FromStr for Weekday {
    type Err = ParseError;

    /// The weekday with this name.
    fn from_str(text: &str) -> Result<Weekday, ParseError> {
        let is_named = |it: &Weekday| {
            text.eq_ignore_ascii_case(it.name()) || text.eq_ignore_ascii_case(&it.name()[..3])
        };
        let found = Weekday::ALL.into_iter().find(is_named);
        found.ok_or(ParseError { kind: "weekday" })
    }
}
