//! Texts by patterns in the manner of `strftime`, written and read. This is plain Rust, and is tested only.
//!
//! [`strftime`] lists what may stand in a pattern.

use core::error::Error;
use core::fmt;

mod parse;
mod parsed;
pub mod strftime;
mod write;

pub use parse::{parse, parse_and_remainder};
pub(super) use parse::{read, read_fixed, read_instant, read_offset};
pub(super) use parse::{DATE_ITEMS, END_ITEMS, MINUTE_ITEMS, SECOND_ITEMS, T_ITEMS};
pub use parsed::Parsed;
pub use strftime::StrftimeItems;
#[cfg(feature = "alloc")]
pub(super) use write::text_of;
pub(super) use write::write_year;
pub use write::DelayedFormat;

/// What a number is filled up with on its left.
#[derive(Clone, Copy, Debug, PartialEq, Eq, Hash)]
pub enum Pad {
    /// Nothing.
    None,
    /// Zeros.
    Zero,
    /// Spaces.
    Space,
}

/// A number in a text. It is written with the digits named here at least, and read from at most so many.
#[derive(Clone, Debug, PartialEq, Eq, Hash)]
#[non_exhaustive]
pub enum Numeric {
    /// The year, four digits. Below 0 and above 9999 it has a sign, and with a sign it is read from any number of digits.
    Year,
    /// The year without its last two digits, two digits.
    YearDiv100,
    /// The last two digits of the year.
    YearMod100,
    /// The year of the week of ISO 8601, as [`Numeric::Year`].
    IsoYear,
    /// The same without its last two digits, two digits.
    IsoYearDiv100,
    /// The last two digits of the same.
    IsoYearMod100,
    /// The quarter of the year, one digit.
    Quarter,
    /// The month, two digits.
    Month,
    /// The day of the month, two digits.
    Day,
    /// The week, where week 1 begins with the first Sunday of the year; two digits.
    WeekFromSun,
    /// The week, where week 1 begins with the first Monday of the year; two digits.
    WeekFromMon,
    /// The week of ISO 8601, two digits.
    IsoWeek,
    /// The days since Sunday, one digit.
    NumDaysFromSun,
    /// The number of the weekday from 1 for Monday, one digit.
    WeekdayFromMon,
    /// The day of the year, three digits.
    Ordinal,
    /// The hour from 0 to 23, two digits.
    Hour,
    /// The hour from 1 to 12, two digits.
    Hour12,
    /// The minute, two digits.
    Minute,
    /// The second, 60 in a leap second; two digits.
    Second,
    /// The nanoseconds past the second, nine digits.
    Nanosecond,
    /// The seconds since 1970-01-01T00:00:00 in UTC.
    Timestamp,
}

/// A part of a text that has rules of its own. Letters are read in upper and lower case.
#[derive(Clone, Debug, PartialEq, Eq, Hash)]
#[non_exhaustive]
pub enum Fixed {
    /// The first three letters of the month's name.
    ShortMonthName,
    /// The month's name. The short one is read too.
    LongMonthName,
    /// The first three letters of the weekday's name.
    ShortWeekdayName,
    /// The weekday's name. The short one is read too.
    LongWeekdayName,
    /// `am` or `pm`.
    LowerAmPm,
    /// `AM` or `PM`.
    UpperAmPm,
    /// A point and three, six or nine digits of a fraction, or nothing. Any number of digits is read.
    Nanosecond,
    /// A point and three digits of a fraction. It is read as [`Fixed::Nanosecond`].
    Nanosecond3,
    /// A point and six digits of a fraction. It is read as [`Fixed::Nanosecond`].
    Nanosecond6,
    /// A point and nine digits of a fraction. It is read as [`Fixed::Nanosecond`].
    Nanosecond9,
    /// The name of the zone. What is read up to the next space counts for nothing.
    TimezoneName,
    /// The offset with a colon, such as `+09:30`.
    TimezoneOffsetColon,
    /// The offset with seconds, such as `+09:30:00`. It is read without them.
    TimezoneOffsetDoubleColon,
    /// The hours of the offset. It is read with minutes.
    TimezoneOffsetTripleColon,
    /// The offset with a colon, or `Z` for UTC.
    TimezoneOffsetColonZ,
    /// The offset without a colon, such as `+0930`.
    TimezoneOffset,
    /// The offset without a colon, or `Z` for UTC.
    TimezoneOffsetZ,
    /// A whole text of RFC 2822.
    RFC2822,
    /// A whole text of RFC 3339.
    RFC3339,
    /// One of those that patterns alone name.
    Internal(InternalFixed),
}

/// A part of a text that patterns alone name, such as `%3f`.
#[derive(Clone, Debug, PartialEq, Eq, Hash)]
pub struct InternalFixed {
    kind: InternalKind,
}

#[derive(Clone, Copy, Debug, PartialEq, Eq, Hash)]
enum InternalKind {
    /// An offset whose minutes may be missing. It is read only.
    TimezoneOffsetPermissive,
    /// So many digits of a fraction with no point.
    Digits(u8),
}

/// A part of a pattern.
///
/// ```
/// use proved_calendar::chrono::format::{Item, Numeric, Pad, StrftimeItems};
/// let items: Vec<Item> = StrftimeItems::new("%Y!").collect();
/// assert_eq!(items, [Item::Numeric(Numeric::Year, Pad::Zero), Item::Literal("!")]);
/// ```
#[derive(Clone, Debug, PartialEq, Eq, Hash)]
pub enum Item<'a> {
    /// Text that stands as it is.
    Literal(&'a str),
    /// The same, owned.
    #[cfg(feature = "alloc")]
    OwnedLiteral(alloc::boxed::Box<str>),
    /// White space. Any white space is read for it, or none.
    Space(&'a str),
    /// The same, owned.
    #[cfg(feature = "alloc")]
    OwnedSpace(alloc::boxed::Box<str>),
    /// A number.
    Numeric(Numeric, Pad),
    /// A part with rules of its own.
    Fixed(Fixed),
    /// A mistake in the pattern. It is neither written nor read.
    Error,
}

/// Why a text is not read.
///
/// ```
/// use proved_calendar::chrono::{format::ParseErrorKind, NaiveDate};
/// let refused = NaiveDate::parse_from_str("2024", "%Y").unwrap_err();
/// assert_eq!(refused.kind(), ParseErrorKind::NotEnough);
/// ```
#[derive(Clone, Copy, Debug, PartialEq, Eq, Hash)]
pub struct ParseError(ParseErrorKind);

/// What is wrong with a text.
#[derive(Clone, Copy, Debug, PartialEq, Eq, Hash)]
#[non_exhaustive]
pub enum ParseErrorKind {
    /// A field is out of its range.
    OutOfRange,
    /// The fields contradict one another.
    Impossible,
    /// The fields do not give a value.
    NotEnough,
    /// The text has something other than the pattern wants.
    Invalid,
    /// The text ends too early.
    TooShort,
    /// The text goes on after the end of the pattern.
    TooLong,
    /// The pattern is wrong.
    BadFormat,
}

/// The result of reading a text.
pub type ParseResult<T> = Result<T, ParseError>;

const OUT_OF_RANGE: ParseError = ParseError(ParseErrorKind::OutOfRange);
const IMPOSSIBLE: ParseError = ParseError(ParseErrorKind::Impossible);
const NOT_ENOUGH: ParseError = ParseError(ParseErrorKind::NotEnough);
const INVALID: ParseError = ParseError(ParseErrorKind::Invalid);
const TOO_SHORT: ParseError = ParseError(ParseErrorKind::TooShort);
const TOO_LONG: ParseError = ParseError(ParseErrorKind::TooLong);
const BAD_FORMAT: ParseError = ParseError(ParseErrorKind::BadFormat);

impl ParseError {
    /// What is wrong.
    #[must_use]
    pub const fn kind(&self) -> ParseErrorKind {
        self.0
    }
}

impl fmt::Display for ParseError {
    fn fmt(&self, f: &mut fmt::Formatter<'_>) -> fmt::Result {
        f.write_str(match self.0 {
            ParseErrorKind::OutOfRange => "input is out of range",
            ParseErrorKind::Impossible => "no possible date and time matching input",
            ParseErrorKind::NotEnough => "input is not enough for unique date and time",
            ParseErrorKind::Invalid => "input contains invalid characters",
            ParseErrorKind::TooShort => "premature end of input",
            ParseErrorKind::TooLong => "trailing input",
            ParseErrorKind::BadFormat => "bad or unsupported format string",
        })
    }
}

impl Error for ParseError {}
