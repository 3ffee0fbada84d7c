//! Dates with no time zone.

use core::fmt;
use core::ops::{Add, AddAssign, Sub, SubAssign};
use core::str::FromStr;

use super::date_iter::{NaiveDateDaysIterator, NaiveDateWeeksIterator};
use super::format::{self, DelayedFormat, Parsed, StrftimeItems};
use super::{
    Datelike, IsoWeek, Months, NaiveDateTime, NaiveTime, NaiveWeek, ParseResult, TimeDelta,
};
use super::{ParseError, Weekday};
use crate::Date;

/// A number of days, by which dates move.
///
/// ```
/// use proved_calendar::chrono::{Days, NaiveDate};
/// let date = NaiveDate::from_ymd_opt(2024, 2, 28).unwrap();
/// assert_eq!((date + Days::new(2)).to_string(), "2024-03-01");
/// ```
#[derive(Clone, Copy, Debug, PartialEq, Eq, PartialOrd, Ord, Hash)]
pub struct Days(pub(super) u64);

impl Days {
    /// So many days.
    #[must_use]
    pub const fn new(number: u64) -> Days {
        Days(number)
    }

    /// The days to add, or, for a move back, to take away; `None` if no date lies so far.
    fn signed(self, sign: i64) -> Option<i64> {
        Some(sign * i64::try_from(self.0).ok()?)
    }
}

/// A date of the proleptic Gregorian calendar, from 1 January of year -262143 to 31 December of year 262142.
///
/// The year before year 1 is year 0 (ISO 8601). A date prints as `YYYY-MM-DD`. A year below 0 or above 9999 has a sign.
///
/// ```
/// use proved_calendar::chrono::{Datelike, NaiveDate, Weekday};
/// let leap_day = NaiveDate::from_ymd_opt(2024, 2, 29).unwrap();
/// assert_eq!(leap_day.weekday(), Weekday::Thu);
/// assert_eq!(NaiveDate::parse_from_str("29 Feb 2024", "%d %b %Y"), Ok(leap_day));
/// ```
#[repr(transparent)]
#[derive(Clone, Copy, PartialEq, Eq, PartialOrd, Ord, Hash)]
pub struct NaiveDate(pub(super) Date);

/// A call that panics where the call with `_opt` returns `None`, as chrono's older calls do.
macro_rules! or_panic {
    ($($(#[$about:meta])* $name:ident = $attempt:ident($($argument:ident: $kind:ty),*);)*) => {$(
        $(#[$about])*
        ///
        /// # Panics
        ///
        #[doc = concat!("Where [`", stringify!($attempt), "`](Self::", stringify!($attempt), ") returns `None`.")]
        #[deprecated(note = "it panics: use the call with `_opt`")]
        #[must_use]
        pub fn $name($($argument: $kind),*) -> Self {
            Self::$attempt($($argument),*).expect(concat!("no value of ", stringify!($name)))
        }
    )*};
}
pub(super) use or_panic;

impl NaiveDate {
    /// The first date, 1 January of year -262143.
    pub const MIN: NaiveDate = NaiveDate(Date::MIN);

    /// The last date, 31 December of year 262142.
    pub const MAX: NaiveDate = NaiveDate(Date::MAX);

    or_panic! {
        /// The date with this year, month and day.
        from_ymd = from_ymd_opt(year: i32, month: u32, day: u32);
        /// The day `ordinal` of a year.
        from_yo = from_yo_opt(year: i32, ordinal: u32);
        /// The date with this ISO year, week and weekday.
        from_isoywd = from_isoywd_opt(year: i32, week: u32, weekday: Weekday);
        /// The date with a day number.
        from_num_days_from_ce = from_num_days_from_ce_opt(days: i32);
        /// The `n`-th such weekday of a month.
        from_weekday_of_month = from_weekday_of_month_opt(year: i32, month: u32, weekday: Weekday, n: u8);
    }

    /// The date with this year, month and day; `None` if it does not exist.
    #[must_use]
    pub fn from_ymd_opt(year: i32, month: u32, day: u32) -> Option<NaiveDate> {
        Date::from_ymd(year, month, day).map(NaiveDate)
    }

    /// The day `ordinal` of a year, from 1; `None` if it does not exist.
    #[must_use]
    pub fn from_yo_opt(year: i32, ordinal: u32) -> Option<NaiveDate> {
        Date::from_yo(year, ordinal).map(NaiveDate)
    }

    /// The date with this ISO year, week and weekday; `None` if it does not exist.
    #[must_use]
    pub fn from_isoywd_opt(year: i32, week: u32, weekday: Weekday) -> Option<NaiveDate> {
        Date::from_isoywd(year, week, weekday.counted()).map(NaiveDate)
    }

    /// The date with a day number, 1 for 1 January of year 1; `None` if there is none.
    #[must_use]
    pub const fn from_num_days_from_ce_opt(days: i32) -> Option<NaiveDate> {
        match Date::from_number(days) {
            Some(date) => Some(NaiveDate(date)),
            None => None,
        }
    }

    /// The date so many days after 1 January 1970; `None` if there is none.
    #[must_use]
    pub const fn from_epoch_days(days: i32) -> Option<NaiveDate> {
        match days.checked_add(Date::UNIX_EPOCH.number()) {
            Some(number) => NaiveDate::from_num_days_from_ce_opt(number),
            None => None,
        }
    }

    /// The `n`-th such weekday of a month, from 1; `None` if the month has fewer.
    #[must_use]
    pub fn from_weekday_of_month_opt(
        year: i32,
        month: u32,
        weekday: Weekday,
        n: u8,
    ) -> Option<NaiveDate> {
        Date::from_weekday_of_month(year, month, weekday.counted(), u32::from(n)).map(NaiveDate)
    }

    /// The date that a text gives by a pattern of `format::strftime`. Times and offsets in it count for nothing.
    ///
    /// # Errors
    ///
    /// If the text does not fit the pattern, or gives no date.
    pub fn parse_from_str(text: &str, pattern: &str) -> ParseResult<NaiveDate> {
        Parsed::of(text, pattern)?.to_naive_date()
    }

    /// The same for the beginning of a text, with the rest of it.
    ///
    /// # Errors
    ///
    /// If no beginning of the text fits the pattern, or if it gives no date.
    pub fn parse_and_remainder<'a>(
        text: &'a str,
        pattern: &str,
    ) -> ParseResult<(NaiveDate, &'a str)> {
        let (fields, rest) = Parsed::of_beginning(text, pattern)?;
        Ok((fields.to_naive_date()?, rest))
    }

    /// The same day so many months later, or the last day of a shorter month; `None` if it is out of range.
    #[must_use]
    pub fn checked_add_months(self, months: Months) -> Option<NaiveDate> {
        self.0
            .checked_add_months(i64::from(months.0))
            .map(NaiveDate)
    }

    /// The same day so many months earlier, or the last day of a shorter month; `None` if it is out of range.
    #[must_use]
    pub fn checked_sub_months(self, months: Months) -> Option<NaiveDate> {
        self.0
            .checked_add_months(-i64::from(months.0))
            .map(NaiveDate)
    }

    /// The date so many days later; `None` if it is out of range.
    #[must_use]
    pub fn checked_add_days(self, days: Days) -> Option<NaiveDate> {
        self.moved(days.signed(1)?)
    }

    /// The date so many days earlier; `None` if it is out of range.
    #[must_use]
    pub fn checked_sub_days(self, days: Days) -> Option<NaiveDate> {
        self.moved(days.signed(-1)?)
    }

    /// The date so many days later, or earlier if they are negative; `None` if it is out of range.
    pub(super) fn moved(self, days: i64) -> Option<NaiveDate> {
        self.0.checked_add_days(days).map(NaiveDate)
    }

    /// The date the whole days of a length later; `None` if it is out of range.
    #[must_use]
    pub fn checked_add_signed(self, length: TimeDelta) -> Option<NaiveDate> {
        self.moved(length.num_days())
    }

    /// The date the whole days of a length earlier; `None` if it is out of range.
    #[must_use]
    pub fn checked_sub_signed(self, length: TimeDelta) -> Option<NaiveDate> {
        self.moved(-length.num_days())
    }

    /// The days from another date to this one, as a length of time.
    #[must_use]
    pub fn signed_duration_since(self, base: NaiveDate) -> TimeDelta {
        TimeDelta::days(i64::from(self.0 - base.0))
    }

    /// The days between two dates.
    #[must_use]
    pub fn abs_diff(self, other: NaiveDate) -> Days {
        Days(u64::from((self.0 - other.0).unsigned_abs()))
    }

    /// The whole years from another date to this one; `None` if this date comes before it.
    #[must_use]
    pub fn years_since(&self, base: NaiveDate) -> Option<u32> {
        self.0.years_since(base.0)
    }

    /// The next date; `None` for the last one.
    #[must_use]
    pub fn succ_opt(&self) -> Option<NaiveDate> {
        self.moved(1)
    }

    /// The date before; `None` for the first one.
    #[must_use]
    pub fn pred_opt(&self) -> Option<NaiveDate> {
        self.moved(-1)
    }

    /// The next date.
    ///
    /// # Panics
    ///
    /// For the last date.
    #[deprecated(note = "it panics: use `succ_opt`")]
    #[must_use]
    pub fn succ(&self) -> NaiveDate {
        self.succ_opt().expect("no date is after the last one")
    }

    /// The date before.
    ///
    /// # Panics
    ///
    /// For the first date.
    #[deprecated(note = "it panics: use `pred_opt`")]
    #[must_use]
    pub fn pred(&self) -> NaiveDate {
        self.pred_opt().expect("no date is before the first one")
    }

    /// The days from 1 January 1970 to this date.
    #[must_use]
    pub const fn to_epoch_days(&self) -> i32 {
        self.0.number() - Date::UNIX_EPOCH.number()
    }

    /// Whether the year has 366 days.
    #[must_use]
    pub fn leap_year(&self) -> bool {
        crate::is_leap_year(self.0.year())
    }

    /// The dates from this one on, day by day, up to [`NaiveDate::MAX`].
    pub fn iter_days(&self) -> NaiveDateDaysIterator {
        NaiveDateDaysIterator::from(*self)
    }

    /// The dates from this one on, week by week, up to the last that has a date a week later.
    pub fn iter_weeks(&self) -> NaiveDateWeeksIterator {
        NaiveDateWeeksIterator::from(*self)
    }

    /// The week of this date, where weeks begin on `start`.
    #[must_use]
    pub const fn week(&self, start: Weekday) -> NaiveWeek {
        NaiveWeek::new(*self, start)
    }

    /// The text by a pattern of `format::strftime`. A wrong pattern shows when the text is printed.
    #[must_use]
    pub fn format<'a>(&self, pattern: &'a str) -> DelayedFormat<StrftimeItems<'a>> {
        self.format_with_items(StrftimeItems::new(pattern))
    }

    /// The text by items.
    #[must_use]
    pub fn format_with_items<I>(&self, items: I) -> DelayedFormat<I> {
        DelayedFormat::new(Some(*self), None, items)
    }
}

/// Two calls for each precision: a date with a time of day.
macro_rules! at_time {
    ($(($attempt:ident, $name:ident, $of_time:ident, [$($part:ident),*], $about:literal)),*) => {
        /// Times of a date.
        impl NaiveDate {$(
            #[doc = concat!("This date with ", $about, "; `None` if there is no such time.")]
            #[must_use]
            pub fn $attempt(&self, hour: u32, minute: u32, second: u32 $(, $part: u32)*) -> Option<NaiveDateTime> {
                Some(self.and_time(NaiveTime::$of_time(hour, minute, second $(, $part)*)?))
            }

            #[doc = concat!("This date with ", $about, ".")]
            ///
            /// # Panics
            ///
            /// If there is no such time.
            #[deprecated(note = "it panics: use the call with `_opt`")]
            #[must_use]
            pub fn $name(&self, hour: u32, minute: u32, second: u32 $(, $part: u32)*) -> NaiveDateTime {
                self.$attempt(hour, minute, second $(, $part)*).expect("no such time of day")
            }
        )*}
    };
}

at_time!(
    (
        and_hms_opt,
        and_hms,
        from_hms_opt,
        [],
        "an hour, a minute and a second"
    ),
    (
        and_hms_milli_opt,
        and_hms_milli,
        from_hms_milli_opt,
        [milli],
        "an hour, a minute, a second and milliseconds"
    ),
    (
        and_hms_micro_opt,
        and_hms_micro,
        from_hms_micro_opt,
        [micro],
        "an hour, a minute, a second and microseconds"
    ),
    (
        and_hms_nano_opt,
        and_hms_nano,
        from_hms_nano_opt,
        [nano],
        "an hour, a minute, a second and nanoseconds"
    )
);

impl NaiveDate {
    /// This date with a time of day.
    #[must_use]
    pub const fn and_time(&self, time: NaiveTime) -> NaiveDateTime {
        NaiveDateTime::new(*self, time)
    }
}

impl Datelike for NaiveDate {
    fn year(&self) -> i32 {
        self.0.year()
    }

    fn month(&self) -> u32 {
        self.0.month()
    }

    fn month0(&self) -> u32 {
        self.month() - 1
    }

    fn day(&self) -> u32 {
        self.0.day()
    }

    fn day0(&self) -> u32 {
        self.day() - 1
    }

    fn ordinal(&self) -> u32 {
        self.0.ordinal()
    }

    fn ordinal0(&self) -> u32 {
        self.ordinal() - 1
    }

    fn weekday(&self) -> Weekday {
        self.0.weekday().into()
    }

    fn iso_week(&self) -> IsoWeek {
        IsoWeek::of(self.0)
    }

    fn with_year(&self, year: i32) -> Option<NaiveDate> {
        NaiveDate::from_ymd_opt(year, self.month(), self.day())
    }

    fn with_month(&self, month: u32) -> Option<NaiveDate> {
        NaiveDate::from_ymd_opt(self.year(), month, self.day())
    }

    fn with_month0(&self, month0: u32) -> Option<NaiveDate> {
        self.with_month(month0.checked_add(1)?)
    }

    fn with_day(&self, day: u32) -> Option<NaiveDate> {
        NaiveDate::from_ymd_opt(self.year(), self.month(), day)
    }

    fn with_day0(&self, day0: u32) -> Option<NaiveDate> {
        self.with_day(day0.checked_add(1)?)
    }

    fn with_ordinal(&self, ordinal: u32) -> Option<NaiveDate> {
        NaiveDate::from_yo_opt(self.year(), ordinal)
    }

    fn with_ordinal0(&self, ordinal0: u32) -> Option<NaiveDate> {
        self.with_ordinal(ordinal0.checked_add(1)?)
    }

    fn num_days_from_ce(&self) -> i32 {
        self.0.number()
    }
}

/// An operator by the call that returns `None` where the operator panics.
macro_rules! by_call {
    ($($sign:ident $name:ident ($other:ty) for $kind:ty, $call:ident, $sentence:literal;)*) => {$(
        #[doc = concat!("The value of `", stringify!($call), "`. It panics where that is `None`.")]
        impl $sign<$other> for $kind {
            type Output = $kind;

            fn $name(self, by: $other) -> $kind {
                self.$call(by).expect($sentence)
            }
        }
    )*};
}
pub(super) use by_call;

by_call! {
    Add add(TimeDelta) for NaiveDate, checked_add_signed, "`NaiveDate + TimeDelta` overflowed";
    Sub sub(TimeDelta) for NaiveDate, checked_sub_signed, "`NaiveDate - TimeDelta` overflowed";
    Add add(Months) for NaiveDate, checked_add_months, "`NaiveDate + Months` out of range";
    Sub sub(Months) for NaiveDate, checked_sub_months, "`NaiveDate - Months` out of range";
    Add add(Days) for NaiveDate, checked_add_days, "`NaiveDate + Days` out of range";
    Sub sub(Days) for NaiveDate, checked_sub_days, "`NaiveDate - Days` out of range";
}

impl AddAssign<TimeDelta> for NaiveDate {
    fn add_assign(&mut self, by: TimeDelta) {
        *self = *self + by;
    }
}

impl SubAssign<TimeDelta> for NaiveDate {
    fn sub_assign(&mut self, by: TimeDelta) {
        *self = *self - by;
    }
}

impl Sub for NaiveDate {
    type Output = TimeDelta;

    fn sub(self, base: NaiveDate) -> TimeDelta {
        self.signed_duration_since(base)
    }
}

/// 1 January 1970.
impl Default for NaiveDate {
    fn default() -> NaiveDate {
        NaiveDate(Date::UNIX_EPOCH)
    }
}

impl From<Date> for NaiveDate {
    fn from(date: Date) -> NaiveDate {
        NaiveDate(date)
    }
}

impl From<NaiveDate> for Date {
    fn from(date: NaiveDate) -> Date {
        date.0
    }
}

impl From<NaiveDateTime> for NaiveDate {
    fn from(moment: NaiveDateTime) -> NaiveDate {
        moment.date()
    }
}

impl fmt::Display for NaiveDate {
    fn fmt(&self, f: &mut fmt::Formatter<'_>) -> fmt::Result {
        write!(f, "{}", self.0)
    }
}

impl fmt::Debug for NaiveDate {
    fn fmt(&self, f: &mut fmt::Formatter<'_>) -> fmt::Result {
        fmt::Display::fmt(self, f)
    }
}

/// Reads a year, a month and a day with `-` between them; spaces may stand around each.
impl FromStr for NaiveDate {
    type Err = ParseError;

    fn from_str(text: &str) -> ParseResult<NaiveDate> {
        if let Ok(date) = text.parse::<Date>() {
            return Ok(NaiveDate(date));
        }
        format::read(text, &[format::DATE_ITEMS, format::END_ITEMS])?.to_naive_date()
    }
}
