//! Dates, and what is asked of years and months.

use core::fmt;
use core::ops::Sub;
use core::str::{from_utf8, FromStr};

use crate::calls::*;
use crate::{DateTime, ParseError, Weekday, WeekdaySet};

/// The number of bytes of the longest text of a date, such as `-262143-01-01`.
const TEXT_ROOM: usize = 13;

/// A date of the proleptic Gregorian calendar, from 1 January of year -262143 to 31 December of year 262142.
///
/// The year before year 1 is year 0 (ISO 8601). In memory a date is its day number, an `i32`, by which it is compared and
/// hashed. It is printed and read as `YYYY-MM-DD`. A year below 0 or above 9999 has a sign and at least four digits.
///
/// ```
/// use proved_calendar::Date;
/// let date: Date = "2024-02-29".parse().unwrap();
/// assert_eq!((date.year(), date.month(), date.day()), (2024, 2, 29));
/// assert_eq!(size_of::<Date>(), 4);
/// ```
#[repr(transparent)]
#[derive(Clone, Copy, PartialEq, Eq, PartialOrd, Ord, Hash)]
pub struct Date {
    /// The day number, from `MIN` to `MAX`.
    number: i32,
}

impl Date {
    /// The first date, 1 January of year -262143.
    ///
    /// ```
    /// assert_eq!(proved_calendar::Date::MIN.to_string(), "-262143-01-01");
    /// ```
    pub const MIN: Date = Date { number: MIN };

    /// The last date, 31 December of year 262142.
    ///
    /// ```
    /// assert_eq!(proved_calendar::Date::MAX.to_string(), "+262142-12-31");
    /// ```
    pub const MAX: Date = Date { number: MAX };

    /// 1 January 1970.
    ///
    /// ```
    /// assert_eq!(proved_calendar::Date::UNIX_EPOCH.to_string(), "1970-01-01");
    /// ```
    pub const UNIX_EPOCH: Date = Date { number: UNIX_EPOCH };

    /// The date that a function of the library returns.
    const fn found(number: i32) -> Option<Date> {
        if number == NONE {
            None
        } else {
            Some(Date { number })
        }
    }

    /// The date with this year, month and day (ISO 8601 calendar date). `None` if it does not exist.
    ///
    /// ```
    /// use proved_calendar::Date;
    /// assert_eq!(Date::from_ymd(2024, 2, 29).unwrap().number(), 738_945);
    /// assert_eq!(Date::from_ymd(2023, 2, 29), None);
    /// ```
    #[must_use]
    pub fn from_ymd(year: i32, month: u32, day: u32) -> Option<Date> {
        Date::found(calendar_from_ymd(year, month, day))
    }

    /// The day `ordinal` of `year`, from 1 to 366 (ISO 8601 ordinal date). `None` if it does not exist.
    ///
    /// ```
    /// use proved_calendar::Date;
    /// assert_eq!(Date::from_yo(2024, 60), Date::from_ymd(2024, 2, 29));
    /// assert_eq!(Date::from_yo(2023, 366), None);
    /// ```
    #[must_use]
    pub fn from_yo(year: i32, ordinal: u32) -> Option<Date> {
        Date::found(calendar_from_yo(year, ordinal))
    }

    /// The date with this ISO year, week and weekday (ISO 8601 week date). `None` if it does not exist.
    ///
    /// ```
    /// use proved_calendar::{Date, Weekday};
    /// assert_eq!(Date::from_isoywd(2024, 9, Weekday::Thu), Date::from_ymd(2024, 2, 29));
    /// assert_eq!(Date::from_isoywd(2024, 53, Weekday::Mon), None);
    /// ```
    #[must_use]
    pub fn from_isoywd(year: i32, week: u32, weekday: Weekday) -> Option<Date> {
        Date::found(calendar_from_isoywd(year, week, weekday.number()))
    }

    /// The `n`-th such weekday of the month, counted from 1. `None` if the month has fewer.
    ///
    /// ```
    /// use proved_calendar::{Date, Weekday};
    /// assert_eq!(Date::from_weekday_of_month(2024, 2, Weekday::Thu, 5), Date::from_ymd(2024, 2, 29));
    /// assert_eq!(Date::from_weekday_of_month(2024, 2, Weekday::Fri, 5), None);
    /// ```
    #[must_use]
    pub fn from_weekday_of_month(year: i32, month: u32, weekday: Weekday, n: u32) -> Option<Date> {
        Date::found(calendar_from_weekday_of_month(
            year,
            month,
            weekday.number(),
            n,
        ))
    }

    /// The date with a day number, 1 being 1 January of year 1; `None` beyond [`Date::MIN`] and [`Date::MAX`].
    ///
    /// ```
    /// use proved_calendar::Date;
    /// assert_eq!(Date::from_number(719_163), Some(Date::UNIX_EPOCH));
    /// assert_eq!(Date::from_number(i32::MAX), None);
    /// ```
    #[must_use]
    pub const fn from_number(number: i32) -> Option<Date> {
        if MIN <= number && number <= MAX {
            Some(Date { number })
        } else {
            None
        }
    }

    /// The day number, 1 for 1 January of year 1.
    ///
    /// ```
    /// use proved_calendar::Date;
    /// assert_eq!(Date::from_ymd(1, 1, 1).unwrap().number(), 1);
    /// ```
    #[must_use]
    pub const fn number(self) -> i32 {
        self.number
    }

    /// The year, from -262143 to 262142.
    ///
    /// ```
    /// use proved_calendar::Date;
    /// assert_eq!(Date::from_number(0).unwrap().year(), 0);
    /// ```
    #[must_use]
    pub fn year(self) -> i32 {
        calendar_year(self.number())
    }

    /// The month, from 1 for January to 12.
    ///
    /// ```
    /// assert_eq!(proved_calendar::Date::MAX.month(), 12);
    /// ```
    #[must_use]
    pub fn month(self) -> u32 {
        calendar_month(self.number()) as u32
    }

    /// The day of the month, from 1 to 31.
    ///
    /// ```
    /// assert_eq!(proved_calendar::Date::MAX.day(), 31);
    /// ```
    #[must_use]
    pub fn day(self) -> u32 {
        calendar_day(self.number()) as u32
    }

    /// The year, the month and the day of the month, by one conversion.
    ///
    /// ```
    /// use proved_calendar::Date;
    /// assert_eq!(Date::from_ymd(2024, 2, 29).unwrap().year_month_day(), (2024, 2, 29));
    /// ```
    #[must_use]
    pub fn year_month_day(self) -> (i32, u32, u32) {
        let found = calendar_split(self.number());
        (found.year, u32::from(found.month), u32::from(found.day))
    }

    /// The day of the year, from 1 to 366.
    ///
    /// ```
    /// use proved_calendar::Date;
    /// assert_eq!(Date::from_ymd(2024, 12, 31).unwrap().ordinal(), 366);
    /// ```
    #[must_use]
    pub fn ordinal(self) -> u32 {
        calendar_ordinal(self.number()) as u32
    }

    /// The weekday.
    ///
    /// ```
    /// use proved_calendar::{Date, Weekday};
    /// assert_eq!(Date::UNIX_EPOCH.weekday(), Weekday::Thu);
    /// ```
    #[must_use]
    pub fn weekday(self) -> Weekday {
        Weekday::ALL[calendar_weekday(self.number()) as usize - 1]
    }

    /// The year of the ISO week, from -262143 to 262143: that of its Thursday.
    ///
    /// ```
    /// use proved_calendar::Date;
    /// assert_eq!(Date::from_ymd(2024, 12, 30).unwrap().iso_year(), 2025);
    /// ```
    #[must_use]
    pub fn iso_year(self) -> i32 {
        calendar_iso_year(self.number())
    }

    /// The ISO week, from 1 to 53.
    ///
    /// ```
    /// use proved_calendar::Date;
    /// assert_eq!(Date::from_ymd(2024, 12, 30).unwrap().iso_week(), 1);
    /// ```
    #[must_use]
    pub fn iso_week(self) -> u32 {
        calendar_iso_week(self.number()) as u32
    }

    /// The date `days` days later, or earlier if `days` is negative. `None` if it is out of range.
    ///
    /// ```
    /// use proved_calendar::Date;
    /// assert_eq!(Date::UNIX_EPOCH.checked_add_days(-1), Date::from_ymd(1969, 12, 31));
    /// assert_eq!(Date::MAX.checked_add_days(1), None);
    /// ```
    #[must_use]
    pub fn checked_add_days(self, days: i64) -> Option<Date> {
        Date::found(calendar_add_days(self.number(), days))
    }

    /// The same day `months` months later, or earlier if `months` is negative. If that month is too short, its last
    /// day. `None` if it is out of range.
    ///
    /// ```
    /// use proved_calendar::Date;
    /// let last = Date::from_ymd(2024, 1, 31).unwrap();
    /// assert_eq!(last.checked_add_months(1), Date::from_ymd(2024, 2, 29));
    /// ```
    #[must_use]
    pub fn checked_add_months(self, months: i64) -> Option<Date> {
        Date::found(calendar_add_months(self.number(), months))
    }

    /// The date `index * months` months later in one move, so that a 31st comes back after a shorter month. `None` if
    /// it is out of range.
    ///
    /// ```
    /// use proved_calendar::Date;
    /// let start = Date::from_ymd(2024, 1, 31).unwrap();
    /// let dates = [0, 1, 2].map(|index| start.every_months(1, index).unwrap().day());
    /// assert_eq!(dates, [31, 29, 31]);
    /// ```
    #[must_use]
    pub fn every_months(self, months: i32, index: u32) -> Option<Date> {
        Date::found(calendar_every_months(self.number(), months, index))
    }

    /// The whole years from `base` to this date. `None` if this date is before `base`.
    ///
    /// ```
    /// use proved_calendar::Date;
    /// let born = Date::from_ymd(2000, 2, 29).unwrap();
    /// assert_eq!(Date::from_ymd(2023, 2, 28).unwrap().years_since(born), Some(22));
    /// assert_eq!(born.years_since(Date::MAX), None);
    /// ```
    #[must_use]
    pub fn years_since(self, base: Date) -> Option<u32> {
        let years = calendar_years_since(self.number(), base.number());
        (years != NONE).then_some(years as u32)
    }

    /// The first day of the date's week, where weeks begin on `start`; `None` if it is before [`Date::MIN`].
    ///
    /// ```
    /// use proved_calendar::{Date, Weekday};
    /// let date = Date::from_ymd(2024, 2, 29).unwrap();
    /// assert_eq!(date.week_first_day(Weekday::Mon), Date::from_ymd(2024, 2, 26));
    /// ```
    #[must_use]
    pub fn week_first_day(self, start: Weekday) -> Option<Date> {
        Date::found(calendar_week_first_day(self.number(), start.number()))
    }

    /// The first date from this one on whose weekday is in `weekdays`; it may be this date. `None` if there is none.
    ///
    /// ```
    /// use proved_calendar::{Date, Weekday};
    /// let date = Date::from_ymd(2024, 2, 29).unwrap();
    /// assert_eq!(date.first_on([Weekday::Mon, Weekday::Sun].into()), Date::from_ymd(2024, 3, 3));
    /// ```
    #[must_use]
    pub fn first_on(self, weekdays: WeekdaySet) -> Option<Date> {
        Date::found(calendar_first_on(self.number(), weekdays.members))
    }

    /// The date-time at this date and time of day. Second 60 is a leap second. `None` if the time is invalid.
    ///
    /// ```
    /// use proved_calendar::Date;
    /// let date = Date::from_ymd(2016, 12, 31).unwrap();
    /// assert_eq!(date.at(23, 59, 60, 0).unwrap().to_string(), "2016-12-31T23:59:60");
    /// assert_eq!(date.at(24, 0, 0, 0), None);
    /// ```
    #[must_use]
    pub fn at(self, hour: u32, minute: u32, second: u32, nanosecond: u32) -> Option<DateTime> {
        DateTime::from_clock(self, hour, minute, second, nanosecond)
    }
}

/// The days from the right date to the left one, at most 191,491,528 either way.
///
/// ```
/// use proved_calendar::Date;
/// assert_eq!(Date::MAX - Date::MIN, 191_491_528);
/// ```
impl Sub for Date {
    type Output = i32;

    fn sub(self, base: Date) -> i32 {
        self.number() - base.number()
    }
}

impl fmt::Display for Date {
    fn fmt(&self, f: &mut fmt::Formatter<'_>) -> fmt::Result {
        let mut room = [0; TEXT_ROOM];
        // SAFETY: so many bytes lie in the array.
        let length = unsafe { calendar_write_date(self.number(), room.as_mut_ptr(), TEXT_ROOM) };
        f.pad(from_utf8(&room[..length as usize]).map_err(|_| fmt::Error)?)
    }
}

impl fmt::Debug for Date {
    fn fmt(&self, f: &mut fmt::Formatter<'_>) -> fmt::Result {
        fmt::Display::fmt(self, f)
    }
}

impl FromStr for Date {
    type Err = ParseError;

    /// The date with exactly this text, as `Display` prints it.
    fn from_str(text: &str) -> Result<Date, ParseError> {
        // SAFETY: so many bytes lie in the text.
        let number = unsafe { calendar_read_date(text.as_ptr(), text.len()) };
        Date::found(number).ok_or(ParseError { kind: "date" })
    }
}

/// Whether a year, which may lie beyond those of dates, has 366 days.
///
/// ```
/// assert!(proved_calendar::is_leap_year(2024));
/// assert!(!proved_calendar::is_leap_year(1900));
/// ```
#[must_use]
pub fn is_leap_year(year: i32) -> bool {
    calendar_is_leap_year(year)
}

/// The days of a month from 1 to 12; `None` if there is no such month, or the year has no dates.
///
/// ```
/// assert_eq!(proved_calendar::days_in_month(2024, 2), Some(29));
/// assert_eq!(proved_calendar::days_in_month(2024, 13), None);
/// ```
#[must_use]
pub fn days_in_month(year: i32, month: u32) -> Option<u32> {
    let days = calendar_days_in_month(year, month);
    (days != NONE).then_some(days as u32)
}
