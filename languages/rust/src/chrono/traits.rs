//! What is asked of a value that has a date, and of one that has a time of day.

use super::{IsoWeek, Weekday};

/// The fields of a date. Each `with_` call changes one field, and returns `None` if there is no such value.
///
/// ```
/// use proved_calendar::chrono::{Datelike, NaiveDate};
/// let leap_day = NaiveDate::from_ymd_opt(2024, 2, 29).unwrap();
/// assert_eq!((leap_day.year(), leap_day.month0(), leap_day.ordinal()), (2024, 1, 60));
/// assert_eq!(leap_day.with_year(2023), None);
/// ```
pub trait Datelike: Sized {
    /// The year.
    fn year(&self) -> i32;

    /// The year as the common era counts it: whether it lies in that era, and its number from 1.
    fn year_ce(&self) -> (bool, u32) {
        let year = self.year();
        if year > 0 {
            (true, year as u32)
        } else {
            (false, 1_u32.wrapping_sub(year as u32))
        }
    }

    /// The quarter of the year, from 1 to 4.
    fn quarter(&self) -> u32 {
        self.month0() / 3 + 1
    }

    /// The month, from 1 for January to 12.
    fn month(&self) -> u32;

    /// The month, from 0 for January to 11.
    fn month0(&self) -> u32;

    /// The day of the month, from 1.
    fn day(&self) -> u32;

    /// The day of the month, from 0.
    fn day0(&self) -> u32;

    /// The day of the year, from 1.
    fn ordinal(&self) -> u32;

    /// The day of the year, from 0.
    fn ordinal0(&self) -> u32;

    /// The weekday.
    fn weekday(&self) -> Weekday;

    /// The week of ISO 8601, with the year that it belongs to.
    fn iso_week(&self) -> IsoWeek;

    /// The same with another year.
    fn with_year(&self, year: i32) -> Option<Self>;

    /// The same with another month, from 1.
    fn with_month(&self, month: u32) -> Option<Self>;

    /// The same with another month, from 0.
    fn with_month0(&self, month0: u32) -> Option<Self>;

    /// The same with another day of the month, from 1.
    fn with_day(&self, day: u32) -> Option<Self>;

    /// The same with another day of the month, from 0.
    fn with_day0(&self, day0: u32) -> Option<Self>;

    /// The same with another day of the year, from 1.
    fn with_ordinal(&self, ordinal: u32) -> Option<Self>;

    /// The same with another day of the year, from 0.
    fn with_ordinal0(&self, ordinal0: u32) -> Option<Self>;

    /// The day number, 1 for 1 January of year 1.
    fn num_days_from_ce(&self) -> i32 {
        let years = i64::from(self.year()) - 1;
        let leap_days = years.div_euclid(4) - years.div_euclid(100) + years.div_euclid(400);
        (365 * years + leap_days + i64::from(self.ordinal())) as i32
    }

    /// How many days the month has.
    ///
    /// # Panics
    ///
    /// If a type of one's own has a year or a month that there is not.
    fn num_days_in_month(&self) -> u8 {
        let days = crate::days_in_month(self.year(), self.month());
        days.expect("the year has dates and the month is from 1 to 12") as u8
    }
}

/// The fields of a time of day. Each `with_` call changes one field, and returns `None` if there is no such value.
///
/// In a leap second, `second` is that of the second before, and `nanosecond` is 1,000,000,000 or more.
///
/// ```
/// use proved_calendar::chrono::{NaiveTime, Timelike};
/// let time = NaiveTime::from_hms_opt(13, 5, 0).unwrap();
/// assert_eq!((time.hour(), time.hour12()), (13, (true, 1)));
/// assert_eq!(time.with_minute(60), None);
/// ```
pub trait Timelike: Sized {
    /// The hour, from 0 to 23.
    fn hour(&self) -> u32;

    /// Whether it is the afternoon, and the hour from 1 to 12.
    fn hour12(&self) -> (bool, u32) {
        let hour = self.hour();
        (hour >= 12, (hour + 11) % 12 + 1)
    }

    /// The minute, from 0 to 59.
    fn minute(&self) -> u32;

    /// The second, from 0 to 59.
    fn second(&self) -> u32;

    /// The nanoseconds past the second, from 0 to 1,999,999,999.
    fn nanosecond(&self) -> u32;

    /// The same with another hour.
    fn with_hour(&self, hour: u32) -> Option<Self>;

    /// The same with another minute.
    fn with_minute(&self, minute: u32) -> Option<Self>;

    /// The same with another second, from 0 to 59.
    fn with_second(&self, second: u32) -> Option<Self>;

    /// The same with other nanoseconds, from 0 to 1,999,999,999.
    fn with_nanosecond(&self, nanosecond: u32) -> Option<Self>;

    /// The second of the day, from 0 to 86,399.
    fn num_seconds_from_midnight(&self) -> u32 {
        self.hour() * 3_600 + self.minute() * 60 + self.second()
    }
}
