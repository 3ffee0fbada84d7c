//! Dates with a time of day.

use core::fmt;
use core::num::NonZeroU32;
use core::ops::Sub;
use core::str::{from_utf8, FromStr};

use crate::calls::*;
use crate::{Date, Duration, ParseError};

/// The nanoseconds of a second.
const NANOS: u32 = 1_000_000_000;

/// The number of bytes of the longest text of a date-time, such as `-262143-01-01T00:00:00.000000001`.
const TEXT_ROOM: usize = 32;

/// A date with a time of day, to the nanosecond, in no time zone.
///
/// The time may lie in a leap second, the second 60 of a minute. From there a move counts the rest of this leap second,
/// and no other leap second. Date-times are compared by date, then by time of day. `Option<DateTime>` is as small.
///
/// It prints as the date's text, `T` and `HH:MM:SS`. A fraction that is not 0 has three, six or nine digits. A string that
/// is parsed may have a space for the `T`, and one to nine digits of a fraction.
///
/// ```
/// use proved_calendar::DateTime;
/// let leap_second: DateTime = "2016-12-31T23:59:60.5".parse().unwrap();
/// assert_eq!((leap_second.second(), leap_second.nanosecond()), (60, 500_000_000));
/// assert_eq!(size_of::<Option<DateTime>>(), size_of::<DateTime>());
/// ```
#[derive(Clone, Copy, PartialEq, Eq, PartialOrd, Ord, Hash)]
pub struct DateTime {
    seconds: i64,
    /// One more than the nanoseconds past the seconds, so that there is a number for none.
    after: NonZeroU32,
}

impl DateTime {
    /// The date-time that a function of the library returns.
    pub(crate) fn found(moment: Moment) -> Option<DateTime> {
        let after = NonZeroU32::new(moment.nanos.wrapping_sub(NO_NANOS))?;
        Some(DateTime {
            seconds: moment.seconds,
            after,
        })
    }

    /// The date-time as the library takes it.
    pub(crate) const fn moment(self) -> Moment {
        Moment {
            seconds: self.seconds,
            nanos: self.nanos(),
        }
    }

    /// The date-time at a second of a date, from 0 to 86,399, and `nanos` nanoseconds past it. In the last second of a
    /// minute, 1,000,000,000 and more lie in the leap second that follows. `None` if the time is invalid.
    ///
    /// ```
    /// use proved_calendar::{Date, DateTime};
    /// assert_eq!(DateTime::new(Date::UNIX_EPOCH, 86_399, 0).unwrap().to_string(), "1970-01-01T23:59:59");
    /// assert_eq!(DateTime::new(Date::UNIX_EPOCH, 86_400, 0), None);
    /// ```
    #[must_use]
    pub fn new(date: Date, second_of_day: u32, nanos: u32) -> Option<DateTime> {
        DateTime::found(calendar_date_time_new(date.number(), second_of_day, nanos))
    }

    /// The same by what a clock shows, 60 being the leap second that follows 59.
    pub(crate) fn from_clock(
        date: Date,
        hour: u32,
        minute: u32,
        second: u32,
        nanosecond: u32,
    ) -> Option<DateTime> {
        if hour >= 24 || minute >= 60 || second > 60 || nanosecond >= NANOS {
            return None;
        }
        let leap = second / 60;
        DateTime::new(
            date,
            3_600 * hour + 60 * minute + second - leap,
            nanosecond + leap * NANOS,
        )
    }

    /// The date-time `seconds` seconds after 1970-01-01T00:00:00, leap seconds not counted, and `nanos` nanoseconds past
    /// that. 1,000,000,000 nanoseconds and more lie in the leap second that follows. `None` if there is none.
    ///
    /// ```
    /// use proved_calendar::DateTime;
    /// let leap_second = DateTime::from_seconds(1_483_228_799, 1_500_000_000).unwrap();
    /// assert_eq!(leap_second.to_string(), "2016-12-31T23:59:60.500");
    /// assert_eq!(DateTime::from_seconds(0, 1_500_000_000), None);
    /// ```
    #[must_use]
    pub fn from_seconds(seconds: i64, nanos: u32) -> Option<DateTime> {
        let moment = Moment { seconds, nanos };
        if calendar_date_time_date(moment) == NONE {
            return None;
        }
        DateTime::found(moment)
    }

    /// The seconds since 1970-01-01T00:00:00, leap seconds not counted.
    ///
    /// ```
    /// use proved_calendar::Date;
    /// assert_eq!(Date::UNIX_EPOCH.at(0, 1, 0, 0).unwrap().seconds(), 60);
    /// ```
    #[must_use]
    pub const fn seconds(self) -> i64 {
        self.seconds
    }

    /// The nanoseconds past the seconds; 1,000,000,000 and more lie in the leap second that follows.
    ///
    /// ```
    /// use proved_calendar::Date;
    /// assert_eq!(Date::UNIX_EPOCH.at(0, 0, 60, 5).unwrap().nanos(), 1_000_000_005);
    /// ```
    #[must_use]
    pub const fn nanos(self) -> u32 {
        self.after.get() - 1
    }

    /// The date.
    ///
    /// ```
    /// use proved_calendar::Date;
    /// assert_eq!(Date::MIN.at(0, 0, 0, 0).unwrap().date(), Date::MIN);
    /// ```
    #[must_use]
    pub fn date(self) -> Date {
        let number = calendar_date_time_date(self.moment());
        Date::from_number(number).expect("a date-time has a date")
    }

    /// The second of the day, from 0 to 86,399. In a leap second it is the second before.
    ///
    /// ```
    /// use proved_calendar::Date;
    /// assert_eq!(Date::MIN.at(1, 0, 1, 0).unwrap().second_of_day(), 3_601);
    /// ```
    #[must_use]
    pub fn second_of_day(self) -> u32 {
        calendar_date_time_second_of_day(self.moment()) as u32
    }

    /// The hour, from 0 to 23.
    ///
    /// ```
    /// use proved_calendar::Date;
    /// assert_eq!(Date::MIN.at(23, 0, 0, 0).unwrap().hour(), 23);
    /// ```
    #[must_use]
    pub fn hour(self) -> u32 {
        self.second_of_day() / 3_600
    }

    /// The minute, from 0 to 59.
    ///
    /// ```
    /// use proved_calendar::Date;
    /// assert_eq!(Date::MIN.at(23, 7, 0, 0).unwrap().minute(), 7);
    /// ```
    #[must_use]
    pub fn minute(self) -> u32 {
        self.second_of_day() / 60 % 60
    }

    /// The second, from 0 to 59; 60 in a leap second.
    ///
    /// ```
    /// use proved_calendar::Date;
    /// assert_eq!(Date::MIN.at(23, 59, 60, 0).unwrap().second(), 60);
    /// ```
    #[must_use]
    pub fn second(self) -> u32 {
        self.second_of_day() % 60 + self.nanos() / NANOS
    }

    /// The nanoseconds past the second that a clock shows, from 0 to 999,999,999.
    ///
    /// ```
    /// use proved_calendar::Date;
    /// assert_eq!(Date::MIN.at(23, 59, 60, 5).unwrap().nanosecond(), 5);
    /// ```
    #[must_use]
    pub fn nanosecond(self) -> u32 {
        self.nanos() % NANOS
    }

    /// The date-time that lies `by` later, or earlier if `by` is negative. `None` if it is out of range.
    ///
    /// ```
    /// use proved_calendar::{Date, Duration};
    /// let midnight = Date::UNIX_EPOCH.at(0, 0, 0, 0).unwrap();
    /// let later = midnight.checked_add(Duration::from_seconds(90).unwrap());
    /// assert_eq!(later, Date::UNIX_EPOCH.at(0, 1, 30, 0));
    /// ```
    #[must_use]
    pub fn checked_add(self, by: Duration) -> Option<DateTime> {
        DateTime::found(calendar_date_time_add(self.moment(), by.span()))
    }

    /// The date-time that lies `by` earlier, or later if `by` is negative. `None` if it is out of range.
    ///
    /// ```
    /// use proved_calendar::{Date, Duration};
    /// let first = Date::MIN.at(0, 0, 0, 0).unwrap();
    /// assert_eq!(first.checked_sub(Duration::from_nanoseconds(1).unwrap()), None);
    /// ```
    #[must_use]
    pub fn checked_sub(self, by: Duration) -> Option<DateTime> {
        self.checked_add(-by)
    }
}

/// The duration from the right date-time to the left one. A leap second counts if one of them is in it and has the
/// smaller second of the day. So the sign tells the order of two times of one date, but not always of two dates. From
/// 2016-12-31T23:59:60.5 to 2017-01-01T00:00:00 it is -0.5 seconds.
///
/// ```
/// use proved_calendar::DateTime;
/// let [first, last] = ["1970-01-01T00:00:00", "1970-01-02T00:00:01.5"].map(|it| it.parse::<DateTime>().unwrap());
/// assert_eq!((last - first).to_string(), "PT86401.5S");
/// ```
impl Sub for DateTime {
    type Output = Duration;

    fn sub(self, base: DateTime) -> Duration {
        let span = calendar_date_time_since(self.moment(), base.moment());
        Duration::found(span).expect("two date-times are apart by a duration")
    }
}

impl fmt::Display for DateTime {
    fn fmt(&self, f: &mut fmt::Formatter<'_>) -> fmt::Result {
        let mut room = [0; TEXT_ROOM];
        // SAFETY: so many bytes lie in the array.
        let length =
            unsafe { calendar_write_date_time(self.moment(), room.as_mut_ptr(), TEXT_ROOM) };
        f.pad(from_utf8(&room[..length as usize]).map_err(|_| fmt::Error)?)
    }
}

impl fmt::Debug for DateTime {
    fn fmt(&self, f: &mut fmt::Formatter<'_>) -> fmt::Result {
        fmt::Display::fmt(self, f)
    }
}

impl FromStr for DateTime {
    type Err = ParseError;

    /// The date-time with this text.
    fn from_str(text: &str) -> Result<DateTime, ParseError> {
        // SAFETY: so many bytes lie in the text.
        let moment = unsafe { calendar_read_date_time(text.as_ptr(), text.len()) };
        DateTime::found(moment).ok_or(ParseError { kind: "date-time" })
    }
}
