//! Dates with a time of day and no time zone.

use core::fmt;
use core::ops::{Add, AddAssign, Sub, SubAssign};
use core::str::FromStr;
use core::time::Duration as StdDuration;

use super::date::by_call;
use super::format::{self, DelayedFormat, Parsed, StrftimeItems};
use super::time::{write_moment, DAY, NANOS};
use super::{
    DateTime, Datelike, Days, FixedOffset, IsoWeek, MappedLocalTime, Months, NaiveDate, NaiveTime,
};
use super::{ParseError, ParseResult, TimeDelta, TimeZone, Timelike, Utc, Weekday};
use crate::calls::*;

/// A date with a time of day, in no time zone. Date-times are compared by date, then by time of day.
///
/// From a leap second a move counts the rest of this leap second, and no other leap second.
///
/// ```
/// use proved_calendar::chrono::{NaiveDate, NaiveDateTime, TimeDelta};
/// let leap_second: NaiveDateTime = "2016-12-31T23:59:60.5".parse().unwrap();
/// assert_eq!((leap_second + TimeDelta::seconds(1)).to_string(), "2017-01-01 00:00:00.500");
/// assert_eq!(leap_second.date(), NaiveDate::from_ymd_opt(2016, 12, 31).unwrap());
/// ```
#[derive(Clone, Copy, PartialEq, Eq, PartialOrd, Ord, Hash)]
pub struct NaiveDateTime {
    date: NaiveDate,
    time: NaiveTime,
}

impl NaiveDateTime {
    /// The first date-time, midnight of [`NaiveDate::MIN`].
    pub const MIN: NaiveDateTime = NaiveDateTime::new(NaiveDate::MIN, NaiveTime::MIN);

    /// The last date-time that is in no leap second.
    pub const MAX: NaiveDateTime = NaiveDateTime::new(NaiveDate::MAX, NaiveTime::MAX);

    /// Midnight of 1 January 1970.
    pub const UNIX_EPOCH: NaiveDateTime =
        NaiveDateTime::new(NaiveDate(crate::Date::UNIX_EPOCH), NaiveTime::MIN);

    /// The date with the time.
    #[must_use]
    pub const fn new(date: NaiveDate, time: NaiveTime) -> NaiveDateTime {
        NaiveDateTime { date, time }
    }

    /// The date-time so many seconds after 1970-01-01T00:00:00, and nanoseconds past that.
    ///
    /// # Panics
    ///
    /// Where [`NaiveDateTime::from_timestamp_opt`] returns `None`.
    #[deprecated(note = "it panics: use `from_timestamp_opt`")]
    #[must_use]
    pub fn from_timestamp(seconds: i64, nanos: u32) -> NaiveDateTime {
        NaiveDateTime::from_timestamp_opt(seconds, nanos).expect("no such date-time")
    }

    /// The date-time so many seconds after 1970-01-01T00:00:00, leap seconds not counted, and nanoseconds past that.
    /// 1,000,000,000 nanoseconds and more lie in the leap second after the last second of a minute. `None` if there is
    /// none.
    #[must_use]
    pub fn from_timestamp_opt(seconds: i64, nanos: u32) -> Option<NaiveDateTime> {
        NaiveDateTime::found(Moment { seconds, nanos })
    }

    /// The date-time so many milliseconds after 1970-01-01T00:00:00; `None` if there is none.
    #[must_use]
    pub fn from_timestamp_millis(millis: i64) -> Option<NaiveDateTime> {
        let nanos = millis.rem_euclid(1_000) as u32 * 1_000_000;
        NaiveDateTime::from_timestamp_opt(millis.div_euclid(1_000), nanos)
    }

    /// The date-time so many microseconds after 1970-01-01T00:00:00; `None` if there is none.
    #[must_use]
    pub fn from_timestamp_micros(micros: i64) -> Option<NaiveDateTime> {
        let nanos = micros.rem_euclid(1_000_000) as u32 * 1_000;
        NaiveDateTime::from_timestamp_opt(micros.div_euclid(1_000_000), nanos)
    }

    /// The date-time so many nanoseconds after 1970-01-01T00:00:00; there is always one.
    #[must_use]
    pub fn from_timestamp_nanos(nanos: i64) -> Option<NaiveDateTime> {
        let rest = nanos.rem_euclid(1_000_000_000) as u32;
        NaiveDateTime::from_timestamp_opt(nanos.div_euclid(1_000_000_000), rest)
    }

    /// The date-time that the library returns.
    fn found(moment: Moment) -> Option<NaiveDateTime> {
        let date = crate::Date::from_number(calendar_date_time_date(moment))?;
        let second = calendar_date_time_second_of_day(moment) as u32;
        let time = NaiveTime::known(second, moment.nanos);
        Some(NaiveDateTime::new(NaiveDate(date), time))
    }

    /// The date-time as the library takes it; not for a leap second that does not end a minute.
    fn moment(self) -> Moment {
        Moment {
            seconds: self.timestamp(),
            nanos: self.time.nanosecond(),
        }
    }

    /// The date-time that a text gives by a pattern of `format::strftime`. An offset in it counts for nothing.
    ///
    /// # Errors
    ///
    /// If the text does not fit the pattern, or gives no date-time.
    pub fn parse_from_str(text: &str, pattern: &str) -> ParseResult<NaiveDateTime> {
        Parsed::of(text, pattern)?.to_naive_datetime_with_offset(0)
    }

    /// The same for the beginning of a text, with the rest of it.
    ///
    /// # Errors
    ///
    /// If no beginning of the text fits the pattern, or if it gives no date-time.
    pub fn parse_and_remainder<'a>(
        text: &'a str,
        pattern: &str,
    ) -> ParseResult<(NaiveDateTime, &'a str)> {
        let (fields, rest) = Parsed::of_beginning(text, pattern)?;
        Ok((fields.to_naive_datetime_with_offset(0)?, rest))
    }

    /// The date.
    #[must_use]
    pub const fn date(&self) -> NaiveDate {
        self.date
    }

    /// The time of day.
    #[must_use]
    pub const fn time(&self) -> NaiveTime {
        self.time
    }

    /// The seconds since 1970-01-01T00:00:00, leap seconds not counted.
    #[must_use]
    pub fn timestamp(&self) -> i64 {
        let days = self.date.0.number() - UNIX_EPOCH;
        i64::from(days) * DAY + i64::from(self.time.num_seconds_from_midnight())
    }

    /// The whole milliseconds since 1970-01-01T00:00:00, rounded down.
    #[must_use]
    pub fn timestamp_millis(&self) -> i64 {
        self.timestamp() * 1_000 + i64::from(self.timestamp_subsec_millis())
    }

    /// The whole microseconds since 1970-01-01T00:00:00, rounded down.
    #[must_use]
    pub fn timestamp_micros(&self) -> i64 {
        self.timestamp() * 1_000_000 + i64::from(self.timestamp_subsec_micros())
    }

    /// The nanoseconds since 1970-01-01T00:00:00.
    ///
    /// # Panics
    ///
    /// If they are no `i64`.
    #[deprecated(note = "it panics: use `timestamp_nanos_opt`")]
    #[must_use]
    pub fn timestamp_nanos(&self) -> i64 {
        self.timestamp_nanos_opt()
            .expect("the nanoseconds are no i64")
    }

    /// The nanoseconds since 1970-01-01T00:00:00; `None` if they are no `i64`.
    #[must_use]
    pub fn timestamp_nanos_opt(&self) -> Option<i64> {
        let nanos =
            i128::from(self.timestamp()) * i128::from(NANOS) + i128::from(self.time.nanosecond());
        i64::try_from(nanos).ok()
    }

    /// The whole milliseconds past the second, up to 1,999.
    #[must_use]
    pub fn timestamp_subsec_millis(&self) -> u32 {
        self.time.nanosecond() / 1_000_000
    }

    /// The whole microseconds past the second, up to 1,999,999.
    #[must_use]
    pub fn timestamp_subsec_micros(&self) -> u32 {
        self.time.nanosecond() / 1_000
    }

    /// The nanoseconds past the second, up to 1,999,999,999.
    #[must_use]
    pub fn timestamp_subsec_nanos(&self) -> u32 {
        self.time.nanosecond()
    }

    /// The date-time a length later; `None` if it is out of range.
    #[must_use]
    pub fn checked_add_signed(self, length: TimeDelta) -> Option<NaiveDateTime> {
        if self.time.is_odd() {
            let (time, passed) = self.time.overflowing_add_signed(length);
            return Some(self.date.moved(passed / DAY)?.and_time(time));
        }
        NaiveDateTime::found(calendar_date_time_add(self.moment(), length.span()))
    }

    /// The date-time a length earlier; `None` if it is out of range.
    #[must_use]
    pub fn checked_sub_signed(self, length: TimeDelta) -> Option<NaiveDateTime> {
        self.checked_add_signed(-length)
    }

    /// What a clock shows that is ahead by the offset; the nanoseconds stay. `None` if it is out of range.
    #[must_use]
    pub fn checked_add_offset(self, offset: FixedOffset) -> Option<NaiveDateTime> {
        let (time, days) = self.time.ahead(offset.local_minus_utc());
        Some(self.date.moved(days)?.and_time(time))
    }

    /// What a clock shows that is behind by the offset; the nanoseconds stay. `None` if it is out of range.
    #[must_use]
    pub fn checked_sub_offset(self, offset: FixedOffset) -> Option<NaiveDateTime> {
        let (time, days) = self.time.ahead(offset.utc_minus_local());
        Some(self.date.moved(days)?.and_time(time))
    }

    /// The same time so many months later, or on the last day of a shorter month; `None` if it is out of range.
    #[must_use]
    pub fn checked_add_months(self, months: Months) -> Option<NaiveDateTime> {
        Some(self.date.checked_add_months(months)?.and_time(self.time))
    }

    /// The same time so many months earlier, or on the last day of a shorter month; `None` if it is out of range.
    #[must_use]
    pub fn checked_sub_months(self, months: Months) -> Option<NaiveDateTime> {
        Some(self.date.checked_sub_months(months)?.and_time(self.time))
    }

    /// The same time so many days later; `None` if it is out of range.
    #[must_use]
    pub fn checked_add_days(self, days: Days) -> Option<NaiveDateTime> {
        Some(self.date.checked_add_days(days)?.and_time(self.time))
    }

    /// The same time so many days earlier; `None` if it is out of range.
    #[must_use]
    pub fn checked_sub_days(self, days: Days) -> Option<NaiveDateTime> {
        Some(self.date.checked_sub_days(days)?.and_time(self.time))
    }

    /// The time from another date-time to this one: 86,400 seconds for each day between the dates, and the distance of
    /// the times of day. A leap second counts if one of the two is in it and has the smaller second of the day.
    #[must_use]
    pub fn signed_duration_since(self, base: NaiveDateTime) -> TimeDelta {
        if self.time.is_odd() || base.time.is_odd() {
            let days = self.date.signed_duration_since(base.date);
            return days + self.time.signed_duration_since(base.time);
        }
        let span = calendar_date_time_since(self.moment(), base.moment());
        TimeDelta::new(span.seconds, span.nanos).expect("two date-times are apart by a duration")
    }

    /// The text by a pattern of `format::strftime`. A wrong pattern shows when the text is printed.
    #[must_use]
    pub fn format<'a>(&self, pattern: &'a str) -> DelayedFormat<StrftimeItems<'a>> {
        self.format_with_items(StrftimeItems::new(pattern))
    }

    /// The text by items.
    #[must_use]
    pub fn format_with_items<I>(&self, items: I) -> DelayedFormat<I> {
        DelayedFormat::new(Some(self.date), Some(self.time), items)
    }

    /// The instants at which a zone's clock shows this date-time.
    #[must_use]
    pub fn and_local_timezone<Tz: TimeZone>(&self, zone: Tz) -> MappedLocalTime<DateTime<Tz>> {
        zone.from_local_datetime(self)
    }

    /// The instant at which a clock of UTC shows this date-time.
    #[must_use]
    pub const fn and_utc(&self) -> DateTime<Utc> {
        DateTime::from_naive_utc_and_offset(*self, Utc)
    }

    /// The same with another date, if there is one.
    fn on(&self, date: Option<NaiveDate>) -> Option<NaiveDateTime> {
        Some(date?.and_time(self.time))
    }

    /// The same at another time, if there is one.
    fn at(&self, time: Option<NaiveTime>) -> Option<NaiveDateTime> {
        Some(self.date.and_time(time?))
    }
}

impl Datelike for NaiveDateTime {
    fn year(&self) -> i32 {
        self.date.year()
    }

    fn month(&self) -> u32 {
        self.date.month()
    }

    fn month0(&self) -> u32 {
        self.date.month0()
    }

    fn day(&self) -> u32 {
        self.date.day()
    }

    fn day0(&self) -> u32 {
        self.date.day0()
    }

    fn ordinal(&self) -> u32 {
        self.date.ordinal()
    }

    fn ordinal0(&self) -> u32 {
        self.date.ordinal0()
    }

    fn weekday(&self) -> Weekday {
        self.date.weekday()
    }

    fn iso_week(&self) -> IsoWeek {
        self.date.iso_week()
    }

    fn with_year(&self, year: i32) -> Option<NaiveDateTime> {
        self.on(self.date.with_year(year))
    }

    fn with_month(&self, month: u32) -> Option<NaiveDateTime> {
        self.on(self.date.with_month(month))
    }

    fn with_month0(&self, month0: u32) -> Option<NaiveDateTime> {
        self.on(self.date.with_month0(month0))
    }

    fn with_day(&self, day: u32) -> Option<NaiveDateTime> {
        self.on(self.date.with_day(day))
    }

    fn with_day0(&self, day0: u32) -> Option<NaiveDateTime> {
        self.on(self.date.with_day0(day0))
    }

    fn with_ordinal(&self, ordinal: u32) -> Option<NaiveDateTime> {
        self.on(self.date.with_ordinal(ordinal))
    }

    fn with_ordinal0(&self, ordinal0: u32) -> Option<NaiveDateTime> {
        self.on(self.date.with_ordinal0(ordinal0))
    }

    fn num_days_from_ce(&self) -> i32 {
        self.date.num_days_from_ce()
    }
}

impl Timelike for NaiveDateTime {
    fn hour(&self) -> u32 {
        self.time.hour()
    }

    fn minute(&self) -> u32 {
        self.time.minute()
    }

    fn second(&self) -> u32 {
        self.time.second()
    }

    fn nanosecond(&self) -> u32 {
        self.time.nanosecond()
    }

    fn with_hour(&self, hour: u32) -> Option<NaiveDateTime> {
        self.at(self.time.with_hour(hour))
    }

    fn with_minute(&self, minute: u32) -> Option<NaiveDateTime> {
        self.at(self.time.with_minute(minute))
    }

    fn with_second(&self, second: u32) -> Option<NaiveDateTime> {
        self.at(self.time.with_second(second))
    }

    fn with_nanosecond(&self, nanosecond: u32) -> Option<NaiveDateTime> {
        self.at(self.time.with_nanosecond(nanosecond))
    }

    fn num_seconds_from_midnight(&self) -> u32 {
        self.time.num_seconds_from_midnight()
    }
}

by_call! {
    Add add(TimeDelta) for NaiveDateTime, checked_add_signed, "`NaiveDateTime + TimeDelta` overflowed";
    Sub sub(TimeDelta) for NaiveDateTime, checked_sub_signed, "`NaiveDateTime - TimeDelta` overflowed";
    Add add(Months) for NaiveDateTime, checked_add_months, "`NaiveDateTime + Months` out of range";
    Sub sub(Months) for NaiveDateTime, checked_sub_months, "`NaiveDateTime - Months` out of range";
    Add add(Days) for NaiveDateTime, checked_add_days, "`NaiveDateTime + Days` out of range";
    Sub sub(Days) for NaiveDateTime, checked_sub_days, "`NaiveDateTime - Days` out of range";
    Add add(FixedOffset) for NaiveDateTime, checked_add_offset, "`NaiveDateTime + FixedOffset` out of range";
    Sub sub(FixedOffset) for NaiveDateTime, checked_sub_offset, "`NaiveDateTime - FixedOffset` out of range";
}

/// The length of a duration of std, for an operator that panics where it is too long.
pub(super) fn length_of(duration: StdDuration) -> TimeDelta {
    TimeDelta::from_std(duration).expect("the duration of std is too long for a TimeDelta")
}

impl Add<StdDuration> for NaiveDateTime {
    type Output = NaiveDateTime;

    fn add(self, length: StdDuration) -> NaiveDateTime {
        self + length_of(length)
    }
}

impl Sub<StdDuration> for NaiveDateTime {
    type Output = NaiveDateTime;

    fn sub(self, length: StdDuration) -> NaiveDateTime {
        self - length_of(length)
    }
}

impl AddAssign<TimeDelta> for NaiveDateTime {
    fn add_assign(&mut self, length: TimeDelta) {
        *self = *self + length;
    }
}

impl SubAssign<TimeDelta> for NaiveDateTime {
    fn sub_assign(&mut self, length: TimeDelta) {
        *self = *self - length;
    }
}

impl AddAssign<StdDuration> for NaiveDateTime {
    fn add_assign(&mut self, length: StdDuration) {
        *self = *self + length;
    }
}

impl SubAssign<StdDuration> for NaiveDateTime {
    fn sub_assign(&mut self, length: StdDuration) {
        *self = *self - length;
    }
}

impl Sub for NaiveDateTime {
    type Output = TimeDelta;

    fn sub(self, base: NaiveDateTime) -> TimeDelta {
        self.signed_duration_since(base)
    }
}

/// Midnight of 1 January 1970.
impl Default for NaiveDateTime {
    fn default() -> NaiveDateTime {
        NaiveDateTime::UNIX_EPOCH
    }
}

/// Midnight of the date.
impl From<NaiveDate> for NaiveDateTime {
    fn from(date: NaiveDate) -> NaiveDateTime {
        date.and_time(NaiveTime::MIN)
    }
}

impl From<crate::DateTime> for NaiveDateTime {
    fn from(moment: crate::DateTime) -> NaiveDateTime {
        let time = NaiveTime::known(moment.second_of_day(), moment.nanos());
        NaiveDate(moment.date()).and_time(time)
    }
}

/// A leap second that does not end a minute is no date-time of the rest of this crate.
impl TryFrom<NaiveDateTime> for crate::DateTime {
    type Error = super::OutOfRange;

    fn try_from(moment: NaiveDateTime) -> Result<crate::DateTime, super::OutOfRange> {
        let (second, nanos) = (moment.num_seconds_from_midnight(), moment.nanosecond());
        crate::DateTime::new(moment.date.0, second, nanos).ok_or(super::OutOfRange::new())
    }
}

impl fmt::Display for NaiveDateTime {
    fn fmt(&self, f: &mut fmt::Formatter<'_>) -> fmt::Result {
        write_moment(f, self.date.num_days_from_ce(), self.time, (0, b' '))
    }
}

impl fmt::Debug for NaiveDateTime {
    fn fmt(&self, f: &mut fmt::Formatter<'_>) -> fmt::Result {
        write_moment(f, self.date.num_days_from_ce(), self.time, (0, b'T'))
    }
}

/// Reads a date, a `T` and a time; spaces may stand around each part.
impl FromStr for NaiveDateTime {
    type Err = ParseError;

    fn from_str(text: &str) -> ParseResult<NaiveDateTime> {
        let groups = [
            format::DATE_ITEMS,
            format::T_ITEMS,
            format::MINUTE_ITEMS,
            format::SECOND_ITEMS,
            format::END_ITEMS,
        ];
        format::read(text, &groups)?.to_naive_datetime_with_offset(0)
    }
}
