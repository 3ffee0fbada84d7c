//! Times of day with no time zone.

use core::fmt;
use core::ops::{Add, AddAssign, Sub, SubAssign};
use core::str::{from_utf8, FromStr};
use core::time::Duration as StdDuration;

use super::date::or_panic;
use super::format::{self, DelayedFormat, Parsed, StrftimeItems};
use super::{FixedOffset, ParseError, ParseResult, TimeDelta, Timelike};
use crate::calls::*;

/// The nanoseconds of a second.
pub(super) const NANOS: u32 = 1_000_000_000;

/// The seconds of a day.
pub(super) const DAY: i64 = 86_400;

/// The number of bytes of the longest text of a date-time.
const TEXT_ROOM: usize = 32;

/// A time of day, to the nanosecond.
///
/// A leap second has the second before it and 1,000,000,000 nanoseconds and more. From there a move counts the rest of
/// this leap second, and no other leap second. Only `with_nanosecond` and its like put one at a second other than 59.
///
/// ```
/// use proved_calendar::chrono::{NaiveTime, TimeDelta};
/// let leap_second = NaiveTime::from_hms_milli_opt(23, 59, 59, 1_500).unwrap();
/// assert_eq!(leap_second.to_string(), "23:59:60.500");
/// assert_eq!((leap_second + TimeDelta::seconds(1)).to_string(), "00:00:00.500");
/// ```
#[derive(Clone, Copy, PartialEq, Eq, PartialOrd, Ord, Hash)]
pub struct NaiveTime {
    second_of_day: u32,
    nanos: u32,
}

impl NaiveTime {
    /// Midnight.
    pub const MIN: NaiveTime = NaiveTime {
        second_of_day: 0,
        nanos: 0,
    };

    /// The last nanosecond of the day that is in no leap second.
    pub(super) const MAX: NaiveTime = NaiveTime {
        second_of_day: 86_399,
        nanos: NANOS - 1,
    };

    or_panic! {
        /// The time with this hour, minute and second.
        from_hms = from_hms_opt(hour: u32, minute: u32, second: u32);
        /// The time with this hour, minute, second and milliseconds.
        from_hms_milli = from_hms_milli_opt(hour: u32, minute: u32, second: u32, milli: u32);
        /// The time with this hour, minute, second and microseconds.
        from_hms_micro = from_hms_micro_opt(hour: u32, minute: u32, second: u32, micro: u32);
        /// The time with this hour, minute, second and nanoseconds.
        from_hms_nano = from_hms_nano_opt(hour: u32, minute: u32, second: u32, nano: u32);
        /// The time with this second of the day and nanoseconds.
        from_num_seconds_from_midnight = from_num_seconds_from_midnight_opt(seconds: u32, nano: u32);
    }

    /// The time with this hour, minute and second, which is no leap second; `None` if there is none.
    #[must_use]
    pub fn from_hms_opt(hour: u32, minute: u32, second: u32) -> Option<NaiveTime> {
        NaiveTime::from_hms_nano_opt(hour, minute, second, 0)
    }

    /// The same with milliseconds, which are 1,000 and more in a leap second; `None` if there is none.
    #[must_use]
    pub fn from_hms_milli_opt(
        hour: u32,
        minute: u32,
        second: u32,
        milli: u32,
    ) -> Option<NaiveTime> {
        NaiveTime::from_hms_nano_opt(hour, minute, second, milli.checked_mul(1_000_000)?)
    }

    /// The same with microseconds, which are 1,000,000 and more in a leap second; `None` if there is none.
    #[must_use]
    pub fn from_hms_micro_opt(
        hour: u32,
        minute: u32,
        second: u32,
        micro: u32,
    ) -> Option<NaiveTime> {
        NaiveTime::from_hms_nano_opt(hour, minute, second, micro.checked_mul(1_000)?)
    }

    /// The same with nanoseconds, which are 1,000,000,000 and more in a leap second. That has the second 59 here. `None`
    /// if there is none.
    #[must_use]
    pub fn from_hms_nano_opt(hour: u32, minute: u32, second: u32, nano: u32) -> Option<NaiveTime> {
        if hour >= 24 || minute >= 60 || second >= 60 {
            return None;
        }
        NaiveTime::from_num_seconds_from_midnight_opt(3_600 * hour + 60 * minute + second, nano)
    }

    /// The time with this second of the day, from 0 to 86,399, and nanoseconds; `None` if there is none.
    #[must_use]
    pub fn from_num_seconds_from_midnight_opt(seconds: u32, nano: u32) -> Option<NaiveTime> {
        let found = calendar_date_time_new(UNIX_EPOCH, seconds, nano);
        (found.nanos != NO_NANOS).then_some(NaiveTime::known(seconds, nano))
    }

    /// The time with parts that are those of a time.
    pub(super) const fn known(second_of_day: u32, nanos: u32) -> NaiveTime {
        NaiveTime {
            second_of_day,
            nanos,
        }
    }

    /// Whether it is in a leap second that does not end a minute. The library has no such times.
    pub(super) const fn is_odd(self) -> bool {
        self.nanos >= NANOS && self.second_of_day % 60 != 59
    }

    /// The time that a text gives by a pattern of `format::strftime`. Dates and offsets in it count for nothing.
    ///
    /// # Errors
    ///
    /// If the text does not fit the pattern, or gives no time.
    pub fn parse_from_str(text: &str, pattern: &str) -> ParseResult<NaiveTime> {
        Parsed::of(text, pattern)?.to_naive_time()
    }

    /// The same for the beginning of a text, with the rest of it.
    ///
    /// # Errors
    ///
    /// If no beginning of the text fits the pattern, or if it gives no time.
    pub fn parse_and_remainder<'a>(
        text: &'a str,
        pattern: &str,
    ) -> ParseResult<(NaiveTime, &'a str)> {
        let (fields, rest) = Parsed::of_beginning(text, pattern)?;
        Ok((fields.to_naive_time()?, rest))
    }

    /// The time a length later, and the seconds of the days that were passed: a multiple of 86,400.
    #[must_use]
    pub fn overflowing_add_signed(&self, length: TimeDelta) -> (NaiveTime, i64) {
        // (of a longer move, whole days are set aside, so that it stays among the dates and has its direction)
        let aside = (length.num_days() - length.num_days().signum()) * DAY;
        let by = length - TimeDelta::seconds(aside);
        let shift = if self.is_odd() {
            59 - self.second_of_day % 60
        } else {
            0
        };
        let start = calendar_date_time_new(UNIX_EPOCH, self.second_of_day + shift, self.nanos);
        let end = calendar_date_time_add(start, by.span());
        if end.nanos >= NANOS {
            return (NaiveTime::known(self.second_of_day, end.nanos), aside);
        }
        let end = calendar_date_time_add(end, TimeDelta::seconds(-i64::from(shift)).span());
        let days = i64::from(calendar_date_time_date(end) - UNIX_EPOCH);
        let second = calendar_date_time_second_of_day(end) as u32;
        (NaiveTime::known(second, end.nanos), days * DAY + aside)
    }

    /// The time a length earlier, and the seconds of the days that were passed, which lead back if they are positive.
    #[must_use]
    pub fn overflowing_sub_signed(&self, length: TimeDelta) -> (NaiveTime, i64) {
        let (time, passed) = self.overflowing_add_signed(-length);
        (time, -passed)
    }

    /// The time that a clock so many seconds ahead shows, and the days that were passed. The nanoseconds stay.
    pub(super) fn ahead(self, seconds: i32) -> (NaiveTime, i64) {
        let whole = NaiveTime::known(self.second_of_day, 0);
        let (time, passed) = whole.overflowing_add_signed(TimeDelta::seconds(i64::from(seconds)));
        (
            NaiveTime::known(time.second_of_day, self.nanos),
            passed / DAY,
        )
    }

    /// The time from another one to this one, within a day. A leap second counts if one of the two is in it and is the
    /// earlier one.
    #[must_use]
    pub fn signed_duration_since(self, base: NaiveTime) -> TimeDelta {
        if self.is_odd() || base.is_odd() {
            return self.odd_duration_since(base);
        }
        let [end, start] =
            [self, base].map(|it| calendar_date_time_new(UNIX_EPOCH, it.second_of_day, it.nanos));
        let span = calendar_date_time_since(end, start);
        TimeDelta::new(span.seconds, span.nanos).expect("two times are less than two days apart")
    }

    /// The same, where one is in a leap second that does not end a minute.
    fn odd_duration_since(self, base: NaiveTime) -> TimeDelta {
        let counted = match self.second_of_day.cmp(&base.second_of_day) {
            core::cmp::Ordering::Greater => i64::from(base.nanos / NANOS),
            core::cmp::Ordering::Less => -i64::from(self.nanos / NANOS),
            core::cmp::Ordering::Equal => 0,
        };
        let seconds = i64::from(self.second_of_day) - i64::from(base.second_of_day) + counted;
        let nanos = i64::from(self.nanos) - i64::from(base.nanos);
        TimeDelta::seconds(seconds) + TimeDelta::nanoseconds(nanos)
    }

    /// The text by a pattern of `format::strftime`. A wrong pattern shows when the text is printed.
    #[must_use]
    pub fn format<'a>(&self, pattern: &'a str) -> DelayedFormat<StrftimeItems<'a>> {
        self.format_with_items(StrftimeItems::new(pattern))
    }

    /// The text by items.
    #[must_use]
    pub fn format_with_items<I>(&self, items: I) -> DelayedFormat<I> {
        DelayedFormat::new(None, Some(*self), items)
    }

    /// The time whose text is this one's. In a leap second that does not end a minute it is the next second.
    pub(super) const fn shown(self) -> NaiveTime {
        if self.is_odd() {
            NaiveTime::known(self.second_of_day + 1, self.nanos - NANOS)
        } else {
            self
        }
    }
}

impl Timelike for NaiveTime {
    fn hour(&self) -> u32 {
        self.second_of_day / 3_600
    }

    fn minute(&self) -> u32 {
        self.second_of_day / 60 % 60
    }

    fn second(&self) -> u32 {
        self.second_of_day % 60
    }

    fn nanosecond(&self) -> u32 {
        self.nanos
    }

    fn with_hour(&self, hour: u32) -> Option<NaiveTime> {
        let second = self.second_of_day % 3_600;
        (hour < 24).then(|| NaiveTime::known(hour * 3_600 + second, self.nanos))
    }

    fn with_minute(&self, minute: u32) -> Option<NaiveTime> {
        let rest = self.hour() * 3_600 + self.second();
        (minute < 60).then(|| NaiveTime::known(rest + minute * 60, self.nanos))
    }

    fn with_second(&self, second: u32) -> Option<NaiveTime> {
        let rest = self.second_of_day - self.second();
        (second < 60).then(|| NaiveTime::known(rest + second, self.nanos))
    }

    fn with_nanosecond(&self, nanosecond: u32) -> Option<NaiveTime> {
        (nanosecond < 2 * NANOS).then(|| NaiveTime::known(self.second_of_day, nanosecond))
    }

    fn num_seconds_from_midnight(&self) -> u32 {
        self.second_of_day
    }
}

/// The time a length later; the days that are passed count for nothing.
impl Add<TimeDelta> for NaiveTime {
    type Output = NaiveTime;

    fn add(self, length: TimeDelta) -> NaiveTime {
        self.overflowing_add_signed(length).0
    }
}

/// The time a length earlier; the days that are passed count for nothing.
impl Sub<TimeDelta> for NaiveTime {
    type Output = NaiveTime;

    fn sub(self, length: TimeDelta) -> NaiveTime {
        self.overflowing_sub_signed(length).0
    }
}

impl AddAssign<TimeDelta> for NaiveTime {
    fn add_assign(&mut self, length: TimeDelta) {
        *self = *self + length;
    }
}

impl SubAssign<TimeDelta> for NaiveTime {
    fn sub_assign(&mut self, length: TimeDelta) {
        *self = *self - length;
    }
}

/// The time a duration of std later; the days that are passed count for nothing.
impl Add<StdDuration> for NaiveTime {
    type Output = NaiveTime;

    fn add(self, length: StdDuration) -> NaiveTime {
        self + within_days(length)
    }
}

/// The time a duration of std earlier; the days that are passed count for nothing.
impl Sub<StdDuration> for NaiveTime {
    type Output = NaiveTime;

    fn sub(self, length: StdDuration) -> NaiveTime {
        self - within_days(length)
    }
}

impl AddAssign<StdDuration> for NaiveTime {
    fn add_assign(&mut self, length: StdDuration) {
        *self = *self + length;
    }
}

impl SubAssign<StdDuration> for NaiveTime {
    fn sub_assign(&mut self, length: StdDuration) {
        *self = *self - length;
    }
}

/// A length that leads from any time to the same time as the duration does. It has a day more than the rest, so that it
/// leads out of a leap second too.
fn within_days(length: StdDuration) -> TimeDelta {
    let days = DAY as u64;
    let seconds = if length.as_secs() < days {
        length.as_secs()
    } else {
        length.as_secs() % days + days
    };
    TimeDelta::new(seconds as i64, length.subsec_nanos()).expect("two days are a duration")
}

impl Sub for NaiveTime {
    type Output = TimeDelta;

    fn sub(self, base: NaiveTime) -> TimeDelta {
        self.signed_duration_since(base)
    }
}

/// The time on a clock that is ahead by the offset. The nanoseconds stay, and days count for nothing.
impl Add<FixedOffset> for NaiveTime {
    type Output = NaiveTime;

    fn add(self, offset: FixedOffset) -> NaiveTime {
        self.ahead(offset.local_minus_utc()).0
    }
}

/// The time on a clock that is behind by the offset. The nanoseconds stay, and days count for nothing.
impl Sub<FixedOffset> for NaiveTime {
    type Output = NaiveTime;

    fn sub(self, offset: FixedOffset) -> NaiveTime {
        self.ahead(offset.utc_minus_local()).0
    }
}

/// Midnight.
impl Default for NaiveTime {
    fn default() -> NaiveTime {
        NaiveTime::MIN
    }
}

/// The text of a date-time, with another byte for its `T`, from a byte on.
pub(super) fn write_moment(
    f: &mut impl fmt::Write,
    date: i32,
    time: NaiveTime,
    (from, between): (usize, u8),
) -> fmt::Result {
    let time = time.shown();
    let moment = calendar_date_time_new(date, time.second_of_day, time.nanos);
    let mut room = [0; TEXT_ROOM];
    // SAFETY: so many bytes lie in the array.
    let length = unsafe { calendar_write_date_time(moment, room.as_mut_ptr(), TEXT_ROOM) } as usize;
    let text = room.get_mut(from..length).ok_or(fmt::Error)?;
    if let Some(it) = text.iter_mut().find(|it| **it == b'T') {
        *it = between;
    }
    f.write_str(from_utf8(text).map_err(|_| fmt::Error)?)
}

/// The bytes before the time in the text of a date-time of 1 January 1970.
const BEFORE_TIME: usize = 11;

impl fmt::Display for NaiveTime {
    fn fmt(&self, f: &mut fmt::Formatter<'_>) -> fmt::Result {
        write_moment(f, UNIX_EPOCH, *self, (BEFORE_TIME, b'T'))
    }
}

impl fmt::Debug for NaiveTime {
    fn fmt(&self, f: &mut fmt::Formatter<'_>) -> fmt::Result {
        fmt::Display::fmt(self, f)
    }
}

/// Reads an hour, a minute and a second with `:` between them, and a fraction. The second may be missing, and spaces
/// may stand around each.
impl FromStr for NaiveTime {
    type Err = ParseError;

    fn from_str(text: &str) -> ParseResult<NaiveTime> {
        let whole = format::read(
            text,
            &[
                format::MINUTE_ITEMS,
                format::SECOND_ITEMS,
                format::END_ITEMS,
            ],
        );
        let fields = whole.or_else(|refused| {
            let short = format::read(text, &[format::MINUTE_ITEMS, format::END_ITEMS]);
            short.map_err(|_| refused)
        });
        fields?.to_naive_time()
    }
}
