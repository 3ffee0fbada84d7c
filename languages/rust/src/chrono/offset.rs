//! Time zones: what their clocks show at an instant.

use core::fmt;
use core::str::FromStr;

use super::format::{self, Parsed};
use super::{DateTime, NaiveDate, NaiveDateTime, ParseError, ParseResult};

/// The values of a local time in a zone: none in a gap, two where the clock goes back.
///
/// ```
/// use proved_calendar::chrono::{MappedLocalTime, TimeZone, Utc};
/// assert!(Utc.with_ymd_and_hms(2024, 2, 29, 9, 0, 0).single().is_some());
/// assert_eq!(Utc.with_ymd_and_hms(2024, 2, 30, 9, 0, 0), MappedLocalTime::None);
/// ```
#[derive(Clone, Copy, Debug, PartialEq, Eq, Hash)]
pub enum MappedLocalTime<T> {
    /// There is one.
    Single(T),
    /// There are two, the earlier one first.
    Ambiguous(T, T),
    /// There is none.
    None,
}

/// The older name.
pub type LocalResult<T> = MappedLocalTime<T>;

impl<T> MappedLocalTime<T> {
    /// The value if there is just one.
    #[must_use]
    pub fn single(self) -> Option<T> {
        match self {
            MappedLocalTime::Single(it) => Some(it),
            _ => None,
        }
    }

    /// The earlier value, or the only one.
    #[must_use]
    pub fn earliest(self) -> Option<T> {
        match self {
            MappedLocalTime::Single(it) | MappedLocalTime::Ambiguous(it, _) => Some(it),
            MappedLocalTime::None => None,
        }
    }

    /// The later value, or the only one.
    #[must_use]
    pub fn latest(self) -> Option<T> {
        match self {
            MappedLocalTime::Single(it) | MappedLocalTime::Ambiguous(_, it) => Some(it),
            MappedLocalTime::None => None,
        }
    }

    /// The values of a function of these.
    #[must_use]
    pub fn map<U, F: FnMut(T) -> U>(self, mut function: F) -> MappedLocalTime<U> {
        match self {
            MappedLocalTime::Single(it) => MappedLocalTime::Single(function(it)),
            MappedLocalTime::Ambiguous(one, other) => {
                MappedLocalTime::Ambiguous(function(one), function(other))
            }
            MappedLocalTime::None => MappedLocalTime::None,
        }
    }

    /// The values of a function of these, if it has a value of each.
    #[must_use]
    pub fn and_then<U, F: FnMut(T) -> Option<U>>(self, mut function: F) -> MappedLocalTime<U> {
        match self {
            MappedLocalTime::Single(it) => function(it).into(),
            MappedLocalTime::Ambiguous(one, other) => match (function(one), function(other)) {
                (Some(one), Some(other)) => MappedLocalTime::Ambiguous(one, other),
                _ => MappedLocalTime::None,
            },
            MappedLocalTime::None => MappedLocalTime::None,
        }
    }
}

impl<T> From<Option<T>> for MappedLocalTime<T> {
    fn from(found: Option<T>) -> MappedLocalTime<T> {
        found.map_or(MappedLocalTime::None, MappedLocalTime::Single)
    }
}

impl<T: fmt::Debug> MappedLocalTime<T> {
    /// The value if there is just one.
    ///
    /// # Panics
    ///
    /// If there is none, or if there are two.
    #[track_caller]
    #[must_use]
    pub fn unwrap(self) -> T {
        match self {
            MappedLocalTime::Single(it) => it,
            MappedLocalTime::Ambiguous(one, other) => {
                panic!("ambiguous local time, from {one:?} to {other:?}")
            }
            MappedLocalTime::None => panic!("no such local time"),
        }
    }
}

/// How far a clock is ahead of UTC.
pub trait Offset: Sized + Clone + fmt::Debug {
    /// The same as a number of seconds.
    fn fix(&self) -> FixedOffset;
}

/// A time zone. One's own zone says which offset it has at an instant, and which at a local time.
///
/// ```
/// use proved_calendar::chrono::{FixedOffset, TimeZone};
/// let zone = FixedOffset::east_opt(3_600).unwrap();
/// let noon = zone.with_ymd_and_hms(2024, 2, 29, 12, 0, 0).unwrap();
/// assert_eq!(noon.naive_utc().to_string(), "2024-02-29 11:00:00");
/// ```
pub trait TimeZone: Sized + Clone {
    /// The offset that a value of this zone keeps.
    type Offset: Offset;

    /// The zone of an offset.
    fn from_offset(offset: &Self::Offset) -> Self;

    /// The offsets on a local date.
    fn offset_from_local_date(&self, local: &NaiveDate) -> MappedLocalTime<Self::Offset>;

    /// The offsets at a local time.
    fn offset_from_local_datetime(&self, local: &NaiveDateTime) -> MappedLocalTime<Self::Offset>;

    /// The offset on a date of UTC.
    fn offset_from_utc_date(&self, utc: &NaiveDate) -> Self::Offset;

    /// The offset at a time of UTC.
    fn offset_from_utc_datetime(&self, utc: &NaiveDateTime) -> Self::Offset;

    /// The instants at which the zone's clock shows this.
    fn with_ymd_and_hms(
        &self,
        year: i32,
        month: u32,
        day: u32,
        hour: u32,
        minute: u32,
        second: u32,
    ) -> MappedLocalTime<DateTime<Self>> {
        let date = NaiveDate::from_ymd_opt(year, month, day);
        match date.and_then(|it| it.and_hms_opt(hour, minute, second)) {
            Some(local) => self.from_local_datetime(&local),
            None => MappedLocalTime::None,
        }
    }

    /// The instant so many seconds after 1970-01-01T00:00:00 in UTC, and nanoseconds past that.
    ///
    /// # Panics
    ///
    /// Where [`TimeZone::timestamp_opt`] has no value.
    #[deprecated(note = "it panics: use `timestamp_opt`")]
    fn timestamp(&self, seconds: i64, nanos: u32) -> DateTime<Self> {
        self.timestamp_opt(seconds, nanos).unwrap()
    }

    /// The instant so many seconds after 1970-01-01T00:00:00 in UTC, and nanoseconds past that, if there is one.
    fn timestamp_opt(&self, seconds: i64, nanos: u32) -> MappedLocalTime<DateTime<Self>> {
        let utc = NaiveDateTime::from_timestamp_opt(seconds, nanos);
        utc.map(|it| self.from_utc_datetime(&it)).into()
    }

    /// The instant so many milliseconds after 1970-01-01T00:00:00 in UTC.
    ///
    /// # Panics
    ///
    /// Where [`TimeZone::timestamp_millis_opt`] has no value.
    #[deprecated(note = "it panics: use `timestamp_millis_opt`")]
    fn timestamp_millis(&self, millis: i64) -> DateTime<Self> {
        self.timestamp_millis_opt(millis).unwrap()
    }

    /// The instant so many milliseconds after 1970-01-01T00:00:00 in UTC, if there is one.
    fn timestamp_millis_opt(&self, millis: i64) -> MappedLocalTime<DateTime<Self>> {
        let utc = NaiveDateTime::from_timestamp_millis(millis);
        utc.map(|it| self.from_utc_datetime(&it)).into()
    }

    /// The instant so many microseconds after 1970-01-01T00:00:00 in UTC, if there is one.
    fn timestamp_micros(&self, micros: i64) -> MappedLocalTime<DateTime<Self>> {
        let utc = NaiveDateTime::from_timestamp_micros(micros);
        utc.map(|it| self.from_utc_datetime(&it)).into()
    }

    /// The instant so many nanoseconds after 1970-01-01T00:00:00 in UTC.
    fn timestamp_nanos(&self, nanos: i64) -> DateTime<Self> {
        let utc = NaiveDateTime::from_timestamp_nanos(nanos);
        self.from_utc_datetime(&utc.expect("every i64 of nanoseconds is a date-time"))
    }

    /// The instant that a text gives by a pattern, with this zone's offset. An offset in the text must be the same.
    ///
    /// # Errors
    ///
    /// If the text does not fit the pattern, or gives no instant of this zone.
    fn datetime_from_str(&self, text: &str, pattern: &str) -> ParseResult<DateTime<Self>> {
        Parsed::of(text, pattern)?.to_datetime_with_timezone(self)
    }

    /// The instants at which the zone's clock shows a local time.
    fn from_local_datetime(&self, local: &NaiveDateTime) -> MappedLocalTime<DateTime<Self>> {
        let offsets = self.offset_from_local_datetime(local);
        offsets.and_then(|offset| {
            let utc = local.checked_sub_offset(offset.fix())?;
            Some(DateTime::from_naive_utc_and_offset(utc, offset))
        })
    }

    /// The instant at which a clock of UTC shows a time.
    fn from_utc_datetime(&self, utc: &NaiveDateTime) -> DateTime<Self> {
        DateTime::from_naive_utc_and_offset(*utc, self.offset_from_utc_datetime(utc))
    }
}

/// UTC.
///
/// ```
/// use proved_calendar::chrono::{TimeZone, Utc};
/// assert_eq!(Utc.timestamp_opt(60, 0).unwrap().to_string(), "1970-01-01 00:01:00 UTC");
/// ```
#[derive(Clone, Copy, PartialEq, Eq, Hash)]
pub struct Utc;

#[cfg(feature = "std")]
impl Utc {
    /// The instant that the machine's clock shows now.
    ///
    /// # Panics
    ///
    /// If the clock shows a time that is no instant here.
    #[must_use]
    pub fn now() -> DateTime<Utc> {
        std::time::SystemTime::now().into()
    }
}

impl Offset for Utc {
    fn fix(&self) -> FixedOffset {
        FixedOffset { seconds: 0 }
    }
}

/// A zone with the same offset always.
macro_rules! constant_zone {
    ($name:ident) => {
        impl TimeZone for $name {
            type Offset = $name;

            fn from_offset(offset: &$name) -> $name {
                *offset
            }

            fn offset_from_local_date(&self, _: &NaiveDate) -> MappedLocalTime<$name> {
                MappedLocalTime::Single(*self)
            }

            fn offset_from_local_datetime(&self, _: &NaiveDateTime) -> MappedLocalTime<$name> {
                MappedLocalTime::Single(*self)
            }

            fn offset_from_utc_date(&self, _: &NaiveDate) -> $name {
                *self
            }

            fn offset_from_utc_datetime(&self, _: &NaiveDateTime) -> $name {
                *self
            }
        }
    };
}

constant_zone!(Utc);
constant_zone!(FixedOffset);

impl fmt::Debug for Utc {
    fn fmt(&self, f: &mut fmt::Formatter<'_>) -> fmt::Result {
        f.write_str("Z")
    }
}

impl fmt::Display for Utc {
    fn fmt(&self, f: &mut fmt::Formatter<'_>) -> fmt::Result {
        f.write_str("UTC")
    }
}

/// The seconds by which a clock is ahead of UTC, less than a day either way. It is a zone too.
///
/// ```
/// use proved_calendar::chrono::FixedOffset;
/// assert_eq!(FixedOffset::west_opt(5 * 3_600).unwrap().to_string(), "-05:00");
/// assert_eq!(FixedOffset::east_opt(86_400), None);
/// ```
#[derive(Clone, Copy, PartialEq, Eq, Hash)]
pub struct FixedOffset {
    seconds: i32,
}

impl FixedOffset {
    /// The offset of a clock that is ahead by so many seconds.
    ///
    /// # Panics
    ///
    /// From a day on.
    #[deprecated(note = "it panics: use `east_opt`")]
    #[must_use]
    pub fn east(seconds: i32) -> FixedOffset {
        FixedOffset::east_opt(seconds).expect("the offset is a day or more")
    }

    /// The offset of a clock that is ahead by so many seconds; `None` from a day on.
    #[must_use]
    pub const fn east_opt(seconds: i32) -> Option<FixedOffset> {
        if -86_400 < seconds && seconds < 86_400 {
            Some(FixedOffset { seconds })
        } else {
            None
        }
    }

    /// The offset of a clock that is behind by so many seconds.
    ///
    /// # Panics
    ///
    /// From a day on.
    #[deprecated(note = "it panics: use `west_opt`")]
    #[must_use]
    pub fn west(seconds: i32) -> FixedOffset {
        FixedOffset::west_opt(seconds).expect("the offset is a day or more")
    }

    /// The offset of a clock that is behind by so many seconds; `None` from a day on.
    #[must_use]
    pub const fn west_opt(seconds: i32) -> Option<FixedOffset> {
        FixedOffset::east_opt(seconds.wrapping_neg())
    }

    /// The seconds by which the clock is ahead of UTC.
    #[must_use]
    pub const fn local_minus_utc(&self) -> i32 {
        self.seconds
    }

    /// The seconds by which the clock is behind UTC.
    #[must_use]
    pub const fn utc_minus_local(&self) -> i32 {
        -self.seconds
    }
}

impl Offset for FixedOffset {
    fn fix(&self) -> FixedOffset {
        *self
    }
}

impl fmt::Display for FixedOffset {
    fn fmt(&self, f: &mut fmt::Formatter<'_>) -> fmt::Result {
        let (sign, size) = (if self.seconds < 0 { '-' } else { '+' }, self.seconds.abs());
        write!(f, "{sign}{:02}:{:02}", size / 3_600, size / 60 % 60)?;
        if size % 60 > 0 {
            write!(f, ":{:02}", size % 60)?;
        }
        Ok(())
    }
}

impl fmt::Debug for FixedOffset {
    fn fmt(&self, f: &mut fmt::Formatter<'_>) -> fmt::Result {
        fmt::Display::fmt(self, f)
    }
}

/// Reads an offset such as `+09:30`, with or without the colon.
impl FromStr for FixedOffset {
    type Err = ParseError;

    fn from_str(text: &str) -> ParseResult<FixedOffset> {
        format::read_offset(text)
    }
}
