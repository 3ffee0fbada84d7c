//! Instants in a time zone.

use core::cmp::Ordering;
use core::fmt;
use core::hash::{Hash, Hasher};
use core::ops::{Add, AddAssign, Sub, SubAssign};
use core::str::FromStr;
use core::time::Duration as StdDuration;

use super::date_time::length_of;
use super::format::{self, DelayedFormat, Fixed, Parsed, StrftimeItems};
use super::{
    Datelike, Days, FixedOffset, IsoWeek, MappedLocalTime, Months, NaiveDate, NaiveDateTime,
    NaiveTime,
};
use super::{Offset, ParseError, ParseResult, TimeDelta, TimeZone, Timelike, Utc, Weekday};

/// An instant, with the offset that a time zone has then. Instants are compared and hashed as such, whatever the zone.
///
/// Fields, texts and the `with_` calls are those of the zone's clock.
///
/// # Panics
///
/// Where the clock of the zone shows a date out of range: at most a day before the first or after the last date.
///
/// ```
/// use proved_calendar::chrono::{DateTime, FixedOffset, TimeZone, Timelike, Utc};
/// let instant = Utc.with_ymd_and_hms(2024, 2, 29, 23, 30, 0).unwrap();
/// let east = instant.with_timezone(&FixedOffset::east_opt(3_600).unwrap());
/// assert_eq!((east.hour(), east == instant), (0, true));
/// assert_eq!("2024-03-01T00:30:00+01:00".parse::<DateTime<Utc>>(), Ok(instant));
/// ```
#[derive(Clone)]
pub struct DateTime<Tz: TimeZone> {
    utc: NaiveDateTime,
    offset: Tz::Offset,
}

impl<Tz: TimeZone> DateTime<Tz> {
    /// The instant at which a clock of UTC shows a time, with an offset.
    #[must_use]
    pub const fn from_naive_utc_and_offset(utc: NaiveDateTime, offset: Tz::Offset) -> DateTime<Tz> {
        DateTime { utc, offset }
    }

    /// The same by its older name.
    #[must_use]
    pub fn from_utc(utc: NaiveDateTime, offset: Tz::Offset) -> DateTime<Tz> {
        DateTime { utc, offset }
    }

    /// The instant at which a clock with the offset shows a time.
    ///
    /// # Panics
    ///
    /// If the instant is out of range.
    #[must_use]
    pub fn from_local(local: NaiveDateTime, offset: Tz::Offset) -> DateTime<Tz> {
        let utc = local.checked_sub_offset(offset.fix());
        DateTime::from_utc(utc.expect("the instant is out of range"), offset)
    }

    /// What a clock of UTC shows.
    #[must_use]
    pub const fn naive_utc(&self) -> NaiveDateTime {
        self.utc
    }

    /// What a clock of the zone shows.
    #[must_use]
    pub fn naive_local(&self) -> NaiveDateTime {
        let local = self.utc.checked_add_offset(self.offset.fix());
        local.expect("the local date is out of range")
    }

    /// The date that a clock of the zone shows.
    #[must_use]
    pub fn date_naive(&self) -> NaiveDate {
        self.naive_local().date()
    }

    /// The time of day that a clock of the zone shows.
    #[must_use]
    pub fn time(&self) -> NaiveTime {
        self.naive_local().time()
    }

    /// The seconds since 1970-01-01T00:00:00 in UTC, leap seconds not counted.
    #[must_use]
    pub fn timestamp(&self) -> i64 {
        self.utc.timestamp()
    }

    /// The whole milliseconds since 1970-01-01T00:00:00 in UTC, rounded down.
    #[must_use]
    pub fn timestamp_millis(&self) -> i64 {
        self.utc.timestamp_millis()
    }

    /// The whole microseconds since 1970-01-01T00:00:00 in UTC, rounded down.
    #[must_use]
    pub fn timestamp_micros(&self) -> i64 {
        self.utc.timestamp_micros()
    }

    /// The nanoseconds since 1970-01-01T00:00:00 in UTC.
    ///
    /// # Panics
    ///
    /// If they are no `i64`.
    #[deprecated(note = "it panics: use `timestamp_nanos_opt`")]
    #[must_use]
    pub fn timestamp_nanos(&self) -> i64 {
        self.timestamp_nanos_opt()
            .expect("the nanoseconds are no i64")
    }

    /// The nanoseconds since 1970-01-01T00:00:00 in UTC; `None` if they are no `i64`.
    #[must_use]
    pub fn timestamp_nanos_opt(&self) -> Option<i64> {
        self.utc.timestamp_nanos_opt()
    }

    /// The whole milliseconds past the second, up to 1,999.
    #[must_use]
    pub fn timestamp_subsec_millis(&self) -> u32 {
        self.utc.timestamp_subsec_millis()
    }

    /// The whole microseconds past the second, up to 1,999,999.
    #[must_use]
    pub fn timestamp_subsec_micros(&self) -> u32 {
        self.utc.timestamp_subsec_micros()
    }

    /// The nanoseconds past the second, up to 1,999,999,999.
    #[must_use]
    pub fn timestamp_subsec_nanos(&self) -> u32 {
        self.utc.timestamp_subsec_nanos()
    }

    /// The offset.
    #[must_use]
    pub const fn offset(&self) -> &Tz::Offset {
        &self.offset
    }

    /// The zone.
    #[must_use]
    pub fn timezone(&self) -> Tz {
        Tz::from_offset(&self.offset)
    }

    /// The same instant in another zone.
    #[must_use]
    pub fn with_timezone<Other: TimeZone>(&self, zone: &Other) -> DateTime<Other> {
        zone.from_utc_datetime(&self.utc)
    }

    /// The same instant, with the offset as a zone of its own.
    #[must_use]
    pub fn fixed_offset(&self) -> DateTime<FixedOffset> {
        self.with_timezone(&self.offset.fix())
    }

    /// The same instant in UTC.
    #[must_use]
    pub const fn to_utc(&self) -> DateTime<Utc> {
        DateTime {
            utc: self.utc,
            offset: Utc,
        }
    }

    /// The instant a length later; `None` if it is out of range.
    #[must_use]
    pub fn checked_add_signed(self, length: TimeDelta) -> Option<DateTime<Tz>> {
        let utc = self.utc.checked_add_signed(length)?;
        Some(self.timezone().from_utc_datetime(&utc))
    }

    /// The instant a length earlier; `None` if it is out of range.
    #[must_use]
    pub fn checked_sub_signed(self, length: TimeDelta) -> Option<DateTime<Tz>> {
        self.checked_add_signed(-length)
    }

    /// The same local time so many months later, or on the last day of a shorter month. `None` if it is out of range, or
    /// if the clock does not show it once.
    #[must_use]
    pub fn checked_add_months(self, months: Months) -> Option<DateTime<Tz>> {
        self.at_local(self.naive_local().checked_add_months(months))
    }

    /// The same local time so many months earlier, or on the last day of a shorter month. `None` if it is out of range,
    /// or if the clock does not show it once.
    #[must_use]
    pub fn checked_sub_months(self, months: Months) -> Option<DateTime<Tz>> {
        self.at_local(self.naive_local().checked_sub_months(months))
    }

    /// The same local time so many days later. `None` if it is out of range, or if the clock does not show it once.
    #[must_use]
    pub fn checked_add_days(self, days: Days) -> Option<DateTime<Tz>> {
        self.at_local(self.naive_local().checked_add_days(days))
    }

    /// The same local time so many days earlier. `None` if it is out of range, or if the clock does not show it once.
    #[must_use]
    pub fn checked_sub_days(self, days: Days) -> Option<DateTime<Tz>> {
        self.at_local(self.naive_local().checked_sub_days(days))
    }

    /// The instant at which the clock shows a local time, if there is just one.
    fn at_local(&self, local: Option<NaiveDateTime>) -> Option<DateTime<Tz>> {
        self.timezone().from_local_datetime(&local?).single()
    }

    /// The instants at which the clock shows another time of the same day.
    #[must_use]
    pub fn with_time(&self, time: NaiveTime) -> MappedLocalTime<DateTime<Tz>> {
        let local = self.date_naive().and_time(time);
        self.timezone().from_local_datetime(&local)
    }

    /// The time from another instant to this one.
    #[must_use]
    pub fn signed_duration_since<Other: TimeZone>(
        self,
        base: impl core::borrow::Borrow<DateTime<Other>>,
    ) -> TimeDelta {
        self.utc.signed_duration_since(base.borrow().utc)
    }

    /// The whole years from another instant to this one, by the zone's clock; `None` if this one comes before it.
    #[must_use]
    pub fn years_since(&self, base: DateTime<Tz>) -> Option<u32> {
        let (now, then) = (self.naive_local(), base.naive_local());
        let later = now.time() >= then.time();
        let day = if later {
            Some(now.date())
        } else {
            now.date().pred_opt()
        };
        day?.years_since(then.date())
    }
}

/// Instants by a number of seconds.
impl DateTime<Utc> {
    /// The first instant.
    pub const MIN_UTC: DateTime<Utc> = NaiveDateTime::MIN.and_utc();

    /// The last instant that is in no leap second.
    pub const MAX_UTC: DateTime<Utc> = NaiveDateTime::MAX.and_utc();

    /// 1970-01-01T00:00:00 in UTC.
    pub const UNIX_EPOCH: DateTime<Utc> = NaiveDateTime::UNIX_EPOCH.and_utc();

    /// The instant so many seconds after 1970-01-01T00:00:00 in UTC, and nanoseconds past that; `None` if there is none.
    #[must_use]
    pub fn from_timestamp(seconds: i64, nanos: u32) -> Option<DateTime<Utc>> {
        Some(NaiveDateTime::from_timestamp_opt(seconds, nanos)?.and_utc())
    }

    /// The instant so many milliseconds after 1970-01-01T00:00:00 in UTC; `None` if there is none.
    #[must_use]
    pub fn from_timestamp_millis(millis: i64) -> Option<DateTime<Utc>> {
        Some(NaiveDateTime::from_timestamp_millis(millis)?.and_utc())
    }

    /// The instant so many microseconds after 1970-01-01T00:00:00 in UTC; `None` if there is none.
    #[must_use]
    pub fn from_timestamp_micros(micros: i64) -> Option<DateTime<Utc>> {
        Some(NaiveDateTime::from_timestamp_micros(micros)?.and_utc())
    }

    /// The instant so many nanoseconds after 1970-01-01T00:00:00 in UTC.
    #[must_use]
    pub fn from_timestamp_nanos(nanos: i64) -> DateTime<Utc> {
        Utc.timestamp_nanos(nanos)
    }
}

/// Instants by their texts.
impl DateTime<FixedOffset> {
    /// The instant that a text gives by a pattern of `format::strftime`, which has to give the offset too.
    ///
    /// # Errors
    ///
    /// If the text does not fit the pattern, or gives no instant.
    pub fn parse_from_str(text: &str, pattern: &str) -> ParseResult<DateTime<FixedOffset>> {
        Parsed::of(text, pattern)?.to_datetime()
    }

    /// The same for the beginning of a text, with the rest of it.
    ///
    /// # Errors
    ///
    /// If no beginning of the text fits the pattern, or if it gives no instant.
    pub fn parse_and_remainder<'a>(
        text: &'a str,
        pattern: &str,
    ) -> ParseResult<(DateTime<FixedOffset>, &'a str)> {
        let (fields, rest) = Parsed::of_beginning(text, pattern)?;
        Ok((fields.to_datetime()?, rest))
    }

    /// The instant that a text of RFC 2822 gives, such as `Thu, 29 Feb 2024 09:00:00 +0100`.
    ///
    /// # Errors
    ///
    /// If it is no such text.
    pub fn parse_from_rfc2822(text: &str) -> ParseResult<DateTime<FixedOffset>> {
        format::read_fixed(text, Fixed::RFC2822)?.to_datetime()
    }

    /// The instant that a text of RFC 3339 gives, such as `2024-02-29T09:00:00+01:00`.
    ///
    /// # Errors
    ///
    /// If it is no such text.
    pub fn parse_from_rfc3339(text: &str) -> ParseResult<DateTime<FixedOffset>> {
        format::read_fixed(text, Fixed::RFC3339)?.to_datetime()
    }
}

/// How many digits of a fraction `DateTime::to_rfc3339_opts` writes.
///
/// ```
/// use proved_calendar::chrono::SecondsFormat;
/// assert_ne!(SecondsFormat::Secs, SecondsFormat::AutoSi);
/// ```
#[derive(Clone, Copy, Debug, PartialEq, Eq, Hash)]
pub enum SecondsFormat {
    /// None, and no point.
    Secs,
    /// Three.
    Millis,
    /// Six.
    Micros,
    /// Nine.
    Nanos,
    /// None, three, six or nine: the fewest that hold it.
    AutoSi,
}

/// Texts.
impl<Tz: TimeZone> DateTime<Tz>
where
    Tz::Offset: fmt::Display,
{
    /// The text by a pattern of `format::strftime`. A wrong pattern shows when the text is printed.
    #[must_use]
    pub fn format<'a>(&self, pattern: &'a str) -> DelayedFormat<StrftimeItems<'a>> {
        self.format_with_items(StrftimeItems::new(pattern))
    }

    /// The text by items.
    #[must_use]
    pub fn format_with_items<I>(&self, items: I) -> DelayedFormat<I> {
        let local = self.naive_local();
        DelayedFormat::new_with_offset(Some(local.date()), Some(local.time()), &self.offset, items)
    }

    /// The text by RFC 2822, such as `Thu, 29 Feb 2024 09:00:00 +0100`.
    ///
    /// # Panics
    ///
    /// If the year is not from 0 to 9999.
    #[cfg(feature = "alloc")]
    #[must_use]
    pub fn to_rfc2822(&self) -> alloc::string::String {
        format::text_of(self.format("%a, %d %b %Y %H:%M:%S %z"))
    }

    /// The text by RFC 3339, such as `2024-02-29T09:00:00+01:00`.
    #[cfg(feature = "alloc")]
    #[must_use]
    pub fn to_rfc3339(&self) -> alloc::string::String {
        format::text_of(self.format("%+"))
    }

    /// The text by RFC 3339 with a choice of digits. If `use_z`, UTC is written as `Z`.
    #[cfg(feature = "alloc")]
    #[must_use]
    pub fn to_rfc3339_opts(&self, digits: SecondsFormat, use_z: bool) -> alloc::string::String {
        let fraction = match digits {
            SecondsFormat::Secs => "",
            SecondsFormat::Millis => "%.3f",
            SecondsFormat::Micros => "%.6f",
            SecondsFormat::Nanos => "%.9f",
            SecondsFormat::AutoSi => "%.f",
        };
        let mut text = format::text_of(self.format("%Y-%m-%dT%H:%M:%S"));
        text += &format::text_of(self.format(fraction));
        if use_z && self.offset.fix().local_minus_utc() == 0 {
            text + "Z"
        } else {
            text + &format::text_of(self.format("%:z"))
        }
    }
}

impl<Tz: TimeZone> Copy for DateTime<Tz> where Tz::Offset: Copy {}

impl<Tz: TimeZone, Other: TimeZone> PartialEq<DateTime<Other>> for DateTime<Tz> {
    fn eq(&self, other: &DateTime<Other>) -> bool {
        self.utc == other.utc
    }
}

impl<Tz: TimeZone> Eq for DateTime<Tz> {}

impl<Tz: TimeZone, Other: TimeZone> PartialOrd<DateTime<Other>> for DateTime<Tz> {
    fn partial_cmp(&self, other: &DateTime<Other>) -> Option<Ordering> {
        self.utc.partial_cmp(&other.utc)
    }
}

impl<Tz: TimeZone> Ord for DateTime<Tz> {
    fn cmp(&self, other: &DateTime<Tz>) -> Ordering {
        self.utc.cmp(&other.utc)
    }
}

impl<Tz: TimeZone> Hash for DateTime<Tz> {
    fn hash<H: Hasher>(&self, state: &mut H) {
        self.utc.hash(state);
    }
}

/// The fields of the local date, and the instants at which the clock shows another one.
macro_rules! local_fields {
    ($trait:ident: $($field:ident -> $kind:ty),*; $($changed:ident($argument:ident)),*; $whole:ident -> $number:ty) => {
        impl<Tz: TimeZone> $trait for DateTime<Tz> {
            $(fn $field(&self) -> $kind {
                self.naive_local().$field()
            })*

            $(fn $changed(&self, $argument: u32) -> Option<DateTime<Tz>> {
                self.at_local(self.naive_local().$changed($argument))
            })*

            fn $whole(&self) -> $number {
                self.naive_local().$whole()
            }

            local_fields!($trait);
        }
    };
    (Datelike) => {
        fn with_year(&self, year: i32) -> Option<DateTime<Tz>> {
            self.at_local(self.naive_local().with_year(year))
        }
    };
    (Timelike) => {};
}

local_fields!(
    Datelike:
    year -> i32, month -> u32, month0 -> u32, day -> u32, day0 -> u32, ordinal -> u32, ordinal0 -> u32,
    weekday -> Weekday, iso_week -> IsoWeek;
    with_month(month), with_month0(month0), with_day(day), with_day0(day0), with_ordinal(ordinal),
    with_ordinal0(ordinal0);
    num_days_from_ce -> i32
);

local_fields!(
    Timelike:
    hour -> u32, minute -> u32, second -> u32, nanosecond -> u32;
    with_hour(hour), with_minute(minute), with_second(second), with_nanosecond(nanosecond);
    num_seconds_from_midnight -> u32
);

/// An operator by the call that returns `None` where the operator panics.
macro_rules! by_call {
    ($($sign:ident $name:ident ($other:ty), $call:ident, $sentence:literal;)*) => {$(
        #[doc = concat!("The value of `", stringify!($call), "`. It panics where that is `None`.")]
        impl<Tz: TimeZone> $sign<$other> for DateTime<Tz> {
            type Output = DateTime<Tz>;

            fn $name(self, by: $other) -> DateTime<Tz> {
                self.$call(by).expect($sentence)
            }
        }
    )*};
}

by_call! {
    Add add(TimeDelta), checked_add_signed, "`DateTime + TimeDelta` overflowed";
    Sub sub(TimeDelta), checked_sub_signed, "`DateTime - TimeDelta` overflowed";
    Add add(Months), checked_add_months, "`DateTime + Months` out of range";
    Sub sub(Months), checked_sub_months, "`DateTime - Months` out of range";
    Add add(Days), checked_add_days, "`DateTime + Days` out of range";
    Sub sub(Days), checked_sub_days, "`DateTime - Days` out of range";
}

/// The instant so much later that a clock would be ahead by the offset.
impl<Tz: TimeZone> Add<FixedOffset> for DateTime<Tz> {
    type Output = DateTime<Tz>;

    fn add(mut self, offset: FixedOffset) -> DateTime<Tz> {
        self.utc = self.utc + offset;
        self
    }
}

/// The instant so much earlier that a clock would be behind by the offset.
impl<Tz: TimeZone> Sub<FixedOffset> for DateTime<Tz> {
    type Output = DateTime<Tz>;

    fn sub(mut self, offset: FixedOffset) -> DateTime<Tz> {
        self.utc = self.utc - offset;
        self
    }
}

impl<Tz: TimeZone> Add<StdDuration> for DateTime<Tz> {
    type Output = DateTime<Tz>;

    fn add(self, length: StdDuration) -> DateTime<Tz> {
        self + length_of(length)
    }
}

impl<Tz: TimeZone> Sub<StdDuration> for DateTime<Tz> {
    type Output = DateTime<Tz>;

    fn sub(self, length: StdDuration) -> DateTime<Tz> {
        self - length_of(length)
    }
}

impl<Tz: TimeZone> AddAssign<TimeDelta> for DateTime<Tz> {
    fn add_assign(&mut self, length: TimeDelta) {
        *self = self.clone() + length;
    }
}

impl<Tz: TimeZone> SubAssign<TimeDelta> for DateTime<Tz> {
    fn sub_assign(&mut self, length: TimeDelta) {
        *self = self.clone() - length;
    }
}

impl<Tz: TimeZone> Sub for DateTime<Tz> {
    type Output = TimeDelta;

    fn sub(self, base: DateTime<Tz>) -> TimeDelta {
        self.signed_duration_since(base)
    }
}

impl<Tz: TimeZone> Sub<&DateTime<Tz>> for DateTime<Tz> {
    type Output = TimeDelta;

    fn sub(self, base: &DateTime<Tz>) -> TimeDelta {
        self.signed_duration_since(base)
    }
}

/// 1970-01-01T00:00:00 in UTC.
impl Default for DateTime<Utc> {
    fn default() -> DateTime<Utc> {
        DateTime::UNIX_EPOCH
    }
}

/// 1970-01-01T00:00:00 in UTC, with no offset.
impl Default for DateTime<FixedOffset> {
    fn default() -> DateTime<FixedOffset> {
        DateTime::UNIX_EPOCH.into()
    }
}

impl From<DateTime<Utc>> for DateTime<FixedOffset> {
    fn from(instant: DateTime<Utc>) -> DateTime<FixedOffset> {
        instant.fixed_offset()
    }
}

impl From<DateTime<FixedOffset>> for DateTime<Utc> {
    fn from(instant: DateTime<FixedOffset>) -> DateTime<Utc> {
        instant.to_utc()
    }
}

/// It panics if the instant is out of range.
#[cfg(feature = "std")]
impl From<std::time::SystemTime> for DateTime<Utc> {
    fn from(time: std::time::SystemTime) -> DateTime<Utc> {
        match time.duration_since(std::time::UNIX_EPOCH) {
            Ok(passed) => DateTime::UNIX_EPOCH + passed,
            Err(before) => DateTime::UNIX_EPOCH - before.duration(),
        }
    }
}

#[cfg(feature = "std")]
impl<Tz: TimeZone> From<DateTime<Tz>> for std::time::SystemTime {
    fn from(instant: DateTime<Tz>) -> std::time::SystemTime {
        let nanos = u64::from(instant.timestamp_subsec_nanos());
        let whole = StdDuration::from_secs(instant.timestamp().unsigned_abs());
        let second = if instant.timestamp() < 0 {
            std::time::UNIX_EPOCH - whole
        } else {
            std::time::UNIX_EPOCH + whole
        };
        second + StdDuration::from_nanos(nanos)
    }
}

impl<Tz: TimeZone> fmt::Debug for DateTime<Tz> {
    fn fmt(&self, f: &mut fmt::Formatter<'_>) -> fmt::Result {
        fmt::Debug::fmt(&self.naive_local(), f)?;
        fmt::Debug::fmt(&self.offset, f)
    }
}

impl<Tz: TimeZone> fmt::Display for DateTime<Tz>
where
    Tz::Offset: fmt::Display,
{
    fn fmt(&self, f: &mut fmt::Formatter<'_>) -> fmt::Result {
        write!(f, "{} {}", self.naive_local(), self.offset)
    }
}

/// Reads a date, a `T` or a space, a time and an offset or `Z`; spaces may stand around each part.
impl FromStr for DateTime<FixedOffset> {
    type Err = ParseError;

    fn from_str(text: &str) -> ParseResult<DateTime<FixedOffset>> {
        format::read_instant(text)?.to_datetime()
    }
}

/// Reads the same as for a `DateTime<FixedOffset>`.
impl FromStr for DateTime<Utc> {
    type Err = ParseError;

    fn from_str(text: &str) -> ParseResult<DateTime<Utc>> {
        Ok(text.parse::<DateTime<FixedOffset>>()?.to_utc())
    }
}
