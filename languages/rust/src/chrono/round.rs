//! Rounding of fractions and of whole date-times.

use core::error::Error;
use core::fmt;
use core::ops::{Add, Sub};

use super::{DateTime, NaiveDateTime, TimeDelta, TimeZone, Timelike};

/// Rounds or cuts the fraction of a second to so many digits.
///
/// ```
/// use proved_calendar::chrono::{NaiveTime, SubsecRound};
/// let time = NaiveTime::from_hms_milli_opt(12, 0, 0, 154).unwrap();
/// assert_eq!(time.round_subsecs(1).to_string(), "12:00:00.200");
/// assert_eq!(time.trunc_subsecs(1).to_string(), "12:00:00.100");
/// ```
pub trait SubsecRound {
    /// The value with so many digits, and half a unit rounded up. With nine digits or more it stays as it is.
    #[must_use]
    fn round_subsecs(self, digits: u16) -> Self;

    /// The value with so many digits, and the rest left out. With nine digits or more it stays as it is.
    #[must_use]
    fn trunc_subsecs(self, digits: u16) -> Self;
}

/// The nanoseconds of a unit of so many digits.
fn unit(digits: u16) -> u32 {
    10_u32.pow(9_u32.saturating_sub(u32::from(digits)))
}

impl<T: Timelike + Add<TimeDelta, Output = T> + Sub<TimeDelta, Output = T>> SubsecRound for T {
    fn round_subsecs(self, digits: u16) -> T {
        let (unit, nanos) = (unit(digits), self.nanosecond());
        let down = nanos % unit;
        if down == 0 {
            return self;
        }
        let up = unit - down;
        if up <= down {
            self + TimeDelta::nanoseconds(i64::from(up))
        } else {
            self - TimeDelta::nanoseconds(i64::from(down))
        }
    }

    fn trunc_subsecs(self, digits: u16) -> T {
        let down = self.nanosecond() % unit(digits);
        if down == 0 {
            return self;
        }
        self - TimeDelta::nanoseconds(i64::from(down))
    }
}

/// Rounds or cuts a date-time to a multiple of a length, counted from 1970-01-01T00:00:00 on the local clock.
///
/// ```
/// use proved_calendar::chrono::{DurationRound, NaiveDate, TimeDelta};
/// let moment = NaiveDate::from_ymd_opt(2024, 2, 29).unwrap().and_hms_opt(12, 0, 0).unwrap();
/// assert_eq!(moment.duration_round(TimeDelta::days(1)).unwrap().to_string(), "2024-03-01 00:00:00");
/// assert_eq!(moment.duration_trunc(TimeDelta::days(1)).unwrap().to_string(), "2024-02-29 00:00:00");
/// ```
pub trait DurationRound: Sized {
    /// Why there is no such value.
    type Err: Error;

    /// The nearest multiple, and the later one of two.
    ///
    /// # Errors
    ///
    /// If the length is not positive, if it or the date-time is no `i64` of nanoseconds, or if it is longer than the date-time's.
    fn duration_round(self, length: TimeDelta) -> Result<Self, Self::Err>;

    /// The last multiple that is not later.
    ///
    /// # Errors
    ///
    /// If the length is not positive, if it or the date-time is no `i64` of nanoseconds, or if it is longer than the date-time's.
    fn duration_trunc(self, length: TimeDelta) -> Result<Self, Self::Err>;
}

/// Why a date-time cannot be rounded.
///
/// ```
/// use proved_calendar::chrono::{DateTime, DurationRound, RoundingError, TimeDelta};
/// let refused = DateTime::UNIX_EPOCH.duration_round(TimeDelta::MAX);
/// assert_eq!(refused, Err(RoundingError::DurationExceedsLimit));
/// ```
#[derive(Clone, Copy, Debug, PartialEq, Eq)]
pub enum RoundingError {
    /// The length is longer than the time from 1970-01-01T00:00:00.
    DurationExceedsTimestamp,
    /// The length is no `i64` of nanoseconds, or is not positive.
    DurationExceedsLimit,
    /// The date-time is no `i64` of nanoseconds after 1970-01-01T00:00:00.
    TimestampExceedsLimit,
}

impl fmt::Display for RoundingError {
    fn fmt(&self, f: &mut fmt::Formatter<'_>) -> fmt::Result {
        f.write_str(match self {
            RoundingError::DurationExceedsTimestamp => {
                "the duration is longer than the time since 1970-01-01T00:00:00"
            }
            RoundingError::DurationExceedsLimit => "the duration is out of range",
            RoundingError::TimestampExceedsLimit => "the date-time is out of range",
        })
    }
}

impl Error for RoundingError {}

/// The nanoseconds from the last multiple of a length to a local time, and those of the length.
fn past_multiple(local: NaiveDateTime, length: TimeDelta) -> Result<(i64, i64), RoundingError> {
    let span = length.num_nanoseconds().filter(|it| *it > 0);
    let span = span.ok_or(RoundingError::DurationExceedsLimit)?;
    let stamp = local
        .timestamp_nanos_opt()
        .ok_or(RoundingError::TimestampExceedsLimit)?;
    if span > stamp.saturating_abs() && stamp != 0 {
        return Err(RoundingError::DurationExceedsTimestamp);
    }
    Ok((stamp.rem_euclid(span), span))
}

/// The rounded value.
fn rounded<T>(value: T, local: NaiveDateTime, length: TimeDelta) -> Result<T, RoundingError>
where
    T: Add<TimeDelta, Output = T> + Sub<TimeDelta, Output = T>,
{
    let (down, span) = past_multiple(local, length)?;
    let up = span - down;
    Ok(if down == 0 {
        value
    } else if up <= down {
        value + TimeDelta::nanoseconds(up)
    } else {
        value - TimeDelta::nanoseconds(down)
    })
}

impl DurationRound for NaiveDateTime {
    type Err = RoundingError;

    fn duration_round(self, length: TimeDelta) -> Result<NaiveDateTime, RoundingError> {
        rounded(self, self, length)
    }

    fn duration_trunc(self, length: TimeDelta) -> Result<NaiveDateTime, RoundingError> {
        let (down, _) = past_multiple(self, length)?;
        Ok(self - TimeDelta::nanoseconds(down))
    }
}

impl<Tz: TimeZone> DurationRound for DateTime<Tz> {
    type Err = RoundingError;

    fn duration_round(self, length: TimeDelta) -> Result<DateTime<Tz>, RoundingError> {
        let local = self.naive_local();
        rounded(self, local, length)
    }

    fn duration_trunc(self, length: TimeDelta) -> Result<DateTime<Tz>, RoundingError> {
        let (down, _) = past_multiple(self.naive_local(), length)?;
        Ok(self - TimeDelta::nanoseconds(down))
    }
}
