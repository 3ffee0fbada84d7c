//! Lengths of time.

use core::error::Error;
use core::fmt;
use core::iter::Sum;
use core::ops::{Add, AddAssign, Div, Mul, Neg, Sub, SubAssign};
use core::time::Duration as StdDuration;

use crate::calls::Span;

/// The nanoseconds of a second.
const NANOS: i128 = 1_000_000_000;

/// A length of time in whole nanoseconds, forward or back, of at most 2^63 - 1 milliseconds.
///
/// It prints in seconds, as ISO 8601 writes a duration.
///
/// ```
/// use proved_calendar::chrono::TimeDelta;
/// let length = TimeDelta::minutes(2) - TimeDelta::milliseconds(500);
/// assert_eq!((length.num_seconds(), length.subsec_millis()), (119, 500));
/// assert_eq!(length.to_string(), "PT119.5S");
/// ```
#[derive(Clone, Copy, PartialEq, Eq, PartialOrd, Ord, Hash)]
pub struct TimeDelta(pub(super) crate::Duration);

/// The value, or a panic with the sentence if there is none.
const fn known(found: Option<TimeDelta>, sentence: &str) -> TimeDelta {
    match found {
        Some(length) => length,
        None => panic!("{}", sentence),
    }
}

/// Two calls for one unit: one returns `None` where the other panics.
macro_rules! of_units {
    ($(($attempt:ident, $name:ident, $seconds:literal, $unit:literal)),*) => {$(
        #[doc = concat!("The length of so many ", $unit, "; `None` if it is too long.")]
        #[must_use]
        pub const fn $attempt(count: i64) -> Option<TimeDelta> {
            match count.checked_mul($seconds) {
                Some(seconds) => TimeDelta::new(seconds, 0),
                None => None,
            }
        }

        #[doc = concat!("The length of so many ", $unit, ".")]
        ///
        /// # Panics
        ///
        /// If it is too long.
        #[must_use]
        pub const fn $name(count: i64) -> TimeDelta {
            known(TimeDelta::$attempt(count), concat!("so many ", $unit, " are too long for a TimeDelta"))
        }
    )*};
}

impl TimeDelta {
    /// The longest length back: 2^63 - 1 milliseconds.
    pub const MIN: TimeDelta = known(
        TimeDelta::new(-(i64::MAX / 1_000) - 1, 193_000_000),
        "the shortest",
    );

    /// The longest length forward: 2^63 - 1 milliseconds.
    pub const MAX: TimeDelta = known(TimeDelta::new(i64::MAX / 1_000, 807_000_000), "the longest");

    of_units!(
        (try_weeks, weeks, 604_800, "weeks"),
        (try_days, days, 86_400, "days"),
        (try_hours, hours, 3_600, "hours"),
        (try_minutes, minutes, 60, "minutes"),
        (try_seconds, seconds, 1, "seconds")
    );

    /// The length of so many seconds and, after those, nanoseconds from 0 to 999,999,999; `None` if it is too long.
    #[must_use]
    pub const fn new(seconds: i64, nanos: u32) -> Option<TimeDelta> {
        match crate::Duration::of_parts(seconds, nanos) {
            Some(length) => Some(TimeDelta(length)),
            None => None,
        }
    }

    /// The length of so many milliseconds; `None` for `i64::MIN`, which is too long.
    #[must_use]
    pub const fn try_milliseconds(count: i64) -> Option<TimeDelta> {
        let nanos = count.rem_euclid(1_000) as u32 * 1_000_000;
        TimeDelta::new(count.div_euclid(1_000), nanos)
    }

    /// The length of so many milliseconds.
    ///
    /// # Panics
    ///
    /// For `i64::MIN`, which is too long.
    #[must_use]
    pub const fn milliseconds(count: i64) -> TimeDelta {
        known(
            TimeDelta::try_milliseconds(count),
            "so many milliseconds are too long for a TimeDelta",
        )
    }

    /// The length of so many microseconds.
    #[must_use]
    pub const fn microseconds(count: i64) -> TimeDelta {
        let nanos = count.rem_euclid(1_000_000) as u32 * 1_000;
        known(
            TimeDelta::new(count.div_euclid(1_000_000), nanos),
            "a number of microseconds is no duration",
        )
    }

    /// The length of so many nanoseconds.
    #[must_use]
    pub const fn nanoseconds(count: i64) -> TimeDelta {
        let nanos = count.rem_euclid(1_000_000_000) as u32;
        known(
            TimeDelta::new(count.div_euclid(1_000_000_000), nanos),
            "a number of nanoseconds is no duration",
        )
    }

    /// The whole weeks, rounded towards zero.
    #[must_use]
    pub const fn num_weeks(&self) -> i64 {
        self.num_seconds() / 604_800
    }

    /// The whole days, rounded towards zero.
    #[must_use]
    pub const fn num_days(&self) -> i64 {
        self.num_seconds() / 86_400
    }

    /// The whole hours, rounded towards zero.
    #[must_use]
    pub const fn num_hours(&self) -> i64 {
        self.num_seconds() / 3_600
    }

    /// The whole minutes, rounded towards zero.
    #[must_use]
    pub const fn num_minutes(&self) -> i64 {
        self.num_seconds() / 60
    }

    /// The whole seconds, rounded towards zero.
    #[must_use]
    pub const fn num_seconds(&self) -> i64 {
        let (seconds, nanos) = (self.0.seconds(), self.0.nanos());
        if seconds < 0 && nanos > 0 {
            seconds + 1
        } else {
            seconds
        }
    }

    /// The whole milliseconds, rounded towards zero.
    #[must_use]
    pub const fn num_milliseconds(&self) -> i64 {
        self.num_seconds() * 1_000 + self.subsec_millis() as i64
    }

    /// The whole microseconds, rounded towards zero; `None` if they are no `i64`.
    #[must_use]
    pub const fn num_microseconds(&self) -> Option<i64> {
        match self.num_seconds().checked_mul(1_000_000) {
            Some(micros) => micros.checked_add(self.subsec_micros() as i64),
            None => None,
        }
    }

    /// The nanoseconds; `None` if they are no `i64`.
    #[must_use]
    pub const fn num_nanoseconds(&self) -> Option<i64> {
        match self.num_seconds().checked_mul(1_000_000_000) {
            Some(nanos) => nanos.checked_add(self.subsec_nanos() as i64),
            None => None,
        }
    }

    /// The whole milliseconds past `num_seconds`, with the sign of the length.
    #[must_use]
    pub const fn subsec_millis(&self) -> i32 {
        self.subsec_nanos() / 1_000_000
    }

    /// The whole microseconds past `num_seconds`, with the sign of the length.
    #[must_use]
    pub const fn subsec_micros(&self) -> i32 {
        self.subsec_nanos() / 1_000
    }

    /// The nanoseconds past `num_seconds`, with the sign of the length.
    #[must_use]
    pub const fn subsec_nanos(&self) -> i32 {
        let (seconds, nanos) = (self.0.seconds(), self.0.nanos() as i32);
        if seconds < 0 && nanos > 0 {
            nanos - NANOS as i32
        } else {
            nanos
        }
    }

    /// The length in seconds, rounded to an `f64`.
    #[must_use]
    pub fn as_seconds_f64(self) -> f64 {
        self.0.seconds() as f64 + f64::from(self.0.nanos()) / 1e9
    }

    /// The length in seconds, rounded to an `f32`.
    #[must_use]
    pub fn as_seconds_f32(self) -> f32 {
        self.0.seconds() as f32 + self.0.nanos() as f32 / 1e9
    }

    /// The sum; `None` if it is too long.
    #[must_use]
    pub const fn checked_add(&self, rhs: &TimeDelta) -> Option<TimeDelta> {
        let nanos = self.0.nanos() + rhs.0.nanos();
        let seconds = self.0.seconds() + rhs.0.seconds() + (nanos / NANOS as u32) as i64;
        TimeDelta::new(seconds, nanos % NANOS as u32)
    }

    /// The difference; `None` if it is too long.
    #[must_use]
    pub const fn checked_sub(&self, rhs: &TimeDelta) -> Option<TimeDelta> {
        self.checked_add(&rhs.turned())
    }

    /// The product; `None` if it is too long.
    #[must_use]
    pub const fn checked_mul(&self, rhs: i32) -> Option<TimeDelta> {
        TimeDelta::of_nanoseconds(self.all_nanoseconds() * rhs as i128)
    }

    /// The quotient; `None` if `rhs` is 0.
    ///
    /// The seconds, rounded down, and the nanoseconds past them are divided for themselves. Each quotient is rounded
    /// towards zero to nanoseconds, so that half of -1 ns is -1 ns.
    #[must_use]
    pub const fn checked_div(&self, rhs: i32) -> Option<TimeDelta> {
        if rhs == 0 {
            return None;
        }
        let of_seconds = self.0.seconds() as i128 * NANOS / rhs as i128;
        let of_nanos = self.0.nanos() as i128 / rhs as i128;
        TimeDelta::of_nanoseconds(of_seconds + of_nanos)
    }

    /// The same length forward.
    #[must_use]
    pub const fn abs(&self) -> TimeDelta {
        if self.0.seconds() < 0 {
            self.turned()
        } else {
            *self
        }
    }

    /// [`TimeDelta::MIN`].
    #[must_use]
    pub const fn min_value() -> TimeDelta {
        TimeDelta::MIN
    }

    /// [`TimeDelta::MAX`].
    #[must_use]
    pub const fn max_value() -> TimeDelta {
        TimeDelta::MAX
    }

    /// No time.
    #[must_use]
    pub const fn zero() -> TimeDelta {
        TimeDelta(crate::Duration::ZERO)
    }

    /// Whether it is no time.
    #[must_use]
    pub const fn is_zero(&self) -> bool {
        self.0.seconds() == 0 && self.0.nanos() == 0
    }

    /// The length of a duration of std; an error if it is too long.
    ///
    /// # Errors
    ///
    /// If it is longer than [`TimeDelta::MAX`].
    pub const fn from_std(duration: StdDuration) -> Result<TimeDelta, OutOfRangeError> {
        if duration.as_secs() > i64::MAX as u64 {
            return Err(OutOfRangeError(()));
        }
        match TimeDelta::new(duration.as_secs() as i64, duration.subsec_nanos()) {
            Some(length) => Ok(length),
            None => Err(OutOfRangeError(())),
        }
    }

    /// The length as a duration of std.
    ///
    /// # Errors
    ///
    /// If it is negative.
    pub const fn to_std(&self) -> Result<StdDuration, OutOfRangeError> {
        if self.0.seconds() < 0 {
            return Err(OutOfRangeError(()));
        }
        Ok(StdDuration::new(self.0.seconds() as u64, self.0.nanos()))
    }

    /// The whole length in nanoseconds.
    const fn all_nanoseconds(&self) -> i128 {
        self.0.seconds() as i128 * NANOS + self.0.nanos() as i128
    }

    /// The length of so many nanoseconds; `None` if it is too long.
    const fn of_nanoseconds(count: i128) -> Option<TimeDelta> {
        match as_i64(count.div_euclid(NANOS)) {
            Some(seconds) => TimeDelta::new(seconds, count.rem_euclid(NANOS) as u32),
            None => None,
        }
    }

    /// The same length the other way.
    const fn turned(&self) -> TimeDelta {
        let (seconds, nanos) = (self.0.seconds(), self.0.nanos());
        let turned = if nanos == 0 {
            TimeDelta::new(-seconds, 0)
        } else {
            TimeDelta::new(-seconds - 1, NANOS as u32 - nanos)
        };
        known(turned, "a duration has its like the other way")
    }

    /// The length as the library takes it.
    pub(super) const fn span(&self) -> Span {
        self.0.span()
    }
}

/// The number as an `i64`, if it is one.
const fn as_i64(number: i128) -> Option<i64> {
    if i64::MIN as i128 <= number && number <= i64::MAX as i128 {
        Some(number as i64)
    } else {
        None
    }
}

impl Default for TimeDelta {
    fn default() -> TimeDelta {
        TimeDelta::zero()
    }
}

impl From<crate::Duration> for TimeDelta {
    fn from(length: crate::Duration) -> TimeDelta {
        TimeDelta(length)
    }
}

impl From<TimeDelta> for crate::Duration {
    fn from(length: TimeDelta) -> crate::Duration {
        length.0
    }
}

impl Neg for TimeDelta {
    type Output = TimeDelta;

    fn neg(self) -> TimeDelta {
        self.turned()
    }
}

/// The sum. It panics if that is too long.
impl Add for TimeDelta {
    type Output = TimeDelta;

    fn add(self, rhs: TimeDelta) -> TimeDelta {
        known(self.checked_add(&rhs), "`TimeDelta + TimeDelta` overflowed")
    }
}

/// The difference. It panics if that is too long.
impl Sub for TimeDelta {
    type Output = TimeDelta;

    fn sub(self, rhs: TimeDelta) -> TimeDelta {
        known(self.checked_sub(&rhs), "`TimeDelta - TimeDelta` overflowed")
    }
}

impl AddAssign for TimeDelta {
    fn add_assign(&mut self, rhs: TimeDelta) {
        *self = *self + rhs;
    }
}

impl SubAssign for TimeDelta {
    fn sub_assign(&mut self, rhs: TimeDelta) {
        *self = *self - rhs;
    }
}

/// The product. It panics if that is too long.
impl Mul<i32> for TimeDelta {
    type Output = TimeDelta;

    fn mul(self, rhs: i32) -> TimeDelta {
        known(self.checked_mul(rhs), "`TimeDelta * i32` overflowed")
    }
}

/// The quotient of [`TimeDelta::checked_div`]. It panics if `rhs` is 0.
impl Div<i32> for TimeDelta {
    type Output = TimeDelta;

    fn div(self, rhs: i32) -> TimeDelta {
        known(self.checked_div(rhs), "`TimeDelta / 0`")
    }
}

impl Sum for TimeDelta {
    fn sum<I: Iterator<Item = TimeDelta>>(lengths: I) -> TimeDelta {
        lengths.fold(TimeDelta::zero(), |sum, it| sum + it)
    }
}

impl<'a> Sum<&'a TimeDelta> for TimeDelta {
    fn sum<I: Iterator<Item = &'a TimeDelta>>(lengths: I) -> TimeDelta {
        lengths.copied().sum()
    }
}

impl fmt::Display for TimeDelta {
    fn fmt(&self, f: &mut fmt::Formatter<'_>) -> fmt::Result {
        write!(f, "{}", self.0)
    }
}

impl fmt::Debug for TimeDelta {
    fn fmt(&self, f: &mut fmt::Formatter<'_>) -> fmt::Result {
        let mut fields = f.debug_struct("TimeDelta");
        fields.field("secs", &self.0.seconds());
        fields.field("nanos", &self.0.nanos()).finish()
    }
}

/// A duration of std and a [`TimeDelta`] have different ranges.
///
/// ```
/// use proved_calendar::chrono::TimeDelta;
/// assert!(TimeDelta::seconds(-1).to_std().is_err());
/// ```
#[derive(Clone, Copy, Debug, PartialEq, Eq)]
pub struct OutOfRangeError(());

impl fmt::Display for OutOfRangeError {
    fn fmt(&self, f: &mut fmt::Formatter<'_>) -> fmt::Result {
        f.write_str("the duration is out of the range of the other type")
    }
}

impl Error for OutOfRangeError {}
