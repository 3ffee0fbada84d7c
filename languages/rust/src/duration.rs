//! Durations.

use core::fmt::{self, Write};
use core::iter::Sum;
use core::num::NonZeroU32;
use core::ops::{Add, AddAssign, Neg, Sub, SubAssign};
use core::str::{from_utf8, FromStr};

use crate::calls::{Span, NO_NANOS};
use crate::ParseError;

/// The nanoseconds of a second.
const NANOS: i128 = 1_000_000_000;

/// The nanoseconds of the longest duration.
const LONGEST: i128 = i64::MAX as i128 * 1_000_000;

/// The number of bytes of the longest text of a duration, such as `-PT9223372036854775.000000001S`.
const TEXT_ROOM: usize = 30;

/// A length of time in whole nanoseconds, forward or back, of at most 2^63 - 1 milliseconds.
///
/// It prints as ISO 8601's text in seconds, with the fewest digits of a fraction; zero prints as `P0D`. A string that is
/// parsed may have more digits of a fraction, up to nine.
///
/// ```
/// use proved_calendar::Duration;
/// let length = Duration::from_nanoseconds(-1_500_000_000).unwrap();
/// assert_eq!(length.to_string(), "-PT1.5S");
/// assert_eq!("-PT1.500S".parse(), Ok(length));
/// assert_eq!(Duration::ZERO.to_string(), "P0D");
/// ```
#[derive(Clone, Copy, PartialEq, Eq, PartialOrd, Ord, Hash)]
pub struct Duration {
    seconds: i64,
    /// One more than the nanoseconds past the seconds, so that there is a number for none.
    after: NonZeroU32,
}

impl Duration {
    /// No time.
    ///
    /// ```
    /// use proved_calendar::Duration;
    /// assert_eq!(Duration::ZERO.nanoseconds(), 0);
    /// ```
    pub const ZERO: Duration = Duration {
        seconds: 0,
        after: NonZeroU32::MIN,
    };

    /// The duration that a function of the library returns.
    pub(crate) fn found(span: Span) -> Option<Duration> {
        let after = NonZeroU32::new(span.nanos.wrapping_sub(NO_NANOS))?;
        Some(Duration {
            seconds: span.seconds,
            after,
        })
    }

    /// The duration of so many seconds and nanoseconds past those. `None` if it is too long, or if the nanoseconds are a
    /// second or more.
    pub(crate) const fn of_parts(seconds: i64, nanos: u32) -> Option<Duration> {
        let whole = i64::MAX / 1_000;
        let is_short = -whole <= seconds && seconds < whole
            || seconds == whole && nanos <= 807_000_000
            || seconds == -whole - 1 && nanos >= 193_000_000;
        match NonZeroU32::MIN.checked_add(nanos) {
            Some(after) if is_short && nanos < NANOS as u32 => Some(Duration { seconds, after }),
            _ => None,
        }
    }

    /// The duration as the library takes it.
    pub(crate) const fn span(self) -> Span {
        Span {
            seconds: self.seconds,
            nanos: self.nanos(),
        }
    }

    /// The duration of `seconds` seconds. `None` if it is too long.
    ///
    /// ```
    /// use proved_calendar::Duration;
    /// assert_eq!(Duration::from_seconds(90).unwrap().to_string(), "PT90S");
    /// assert_eq!(Duration::from_seconds(i64::MAX), None);
    /// ```
    #[must_use]
    pub fn from_seconds(seconds: i64) -> Option<Duration> {
        Duration::from_nanoseconds(i128::from(seconds) * NANOS)
    }

    /// The duration of `nanoseconds` nanoseconds. `None` if it is too long.
    ///
    /// ```
    /// use proved_calendar::Duration;
    /// assert_eq!(Duration::from_nanoseconds(1).unwrap().to_string(), "PT0.000000001S");
    /// assert_eq!(Duration::from_nanoseconds(i128::MAX), None);
    /// ```
    #[must_use]
    pub fn from_nanoseconds(nanoseconds: i128) -> Option<Duration> {
        if !(-LONGEST..=LONGEST).contains(&nanoseconds) {
            return None;
        }
        Duration::found(Span {
            seconds: nanoseconds.div_euclid(NANOS) as i64,
            nanos: nanoseconds.rem_euclid(NANOS) as u32,
        })
    }

    /// The whole seconds, rounded down: -2 of -1.5 seconds.
    ///
    /// ```
    /// use proved_calendar::Duration;
    /// assert_eq!(Duration::from_nanoseconds(-1_500_000_000).unwrap().seconds(), -2);
    /// ```
    #[must_use]
    pub const fn seconds(self) -> i64 {
        self.seconds
    }

    /// The nanoseconds past the whole seconds, from 0 to 999,999,999.
    ///
    /// ```
    /// use proved_calendar::Duration;
    /// assert_eq!(Duration::from_nanoseconds(-1_400_000_000).unwrap().nanos(), 600_000_000);
    /// ```
    #[must_use]
    pub const fn nanos(self) -> u32 {
        self.after.get() - 1
    }

    /// The whole duration in nanoseconds.
    ///
    /// ```
    /// use proved_calendar::Duration;
    /// assert_eq!(Duration::from_seconds(2).unwrap().nanoseconds(), 2_000_000_000);
    /// ```
    #[must_use]
    pub fn nanoseconds(self) -> i128 {
        i128::from(self.seconds) * NANOS + i128::from(self.nanos())
    }

    /// The sum; `None` if it is too long.
    ///
    /// ```
    /// use proved_calendar::Duration;
    /// let second = Duration::from_seconds(1).unwrap();
    /// assert_eq!(second.checked_add(second), Duration::from_seconds(2));
    /// ```
    #[must_use]
    pub fn checked_add(self, other: Duration) -> Option<Duration> {
        Duration::from_nanoseconds(self.nanoseconds() + other.nanoseconds())
    }

    /// The difference; `None` if it is too long.
    ///
    /// ```
    /// use proved_calendar::Duration;
    /// let second = Duration::from_seconds(1).unwrap();
    /// assert_eq!(second.checked_sub(second), Some(Duration::ZERO));
    /// ```
    #[must_use]
    pub fn checked_sub(self, other: Duration) -> Option<Duration> {
        self.checked_add(-other)
    }
}

/// The same length the other way, which there is of every duration.
///
/// ```
/// use proved_calendar::Duration;
/// let second = Duration::from_seconds(1).unwrap();
/// assert_eq!(-second, Duration::from_seconds(-1).unwrap());
/// ```
impl Neg for Duration {
    type Output = Duration;

    fn neg(self) -> Duration {
        Duration::from_nanoseconds(-self.nanoseconds())
            .expect("a duration has its like the other way")
    }
}

/// The sum.
///
/// # Panics
///
/// If the sum is too long, as the operators of `core::time::Duration` do; [`Duration::checked_add`] returns `None`
/// there.
///
/// ```
/// use proved_calendar::Duration;
/// let second = Duration::from_seconds(1).unwrap();
/// assert_eq!(second + second, Duration::from_seconds(2).unwrap());
/// ```
impl Add for Duration {
    type Output = Duration;

    fn add(self, other: Duration) -> Duration {
        self.checked_add(other)
            .expect("the sum of two durations is too long")
    }
}

/// The difference.
///
/// # Panics
///
/// If it is too long; [`Duration::checked_sub`] returns `None` there.
///
/// ```
/// use proved_calendar::Duration;
/// let second = Duration::from_seconds(1).unwrap();
/// assert_eq!(second - second, Duration::ZERO);
/// ```
impl Sub for Duration {
    type Output = Duration;

    fn sub(self, other: Duration) -> Duration {
        self.checked_sub(other)
            .expect("the difference of two durations is too long")
    }
}

/// The sum, as `+` has it.
///
/// ```
/// use proved_calendar::Duration;
/// let mut length = Duration::from_seconds(1).unwrap();
/// length += length;
/// assert_eq!(length, Duration::from_seconds(2).unwrap());
/// ```
impl AddAssign for Duration {
    fn add_assign(&mut self, other: Duration) {
        *self = *self + other;
    }
}

/// The difference, as `-` has it.
///
/// ```
/// use proved_calendar::Duration;
/// let mut length = Duration::from_seconds(1).unwrap();
/// length -= length;
/// assert_eq!(length, Duration::ZERO);
/// ```
impl SubAssign for Duration {
    fn sub_assign(&mut self, other: Duration) {
        *self = *self - other;
    }
}

/// The sum of all; it panics if that, or the sum of the first of them, is too long.
///
/// ```
/// use proved_calendar::Duration;
/// let total: Duration = (1..=3).filter_map(Duration::from_seconds).sum();
/// assert_eq!(total.to_string(), "PT6S");
/// ```
impl Sum for Duration {
    fn sum<I: Iterator<Item = Duration>>(durations: I) -> Duration {
        durations.fold(Duration::ZERO, |sum, it| sum + it)
    }
}

impl<'a> Sum<&'a Duration> for Duration {
    fn sum<I: Iterator<Item = &'a Duration>>(durations: I) -> Duration {
        durations.copied().sum()
    }
}

/// Room for a text.
struct Text {
    bytes: [u8; TEXT_ROOM],
    length: usize,
}

impl Write for Text {
    fn write_str(&mut self, text: &str) -> fmt::Result {
        let end = self.length + text.len();
        let room = self.bytes.get_mut(self.length..end).ok_or(fmt::Error)?;
        room.copy_from_slice(text.as_bytes());
        self.length = end;
        Ok(())
    }
}

impl fmt::Display for Duration {
    fn fmt(&self, f: &mut fmt::Formatter<'_>) -> fmt::Result {
        let nanoseconds = self.nanoseconds();
        if nanoseconds == 0 {
            return f.pad("P0D");
        }
        let mut text = Text {
            bytes: [0; TEXT_ROOM],
            length: 0,
        };
        let (size, sign) = (
            nanoseconds.unsigned_abs(),
            if nanoseconds < 0 { "-" } else { "" },
        );
        let (seconds, mut fraction) = (size / NANOS as u128, size % NANOS as u128);
        write!(text, "{sign}PT{seconds}")?;
        if fraction > 0 {
            let mut digits = 9;
            while fraction % 10 == 0 {
                (fraction, digits) = (fraction / 10, digits - 1);
            }
            write!(text, ".{fraction:0digits$}")?;
        }
        text.write_str("S")?;
        f.pad(from_utf8(&text.bytes[..text.length]).map_err(|_| fmt::Error)?)
    }
}

impl fmt::Debug for Duration {
    fn fmt(&self, f: &mut fmt::Formatter<'_>) -> fmt::Result {
        fmt::Display::fmt(self, f)
    }
}

impl FromStr for Duration {
    type Err = ParseError;

    /// The duration with this text.
    fn from_str(text: &str) -> Result<Duration, ParseError> {
        nanoseconds_of(text)
            .and_then(Duration::from_nanoseconds)
            .ok_or(ParseError { kind: "duration" })
    }
}

/// The nanoseconds of the text of a duration.
fn nanoseconds_of(text: &str) -> Option<i128> {
    if text == "P0D" {
        return Some(0);
    }
    let (sign, size) = text.strip_prefix('-').map_or((1, text), |rest| (-1, rest));
    let number = size.strip_prefix("PT")?.strip_suffix('S')?;
    let (seconds, fraction) = number.split_once('.').unwrap_or((number, "0"));
    let is_number = |it: &str| !it.is_empty() && it.bytes().all(|byte| byte.is_ascii_digit());
    if !is_number(seconds) || !is_number(fraction) || fraction.len() > 9 {
        return None;
    }
    let nanos = fraction.parse::<i128>().ok()? * 10_i128.pow(9 - fraction.len() as u32);
    Some(sign * (i128::from(seconds.parse::<i64>().ok()?) * NANOS + nanos))
}
