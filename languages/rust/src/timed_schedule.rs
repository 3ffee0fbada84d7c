//! Cron schedules with seconds and years.

use alloc::string::String;
use core::iter::FusedIterator;

use crate::layer_calls::*;
use crate::text_error::{Kind, TextError};
use crate::DateTime;

/// Which fields the text of a [`TimedSchedule`] has.
///
/// ```
/// use proved_calendar::{Dialect, TimedSchedule};
/// assert!(TimedSchedule::new("0 0 9 ? * MON", Dialect::Quartz).is_ok());
/// ```
#[derive(Clone, Copy, Debug, PartialEq, Eq, Hash)]
pub enum Dialect {
    /// The five fields of cron, due at second 0.
    Crontab = 0,
    /// A field for seconds in front of them.
    Seconds,
    /// The fields of Quartz: weekdays from 1 for Sunday, `?` for one field of days, and years behind.
    Quartz,
    /// The five fields of Go's robfig/cron: weekdays from 0 for Sunday to 6, and `?` for all numbers.
    Robfig,
}

/// A cron schedule with seconds, of a dialect. It needs the feature `alloc`.
///
/// ```
/// use proved_calendar::{Dialect, TimedSchedule};
/// let quarters = TimedSchedule::new("*/15 30 4 * * *", Dialect::Seconds).unwrap();
/// let next = quarters.next_after("2024-02-09T04:30:15".parse().unwrap());
/// assert_eq!(next.unwrap().to_string(), "2024-02-09T04:30:30");
/// ```
#[derive(Clone, Debug, PartialEq, Eq, Hash)]
pub struct TimedSchedule {
    text: String,
    dialect: Dialect,
}

impl TimedSchedule {
    /// Reads a schedule of a dialect.
    ///
    /// ```
    /// use proved_calendar::{Dialect, TimedSchedule};
    /// let wrong = TimedSchedule::new("0,60 * * * * *", Dialect::Seconds).unwrap_err();
    /// assert_eq!(wrong.to_string(), "second, byte 2: a number that is out of range");
    /// ```
    pub fn new(text: &str, dialect: Dialect) -> Result<TimedSchedule, TextError> {
        let mut fault = Fault::NONE;
        // SAFETY: so many bytes lie there.
        let is_read = unsafe {
            calendar_timed_schedule_check(text.as_ptr(), text.len(), dialect as u32, &mut fault)
        };
        if is_read {
            Ok(TimedSchedule {
                text: String::from(text),
                dialect,
            })
        } else {
            Err(TextError {
                fault,
                kind: Kind::Timed,
            })
        }
    }

    /// The first date-time after `start` at which the schedule is due; `None` if there is none.
    ///
    /// ```
    /// use proved_calendar::{Dialect, TimedSchedule};
    /// let once = TimedSchedule::new("0 0 0 1 1 ? 2024", Dialect::Quartz).unwrap();
    /// assert_eq!(once.next_after("2024-01-01T00:00:00".parse().unwrap()), None);
    /// ```
    #[must_use]
    pub fn next_after(&self, start: DateTime) -> Option<DateTime> {
        let (text, dialect) = (self.text.as_bytes(), self.dialect as u32);
        // SAFETY: so many bytes lie there.
        DateTime::found(unsafe {
            calendar_timed_schedule_next(text.as_ptr(), text.len(), dialect, start.moment())
        })
    }

    /// The last date-time before `start` at which the schedule is due; `None` if there is none.
    ///
    /// ```
    /// use proved_calendar::{Dialect, TimedSchedule};
    /// let daily = TimedSchedule::new("30 0 0 * * *", Dialect::Seconds).unwrap();
    /// let last = daily.prev_before("2024-03-01T00:00:00".parse().unwrap());
    /// assert_eq!(last.unwrap().to_string(), "2024-02-29T00:00:30");
    /// ```
    #[must_use]
    pub fn prev_before(&self, start: DateTime) -> Option<DateTime> {
        let (text, dialect) = (self.text.as_bytes(), self.dialect as u32);
        // SAFETY: so many bytes lie there.
        DateTime::found(unsafe {
            calendar_timed_schedule_prev(text.as_ptr(), text.len(), dialect, start.moment())
        })
    }

    /// Whether the schedule is due at `moment`, which it is never within a second.
    ///
    /// ```
    /// use proved_calendar::{Dialect, TimedSchedule};
    /// let daily = TimedSchedule::new("@daily", Dialect::Crontab).unwrap();
    /// assert!(daily.is_due("2024-03-01T00:00:00".parse().unwrap()));
    /// ```
    #[must_use]
    pub fn is_due(&self, moment: DateTime) -> bool {
        let (text, dialect) = (self.text.as_bytes(), self.dialect as u32);
        // SAFETY: so many bytes lie there.
        unsafe {
            calendar_timed_schedule_is_due(text.as_ptr(), text.len(), dialect, moment.moment())
        }
    }

    /// The date-times after `start` at which the schedule is due, in order.
    ///
    /// ```
    /// use proved_calendar::{DateTime, Dialect, TimedSchedule};
    /// let year = TimedSchedule::new("0 0 0 1 * ? 2024", Dialect::Quartz).unwrap();
    /// assert_eq!(year.after("2024-01-01T00:00:00".parse::<DateTime>().unwrap()).count(), 11);
    /// ```
    pub fn after(&self, start: DateTime) -> impl FusedIterator<Item = DateTime> + '_ {
        let mut last = Some(start);
        core::iter::from_fn(move || {
            last = self.next_after(last?);
            last
        })
        .fuse()
    }
}
