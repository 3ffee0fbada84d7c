//! Cron schedules.

use core::iter::FusedIterator;
use core::str::FromStr;

use crate::calls::{Moment, NO_NANOS};
use crate::layer_calls::*;
use crate::text_error::{Kind, TextError};
use crate::DateTime;

/// So many times are found at once, at most.
const AT_ONCE: usize = 64;

/// A cron schedule, such as `30 4 1,15 * fri`: minute, hour, day of the month, month, weekday.
///
/// It is due at the beginning of minutes. If both days of the month and weekdays are listed, one of them is enough, unless one of the
/// fields begins with `*`. Schedules are compared by what their fields list.
///
/// ```
/// use proved_calendar::{DateTime, Schedule};
/// let schedule: Schedule = "30 4 1,15 * fri".parse().unwrap();
/// let start: DateTime = "2024-02-09T04:30:00".parse().unwrap();
/// assert_eq!(schedule.next_after(start).unwrap().to_string(), "2024-02-15T04:30:00");
/// ```
#[derive(Clone, Copy, Debug, PartialEq, Eq, Hash)]
pub struct Schedule {
    sets: Sets,
}

impl Schedule {
    /// The first date-time after `start` at which the schedule is due; `None` if there is none.
    ///
    /// ```
    /// use proved_calendar::{DateTime, Schedule};
    /// let leap_days: Schedule = "0 0 29 2 *".parse().unwrap();
    /// let start: DateTime = "2096-02-29T00:00:00".parse().unwrap();
    /// assert_eq!(leap_days.next_after(start).unwrap().to_string(), "2104-02-29T00:00:00");
    /// ```
    #[must_use]
    pub fn next_after(&self, start: DateTime) -> Option<DateTime> {
        DateTime::found(calendar_schedule_next(&self.sets, start.moment()))
    }

    /// The last date-time before `start` at which the schedule is due; `None` if there is none.
    ///
    /// ```
    /// use proved_calendar::{DateTime, Schedule};
    /// let office: Schedule = "0 9 * * mon-fri".parse().unwrap();
    /// let monday: DateTime = "2024-03-04T00:00:00".parse().unwrap();
    /// assert_eq!(office.prev_before(monday).unwrap().to_string(), "2024-03-01T09:00:00");
    /// ```
    #[must_use]
    pub fn prev_before(&self, start: DateTime) -> Option<DateTime> {
        DateTime::found(calendar_schedule_prev(&self.sets, start.moment()))
    }

    /// Whether the schedule is due at `moment`, which it is never within a minute.
    ///
    /// ```
    /// use proved_calendar::{DateTime, Schedule};
    /// let office: Schedule = "0 9 * * mon-fri".parse().unwrap();
    /// let due: DateTime = "2024-03-01T09:00:00".parse().unwrap();
    /// assert!(office.is_due(due) && !office.is_due("2024-03-01T09:00:30".parse().unwrap()));
    /// ```
    #[must_use]
    pub fn is_due(&self, moment: DateTime) -> bool {
        calendar_schedule_is_due(&self.sets, moment.moment())
    }

    /// The sets as the library takes them.
    #[cfg(feature = "alloc")]
    pub(crate) const fn sets(&self) -> &Sets {
        &self.sets
    }

    /// The date-times after `start` at which the schedule is due, in order.
    ///
    /// ```
    /// use proved_calendar::{DateTime, Schedule};
    /// let schedule: Schedule = "30 4 1,15 * fri".parse().unwrap();
    /// let start: DateTime = "2024-02-09T04:30:00".parse().unwrap();
    /// let days: Vec<u32> = schedule.after(start).take(3).map(|it| it.date().day()).collect();
    /// assert_eq!(days, [15, 16, 23]);
    /// ```
    #[must_use]
    pub fn after(&self, start: DateTime) -> ScheduleTimes {
        ScheduleTimes::new(*self, start.moment(), LAST_MOMENT)
    }

    /// The date-times after `start`, up to `until`, which counts, at which the schedule is due, in order.
    ///
    /// ```
    /// use proved_calendar::{DateTime, Schedule};
    /// let hourly: Schedule = "@hourly".parse().unwrap();
    /// let start: DateTime = "2024-02-29T00:00:00".parse().unwrap();
    /// assert_eq!(hourly.between(start, "2024-03-01T00:00:00".parse().unwrap()).count(), 24);
    /// ```
    #[must_use]
    pub fn between(&self, start: DateTime, until: DateTime) -> ScheduleTimes {
        ScheduleTimes::new(*self, start.moment(), until.moment())
    }
}

impl FromStr for Schedule {
    type Err = TextError;

    /// ```
    /// use proved_calendar::Schedule;
    /// let wrong = "0 25 * * *".parse::<Schedule>().unwrap_err();
    /// assert_eq!(wrong.to_string(), "hour, byte 2: a number that is out of range");
    /// ```
    fn from_str(text: &str) -> Result<Schedule, TextError> {
        let (mut sets, mut fault) = (Sets([0; 10]), Fault::NONE);
        // SAFETY: the text has as many bytes as its length says.
        let is_read =
            unsafe { calendar_schedule_read(text.as_ptr(), text.len(), &mut sets, &mut fault) };
        if is_read {
            Ok(Schedule { sets })
        } else {
            Err(TextError {
                fault,
                kind: Kind::Schedule,
            })
        }
    }
}

/// No date-time.
const NO_MOMENT: Moment = Moment {
    seconds: 0,
    nanos: NO_NANOS,
};

/// The last second of the calendar.
const LAST_MOMENT: Moment = Moment {
    seconds: 8_210_266_876_799,
    nanos: 0,
};

/// The date-times at which a [`Schedule`] is due, in order.
///
/// ```
/// use proved_calendar::{Date, Schedule};
/// let never: Schedule = "0 0 30 2 *".parse().unwrap();
/// assert_eq!(never.after(Date::UNIX_EPOCH.at(0, 0, 0, 0).unwrap()).next(), None);
/// ```
#[derive(Clone, Debug)]
pub struct ScheduleTimes {
    schedule: Schedule,
    /// The last one that was found.
    last: Moment,
    until: Moment,
    found: [Moment; AT_ONCE],
    /// How many of those that were found are there, and how many were given.
    count: usize,
    given: usize,
    /// How many are found next. It begins with one, as who wants one should not wait for more.
    room: usize,
}

impl ScheduleTimes {
    /// Those after a moment, up to another.
    fn new(schedule: Schedule, start: Moment, until: Moment) -> ScheduleTimes {
        ScheduleTimes {
            schedule,
            last: start,
            until,
            found: [NO_MOMENT; AT_ONCE],
            count: 0,
            given: 0,
            room: 1,
        }
    }

    /// Finds the next ones, if there can be more.
    fn refill(&mut self) {
        let is_end = self.given > 0 && self.count < self.room;
        self.room = if self.given > 0 {
            AT_ONCE.min(4 * self.room)
        } else {
            self.room
        };
        self.given = 0;
        self.count = if is_end {
            0
        } else {
            let (out, room) = (self.found.as_mut_ptr(), self.room);
            // SAFETY: there are at least so many elements.
            unsafe { calendar_schedule_due(&self.schedule.sets, self.last, self.until, out, room) }
        };
    }
}

impl Iterator for ScheduleTimes {
    type Item = DateTime;

    fn next(&mut self) -> Option<DateTime> {
        if self.given == self.count {
            self.refill();
        }
        let moment = *self.found[..self.count].get(self.given)?;
        self.given += 1;
        self.last = moment;
        DateTime::found(moment)
    }
}

impl FusedIterator for ScheduleTimes {}
