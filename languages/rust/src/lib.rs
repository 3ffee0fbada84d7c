#![doc = include_str!("../README.md")]
#![no_std]
#![warn(missing_docs)]

#[cfg(feature = "alloc")]
extern crate alloc;
#[cfg(feature = "std")]
extern crate std;

mod bounded_calendar;
mod bounded_columns;
mod business;
#[cfg(feature = "alloc")]
mod calendar_text;
mod calls;
pub mod chrono;
pub mod columns;
mod date;
mod date_range;
mod date_time;
mod duration;
mod layer_calls;
mod parse_error;
#[cfg(feature = "alloc")]
mod pattern;
#[cfg(feature = "alloc")]
mod rule;
#[cfg(feature = "alloc")]
mod rule_set;
mod schedule;
mod text_error;
#[cfg(feature = "alloc")]
mod timed_schedule;
mod weekday;
mod weekday_set;
#[cfg(feature = "chrono")]
mod with_chrono;
#[cfg(feature = "serde")]
mod with_serde;
#[cfg(feature = "time")]
mod with_time;

#[cfg(feature = "alloc")]
mod zone;

#[cfg(any(feature = "chrono", feature = "time"))]
mod conversion_error;

pub use bounded_calendar::{BoundedCalendar, YearsError};
pub use business::{
    easter, BusinessCalendar, DayCount, Fraction, HolidaysError, KnownCalendar, Roll,
};
#[cfg(feature = "alloc")]
pub use calendar_text::CalendarText;
#[cfg(any(feature = "chrono", feature = "time"))]
pub use conversion_error::ConversionError;
pub use date::{days_in_month, is_leap_year, Date};
pub use date_range::DateRange;
pub use date_time::DateTime;
pub use duration::Duration;
pub use parse_error::ParseError;
#[cfg(feature = "alloc")]
pub use pattern::Pattern;
#[cfg(feature = "alloc")]
pub use rule::{Rule, RuleDays};
#[cfg(feature = "alloc")]
pub use rule_set::{RuleSet, RuleSetDays};
pub use schedule::{Schedule, ScheduleTimes};
pub use text_error::TextError;
#[cfg(feature = "alloc")]
pub use timed_schedule::{Dialect, TimedSchedule};
pub use weekday::Weekday;
pub use weekday_set::{WeekdaySet, Weekdays};
#[cfg(feature = "alloc")]
pub use zone::{LocalOffsets, Zone, ZonedDateTime};
