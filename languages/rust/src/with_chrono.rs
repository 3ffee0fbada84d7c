//! The feature `chrono`: values of that crate, in which the year is counted as here and a leap second has nanoseconds
//! of its own.

use chrono::{Datelike, NaiveDate, NaiveDateTime, NaiveTime, Timelike};

use crate::{ConversionError, Date, DateTime, Duration, Weekday};

const NO_DATE: ConversionError = ConversionError { kind: "date" };
const NO_DATE_TIME: ConversionError = ConversionError { kind: "date-time" };
const NO_DURATION: ConversionError = ConversionError { kind: "duration" };

/// Every date is one of chrono too.
impl From<Date> for NaiveDate {
    fn from(date: Date) -> NaiveDate {
        NaiveDate::from_num_days_from_ce_opt(date.number()).expect("chrono has every date")
    }
}

/// Versions of chrono have a year more at either end.
impl TryFrom<NaiveDate> for Date {
    type Error = ConversionError;

    fn try_from(date: NaiveDate) -> Result<Date, ConversionError> {
        Date::from_number(date.num_days_from_ce()).ok_or(NO_DATE)
    }
}

/// Every date-time is one of chrono too.
impl From<DateTime> for NaiveDateTime {
    fn from(moment: DateTime) -> NaiveDateTime {
        let time =
            NaiveTime::from_num_seconds_from_midnight_opt(moment.second_of_day(), moment.nanos());
        NaiveDate::from(moment.date()).and_time(time.expect("chrono has every time of day"))
    }
}

/// Here a leap second can only follow the last second of a minute.
impl TryFrom<NaiveDateTime> for DateTime {
    type Error = ConversionError;

    fn try_from(moment: NaiveDateTime) -> Result<DateTime, ConversionError> {
        let date = Date::try_from(moment.date()).map_err(|_| NO_DATE_TIME)?;
        let time = moment.time();
        DateTime::new(date, time.num_seconds_from_midnight(), time.nanosecond()).ok_or(NO_DATE_TIME)
    }
}

/// Every duration is one of chrono too.
impl From<Duration> for chrono::Duration {
    fn from(length: Duration) -> chrono::Duration {
        // (both parts have the sign of the whole, so that neither is too long)
        let (millis, nanos) = (
            length.nanoseconds() / 1_000_000,
            length.nanoseconds() % 1_000_000,
        );
        chrono::Duration::milliseconds(millis as i64) + chrono::Duration::nanoseconds(nanos as i64)
    }
}

/// Versions of chrono have a millisecond more the other way.
impl TryFrom<chrono::Duration> for Duration {
    type Error = ConversionError;

    fn try_from(length: chrono::Duration) -> Result<Duration, ConversionError> {
        let rest = length - chrono::Duration::milliseconds(length.num_milliseconds());
        let nanos = i128::from(rest.num_nanoseconds().ok_or(NO_DURATION)?);
        Duration::from_nanoseconds(i128::from(length.num_milliseconds()) * 1_000_000 + nanos)
            .ok_or(NO_DURATION)
    }
}

impl From<Weekday> for chrono::Weekday {
    fn from(weekday: Weekday) -> chrono::Weekday {
        match weekday {
            Weekday::Mon => chrono::Weekday::Mon,
            Weekday::Tue => chrono::Weekday::Tue,
            Weekday::Wed => chrono::Weekday::Wed,
            Weekday::Thu => chrono::Weekday::Thu,
            Weekday::Fri => chrono::Weekday::Fri,
            Weekday::Sat => chrono::Weekday::Sat,
            Weekday::Sun => chrono::Weekday::Sun,
        }
    }
}

impl From<chrono::Weekday> for Weekday {
    fn from(weekday: chrono::Weekday) -> Weekday {
        Weekday::ALL[weekday.num_days_from_monday() as usize]
    }
}
