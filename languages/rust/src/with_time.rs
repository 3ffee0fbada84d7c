//! The feature `time`: values of that crate, which has the years from -9999 to 9999 (more with its own `large-dates`)
//! and no leap seconds.

use time::{PrimitiveDateTime, Time};

use crate::{ConversionError, Date, DateTime, Duration, Weekday};

/// The Julian day, as the crate `time` has it, before 1 January of year 1.
const JULIAN_DAY_0: i32 = 1_721_425;

const NO_DATE: ConversionError = ConversionError { kind: "date" };
const NO_DATE_TIME: ConversionError = ConversionError { kind: "date-time" };
const NO_DURATION: ConversionError = ConversionError { kind: "duration" };

impl TryFrom<Date> for time::Date {
    type Error = ConversionError;

    fn try_from(date: Date) -> Result<time::Date, ConversionError> {
        time::Date::from_julian_day(date.number() + JULIAN_DAY_0).map_err(|_| NO_DATE)
    }
}

impl TryFrom<time::Date> for Date {
    type Error = ConversionError;

    fn try_from(date: time::Date) -> Result<Date, ConversionError> {
        Date::from_number(date.to_julian_day() - JULIAN_DAY_0).ok_or(NO_DATE)
    }
}

/// A leap second is no date-time of the crate `time`.
impl TryFrom<DateTime> for PrimitiveDateTime {
    type Error = ConversionError;

    fn try_from(moment: DateTime) -> Result<PrimitiveDateTime, ConversionError> {
        let date = time::Date::try_from(moment.date()).map_err(|_| NO_DATE_TIME)?;
        let [hour, minute, second] =
            [moment.hour(), moment.minute(), moment.second()].map(|it| it as u8);
        let time = Time::from_hms_nano(hour, minute, second, moment.nanosecond());
        Ok(PrimitiveDateTime::new(
            date,
            time.map_err(|_| NO_DATE_TIME)?,
        ))
    }
}

impl TryFrom<PrimitiveDateTime> for DateTime {
    type Error = ConversionError;

    fn try_from(moment: PrimitiveDateTime) -> Result<DateTime, ConversionError> {
        let date = Date::try_from(moment.date()).map_err(|_| NO_DATE_TIME)?;
        let [hour, minute, second] =
            [moment.hour(), moment.minute(), moment.second()].map(u32::from);
        date.at(hour, minute, second, moment.nanosecond())
            .ok_or(NO_DATE_TIME)
    }
}

/// Every duration is one of the crate `time` too.
impl From<Duration> for time::Duration {
    fn from(length: Duration) -> time::Duration {
        time::Duration::seconds(length.seconds())
            + time::Duration::nanoseconds(i64::from(length.nanos()))
    }
}

impl TryFrom<time::Duration> for Duration {
    type Error = ConversionError;

    fn try_from(length: time::Duration) -> Result<Duration, ConversionError> {
        Duration::from_nanoseconds(length.whole_nanoseconds()).ok_or(NO_DURATION)
    }
}

impl From<Weekday> for time::Weekday {
    fn from(weekday: Weekday) -> time::Weekday {
        match weekday {
            Weekday::Mon => time::Weekday::Monday,
            Weekday::Tue => time::Weekday::Tuesday,
            Weekday::Wed => time::Weekday::Wednesday,
            Weekday::Thu => time::Weekday::Thursday,
            Weekday::Fri => time::Weekday::Friday,
            Weekday::Sat => time::Weekday::Saturday,
            Weekday::Sun => time::Weekday::Sunday,
        }
    }
}

impl From<time::Weekday> for Weekday {
    fn from(weekday: time::Weekday) -> Weekday {
        Weekday::ALL[weekday.number_days_from_monday() as usize]
    }
}
