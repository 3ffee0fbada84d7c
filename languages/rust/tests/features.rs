//! Values of serde, chrono and time, and back.

use proved_calendar::{Date, DateTime, Duration, Weekday};
use serde::de::value::{Error, StrDeserializer};
use serde::de::IntoDeserializer;
use serde::{Deserialize, Serialize};

/// The longest duration, in nanoseconds.
const LONGEST: i128 = i64::MAX as i128 * 1_000_000;

/// What serde makes of a value whose form is a text.
struct Written<T>(T);

impl<T: Serialize> std::fmt::Display for Written<T> {
    fn fmt(&self, f: &mut std::fmt::Formatter<'_>) -> std::fmt::Result {
        self.0.serialize(f)
    }
}

fn read<'de, T: Deserialize<'de>>(text: &'de str) -> Result<T, Error> {
    let deserializer: StrDeserializer<'de, Error> = text.into_deserializer();
    T::deserialize(deserializer)
}

fn nanoseconds(count: i128) -> Duration {
    Duration::from_nanoseconds(count).unwrap()
}

/// Date-times at the ends, around 1970 and in leap seconds.
fn date_times() -> Vec<DateTime> {
    let numbers = [
        (-8_334_601_228_800, 0),
        (-1, 999_999_999),
        (0, 0),
        (1_483_228_799, 1_000_000_000),
        (1_483_228_799, 1_999_999_999),
        (1_709_208_000, 250_000_000),
        (8_210_266_876_799, 999_999_999),
    ];
    let found = numbers.map(|(seconds, nanos)| DateTime::from_seconds(seconds, nanos).unwrap());
    found.into()
}

#[test]
fn texts_by_serde() {
    for moment in date_times() {
        assert_eq!(Written(moment).to_string(), moment.to_string());
        assert_eq!(read(&moment.to_string()), Ok(moment));
        assert_eq!(
            Written(moment.date()).to_string(),
            moment.date().to_string()
        );
        assert_eq!(read(&moment.date().to_string()), Ok(moment.date()));
    }
    assert_eq!(read("-PT1.5S"), Ok(nanoseconds(-1_500_000_000)));
    assert_eq!(Written(nanoseconds(-1_500_000_000)).to_string(), "-PT1.5S");
    assert_eq!(read("Thu"), Ok(Weekday::Thu));
    assert_eq!(Written(Weekday::Thu).to_string(), "Thu");
    let refused = read::<Date>("2024-02-30").unwrap_err().to_string();
    assert_eq!(
        refused,
        "invalid value: string \"2024-02-30\", expected the text of a date"
    );
    assert!(
        read::<DateTime>("2024-02-29").is_err()
            && read::<Duration>("1").is_err()
            && read::<Weekday>("T").is_err()
    );
}

#[test]
fn texts_of_the_module_chrono() {
    use proved_calendar::chrono::{
        DateTime, FixedOffset, Month, NaiveDate, NaiveDateTime, NaiveTime, Utc, Weekday,
    };
    fn compare<T: Serialize + for<'a> Deserialize<'a> + PartialEq + std::fmt::Debug>(
        value: T,
        text: &str,
    ) {
        assert_eq!(Written(&value).to_string(), text);
        assert_eq!(read(text), Ok(value));
        assert!(read::<T>("x").is_err());
    }
    let date = NaiveDate::from_ymd_opt(2016, 12, 31).unwrap();
    let time = NaiveTime::from_hms_milli_opt(23, 59, 59, 1_500).unwrap();
    compare(date, "2016-12-31");
    compare(time, "23:59:60.500");
    compare::<NaiveDateTime>(date.and_time(time), "2016-12-31T23:59:60.500");
    let instant: DateTime<Utc> = date.and_time(time).and_utc();
    compare(instant, "2016-12-31T23:59:60.500Z");
    let east = FixedOffset::east_opt(3_600).unwrap();
    compare(
        instant.with_timezone(&east),
        "2017-01-01T00:59:60.500+01:00",
    );
    compare(Weekday::Sat, "Sat");
    compare(Month::May, "May");
}

#[test]
fn times_of_the_machine() {
    use proved_calendar::chrono::{DateTime, SecondsFormat, TimeDelta, Utc};
    use std::time::{Duration, SystemTime};
    let now = SystemTime::now();
    let later = Utc::now() - DateTime::<Utc>::from(now);
    assert!(later >= TimeDelta::zero() && later < TimeDelta::minutes(10));
    let early = SystemTime::UNIX_EPOCH - Duration::from_millis(1_500);
    let instant = DateTime::<Utc>::from(early);
    assert_eq!(instant.to_rfc3339(), "1969-12-31T23:59:58.500+00:00");
    assert_eq!(
        instant.to_rfc3339_opts(SecondsFormat::Nanos, true),
        "1969-12-31T23:59:58.500000000Z"
    );
    assert_eq!(instant.to_rfc2822(), "Wed, 31 Dec 1969 23:59:58 +0000");
    assert_eq!(
        (
            SystemTime::from(instant),
            SystemTime::from(DateTime::<Utc>::from(now))
        ),
        (early, now)
    );
}

#[test]
fn example_with_chrono() {
    use chrono::NaiveDate;
    let theirs = NaiveDate::from(Date::from_ymd(2024, 2, 29).unwrap());
    let ours = Date::try_from(theirs).unwrap();
    assert_eq!(ours.to_string(), "2024-02-29");
}

#[test]
fn values_of_chrono() {
    use chrono::{Datelike, NaiveDate, NaiveDateTime, Timelike};
    for moment in date_times() {
        let theirs = NaiveDateTime::from(moment);
        assert_eq!(
            (theirs.year(), theirs.month(), theirs.day()),
            (
                moment.date().year(),
                moment.date().month(),
                moment.date().day()
            )
        );
        assert_eq!(
            (theirs.num_seconds_from_midnight(), theirs.nanosecond()),
            (moment.second_of_day(), moment.nanos())
        );
        assert_eq!(DateTime::try_from(theirs), Ok(moment));
        assert_eq!(
            Date::try_from(NaiveDate::from(moment.date())),
            Ok(moment.date())
        );
    }
    let last = NaiveDate::from(Date::MAX);
    assert!(last
        .succ_opt()
        .map_or(true, |it| Date::try_from(it).is_err()));
    let leap = NaiveDate::from(Date::UNIX_EPOCH)
        .and_hms_nano_opt(0, 0, 0, 0)
        .unwrap()
        .with_nanosecond(1_500_000_000)
        .unwrap();
    assert_eq!(
        DateTime::try_from(leap).unwrap_err().to_string(),
        "there is no such date-time"
    );
    for count in [0, 1, -1, -1_500_000_000, LONGEST, -LONGEST, 1 - LONGEST] {
        let theirs = chrono::Duration::from(nanoseconds(count));
        assert_eq!(Duration::try_from(theirs), Ok(nanoseconds(count)));
    }
    assert_eq!(
        chrono::Duration::from(nanoseconds(-1_500_000_000)).num_milliseconds(),
        -1_500
    );
    for weekday in Weekday::ALL {
        assert_eq!(
            chrono::Weekday::from(weekday).number_from_monday(),
            weekday.number()
        );
        assert_eq!(Weekday::from(chrono::Weekday::from(weekday)), weekday);
    }
}

#[test]
fn values_of_time() {
    use time::PrimitiveDateTime;
    let leap_day = Date::from_ymd(2024, 2, 29).unwrap();
    let theirs = time::Date::try_from(leap_day).unwrap();
    assert_eq!(
        (theirs.year(), u8::from(theirs.month()), theirs.day()),
        (2024, 2, 29)
    );
    assert_eq!(Date::try_from(theirs), Ok(leap_day));
    assert_eq!(
        time::Date::try_from(Date::MAX).unwrap_err().to_string(),
        "there is no such date"
    );
    let mut found = 0;
    for moment in date_times() {
        let Ok(theirs) = PrimitiveDateTime::try_from(moment) else {
            continue;
        };
        found += 1;
        assert_eq!(theirs.assume_utc().unix_timestamp(), moment.seconds());
        assert_eq!(DateTime::try_from(theirs), Ok(moment));
    }
    assert_eq!(found, 3);
    for count in [0, 1, -1, -1_500_000_000, LONGEST, -LONGEST, 1 - LONGEST] {
        let theirs = time::Duration::from(nanoseconds(count));
        assert_eq!(
            (theirs.whole_nanoseconds(), Duration::try_from(theirs)),
            (count, Ok(nanoseconds(count)))
        );
    }
    assert_eq!(
        Duration::try_from(time::Duration::MAX)
            .unwrap_err()
            .to_string(),
        "there is no such duration"
    );
    for weekday in Weekday::ALL {
        assert_eq!(
            u32::from(time::Weekday::from(weekday).number_from_monday()),
            weekday.number()
        );
        assert_eq!(Weekday::from(time::Weekday::from(weekday)), weekday);
    }
}
