//! The words of a row as chrono's values, and these as words.

use chrono::{Datelike, Duration, NaiveDate, NaiveDateTime, NaiveTime, Timelike, Weekday};
use std::str::{FromStr, SplitAsciiWhitespace};

pub const NANOS: i64 = 1_000_000_000;
pub const WEEK: [Weekday; 7] =
    [Weekday::Mon, Weekday::Tue, Weekday::Wed, Weekday::Thu, Weekday::Fri, Weekday::Sat, Weekday::Sun];

/// The words of a call after its name, from the first that is not read yet.
pub type Words<'a> = SplitAsciiWhitespace<'a>;

pub fn next<T: FromStr>(words: &mut Words) -> Option<T> {
    words.next()?.parse().ok()
}

pub fn weekday(words: &mut Words) -> Option<Weekday> {
    WEEK.get(next::<usize>(words)?.checked_sub(1)?).copied()
}

/// A duration of seconds rounded down, which alone may lie below all durations, and nanoseconds.
pub fn duration(words: &mut Words) -> Option<Duration> {
    let (seconds, nanos): (i64, i64) = (next(words)?, next(words)?);
    Some(if seconds < 0 {
        Duration::seconds(seconds + 1) - Duration::nanoseconds(NANOS - nanos)
    } else {
        Duration::seconds(seconds) + Duration::nanoseconds(nanos)
    })
}

pub fn time(words: &mut Words) -> Option<NaiveTime> {
    NaiveTime::from_num_seconds_from_midnight_opt(next(words)?, 0)?.with_nanosecond(next(words)?)
}

pub fn date(words: &mut Words) -> Option<NaiveDate> {
    NaiveDate::from_num_days_from_ce_opt(next(words)?)
}

pub fn date_time(words: &mut Words) -> Option<NaiveDateTime> {
    Some(date(words)?.and_time(time(words)?))
}

/// A leap fraction at another second than 59, which later versions refuse where a time is made.
pub fn is_stray_leap(second: u32, fraction: u32, unit: i64) -> bool {
    let nanos = i64::from(fraction) * unit;
    second % 60 != 59 && (NANOS..2 * NANOS).contains(&nanos)
}

/// The numbers as the words of an answer.
pub fn words_of<const N: usize>(numbers: [i64; N]) -> String {
    numbers.map(|it| it.to_string()).join(" ")
}

/// The numbers, or `none` where there are none.
pub fn or_none<const N: usize>(numbers: Option<[i64; N]>) -> String {
    numbers.map_or("none".to_string(), words_of)
}

/// How the first compares with the second.
pub fn order<T: PartialOrd>(own: &T, other: &T) -> Option<String> {
    Some(words_of([own.partial_cmp(other)? as i64]))
}

/// The date's number, if it is of the years of later versions.
fn day_of(date: NaiveDate) -> Option<i64> {
    (-262_143..=262_142).contains(&date.year()).then(|| i64::from(date.num_days_from_ce()))
}

pub fn of_date(date: Option<NaiveDate>) -> String {
    or_none(date.and_then(day_of).map(|day| [day]))
}

pub fn of_dates(first: NaiveDate, last: NaiveDate) -> String {
    or_none(day_of(first).and_then(|first| Some([first, day_of(last)?])))
}

pub fn numbers_of_time(time: &impl Timelike) -> [i64; 2] {
    [i64::from(time.num_seconds_from_midnight()), i64::from(time.nanosecond())]
}

pub fn of_time(time: Option<NaiveTime>) -> String {
    or_none(time.map(|time| numbers_of_time(&time)))
}

pub fn of_date_time(date_time: Option<NaiveDateTime>) -> String {
    or_none(date_time.and_then(|it| {
        let [second, fraction] = numbers_of_time(&it);
        Some([day_of(it.date())?, second, fraction])
    }))
}

pub fn of_duration(duration: Option<Duration>) -> String {
    let least = -Duration::max_value();
    or_none(duration.filter(|it| *it >= least).and_then(|it| {
        let seconds = it.num_seconds();
        let past = (it - Duration::seconds(seconds)).num_nanoseconds()?;
        Some([seconds - i64::from(past < 0), past.rem_euclid(NANOS)])
    }))
}
