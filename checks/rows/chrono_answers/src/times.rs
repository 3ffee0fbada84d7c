//! Calls of `NaiveTime`.

use crate::words::{
    duration, is_stray_leap, next, numbers_of_time, of_duration, of_time, order, time, words_of, Words,
};
use chrono::{NaiveTime, Timelike};

pub fn answer(name: &str, words: &mut Words) -> Option<String> {
    let unit = match name {
        "default" => return Some(of_time(Some(NaiveTime::default()))),
        "from_num_seconds_from_midnight_opt" => return of_midnight(next(words)?, next(words)?),
        "from_hms_opt" => return Some(of_time(NaiveTime::from_hms_opt(next(words)?, next(words)?, next(words)?))),
        "from_hms_milli_opt" => 1_000_000,
        "from_hms_micro_opt" => 1_000,
        "from_hms_nano_opt" => 1,
        _ => return of_one(name, time(words)?, words),
    };
    let (hour, minute, second) = (next(words)?, next(words)?, next(words)?);
    let fraction = next(words)?;
    if is_stray_leap(second, fraction, unit) {
        return None;
    }
    Some(of_time(match unit {
        1_000_000 => NaiveTime::from_hms_milli_opt(hour, minute, second, fraction),
        1_000 => NaiveTime::from_hms_micro_opt(hour, minute, second, fraction),
        _ => NaiveTime::from_hms_nano_opt(hour, minute, second, fraction),
    }))
}

fn of_midnight(second: u32, fraction: u32) -> Option<String> {
    if is_stray_leap(second, fraction, 1) {
        return None;
    }
    Some(of_time(NaiveTime::from_num_seconds_from_midnight_opt(second, fraction)))
}

fn of_one(name: &str, own: NaiveTime, words: &mut Words) -> Option<String> {
    let (moved, seconds) = match name {
        "fields" => return Some(words_of(fields(&own))),
        "hour12" => return Some(words_of(hour12(&own))),
        "overflowing_add_signed" => own.overflowing_add_signed(duration(words)?),
        "overflowing_sub_signed" => own.overflowing_sub_signed(duration(words)?),
        "signed_duration_since" => return Some(of_duration(Some(own.signed_duration_since(time(words)?)))),
        "cmp" => return order(&own, &time(words)?),
        _ => return Some(of_time(with_field(name, &own, words)?)),
    };
    let [second, fraction] = numbers_of_time(&moved);
    Some(words_of([second, fraction, seconds]))
}

/// A time, or what has one, with fields replaced.
pub fn with_field<T: Timelike>(name: &str, own: &T, words: &mut Words) -> Option<Option<T>> {
    Some(match name {
        "with_hour" => own.with_hour(next(words)?),
        "with_minute" => own.with_minute(next(words)?),
        "with_second" => own.with_second(next(words)?),
        "with_nanosecond" => own.with_nanosecond(next(words)?),
        "with_each" => {
            let (hour, minute, second) = (next(words)?, next(words)?, next(words)?);
            let nano = next(words)?;
            own.with_hour(hour)
                .and_then(|it| it.with_minute(minute))
                .and_then(|it| it.with_second(second))
                .and_then(|it| it.with_nanosecond(nano))
        }
        _ => return None,
    })
}

fn fields(own: &NaiveTime) -> [i64; 4] {
    [own.hour(), own.minute(), own.second(), own.nanosecond()].map(i64::from)
}

/// Whether it is past noon, and the hour from 1 to 12.
pub fn hour12(own: &impl Timelike) -> [i64; 2] {
    let (is_past_noon, hour) = own.hour12();
    [i64::from(is_past_noon), i64::from(hour)]
}
