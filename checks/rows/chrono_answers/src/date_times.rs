//! Calls of `NaiveDateTime`.

use crate::words::{date_time, duration, next, numbers_of_time, of_date_time, of_duration, order, words_of, Words};
use crate::{dates, times};
use chrono::{Datelike, Days, Months, NaiveDateTime};

pub fn answer(name: &str, words: &mut Words) -> Option<String> {
    match name {
        "MIN" | "MAX" | "from" => None,
        "default" => Some(of_date_time(Some(NaiveDateTime::default()))),
        _ => of_one(name, date_time(words)?, words),
    }
}

fn of_one(name: &str, own: NaiveDateTime, words: &mut Words) -> Option<String> {
    let moved = match name {
        "checked_add_signed" => own.checked_add_signed(duration(words)?),
        "checked_sub_signed" => own.checked_sub_signed(duration(words)?),
        "checked_add_months" => own.checked_add_months(Months::new(next(words)?)),
        "checked_sub_months" => own.checked_sub_months(Months::new(next(words)?)),
        "checked_add_days" => own.checked_add_days(Days::new(next(words)?)),
        "checked_sub_days" => own.checked_sub_days(Days::new(next(words)?)),
        "signed_duration_since" => return Some(of_duration(Some(own.signed_duration_since(date_time(words)?)))),
        "cmp" => return order(&own, &date_time(words)?),
        "with_hour" | "with_minute" | "with_second" | "with_nanosecond" | "with_each" => {
            times::with_field(name, &own, words)?
        }
        _ if name.starts_with("with_") => dates::with_field(name, &own, words)?,
        "date_and_time" => return Some(date_and_time(own)),
        "time" => return Some(time(own)),
        _ => return dates::read(name, &own),
    };
    Some(of_date_time(moved))
}

fn date_and_time(own: NaiveDateTime) -> String {
    let [second, fraction] = numbers_of_time(&own.time());
    words_of([i64::from(own.date().num_days_from_ce()), second, fraction])
}

fn time(own: NaiveDateTime) -> String {
    let ([is_past_noon, hour], [second, fraction]) = (times::hour12(&own), numbers_of_time(&own));
    words_of([is_past_noon, hour, second, fraction])
}
