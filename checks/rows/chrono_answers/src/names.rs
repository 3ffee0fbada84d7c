//! Calls of `Weekday`, `Month` and `Months`.

use crate::words::{next, or_none, order, weekday, words_of, Words};
use chrono::{Month, Months, Weekday};
use num_traits::FromPrimitive;

pub fn of_weekday(name: &str, words: &mut Words) -> Option<String> {
    let made = match name {
        "from_u32" => Weekday::from_u32(next(words)?),
        "from_u64" => Weekday::from_u64(next(words)?),
        "from_i64" => Weekday::from_i64(next(words)?),
        "succ" => Some(weekday(words)?.succ()),
        "pred" => Some(weekday(words)?.pred()),
        _ => return number_of(name, weekday(words)?),
    };
    Some(or_none(made.map(|day| [i64::from(day.number_from_monday())])))
}

fn number_of(name: &str, own: Weekday) -> Option<String> {
    let number = match name {
        "number_from_monday" => own.number_from_monday(),
        "number_from_sunday" => own.number_from_sunday(),
        "num_days_from_monday" => own.num_days_from_monday(),
        "num_days_from_sunday" => own.num_days_from_sunday(),
        _ => return None,
    };
    Some(words_of([i64::from(number)]))
}

/// `from_u64` and `from_i64` look at 32 bits of the number alone.
pub fn of_month(name: &str, words: &mut Words) -> Option<String> {
    let named = Month::from_u32(next(words)?);
    let month = match name {
        "from_u32" => named,
        "succ" => Some(named?.succ()),
        "pred" => Some(named?.pred()),
        "number_from_month" => Some(named?),
        "name" => return Some(named?.name().to_string()),
        _ => return None,
    };
    Some(or_none(month.map(|it| [i64::from(it.number_from_month())])))
}

pub fn of_months(name: &str, words: &mut Words) -> Option<String> {
    match name {
        "cmp" => order(&Months::new(next(words)?), &Months::new(next(words)?)),
        _ => None,
    }
}
