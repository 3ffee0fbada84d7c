//! Calls of `TimeDelta`, which is named `Duration` there.

use crate::words::{duration, next, of_duration, or_none, order, Words};
use chrono::Duration;
use std::panic::{catch_unwind, UnwindSafe};

/// The calls `try_weeks` and its like panic out of range there, where their later forms answer `None`.
pub fn answer(name: &str, words: &mut Words) -> Option<String> {
    let made: fn(i64) -> Duration = match name {
        "MAX" | "max_value" => return Some(of_duration(Some(Duration::max_value()))),
        "zero" => return Some(of_duration(Some(Duration::zero()))),
        "try_weeks" => Duration::weeks,
        "try_days" => Duration::days,
        "try_hours" => Duration::hours,
        "try_minutes" => Duration::minutes,
        "try_seconds" => Duration::seconds,
        "try_milliseconds" => Duration::milliseconds,
        "microseconds" => Duration::microseconds,
        "nanoseconds" => Duration::nanoseconds,
        "MIN" | "min_value" | "new" | "default" => return None,
        _ => return of_one(name, duration(words)?, words),
    };
    let count = next(words)?;
    Some(or_panic(move || made(count)))
}

/// The duration, or `none` where there is a panic in its place.
fn or_panic(made: impl FnOnce() -> Duration + UnwindSafe) -> String {
    of_duration(catch_unwind(made).ok())
}

fn of_one(name: &str, own: Duration, words: &mut Words) -> Option<String> {
    Some(match name {
        "neg" => of_duration(Some(-own)),
        "abs" => of_duration(Some(own.abs())),
        "checked_add" => of_duration(own.checked_add(&duration(words)?)),
        "checked_sub" => of_duration(own.checked_sub(&duration(words)?)),
        "checked_div" => {
            let by: i32 = next(words)?;
            or_panic(move || own / by)
        }
        "cmp" => return order(&own, &duration(words)?),
        _ => return number_of(name, own),
    })
}

fn number_of(name: &str, own: Duration) -> Option<String> {
    let number = match name {
        "num_weeks" => Some(own.num_weeks()),
        "num_days" => Some(own.num_days()),
        "num_hours" => Some(own.num_hours()),
        "num_minutes" => Some(own.num_minutes()),
        "num_seconds" => Some(own.num_seconds()),
        "num_milliseconds" => Some(own.num_milliseconds()),
        "num_microseconds" => own.num_microseconds(),
        "num_nanoseconds" => own.num_nanoseconds(),
        "is_zero" => Some(i64::from(own.is_zero())),
        _ => return None,
    };
    Some(or_none(number.map(|it| [it])))
}
